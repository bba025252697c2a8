//! A round of an utterance, beside the same plain calls in their order.
use super::call::{lend, Call};
use super::record::{bits, forge};
use super::rooms::{same32, same_rooms};
use super::silence::Silence;
use super::stream::Stream;
use super::{DecoderFrame, InputFrame, IvectorStream, RoundAnswer, RoundOutcome, SilenceWeighting, CANARY, MORE};
use crate::machine::{Alter, SAlter};
use crate::trigger::{decoded, Utterance};
use shofrakin::sys as c;

/// What a round is lent beside a stream and a table: the lists for the changes, and the vector, each with places past what is lent.
#[derive(Clone, Debug, PartialEq)]
pub struct Lists {
    pub delta_frames: Vec<usize>,
    pub delta_weights: Vec<u32>,
    pub out: Vec<u32>,
}

/// What the lists hold before a round, and past its answers' ends.
pub const UNTOUCHED: u32 = 0xDEAD_BEEF;

impl Lists {
    fn new(u: &Utterance) -> Lists {
        let [lf, lw, m] = u.lent.map(|n| n as usize + MORE);
        Lists { delta_frames: vec![CANARY; lf], delta_weights: vec![UNTOUCHED; lw], out: vec![UNTOUCHED; m] }
    }
}

fn us(v: &[u64]) -> Vec<usize> {
    v.iter().map(|x| *x as usize).collect()
}

/// The round by the library's own call: stream, table and lists are those that it leaves.
#[rustfmt::skip]
fn round(s: &mut Stream, rec: IvectorStream, q: &mut Silence, given: SilenceWeighting, u: &Utterance, l: &mut Lists) -> RoundAnswer {
    let (t, z, n) = (&s.model.tables, &mut s.rooms, q.rec.table);
    let (starts, ends) = (us(&u.starts), us(&u.ends));
    unsafe {
        c::shofrakin_round(
            rec, given, u.start as usize, u.frames.as_ptr(), u.frames.len(),
            u.phones.as_ptr(), u.phones.len(), starts.as_ptr(), starts.len(), ends.as_ptr(), ends.len(),
            t.gconsts.all.as_ptr(), t.gconsts.len, t.means_invvars_t.all.as_ptr(), t.means_invvars_t.len,
            t.inv_vars_t.all.as_ptr(), t.inv_vars_t.len, t.sigma_inv_m.all.as_ptr(), t.sigma_inv_m.len,
            t.u.all.as_ptr(), t.u.len, t.lda_t.all.as_ptr(), t.lda_t.len,
            t.lda_offset.all.as_ptr(), t.lda_offset.len, t.global_mean_stats.all.as_ptr(), t.global_mean_stats.len,
            z.frames.all.as_mut_ptr(), z.frames.len, z.rows.all.as_mut_ptr(), z.rows.len,
            z.waiting_frames.all.as_mut_ptr(), z.waiting_frames.len, z.waiting_weights.all.as_mut_ptr(), z.waiting_weights.len,
            z.cmvn_stats.all.as_mut_ptr(), z.cmvn_stats.len, z.linear.all.as_mut_ptr(), z.linear.len,
            z.quadratic.all.as_mut_ptr(), z.quadratic.len, z.current.all.as_mut_ptr(), z.current.len,
            z.scratch.all.as_mut_ptr(), z.scratch.len,
            q.phones.as_ptr(), q.phones.len(),
            q.known.as_mut_ptr(), n, q.is_silence.as_mut_ptr(), n, q.current_weight.as_mut_ptr(), n,
            l.delta_frames.as_mut_ptr(), u.lent[0] as usize, l.delta_weights.as_mut_ptr().cast(), u.lent[1] as usize,
            l.out.as_mut_ptr(), u.lent[2] as usize, u.voices as usize, u.enrolled.as_ptr().cast(), u.enrolled.len(), u.limit,
        )
    }
}

/// The round as the same plain calls in their order.
#[rustfmt::skip]
fn plain_round(s: &mut Stream, mut stream: IvectorStream, q: &mut Silence, mut silence: SilenceWeighting, u: &Utterance, l: &mut Lists) -> RoundAnswer {
    let t = s.model.tables.clone();
    let (n, [lf, lw, m]) = (q.rec.table, u.lent.map(|n| n as usize));
    let (starts, ends) = (us(&u.starts), us(&u.ends));
    let end = |refusal: usize, step: usize| RoundOutcome { refusal, step, full: false, found: false, index: 0, distance: 0.0 };
    let mut changes = 0;
    let outcome = 'ended: {
        let mut call = |rec: &mut IvectorStream, mut call: Call| lend(&t, rec, &mut s.rooms, &mut call, &[0; 17]).refusal;
        let k = call(&mut stream, Call::Forget(u.start as usize));
        if k != 0 {
            break 'ended end(k, 1);
        }
        for x in u.frames.chunks(stream.info.dims.base_dim) {
            let k = call(&mut stream, Call::Push(x));
            if k != 0 {
                break 'ended end(k, 2);
            }
        }
        let a = unsafe {
            c::shofrakin_compute_current_traceback(
                &mut silence, q.phones.as_ptr(), q.phones.len(),
                q.known.as_mut_ptr(), n, q.is_silence.as_mut_ptr(), n, q.current_weight.as_mut_ptr(), n,
                u.phones.as_ptr(), u.phones.len(), starts.as_ptr(), starts.len(), ends.as_ptr(), ends.len(),
                DecoderFrame { number: decoded(u) as usize },
            )
        };
        if a.refusal != 0 {
            break 'ended end(a.refusal, 3);
        }
        let ready = unsafe { c::shofrakin_num_frames_ready(&stream) };
        let a = unsafe {
            c::shofrakin_get_delta_weights(
                &mut silence, q.known.as_mut_ptr(), n, q.is_silence.as_mut_ptr(), n, q.current_weight.as_mut_ptr(), n,
                InputFrame { number: ready }, InputFrame { number: u.start as usize },
                l.delta_frames.as_mut_ptr(), lf, l.delta_weights.as_mut_ptr().cast(), lw,
            )
        };
        changes = a.changes;
        if a.refusal != 0 {
            break 'ended end(a.refusal, 4);
        }
        let w: Vec<f32> = l.delta_weights[..changes].iter().map(|b| f32::from_bits(*b)).collect();
        let k = call(&mut stream, Call::Change(&l.delta_frames[..changes], &w));
        if k != 0 {
            break 'ended end(k, 5);
        }
        if ready == 0 {
            break 'ended end(0, 0);
        }
        let k = call(&mut stream, Call::Fetch(ready - 1, &mut l.out[..m]));
        if k != 0 {
            break 'ended end(k, 6);
        }
        let dim = unsafe { c::shofrakin_ivector_dim(&stream) };
        let v = unsafe { c::shofrakin_nearest_voice(dim, l.out.as_ptr(), m, u.voices as usize, u.enrolled.as_ptr().cast(), u.enrolled.len(), u.limit) };
        if v.refusal != 0 {
            break 'ended end(v.refusal, 7);
        }
        RoundOutcome { full: true, found: v.found, index: v.index, distance: v.distance, ..end(0, 0) }
    };
    RoundAnswer { outcome, changes, stream, silence }
}

/// A round, with forged parts if any, against the same plain calls on copies. What it answers and leaves in the lists, and what is wrong: records,
/// rooms, table and lists are those that the plain calls leave.
pub fn rounded(s: &mut Stream, q: &mut Silence, u: &Utterance, al: &[Alter], sal: &[SAlter]) -> (RoundAnswer, Lists, Option<String>) {
    let (rec, given) = (forge(s.rec, al).rec, q.forged(sal, 0).0);
    let (mut plain_s, mut plain_q, mut plain_l) = (s.clone(), q.clone(), Lists::new(u));
    let want = plain_round(&mut plain_s, rec, &mut plain_q, given, u, &mut plain_l);
    let mut l = Lists::new(u);
    let a = round(s, rec, q, given, u, &mut l);
    let mut wrong = None;
    let mut is = |ok: bool, what: &str| {
        if !ok {
            wrong = Some(format!("a round leaves {what} than the plain calls"));
        }
    };
    let settings = |p: &SilenceWeighting| (p.silence_weight.to_bits(), p.subsampling, p.phones, p.table, p.length.number);
    is(a.outcome == want.outcome && a.changes == want.changes, "another answer");
    is(bits(&a.stream) == bits(&want.stream) && settings(&a.silence) == settings(&want.silence), "other records");
    is(same_rooms(&s.rooms, &plain_s.rooms), "other rooms");
    is(q.known == plain_q.known && q.is_silence == plain_q.is_silence && same32(&q.current_weight, &plain_q.current_weight), "another table");
    is(l == plain_l, "other lists or another vector");
    // forged records are not kept: such a round is refused at its first call on them
    if al.is_empty() {
        s.rec = a.stream;
    }
    if sal.is_empty() {
        q.rec = a.silence;
    }
    (a, l, wrong)
}
