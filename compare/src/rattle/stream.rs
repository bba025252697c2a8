//! A stream: a fresh one, calls with forged parts or to be timed, and what it holds.
use super::call::{lend, Call};
use super::model::Model;
use super::record::{bits, forge, Forged};
use super::rooms::{past_end, same_rooms, Rooms};
use super::{EstimateLengths, IvectorStream, RingLengths, RoomLengths, StreamAnswer};
use crate::machine::Alter;
use shofrakin::sys as c;

#[derive(Clone)]
pub struct Stream {
    pub model: Model,
    pub rec: IvectorStream,
    pub rooms: Rooms,
}

impl Stream {
    /// A fresh stream in rooms of the lengths `lens`. The refusal, and what was wrong.
    #[rustfmt::skip]
    pub fn fresh(m: &Model, lens: &[usize; 9], al: &[Alter]) -> (u32, Option<Stream>, Option<String>) {
        let mut z = Rooms::new(lens);
        let before = z.clone();
        let t = &m.tables;
        // the record of a stream carries the model's: forge that
        let none = RoomLengths {
            rings: RingLengths { frames: 0, rows: 0, waiting_frames: 0, waiting_weights: 0 },
            estimate: EstimateLengths { cmvn_stats: 0, linear: 0, quadratic: 0, current: 0, scratch: 0 },
        };
        let rec = IvectorStream {
            info: m.info, lengths: none, accepted: 0, num_frames_stats: 0, mark: 0, waiting: 0, past_highest: 0,
            delta_weights_provided: false, input_finished: false, num_frames: 0.0, floor: 0, window: m.info.opts.cmn_window, longest: m.info.opts.cmn_window,
        };
        let f = forge(rec, al);
        let l = &f.lent;
        let a = unsafe {
            c::shofrakin_new_stream(
                f.rec.info,
                t.gconsts.all.as_ptr(), t.gconsts.by(l[0]), t.means_invvars_t.all.as_ptr(), t.means_invvars_t.by(l[1]),
                t.inv_vars_t.all.as_ptr(), t.inv_vars_t.by(l[2]), t.sigma_inv_m.all.as_ptr(), t.sigma_inv_m.by(l[3]),
                t.u.all.as_ptr(), t.u.by(l[4]), t.lda_t.all.as_ptr(), t.lda_t.by(l[5]),
                t.lda_offset.all.as_ptr(), t.lda_offset.by(l[6]), t.global_mean_stats.all.as_ptr(), t.global_mean_stats.by(l[7]),
                z.frames.all.as_ptr(), z.frames.len, z.rows.all.as_mut_ptr(), z.rows.len,
                z.waiting_frames.all.as_ptr(), z.waiting_frames.len, z.waiting_weights.all.as_ptr(), z.waiting_weights.len,
                z.cmvn_stats.all.as_mut_ptr(), z.cmvn_stats.len, z.linear.all.as_mut_ptr(), z.linear.len,
                z.quadratic.all.as_mut_ptr(), z.quadratic.len, z.current.all.as_mut_ptr(), z.current.len,
                z.scratch.all.as_ptr(), z.scratch.len,
            )
        };
        let n = a.answer.refusal as u32;
        if n != 0 {
            let wrong = (z != before).then(|| "a refused fresh stream wrote into a room".to_string());
            // the record beside a refusal is refused by every call
            let mut s = Stream { model: m.clone(), rec: a.stream, rooms: z };
            let (b, _) = s.raw(&mut Call::Finish, &Forged { rec: a.stream, lent: [0; 17], waiting: None });
            let wrong = wrong.or_else(|| (b.refusal != 10).then(|| "the record beside a refusal is taken".to_string()));
            return (n, None, wrong);
        }
        // no frame is held, and one row
        let first = StreamAnswer { refusal: 0, frames_held: 0, rows_held: 1, not_finite: 0, nan_likelihoods: 0 };
        let wrong = (a.answer != first).then(|| format!("a fresh stream answers {:?}", a.answer));
        (0, Some(Stream { model: m.clone(), rec: a.stream, rooms: z }), wrong)
    }

    /// The call with a forged record and forged lengths. Its answer, and the record that it leaves.
    pub(super) fn raw(&mut self, call: &mut Call, f: &Forged) -> (StreamAnswer, IvectorStream) {
        let saved = f.waiting.as_ref().map(|w| {
            let old = (self.rooms.waiting_frames.clone(), self.rooms.waiting_weights.clone());
            for (i, (x, y)) in w.iter().enumerate() {
                if i < self.rooms.waiting_frames.len {
                    self.rooms.waiting_frames.all[i] = *x as usize;
                }
                if i < self.rooms.waiting_weights.len {
                    self.rooms.waiting_weights.all[i] = *y;
                }
            }
            old
        });
        let mut rec = f.rec;
        let a = lend(&self.model.tables, &mut rec, &mut self.rooms, call, &f.lent);
        if let Some((x, y)) = saved {
            self.rooms.waiting_frames = x;
            self.rooms.waiting_weights = y;
        }
        (a, rec)
    }

    /// A call without looking at what it leaves untouched: the caller times it, or compares later.
    pub fn call(&mut self, mut call: Call) -> StreamAnswer {
        lend(&self.model.tables, &mut self.rec, &mut self.rooms, &mut call, &[0; 17])
    }

    /// A push as a host makes it, with nothing chosen by the kind of call.
    #[rustfmt::skip]
    #[inline]
    pub fn push(&mut self, x: &[f32]) -> StreamAnswer {
        let z = &mut self.rooms;
        unsafe {
            c::shofrakin_push_frame(
                &mut self.rec, x.as_ptr(), x.len(), z.frames.all.as_mut_ptr(), z.frames.len, z.rows.all.as_mut_ptr(), z.rows.len,
                z.waiting_frames.all.as_ptr(), z.waiting_frames.len, z.waiting_weights.all.as_ptr(), z.waiting_weights.len,
            )
        }
    }

    /// A finish, likewise: the record's test and one store.
    #[rustfmt::skip]
    #[inline]
    pub fn finish(&mut self) -> StreamAnswer {
        let z = &mut self.rooms;
        unsafe {
            c::shofrakin_set_input_finished(
                &mut self.rec, z.frames.all.as_ptr(), z.frames.len, z.rows.all.as_ptr(), z.rows.len,
                z.waiting_frames.all.as_ptr(), z.waiting_frames.len, z.waiting_weights.all.as_ptr(), z.waiting_weights.len,
            )
        }
    }

    /// A call, with forged parts if any. Its answer, and what is wrong: a refusal leaves record, rooms and output untouched.
    pub fn checked(&mut self, mut call: Call, al: &[Alter]) -> (StreamAnswer, Option<String>) {
        let f = forge(self.rec, al);
        let before = self.rooms.clone();
        let out: Option<Vec<u32>> = match &call {
            Call::Fetch(_, o) => Some(o.to_vec()),
            _ => None,
        };
        let (a, rec) = self.raw(&mut call, &f);
        let mut wrong = None;
        if a.refusal != 0 {
            if bits(&rec) != bits(&f.rec) {
                wrong = Some("a refused call changed the record".to_string());
            }
            if !same_rooms(&self.rooms, &before) {
                wrong = Some("a refused call wrote into a room".to_string());
            }
            if let (Call::Fetch(_, o), Some(p)) = (&call, &out) {
                if o[..] != p[..] {
                    wrong = Some("a refused fetch wrote its output".to_string());
                }
            }
        } else {
            self.rec = rec;
            if let Some(k) = past_end(&self.rooms, &self.rec) {
                wrong = Some(format!("a call wrote past what it keeps: {k}"));
            }
        }
        (a, wrong)
    }

    pub fn ready(&self) -> usize {
        unsafe { c::shofrakin_num_frames_ready(&self.rec) }
    }
    pub fn ivector_dim(&self) -> usize {
        unsafe { c::shofrakin_ivector_dim(&self.rec) }
    }
    pub fn next(&self) -> usize {
        unsafe { c::shofrakin_num_frames_stats(&self.rec) }
    }

    /// CMVN state, linear, quadratic, frame count, current.
    pub fn state(&self) -> Vec<f64> {
        let (d, z) = (&self.rec.info.dims, &self.rooms);
        let s = d.ivector_dim;
        let mut v = z.cmvn_stats.all[..d.base_dim + 1].to_vec();
        v.extend(&z.linear.all[..s]);
        v.extend(&z.quadratic.all[..s * (s + 1) / 2]);
        v.push(self.rec.num_frames);
        v.extend(&z.current.all[..s]);
        v
    }
    pub fn waiting(&self) -> Vec<(u64, u32)> {
        (0..self.rec.waiting).map(|i| (self.rooms.waiting_frames.all[i] as u64, self.rooms.waiting_weights.all[i].to_bits())).collect()
    }
    pub fn frame(&self, t: usize) -> &[f32] {
        let d = self.rec.info.dims.base_dim;
        let a = t % (self.rooms.frames.len / d) * d;
        &self.rooms.frames.all[a..a + d]
    }
    pub fn row(&self, t: usize) -> &[f64] {
        let d = self.rec.info.dims.base_dim;
        let a = t % (self.rooms.rows.len / d) * d;
        &self.rooms.rows.all[a..a + d]
    }
}
