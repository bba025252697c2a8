//! Request 13, the trigger: the round of an utterance over the machine's stream and silence table, and lists of rounds.
use crate::gen::{build, frame, give, rand_opts, weight, CallList, Kind, Rng, Spec};
use crate::machine::{ev, Alter, SAlter, Silence, Stream};
use crate::script::{Cmd, Runner};
use crate::voice::{nearest, Nearest};

/// What a round is given; `lent`: lengths of the two lists for the changes, then of the vector.
#[derive(Clone, Debug, Default)]
pub struct Utterance {
    pub start: u64,
    /// Numbers of the frames, one frame after the other.
    pub frames: Vec<f32>,
    pub phones: Vec<i32>,
    pub starts: Vec<u64>,
    pub ends: Vec<u64>,
    pub lent: [u64; 3],
    pub voices: u64,
    /// Numbers of the enrolled vectors, one vector after the other.
    pub enrolled: Vec<f32>,
    pub limit: f32,
}

#[derive(Clone, Copy, Debug, PartialEq)]
pub enum Ended {
    /// Refusal number, step 1 to 7.
    Refused(u32, u32),
    NoVector,
    Nobody,
    /// Index, and the distance's bits.
    Voice(usize, u32),
}

/// How a round ended, the changes given (once step 4 is done), the vector (once step 6 is done).
#[derive(Clone, Debug)]
pub struct Round {
    pub ended: Ended,
    pub changes: Option<Vec<(u64, f32)>>,
    pub vector: Option<Vec<u32>>,
}

/// The frames decoded: the largest end.
pub fn decoded(u: &Utterance) -> u64 {
    u.ends.iter().copied().max().unwrap_or(0)
}

/// The round on the machine. Forged parts are those of the first call on the stream and of the calls on the table: each is refused.
pub fn round(st: &mut Stream, t: &mut Silence, u: &Utterance, al: &[Alter], sal: &[SAlter]) -> Round {
    let (mut changes, mut vector) = (None, None);
    let ended = go(st, t, u, al, sal, &mut changes, &mut vector).unwrap_or_else(|(n, step)| Ended::Refused(n, step));
    Round { ended, changes, vector }
}

fn go(
    st: &mut Stream,
    t: &mut Silence,
    u: &Utterance,
    al: &[Alter],
    sal: &[SAlter],
    changes: &mut Option<Vec<(u64, f32)>>,
    vector: &mut Option<Vec<u32>>,
) -> Result<Ended, (u32, u32)> {
    let at = |n: u32, step: u32| if n == 0 { Ok(()) } else { Err((n, step)) };
    at(st.forget(u.start, al).refusal, 1)?;
    for x in u.frames.chunks(st.model.dims.base) {
        if x.len() < st.model.dims.base {
            ev("round: last frame cut short");
        }
        at(st.push(x, &[]).refusal, 2)?;
    }
    at(t.trace(decoded(u), &u.phones, &u.starts, &u.ends, sal), 3)?;
    let ready = st.ready();
    let list = t.weigh(ready, u.start, u.lent[0], u.lent[1], sal).map_err(|n| (n, 4))?;
    *changes = Some(list.clone());
    let (f, w): (Vec<u64>, Vec<f32>) = list.into_iter().unzip();
    if f.is_empty() {
        ev("round: empty change");
    }
    at(st.change(&f, &w, &[]).refusal, 5)?;
    if ready == 0 {
        ev("round: no vector");
        return Ok(Ended::NoVector);
    }
    let a = st.fetch(ready - 1, u.lent[2] as usize, &[]);
    at(a.refusal, 6)?;
    let bits = a.vector.unwrap().1;
    let v: Vec<f32> = bits.iter().map(|b| f32::from_bits(*b)).collect();
    *vector = Some(bits);
    let dim = st.model.dims.ivec;
    let all: Vec<Vec<f32>> = match u.voices {
        // of the enrolled ones the length of all together is seen
        1..=32 if u.enrolled.len() as u64 != u.voices * dim as u64 => return Err((28, 7)),
        1..=32 => u.enrolled.chunks(dim).map(<[f32]>::to_vec).collect(),
        n => vec![vec![]; n.min(33) as usize],
    };
    match nearest(dim, &v, &all, u.limit) {
        Nearest::Voice(i, d) => Ok(Ended::Voice(i, d)),
        Nearest::Nobody => Ok(Ended::Nobody),
        Nearest::Refused(n) => Err((n as u32, 7)),
    }
}

/// Another prior, so that vectors are not finite.
fn set_prior(sp: &mut Spec, v: f64) {
    let k = sp.ge * (sp.d * sp.s + sp.d * (sp.d + 1) / 2);
    let f = &mut sp.files[1];
    let it = *f.items.iter().filter(|i| i.kind == Kind::F64).nth(k).unwrap();
    f.b[it.at..it.at + 8].copy_from_slice(&v.to_le_bytes());
}

/// A list of rounds, with fetches, forgets and a finish between them.
pub fn trigger(r: &mut Rng, out: &mut CallList) {
    let mut run = Runner::default();
    let put = |run: &mut Runner, out: &mut CallList, c: Cmd| {
        run.exec(&c);
        out.cmds.push(c);
    };
    let mut o = rand_opts(r);
    o.left = r.n(4);
    o.right = r.n(4);
    o.window = r.r(1, 12);
    if o.posterior_scale.abs() > 10.0 {
        o.posterior_scale = 0.1;
    }
    let (n, d, s, base) = (r.r(1, 3) as usize, r.r(1, 2) as usize, r.r(2, 3) as usize, r.r(1, 2) as usize);
    let mut sp = build(r, o, n, n, d, s, base, false);
    if r.p(7) {
        // vectors that are not finite: 29
        let far = r.pick(&[1e300, -3.5e38]);
        set_prior(&mut sp, far);
    }
    let mut v = vec![];
    give(&mut v, &sp);
    v.push(Cmd::Model([0; 8]));
    let b = base as u64;
    let f = r.r(12, 40) + o.left + o.right;
    let waiting = r.pick(&[20, 200, 600, 600]);
    let rows = if r.p(80) { f + 1 + o.window } else { r.r(4, f + o.window) };
    v.push(Cmd::Stream([f * b, rows * b, waiting, waiting], [0; 5]));
    let sub = r.r(1, 4);
    let table = r.pick(&[10, 60, 300, 300, 300]);
    let w = if r.p(80) { 0.25 } else { weight(r) };
    let fresh = Cmd::Table(table, w, sub, vec![1, 2]);
    v.push(fresh.clone());
    v.into_iter().for_each(|c| put(&mut run, out, c));
    if run.sil.is_none() || run.stream.is_none() {
        return;
    }
    let mut start = 0;
    for _ in 0..r.r(4, 14) {
        let acc = run.stream.as_ref().unwrap().accepted();
        // a new utterance, or more of the same
        if r.p(70) {
            start = match r.n(14) {
                0 => start,
                1 => acc.saturating_sub(r.n(5)),
                2 => acc + r.r(1, 5),
                3 => 0,
                4 if r.p(12) => r.pick(&[1_000_000_000, 1_000_000_001, u64::MAX, 999_999_999]),
                _ => acc,
            };
            if r.p(85) {
                put(&mut run, out, fresh.clone());
            }
        }
        let mut u = Utterance { start, lent: [2000, 2000, s as u64], ..Default::default() };
        for _ in 0..if r.p(15) { 0 } else { r.r(1, 9) } {
            u.frames.extend(frame(r, &o, base, false));
        }
        if r.p(4) && base > 1 {
            u.frames.push(1.0); // cut short
        }
        if r.p(2) && !u.frames.is_empty() {
            let i = r.n(u.frames.len() as u64) as usize;
            u.frames[i] = f32::NAN;
        }
        let after = acc + u.frames.len() as u64 / b;
        segments(r, &mut u, after.saturating_sub(o.right).saturating_sub(start) / sub, table);
        match r.n(30) {
            0 => u.lent[0] = r.n(12),
            1 => u.lent[1] = r.n(12),
            2 => u.lent[2] = r.pick(&[0, s as u64 + 1, s as u64 - 1]),
            _ => {}
        }
        // enrolled vectors about the one that the round will fetch
        u.voices = if r.p(5) { 32 } else { r.r(1, 5) };
        let mut copy = run.clone();
        copy.exec(&Cmd::Round(u.clone()));
        let fetched: Option<Vec<f32>> = copy.last_round.and_then(|x| x.vector).map(|v| v.iter().map(|b| f32::from_bits(*b)).collect());
        let v = fetched.filter(|v| v.iter().all(|x| x.is_finite())).unwrap_or(vec![1.0; s]);
        voices(r, &mut u, &v);
        let c = Cmd::Round(u.clone());
        if r.p(4) {
            let (k, v) = r.pick(&[("accepted", 1_000_000_001u64), ("left", 9), ("next", u64::MAX), ("mark", u64::MAX), ("ivec", 0)]);
            put(&mut run, out, Cmd::Alter(Alter::Field(k.into(), v)));
            put(&mut run, out, c.clone());
        } else if r.p(3) {
            // refused at 3; with no frames it leaves nothing that the next round would not do again
            let forged = [SAlter::Sub(17), SAlter::Len(table + 1), SAlter::Weight(f32::NAN.to_bits())][r.n(3) as usize].clone();
            put(&mut run, out, Cmd::SAlter(forged));
            put(&mut run, out, Cmd::Round(Utterance { frames: vec![], ..u }));
        }
        put(&mut run, out, c);
        if r.p(5) {
            put(&mut run, out, Cmd::Finish);
        }
        if r.p(10) {
            // a fetch between rounds, and room for more
            let st = run.stream.as_ref().unwrap();
            if let Some(k) = st.ready().checked_sub(1) {
                let k = if st.taken && k >= st.next { k.min(st.highest.max(0) as u64) } else { k };
                put(&mut run, out, Cmd::Fetch(k, s));
            }
            let next = run.stream.as_ref().unwrap().next;
            put(&mut run, out, Cmd::Forget(next));
        }
    }
}

/// Segments over `dec` decoder frames, some of them wrong.
fn segments(r: &mut Rng, u: &mut Utterance, dec: u64, table: u64) {
    let mut at = 0;
    if !r.p(12) {
        while at < dec.min(60) {
            let n = r.r(1, 4);
            u.phones.push(r.n(5) as i32);
            u.starts.push(at);
            u.ends.push(at + n);
            at += n;
        }
    }
    let mut one = |phone: i32, start: u64, end: u64| {
        u.phones.push(phone);
        u.starts.push(start);
        u.ends.push(end);
    };
    match r.n(30) {
        0 => u.ends.push(3),
        1 => {
            u.phones.pop();
        }
        2 => u.starts.push(0),
        // an end below its start, and the largest
        3 => one(1, table + 7, r.n(table + 1)),
        4 => one(2, 0, r.pick(&[table + 1, table, u64::MAX])),
        5 => one(1, 1, r.r(97, 130).min(table)),
        6 => {
            // out of order: the largest end is not the last
            u.phones.reverse();
            u.starts.reverse();
            u.ends.reverse();
        }
        _ => {}
    }
}

/// Enrolled vectors about `v`, ties and a limit next to the least distance, and what each refusal is for.
fn voices(r: &mut Rng, u: &mut Utterance, v: &[f32]) {
    let s = v.len();
    for _ in 0..u.voices {
        let k = r.pick(&[0.0f32, 0.1, 1.0, 5.0]);
        for x in v {
            let y = x + k * r.sym() as f32;
            u.enrolled.push(if y.is_finite() { y } else { 1.0 });
        }
    }
    if r.p(15) && u.voices > 1 {
        // two alike: the lower index
        let (i, j) = (r.n(u.voices) as usize, r.n(u.voices) as usize);
        for k in 0..s {
            u.enrolled[i * s + k] = u.enrolled[j * s + k];
        }
    }
    if r.p(6) {
        let i = r.n(u.enrolled.len() as u64) as usize;
        u.enrolled[i] = r.pick(&[3e38, -3e38, f32::MAX]);
    }
    let near = (0..u.voices as usize)
        .map(|k| (0..s).fold(0.0f32, |a, i| a + (v[i] - u.enrolled[k * s + i]) * (v[i] - u.enrolled[k * s + i])))
        .fold(f32::INFINITY, f32::min);
    u.limit = match r.n(8) {
        0 => 0.0,
        1 if near.is_finite() && near > 0.0 => f32::from_bits(near.to_bits() - 1),
        2 if near.is_finite() => near,
        3 => f32::MAX,
        4 => -0.0,
        _ => 10.0,
    };
    match r.n(40) {
        0 => {
            u.voices = 0;
            u.enrolled.clear();
        }
        1 => {
            u.voices = 33;
            u.enrolled = vec![0.5; 33 * s];
        }
        2 => u.enrolled.push(0.0),
        3 => {
            let i = r.n(u.enrolled.len() as u64) as usize;
            u.enrolled[i] = r.pick(&[f32::NAN, f32::INFINITY, f32::NEG_INFINITY]);
        }
        4 => u.limit = r.pick(&[-1.0, -1e-45, f32::NAN, f32::INFINITY, f32::NEG_INFINITY]),
        5 => {
            // several faults: 27 before 28 before 29
            u.voices = r.pick(&[0, 33, 3]);
            u.limit = -1.0;
            u.enrolled = vec![f32::NAN; if u.voices == 0 { 0 } else { u.voices as usize * s + 1 }];
        }
        _ => {}
    }
}
