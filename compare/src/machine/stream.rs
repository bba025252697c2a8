//! The stream, which keeps every frame: a fresh one, its answers, and each call but the fetch (`fetch`).
use super::ev;
use super::load::{model_needs, room_lens, Model};
use super::options::options_ok;
use super::record::{alter, held, record_bad, rooms, stream_needs, Alter, Record};
use super::statistics::Stats;
use super::Re;

/// An answer: refusal number, held counts unless the number stands alone, vector for a fetch, NaN likelihoods of the frames it brought in.
#[derive(Clone, Debug, PartialEq)]
pub struct Answer {
    pub refusal: u32,
    pub held: Option<(u64, u64)>,
    pub vector: Option<(u64, Vec<u32>)>,
    pub nans: u64,
}

impl Answer {
    pub fn alone(n: u32) -> Answer {
        Answer { refusal: n, held: None, vector: None, nans: 0 }
    }
}

#[derive(Clone)]
pub struct Stream {
    pub model: Model,
    pub made: Vec<u64>,
    pub frames: Vec<Vec<f32>>,
    pub prefix: Vec<Vec<f64>>,
    pub next: u64,
    pub waiting: Vec<(u64, f32)>,
    pub highest: i64,
    pub taken: bool,
    pub finished: bool,
    pub cmvn: Vec<f64>,
    pub stats: Stats,
    pub current: Vec<f64>,
    pub mark: u64,
    /// Request 8: the highest frame named in a forget.
    pub floor: u64,
    /// Request 12: the window in force, and the longest since the last rise of the mark.
    pub window: u64,
    pub longest: u64,
}

impl Stream {
    /// A fresh stream: 10 before 8.
    /// `lens`: absolute lengths of frames, rows, waiting frames, waiting weights; `deltas`: the
    /// other five rooms' lengths less their needs.
    pub fn fresh(m: &Model, model_lens: &[u64], lens: &[u64; 4], deltas: &[i64; 5], al: &[Alter]) -> Re<(Stream, Answer)> {
        let needs = stream_needs(&m.dims);
        let mut made = model_lens.to_vec();
        made.extend(lens);
        made.extend(room_lens(&needs, deltas));
        let mut rec = Record {
            opts: m.opts,
            dims: m.dims,
            accepted: 0,
            next: 0,
            mark: 0,
            floor: 0,
            window: m.opts.window,
            longest: m.opts.window,
            waiting: vec![],
            made: model_lens.to_vec(),
            lent: model_lens.to_vec(),
        };
        alter(&mut rec, al);
        if rec.lent != rec.made || !options_ok(&rec.opts) || {
            // dimensions and their agreement, with rooms that cannot be passed
            rec.made.extend([u64::MAX / 4; 4]);
            rec.lent = rec.made.clone();
            record_bad(&rec)
        } {
            return Err(10);
        }
        // what the record says, forged or not
        let b = rec.dims.base as u64;
        let short = |lens: &[u64], needs: &[u64]| lens.iter().zip(needs).any(|(l, n)| l < n);
        if short(model_lens, &model_needs(&rec.dims, &rec.opts))
            || lens[0] / b == 0
            || lens[1] / b < 2
            || short(&made[12..], &stream_needs(&rec.dims))
        {
            return Err(8);
        }
        let mut current = vec![0f64; m.dims.ivec];
        current[0] = m.prior;
        let s = Stream {
            model: m.clone(),
            made,
            frames: vec![],
            prefix: vec![vec![0.0; m.dims.base]],
            next: 0,
            waiting: vec![],
            highest: -1,
            taken: false,
            finished: false,
            cmvn: vec![0.0; m.dims.base + 1],
            stats: Stats::new(m.dims.ivec, m.prior),
            current,
            mark: 0,
            floor: 0,
            window: m.opts.window,
            longest: m.opts.window,
        };
        let a = s.said(&s.record(&[]), 0);
        Ok((s, a))
    }

    pub fn accepted(&self) -> u64 {
        self.frames.len() as u64
    }

    pub(super) fn record(&self, al: &[Alter]) -> Record {
        let mut r = Record {
            opts: self.model.opts,
            dims: self.model.dims,
            accepted: self.accepted(),
            next: self.next,
            mark: self.mark,
            floor: self.floor,
            window: self.window,
            longest: self.longest,
            waiting: self.waiting.clone(),
            made: self.made.clone(),
            lent: self.made.clone(),
        };
        alter(&mut r, al);
        r
    }

    pub(super) fn said(&self, r: &Record, n: u32) -> Answer {
        Answer { refusal: n, held: Some(held(r)), vector: None, nans: 0 }
    }
    /// Request 11: frames held, and whether a push of a proper frame would be taken; none where the record falls under 10.
    pub fn push_room(&self, al: &[Alter]) -> Option<(u64, bool)> {
        let r = self.record(al);
        if record_bad(&r) {
            return None;
        }
        let (hf, hr) = self.said(&r, 0).held.unwrap();
        let (f, rr, _) = rooms(&r);
        Some((hf, r.accepted < 1_000_000_000 && hf < f && hr < rr))
    }
    pub(super) fn done(&self) -> Answer {
        self.said(&self.record(&[]), 0)
    }

    pub fn push(&mut self, x: &[f32], al: &[Alter]) -> Answer {
        let r = self.record(al);
        if record_bad(&r) {
            return Answer::alone(10);
        }
        let (hf, hr) = held(&r);
        let (f, rr, _) = rooms(&r);
        let n = if x.len() != self.model.dims.base {
            11
        } else if x.iter().any(|v| !v.is_finite()) {
            12
        } else if r.accepted == 1_000_000_000 {
            13
        } else if hf == f {
            14
        } else if hr == rr {
            15
        } else {
            0
        };
        if n != 0 {
            return self.said(&r, n);
        }
        let last = &self.prefix[self.prefix.len() - 1];
        let row = (0..x.len()).map(|i| last[i] + f64::from(x[i])).collect();
        self.prefix.push(row);
        self.frames.push(x.to_vec());
        self.done()
    }

    pub fn finish(&mut self, al: &[Alter]) -> Answer {
        let r = self.record(al);
        if record_bad(&r) {
            return Answer::alone(10);
        }
        self.finished = true;
        self.done()
    }

    pub fn change(&mut self, fr: &[u64], w: &[f32], al: &[Alter]) -> Answer {
        let r = self.record(al);
        if record_bad(&r) {
            return Answer::alone(10);
        }
        let (_, _, room) = rooms(&r);
        let n = if fr.len() != w.len() || fr.len() > 384 {
            16
        } else if fr.iter().any(|&f| f >= 1_000_000_000) || w.iter().any(|v| !v.is_finite()) {
            17
        } else if fr.iter().any(|&f| f < r.floor) {
            30
        } else if fr.iter().any(|&f| f.saturating_sub(r.opts.left) < r.mark) {
            18
        } else if r.waiting.len() as u64 + fr.len() as u64 > room {
            19
        } else {
            0
        };
        if n == 30 {
            let gone = fr.iter().any(|&f| f.saturating_sub(r.opts.left) < r.mark);
            ev(if gone { "change: 30, a frame of the splice is gone" } else { "change: 30, all its frames are held" });
            if r.waiting.len() as u64 + fr.len() as u64 > room {
                ev("change: 30 before 19");
            }
        }
        if n != 0 {
            return self.said(&r, n);
        }
        if r.floor > 0 && fr.contains(&r.floor) {
            ev("change: taken at the floor");
        }
        for i in 0..fr.len() {
            let at = self.waiting.iter().position(|c| c.0 > fr[i]).unwrap_or(self.waiting.len());
            self.waiting.insert(at, (fr[i], w[i]));
            self.highest = self.highest.max(fr[i] as i64);
        }
        self.taken = true;
        self.done()
    }

    pub fn forget(&mut self, f: u64, al: &[Alter]) -> Answer {
        let r = self.record(al);
        if record_bad(&r) {
            return Answer::alone(10);
        }
        let mut m = f.min(self.next);
        if let Some(c) = self.waiting.first() {
            m = m.min(c.0);
        }
        ev(match f {
            f if f > self.floor && self.waiting.first().is_some_and(|c| c.0 < f) => "forget: floor rises above a waiting change",
            f if f > self.floor && f > self.accepted() => "forget: floor rises above accepted",
            f if f > self.floor => "forget: floor rises",
            _ => "forget: floor stays",
        });
        self.floor = self.floor.max(f);
        let to = m.saturating_sub(self.model.opts.left);
        if to > self.mark {
            ev(if self.longest > self.window { "forget: mark rises, longest falls to the window" } else { "forget: mark rises" });
            self.mark = to;
            self.longest = self.window;
        } else if self.longest > self.window {
            ev("forget: mark stays, longest kept");
        }
        self.done()
    }

    /// Request 12: the window for later fetches.
    pub fn set_window(&mut self, v: u64, al: &[Alter]) -> Answer {
        let r = self.record(al);
        if record_bad(&r) {
            return Answer::alone(10);
        }
        let n = if !(1..=1000).contains(&v) {
            31
        } else if v > r.longest && r.mark + 1 > r.longest {
            32
        } else {
            0
        };
        if n != 0 {
            return self.said(&r, n);
        }
        ev(if v > self.longest {
            if self.mark + 1 == self.longest {
                "window: above the longest, first row just kept"
            } else {
                "window: above the longest"
            }
        } else if v == self.longest && v > self.window {
            "window: rises to the longest"
        } else if v > self.window {
            "window: rises below the longest"
        } else if v == self.window {
            "window: the same"
        } else {
            "window: falls"
        });
        self.window = v;
        self.longest = self.longest.max(v);
        self.done()
    }

    pub fn ready(&self) -> u64 {
        if self.finished {
            self.accepted()
        } else {
            self.accepted().saturating_sub(self.model.opts.right)
        }
    }

    pub fn state(&self) -> Vec<f64> {
        let mut v = self.cmvn.clone();
        v.extend(&self.stats.linear);
        v.extend(&self.stats.quadratic);
        v.push(self.stats.frames);
        v.extend(&self.current);
        v
    }
}
