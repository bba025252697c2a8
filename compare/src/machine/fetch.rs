//! A fetch: the frames or changes that it brings in, and the vector.
use super::ev;
use super::posteriors::{loglikes, select_posteriors, weighing, Weighing};
use super::record::{record_bad, Alter};
use super::stream::{Answer, Stream};

impl Stream {
    pub fn fetch(&mut self, f: u64, out: usize, al: &[Alter]) -> Answer {
        let r = self.record(al);
        if record_bad(&r) {
            return Answer::alone(10);
        }
        let n = if out != self.model.dims.ivec {
            20
        } else if f >= self.ready() {
            21
        } else if f >= self.next && self.taken && f as i64 > self.highest {
            22
        } else {
            0
        };
        if n != 0 {
            return self.said(&r, n);
        }
        let mut nans = 0;
        if f >= self.next {
            let batch: Vec<(u64, Option<f32>)> = if self.taken {
                let mut b: Vec<(u64, Option<f32>)> = vec![];
                while !self.waiting.is_empty() && self.waiting[0].0 <= f {
                    let (t, w) = self.waiting.remove(0);
                    match b.last_mut() {
                        Some((t0, Some(w0))) if *t0 == t => {
                            ev("change: merged");
                            *w0 += w
                        }
                        _ => b.push((t, Some(w))),
                    }
                }
                b
            } else {
                (self.next..=f).map(|t| (t, None)).collect()
            };
            nans = self.update(&batch);
            self.current = self.stats.solve(&self.model, &self.current);
            self.next = f + 1;
        } else {
            ev("fetch: f below next");
        }
        let mut v: Vec<f32> = self.current.iter().map(|&x| x as f32).collect();
        v[0] -= self.model.prior as f32;
        let bad = v.iter().filter(|x| !x.is_finite()).count() as u64;
        let bits = v.iter().map(|x| if x.is_nan() { 0x7FC0_0000 } else { x.to_bits() }).collect();
        let mut a = self.done();
        a.vector = Some((bad, bits));
        a.nans = nans;
        match (nans > 0, bad > 0) {
            (true, false) => ev("fetch: NaN likelihoods, vector finite"),
            (true, true) => ev("fetch: NaN likelihoods, vector not finite"),
            (false, true) => ev("fetch: no NaN likelihood, vector not finite"),
            (false, false) => (),
        }
        a
    }

    /// One batch of frames, each with its weight, or none. How many of the likelihoods selected from were NaN.
    fn update(&mut self, batch: &[(u64, Option<f32>)]) -> u64 {
        if batch.is_empty() {
            ev("update: no change reached");
            return 0;
        }
        let mut nans = 0;
        let o = self.model.opts;
        let mut out = vec![];
        for &(t, w) in batch {
            let x = self.view(t as usize, true);
            let how = match w {
                None => Weighing::Weighed(o.min_post, o.posterior_scale),
                Some(w) => weighing(&o, w),
            };
            let post = match how {
                Weighing::Skipped => {
                    ev("update: frame skipped");
                    vec![]
                }
                Weighing::Weighed(floor, scale) => {
                    let ll = loglikes(&self.model, &x);
                    nans += ll.iter().filter(|l| l.is_nan()).count() as u64;
                    select_posteriors(&ll, o.num_gselect, floor).into_iter().map(|(g, p)| (g, p * scale)).collect()
                }
            };
            out.push((self.view(t as usize, false), post));
        }
        let m = self.model.clone();
        self.stats.acc(&m, &out);
        nans
    }
}
