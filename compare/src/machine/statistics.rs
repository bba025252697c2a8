//! The statistics of a stream: what a batch of frames adds, and the estimate that they give.
use super::ev;
use super::floats::max64;
use super::load::Model;
use super::solve::{cgd, tri};

#[derive(Clone, Debug)]
pub struct Stats {
    pub frames: f64,
    pub linear: Vec<f64>,
    pub quadratic: Vec<f64>,
}

impl Stats {
    pub(super) fn new(s: usize, prior: f64) -> Stats {
        let mut q = vec![0f64; s * (s + 1) / 2];
        for i in 0..s {
            q[tri(i, i)] += 1.0;
        }
        let mut l = vec![0f64; s];
        l[0] += prior;
        Stats { frames: 0.0, linear: l, quadratic: q }
    }

    /// One batch: per Gaussian running sums, Gaussians in the order in which they were first seen.
    pub(super) fn acc(&mut self, m: &Model, batch: &[(Vec<f32>, Vec<(usize, f32)>)]) {
        let (d, s) = (m.dims.feat, m.dims.ivec);
        let mut seen: Vec<(usize, f64, Vec<f64>)> = vec![];
        for (x, post) in batch {
            for &(g, w) in post {
                let k = match seen.iter().position(|e| e.0 == g) {
                    Some(k) => k,
                    None => {
                        seen.push((g, 0.0, vec![0.0; d]));
                        seen.len() - 1
                    }
                };
                seen[k].1 += f64::from(w);
                for a in 0..d {
                    seen[k].2[a] += f64::from(w) * f64::from(x[a]);
                }
            }
        }
        let mut total = 0.0;
        for (g, w, sum) in &seen {
            let sim = &m.sim[g * d * s..(g + 1) * d * s];
            for c in 0..s {
                let mut a = 0.0;
                for k in 0..d {
                    a += sim[k * s + c] * sum[k];
                }
                self.linear[c] += a;
            }
            let t = s * (s + 1) / 2;
            for i in 0..t {
                self.quadratic[i] += w * m.u[g * t + i];
            }
            total += w;
        }
        let mc = m.opts.max_count;
        if mc > 0.0 {
            let change = max64(self.frames + total, mc) / mc - max64(self.frames, mc) / mc;
            if change != 0.0 {
                ev("acc: prior rescaled");
                self.linear[0] += m.prior * change;
                for i in 0..s {
                    self.quadratic[tri(i, i)] += change;
                }
            }
        }
        self.frames += total;
    }

    pub(super) fn solve(&self, m: &Model, current: &[f64]) -> Vec<f64> {
        let s = m.dims.ivec;
        if self.frames > 0.0 {
            let mut x = current.to_vec();
            if x[0] == 0.0 {
                x[0] = m.prior;
            }
            cgd(&self.quadratic, s, &self.linear, &x, m.opts.num_cg_iters)
        } else {
            ev("solve: no positive count, prior");
            let mut x = vec![0f64; s];
            x[0] = m.prior;
            x
        }
    }
}
