//! Views of a frame: CMVN by the window in force, splice and LDA.
use super::ev;
use super::floats::min64;
use super::stream::Stream;

impl Stream {
    /// The CMVN fetch of frame t.
    pub fn cmvn_view(&mut self, t: usize) -> Vec<f32> {
        let o = self.model.opts;
        let b = self.model.dims.base;
        let raw = self.frames[t].clone();
        if raw[0] > o.min_energy {
            ev("cmvn: loud");
            let hi = t + 1;
            let lo = hi.saturating_sub(self.window as usize);
            assert!(lo as u64 >= (self.mark + 1).saturating_sub(self.longest), "a row is read that is no longer held");
            for d in 0..b {
                self.cmvn[d] = self.prefix[hi][d] - self.prefix[lo][d];
            }
            self.cmvn[b] = (hi - lo) as f64;
        } else {
            ev("cmvn: quiet");
        }
        let w = self.window as f64;
        if self.cmvn[b] < w {
            let from = min64(w - self.cmvn[b], o.global_frames as f64);
            let scale = from / self.model.global[b];
            for d in 0..=b {
                self.cmvn[d] += scale * self.model.global[d];
            }
        } else {
            ev("cmvn: window full");
        }
        let count = self.cmvn[b];
        (0..b).map(|d| raw[d] - (self.cmvn[d] / count) as f32).collect()
    }

    /// Splice and LDA.
    pub(super) fn view(&mut self, t: usize, normalised: bool) -> Vec<f32> {
        let o = self.model.opts;
        let last = self.frames.len() as i64 - 1;
        let mut spliced = vec![];
        for k in -(o.left as i64)..=o.right as i64 {
            let t2 = (t as i64 + k).max(0).min(last) as usize;
            if normalised {
                spliced.extend(self.cmvn_view(t2));
            } else {
                spliced.extend(&self.frames[t2]);
            }
        }
        let rows = self.model.lda_offset.len();
        (0..rows)
            .map(|r| {
                let mut a = self.model.lda_offset[r];
                for c in 0..spliced.len() {
                    a += self.model.lda_t[c * rows + r] * spliced[c];
                }
                a
            })
            .collect()
    }
}
