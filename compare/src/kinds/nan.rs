//! Call lists for request 4: models whose likelihoods are NaN at some frames.
use crate::gen::{frame, give, spec, weight, CallList, Kind, Rng, Spec};
use crate::machine::Stream;
use crate::script::{Cmd, Runner};

/// A list as it grows, run along.
struct Going<'a> {
    out: &'a mut CallList,
    run: Runner,
}

impl<'a> Going<'a> {
    fn put(&mut self, c: Cmd) {
        self.run.exec(&c);
        self.out.cmds.push(c);
    }
    fn stream(&self) -> &Stream {
        self.run.stream.as_ref().unwrap()
    }
    /// The last frame that a fetch may name, if any.
    fn top(&self) -> Option<u64> {
        let st = self.stream();
        let ready = st.ready().checked_sub(1)?;
        Some(if st.taken && ready >= st.next { ready.min(st.highest.max(0) as u64) } else { ready })
    }
}

/// Overwrites the k-th f32 of a file.
fn set_f32(sp: &mut Spec, file: usize, k: usize, v: f32) {
    let f = &mut sp.files[file];
    let it = *f.items.iter().filter(|i| matches!(i.kind, Kind::F32(_))).nth(k).unwrap();
    f.b[it.at..it.at + 4].copy_from_slice(&v.to_le_bytes());
}

pub fn nan(r: &mut Rng, out: &mut CallList) {
    let mut g = Going { out, run: Runner::default() };
    let wild = r.p(33);
    let mut sp = spec(r, wild);
    // Gaussians whose likelihood is NaN for a large enough normalised frame of the right sign
    let odd = r.n(sp.g as u64 + 1) as usize;
    for k in 0..sp.g {
        if k < odd || r.p(10) {
            for i in 0..sp.d {
                let m = r.pick(&[2e38f32, -2e38, 1e38, 3e38, -3e38, 3e37]);
                let v = r.pick(&[2e38f32, 1e38, 3e38, f32::MAX]);
                let at = sp.g + k * sp.d + i;
                let past = sp.g * sp.d;
                set_f32(&mut sp, 0, at, m);
                set_f32(&mut sp, 0, at + past, v);
            }
        }
    }
    let mut files = vec![];
    give(&mut files, &sp);
    files.into_iter().for_each(|c| g.put(c));
    g.put(Cmd::Model([0; 8]));
    let b = sp.base as u64;
    for _ in 0..2 {
        g.put(Cmd::Stream([60 * b, 800 * b, 200, 200], [0; 5]));
        let weighted = r.p(60);
        for _ in 0..r.r(6, 14) {
            for _ in 0..r.r(1, 4) {
                let mut x = frame(r, &sp.opts, sp.base, false);
                if r.p(20) {
                    let k = r.n(b) as usize;
                    x[k] = r.pick(&[1e20, -1e20, 3e38, -3e38, 1e30, 100.0, -100.0]);
                }
                g.put(Cmd::Push(x));
            }
            if weighted && r.p(80) {
                let (next, ready) = (g.stream().next, g.stream().ready());
                let lo = next.saturating_sub(r.n(3));
                let f: Vec<u64> = (0..r.r(1, 8)).map(|_| r.r(lo, ready.max(lo) + 1)).collect();
                let w = f.iter().map(|_| if r.p(35) { 0.0 } else { weight(r) }).collect();
                g.put(Cmd::Change(f, w));
            }
            if let Some(f) = g.top() {
                g.put(Cmd::Fetch(f, sp.s));
            }
            if r.p(40) {
                // again, or below: no update
                let f = r.n(g.stream().accepted() + 1);
                g.put(Cmd::Fetch(f, sp.s));
            }
        }
    }
}
