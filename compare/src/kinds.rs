//! Kinds of call lists about one feature each. Here a list as it grows, and the kinds `limit` and `exact`.
use crate::gen::{build, frame, give, rand_opts, CallList, Kind, Rng, Spec};
use crate::machine::Stream;
use crate::script::{Cmd, Runner};

pub mod big;
pub mod calls;
pub mod damage;
pub mod edges;
pub mod floor;
pub mod long;
pub mod nan;
pub mod silence;
pub mod widths;
pub mod window;

/// A list as it grows, run along on the machine.
pub(crate) struct Going<'a> {
    pub out: &'a mut CallList,
    pub run: Runner,
}

impl<'a> Going<'a> {
    pub fn new(out: &'a mut CallList) -> Self {
        Going { out, run: Runner::default() }
    }

    pub fn put(&mut self, c: Cmd) {
        self.run.exec(&c);
        self.out.cmds.push(c);
    }

    pub fn model(&mut self, sp: &Spec) {
        let mut v = vec![];
        give(&mut v, sp);
        v.into_iter().for_each(|c| self.put(c));
        self.put(Cmd::Model([0; 8]));
    }

    pub fn st(&self) -> &Stream {
        self.run.stream.as_ref().unwrap()
    }

    /// The last frame that a fetch may name, if any.
    pub fn top(&self) -> Option<u64> {
        let st = self.st();
        let ready = st.ready().checked_sub(1)?;
        Some(if st.taken && ready >= st.next { ready.min(st.highest.max(0) as u64) } else { ready })
    }
}

/// Overwrites the k-th f64 of the extractor.
fn set_f64(sp: &mut Spec, k: usize, v: f64) {
    let f = &mut sp.files[1];
    let it = *f.items.iter().filter(|i| i.kind == Kind::F64).nth(k).unwrap();
    f.b[it.at..it.at + 8].copy_from_slice(&v.to_le_bytes());
}

/// No. 2: change lists about 384 long, in rooms that several of them fill.
pub fn limit(r: &mut Rng, out: &mut CallList) {
    let mut g = Going::new(out);
    let mut o = rand_opts(r);
    o.posterior_scale = 0.1;
    let sp = build(r, o, 2, 2, 1, 2, 1, false);
    g.model(&sp);
    for _ in 0..2 {
        let room = r.pick(&[383, 384, 385, 768, 769, 1100, 3000]);
        g.put(Cmd::Stream([30, 1100, room, room], [0; 5]));
        for _ in 0..r.r(8, 20) {
            g.put(Cmd::Push(frame(r, &o, 1, false)));
        }
        for _ in 0..r.r(3, 7) {
            let k = r.pick(&[302, 303, 383, 384, 384, 385, 385, 400, 1023, 1024, 1025, 1]);
            let top = g.st().accepted() + 3;
            let mut f: Vec<u64> = (0..k).map(|_| r.n(top)).collect();
            let mut w: Vec<f32> = (0..k).map(|_| r.pick(&[0.0, 1.0, -1.0, 0.25])).collect();
            match r.n(12) {
                0 => {
                    f.pop();
                }
                1 => w.push(1.0),
                // 16 before 17
                2 => f[k as usize - 1] = 1_000_000_000,
                _ => {}
            }
            g.put(Cmd::Change(f, w));
            if r.p(60) {
                if let Some(f) = g.top() {
                    g.put(Cmd::Fetch(r.r(f / 2, f), 2));
                }
            }
        }
        g.put(Cmd::Finish);
        if let Some(f) = g.top() {
            g.put(Cmd::Fetch(f, 2));
        }
    }
}

/// No. 9: solves that start on the solution, or within a hair of it.
pub fn exact(r: &mut Rng, out: &mut CallList) {
    let mut g = Going::new(out);
    r.1 = true;
    let mut o = rand_opts(r);
    o.left = r.n(2);
    o.right = 0;
    o.posterior_scale = r.pick(&[0.25, 0.25, 1.0, 0.5, 0.0]);
    o.num_cg_iters = r.pick(&[15, 15, 15, 1, 2, 200, 0]);
    o.max_count = r.pick(&[100.0, 100.0, 0.5, 0.3, 1.0, 0.0]);
    o.min_energy = 1.0;
    // a prior whose roundings have squares below the smallest normal number
    let tiny = r.p(35);
    if tiny {
        o.max_count = r.pick(&[0.3, 0.7, 0.1]);
        o.posterior_scale = r.pick(&[0.25, 0.1, 1.0]);
    }
    let (n, s) = (r.r(1, 3) as usize, r.r(1, 3) as usize);
    let mut sp = build(r, o, n, n, 1, s, 1, false);
    if tiny || r.p(50) {
        for k in 0..sp.ge * sp.d * sp.s {
            set_f64(&mut sp, k, 0.0);
        }
    }
    let small = r.unit() * 10f64.powi(-(r.r(134, 145) as i32));
    let prior = if tiny { r.pick(&[small, -small]) } else { r.pick(&[1.0, 1.0, 2.0, -1.0, 0.0, 0.1, 5e-324]) };
    let k = sp.ge * (sp.d * sp.s + sp.d * (sp.d + 1) / 2);
    set_f64(&mut sp, k, prior);
    g.model(&sp);
    for _ in 0..2 {
        g.put(Cmd::Stream([60, 800, 60, 60], [0; 5]));
        let weighted = r.p(70);
        for _ in 0..r.r(4, 12) {
            for _ in 0..r.r(1, 2) {
                g.put(Cmd::Push(vec![r.pick(&[4.0, -2.0, 0.0, 1.0, 60.0, 0.5])]));
            }
            let next = g.st().next;
            let ready = g.st().ready();
            if weighted && r.p(85) && ready > 0 {
                // often weight 0: a solve on unchanged statistics
                let f: Vec<u64> = (next.min(ready - 1)..ready).collect();
                let w = f.iter().map(|_| if r.p(60) { 0.0 } else { r.pick(&[1.0, -1.0, 2.0]) }).collect();
                g.put(Cmd::Change(f, w));
            }
            if let Some(f) = g.top() {
                g.put(Cmd::Fetch(f, sp.s));
            }
        }
    }
}
