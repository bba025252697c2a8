//! Call lists for request 12: new windows around forgets.
use crate::gen::{build, frame, rand_opts, weight, CallList, Rng};
use crate::kinds::calls::forge;
use crate::kinds::Going;
use crate::machine::Stream;
use crate::script::Cmd;

/// A window to ask for, with the edges of 31 and 32.
pub fn some_window(r: &mut Rng, st: &Stream) -> u64 {
    match r.n(20) {
        0 => r.pick(&[0, 1001, u64::MAX, 1 << 32]),
        1 => 1,
        2 if r.p(30) => 1000,
        3 | 4 => st.longest,
        5 | 6 => st.longest + 1,
        7 => st.window,
        8 => st.mark + 1,
        9 => st.mark + 2,
        10 => st.longest.saturating_sub(1),
        11 | 12 => st.longest + r.r(1, 9),
        _ => r.r(1, st.longest.min(20) + 2),
    }
}

pub fn window(r: &mut Rng, out: &mut CallList) {
    let mut g = Going::new(out);
    let mut o = rand_opts(r);
    o.left = r.n(3);
    o.right = r.n(2);
    o.window = r.r(2, 12);
    o.global_frames = if r.p(70) { r.r(1, 8) } else { 200 };
    if o.min_energy.abs() > 1e9 {
        o.min_energy = 1.0;
    }
    o.posterior_scale = 0.1;
    let (n, base) = (r.r(2, 3) as usize, r.r(1, 2) as usize);
    let sp = build(r, o, n, n, 2, 2, base, false);
    g.model(&sp);
    let b = base as u64;
    for _ in 0..3 {
        let f = r.r(4, 14) + o.left + o.right;
        // rows enough, just enough, or too few
        let rows = match r.n(4) {
            0 => f + 1 + o.window + r.n(10),
            1 => r.r(2, f + o.window),
            2 => f + o.window,
            _ => f + r.r(1, 4),
        };
        g.put(Cmd::Stream([f * b, rows.max(2) * b, 60, 60], [0; 5]));
        let weighted = r.p(35);
        for _ in 0..r.r(20, 60) {
            let st = g.st();
            let (acc, next, ready) = (st.accepted(), st.next, st.ready());
            let full = acc - st.mark >= f;
            match if full && r.p(80) { r.r(36, 99) } else { r.n(100) } {
                0..=39 => {
                    for _ in 0..r.r(1, 4) {
                        g.put(Cmd::Push(frame(r, &o, base, false)));
                    }
                }
                40..=58 => {
                    let c = Cmd::Window(some_window(r, st));
                    if r.p(10) {
                        forge(r, &sp, &g.run, &c, &mut g.out.cmds);
                    }
                    g.put(c);
                }
                59..=73 => {
                    let f = match r.n(8) {
                        0 => 0,
                        1 => st.mark,
                        2 => acc + r.n(3),
                        3 => next.saturating_sub(r.n(4)),
                        _ => next,
                    };
                    g.put(Cmd::Forget(f));
                    if r.p(8) {
                        let c = Cmd::Finish;
                        forge(r, &sp, &g.run, &c, &mut g.out.cmds);
                    }
                }
                74..=80 if weighted => {
                    let lo = (st.mark + o.left).max(st.floor).min(acc + 20);
                    let f: Vec<u64> = (0..r.r(0, 5)).map(|_| r.r(lo, ready.max(lo) + 1)).collect();
                    let w = f.iter().map(|_| weight(r)).collect();
                    g.put(Cmd::Change(f, w));
                }
                74..=96 => {
                    if let Some(f) = g.top() {
                        g.put(Cmd::Fetch(if r.p(75) { f } else { r.n(f + 1) }, 2));
                    }
                }
                _ if r.p(10) => g.put(Cmd::Finish),
                _ => {}
            }
        }
    }
}
