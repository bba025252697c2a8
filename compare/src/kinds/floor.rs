//! Call lists for request 8: changes and forgets around the floor.
use crate::gen::{build, frame, rand_opts, weight, CallList, Rng};
use crate::kinds::calls::forge;
use crate::kinds::Going;
use crate::script::Cmd;

pub fn floor(r: &mut Rng, out: &mut CallList) {
    let mut g = Going::new(out);
    let mut o = rand_opts(r);
    o.left = r.pick(&[0, 1, 3, 3, 8]);
    o.window = r.r(1, 30);
    o.posterior_scale = 0.1;
    let sp = build(r, o, 2, 2, 1, 2, 1, false);
    g.model(&sp);
    for _ in 0..2 {
        let room = r.pick(&[3, 6, 40, 40, 400]);
        let f = r.r(6, 30) + o.left + o.right;
        g.put(Cmd::Stream([f, f + 40, room, room], [0; 5]));
        for _ in 0..r.r(20, 60) {
            let st = g.st();
            let (acc, next, mark, fl) = (st.accepted(), st.next, st.mark, st.floor.min(st.accepted() + 50));
            match r.n(100) {
                0..=34 => {
                    for _ in 0..r.r(1, 3) {
                        g.put(Cmd::Push(frame(r, &o, 1, false)));
                    }
                }
                35..=49 => {
                    let low = st.waiting.first().map_or(next, |c| c.0);
                    let f = match r.n(12) {
                        0 => fl,
                        1 => fl + 1,
                        2 => fl.saturating_sub(1),
                        3 => low + r.n(3),
                        4 => low.saturating_sub(1),
                        5 => acc + r.n(4),
                        6 => next + o.left,
                        7 => 0,
                        8 if r.p(8) => r.pick(&[u64::MAX, 1_000_000_000, 999_999_999]),
                        _ => next.saturating_sub(r.n(3)),
                    };
                    g.put(Cmd::Forget(f));
                }
                50..=76 => {
                    let edge = |r: &mut Rng| match r.n(10) {
                        0 => fl.saturating_sub(1),
                        1 | 2 => fl,
                        3 => fl + 1,
                        4 => (mark + o.left).saturating_sub(1),
                        5 => mark + o.left,
                        6 => fl.saturating_sub(r.r(1, 9)),
                        _ => fl + r.n(8),
                    };
                    let k = if r.p(60) { 1 } else { r.r(2, 7) };
                    let mut f: Vec<u64> = (0..k).map(|_| edge(r)).collect();
                    if r.p(40) {
                        // one alone below the floor, at any place
                        f.iter_mut().for_each(|x| *x = (*x).max(fl));
                        let i = r.n(k) as usize;
                        f[i] = fl.saturating_sub(1);
                    } else if r.p(50) {
                        f.iter_mut().for_each(|x| *x = (*x).max(fl));
                    }
                    let mut w: Vec<f32> = f.iter().map(|_| weight(r)).collect();
                    match r.n(15) {
                        0 => w[r.n(k) as usize] = f32::NAN,
                        1 => f[r.n(k) as usize] = 1_000_000_000,
                        2 => {
                            w.pop();
                        }
                        _ => {}
                    }
                    let c = Cmd::Change(f, w);
                    if r.p(6) {
                        forge(r, &sp, &g.run, &c, &mut g.out.cmds);
                    }
                    g.put(c);
                }
                77..=98 => {
                    if let Some(f) = g.top() {
                        g.put(Cmd::Fetch(if r.p(70) { f } else { r.n(f + 1) }, 2));
                    }
                }
                _ => g.put(Cmd::Finish),
            }
        }
    }
}
