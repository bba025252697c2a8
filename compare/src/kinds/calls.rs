//! Call lists over a stream, with numbers of every size, and forged records.
use crate::gen::{frame, give, spec, weight, CallList, Rng, Spec};
use crate::machine::Alter;
use crate::script::{Cmd, Runner};

pub fn calls(r: &mut Rng, out: &mut CallList, wild: bool, forged: bool) {
    let sp = spec(r, wild);
    give(&mut out.cmds, &sp);
    let md: [i64; 8] = std::array::from_fn(|_| if r.p(80) { 0 } else { r.n(4) as i64 });
    out.cmds.push(Cmd::Model(md));
    if r.p(20) {
        out.cmds.push(Cmd::Tables);
    }
    let b = sp.base as u64;
    let small = r.p(25);
    let fcap = if small { r.r(1, 8) } else { r.r(20, 80) };
    let rcap = if small && r.p(50) { r.r(2, 10) } else { fcap + sp.opts.window + 2 };
    let wcap = if r.p(20) { r.n(6) } else { r.r(20, 3000) };
    let lens = [fcap * b + r.n(b), rcap * b + r.n(b), wcap + if r.p(10) { r.n(3) } else { 0 }, wcap + if r.p(10) { r.n(3) } else { 0 }];
    let sd: [i64; 5] = std::array::from_fn(|_| if r.p(80) { 0 } else { r.n(4) as i64 });
    out.cmds.push(Cmd::Stream(lens, sd));
    let mut run = Runner::default();
    for c in &out.cmds {
        run.exec(c);
    }
    if run.stream.is_none() {
        return;
    }
    let weighted = r.p(65);
    let n = r.r(5, 70);
    for _ in 0..n {
        let st = run.stream.as_ref().unwrap();
        let (acc, next, ready) = (st.accepted(), st.next, st.ready());
        let mut now: Vec<Cmd> = vec![];
        let full = acc - st.mark >= fcap;
        match if full && r.p(85) { r.r(45, 96) } else { r.n(100) } {
            0..=44 => {
                for _ in 0..r.r(1, 4) {
                    let mut x = frame(r, &sp.opts, sp.base, wild);
                    if r.p(2) {
                        if r.p(50) {
                            x.push(1.0);
                        } else {
                            x.pop();
                        }
                    } else if r.p(2) {
                        let k = r.n(x.len() as u64) as usize;
                        x[k] = r.pick(&[f32::NAN, f32::INFINITY, f32::NEG_INFINITY]);
                        if r.p(20) {
                            x.push(0.0);
                        }
                    }
                    now.push(Cmd::Push(x));
                }
            }
            45..=59 => {
                // change
                if !weighted && r.p(97) {
                    continue;
                }
                let k = match r.n(30) {
                    0 => 0,
                    1 => 384,
                    2 => r.pick(&[385, 1024]),
                    3..=6 => r.r(1, 3),
                    _ => r.r(1, 12),
                };
                let floor = st.floor.min(acc + 100);
                let lo = floor.max(st.mark + if st.mark > 0 { sp.opts.left } else { 0 });
                let lo = if r.p(85) { lo } else { lo.saturating_sub(r.r(1, 2)) };
                let hi = acc.max(lo) + r.n(6);
                let mut fr: Vec<u64> = (0..k).map(|_| r.r(lo, hi)).collect();
                let mut w: Vec<f32> = (0..k).map(|_| weight(r)).collect();
                if r.p(50) {
                    fr.sort();
                }
                if r.p(3) {
                    w.pop();
                }
                if r.p(3) && !fr.is_empty() {
                    let i = r.n(fr.len() as u64) as usize;
                    fr[i] = r.pick(&[999_999_999, 1_000_000_000, 4_000_000_000, u64::MAX]);
                }
                if r.p(3) && st.mark > 0 && k > 0 {
                    // two faults: the lower number answers
                    fr[0] = floor.max(st.mark + sp.opts.left).saturating_sub(1);
                    match r.n(3) {
                        0 => fr[k as usize - 1] = 1_000_000_000,
                        1 => {
                            if let Some(x) = w.last_mut() {
                                *x = f32::NAN
                            }
                        }
                        _ => {}
                    }
                }
                if r.p(3) && !w.is_empty() {
                    let i = r.n(w.len() as u64) as usize;
                    w[i] = r.pick(&[f32::NAN, f32::INFINITY, f32::NEG_INFINITY]);
                }
                now.push(Cmd::Change(fr, w));
            }
            60..=74 => {
                let f = match r.n(6) {
                    0 => r.n(acc + 2),
                    1 => next,
                    // it ends all changes
                    2 if r.p(5) => u64::MAX,
                    2 => next + r.n(3),
                    3 => next.saturating_sub(r.n(5)),
                    _ => r.n(next + 1),
                };
                now.push(Cmd::Forget(f));
            }
            75..=96 => {
                let f = match r.n(8) {
                    0 => r.n(acc + 3),
                    1 if next > 0 => r.n(next),
                    2 => ready,
                    3 => ready.saturating_sub(1),
                    4 if st.highest >= 0 => (st.highest as u64).min(ready.saturating_sub(1)),
                    5 => r.pick(&[u64::MAX, 1_000_000_000, 0]),
                    _ => {
                        if ready > next {
                            let top = if st.taken { (st.highest.max(0) as u64).min(ready - 1) } else { ready - 1 };
                            if top >= next {
                                r.r(next, top)
                            } else {
                                next
                            }
                        } else {
                            next
                        }
                    }
                };
                let o = if r.p(97) { sp.s } else { r.pick(&[0, sp.s + 1, sp.s.wrapping_sub(1)]) };
                now.push(Cmd::Fetch(f, o));
            }
            _ => {
                if r.p(40) {
                    now.push(Cmd::Finish)
                }
            }
        }
        for c in now {
            if forged && r.p(30) {
                forge(r, &sp, &run, &c, &mut out.cmds);
            }
            run.exec(&c);
            out.cmds.push(c);
        }
    }
}

/// A copy of the call with a forged record before it, kept only if the machine refuses it.
pub fn forge(r: &mut Rng, sp: &Spec, run: &Runner, c: &Cmd, out: &mut Vec<Cmd>) {
    let st = run.stream.as_ref().unwrap();
    let (acc, next, mark) = (st.accepted(), st.next, st.mark);
    let left = sp.opts.left;
    let mut fields: Vec<(&str, u64)> = vec![
        ("accepted", 1_000_000_001),
        ("accepted", next.saturating_sub(1)),
        ("next", acc + 1),
        ("next", u64::MAX),
        ("mark", next.saturating_sub(left) + 1),
        ("mark", u64::MAX),
        ("accepted", mark + st.made[8] / sp.base as u64 + 1),
        ("left", 9),
        ("right", 9),
        ("window", 0),
        ("window", 1001),
        ("global", 0),
        ("global", 10_001),
        ("gselect", 0),
        ("gselect", 33),
        ("iters", 201),
        ("minpost", f32::NAN.to_bits() as u64),
        ("minpost", 1.0f32.to_bits() as u64),
        ("minpost", (-1.0e-45f32).to_bits() as u64),
        ("scale", f32::INFINITY.to_bits() as u64),
        ("energy", f32::NAN.to_bits() as u64),
        ("maxcount", f64::NEG_INFINITY.to_bits()),
        ("gaussg", 0),
        ("gaussg", 1025),
        ("gaussg", sp.ge as u64 + 1),
        ("gausse", 1025),
        ("gausse", 0),
        ("feat", 65),
        ("feat", 0),
        ("ivec", 129),
        ("ivec", 0),
        ("base", 65),
        ("base", 0),
        ("base", sp.base as u64 + 1),
        ("ldacols", 1090),
        ("ldacols", 0),
        ("left", left + 1),
    ];
    if r.p(30) {
        fields = vec![("floor", 0), ("floor", (mark + left).saturating_sub(1)), ("floor", mark / 2)];
    }
    if r.p(30) {
        fields = vec![
            ("window", 0),
            ("window", 1001),
            ("window", st.longest + 1),
            ("longest", st.window - 1),
            ("longest", 0),
            ("longest", 1001),
            ("longest", u64::MAX),
            ("longest", 1000),
            ("longest", st.longest + 1),
        ];
    }
    let mut al: Vec<Alter> = vec![];
    match r.n(10) {
        0 | 1 => {
            let ks: Vec<usize> = match c {
                Cmd::Push(_) => vec![8, 9],
                Cmd::Change(..) => vec![10, 11],
                Cmd::Fetch(..) => (0..17).collect(),
                _ => return,
            };
            al.push(Alter::Room(ks[r.n(ks.len() as u64) as usize], r.pick(&[-1, 1, 7])));
        }
        2 => {
            // waiting out of order, below mark, or past its room
            let w = match r.n(3) {
                0 => vec![(mark + left + 5, 1.0), (mark + left + 4, 1.0)],
                1 if mark > 0 => vec![(mark + left - 1, 0.5)],
                _ => (0..st.made[10].min(st.made[11]) + 1).map(|i| (mark + left + i, 1.0)).collect(),
            };
            if w.len() > 40 {
                return;
            }
            al.push(Alter::Waiting(w));
        }
        3 => {
            // 1,000,000,000 frames are in: refusal 13 (only for pushes)
            if !matches!(c, Cmd::Push(_)) && !matches!(c, Cmd::Step(_, _, b) if b[0] == 1) {
                return;
            }
            al.push(Alter::Waiting(vec![]));
            for (k, v) in [("accepted", 1_000_000_000), ("next", 1_000_000_000), ("mark", 1_000_000_000 - left), ("floor", 1_000_000_000)] {
                al.push(Alter::Field(k.into(), v));
            }
        }
        _ => {
            let (k, v) = fields[r.n(fields.len() as u64) as usize];
            al.push(Alter::Field(k.into(), v));
        }
    }
    let mut copy = run.clone();
    copy.al = al.clone();
    copy.exec(c);
    if matches!(&copy.last, Some(a) if a.refusal == 10 || a.refusal == 13) {
        for a in al {
            out.push(Cmd::Alter(a));
        }
        out.push(c.clone());
    }
}
