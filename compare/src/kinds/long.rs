//! Utterance after utterance in small rooms.
use crate::gen::{build, frame, give, rand_opts, weight, CallList, Rng};
use crate::script::{Cmd, Runner};

pub fn long(r: &mut Rng, out: &mut CallList) {
    let mut o = rand_opts(r);
    if r.p(50) {
        o.window = r.r(1, 9);
    }
    if o.posterior_scale.abs() > 10.0 {
        o.posterior_scale = 0.1;
    }
    let (g, d, s, base) = (r.r(1, 4) as usize, r.r(1, 3) as usize, r.r(1, 3) as usize, r.r(1, 2) as usize);
    let sp = build(r, o, g, g, d, s, base, false);
    give(&mut out.cmds, &sp);
    out.cmds.push(Cmd::Model([0; 8]));
    let b = base as u64;
    let f = r.r(10, 24) + o.left + o.right;
    let rows = f + 1 + o.window + r.n(2);
    out.cmds.push(Cmd::Stream([f * b, rows * b, 300, 300], [0; 5]));
    let sub = r.r(1, 3);
    let weighted = r.p(70);
    out.cmds.push(Cmd::Table(500, if r.p(70) { 0.25 } else { weight(r) }, sub, vec![1, 2]));
    let mut run = Runner::default();
    for c in &out.cmds {
        run.exec(c);
    }
    if run.sil.is_none() || run.stream.is_none() {
        return;
    }
    let mut put = |run: &mut Runner, c: Cmd| {
        run.exec(&c);
        out.cmds.push(c);
    };
    for _ in 0..r.r(10, 30) {
        let st = run.stream.as_ref().unwrap();
        let start = st.accepted();
        if r.p(85) {
            put(&mut run, Cmd::Forget(start));
        }
        // a new table for a new utterance
        if r.p(90) {
            let (w, sub) = (run.sil.as_ref().unwrap().weight, run.sil.as_ref().unwrap().sub);
            put(&mut run, Cmd::Table(500, w, sub, vec![1, 2]));
        }
        let first = if r.p(96) { start } else { 0 };
        for _ in 0..r.r(1, 3) {
            for _ in 0..r.r(1, 9) {
                put(&mut run, Cmd::Push(frame(r, &o, base, false)));
            }
            if weighted {
                let dec = run.stream.as_ref().unwrap().ready().saturating_sub(first) / sub;
                let (mut p, mut s, mut e) = (vec![], vec![], vec![]);
                let mut at = 0;
                while at < dec {
                    let n = r.r(1, 4);
                    p.push(r.n(5) as i32);
                    s.push(at);
                    e.push(at + n);
                    at += n;
                }
                put(&mut run, Cmd::Trace(dec, p, s, e));
                let ready = run.stream.as_ref().unwrap().ready();
                put(&mut run, Cmd::Weigh(ready, first, 2000, 2000));
                if let Some(v) = run.last_weigh.clone() {
                    put(&mut run, Cmd::Change(v.iter().map(|x| x.0).collect(), v.iter().map(|x| x.1).collect()));
                }
            }
            let ready = run.stream.as_ref().unwrap().ready();
            if ready > 0 {
                put(&mut run, Cmd::Fetch(ready - 1, s));
            }
            if r.p(30) {
                let next = run.stream.as_ref().unwrap().next;
                put(&mut run, Cmd::Forget(next));
            }
            if r.p(20) {
                let f = r.n(ready + 1);
                put(&mut run, Cmd::Fetch(f, s));
            }
        }
    }
    put(&mut run, Cmd::Finish);
    let acc = run.stream.as_ref().unwrap().accepted();
    put(&mut run, Cmd::Fetch(acc.saturating_sub(1), s));
}
