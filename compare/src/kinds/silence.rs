//! Calls on a silence table.
use crate::gen::{CallList, Rng};
use crate::machine::SAlter;
use crate::script::{Cmd, Runner};

pub fn silence(r: &mut Rng, out: &mut CallList) {
    let nan = f32::NAN;
    let np = if r.p(90) { r.n(8) } else { r.pick(&[64, 65, 70]) };
    let phones: Vec<i32> = (0..np).map(|_| r.n(10) as i32 - 2).collect();
    let w = match r.n(10) {
        0 => 0.0,
        1 => 1.0,
        2 => r.pick(&[nan, f32::INFINITY]),
        3 => -0.0,
        4 => r.pick(&[f32::MAX, -f32::MAX, 1e-45]),
        _ => r.unit() as f32,
    };
    let sub = if r.p(85) { r.r(1, 4) } else { r.pick(&[0, 1, 16, 17, u64::MAX]) };
    let room = match r.n(10) {
        0 => r.n(5),
        1 => 1_000_000,
        2 => 2_000_000,
        _ => r.r(50, 400),
    };
    out.cmds.push(Cmd::Table(room, w, sub, phones));
    let mut run = Runner::default();
    run.exec(&out.cmds[0]);
    if run.sil.is_none() {
        return;
    }
    let first: u64 = if r.p(70) { 0 } else { r.pick(&[1, 7, 100, 999_999_990, 1_000_000_000]) };
    let mut dec = 0u64;
    for _ in 0..r.r(2, 14) {
        let mut now = vec![];
        if r.p(50) {
            // traceback
            if r.p(60) {
                dec = (dec + r.n(60)).min(room);
            }
            let n = match r.n(25) {
                0 => room + 1,
                1 => 1_000_001,
                2 => r.n(dec + 1),
                3 => u64::MAX,
                _ => dec,
            };
            let (mut p, mut s, mut e) = (vec![], vec![], vec![]);
            let mut at = if r.p(80) { 0 } else { r.n(dec + 1) };
            while at < dec && p.len() < 40 {
                let end = at + r.n(9);
                p.push(r.n(10) as i32 - 2);
                s.push(at);
                e.push(end);
                at = if r.p(85) { end } else { end + r.n(4) };
                if r.p(5) {
                    at = at.saturating_sub(6);
                }
            }
            if r.p(5) && !p.is_empty() {
                let k = r.n(p.len() as u64) as usize;
                s[k] = r.pick(&[u64::MAX, 5_000_000, dec]);
            }
            if r.p(5) && !p.is_empty() {
                let k = r.n(p.len() as u64) as usize;
                e[k] = r.pick(&[u64::MAX, 5_000_000, 0]);
            }
            match r.n(25) {
                0 => {
                    p.pop();
                }
                1 => {
                    s.push(3);
                }
                2 => {
                    e.pop();
                }
                _ => {}
            }
            now.push(Cmd::Trace(n, p, s, e));
        } else {
            let ready = match r.n(20) {
                0 => first,
                1 => first.saturating_sub(1),
                2 => r.pick(&[1_000_000_000, 1_000_000_001, u64::MAX]),
                3 => first + (room + 1) * sub,
                4 => first + room * sub,
                5 => first + r.n(400),
                _ => first + dec * sub + r.n(10),
            };
            let fst = if r.p(95) { first } else { r.pick(&[1_000_000_001, u64::MAX, 0]) };
            let (a, b) = if r.p(90) { (100_000, 100_000) } else { (r.n(40), r.n(40)) };
            let big = room > 100_000 && ready.saturating_sub(fst) / sub > 5000 && ready.saturating_sub(fst) / sub <= room.min(1_000_000);
            if big {
                continue;
            }
            now.push(Cmd::Weigh(ready, fst, a, b));
        }
        for c in now {
            if r.p(6) {
                let al = match r.n(7) {
                    0 => SAlter::Room(r.pick(&[-1, 1])),
                    1 => SAlter::Len(room + 1),
                    2 => SAlter::Sub(r.pick(&[0, 17])),
                    3 => SAlter::Weight(f32::NAN.to_bits()),
                    4 => SAlter::Phones(65),
                    5 => SAlter::Weight(f32::INFINITY.to_bits()),
                    _ => SAlter::Len(u64::MAX),
                };
                let mut copy = run.clone();
                copy.sal = vec![al.clone()];
                copy.exec(&c);
                if matches!(&copy.last, Some(a) if a.refusal == 10) {
                    out.cmds.push(Cmd::SAlter(al));
                    out.cmds.push(c.clone());
                }
            }
            run.exec(&c);
            out.cmds.push(c);
        }
    }
    // exact answer rooms: enough and one short
    let ready = first + dec * sub + 1;
    let mut copy = run.clone();
    copy.exec(&Cmd::Weigh(ready, first, u64::MAX, u64::MAX));
    if let Some(v) = copy.last_weigh {
        let n = v.len() as u64;
        if n > 0 {
            out.cmds.push(Cmd::Weigh(ready, first, n - 1, n));
            out.cmds.push(Cmd::Weigh(ready, first, n, n - 1));
            out.cmds.push(Cmd::Weigh(ready, first, n, n));
        }
    }
}
