//! Request 11, a board with registers: one step over a block of sixteen bytes, on the machine, and lists of steps.
use crate::gen::{build, frame, give, spec, weight, CallList, Rng};
use crate::kinds::calls::forge;
use crate::machine::{ev, Alter, Answer, Stream};
use crate::script::{Cmd, Runner};

/// The plain call that a block's command is.
pub fn command(b: &[u8], frame: &[f32], out: usize) -> Option<Cmd> {
    if b.len() != 16 {
        return None;
    }
    let at = u64::from(u32::from_le_bytes([b[4], b[5], b[6], b[7]]));
    match b[0] {
        1 => Some(Cmd::Push(frame.to_vec())),
        2 => Some(Cmd::Finish),
        3 => Some(Cmd::Forget(at)),
        4 => Some(Cmd::Fetch(at, out)),
        _ => None,
    }
}

/// The step's answer (0, or 10 for a block of another length), and what the plain call answered that it made, if any.
pub fn step(st: &mut Stream, b: &mut [u8], frame: &[f32], out: usize, al: &[Alter]) -> (u32, Option<Answer>) {
    if b.len() != 16 {
        ev("registers: block of another length");
        return (10, None);
    }
    if b[0] > 4 {
        ev("registers: unknown command");
    }
    let (mut flags, mut number) = (b[1] % 4, b[12]);
    let answer = command(b, frame, out).map(|c| match &c {
        Cmd::Push(x) => st.push(x, al),
        Cmd::Finish => st.finish(al),
        Cmd::Forget(f) => st.forget(*f, al),
        Cmd::Fetch(f, n) => st.fetch(*f, *n, al),
        _ => unreachable!(),
    });
    if let Some(a) = &answer {
        flags = u8::from(b[0] == 4 && a.refusal == 0) + 2 * u8::from(a.refusal != 0);
        number = a.refusal as u8;
    } else {
        ev(if flags != 0 || number != 0 { "registers: no command, flags or number kept" } else { "registers: no command" });
    }
    let (held, room) = st.push_room(al).unwrap_or_else(|| {
        ev("registers: record under 10");
        (0, false)
    });
    if !room {
        ev("registers: no room for a push");
    }
    flags += 4 * u8::from(room);
    b[0] = 0;
    b[1] = flags;
    let interrupt = (0..3).any(|i| flags >> i & 1 == 1 && b[2] >> i & 1 == 1);
    ev(if interrupt { "registers: interrupt" } else { "registers: no interrupt" });
    b[3] = u8::from(interrupt);
    b[8..12].copy_from_slice(&(held as u32).to_le_bytes());
    b[12] = number;
    b[13..].fill(0);
    (0, answer)
}

/// A list of steps, with plain changes between them.
pub fn registers(r: &mut Rng, out: &mut CallList) {
    let mut run = Runner::default();
    let mut sp = spec(r, false);
    if r.p(50) {
        sp.opts.window = r.r(1, 9);
    }
    if sp.s > 4 || sp.base > 2 {
        let o = sp.opts;
        sp = build(r, o, 2, 2, 2, 2, 1, false);
    }
    let o = sp.opts;
    let put = |run: &mut Runner, out: &mut CallList, c: Cmd| {
        run.exec(&c);
        out.cmds.push(c);
    };
    let mut v = vec![];
    give(&mut v, &sp);
    v.push(Cmd::Model([0; 8]));
    let b = sp.base as u64;
    let fcap = r.r(1, 12) + if r.p(60) { o.left + o.right } else { 0 };
    let rcap = if r.p(40) { r.r(2, 12) } else { fcap + o.window + 1 };
    v.push(Cmd::Stream([fcap * b, rcap * b, 40, 40], [0; 5]));
    v.into_iter().for_each(|c| put(&mut run, out, c));
    let mut block: Vec<u8> = if r.p(50) { vec![0; 16] } else { (0..16).map(|_| r.next() as u8).collect() };
    let weighted = r.p(40);
    let busy = r.p(50);
    for _ in 0..r.r(30, 120) {
        let st = run.stream.as_ref().unwrap();
        let (acc, next, ready) = (st.accepted(), st.next, st.ready());
        let top = ready.checked_sub(1).map(|k| if st.taken && k >= next { k.min(st.highest.max(0) as u64) } else { k });
        if weighted && r.p(12) {
            let lo = (st.mark + o.left).max(next).min(acc + 20);
            let f: Vec<u64> = (0..r.r(0, 4)).map(|_| r.r(lo, acc.max(lo) + 2)).collect();
            let w = f.iter().map(|_| weight(r)).collect();
            put(&mut run, out, Cmd::Change(f, w));
            continue;
        }
        block[0] = match r.n(20) {
            0 | 1 => 0,
            2 => r.pick(&[5, 6, 255, 128, 9]),
            3 if r.p(40) => 2,
            3..=6 => 3,
            7..=11 => 4,
            _ if busy || acc - st.mark < fcap => 1,
            _ => r.pick(&[1, 3, 4]),
        };
        if r.p(15) {
            block[2] = if r.p(70) { r.n(8) as u8 } else { r.next() as u8 };
        }
        let at: u64 = match r.n(8) {
            0 => r.n(acc + 3),
            1 => next,
            2 => ready.saturating_sub(1),
            3 => ready,
            4 if r.p(15) => r.pick(&[0xFFFF_FFFF, 1_000_000_000, 0x0100_0000]),
            _ if block[0] == 3 => next.saturating_sub(r.n(2)),
            _ => top.unwrap_or(0),
        };
        if r.p(85) {
            block[4..8].copy_from_slice(&(at as u32).to_le_bytes());
        }
        if r.p(5) {
            // what the host may have left in places that are not its own
            for i in [1usize, 3, 8, 9, 10, 11, 12, 13, 14, 15] {
                if r.p(50) {
                    block[i] = r.next() as u8;
                }
            }
        }
        let mut x = frame(r, &o, sp.base, false);
        match r.n(40) {
            0 => x.push(1.0),
            1 => {
                x.pop();
            }
            2 => x[0] = r.pick(&[f32::NAN, f32::INFINITY]),
            _ => {}
        }
        let n = if r.p(96) { sp.s } else { r.pick(&[0, sp.s + 1, sp.s - 1]) };
        if r.p(3) {
            let mut other = block.clone();
            other.resize(r.pick(&[0, 1, 15, 17, 32]), 0x5a);
            put(&mut run, out, Cmd::Step(n, x.clone(), other));
        }
        let c = Cmd::Step(n, x, block.clone());
        if r.p(8) {
            if (1..5).contains(&block[0]) {
                forge(r, &sp, &run, &c, &mut out.cmds);
            } else {
                out.cmds.push(Cmd::Alter(Alter::Field("accepted".into(), 1_000_000_001)));
                out.cmds.push(c.clone());
            }
        }
        run.exec(&c);
        // the host keeps the block as it was left
        block = run.last_block.clone().unwrap();
        out.cmds.push(c);
    }
}
