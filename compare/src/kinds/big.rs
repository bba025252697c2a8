//! Dimensions at their limits.
use crate::gen::{build, frame, give, rand_opts, weight, CallList, Rng};
use crate::script::Cmd;

pub fn big(r: &mut Rng, out: &mut CallList) {
    let mut o = rand_opts(r);
    o.window = 20;
    let (mut g, mut ge, mut d, mut s, mut base) = (2, 2, 2, 2, 1);
    let mut n = 0;
    match r.n(12) {
        0 => {
            g = 1024;
            ge = 1024;
        }
        1 => d = 64,
        2 => s = 128,
        3 => {
            base = 64;
            o.left = 8;
            o.right = 8;
        }
        4 => {
            g = 1025;
            ge = 1025;
            n = 4;
        }
        5 => ge = 1024,
        6 => {
            ge = 1025;
            n = 4;
        }
        7 => {
            d = 65;
            n = 4;
        }
        8 => {
            s = 129;
            n = 4;
        }
        9 => {
            base = 65;
            o.left = 0;
            o.right = 0;
            n = 7;
        }
        10 => {
            d = 64;
            s = 128;
            g = 8;
            ge = 9;
        }
        _ => {
            base = 64;
            o.left = 8;
            o.right = 8;
            d = 64;
        }
    }
    let sp = build(r, o, g, ge, d, s, base, false);
    give(&mut out.cmds, &sp);
    out.cmds.push(Cmd::Model([0; 8]));
    out.expect.push((out.cmds.len() - 1, n));
    if n != 0 {
        return;
    }
    let b = base as u64;
    out.cmds.push(Cmd::Stream([30 * b, 60 * b, 50, 50], [0; 5]));
    for _ in 0..6 {
        for _ in 0..6 {
            out.cmds.push(Cmd::Push(frame(r, &o, base, false)));
        }
        out.cmds.push(Cmd::Fetch(r.n(30), s));
        out.cmds.push(Cmd::Forget(r.n(30)));
    }
    out.cmds.push(Cmd::Change((0..50).collect(), (0..50).map(|_| weight(r)).collect()));
    out.cmds.push(Cmd::Finish);
    out.cmds.push(Cmd::Fetch(29, s));
    out.cmds.push(Cmd::Fetch(20, s));
}
