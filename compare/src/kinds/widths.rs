//! Call lists for request 5: models whose blocks have either width, damaged or cut, and a stream over them.
use crate::gen::{build, frame, give, spec, CallList, File, Kind, Rng, Spec};
use crate::kinds::damage::{cuts_of, damage_of};
use crate::machine::{Options, DEFAULT};
use crate::script::Cmd;

/// An f64 that a table of f32 keeps as a number near x: x itself, one between its neighbours, a tie, or one at the edges of f32.
fn near(r: &mut Rng, x: f32, positive: bool) -> f64 {
    let y = f64::from(x);
    let next = f64::from(f32::from_bits(x.to_bits() + 1));
    let v = match r.n(8) {
        0 | 1 => y,
        2 => (y + next) / 2.0,
        3 => f64::from_bits(((y + next) / 2.0).to_bits() + r.n(3) - 1),
        4 => y + (next - y) * r.unit(),
        // below half a place above the largest f32
        5 => f64::from_bits(0x47ef_ffff_f000_0000 - 1 - r.n(3)),
        // above half of the least f32, and among those that have few digits
        6 => f64::from_bits(0x3690_0000_0000_0001 + r.n(3)),
        _ => f64::from_bits(0x3690_0000_0000_0001 + r.n(24 << 52)),
    };
    let k = v as f32;
    if k.is_finite() && (!positive || k > 0.0) {
        v
    } else {
        y
    }
}

fn file(r: &mut Rng, f: &File, percent: u64) -> File {
    let mut out = File::default();
    let mut at = 0;
    let mut other = false;
    for it in &f.items {
        // blanks before a token
        out.b.extend(&f.b[at..it.at]);
        at = it.at + it.len;
        let b = &f.b[it.at..at];
        match it.kind {
            Kind::Token => {
                let mut b = b.to_vec();
                other = matches!(b[..], [b'F' | b'D', b'V' | b'M' | b'P', _]) && r.p(percent);
                if other {
                    b[0] ^= b'F' ^ b'D';
                }
                out.put(it.kind, &b);
            }
            Kind::Size if b == [8] => {
                other = r.p(percent);
                out.put(it.kind, &[if other { 4 } else { 8 }]);
            }
            Kind::F32(p) if other => {
                let x = f32::from_le_bytes(b.try_into().unwrap());
                out.put(Kind::Narrowed(p), &near(r, x, p).to_le_bytes());
            }
            Kind::F64 if other => {
                let x = f64::from_le_bytes(b.try_into().unwrap()) as f32;
                out.put(Kind::Widened, &if x.is_finite() { x } else { 3.5 }.to_le_bytes());
            }
            Kind::Skipped if other => {
                let v = r.next().to_le_bytes();
                out.put(it.kind, &v[..12 - b.len()]);
            }
            kind => out.put(kind, b),
        }
    }
    out.b.extend(&f.b[at..]);
    out
}

/// The same model with `percent` of its blocks at the other width.
pub fn mixed(r: &mut Rng, sp: &Spec, percent: u64) -> Spec {
    let mut m = sp.clone();
    for k in 0..3 {
        m.files[k] = file(r, &sp.files[k], percent);
    }
    m
}

pub fn widths(r: &mut Rng, out: &mut CallList) {
    let percent = r.pick(&[10, 50, 50, 50, 90, 100]);
    match r.n(10) {
        0 => {
            let (g, d, s) = (r.r(1, 2) as usize, r.r(1, 2) as usize, r.r(1, 2) as usize);
            let o = Options { left: 0, right: r.n(2), ..DEFAULT };
            let sp = build(r, o, g, g, d, s, 1, false);
            let sp = mixed(r, &sp, percent);
            cuts_of(out, &sp);
        }
        1..=4 => {
            let wild = r.p(20);
            let sp = spec(r, wild);
            let sp = mixed(r, &sp, percent);
            damage_of(r, out, sp, percent);
        }
        _ => {
            let wild = r.p(50);
            let sp = spec(r, wild);
            let sp = mixed(r, &sp, percent);
            give(&mut out.cmds, &sp);
            out.cmds.push(Cmd::Model([0; 8]));
            out.expect.push((out.cmds.len() - 1, 0));
            if r.p(50) {
                out.cmds.push(Cmd::Tables);
            }
            let b = sp.base as u64;
            out.cmds.push(Cmd::Stream([24 * b, (26 + sp.opts.window) * b, 10, 10], [0; 5]));
            for t in 0..r.r(1, 20) {
                out.cmds.push(Cmd::Push(frame(r, &sp.opts, sp.base, wild)));
                if r.p(30) {
                    out.cmds.push(Cmd::Fetch(r.n(t + 1), sp.s));
                }
            }
            out.cmds.push(Cmd::Finish);
            out.cmds.push(Cmd::Fetch(0, sp.s));
        }
    }
}
