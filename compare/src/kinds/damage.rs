//! Model bytes that are damaged, or cut short.
use crate::gen::{build, give, spec, CallList, File, Item, Kind, Rng, Spec};
use crate::machine::{Options, DEFAULT};
use crate::script::Cmd;

/// Place of the item after one.
fn it_after(f: &File, it: Item) -> usize {
    f.items.iter().position(|x| x.at == it.at).unwrap() + 1
}

/// One damage at an item: new bytes, expected number.
fn damage_item(r: &mut Rng, f: &File, it: Item) -> Option<(Vec<u8>, u32)> {
    let mut b = f.b.clone();
    if r.p(25) {
        // cut within the item, or before it
        let at = it.at + r.n(it.len as u64) as usize;
        b.truncate(at);
        return Some((b, 2));
    }
    Some(match it.kind {
        Kind::Mark => {
            let k = r.n(2) as usize;
            b[it.at + k] ^= 1 + r.n(255) as u8;
            (b, 3)
        }
        Kind::Token => {
            let k = r.n(it.len as u64 - 1) as usize;
            let was = b[it.at + k];
            let mut c = was ^ (1 + r.n(255) as u8);
            // not a blank, and not the tag of the other width
            if k == 0 && (c == 32 || c == 10 || c == 9 || was ^ c == b'F' ^ b'D') {
                c = b'x';
            }
            b[it.at + k] = c;
            (b, 3)
        }
        Kind::Size => {
            // the offset's may be 4 or 8
            let own = b[it.at];
            let offset = f.items.get(it_after(f, it)).is_some_and(|n| n.kind.is_number());
            while b[it.at] == own || offset && (b[it.at] == 4 || b[it.at] == 8) {
                b[it.at] = own ^ (1 + r.n(255) as u8);
            }
            if r.p(30) {
                b.truncate(it.at + 1);
            }
            (b, 3)
        }
        Kind::Dim(hi, lo) => {
            let v = match r.n(5) {
                0 => -1,
                1 => i32::MIN,
                2 => hi + 1,
                3 => i32::MAX,
                _ => lo - 1,
            };
            b[it.at..it.at + 4].copy_from_slice(&v.to_le_bytes());
            if r.p(30) {
                b.truncate(it.at + 4);
            }
            (b, 4)
        }
        Kind::WRows => {
            let (v, n) = r.pick(&[(1i32, 5u32), (1_000_000, 5), (1_000_001, 4), (-1, 4), (7, 5)]);
            b[it.at..it.at + 4].copy_from_slice(&v.to_le_bytes());
            if n == 5 && r.p(70) {
                // the rest of <w>'s lengths is the size byte and four bytes
                match r.n(4) {
                    0 => {
                        b.truncate(it.at + 9);
                        return Some((b, 5));
                    }
                    1 => {
                        b.truncate(it.at + 4 + r.n(5) as usize);
                        return Some((b, 2));
                    }
                    2 => {
                        b[it.at + 4] ^= 1 + r.n(255) as u8;
                        return Some((b, 3));
                    }
                    _ => {
                        let c = r.pick(&[-1i32, 1_000_001, i32::MIN]);
                        b[it.at + 5..it.at + 9].copy_from_slice(&c.to_le_bytes());
                        return Some((b, 4));
                    }
                }
            }
            (b, n)
        }
        Kind::F32(pos) => {
            let v = match r.n(if pos { 6 } else { 3 }) {
                0 => f32::NAN,
                1 => f32::INFINITY,
                2 => f32::NEG_INFINITY,
                3 => 0.0,
                4 => -0.0,
                _ => -1.0,
            };
            b[it.at..it.at + 4].copy_from_slice(&v.to_bits().to_le_bytes());
            (b, 6)
        }
        Kind::F64 => {
            let v = r.pick(&[f64::NAN, f64::INFINITY, f64::NEG_INFINITY]);
            b[it.at..it.at + 8].copy_from_slice(&v.to_bits().to_le_bytes());
            (b, 6)
        }
        Kind::Narrowed(pos) => {
            // half a place above the largest f32, and half of the least above 0
            let over = f64::from_bits(0x47ef_ffff_f000_0000);
            let half = f64::from_bits(0x3690_0000_0000_0000);
            let v = match r.n(if pos { 11 } else { 6 }) {
                0 => f64::NAN,
                1 => f64::INFINITY,
                2 => f64::NEG_INFINITY,
                3 => over,
                4 => -over,
                5 => f64::MAX,
                6 => 0.0,
                7 => -0.0,
                8 => half,
                9 => 1e-300,
                _ => -1.0,
            };
            b[it.at..it.at + 8].copy_from_slice(&v.to_bits().to_le_bytes());
            (b, 6)
        }
        Kind::Widened => {
            let v = r.pick(&[f32::NAN, f32::INFINITY, f32::NEG_INFINITY]);
            b[it.at..it.at + 4].copy_from_slice(&v.to_bits().to_le_bytes());
            (b, 6)
        }
        Kind::Skipped => return None,
    })
}

fn damage_text(r: &mut Rng, b: &[u8]) -> Vec<u8> {
    let t = String::from_utf8(b.to_vec()).unwrap();
    let mut v = b.to_vec();
    match r.n(14) {
        0 => {
            // cut before the ]
            let end = t.rfind(']').unwrap();
            v.truncate(r.n(end as u64 + 1) as usize);
            v
        }
        1 => t.replace('[', "").into_bytes(),
        2 => t.replace(']', "").into_bytes(),
        3 => t.replace(']', "] x").into_bytes(),
        4 => {
            let end = t.rfind(']').unwrap();
            let w = r.pick(&[
                "nan",
                "inf",
                "1e",
                "e5",
                ".",
                "+",
                "1.2.3",
                "1e+",
                "--1",
                "0x10",
                "1_0",
                "9007199254740992",
                "1e23",
                "1e-23",
                "10.5e-22",
                "0e23",
                "-1E+23",
                "0.00000000000000000000001",
                "infinity",
                "1,5",
                "1e2.0",
                "1f",
                "[",
                "]",
            ]);
            // in place of the last number, so that nothing else is wrong
            let body = t[..end].trim_end();
            let cut = body.rfind(|c: char| c.is_ascii_whitespace() || c == '\x0b' || c == '[').unwrap() + 1;
            format!("{}{w}{}", &body[..cut], &t[end..]).into_bytes()
        }
        5 => t.replacen('\n', " ", 100).into_bytes(),
        6 => {
            let end = t.rfind(']').unwrap();
            format!("{} \n 1 2 {}", &t[..end], &t[end..]).into_bytes()
        }
        7 => {
            let end = t.rfind(']').unwrap();
            format!("{} 5 {}", &t[..end], &t[end..]).into_bytes()
        }
        8 => {
            v.push(r.pick(&[0x80u8, 0xff, 0xc2]));
            v
        }
        9 => {
            v.resize(65_537, b' ');
            v
        }
        10 => vec![],
        11 => b"[ ]".to_vec(),
        12 => {
            // count not above 0
            let k = r.pick(&["0", "-1", "-0", "0e5", "0.0", "-1e-22"]);
            format!("[ 1 {k}\n 1 1 ]").into_bytes()
        }
        _ => {
            let k = r.r(66, 70) as usize;
            let one = vec!["1"; if r.p(50) { k } else { 1 }].join(" ");
            format!("[{one}\n{one}]").into_bytes()
        }
    }
}

pub fn damage(r: &mut Rng, out: &mut CallList) {
    let wild = r.p(20);
    let sp = spec(r, wild);
    damage_of(r, out, sp, 0);
}

/// `percent` of the blocks have the other width, also in files that are put in.
pub fn damage_of(r: &mut Rng, out: &mut CallList, sp: Spec, percent: u64) {
    give(&mut out.cmds, &sp);
    out.cmds.push(Cmd::Model([0; 8]));
    out.expect.push((out.cmds.len() - 1, 0));
    for _ in 0..12 {
        let k = r.n(4) as usize;
        if k == 3 {
            let b = damage_text(r, &sp.files[3].b);
            out.cmds.push(Cmd::Bytes(3, b));
            out.cmds.push(Cmd::Model([0; 8]));
            out.expect.push((out.cmds.len() - 1, 7));
            out.cmds.push(Cmd::Bytes(3, sp.files[3].b.clone()));
            continue;
        }
        let f = &sp.files[k];
        match r.n(10) {
            0 => {
                // byte noise, nothing expected
                let mut b = f.b.clone();
                for _ in 0..r.r(1, 3) {
                    let i = r.n(b.len() as u64) as usize;
                    match r.n(3) {
                        0 => b[i] = r.next() as u8,
                        1 => {
                            b.remove(i);
                        }
                        _ => b.insert(i, r.next() as u8),
                    }
                }
                out.cmds.push(Cmd::Bytes(k, b));
                out.cmds.push(Cmd::Model([0; 8]));
            }
            1 => {
                // a disagreement: this file from a model with other dimensions
                let (mut g, mut ge, mut d, mut s, mut base) = (sp.g, sp.ge, sp.d, sp.s, sp.base);
                let mut n = 5;
                match r.n(4) {
                    0 => d += 1,
                    1 => g = ge + 1,
                    2 => base += 2,
                    _ => {
                        s += 1;
                        n = 0;
                    }
                }
                if k == 1 && g != sp.g {
                    ge = sp.g - 1;
                    if ge == 0 {
                        continue;
                    }
                }
                let mut other = build(r, sp.opts, g, ge, d, s, base, false);
                if percent > 0 {
                    other = crate::kinds::widths::mixed(r, &other, percent);
                }
                let touched = match k {
                    0 => d != sp.d || g != sp.g,
                    1 => d != sp.d || ge != sp.ge,
                    _ => d != sp.d || base != sp.base,
                };
                if !touched {
                    n = 0;
                }
                out.cmds.push(Cmd::Bytes(k, other.files[k].b.clone()));
                out.cmds.push(Cmd::Model([0; 8]));
                out.expect.push((out.cmds.len() - 1, n));
                // a later file's fault still comes first: a bad text
                if n == 5 && r.p(50) {
                    out.cmds.push(Cmd::Bytes(3, b"[ 1 2".to_vec()));
                    out.cmds.push(Cmd::Model([0; 8]));
                    out.expect.push((out.cmds.len() - 1, 7));
                    out.cmds.push(Cmd::Bytes(3, sp.files[3].b.clone()));
                }
            }
            2 => {
                // within a file: shrink one matrix by a row by rewriting it
                if let Some(mut b) = disagree_inside(r, &sp, k) {
                    let mut n = 5;
                    let gone = f.b.len() - b.len();
                    let last = f.items[f.items.len() - 1];
                    let end = last.at + last.len - gone;
                    match r.n(4) {
                        // a later fault of the same file comes first
                        0 => {
                            b.truncate(end - 1);
                            n = 2;
                        }
                        // all ones: a NaN at either width
                        1 if k == 0 => {
                            b[end - last.len..end].fill(0xff);
                            n = 6;
                        }
                        1 => {
                            let it = f.items[f.items.len() - 2];
                            let at = it.at - gone;
                            b[at..at + it.len].fill(0xff);
                            n = 6;
                        }
                        2 if k == 1 => {
                            b[last.at - gone + 3] ^= 1;
                            n = 3;
                        }
                        _ => {}
                    }
                    out.cmds.push(Cmd::Bytes(k, b));
                    out.cmds.push(Cmd::Model([0; 8]));
                    out.expect.push((out.cmds.len() - 1, n));
                }
            }
            _ => {
                let mut i = r.n(f.items.len() as u64) as usize;
                if k == 1 && r.p(12) {
                    i = f.items.iter().position(|x| x.kind == Kind::WRows).unwrap();
                }
                let isnum = |j: usize| j < f.items.len() && f.items[j].kind.is_number();
                if isnum(i) && isnum(i + 1) && r.p(25) {
                    // the block's extent before its numbers
                    let mut j = i + 1;
                    while isnum(j + 1) && r.p(70) {
                        j += 1;
                    }
                    let mut b = f.b.clone();
                    let at = f.items[i].at;
                    for c in b[at..at + f.items[i].len].iter_mut() {
                        *c = 0xff;
                    }
                    b.truncate(f.items[j].at + r.n(f.items[j].len as u64) as usize);
                    out.cmds.push(Cmd::Bytes(k, b));
                    out.cmds.push(Cmd::Model([0; 8]));
                    out.expect.push((out.cmds.len() - 1, 2));
                    out.cmds.push(Cmd::Bytes(k, f.b.clone()));
                    continue;
                }
                let Some((mut b, n)) = damage_item(r, f, f.items[i]) else { continue };
                // sometimes a second fault at a later place of this file that keeps the layout
                if b.len() == f.b.len() && r.p(40) && i + 1 < f.items.len() && f.items[i].kind != Kind::WRows {
                    let j = r.r(i as u64 + 1, f.items.len() as u64 - 1) as usize;
                    let same_block = f.items[i].kind.is_number();
                    let cuts = File { b: b.clone(), items: f.items.clone() };
                    if let Some((b2, n2)) = damage_item(r, &cuts, f.items[j]) {
                        // an extent is judged before its numbers: a cut in the same block would come first
                        if !(same_block && n2 == 2) {
                            b = b2;
                        }
                    }
                }
                out.cmds.push(Cmd::Bytes(k, b));
                out.cmds.push(Cmd::Model([0; 8]));
                out.expect.push((out.cmds.len() - 1, n));
                if k < 2 && r.p(30) {
                    // a fault in a later file does not come first
                    let f2 = &sp.files[2];
                    let i2 = r.n(f2.items.len() as u64) as usize;
                    if let Some((b2, _)) = damage_item(r, f2, f2.items[i2]) {
                        out.cmds.push(Cmd::Bytes(2, b2));
                        out.cmds.push(Cmd::Model([0; 8]));
                        out.expect.push((out.cmds.len() - 1, n));
                        out.cmds.push(Cmd::Bytes(2, sp.files[2].b.clone()));
                    }
                }
            }
        }
        out.cmds.push(Cmd::Bytes(k, f.b.clone()));
    }
    out.cmds.push(Cmd::Model([0; 8]));
    out.expect.push((out.cmds.len() - 1, 0));
}

/// A file whose own dimensions disagree: one dimension lowered and its numbers taken out.
fn disagree_inside(r: &mut Rng, sp: &Spec, k: usize) -> Option<Vec<u8>> {
    let f = &sp.files[k];
    if k == 2 {
        return None;
    }
    // dims that are followed by numbers
    let dims: Vec<usize> =
        (0..f.items.len()).filter(|&i| matches!(f.items[i].kind, Kind::Dim(h, 1) if h < 1_000_000) && i + 1 < f.items.len()).collect();
    let i = r.pick(&dims);
    // the block: a vector/packed (number follows) or a matrix (size, dim follow)
    let val = |j: usize| i32::from_le_bytes(f.b[f.items[j].at..f.items[j].at + 4].try_into().unwrap()) as usize;
    let isnum = |j: usize| j < f.items.len() && f.items[j].kind.is_number();
    let mut b = f.b.clone();
    if f.items[i + 1].kind == Kind::Size {
        // rows of a matrix
        let (rows, cols) = (val(i), val(i + 2));
        if rows < 2 || !isnum(i + 3) {
            return None;
        }
        b[f.items[i].at..f.items[i].at + 4].copy_from_slice(&(rows as i32 - 1).to_le_bytes());
        let w = f.items[i + 3].len;
        let end = f.items[i + 3].at + rows * cols * w;
        b.drain(end - cols * w..end);
        // all matrices alike? then nothing disagrees (extractor with one M still differs from SigmaInv)
        return Some(b);
    }
    if !isnum(i + 1) {
        return None;
    }
    if i >= 2 && matches!(f.items[i - 2].kind, Kind::Dim(..)) {
        // columns of a matrix
        let (rows, cols) = (val(i - 2), val(i));
        if cols < 2 || (k == 1 && sp.ge == 1) {
            return None;
        }
        b[f.items[i].at..f.items[i].at + 4].copy_from_slice(&(cols as i32 - 1).to_le_bytes());
        let w = f.items[i + 1].len;
        let end = f.items[i + 1].at + rows * cols * w;
        b.drain(end - rows * w..end);
        return Some(b);
    }
    let n = val(i);
    if n < 2 {
        return None;
    }
    b[f.items[i].at..f.items[i].at + 4].copy_from_slice(&(n as i32 - 1).to_le_bytes());
    let w = f.items[i + 1].len;
    // a triangle of the extractor, or the GMM's weights
    let (all, less) = if k == 1 { (n * (n + 1) / 2, n * (n - 1) / 2) } else { (n, n - 1) };
    let from = f.items[i + 1].at;
    b.drain(from + less * w..from + all * w);
    Some(b)
}

pub fn cuts(r: &mut Rng, out: &mut CallList) {
    let (g, d, s) = (r.r(1, 2) as usize, r.r(1, 2) as usize, r.r(1, 2) as usize);
    let o = Options { left: 0, right: r.n(2), ..DEFAULT };
    let sp = build(r, o, g, g, d, s, 1, false);
    cuts_of(out, &sp);
}

pub fn cuts_of(out: &mut CallList, sp: &Spec) {
    give(&mut out.cmds, sp);
    for k in 0..4 {
        let f = &sp.files[k];
        let end = if k == 3 { f.b.iter().position(|&c| c == b']').unwrap() + 1 } else { f.items.last().map_or(0, |i| i.at + i.len) };
        for n in 0..=f.b.len() {
            out.cmds.push(Cmd::Bytes(k, f.b[..n].to_vec()));
            out.cmds.push(Cmd::Model([0; 8]));
            out.expect.push((
                out.cmds.len() - 1,
                if n >= end {
                    0
                } else if k == 3 {
                    7
                } else {
                    2
                },
            ));
        }
    }
}
