//! Request No. 1: the options from the maker's settings texts, on the library, on a reference written from the request, and on the original's own
//! `conf_int`, `conf_float` and the first half of `open`; and the load with two texts beside the load with the options that they give.
use crate::gen::Rng;
use crate::orig::ivector as rust;
use crate::original::HERE;
use crate::machine::{self, model_needs, DEFAULT};
use crate::model;
use crate::rattle::{self, IvectorOptions, Tables};
use shofrakin::sys as c;
use std::collections::BTreeMap;
use std::io::BufRead;

/// The options' numbers, floats as bits.
pub type Fields = [u64; 10];

pub fn fields(o: &IvectorOptions) -> Fields {
    [
        o.left_context as u64,
        o.right_context as u64,
        o.cmn_window as u64,
        o.global_frames as u64,
        o.num_gselect as u64,
        o.num_cg_iters as u64,
        u64::from(o.min_post.to_bits()),
        u64::from(o.posterior_scale.to_bits()),
        o.max_count.to_bits(),
        u64::from(o.min_energy.to_bits()),
    ]
}

fn blank(c: &u8) -> bool {
    *c == 32 || (9..=13).contains(c)
}

fn trim(t: &[u8]) -> &[u8] {
    let from = t.iter().position(|c| !blank(c)).unwrap_or(t.len());
    let to = t.iter().rposition(|c| !blank(c)).map_or(from, |i| i + 1);
    &t[from..to]
}

fn value<'a>(text: &'a [u8], key: &str) -> &'a [u8] {
    let head = format!("--{key}=");
    for line in text.split(|&c| c == 10) {
        if let Some(v) = trim(line).strip_prefix(head.as_bytes()) {
            return trim(v);
        }
    }
    b""
}

fn int(text: &[u8], key: &str, default: u64) -> u64 {
    let v = value(text, key);
    let d = v.strip_prefix(b"+").unwrap_or(v);
    if d.is_empty() || !d.iter().all(u8::is_ascii_digit) {
        return default;
    }
    d.iter().try_fold(0u64, |n, c| n.checked_mul(10)?.checked_add(u64::from(c - 48))).unwrap_or(default)
}

/// Whether a float was read, and whether the original may read another one: a float outside the limits.
enum Energy {
    Read(f32),
    Outside,
    Unreadable,
}

/// A float's sign, digits and power of ten, as the request counts them; numbers far beyond the limits stay there.
fn energy(text: &[u8]) -> Energy {
    let v = value(text, "cmn-min-energy");
    let minus = v.first() == Some(&b'-');
    let rest = if matches!(v.first(), Some(b'+' | b'-')) { &v[1..] } else { v };
    if ["inf", "infinity", "nan"].iter().any(|w| rest.eq_ignore_ascii_case(w.as_bytes())) {
        return Energy::Outside;
    }
    let at = rest.iter().position(|c| matches!(c, b'e' | b'E'));
    let (m, e) = at.map_or((rest, None), |i| (&rest[..i], Some(&rest[i + 1..])));
    let mut parts = m.splitn(2, |&c| c == b'.');
    let (a, b) = (parts.next().unwrap_or(b""), parts.next().unwrap_or(b""));
    let all: Vec<u8> = [a, b].concat();
    if all.is_empty() || !all.iter().all(u8::is_ascii_digit) {
        return Energy::Unreadable;
    }
    let power = match e {
        None => 0,
        Some(e) => {
            let d = e.strip_prefix(b"-").or(e.strip_prefix(b"+")).unwrap_or(e);
            if d.is_empty() || !d.iter().all(u8::is_ascii_digit) {
                return Energy::Unreadable;
            }
            let n = d.iter().fold(0i64, |n, c| (n * 10 + i64::from(c - 48)).min(1 << 40));
            if e[0] == b'-' {
                -n
            } else {
                n
            }
        }
    } - b.len() as i64;
    let digits = all.iter().fold(0u64, |n, c| (n * 10 + u64::from(c - 48)).min(1 << 40));
    if digits >= 1 << 24 || power.abs() > 10 {
        return Energy::Outside;
    }
    // exact in f64 up to one rounding of the quotient, so not used: the nearest f32 from whole numbers
    Energy::Read(nearest(minus, u128::from(digits), power as i32))
}

/// The f32 nearest to digits * 10^power, a tie to the even one, by trying the neighbours of a guess against whole numbers.
fn nearest(minus: bool, digits: u128, power: i32) -> f32 {
    let sign = if minus { 1u32 << 31 } else { 0 };
    if digits == 0 {
        return f32::from_bits(sign);
    }
    let ten = 10u128.pow(power.unsigned_abs());
    let (num, den) = if power < 0 { (digits, ten) } else { (digits * ten, 1) };
    let guess = (num as f64 / den as f64) as f32;
    let mut best = guess;
    for b in guess.to_bits() - 2..=guess.to_bits() + 2 {
        let x = f32::from_bits(b);
        match distance(num, den, x).cmp(&distance(num, den, best)) {
            std::cmp::Ordering::Less => best = x,
            std::cmp::Ordering::Equal if b & 1 == 0 => best = x,
            _ => {}
        }
    }
    f32::from_bits(best.to_bits() | sign)
}

/// |num / den - x| times den * 2^60: whole, as every x here is a multiple of 2^-60.
fn distance(num: u128, den: u128, x: f32) -> u128 {
    let m = u128::from(x.to_bits() & 0x7f_ffff | 0x80_0000);
    let e = (x.to_bits() >> 23) as i32 - 150 + 60;
    (m << e).checked_mul(den).map_or(u128::MAX, |v| v.abs_diff(num << 60))
}

/// The reference: the record, and whether the original is to be compared there; or 25.
pub fn settings(splice: &[u8], cmvn: &[u8]) -> Result<(Fields, bool), usize> {
    if [splice, cmvn].iter().any(|t| t.len() > 65_536 || !t.is_ascii()) {
        return Err(25);
    }
    let e = energy(cmvn);
    let f = [
        int(splice, "left-context", 3),
        int(splice, "right-context", 3),
        int(cmvn, "cmn-window", 600),
        int(cmvn, "global-frames", 200),
        5,
        15,
        u64::from(0.025f32.to_bits()),
        u64::from(0.1f32.to_bits()),
        100.0f64.to_bits(),
        u64::from(if let Energy::Read(x) = e { x } else { 50.0 }.to_bits()),
    ];
    Ok((f, !matches!(e, Energy::Outside)))
}

fn original(splice: &[u8], cmvn: &[u8]) -> Fields {
    let o = rust::settings(std::str::from_utf8(splice).expect("ASCII"), std::str::from_utf8(cmvn).expect("ASCII"));
    [
        o.left_context as u64,
        o.right_context as u64,
        o.cmn_window as u64,
        o.global_frames as u64,
        o.num_gselect as u64,
        o.num_cg_iters as u64,
        u64::from(o.min_post.to_bits()),
        u64::from(o.posterior_scale.to_bits()),
        o.max_count.to_bits(),
        u64::from(o.min_energy.to_bits()),
    ]
}

fn number(r: &mut Rng) -> String {
    let digits = |r: &mut Rng, n: u64| (0..n).map(|_| char::from(b'0' + r.n(10) as u8)).collect::<String>();
    match r.n(12) {
        0 => String::new(),
        1 => format!("{}", r.n(12)),
        2 => format!("{}", r.n(1200)),
        3 => format!("{}{}", "0".repeat(r.n(30) as usize), r.n(1000)),
        4 => r.pick(&["18446744073709551615", "18446744073709551616", "18446744073709551620", "99999999999999999999", "1844674407370955161", "-0", "+0", "-1", "--1", "+"]).into(),
        5 => format!("{}.{}", r.n(100), r.n(1000)),
        6 => format!("{}e{}", r.n(1 << 25), r.n(25) as i64 - 12),
        7 => {
            let (a, b) = (r.n(9), r.n(9));
            format!("{}.{}e{}", digits(r, a), digits(r, b), r.n(41) as i64 - 20)
        }
        8 => r.pick(&["inf", "-Infinity", "nan", "1e", "e5", ".", "5.", ".5", "+.5E+3", "16777215", "16777216", "1677721.5", "1e10", "1e11", "0e11", "1e-10", "1e-11", "5f", "0x5", "1_0", "50.000000", "50.00000", "1.0e11", "-0e0", "3.4.5", "1e5.0"]).into(),
        9 => format!("{}{}e{}", r.pick(&["-", "+"]), (1u64 << 24) - 1 - r.n(4), r.n(23) as i64 - 11),
        10 => {
            let n = 1 + r.n(24);
            digits(r, n)
        }
        _ => (0..r.n(8)).map(|_| char::from(r.pick(b"0123456789.eE+- xn"))).collect(),
    }
}

const KEYS: [&str; 9] = ["left-context", "right-context", "cmn-window", "global-frames", "cmn-min-energy", "cmn-min-energy", "speaker-frames", "Left-Context", "cmn-windows"];

fn text(r: &mut Rng) -> Vec<u8> {
    let mut t = String::new();
    for _ in 0..r.n(9) {
        let pad = |r: &mut Rng| (0..r.n(3)).map(|_| char::from(r.pick(&[32u8, 9, 11, 12, 13]))).collect::<String>();
        let blanks = |r: &mut Rng| if r.n(4) == 0 { pad(r) } else { String::new() };
        let (key, v) = (r.pick(&KEYS), number(r));
        let line = match r.n(20) {
            0 => format!("# {key}={v}"),
            1 => format!("-{key}={v}"),
            2 => format!("--{key} ={v}"),
            3 => format!("--{key}"),
            4 => format!("--{key}=={v}"),
            5 => String::new(),
            _ => format!("--{key}={}{v}", blanks(r)),
        };
        t += &blanks(r);
        t += &line;
        t += &blanks(r);
        t += r.pick(&["\n", "\n", "\n", "\r\n", "\n\n", "\r", ""]);
    }
    let mut b = t.into_bytes();
    if r.n(40) == 0 {
        let i = r.n(b.len() as u64 + 1) as usize;
        b.insert(i, r.n(256) as u8);
    }
    if r.n(400) == 0 {
        let n = 65_535 + r.n(3) as usize;
        b.resize(n.max(b.len()), r.pick(&[10u8, 32, 48]));
    }
    b
}

/// The day's model, which has the default contexts, and the lengths of its tables and of a load's scratch.
struct Files {
    bytes: [Vec<u8>; 4],
    lens: Vec<usize>,
    scratch: usize,
}

impl Files {
    fn new() -> Files {
        let bytes = model::files(&mut Rng::new(1), &DEFAULT, model::SMALL);
        let m = machine::load(&DEFAULT, &bytes[0], &bytes[1], &bytes[2], &bytes[3], &[0; 8]).expect("the machine loads the model");
        let lens = model_needs(&m.dims, &m.opts).map(|n| n as usize).to_vec();
        Files { bytes, lens, scratch: rattle::load_scratch(m.dims.feat, m.dims.ivec) }
    }

    /// The number of a load with the two texts, and whether it did what the load with the options that they give does: number, record, tables and
    /// scratch. Where they give none it is 25, and nothing is written.
    #[rustfmt::skip]
    fn load(&self, splice: &[u8], cmvn: &[u8]) -> (usize, bool) {
        let o = unsafe { c::shofrakin_settings(splice.as_ptr(), splice.len(), cmvn.as_ptr(), cmvn.len()) };
        let ([g, e, l, x], mut t, mut scratch) = (&self.bytes, Tables::new(&self.lens), vec![7.0; self.scratch]);
        let a = unsafe {
            c::shofrakin_load_with_settings(
                splice.as_ptr(), splice.len(), cmvn.as_ptr(), cmvn.len(),
                g.as_ptr(), g.len(), e.as_ptr(), e.len(), l.as_ptr(), l.len(), x.as_ptr(), x.len(),
                t.gconsts.all.as_mut_ptr(), t.gconsts.len, t.means_invvars_t.all.as_mut_ptr(), t.means_invvars_t.len,
                t.inv_vars_t.all.as_mut_ptr(), t.inv_vars_t.len, t.sigma_inv_m.all.as_mut_ptr(), t.sigma_inv_m.len,
                t.u.all.as_mut_ptr(), t.u.len, t.lda_t.all.as_mut_ptr(), t.lda_t.len,
                t.lda_offset.all.as_mut_ptr(), t.lda_offset.len, t.global_mean_stats.all.as_mut_ptr(), t.global_mean_stats.len,
                scratch.as_mut_ptr(), scratch.len(),
            )
        };
        let (mut plain, mut work) = (Tables::new(&self.lens), vec![7.0; self.scratch]);
        if o.refusal != 0 {
            return (a.refusal, a.refusal == o.refusal && t == plain && scratch == work);
        }
        let b = rattle::load_options(o.opts, &self.bytes, &mut plain, &mut work);
        (a.refusal, a == b && t == plain && scratch == work)
    }
}

struct Tally {
    files: Files,
    cases: u64,
    differences: u64,
    original: u64,
    answers: BTreeMap<&'static str, u64>,
}

fn one(t: &mut Tally, splice: &[u8], cmvn: &[u8]) {
    t.cases += 1;
    let got = rattle::settings(splice, cmvn);
    let want = settings(splice, cmvn);
    let mut bad = got != want.map(|w| w.0);
    let mut note = |k| *t.answers.entry(k).or_insert(0) += 1;
    let (n, same) = t.files.load(splice, cmvn);
    bad |= !same || (n == 25) != want.is_err();
    if n == 0 {
        note("a model loaded");
    }
    match want {
        Err(_) => note("refused 25"),
        Ok((f, inside)) => {
            if !inside {
                note("a float outside the limits");
            }
            if HERE {
                // outside, only the energy can differ
                let n = if inside { 10 } else { 9 };
                t.original += u64::from(inside);
                bad |= original(splice, cmvn)[..n] != f[..n];
            }
            for (i, (k, d)) in [("left-context read", 3), ("right-context read", 3), ("cmn-window read", 600), ("global-frames read", 200)].into_iter().enumerate() {
                if f[i] != d {
                    note(k);
                }
            }
            if f[9] != u64::from(50.0f32.to_bits()) {
                note("cmn-min-energy read");
            }
        }
    }
    if bad {
        t.differences += 1;
        if t.differences <= 5 {
            println!("difference: {:?} {:?}\n  library {got:x?}\n  reference {want:x?}", String::from_utf8_lossy(splice), String::from_utf8_lossy(cmvn));
        }
    }
}

fn told(t: &Tally) -> u64 {
    println!("{} pairs of texts, {} of them compared with the original whole; {:?}", t.cases, t.original, t.answers);
    println!("{} differences", t.differences);
    t.differences
}

fn tally() -> Tally {
    Tally { files: Files::new(), cases: 0, differences: 0, original: 0, answers: BTreeMap::new() }
}

/// COUNT random pairs from the seed FIRST on.
pub fn run(first: u64, count: u64) -> u64 {
    let mut t = tally();
    let mut r = Rng::new(first);
    for _ in 0..count {
        let (a, b) = (text(&mut r), text(&mut r));
        one(&mut t, &a, &b);
    }
    told(&t)
}

fn bytes(w: &str) -> Vec<u8> {
    if w == "-" {
        return Vec::new();
    }
    let hex = |h: &str| (0..h.len() / 2).map(|i| u8::from_str_radix(&h[2 * i..2 * i + 2], 16).expect("hex")).collect::<Vec<u8>>();
    w.split('+').flat_map(|p| p.split_once('*').map_or_else(|| hex(p), |(n, h)| hex(h).repeat(n.parse().expect("count")))).collect()
}

/// Lines with their answers (FORMAT.md), and each pair as in `run`.
pub fn lines(input: impl BufRead) -> u64 {
    let mut t = tally();
    for line in input.lines() {
        let line = line.expect("line");
        let Some((q, a)) = line.split_once(" = ") else { continue };
        let q: Vec<&str> = q.split(' ').collect();
        let (splice, cmvn) = (bytes(q[1]), bytes(q[2]));
        let a: Vec<&str> = a.split(' ').collect();
        let want = if a.len() == 1 {
            Err(a[0].parse().expect("refusal"))
        } else {
            let mut f = [0u64; 10];
            for i in 0..10 {
                f[i] = if i < 6 { a[i + 1].parse().expect("number") } else { u64::from_str_radix(a[i + 1], 16).expect("bits") };
            }
            Ok(f)
        };
        if rattle::settings(&splice, &cmvn) != want {
            t.differences += 1;
            println!("difference: {line}");
        }
        one(&mut t, &splice, &cmvn);
    }
    told(&t)
}
