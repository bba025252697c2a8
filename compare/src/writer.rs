//! Request No. 5: a model written back, on the library and on a reference written from the request. What was written is loaded again.
use crate::gen::{self, Rng};
use crate::machine::{self, Options};
use crate::rattle;
use std::collections::BTreeMap;
use std::io::BufRead;

/// f32 or f64.
pub trait Width: Copy + 'static {
    const BYTES: usize;
    /// The first letter of a block's tag.
    const LETTER: u8;
    /// As a table of f32 keeps it, and one of f64.
    fn single(self) -> f32;
    fn double(self) -> f64;
    fn bits(self) -> u64;
    fn from_bits(b: u64) -> Self;
    /// The library's call: the refusal and the three lengths.
    fn library(o: &Options, text: &[u8], p: &Params<Self>, out: &mut [u8]) -> [usize; 4];
}

impl Width for f32 {
    const BYTES: usize = 4;
    const LETTER: u8 = b'F';
    fn single(self) -> f32 {
        self
    }
    fn double(self) -> f64 {
        f64::from(self)
    }
    fn bits(self) -> u64 {
        u64::from(self.to_bits())
    }
    fn from_bits(b: u64) -> f32 {
        f32::from_bits(b as u32)
    }
    fn library(o: &Options, text: &[u8], p: &Params<f32>, out: &mut [u8]) -> [usize; 4] {
        rattle::write_f32(o, text, p, out)
    }
}

impl Width for f64 {
    const BYTES: usize = 8;
    const LETTER: u8 = b'D';
    fn single(self) -> f32 {
        self as f32
    }
    fn double(self) -> f64 {
        self
    }
    fn bits(self) -> u64 {
        self.to_bits()
    }
    fn from_bits(b: u64) -> f64 {
        f64::from_bits(b)
    }
    fn library(o: &Options, text: &[u8], p: &Params<f64>, out: &mut [u8]) -> [usize; 4] {
        rattle::write_f64(o, text, p, out)
    }
}

/// Sizes (Gaussians of GMM and extractor, feature and i-vector dimension, LDA columns) and the lists, row after row.
#[derive(Clone, Debug)]
pub struct Params<T> {
    pub g: usize,
    pub e: usize,
    pub d: usize,
    pub s: usize,
    pub c: usize,
    pub weights: Vec<T>,
    pub means: Vec<T>,
    pub inv_vars: Vec<T>,
    pub m: Vec<T>,
    pub sigma_inv: Vec<T>,
    pub offset: T,
    pub lda: Vec<T>,
}

// ---------------------------------------------------------------- the reference

fn size(n: usize, most: usize) -> Result<(), usize> {
    if n == 0 || n > most { Err(4) } else { Ok(()) }
}

fn list<T: Width>(v: &[T], n: usize, good: impl Fn(T) -> bool) -> Result<(), usize> {
    if v.len() != n {
        return Err(5);
    }
    if v.iter().all(|&x| good(x)) { Ok(()) } else { Err(6) }
}

/// The three lengths, from the sizes alone.
fn lengths<T: Width>(p: &Params<T>) -> [usize; 3] {
    let (w, half) = (T::BYTES, p.d * (p.d + 1) / 2);
    [112 + w * p.g * (1 + 2 * p.d), 111 + w + p.e * (21 + w * (p.d * p.s + half)), 15 + w * p.d * p.c]
}

fn judge<T: Width>(o: &Options, text: &[u8], p: &Params<T>, room: usize) -> Result<(), usize> {
    if !machine::options_ok(o) {
        return Err(1);
    }
    let single = |x: T| x.single().is_finite();
    let above_0 = |x: T| x.single().is_finite() && x.single() > 0.0;
    let double = |x: T| x.double().is_finite();
    size(p.g, 1024)?;
    list(&p.weights, p.g, above_0)?;
    size(p.d, 64)?;
    list(&p.means, p.g * p.d, single)?;
    list(&p.inv_vars, p.g * p.d, above_0)?;
    size(p.e, 1024)?;
    size(p.s, 128)?;
    list(&p.m, p.e * p.d * p.s, double)?;
    list(&p.sigma_inv, p.e * (p.d * (p.d + 1) / 2), double)?;
    list(&[p.offset], 1, double)?;
    size(p.c, 1089)?;
    list(&p.lda, p.d * p.c, single)?;
    let base = machine::cmvn_row(text).ok_or(7usize)?.len() - 1;
    let spliced = base * (o.left + 1 + o.right) as usize;
    if (p.c != spliced && p.c != spliced + 1) || p.g > p.e {
        return Err(5);
    }
    if room < lengths(p).iter().sum() {
        return Err(26);
    }
    Ok(())
}

fn token(out: &mut Vec<u8>, t: &str) {
    out.extend(t.as_bytes());
    out.push(b' ');
}

fn whole(out: &mut Vec<u8>, n: usize) {
    out.push(4);
    out.extend((n as i32).to_le_bytes());
}

fn numbers<T: Width>(out: &mut Vec<u8>, v: &[T]) {
    for &x in v {
        out.extend(&x.bits().to_le_bytes()[..T::BYTES]);
    }
}

fn block<T: Width>(out: &mut Vec<u8>, kind: u8, sizes: &[usize], v: &[T]) {
    out.extend([T::LETTER, kind, b' ']);
    for &n in sizes {
        whole(out, n);
    }
    numbers(out, v);
}

/// The GMM's file; the numbers' width is the slices'.
fn gmm_file<T: Width>(g: usize, d: usize, weights: &[T], means: &[T], inv_vars: &[T]) -> Vec<u8> {
    let mut f = b"\0B".to_vec();
    token(&mut f, "<DiagGMM>");
    token(&mut f, "<GCONSTS>");
    block::<T>(&mut f, b'V', &[0], &[]);
    token(&mut f, "<WEIGHTS>");
    block(&mut f, b'V', &[g], weights);
    token(&mut f, "<MEANS_INVVARS>");
    block(&mut f, b'M', &[g, d], means);
    token(&mut f, "<INV_VARS>");
    block(&mut f, b'M', &[g, d], inv_vars);
    token(&mut f, "</DiagGMM>");
    f
}

fn extractor_file<T: Width>(e: usize, d: usize, s: usize, m: &[T], sigma_inv: &[T], offset: T) -> Vec<u8> {
    let mut f = b"\0B".to_vec();
    token(&mut f, "<IvectorExtractor>");
    token(&mut f, "<w>");
    block::<T>(&mut f, b'M', &[0, 0], &[]);
    token(&mut f, "<w_vec>");
    block::<T>(&mut f, b'V', &[0], &[]);
    token(&mut f, "<M>");
    whole(&mut f, e);
    for x in m.chunks_exact(d * s) {
        block(&mut f, b'M', &[d, s], x);
    }
    token(&mut f, "<SigmaInv>");
    for x in sigma_inv.chunks_exact(d * (d + 1) / 2) {
        block(&mut f, b'P', &[d], x);
    }
    token(&mut f, "<IvectorOffset>");
    f.push(T::BYTES as u8);
    numbers(&mut f, &[offset]);
    token(&mut f, "</IvectorExtractor>");
    f
}

fn lda_file<T: Width>(d: usize, c: usize, v: &[T]) -> Vec<u8> {
    let mut f = b"\0B".to_vec();
    block(&mut f, b'M', &[d, c], v);
    f
}

/// The three files of an accepted set.
fn files<T: Width>(p: &Params<T>) -> [Vec<u8>; 3] {
    [
        gmm_file(p.g, p.d, &p.weights, &p.means, &p.inv_vars),
        extractor_file(p.e, p.d, p.s, &p.m, &p.sigma_inv, p.offset),
        lda_file(p.d, p.c, &p.lda),
    ]
}

/// The same model at the original's widths by place: what a table of f32 keeps as f32, the extractor's numbers as f64.
fn by_place<T: Width>(p: &Params<T>) -> [Vec<u8>; 3] {
    let f32s = |v: &[T]| v.iter().map(|x| x.single()).collect::<Vec<f32>>();
    let f64s = |v: &[T]| v.iter().map(|x| x.double()).collect::<Vec<f64>>();
    [
        gmm_file(p.g, p.d, &f32s(&p.weights), &f32s(&p.means), &f32s(&p.inv_vars)),
        extractor_file(p.e, p.d, p.s, &f64s(&p.m), &f64s(&p.sigma_inv), p.offset.double()),
        lda_file(p.d, p.c, &f32s(&p.lda)),
    ]
}

// ---------------------------------------------------------------- cases

fn number<T: Width>(r: &mut Rng, positive: bool) -> T {
    let x: f64 = match r.n(8) {
        0 => r.pick(&[0.0, -0.0, 1.0, -1.0]),
        1 => r.sym() * 1e30,
        2 => r.sym() * 1e-30,
        3 => f64::from(f32::from_bits(r.n(0x7f80_0000) as u32)),
        _ => r.sym() * 8.0,
    };
    let x = if positive { x.abs().max(1e-30) } else { x };
    // all of the width's digits
    let bits = if T::BYTES == 4 { u64::from((x as f32).to_bits()) } else { x.to_bits() };
    T::from_bits(bits ^ u64::from(r.n(2) == 0 && bits & 0xff != 0))
}

/// Numbers at the edges: of narrowing, of infinity, of 0.
fn odd<T: Width>(r: &mut Rng) -> T {
    let b32 = [0u32, 0x8000_0000, 1, 0x0080_0000, 0x7f7f_ffff, 0x7f80_0000, 0xff80_0000, 0x7fc0_0000, 0xbf80_0000];
    let b64 = [
        0u64, 1 << 63, 1, 0x3690_0000_0000_0000, 0x3690_0000_0000_0001, 0x36a0_0000_0000_0000, 0x47ef_ffff_e000_0000, 0x47ef_ffff_efff_ffff, 0x47ef_ffff_f000_0000,
        0x7fef_ffff_ffff_ffff, 0x7ff0_0000_0000_0000, 0xfff0_0000_0000_0000, 0x7ff8_0000_0000_0000, 0xbff0_0000_0000_0000,
    ];
    T::from_bits(if T::BYTES == 4 { u64::from(r.pick(&b32)) } else { r.pick(&b64) })
}

fn case<T: Width>(r: &mut Rng) -> (Options, Vec<u8>, Params<T>, usize) {
    let mut o = gen::rand_opts(r);
    (o.left, o.right) = (r.n(3), r.n(3));
    let base = r.r(1, 3) as usize;
    let (d, s) = (r.r(1, 4) as usize, r.r(1, 4) as usize);
    let e = r.r(1, 4) as usize;
    let g = r.r(1, e as u64) as usize;
    let c = base * (o.left + 1 + o.right) as usize + r.n(2) as usize;
    let of = |r: &mut Rng, n: usize, positive: bool| (0..n).map(|_| number::<T>(r, positive)).collect::<Vec<T>>();
    let mut p = Params {
        g,
        e,
        d,
        s,
        c,
        weights: of(r, g, true),
        means: of(r, g * d, false),
        inv_vars: of(r, g * d, true),
        m: of(r, e * d * s, false),
        sigma_inv: of(r, e * (d * (d + 1) / 2), false),
        offset: number(r, false),
        lda: of(r, d * c, false),
    };
    let mut text: Vec<String> = (0..2).map(|_| (0..=base).map(|i| if i == base { "7.5".into() } else { gen::text_num(r, false) }).collect::<Vec<String>>().join(" ")).collect();
    if r.n(30) == 0 {
        text[1].push_str(" 1");
    }
    let mut text = format!(" [ {}\n{} ]\n", text[0], text[1]).into_bytes();
    let mut room = lengths(&p).iter().sum::<usize>() + r.n(3) as usize;
    // one set in two has a fault, or some
    for _ in 0..if r.n(2) == 0 { r.r(1, 2) } else { 0 } {
        let x = odd(r);
        let lists = [&mut p.weights, &mut p.means, &mut p.inv_vars, &mut p.m, &mut p.sigma_inv, &mut p.lda];
        match r.n(14) {
            0..=5 => {
                let l = lists.into_iter().nth(r.n(6) as usize).unwrap();
                let i = r.n(l.len().max(1) as u64) as usize;
                if i < l.len() {
                    l[i] = x;
                }
            }
            6 => {
                lists.into_iter().nth(r.n(6) as usize).unwrap().push(x);
            }
            7 => {
                lists.into_iter().nth(r.n(6) as usize).unwrap().pop();
            }
            8 => p.offset = x,
            9 => {
                let n = r.pick(&[0, 1, 65, 129, 1025, 1090, 1 << 32, usize::MAX]);
                match r.n(5) {
                    0 => p.g = n,
                    1 => p.e = n,
                    2 => p.d = n,
                    3 => p.s = n,
                    _ => p.c = n,
                }
            }
            10 => o.window = r.pick(&[0, 1001]),
            11 => text = r.pick(&[&b"[ 1 2\n1 2"[..], b"", b"[ 1 0\n1 2 ]", b"[ 1\n2 ]"]).to_vec(),
            12 => room -= r.n(room as u64 + 1) as usize,
            _ => room = room.saturating_sub(1 + r.n(2) as usize),
        }
    }
    (o, text, p, room)
}

// ---------------------------------------------------------------- the comparison

/// The answer to a case: the refusal, or the lengths and the bytes.
type Answer = Result<([usize; 3], Vec<u8>), usize>;

const CANARY: u8 = 0xa5;

/// The library's answer, and what was wrong with its output.
fn library<T: Width>(o: &Options, text: &[u8], p: &Params<T>, room: usize) -> Result<Answer, String> {
    let mut all = vec![CANARY; room + 16];
    let [n, a, b, c] = T::library(o, text, p, &mut all[..room]);
    let long = if n == 0 { a + b + c } else { 0 };
    if all[long.min(room)..].iter().any(|&x| x != CANARY) {
        return Err(format!("bytes past the end, or after refusal {n}"));
    }
    if n != 0 {
        return if [a, b, c] == [0; 3] { Ok(Err(n)) } else { Err("lengths beside a refusal".into()) };
    }
    if long > room {
        return Err("lengths past the output".into());
    }
    all.truncate(long);
    Ok(Ok(([a, b, c], all)))
}

fn reference<T: Width>(o: &Options, text: &[u8], p: &Params<T>, room: usize) -> Answer {
    judge(o, text, p, room)?;
    let f = files(p);
    Ok(([f[0].len(), f[1].len(), f[2].len()], f.concat()))
}

/// What was written is loaded: the tables are those of the same numbers at the original's widths; and a file that is cut is refused with 2.
fn loaded<T: Width>(r: &mut Rng, o: &Options, text: &[u8], p: &Params<T>, z: [usize; 3], bytes: &[u8]) -> Result<(), String> {
    let (g, rest) = bytes.split_at(z[0]);
    let (x, l) = rest.split_at(z[1]);
    let four = [g.to_vec(), x.to_vec(), l.to_vec(), text.to_vec()];
    let [pg, px, pl] = by_place(p);
    let want = machine::load(o, &pg, &px, &pl, text, &[0; 8]).map_err(|n| format!("the reference refuses the set at the original's widths: {n}"))?;
    let needs: Vec<usize> = machine::model_needs(&want.dims, o).iter().map(|&n| n as usize).collect();
    let scratch = rattle::load_scratch(p.d, p.s);
    match rattle::load(o, &four, &needs, scratch, Some(&want)) {
        (0, Some(_), None) => {}
        (n, _, wrong) => return Err(format!("loaded back: {n} {wrong:?}")),
    }
    // the GMM's closing token is not read
    let k = r.n(3) as usize;
    let most = if k == 0 { z[0] - 11 } else { z[k] };
    let mut cut = four;
    let at = r.n(most as u64) as usize;
    cut[k].truncate(at);
    match rattle::load(o, &cut, &needs, scratch, None) {
        (2, None, None) => Ok(()),
        (n, _, wrong) => Err(format!("file {k} cut at {at}: {n} {wrong:?}")),
    }
}

fn one<T: Width>(r: &mut Rng, o: &Options, text: &[u8], p: &Params<T>, room: usize, want: Answer) -> Result<String, String> {
    let got = library(o, text, p, room)?;
    if got != want {
        return Err(format!("{got:?}, not {want:?}"));
    }
    match got {
        Err(n) => Ok(n.to_string()),
        Ok((z, bytes)) => {
            if z != lengths(p) {
                return Err(format!("lengths {z:?}"));
            }
            loaded(r, o, text, p, z, &bytes)?;
            Ok("written and loaded".into())
        }
    }
}

fn run_width<T: Width + std::fmt::Debug>(first: u64, count: u64) -> u64 {
    let mut r = Rng::new(first);
    let (mut shown, mut wrong) = (BTreeMap::new(), 0);
    for _ in 0..count {
        let (o, text, p, room) = case::<T>(&mut r);
        let want = reference(&o, &text, &p, room);
        match one(&mut r, &o, &text, &p, room, want) {
            Ok(kind) => *shown.entry(kind).or_insert(0u64) += 1,
            Err(e) => {
                wrong += 1;
                if wrong <= 5 {
                    println!("{o:?} {:?} {p:?} {room}: {e}", String::from_utf8_lossy(&text));
                }
            }
        }
    }
    println!("written at {} bytes a number: {count} sets, {shown:?}, {wrong} differences", T::BYTES);
    wrong
}

/// COUNT sets at each width; returns the number of differences.
pub fn run(first: u64, count: u64) -> u64 {
    run_width::<f32>(first, count) + run_width::<f64>(first, count)
}

// ---------------------------------------------------------------- cases that bring their answers

fn bytes_of(w: &str) -> Vec<u8> {
    if w == "-" {
        return vec![];
    }
    let hex = |s: &str| (0..s.len() / 2).map(|i| u8::from_str_radix(&s[2 * i..2 * i + 2], 16).unwrap()).collect::<Vec<u8>>();
    w.split('+')
        .flat_map(|piece| match piece.split_once('*') {
            Some((n, b)) => vec![hex(b)[0]; n.parse().unwrap()],
            None => hex(piece),
        })
        .collect()
}

fn line_of<T: Width>(w: &mut std::str::SplitWhitespace, r: &mut Rng) -> Result<String, String> {
    fn n(w: &mut std::str::SplitWhitespace) -> u64 {
        w.next().unwrap().parse().unwrap()
    }
    fn h(w: &mut std::str::SplitWhitespace) -> u64 {
        u64::from_str_radix(w.next().unwrap(), 16).unwrap()
    }
    fn l<T: Width>(w: &mut std::str::SplitWhitespace) -> Vec<T> {
        (0..n(w)).map(|_| T::from_bits(h(w))).collect()
    }
    let o = Options {
        left: n(w),
        right: n(w),
        window: n(w),
        global_frames: n(w),
        num_gselect: n(w),
        num_cg_iters: n(w),
        min_post: f32::from_bits(h(w) as u32),
        posterior_scale: f32::from_bits(h(w) as u32),
        max_count: f64::from_bits(h(w)),
        min_energy: f32::from_bits(h(w) as u32),
    };
    let text = bytes_of(w.next().unwrap());
    let [g, e, d, s, c] = [n(w), n(w), n(w), n(w), n(w)].map(|x| x as usize);
    let (weights, means, inv_vars, m, sigma_inv) = (l(w), l(w), l(w), l(w), l(w));
    let p = Params { g, e, d, s, c, weights, means, inv_vars, m, sigma_inv, offset: T::from_bits(h(w)), lda: l(w) };
    let room = n(w) as usize;
    assert_eq!(w.next(), Some("="));
    let want = match n(w) as usize {
        0 => Ok(([n(w), n(w), n(w)].map(|x| x as usize), bytes_of(w.next().unwrap()))),
        k => Err(k),
    };
    let own = reference(&o, &text, &p, room);
    if own != want {
        return Err(format!("the reference: {own:?}"));
    }
    one(r, &o, &text, &p, room, want)
}

/// Runs lines `write ..` on the library and on the reference; returns the number of differences.
pub fn lines(input: impl BufRead) -> u64 {
    let mut r = Rng::new(1);
    let (mut shown, mut wrong, mut count, mut skipped) = (BTreeMap::new(), 0, 0, 0);
    for line in input.lines() {
        let line = line.unwrap();
        let w = &mut line.split_whitespace();
        if w.next() != Some("write") {
            skipped += 1;
            continue;
        }
        count += 1;
        let got = if w.next() == Some("4") { line_of::<f32>(w, &mut r) } else { line_of::<f64>(w, &mut r) };
        match got {
            Ok(kind) => *shown.entry(kind).or_insert(0u64) += 1,
            Err(e) => {
                wrong += 1;
                println!("{}: {e}", &line[..line.len().min(200)]);
            }
        }
    }
    println!("written: {count} lines, {skipped} of another kind, {shown:?}, {wrong} differences");
    wrong
}
