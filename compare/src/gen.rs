//! Deterministic generator of call lists.
use crate::machine::{Options, DEFAULT};
use crate::script::Cmd;

#[derive(Clone)]
pub struct Rng(u64, /* simple numbers only */ pub bool);
impl Rng {
    pub fn new(seed: u64) -> Rng {
        let mut r = Rng(seed.wrapping_mul(0x9E37_79B9_7F4A_7C15) ^ 0xD1B5_4A32_D192_ED03, false);
        if r.0 == 0 {
            r.0 = 1;
        }
        for _ in 0..8 {
            r.next();
        }
        r
    }
    pub fn next(&mut self) -> u64 {
        self.0 ^= self.0 << 13;
        self.0 ^= self.0 >> 7;
        self.0 ^= self.0 << 17;
        self.0.wrapping_mul(0x2545_F491_4F6C_DD1D) >> 16
    }
    /// 0..n
    pub fn n(&mut self, n: u64) -> u64 {
        self.next() % n
    }
    pub fn r(&mut self, lo: u64, hi: u64) -> u64 {
        lo + self.n(hi - lo + 1)
    }
    pub fn p(&mut self, percent: u64) -> bool {
        self.n(100) < percent
    }
    pub fn unit(&mut self) -> f64 {
        self.n(1 << 32) as f64 / (1u64 << 32) as f64
    }
    pub fn sym(&mut self) -> f64 {
        self.unit() * 2.0 - 1.0
    }
    pub fn pick<T: Copy>(&mut self, v: &[T]) -> T {
        v[self.n(v.len() as u64) as usize]
    }
}

/// What an item of a file is, for damage.
#[derive(Clone, Copy, Debug, PartialEq)]
pub enum Kind {
    Mark,
    Token,
    Size,
    /// highest allowed, lowest allowed
    Dim(i32, i32),
    WRows,
    F32(bool),
    F64,
    /// Request 5: an f64 where an f32 is kept, and an f32 where an f64 is.
    Narrowed(bool),
    Widened,
    Skipped,
}

impl Kind {
    pub(crate) fn is_number(self) -> bool {
        matches!(self, Kind::F32(_) | Kind::F64 | Kind::Narrowed(_) | Kind::Widened)
    }
}

#[derive(Clone, Copy, Debug)]
pub struct Item {
    pub kind: Kind,
    pub at: usize,
    pub len: usize,
}

#[derive(Clone, Default)]
pub struct File {
    pub b: Vec<u8>,
    pub items: Vec<Item>,
}

impl File {
    pub fn put(&mut self, kind: Kind, b: &[u8]) {
        self.items.push(Item { kind, at: self.b.len(), len: b.len() });
        self.b.extend(b);
    }
    fn mark(&mut self) {
        self.put(Kind::Mark, &[0, b'B']);
    }
    fn tok(&mut self, r: &mut Rng, t: &str) {
        while r.p(4) {
            let c = r.pick(&[32u8, 10, 9]);
            self.b.push(c);
        }
        let end = if r.p(93) { 32 } else { r.pick(&[10u8, 9]) };
        let mut b = t.as_bytes().to_vec();
        b.push(end);
        self.put(Kind::Token, &b);
    }
    fn dim(&mut self, kind: Kind, n: usize) {
        self.put(Kind::Size, &[4]);
        self.put(kind, &(n as i32).to_le_bytes());
    }
    fn f32s(&mut self, v: &[f32], positive: bool) {
        for x in v {
            self.put(Kind::F32(positive), &x.to_bits().to_le_bytes());
        }
    }
    fn f64s(&mut self, v: &[f64]) {
        for x in v {
            self.put(Kind::F64, &x.to_bits().to_le_bytes());
        }
    }
}

#[derive(Clone)]
pub struct Spec {
    pub opts: Options,
    pub g: usize,
    pub ge: usize,
    pub d: usize,
    pub s: usize,
    pub base: usize,
    pub files: [File; 4],
}

fn gauss_like(r: &mut Rng) -> f64 {
    r.sym() + r.sym() + r.sym()
}

/// A finite f32 of any kind.
pub fn any_f32(r: &mut Rng, wild: bool) -> f32 {
    if r.1 {
        return r.pick(&[0.0, -0.0, 1.0, -1.0, 2.0, -2.0, 4.0, 0.5]);
    }
    if wild && r.p(30) {
        return match r.n(8) {
            0 => 0.0,
            1 => -0.0,
            2 => 3.0e38 * r.sym() as f32,
            3 => f32::from_bits(r.n(1 << 23) as u32),
            4 => f32::MAX,
            5 => -f32::MAX,
            6 => {
                let x = f32::from_bits(r.next() as u32);
                if x.is_finite() {
                    x
                } else {
                    1.5
                }
            }
            _ => (10f64.powi(r.r(0, 60) as i32 - 30) * r.sym()) as f32,
        };
    }
    match r.n(4) {
        0 => (r.n(17) as f32 - 8.0) / 4.0,
        1 => gauss_like(r) as f32,
        2 => (gauss_like(r) * 10.0) as f32,
        _ => r.n(5) as f32 - 2.0,
    }
}

fn any_f64(r: &mut Rng, wild: bool) -> f64 {
    if r.1 {
        return r.pick(&[0.0, 1.0, -1.0, 2.0, -2.0, 2.0, 4.0, 0.5]);
    }
    if wild && r.p(20) {
        return match r.n(6) {
            0 => 0.0,
            1 => -0.0,
            2 => 1e300 * r.sym(),
            3 => 1e-300 * r.sym(),
            4 => {
                let x = f64::from_bits(r.next() << 16 ^ r.next());
                if x.is_finite() {
                    x
                } else {
                    1.5
                }
            }
            _ => 10f64.powi(r.r(0, 120) as i32 - 60) * r.sym(),
        };
    }
    match r.n(3) {
        0 => (r.n(17) as f64 - 8.0) / 4.0,
        1 => gauss_like(r),
        _ => gauss_like(r) * 5.0,
    }
}

fn pos_f32(r: &mut Rng, wild: bool) -> f32 {
    if r.1 {
        return r.pick(&[1.0, 1.0, 2.0, 0.5]);
    }
    if wild && r.p(25) {
        return match r.n(4) {
            0 => f32::from_bits(1 + r.n(1 << 23) as u32),
            1 => f32::MAX,
            2 => 1e-30,
            _ => 10f64.powi(r.r(0, 70) as i32 - 35) as f32,
        };
    }
    if r.p(20) {
        1.0
    } else {
        (0.05 + 3.0 * r.unit()) as f32
    }
}

pub fn text_num(r: &mut Rng, positive: bool) -> String {
    let digits = match r.n(5) {
        0 => r.n(10),
        1 => r.n(1000),
        2 => r.n(1_000_000),
        3 => r.n(1 << 53),
        _ => r.n(100_000),
    };
    let digits = if positive && digits == 0 { 7 } else { digits };
    let mut s = String::new();
    if r.p(20) && !positive {
        s.push('-');
    } else if r.p(5) {
        s.push('+');
    }
    let mut ds = digits.to_string();
    if r.p(5) {
        ds = format!("{}{ds}", "0".repeat(r.r(1, 25) as usize));
    }
    let mut after = 0i64;
    if r.p(45) {
        let at = r.n(ds.len() as u64 + 1) as usize;
        let at = if ds.len() - at > 20 { ds.len() } else { at };
        after = (ds.len() - at) as i64;
        ds.insert(at, '.');
    }
    s.push_str(&ds);
    if r.p(25) {
        // power of ten -22..22 in all
        let p = if r.p(50) { r.n(7) as i64 - 3 } else { r.n(45) as i64 - 22 };
        let e = p + after;
        s.push(r.pick(&['e', 'E']));
        if e < 0 {
            s.push('-');
        } else if r.p(30) {
            s.push('+');
        }
        if r.p(10) {
            s.push_str("000");
        }
        s.push_str(&e.unsigned_abs().to_string());
    }
    s
}

fn blanks(r: &mut Rng, row_end: bool) -> String {
    let mut s = String::new();
    let n = if r.p(85) { 1 } else { r.r(2, 4) };
    for _ in 0..n {
        s.push(if r.p(85) { ' ' } else { r.pick(&['\t', '\r', '\x0b', '\x0c']) });
    }
    if row_end {
        s.push('\n');
        while r.p(10) {
            s.push_str(r.pick(&["\n", " \n", "\r\n"]));
        }
    }
    s
}

fn cmvn_text(r: &mut Rng, base: usize, wild: bool) -> String {
    let mut t = String::new();
    if r.p(80) {
        t.push(' ');
    }
    t.push('[');
    if r.p(80) {
        t.push_str(&blanks(r, r.0 % 5 == 0));
    }
    for row in 0..2 {
        for c in 0..=base {
            if c > 0 {
                t.push_str(&blanks(r, false));
            }
            let last = c == base;
            let s = if wild {
                text_num(r, last && row == 0)
            } else if last {
                r.pick(&["100", "37.5", "1000", "1e3", "12345.678"]).to_string()
            } else {
                format!("{:.3}", gauss_like(r) * 500.0)
            };
            t.push_str(&s);
        }
        if row == 0 {
            t.push_str(&blanks(r, true));
        }
    }
    if r.p(80) {
        t.push_str(&blanks(r, r.0 % 7 == 0));
    }
    t.push(']');
    if r.p(80) {
        t.push('\n');
    }
    t
}

pub fn rand_opts(r: &mut Rng) -> Options {
    let mut o = DEFAULT;
    o.left = r.n(4);
    o.right = r.n(4);
    o.window = r.r(1, 12);
    if r.p(5) {
        o.window = 1000;
    }
    o.global_frames = if r.p(70) { r.r(1, 15) } else { r.pick(&[1, 200, 10_000]) };
    if r.p(45) {
        // a window that smoothing fills only after many fetches: the CMVN state has a memory
        o.window = r.r(20, 600);
        o.global_frames = r.r(1, 30);
    }
    o.num_gselect = if r.p(70) { r.r(1, 6) } else { r.pick(&[1, 5, 32]) };
    o.num_cg_iters = if r.p(50) { 15 } else { r.pick(&[0, 1, 1, 2, 3, 200]) };
    o.min_post = match r.n(8) {
        0 => 0.0,
        1 => -0.0,
        2 => 0.5,
        3 => 0.99999994,
        4 => f32::from_bits(1),
        5 => r.unit() as f32 * 0.9,
        _ => 0.025,
    };
    o.posterior_scale = match r.n(10) {
        0 => 0.0,
        1 => -0.1,
        2 => 1e30,
        3 => 1.0,
        4 => 1e-40,
        _ => 0.1,
    };
    o.max_count = match r.n(8) {
        0 => 0.0,
        1 => -1.0,
        2 => 0.5,
        3 => 1e-300,
        4 => 1.0,
        5 => 0.05,
        _ => 100.0,
    };
    o.min_energy = match r.n(12) {
        0 | 1 => 0.0,
        2 => -1e30,
        3 => 1e30,
        _ => 1.0,
    };
    o
}

/// A model that load takes. `wild`: numbers of every size.
pub fn spec(r: &mut Rng, wild: bool) -> Spec {
    let mut opts = rand_opts(r);
    if !wild && r.p(15) {
        // one or two dimensions and simple numbers: exact sums, zero residuals, zero starts
        r.1 = true;
        opts.posterior_scale = r.pick(&[0.25, 0.25, 1.0, 0.5]);
        let (a, b, c, d) = (r.r(1, 3) as usize, r.r(1, 2) as usize, r.r(1, 2) as usize, 1);
        return build(r, opts, a, a, b, c, d, false);
    }
    let g = r.r(1, 12) as usize;
    let ge = if r.p(70) { g } else { g + r.n(4) as usize };
    let d = r.r(1, 6) as usize;
    let s = r.r(1, 6) as usize;
    let base = r.r(1, 4) as usize;
    build(r, opts, g, ge, d, s, base, wild)
}

#[allow(clippy::too_many_arguments)]
pub fn build(r: &mut Rng, opts: Options, g: usize, ge: usize, d: usize, s: usize, base: usize, wild: bool) -> Spec {
    let mut f = File::default();
    f.mark();
    f.tok(r, "<DiagGMM>");
    if r.p(60) {
        f.tok(r, "<GCONSTS>");
        f.tok(r, "FV");
        let n = if r.p(80) { g } else { r.n(9) as usize };
        f.dim(Kind::Dim(1_000_000, 0), n);
        for _ in 0..n {
            let b = (r.next() as u32).to_le_bytes();
            f.put(Kind::Skipped, &b);
        }
    }
    f.tok(r, "<WEIGHTS>");
    f.tok(r, "FV");
    f.dim(Kind::Dim(1024, 1), g);
    let same = r.p(15); // equal Gaussians: ties
    let v: Vec<f32> = (0..g).map(|_| if same { 0.25 } else { pos_f32(r, wild) }).collect();
    f.f32s(&v, true);
    // one Gaussian whose likelihood becomes NaN while the others' stay finite
    let odd = if r.p(10) { r.n(g as u64) as usize } else { usize::MAX };
    f.tok(r, "<MEANS_INVVARS>");
    f.tok(r, "FM");
    f.dim(Kind::Dim(1024, 1), g);
    f.dim(Kind::Dim(64, 1), d);
    let row: Vec<f32> = (0..d).map(|_| any_f32(r, wild)).collect();
    let v: Vec<f32> = (0..g * d)
        .map(|i| {
            if i / d == odd {
                2e38
            } else if same {
                row[i % d]
            } else {
                any_f32(r, wild)
            }
        })
        .collect();
    f.f32s(&v, false);
    f.tok(r, "<INV_VARS>");
    f.tok(r, "FM");
    f.dim(Kind::Dim(1024, 1), g);
    f.dim(Kind::Dim(64, 1), d);
    let v: Vec<f32> = (0..g * d)
        .map(|i| {
            if i / d == odd {
                2e38
            } else if same {
                1.0
            } else {
                pos_f32(r, wild)
            }
        })
        .collect();
    f.f32s(&v, true);
    if r.p(50) {
        f.b.extend(b"</DiagGMM> ");
    }

    let mut e = File::default();
    e.mark();
    e.tok(r, "<IvectorExtractor>");
    e.tok(r, "<w>");
    e.tok(r, "DM");
    e.dim(Kind::WRows, 0);
    let wc = if r.p(80) { 0 } else { r.pick(&[1usize, 5, 1_000_000]) };
    e.dim(Kind::Dim(1_000_000, 0), wc);
    e.tok(r, "<w_vec>");
    e.tok(r, "DV");
    let n = if r.p(60) { ge } else { r.n(5) as usize };
    e.dim(Kind::Dim(1_000_000, 0), n);
    for _ in 0..n {
        let b = (r.next() << 16 ^ r.next()).to_le_bytes();
        e.put(Kind::Skipped, &b);
    }
    e.tok(r, "<M>");
    e.dim(Kind::Dim(1024, 1), ge);
    let zero_m = r.p(8);
    for _ in 0..ge {
        e.tok(r, "DM");
        e.dim(Kind::Dim(64, 1), d);
        e.dim(Kind::Dim(128, 1), s);
        let k = if r.1 || r.p(70) { 1.0 } else { r.pick(&[1e-3, 0.01, 30.0, 1e3, 1e5]) };
        let v: Vec<f64> = (0..d * s).map(|_| if zero_m { 0.0 } else { any_f64(r, wild) * k }).collect();
        let v: Vec<f64> = v.into_iter().map(|x| if x.is_finite() { x } else { 2.0 }).collect();
        e.f64s(&v);
    }
    e.tok(r, "<SigmaInv>");
    let sane = r.p(60) && !r.1;
    for _ in 0..ge {
        e.tok(r, "DP");
        e.dim(Kind::Dim(64, 1), d);
        let mut v = vec![];
        for i in 0..d {
            for j in 0..=i {
                v.push(if sane {
                    if i == j {
                        1.0 + r.unit()
                    } else {
                        0.1 * r.sym()
                    }
                } else {
                    any_f64(r, wild)
                });
            }
        }
        e.f64s(&v);
    }
    e.tok(r, "<IvectorOffset>");
    e.put(Kind::Size, &[8]);
    let prior = match r.n(8) {
        0 => 0.0,
        1 => -0.0,
        2 if wild => 1e300,
        3 if wild => -3.5e38,
        4 => 1.0,
        _ if r.1 => r.pick(&[1.0, 1.0, 2.0, -1.0]),
        _ => gauss_like(r) * 20.0,
    };
    e.f64s(&[prior]);
    e.tok(r, "</IvectorExtractor>");
    if r.p(30) {
        e.b.extend(b"junk");
    }

    let spliced = base * (opts.left + 1 + opts.right) as usize;
    let cols = spliced + r.n(2) as usize;
    let mut l = File::default();
    l.mark();
    l.tok(r, "FM");
    l.dim(Kind::Dim(64, 1), d);
    l.dim(Kind::Dim(1089, 1), cols);
    let v: Vec<f32> = (0..d * cols).map(|_| if wild || r.1 { any_f32(r, true) } else { (gauss_like(r) * 0.3) as f32 }).collect();
    l.f32s(&v, false);
    if r.p(30) {
        l.b.push(0);
    }

    let text = cmvn_text(r, base, wild || r.0 % 4 == 0);
    let c = File { b: text.into_bytes(), items: vec![] };
    Spec { opts, g, ge, d, s, base, files: [f, e, l, c] }
}

pub fn give(out: &mut Vec<Cmd>, sp: &Spec) {
    out.push(Cmd::Options(sp.opts));
    for k in 0..4 {
        out.push(Cmd::Bytes(k, sp.files[k].b.clone()));
    }
}

pub fn frame(r: &mut Rng, o: &Options, base: usize, wild: bool) -> Vec<f32> {
    let mut x: Vec<f32> = (0..base).map(|_| any_f32(r, wild)).collect();
    match if o.min_energy.abs() > 1e9 && !wild { 4 } else { r.n(5) } {
        0 => x[0] = o.min_energy,
        1 | 2 => x[0] = o.min_energy + (r.unit() * 5.0) as f32,
        3 => x[0] = o.min_energy - (r.unit() * 5.0) as f32,
        _ => {}
    }
    if !x[0].is_finite() {
        x[0] = 0.0;
    }
    x
}

pub(crate) fn weight(r: &mut Rng) -> f32 {
    if r.1 && r.p(80) {
        return r.pick(&[0.0, 1.0, 1.0, -1.0, 2.0]);
    }
    match r.n(18) {
        0 | 1 | 16 | 17 => 0.0,
        2 => -0.0,
        3 => f32::from_bits(r.r(1, 1000) as u32),
        4 => 1e-20,
        5 => -1.0,
        6 => -0.75,
        7 => 3.0e38,
        8 => -3.0e38,
        9 => 0.01,
        10 => 0.25,
        11 => gauss_like(r) as f32,
        _ => 1.0,
    }
}

/// The kinds of call list.
#[derive(Clone, Copy, Debug, PartialEq)]
pub enum What {
    Calls,
    Wild,
    Damage,
    Edges,
    Rooms,
    Forged,
    Silence,
    /// Rounds of an utterance: many frames through small rooms, silence weights as changes.
    Long,
    /// Request 4: likelihoods that are NaN.
    Nan,
    /// One dimension at or past its limit.
    Big,
    /// Every cut of every file of one model.
    Cuts,
    /// Request No. 2: change lists about as long as one call takes.
    Limit,
    /// Request No. 9: solves that start on the solution.
    Exact,
    /// Request No. 11: steps over a block of registers.
    Registers,
    /// Request No. 8: changes and forgets around the floor.
    Floor,
    /// Request No. 5: models whose blocks have either width.
    Widths,
    /// Request No. 12: window calls around forgets.
    Window,
    /// Request No. 13: rounds of an utterance.
    Trigger,
}

/// What `all` stands for (Big and Cuts are asked for by name).
#[rustfmt::skip]
pub const KINDS: [What; 16] = [
    What::Calls, What::Wild, What::Damage, What::Edges, What::Rooms, What::Forged, What::Silence, What::Long, What::Limit,
    What::Exact, What::Nan, What::Registers, What::Floor, What::Widths, What::Window, What::Trigger,
];
#[rustfmt::skip]
pub const NAMED: [What; 18] = [
    What::Calls, What::Wild, What::Damage, What::Edges, What::Rooms, What::Forged, What::Silence, What::Long, What::Limit,
    What::Exact, What::Nan, What::Registers, What::Floor, What::Widths, What::Window, What::Trigger, What::Big, What::Cuts,
];

/// The kinds of that name, or of "all".
pub fn kinds(s: &str) -> Vec<What> {
    if s == "all" {
        return KINDS.to_vec();
    }
    let v: Vec<What> = NAMED.iter().copied().filter(|k| format!("{k:?}").to_lowercase() == s).collect();
    if v.is_empty() {
        eprintln!("no kind {s}");
        std::process::exit(2);
    }
    v
}

pub struct CallList {
    pub cmds: Vec<Cmd>,
    /// For `m` lines with a single known fault: index of the command, expected number.
    pub expect: Vec<(usize, u32)>,
}

pub fn call_list(seed: u64, what: What) -> CallList {
    let mut r = Rng::new(seed);
    let mut s = CallList { cmds: vec![], expect: vec![] };
    match what {
        What::Calls => crate::kinds::calls::calls(&mut r, &mut s, false, false),
        What::Wild => crate::kinds::calls::calls(&mut r, &mut s, true, false),
        What::Damage => crate::kinds::damage::damage(&mut r, &mut s),
        What::Edges => crate::kinds::edges::edges(&mut r, &mut s),
        What::Rooms => crate::kinds::edges::rooms(&mut r, &mut s),
        What::Forged => crate::kinds::calls::calls(&mut r, &mut s, false, true),
        What::Silence => crate::kinds::silence::silence(&mut r, &mut s),
        What::Long => crate::kinds::long::long(&mut r, &mut s),
        What::Nan => crate::kinds::nan::nan(&mut r, &mut s),
        What::Big => crate::kinds::big::big(&mut r, &mut s),
        What::Cuts => crate::kinds::damage::cuts(&mut r, &mut s),
        What::Limit => crate::kinds::limit(&mut r, &mut s),
        What::Exact => crate::kinds::exact(&mut r, &mut s),
        What::Registers => crate::registers::registers(&mut r, &mut s),
        What::Floor => crate::kinds::floor::floor(&mut r, &mut s),
        What::Widths => crate::kinds::widths::widths(&mut r, &mut s),
        What::Window => crate::kinds::window::window(&mut r, &mut s),
        What::Trigger => crate::trigger::trigger(&mut r, &mut s),
    }
    s.cmds.push(Cmd::End);
    s
}
