//! The lengths that a stream asks for, and its record: what refusal 10 tests, and how a script forges it.
use super::load::{cross_ok, Dims};
use super::options::{options_ok, Options, FEAT, GAUSS, IVEC, LDACOLS};

// Lengths lent with a stream: the model's eight rooms, then frames, rows, waiting frames, waiting
// weights, CMVN state, linear, quadratic, current, scratch.

/// Scratch of a fetch (docs/DECISIONS.md).
fn scratch_need(d: &Dims) -> u64 {
    (d.gmm_gauss * d.feat).max(d.ivec * d.ivec) as u64
}

pub fn stream_needs(d: &Dims) -> [u64; 5] {
    let s = d.ivec as u64;
    [d.base as u64 + 1, s, s * (s + 1) / 2, s, scratch_need(d)]
}

/// What the record says, for refusal 10; a script may forge it for one call.
#[derive(Clone, Debug)]
pub struct Record {
    pub opts: Options,
    pub dims: Dims,
    pub accepted: u64,
    pub next: u64,
    pub mark: u64,
    /// Request 8.
    pub floor: u64,
    /// Request 12: the window in force, and the longest since the last rise of the mark.
    pub window: u64,
    pub longest: u64,
    pub waiting: Vec<(u64, f32)>,
    /// Lengths the record was made with, and lengths lent to this call.
    pub made: Vec<u64>,
    pub lent: Vec<u64>,
}

pub(super) fn record_bad(r: &Record) -> bool {
    let d = &r.dims;
    let o = &r.opts;
    if r.lent != r.made {
        return true;
    }
    if !options_ok(o) {
        return true;
    }
    let within = |n: usize, hi: i32| n >= 1 && n <= hi as usize;
    if !(within(d.gmm_gauss, GAUSS) && within(d.ext_gauss, GAUSS) && within(d.feat, FEAT) && within(d.ivec, IVEC))
        || !(within(d.base, 64) && within(d.lda_cols, LDACOLS))
    {
        return true;
    }
    if !cross_ok(d, o, d.feat, d.feat) {
        return true;
    }
    if r.accepted > 1_000_000_000 || r.next > r.accepted || r.mark > r.next.saturating_sub(o.left) {
        return true;
    }
    // request 8
    if r.mark > r.floor.saturating_sub(o.left) {
        return true;
    }
    // request 12
    if r.window == 0 || r.longest < r.window || r.longest > 1000 {
        return true;
    }
    let (held, rows) = held(r);
    let (f, rr, w) = rooms(r);
    if held > f || rows > rr || r.waiting.len() as u64 > w {
        return true;
    }
    if r.waiting.windows(2).any(|p| p[0].0 > p[1].0) {
        return true;
    }
    r.waiting.iter().any(|c| c.0.saturating_sub(o.left) < r.mark)
}

pub(super) fn rooms(r: &Record) -> (u64, u64, u64) {
    let b = r.dims.base as u64;
    (r.lent[8] / b, r.lent[9] / b, r.lent[10].min(r.lent[11]))
}

pub(super) fn held(r: &Record) -> (u64, u64) {
    (r.accepted - r.mark, r.accepted + 1 - (r.mark + 1).saturating_sub(r.longest))
}

/// A forged part of the record, for one call.
#[derive(Clone, Debug)]
pub enum Alter {
    Room(usize, i64),
    Field(String, u64),
    Waiting(Vec<(u64, f32)>),
}

pub fn alter(r: &mut Record, al: &[Alter]) {
    for a in al {
        match a {
            Alter::Room(k, d) => r.lent[*k] = (r.lent[*k] as i64 + d).max(0) as u64,
            Alter::Waiting(w) => r.waiting = w.clone(),
            Alter::Field(n, v) => match n.as_str() {
                "accepted" => r.accepted = *v,
                "next" => r.next = *v,
                "mark" => r.mark = *v,
                "floor" => r.floor = *v,
                "left" => r.opts.left = *v,
                "right" => r.opts.right = *v,
                // the window in force; where a stream is made there is only the options' one
                "window" => {
                    r.window = *v;
                    if r.lent.len() == 8 {
                        r.opts.window = *v;
                        r.longest = *v;
                    }
                }
                "longest" => r.longest = *v,
                "global" => r.opts.global_frames = *v,
                "gselect" => r.opts.num_gselect = *v,
                "iters" => r.opts.num_cg_iters = *v,
                "minpost" => r.opts.min_post = f32::from_bits(*v as u32),
                "scale" => r.opts.posterior_scale = f32::from_bits(*v as u32),
                "energy" => r.opts.min_energy = f32::from_bits(*v as u32),
                "maxcount" => r.opts.max_count = f64::from_bits(*v),
                "gaussg" => r.dims.gmm_gauss = *v as usize,
                "gausse" => r.dims.ext_gauss = *v as usize,
                "feat" => r.dims.feat = *v as usize,
                "ivec" => r.dims.ivec = *v as usize,
                "base" => r.dims.base = *v as usize,
                "ldacols" => r.dims.lda_cols = *v as usize,
                _ => panic!("unknown field {n}"),
            },
        }
    }
}
