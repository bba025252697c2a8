//! A model, the lengths of its rooms, and its load from four files.
use super::cmvn_text::parse_cmvn;
use super::files::{parse_ext, parse_gmm, parse_lda};
use super::options::{options_ok, Options};
use super::Re;

#[derive(Clone, Copy, Debug, PartialEq)]
pub struct Dims {
    pub gmm_gauss: usize,
    pub ext_gauss: usize,
    pub feat: usize,
    pub ivec: usize,
    pub base: usize,
    pub lda_cols: usize,
}

#[derive(Clone, Debug)]
pub struct Model {
    pub opts: Options,
    pub dims: Dims,
    pub gconsts: Vec<f32>,
    /// [dim][gauss]
    pub means_t: Vec<f32>,
    pub invvars_t: Vec<f32>,
    /// [gauss][feat][ivec]
    pub sim: Vec<f64>,
    /// [gauss][packed ivec]
    pub u: Vec<f64>,
    /// [spliced][rows]
    pub lda_t: Vec<f32>,
    pub lda_offset: Vec<f32>,
    pub global: Vec<f64>,
    pub prior: f64,
    /// GMM, extractor and LDA at the original's widths, where a file has a block of the other one.
    pub by_place: [Option<Vec<u8>>; 3],
}

pub(super) fn cross_ok(d: &Dims, o: &Options, lda_rows: usize, ext_feat: usize) -> bool {
    let spliced = d.base as u64 * (o.left + 1 + o.right);
    (d.lda_cols as u64 == spliced || d.lda_cols as u64 == spliced + 1) && lda_rows == d.feat && ext_feat == d.feat && d.gmm_gauss <= d.ext_gauss
}

/// Numbers kept by a model in each of its eight rooms.
pub fn model_needs(d: &Dims, o: &Options) -> [u64; 8] {
    let (g, f, e, s) = (d.gmm_gauss as u64, d.feat as u64, d.ext_gauss as u64, d.ivec as u64);
    let lin = (d.lda_cols as u64).min(d.base as u64 * (o.left + 1 + o.right));
    [g, f * g, f * g, e * f * s, e * (s * (s + 1) / 2), lin * f, f, d.base as u64 + 1]
}

pub fn room_lens(needs: &[u64], deltas: &[i64]) -> Vec<u64> {
    needs.iter().zip(deltas).map(|(&n, &d)| (n as i64 + d).max(0) as u64).collect()
}

/// Load: refusals 1 to 8. `deltas`: each lent room's length less its need.
pub fn load(o: &Options, gmm: &[u8], ext: &[u8], lda: &[u8], cmvn: &[u8], deltas: &[i64]) -> Re<Model> {
    if !options_ok(o) {
        return Err(1);
    }
    let g = parse_gmm(gmm)?;
    let e = parse_ext(ext)?;
    let (lr, lc, lv, lda_by_place) = parse_lda(lda)?;
    let global = parse_cmvn(cmvn)?;
    let dims = Dims { gmm_gauss: g.g, ext_gauss: e.g, feat: g.d, ivec: e.s, base: global.len() - 1, lda_cols: lc };
    if !cross_ok(&dims, o, lr, e.d) {
        return Err(5);
    }
    let needs = model_needs(&dims, o);
    if room_lens(&needs, deltas).iter().zip(&needs).any(|(l, n)| l < n) {
        return Err(8);
    }
    let spliced = dims.base * (o.left + 1 + o.right) as usize;
    let mut lda_t = vec![];
    for c in 0..spliced {
        for r in 0..lr {
            lda_t.push(lv[r * lc + c]);
        }
    }
    let lda_offset = (0..lr).map(|r| if lc > spliced { lv[r * lc + spliced] } else { 0.0 }).collect();
    Ok(Model {
        opts: *o,
        dims,
        gconsts: g.gconsts,
        means_t: g.means_t,
        invvars_t: g.invvars_t,
        sim: e.sim,
        u: e.u,
        lda_t,
        lda_offset,
        global,
        prior: e.prior,
        by_place: [g.by_place, e.by_place, lda_by_place],
    })
}
