//! The files of a model: GMM, extractor and LDA, from bytes to the tables that are kept.
use super::floats::ln;
use super::options::{FEAT, GAUSS, IVEC, LDACOLS, SKIP};
use super::reader::Rd;
use super::solve::tri;
use super::Re;

pub(super) struct Gmm {
    pub(super) by_place: Option<Vec<u8>>,
    pub(super) g: usize,
    pub(super) d: usize,
    pub(super) gconsts: Vec<f32>,
    pub(super) means_t: Vec<f32>,
    pub(super) invvars_t: Vec<f32>,
}

pub(super) fn parse_gmm(b: &[u8]) -> Re<Gmm> {
    let mut r = Rd::new(b);
    r.mark()?;
    r.want("<DiagGMM>")?;
    let mut tok = r.token()?;
    if tok == b"<GCONSTS>" {
        let w = r.block(b'V', 4)?;
        let n = r.dim(0, SKIP)?;
        r.skip(n, w, 4)?;
        tok = r.token()?;
    }
    if tok != b"<WEIGHTS>" {
        return Err(3);
    }
    let w = r.block(b'V', 4)?;
    let gw = r.dim(1, GAUSS)?;
    let weights = r.f32s(gw, w, true)?;
    r.want("<MEANS_INVVARS>")?;
    let w = r.block(b'M', 4)?;
    let g = r.dim(1, GAUSS)?;
    let d = r.dim(1, FEAT)?;
    let miv = r.f32s(g * d, w, false)?;
    r.want("<INV_VARS>")?;
    let w = r.block(b'M', 4)?;
    let g2 = r.dim(1, GAUSS)?;
    let d2 = r.dim(1, FEAT)?;
    let iv = r.f32s(g2 * d2, w, true)?;
    if g != g2 || d != d2 || gw != g {
        return Err(5);
    }
    let offset = -0.5 * ln(2.0 * std::f64::consts::PI) * d as f64;
    let mut gconsts = vec![];
    let (mut mt, mut it) = (vec![0f32; g * d], vec![0f32; g * d]);
    for m in 0..g {
        let mut gc = ln(f64::from(weights[m])) + offset;
        for k in 0..d {
            let (a, v) = (f64::from(miv[m * d + k]), f64::from(iv[m * d + k]));
            let plus = 0.5 * ln(v);
            let minus = ((0.5 * a) * a) / v;
            gc += plus - minus;
            mt[k * g + m] = miv[m * d + k];
            it[k * g + m] = iv[m * d + k];
        }
        gconsts.push(gc as f32);
    }
    Ok(Gmm { by_place: r.rewritten(), g, d, gconsts, means_t: mt, invvars_t: it })
}

pub(super) struct Ext {
    pub(super) by_place: Option<Vec<u8>>,
    pub(super) g: usize,
    pub(super) d: usize,
    pub(super) s: usize,
    pub(super) sim: Vec<f64>,
    pub(super) u: Vec<f64>,
    pub(super) prior: f64,
}

pub(super) fn parse_ext(b: &[u8]) -> Re<Ext> {
    let mut r = Rd::new(b);
    r.mark()?;
    r.want("<IvectorExtractor>")?;
    r.want("<w>")?;
    r.block(b'M', 8)?;
    let w_rows = r.dim(0, SKIP)?;
    let _w_cols = r.dim(0, SKIP)?;
    if w_rows != 0 {
        return Err(5);
    }
    r.want("<w_vec>")?;
    let w = r.block(b'V', 8)?;
    let n = r.dim(0, SKIP)?;
    r.skip(n, w, 8)?;
    r.want("<M>")?;
    let g = r.dim(1, GAUSS)?;
    let mut ms = vec![];
    for _ in 0..g {
        let w = r.block(b'M', 8)?;
        let d = r.dim(1, FEAT)?;
        let s = r.dim(1, IVEC)?;
        ms.push((d, s, r.f64s(d * s, w)?));
    }
    r.want("<SigmaInv>")?;
    let mut ss = vec![];
    for _ in 0..g {
        let w = r.block(b'P', 8)?;
        let d = r.dim(1, FEAT)?;
        ss.push((d, r.f64s(d * (d + 1) / 2, w)?));
    }
    r.want("<IvectorOffset>")?;
    let w = match r.extent(1)? {
        [4] => 4,
        [8] => 8,
        _ => return Err(3),
    };
    r.by_place.push(8);
    r.differs(w, 8);
    let prior = r.f64s(1, w)?[0];
    r.want("</IvectorExtractor>")?;
    let (d, s) = (ms[0].0, ms[0].1);
    for i in 0..g {
        if ms[i].0 != d || ms[i].1 != s || ss[i].0 != d {
            return Err(5);
        }
    }
    let (mut sim, mut u) = (vec![], vec![]);
    for i in 0..g {
        let (m, si) = (&ms[i].2, &ss[i].1);
        let mut x = vec![0f64; d * s];
        for a in 0..d {
            for c in 0..s {
                let mut acc = 0.0;
                for b in 0..d {
                    acc += si[tri(a, b)] * m[b * s + c];
                }
                x[a * s + c] = acc;
            }
        }
        for p in 0..s {
            for q in 0..=p {
                let mut acc = 0.0;
                for b in 0..d {
                    acc += m[b * s + p] * x[b * s + q];
                }
                u.push(acc);
            }
        }
        sim.extend(x);
    }
    Ok(Ext { by_place: r.rewritten(), g, d, s, sim, u, prior })
}

#[allow(clippy::type_complexity)]
pub(super) fn parse_lda(b: &[u8]) -> Re<(usize, usize, Vec<f32>, Option<Vec<u8>>)> {
    let mut r = Rd::new(b);
    r.mark()?;
    let w = r.block(b'M', 4)?;
    let rows = r.dim(1, FEAT)?;
    let cols = r.dim(1, LDACOLS)?;
    let v = r.f32s(rows * cols, w, false)?;
    Ok((rows, cols, v, r.rewritten()))
}
