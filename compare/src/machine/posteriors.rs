//! Likelihoods of the Gaussians, the posteriors that are selected of them, and how a change's weight weighs them.
use super::ev;
use super::floats::{exp_f32, ln_f32, max32};
use super::load::Model;
use super::options::Options;

pub(super) fn loglikes(m: &Model, x: &[f32]) -> Vec<f32> {
    let g = m.dims.gmm_gauss;
    (0..g)
        .map(|i| {
            let (mut a, mut b) = (0f32, 0f32);
            for k in 0..m.dims.feat {
                a += m.means_t[k * g + i] * x[k];
                b += m.invvars_t[k * g + i] * (x[k] * x[k]);
            }
            (m.gconsts[i] + a) - 0.5 * b
        })
        .collect()
}

pub fn select_posteriors(ll: &[f32], num_gselect: u64, floor: f32) -> Vec<(usize, f32)> {
    let mut top = f32::NEG_INFINITY;
    for &l in ll {
        top = max32(top, l);
    }
    let mut list: Vec<(usize, f32)> = vec![];
    if floor != 0.0 {
        let cut = top + ln_f32(floor);
        for (g, &l) in ll.iter().enumerate() {
            if l > cut {
                list.push((g, exp_f32(l - top)));
            }
        }
        if list.is_empty() {
            ev("select: nothing above cutoff, all taken");
        }
    } else {
        ev("select: floor 0");
    }
    if list.is_empty() {
        for (g, &l) in ll.iter().enumerate() {
            list.push((g, exp_f32(l - top)));
        }
    }
    if list.iter().any(|p| p.1.is_nan()) {
        ev(if list.len() > 1 { "select: NaN among several" } else { "select: NaN alone" });
    }
    // Largest first, lower index first; NaN last, lower index first. Insertion into a sorted list.
    let before = |a: &(usize, f32), b: &(usize, f32)| -> bool {
        if a.1.is_nan() || b.1.is_nan() {
            return !a.1.is_nan() || (b.1.is_nan() && a.0 < b.0);
        }
        a.1 > b.1 || (a.1 == b.1 && a.0 < b.0)
    };
    let mut best: Vec<(usize, f32)> = vec![];
    for p in list {
        let at = best.iter().position(|q| before(&p, q)).unwrap_or(best.len());
        best.insert(at, p);
    }
    if best.len() as u64 > num_gselect {
        ev("select: cut to num_gselect");
        best.truncate(num_gselect as usize);
    }
    let mut tot = -0.0f32;
    for p in &best {
        tot += p.1;
    }
    let cut = floor * tot;
    while best.len() > 1 && best[best.len() - 1].1 < cut {
        ev("select: pruned");
        let p = best.pop().unwrap();
        tot -= p.1;
    }
    let inv = 1.0 / tot;
    best.into_iter().map(|(g, p)| (g, p * inv)).collect()
}

pub enum Weighing {
    Skipped,
    Weighed(f32, f32),
}

pub fn weighing(o: &Options, w: f32) -> Weighing {
    if w == 0.0 {
        return Weighing::Skipped;
    }
    Weighing::Weighed(floor_for(o.min_post, w), o.posterior_scale * w)
}

/// min(min_post/|w|, 0.99); 0.99 for weight 0 (example P6).
pub fn floor_for(min_post: f32, w: f32) -> f32 {
    let a = w.abs();
    if a == 0.0 {
        return 0.99;
    }
    let q = min_post / a;
    if q.is_nan() || q > 0.99 {
        0.99
    } else {
        q
    }
}
