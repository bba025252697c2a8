//! A model: its tables, and loads into them beside the machine's model.
use super::{dimensions, options, IvectorInfo, IvectorOptions, LoadAnswer, Room, TableLengths, CANARY32, CANARY64};
use crate::machine::{Model as Loaded, Options};
use shofrakin::sys as c;
use std::sync::Arc;

#[derive(Clone, Debug, PartialEq)]
pub struct Tables {
    pub gconsts: Room<f32>,
    pub means_invvars_t: Room<f32>,
    pub inv_vars_t: Room<f32>,
    pub sigma_inv_m: Room<f64>,
    pub u: Room<f64>,
    pub lda_t: Room<f32>,
    pub lda_offset: Room<f32>,
    pub global_mean_stats: Room<f64>,
}

impl Tables {
    pub fn new(lens: &[usize]) -> Tables {
        Tables {
            gconsts: Room::new(lens[0], CANARY32),
            means_invvars_t: Room::new(lens[1], CANARY32),
            inv_vars_t: Room::new(lens[2], CANARY32),
            sigma_inv_m: Room::new(lens[3], CANARY64),
            u: Room::new(lens[4], CANARY64),
            lda_t: Room::new(lens[5], CANARY32),
            lda_offset: Room::new(lens[6], CANARY32),
            global_mean_stats: Room::new(lens[7], CANARY64),
        }
    }
    fn lengths(&self) -> TableLengths {
        TableLengths {
            gconsts: self.gconsts.len,
            means_invvars_t: self.means_invvars_t.len,
            inv_vars_t: self.inv_vars_t.len,
            sigma_inv_m: self.sigma_inv_m.len,
            u: self.u.len,
            lda_t: self.lda_t.len,
            lda_offset: self.lda_offset.len,
            global_mean_stats: self.global_mean_stats.len,
        }
    }
    /// Every number that is kept is the machine's, and every place past them is as it was.
    pub fn same(&self, m: &Loaded) -> bool {
        fn a(r: &Room<f32>, v: &[f32]) -> bool {
            r.all[..v.len()].iter().zip(v).all(|(x, y)| x.to_bits() == y.to_bits() || x.is_nan() && y.is_nan())
                && r.all[v.len()..].iter().all(|x| *x == CANARY32)
        }
        fn b(r: &Room<f64>, v: &[f64]) -> bool {
            r.all[..v.len()].iter().zip(v).all(|(x, y)| x.to_bits() == y.to_bits() || x.is_nan() && y.is_nan())
                && r.all[v.len()..].iter().all(|x| *x == CANARY64)
        }
        a(&self.gconsts, &m.gconsts)
            && a(&self.means_invvars_t, &m.means_t)
            && a(&self.inv_vars_t, &m.invvars_t)
            && b(&self.sigma_inv_m, &m.sim)
            && b(&self.u, &m.u)
            && a(&self.lda_t, &m.lda_t)
            && a(&self.lda_offset, &m.lda_offset)
            && b(&self.global_mean_stats, &m.global)
    }
}

#[derive(Clone)]
pub struct Model {
    pub info: IvectorInfo,
    pub tables: Arc<Tables>,
}

/// The record that a load of the machine's model would leave.
fn info_of(m: &Loaded, lengths: TableLengths) -> IvectorInfo {
    IvectorInfo { opts: options(&m.opts), dims: dimensions(&m.dims), prior_offset: m.prior, tables: lengths }
}

fn raw_load(o: &Options, b: &[Vec<u8>; 4], t: &mut Tables, scratch: &mut [f64]) -> LoadAnswer {
    load_options(options(o), b, t, scratch)
}

#[rustfmt::skip]
pub fn load_options(o: IvectorOptions, b: &[Vec<u8>; 4], t: &mut Tables, scratch: &mut [f64]) -> LoadAnswer {
    unsafe {
        c::shofrakin_load(
            o,
            b[0].as_ptr(), b[0].len(), b[1].as_ptr(), b[1].len(), b[2].as_ptr(), b[2].len(), b[3].as_ptr(), b[3].len(),
            t.gconsts.all.as_mut_ptr(), t.gconsts.len, t.means_invvars_t.all.as_mut_ptr(), t.means_invvars_t.len,
            t.inv_vars_t.all.as_mut_ptr(), t.inv_vars_t.len, t.sigma_inv_m.all.as_mut_ptr(), t.sigma_inv_m.len,
            t.u.all.as_mut_ptr(), t.u.len, t.lda_t.all.as_mut_ptr(), t.lda_t.len,
            t.lda_offset.all.as_mut_ptr(), t.lda_offset.len, t.global_mean_stats.all.as_mut_ptr(), t.global_mean_stats.len,
            scratch.as_mut_ptr(), scratch.len(),
        )
    }
}

/// A load alone, to be timed. Its refusal.
pub fn load_into(o: &Options, b: &[Vec<u8>; 4], t: &mut Tables, scratch: &mut [f64]) -> usize {
    raw_load(o, b, t, scratch).refusal
}

/// A load into tables of the lengths `lens`. The refusal, the model of a load that is taken, and what was wrong: `want` is the machine's model.
pub fn load(o: &Options, b: &[Vec<u8>; 4], lens: &[usize], scratch: usize, want: Option<&Loaded>) -> (u32, Option<Model>, Option<String>) {
    let mut t = Tables::new(lens);
    let mut work = Room::new(scratch, CANARY64);
    let a = raw_load(o, b, &mut t, &mut work.all[..scratch]);
    let (n, info) = (a.refusal as u32, a.info);
    if work.all[scratch..].iter().any(|x| *x != CANARY64) || n != 0 && work.all.iter().any(|x| *x != CANARY64) {
        return (n, None, Some("load wrote past its scratch, or into it at a refusal".into()));
    }
    if n != 0 {
        let wrong = (t != Tables::new(lens)).then(|| "a refused load wrote into a table".into());
        return (n, None, wrong);
    }
    let wrong = want.and_then(|m| {
        if !t.same(m) {
            Some("model tables differ".into())
        } else if info != info_of(m, t.lengths()) {
            Some(format!("model record differs: {info:?}"))
        } else {
            None
        }
    });
    (0, Some(Model { info, tables: Arc::new(t) }), wrong)
}

/// The scratch of a load (docs/DECISIONS.md).
pub fn load_scratch(d: usize, s: usize) -> usize {
    d * (d + 1) / 2 + d * s
}
