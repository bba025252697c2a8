//! How much memory: the library's dimensions of a model from its bytes, the lengths of its tables and of a stream's rooms, beside the machine's.
use crate::machine::{model_needs, stream_needs, Dims, Model, Options};
use crate::rattle::{dimensions, load_scratch, options};
use shofrakin::sys as c;

fn same(what: &str, have: &[usize], want: &[u64]) -> Result<(), String> {
    if have.iter().copied().eq(want.iter().map(|n| *n as usize)) {
        Ok(())
    } else {
        Err(format!("{what}: library {have:?}, machine {want:?}"))
    }
}

/// What the four files are answered, where a load with rooms enough gives `want`: its model, or its refusal from 1 to 7.
pub fn of_files(o: &Options, b: &[Vec<u8>; 4], want: Result<&Model, u32>) -> Result<(), String> {
    let [g, e, l, t] = b;
    let a = unsafe { c::shofrakin_model_dimensions(options(o), g.as_ptr(), g.len(), e.as_ptr(), e.len(), l.as_ptr(), l.len(), t.as_ptr(), t.len()) };
    let none = Dims { gmm_gauss: 0, ext_gauss: 0, feat: 0, ivec: 0, base: 0, lda_cols: 0 };
    same("refusal of the dimensions", &[a.refusal], &[want.err().unwrap_or(0).into()])?;
    if a.dims != dimensions(&want.map_or(none, |m| m.dims)) {
        return Err(format!("dimensions: library {:?}", a.dims));
    }
    let n = unsafe { c::shofrakin_tables_needed(options(o), a.dims) };
    let z = n.tables;
    let have = [z.gconsts, z.means_invvars_t, z.inv_vars_t, z.sigma_inv_m, z.u, z.lda_t, z.lda_offset, z.global_mean_stats, n.scratch];
    match want {
        Ok(m) => {
            same("refusal of the tables", &[n.refusal], &[0])?;
            same("tables", &have[..8], &model_needs(&m.dims, &m.opts))?;
            same("scratch of a load", &have[8..], &[load_scratch(m.dims.feat, m.dims.ivec) as u64])
        }
        Err(r) => {
            same("refusal of the tables of no dimension", &[n.refusal], &[if r == 1 { 1 } else { 4 }])?;
            same("tables of no dimension", &have, &[0; 9])
        }
    }
}

/// The rooms for `frames` frames, `rows` rows and `changes` changes.
pub fn of_rooms(d: &Dims, frames: u64, rows: u64, changes: u64) -> Result<(), String> {
    let a = unsafe { c::shofrakin_rooms_needed(dimensions(d), frames as usize, rows as usize, changes as usize) };
    let (r, e) = (a.lengths.rings, a.lengths.estimate);
    let have = [r.frames, r.rows, r.waiting_frames, r.waiting_weights, e.cmvn_stats, e.linear, e.quadratic, e.current, e.scratch];
    if !(1..=1_000_000_000).contains(&frames) || !(2..=2_000_000_000).contains(&rows) {
        same("refusal of rooms outside the limits", &[a.refusal], &[8])?;
        return same("rooms outside the limits", &have, &[0; 9]);
    }
    let (b, n) = (d.base as u64, stream_needs(d));
    same("refusal of the rooms", &[a.refusal], &[0])?;
    same("rooms", &have, &[frames * b, rows * b, changes, changes, n[0], n[1], n[2], n[3], n[4]])
}
