//! A stream's record: forged for one call, and as bits, to be compared.
use super::IvectorStream;
use crate::machine::Alter;

/// What a call is lent in place of the whole: the difference for each of the 17 rooms (8 tables, 9 rooms).
pub(super) type Lent = [i64; 17];

/// A forged record and forged lengths, for one call.
pub(super) struct Forged {
    pub(super) rec: IvectorStream,
    pub(super) lent: Lent,
    pub(super) waiting: Option<Vec<(u64, f32)>>,
}

pub(super) fn forge(rec: IvectorStream, al: &[Alter]) -> Forged {
    let mut f = Forged { rec, lent: [0; 17], waiting: None };
    for a in al {
        match a {
            Alter::Room(k, d) => f.lent[*k] += d,
            Alter::Waiting(w) => {
                f.rec.waiting = w.len();
                f.waiting = Some(w.clone());
            }
            Alter::Field(n, v) => forge_field(&mut f.rec, n, *v),
        }
    }
    f
}

fn forge_field(s: &mut IvectorStream, n: &str, v: u64) {
    let (o, d) = (&mut s.info.opts, &mut s.info.dims);
    let u = v as usize;
    match n {
        "accepted" => s.accepted = u,
        "next" => s.num_frames_stats = u,
        "mark" => s.mark = u,
        "floor" => s.floor = u,
        "left" => o.left_context = u,
        "right" => o.right_context = u,
        // the window in force; where a stream is made there is only the options' one
        "window" => {
            s.window = u;
            if s.lengths.rings.rows == 0 {
                o.cmn_window = u;
                s.longest = u;
            }
        }
        "longest" => s.longest = u,
        "global" => o.global_frames = u,
        "gselect" => o.num_gselect = u,
        "iters" => o.num_cg_iters = u,
        "minpost" => o.min_post = f32::from_bits(v as u32),
        "scale" => o.posterior_scale = f32::from_bits(v as u32),
        "energy" => o.min_energy = f32::from_bits(v as u32),
        "maxcount" => o.max_count = f64::from_bits(v),
        "gaussg" => d.num_gauss = u,
        "gausse" => d.ext_gauss = u,
        "feat" => d.feat_dim = u,
        "ivec" => d.ivector_dim = u,
        "base" => d.base_dim = u,
        "ldacols" => d.lda_cols = u,
        _ => panic!("unknown field {n}"),
    }
}

#[rustfmt::skip]
pub(super) fn bits(s: &IvectorStream) -> Vec<u64> {
    let (o, d, t, r, e) = (&s.info.opts, &s.info.dims, &s.info.tables, &s.lengths.rings, &s.lengths.estimate);
    let mut v: Vec<u64> = [
        o.left_context, o.right_context, o.cmn_window, o.global_frames, o.num_gselect, o.num_cg_iters,
        d.num_gauss, d.ext_gauss, d.feat_dim, d.ivector_dim, d.base_dim, d.lda_cols,
        t.gconsts, t.means_invvars_t, t.inv_vars_t, t.sigma_inv_m, t.u, t.lda_t, t.lda_offset, t.global_mean_stats,
        r.frames, r.rows, r.waiting_frames, r.waiting_weights, e.cmvn_stats, e.linear, e.quadratic, e.current, e.scratch,
        s.accepted, s.num_frames_stats, s.mark, s.waiting, s.past_highest,
        usize::from(s.delta_weights_provided), usize::from(s.input_finished), s.floor, s.window, s.longest,
    ]
    .iter()
    .map(|&x| x as u64)
    .collect();
    let f = |x: f64| if x.is_nan() { 0x7FF8_0000_0000_0000 } else { x.to_bits() };
    v.extend([f(f64::from(o.min_post)), f(f64::from(o.posterior_scale)), f(o.max_count), f(f64::from(o.min_energy)), f(s.info.prior_offset), f(s.num_frames)]);
    v
}
