//! A model written, of f32 or of f64.
use super::{options, ModelSizes};
use crate::machine::Options;
use shofrakin::sys as c;

macro_rules! write_model {
    ($name:ident, $call:ident, $t:ty) => {
        /// The library's writing: the refusal and the three lengths.
        pub fn $name(o: &Options, text: &[u8], p: &crate::writer::Params<$t>, out: &mut [u8]) -> [usize; 4] {
            let z = ModelSizes { num_gauss: p.g, ext_gauss: p.e, feat_dim: p.d, ivector_dim: p.s, lda_cols: p.c };
            let a = unsafe {
                c::$call(
                    options(o),
                    z,
                    text.as_ptr(),
                    text.len(),
                    p.weights.as_ptr(),
                    p.weights.len(),
                    p.means.as_ptr(),
                    p.means.len(),
                    p.inv_vars.as_ptr(),
                    p.inv_vars.len(),
                    p.m.as_ptr(),
                    p.m.len(),
                    p.sigma_inv.as_ptr(),
                    p.sigma_inv.len(),
                    p.offset,
                    p.lda.as_ptr(),
                    p.lda.len(),
                    out.as_mut_ptr(),
                    out.len(),
                )
            };
            [a.refusal, a.gmm, a.extractor, a.lda]
        }
    };
}
write_model!(write_f32, shofrakin_write_f32, f32);
write_model!(write_f64, shofrakin_write_f64, f64);
