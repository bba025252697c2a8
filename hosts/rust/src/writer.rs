//! A model written back, in Kaldi's bytes.
use crate::memory::zeros;
pub use crate::sys::ModelSizes;
use crate::{sys, IvectorOptions, Refusal};

/// What a model is written from: its sizes, and its numbers row after row, all f32 or all f64. Each list has the length that the sizes give
/// it; another one is refused with 5.
#[derive(Clone, Copy, Debug)]
pub struct ModelParams<'a, T> {
    /// Gaussians of the GMM and of the extractor, feature and i-vector dimension, columns of the LDA.
    pub sizes: ModelSizes,
    /// `num_gauss` of them, above 0.
    pub weights: &'a [T],
    /// Means times inverse variances: `num_gauss` rows of `feat_dim`.
    pub means_invvars: &'a [T],
    /// Inverse variances, above 0: `num_gauss` rows of `feat_dim`.
    pub inv_vars: &'a [T],
    /// `<M>`: for each Gaussian of the extractor `feat_dim` rows of `ivector_dim`.
    pub m: &'a [T],
    /// `<SigmaInv>`: for each Gaussian of the extractor the lower triangle of `feat_dim` rows.
    pub sigma_inv: &'a [T],
    /// What is taken off element 0 of a vector.
    pub prior_offset: T,
    /// `feat_dim` rows of `lda_cols`.
    pub lda: &'a [T],
}

/// How long the three files are that were written, one after the other, in bytes.
#[derive(Clone, Copy, Debug, PartialEq, Eq)]
pub struct Written {
    /// `final.dubm`
    pub gmm: usize,
    /// `final.ie`
    pub extractor: usize,
    /// `final.mat`
    pub lda: usize,
}

/// The length of all three at so many bytes a number; nothing where it is no usize.
fn length(width: usize, z: &ModelSizes) -> Option<usize> {
    let cells = z.num_gauss.checked_mul(z.feat_dim)?;
    let gmm = width.checked_mul(cells.checked_mul(2)?.checked_add(z.num_gauss)?)?;
    let triangle = z.feat_dim.checked_mul(z.feat_dim.checked_add(1)?)? / 2;
    let block = width.checked_mul(z.feat_dim.checked_mul(z.ivector_dim)?.checked_add(triangle)?)?.checked_add(21)?;
    let lda = width.checked_mul(z.feat_dim.checked_mul(z.lda_cols)?)?;
    gmm.checked_add(z.ext_gauss.checked_mul(block)?)?.checked_add(lda)?.checked_add(112 + 111 + width + 15)
}

/// What the largest model that is not refused takes.
const MOST: usize = 85_784_310;

#[rustfmt::skip]
macro_rules! write_at {
    ($t:ty, $call:ident) => {
        impl ModelParams<'_, $t> {
            /// Writes the GMM's, the extractor's and the LDA's file, one after the other, to the front of `out`. The options and the CMVN text
            /// are for a load's tests, and not written. Refusals 1 and 4 to 7 as a load of the files would have them, then 26, an output that is
            /// too short; a refusal writes nothing.
            pub fn write(&self, opts: &IvectorOptions, cmvn: &[u8], out: &mut [u8]) -> Result<Written, Refusal> {
                // SAFETY: every pointer is a slice's with its length, initialised and aligned; what is written is borrowed alone.
                let a = unsafe {
                    sys::$call(
                        *opts, self.sizes, cmvn.as_ptr(), cmvn.len(), self.weights.as_ptr(), self.weights.len(),
                        self.means_invvars.as_ptr(), self.means_invvars.len(), self.inv_vars.as_ptr(), self.inv_vars.len(),
                        self.m.as_ptr(), self.m.len(), self.sigma_inv.as_ptr(), self.sigma_inv.len(), self.prior_offset,
                        self.lda.as_ptr(), self.lda.len(), out.as_mut_ptr(), out.len(),
                    )
                };
                Refusal::of(a.refusal)?;
                Ok(Written { gmm: a.gmm, extractor: a.extractor, lda: a.lda })
            }

            /// The three files, each for itself: GMM, extractor, LDA. Refusals 1 and 4 to 7, and 8 where no memory holds them.
            pub fn files(&self, opts: &IvectorOptions, cmvn: &[u8]) -> Result<[Vec<u8>; 3], Refusal> {
                // sizes that would take more are refused whatever the output is
                let room = length(std::mem::size_of::<$t>(), &self.sizes).map_or(0, |n| n.min(MOST));
                let mut gmm = zeros(room)?;
                let z = self.write(opts, cmvn, &mut gmm)?;
                let mut extractor = gmm.split_off(z.gmm);
                let lda = extractor.split_off(z.extractor);
                Ok([gmm, extractor, lda])
            }
        }
    };
}
write_at!(f32, shofrakin_write_f32);
write_at!(f64, shofrakin_write_f64);
