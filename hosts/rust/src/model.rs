use crate::memory::zeros;
use crate::sys::TableLengths;
pub use crate::sys::{Dimensions, IvectorOptions};
use crate::{sys, Refusal};
use std::fmt;
use std::io::ErrorKind;
use std::path::{Path, PathBuf};
use std::sync::Arc;

/// The original's defaults. In range: contexts 0..8, window 1..1,000, global frames 1..10,000, `num_gselect` 1..32, `num_cg_iters` 0..200,
/// 0 <= `min_post` < 1, the other floats finite.
impl Default for IvectorOptions {
    fn default() -> Self {
        IvectorOptions {
            left_context: 3,
            right_context: 3,
            cmn_window: 600,
            global_frames: 200,
            num_gselect: 5,
            num_cg_iters: 15,
            min_post: 0.025,
            posterior_scale: 0.1,
            max_count: 100.0,
            min_energy: 50.0,
        }
    }
}

impl IvectorOptions {
    /// The options from the bytes of the maker's settings files, `splice.conf` and `online_cmvn.conf`; a missing file is one of no bytes. Lines
    /// `--key=value`, of which the first with a key decides; where there is none, or its value can't be read, the default stays. An option outside its
    /// range is given as it is read, and refused by a load (1). Refusal 25.
    pub fn from_settings(splice: &[u8], online_cmvn: &[u8]) -> Result<IvectorOptions, Refusal> {
        // SAFETY: slices' pointers with their lengths.
        let a = unsafe { sys::shofrakin_settings(splice.as_ptr(), splice.len(), online_cmvn.as_ptr(), online_cmvn.len()) };
        Refusal::of(a.refusal)?;
        Ok(a.opts)
    }
}

/// A model's files, as [`IvectorInfo::open`] names them.
pub const MODEL_FILES: [&str; 4] = ["final.dubm", "final.ie", "final.mat", "global_cmvn.stats"];

/// The maker's settings files, which may be missing.
pub const SETTINGS_FILES: [&str; 2] = ["splice.conf", "online_cmvn.conf"];

/// Everything read once per model. It is not changed any more, and may be shared: a clone is another handle to the same tables.
#[derive(Clone)]
pub struct IvectorInfo(Arc<Loaded>);

/// A loaded model's record, and the tables that it is about, of the lengths that it was made with.
pub(crate) struct Loaded {
    pub info: sys::IvectorInfo,
    pub tables: Tables,
}

pub(crate) struct Tables {
    pub gconsts: Vec<f32>,
    pub means_invvars_t: Vec<f32>,
    pub inv_vars_t: Vec<f32>,
    pub sigma_inv_m: Vec<f64>,
    pub u: Vec<f64>,
    pub lda_t: Vec<f32>,
    pub lda_offset: Vec<f32>,
    pub global_mean_stats: Vec<f64>,
}

impl IvectorInfo {
    /// Loads a model from its folder: `final.dubm`, `final.ie`, `final.mat` and `global_cmvn.stats`, with the settings of `splice.conf` and
    /// `online_cmvn.conf` where these are there.
    pub fn open(dir: &Path) -> Result<IvectorInfo, OpenError> {
        let mut texts = [vec![], vec![]];
        for (text, name) in texts.iter_mut().zip(SETTINGS_FILES) {
            let path = dir.join(name);
            match std::fs::read(&path) {
                Ok(b) => *text = b,
                Err(e) if e.kind() == ErrorKind::NotFound => (),
                Err(e) => return Err(OpenError::Unread(path, e)),
            }
        }
        let [splice, online_cmvn] = &texts;
        let in_settings = |r| OpenError::Refused(r, dir.join(SETTINGS_FILES[setting_at_fault(splice, r)]));
        let opts = IvectorOptions::from_settings(splice, online_cmvn).map_err(in_settings)?;
        let mut files = [vec![], vec![], vec![], vec![]];
        for (file, name) in files.iter_mut().zip(MODEL_FILES) {
            let path = dir.join(name);
            *file = std::fs::read(&path).map_err(|e| OpenError::Unread(path, e))?;
        }
        let [gmm, extractor, lda, cmvn] = &files;
        IvectorInfo::from_bytes_with_settings(splice, online_cmvn, gmm, extractor, lda, cmvn).map_err(|r| match r.number() {
            1 => in_settings(r),
            _ => OpenError::Refused(r, at_fault(opts, [gmm, extractor, lda, cmvn], r).map_or(dir.to_path_buf(), |i| dir.join(MODEL_FILES[i]))),
        })
    }

    /// Loads a model from the bytes of its four files. Refusals 1 to 7, and 8 where no memory holds its tables.
    #[rustfmt::skip]
    pub fn from_bytes(opts: IvectorOptions, gmm: &[u8], extractor: &[u8], lda: &[u8], cmvn: &[u8]) -> Result<IvectorInfo, Refusal> {
        let (mut t, mut scratch) = Tables::needed(opts, [gmm, extractor, lda, cmvn])?;
        // SAFETY: every pointer is a slice's with its length, initialised and aligned; what is written is borrowed alone.
        let a = unsafe {
            sys::shofrakin_load(
                opts,
                gmm.as_ptr(), gmm.len(), extractor.as_ptr(), extractor.len(), lda.as_ptr(), lda.len(), cmvn.as_ptr(), cmvn.len(),
                t.gconsts.as_mut_ptr(), t.gconsts.len(), t.means_invvars_t.as_mut_ptr(), t.means_invvars_t.len(),
                t.inv_vars_t.as_mut_ptr(), t.inv_vars_t.len(), t.sigma_inv_m.as_mut_ptr(), t.sigma_inv_m.len(),
                t.u.as_mut_ptr(), t.u.len(), t.lda_t.as_mut_ptr(), t.lda_t.len(), t.lda_offset.as_mut_ptr(), t.lda_offset.len(),
                t.global_mean_stats.as_mut_ptr(), t.global_mean_stats.len(), scratch.as_mut_ptr(), scratch.len(),
            )
        };
        IvectorInfo::of(a, t)
    }

    /// The same with the options of the two settings files' bytes ([`IvectorOptions::from_settings`]). Refusals 25, then 1 to 8.
    #[rustfmt::skip]
    pub fn from_bytes_with_settings(
        splice: &[u8], online_cmvn: &[u8], gmm: &[u8], extractor: &[u8], lda: &[u8], cmvn: &[u8],
    ) -> Result<IvectorInfo, Refusal> {
        let opts = IvectorOptions::from_settings(splice, online_cmvn)?;
        let (mut t, mut scratch) = Tables::needed(opts, [gmm, extractor, lda, cmvn])?;
        // SAFETY: as above.
        let a = unsafe {
            sys::shofrakin_load_with_settings(
                splice.as_ptr(), splice.len(), online_cmvn.as_ptr(), online_cmvn.len(),
                gmm.as_ptr(), gmm.len(), extractor.as_ptr(), extractor.len(), lda.as_ptr(), lda.len(), cmvn.as_ptr(), cmvn.len(),
                t.gconsts.as_mut_ptr(), t.gconsts.len(), t.means_invvars_t.as_mut_ptr(), t.means_invvars_t.len(),
                t.inv_vars_t.as_mut_ptr(), t.inv_vars_t.len(), t.sigma_inv_m.as_mut_ptr(), t.sigma_inv_m.len(),
                t.u.as_mut_ptr(), t.u.len(), t.lda_t.as_mut_ptr(), t.lda_t.len(), t.lda_offset.as_mut_ptr(), t.lda_offset.len(),
                t.global_mean_stats.as_mut_ptr(), t.global_mean_stats.len(), scratch.as_mut_ptr(), scratch.len(),
            )
        };
        IvectorInfo::of(a, t)
    }

    fn of(a: sys::LoadAnswer, tables: Tables) -> Result<IvectorInfo, Refusal> {
        Refusal::of(a.refusal)?;
        Ok(IvectorInfo(Arc::new(Loaded { info: a.info, tables })))
    }

    /// The options that the model was loaded with.
    pub fn options(&self) -> &IvectorOptions {
        &self.0.info.opts
    }

    /// The model's sizes.
    pub fn dimensions(&self) -> &Dimensions {
        &self.0.info.dims
    }

    /// How many numbers a frame has.
    pub fn base_dim(&self) -> usize {
        self.0.info.dims.base_dim
    }

    /// How many numbers a vector has.
    pub fn ivector_dim(&self) -> usize {
        self.0.info.dims.ivector_dim
    }

    /// What is taken off element 0 of a vector.
    pub fn prior_offset(&self) -> f64 {
        self.0.info.prior_offset
    }

    /// The bytes of the model's tables.
    pub fn memory(&self) -> usize {
        let t = &self.0.info.tables;
        4 * (t.gconsts + t.means_invvars_t + t.inv_vars_t + t.lda_t + t.lda_offset) + 8 * (t.sigma_inv_m + t.u + t.global_mean_stats)
    }

    pub(crate) fn loaded(&self) -> &Loaded {
        &self.0
    }
}

impl fmt::Debug for IvectorInfo {
    fn fmt(&self, f: &mut fmt::Formatter) -> fmt::Result {
        f.debug_struct("IvectorInfo").field("options", self.options()).field("dimensions", self.dimensions()).finish_non_exhaustive()
    }
}

impl Tables {
    fn new(n: TableLengths) -> Result<Tables, Refusal> {
        Ok(Tables {
            gconsts: zeros(n.gconsts)?,
            means_invvars_t: zeros(n.means_invvars_t)?,
            inv_vars_t: zeros(n.inv_vars_t)?,
            sigma_inv_m: zeros(n.sigma_inv_m)?,
            u: zeros(n.u)?,
            lda_t: zeros(n.lda_t)?,
            lda_offset: zeros(n.lda_offset)?,
            global_mean_stats: zeros(n.global_mean_stats)?,
        })
    }

    /// The tables that the model in these files needs, of exactly their lengths, and a load's scratch. Refusals 1 to 8.
    fn needed(opts: IvectorOptions, files: [&[u8]; 4]) -> Result<(Tables, Vec<f64>), Refusal> {
        let d = dimensions(opts, files);
        Refusal::of(d.refusal)?;
        // SAFETY: numbers alone.
        let n = unsafe { sys::shofrakin_tables_needed(opts, d.dims) };
        Refusal::of(n.refusal)?;
        Ok((Tables::new(n.tables)?, zeros(n.scratch)?))
    }
}

/// The dimensions of the model in four files, or the number that a load refuses them with.
#[rustfmt::skip]
fn dimensions(opts: IvectorOptions, [gmm, extractor, lda, cmvn]: [&[u8]; 4]) -> sys::DimensionsAnswer {
    // SAFETY: every pointer is a slice's with its length; nothing is written.
    unsafe {
        sys::shofrakin_model_dimensions(
            opts, gmm.as_ptr(), gmm.len(), extractor.as_ptr(), extractor.len(), lda.as_ptr(), lda.len(), cmvn.as_ptr(), cmvn.len(),
        )
    }
}

/// Which settings file a refusal 25 or 1 speaks of: the first, where it has the same number with an empty one beside it. A load judges its options (1)
/// before a file.
fn setting_at_fault(splice: &[u8], r: Refusal) -> usize {
    let alone = IvectorOptions::from_settings(splice, b"").map_or_else(Refusal::number, |o| dimensions(o, [b""; 4]).refusal);
    (alone != r.number()).into()
}

/// Which file a refusal from 2 to 7 speaks of; nothing where it is about several. The files are judged one after the other, so that a fault
/// is in an earlier one exactly where nothing that stands in the next one's place is seen: neither one that ends too early (2) nor one
/// with a wrong mark (3). An empty CMVN text is 7, and no other file is.
fn at_fault(opts: IvectorOptions, [gmm, extractor, lda, cmvn]: [&[u8]; 4], r: Refusal) -> Option<usize> {
    let judged = |files: [&[u8]; 4]| dimensions(opts, files).refusal;
    let seen = |short: [&[u8]; 4], marked: [&[u8]; 4]| judged(short) != judged(marked);
    if !(2..=7).contains(&r.number()) {
        None
    } else if !seen([gmm, b"", lda, cmvn], [gmm, b"no", lda, cmvn]) {
        Some(0)
    } else if !seen([gmm, extractor, b"", cmvn], [gmm, extractor, b"no", cmvn]) {
        Some(1)
    } else if judged([gmm, extractor, lda, b""]) != 7 {
        Some(2)
    } else if r.number() == 7 {
        Some(3)
    } else {
        None
    }
}

/// Why a model's folder could not be opened.
#[derive(Debug)]
pub enum OpenError {
    /// A file of it can't be read.
    Unread(PathBuf, std::io::Error),
    /// It is refused, because of this file, or of several in this folder that don't go together; or no memory holds its tables (8).
    Refused(Refusal, PathBuf),
}

impl fmt::Display for OpenError {
    fn fmt(&self, f: &mut fmt::Formatter) -> fmt::Result {
        match self {
            OpenError::Unread(p, e) => write!(f, "{}: {e}", p.display()),
            OpenError::Refused(r, p) => write!(f, "{}: {r}", p.display()),
        }
    }
}

impl std::error::Error for OpenError {
    fn source(&self) -> Option<&(dyn std::error::Error + 'static)> {
        match self {
            OpenError::Unread(_, e) => Some(e),
            OpenError::Refused(r, _) => Some(r),
        }
    }
}
