//! The library by its raw calls (`shofrakin::sys`), and a model, a stream and a silence table that own what the calls are lent. They are not the
//! types of hosts/rust, which see to it that nothing goes wrong: here records are forged and rooms are of other lengths. A room is a little
//! longer than what is lent of it, so that a call can be lent more than the record was made with, and what lies past the lent part has a value of
//! its own, which no call may touch.
use crate::machine::{Dims, Options};
pub use shofrakin::sys::{
    DecoderFrame, Dimensions, EstimateLengths, InputFrame, IvectorInfo, IvectorOptions, IvectorStream, LoadAnswer, ModelSizes, RingLengths,
    RoomLengths, RoundAnswer, RoundOutcome, SilenceCounts, SilenceWeighting, StreamAnswer, TableLengths,
};

mod call;
mod model;
mod nearest;
mod record;
mod registers;
mod rooms;
mod round;
mod settings;
mod silence;
mod stream;
mod write;

pub use call::Call;
pub use model::{load, load_into, load_options, load_scratch, Model, Tables};
pub use nearest::nearest_voice;
pub use rooms::Rooms;
pub use round::{rounded, Lists, UNTOUCHED};
pub use settings::settings;
pub use silence::Silence;
pub use stream::Stream;
pub use write::{write_f32, write_f64};

/// How much longer a room is than what is lent of it.
const MORE: usize = 8;
const CANARY32: f32 = 12345.678;
const CANARY64: f64 = -98765.4321;
const CANARY: usize = 0xABCD_EF01;

/// A room and how much of it is lent.
#[derive(Clone, Debug, PartialEq)]
pub struct Room<T> {
    pub all: Vec<T>,
    pub len: usize,
}

impl<T: Copy> Room<T> {
    fn new(len: usize, canary: T) -> Room<T> {
        Room { all: vec![canary; len + MORE], len }
    }
    fn by(&self, d: i64) -> usize {
        (self.len as i64 + d).clamp(0, self.all.len() as i64) as usize
    }
}

pub fn options(o: &Options) -> IvectorOptions {
    IvectorOptions {
        left_context: o.left as usize,
        right_context: o.right as usize,
        cmn_window: o.window as usize,
        global_frames: o.global_frames as usize,
        num_gselect: o.num_gselect as usize,
        num_cg_iters: o.num_cg_iters as usize,
        min_post: o.min_post,
        posterior_scale: o.posterior_scale,
        max_count: o.max_count,
        min_energy: o.min_energy,
    }
}

pub fn dimensions(d: &Dims) -> Dimensions {
    Dimensions { num_gauss: d.gmm_gauss, ext_gauss: d.ext_gauss, feat_dim: d.feat, ivector_dim: d.ivec, base_dim: d.base, lda_cols: d.lda_cols }
}
