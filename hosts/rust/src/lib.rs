//! The i-vector branch of a speech front end: Kaldi models in, a vector that describes the speaker out. The library below is written in
//! Rattle, every call proved equal to its definition (docs/PROOFS.md of the repository); this crate gives it safe types that own the
//! memory which the calls are lent. Names and the order of arguments are those of the original, pyscape/utter.
//!
//! A model is opened once ([`IvectorInfo::open`], or [`IvectorInfo::from_bytes`]), and any number of streams work on it. A stream is given its
//! [`Room`] when it is made and allocates it then; its calls allocate nothing, but for the lists of a [`round`](IvectorStream::round). Whatever is outside the
//! limits is refused by a [`Refusal`], a number with a sentence, and changes nothing; a round, which is several calls, keeps those before the refused one.
//!
//! ```
//! use shofrakin::{IvectorInfo, IvectorStream, Room};
//! use std::path::Path;
//!
//! let model = concat!(env!("CARGO_MANIFEST_DIR"), "/../../examples/model");
//! let info = IvectorInfo::open(Path::new(model))?;
//! // with room for utterances of up to 200 frames no push is refused for want of it
//! let mut stream = IvectorStream::new(&info, Room::for_utterances(&info, 200))?;
//! let mut vector = vec![0.0; info.ivector_dim()];
//! let mut pushed = 0;
//! for length in [200, 120, 200, 57, 200] {
//!     for t in 0..length {
//!         stream.push_frame(&[7.0, (t as f32).sin(), 0.5, -0.25])?;
//!     }
//!     pushed += length;
//!     // the utterance is over: its vector is fetched, and what lies before the next one is forgotten
//!     if let Some(last) = stream.num_frames_ready().checked_sub(1) {
//!         let fetched = stream.get_frame(last, &mut vector)?;
//!         assert_eq!(fetched.not_finite, 0);
//!     }
//!     stream.forget_before(pushed)?;
//! }
//! // the contexts, one frame each in this model, are all that is held
//! assert_eq!(stream.held().frames, 2);
//! # Ok::<(), Box<dyn std::error::Error>>(())
//! ```
//!
//! What include/shofrakin.h asks of a caller is seen to by the types: rooms are allocated and cleared when a model, a stream or a table is
//! made, have the lengths that the record was made with, and are borrowed alone where a call writes them; records are not handed out.
//! Nothing of this crate's surface is unsafe. Models, streams and tables are `Send`; a model may be shared between threads.
#![warn(missing_docs)]

pub mod archive;
mod memory;
mod model;
mod refusal;
mod registers;
mod silence;
mod stream;
#[doc(hidden)]
#[allow(missing_docs)]
pub mod sys;
mod trigger;
mod voice;
mod writer;

pub use model::{Dimensions, IvectorInfo, IvectorOptions, OpenError, MODEL_FILES, SETTINGS_FILES};
pub use refusal::Refusal;
pub use silence::{DecoderFrame, InputFrame, PhoneSegment, SilenceWeighting};
pub use stream::{Fetched, Held, IvectorStream, Room, MAX_CHANGES};
pub use trigger::{Round, RoundEnd};
pub use voice::{nearest_voice, Voice};
pub use writer::{ModelParams, ModelSizes, Written};
