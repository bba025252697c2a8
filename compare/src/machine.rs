//! The reference machine, written from the scope: the keeping machine, which keeps every frame and drops nothing, load and the silence table.
//! Where the scope says "as" a function of the Rust, the operations follow that function's order.
use std::cell::RefCell;

mod cmvn_text;
mod fetch;
mod files;
mod floats;
mod load;
mod options;
mod posteriors;
mod reader;
mod record;
mod silence;
mod solve;
mod statistics;
mod stream;
mod views;

pub use cmvn_text::{cmvn_row, text_number};
pub use floats::{exp_f32, ln, ln_f32};
pub use load::{load, model_needs, room_lens, Dims, Model};
pub use options::{options_ok, Options, DEFAULT};
pub use posteriors::{floor_for, select_posteriors, weighing, Weighing};
pub use record::{alter, stream_needs, Alter, Record};
pub use silence::{SAlter, Silence};
pub use solve::{cgd, cholesky};
pub use statistics::Stats;
pub use stream::{Answer, Stream};

// coverage counters
thread_local! { pub static EV: RefCell<std::collections::BTreeMap<&'static str, u64>> = RefCell::new(Default::default()); }
pub fn ev(name: &'static str) {
    EV.with(|m| *m.borrow_mut().entry(name).or_insert(0) += 1);
}

/// What is taken, or the number of its refusal.
type Re<T> = Result<T, u32>;
