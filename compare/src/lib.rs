//! The library against the machine and the original Rust. See README.md.
pub mod gen;
pub mod kinds;
pub mod machine;
pub mod registers;
pub mod script;
pub mod trigger;
pub mod voice;

#[cfg(feature = "library")]
pub mod day;
#[cfg(feature = "library")]
pub mod fns;
#[cfg(feature = "library")]
pub mod lists;
#[cfg(feature = "library")]
pub mod load_lines;
#[cfg(feature = "library")]
pub mod loads;
#[cfg(feature = "library")]
pub mod loud;
#[cfg(feature = "library")]
pub mod memory;
#[cfg(feature = "library")]
pub mod model;
#[cfg(feature = "library")]
pub mod nearest;
#[cfg(feature = "library")]
pub mod original;
#[cfg(feature = "library")]
pub mod rattle;
#[cfg(feature = "library")]
pub mod settings;
#[cfg(feature = "library")]
pub mod timed;
#[cfg(feature = "library")]
pub mod translated;
#[cfg(feature = "library")]
pub mod writer;
#[cfg(feature = "library")]
#[allow(dead_code, warnings)]
mod orig {
    include!(concat!(env!("OUT_DIR"), "/orig.rs"));
}
#[cfg(feature = "library")]
#[allow(dead_code, warnings)]
mod orig_nan {
    include!(concat!(env!("OUT_DIR"), "/orig_nan.rs"));
}

/// Resident memory in kilobytes.
pub fn resident() -> u64 {
    let t = std::fs::read_to_string("/proc/self/status").unwrap_or_default();
    t.lines().find_map(|l| l.strip_prefix("VmRSS:")).and_then(|l| l.split_whitespace().next()?.parse().ok()).unwrap_or(0)
}
