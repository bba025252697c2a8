//! The original Rust behind small drivers: `plain` as published, `nan` with NaN ordered last.
//! Where its sources were not at hand when this was built, HERE is false, and nothing of it is to be called.
use crate::machine::Options;
pub use crate::orig::HERE;
use std::panic::{catch_unwind, AssertUnwindSafe};

macro_rules! driver {
    ($name:ident, $m:path) => {
        pub mod $name {
            use super::*;
            use $m as o;
            pub type Info = o::ivector::IvectorInfo;
            pub type Stream<'a> = o::ivector::IvectorStream<'a>;
            pub type Silence = o::silence_weighting::SilenceWeighting;
            pub fn opts(p: &Options) -> o::ivector::IvectorOptions {
                let mut q = o::ivector::IvectorOptions::default();
                q.num_gselect = p.num_gselect as usize;
                q.min_post = p.min_post;
                q.posterior_scale = p.posterior_scale;
                q.max_count = p.max_count;
                q.num_cg_iters = p.num_cg_iters as i32;
                q.cmn_window = p.window as usize;
                q.global_frames = p.global_frames as usize;
                q.min_energy = p.min_energy;
                q.left_context = p.left as usize;
                q.right_context = p.right as usize;
                q
            }
            /// Nothing for a reported error, Err for a panic.
            pub fn open(p: &Options, b: &[Vec<u8>; 4]) -> Result<Option<Info>, ()> {
                catch_unwind(AssertUnwindSafe(|| Info::open_bytes(opts(p), &b[0], &b[1], &b[2], &b[3]).ok())).map_err(|_| ())
            }
            /// A stream with its model.
            pub struct Owned {
                pub st: Stream<'static>,
                info: *mut Info,
                pub dim: usize,
            }
            impl Owned {
                pub fn new(info: Info) -> Owned {
                    let p = Box::into_raw(Box::new(info));
                    let r: &'static Info = unsafe { &*p };
                    Owned { st: Stream::new(r), info: p, dim: r.ivector_dim() }
                }
                /// Nothing where it panics.
                pub fn fetch(&mut self, f: u64) -> Option<Vec<f32>> {
                    let mut out = vec![0f32; self.dim];
                    catch_unwind(AssertUnwindSafe(|| self.st.get_frame(f as usize, &mut out))).ok()?;
                    Some(out)
                }
            }
            impl Drop for Owned {
                fn drop(&mut self) {
                    // the stream only borrows; nothing of it touches the model when it is dropped
                    unsafe { drop(Box::from_raw(self.info)) }
                }
            }
            pub fn path(p: &[i32], s: &[u64], e: &[u64]) -> o::decoder::Path {
                let mut t = o::decoder::Path::default();
                for i in 0..p.len() {
                    t.phones.push(o::decoder::PhoneSegment { phone: p[i], start: s[i] as usize, end: e[i] as usize });
                }
                t
            }
        }
    };
}
driver!(plain, crate::orig);
driver!(nan, crate::orig_nan);
