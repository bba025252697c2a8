//! The options with their defaults and limits, and the limits of a model's dimensions.

#[derive(Clone, Copy, Debug, PartialEq)]
pub struct Options {
    pub left: u64,
    pub right: u64,
    pub window: u64,
    pub global_frames: u64,
    pub num_gselect: u64,
    pub num_cg_iters: u64,
    pub min_post: f32,
    pub posterior_scale: f32,
    pub max_count: f64,
    pub min_energy: f32,
}

pub const DEFAULT: Options = Options {
    left: 3,
    right: 3,
    window: 600,
    global_frames: 200,
    num_gselect: 5,
    num_cg_iters: 15,
    min_post: 0.025,
    posterior_scale: 0.1,
    max_count: 100.0,
    min_energy: 50.0,
};

/// Refusal 1.
pub fn options_ok(o: &Options) -> bool {
    o.left <= 8
        && o.right <= 8
        && (1..=1000).contains(&o.window)
        && (1..=10_000).contains(&o.global_frames)
        && (1..=32).contains(&o.num_gselect)
        && o.num_cg_iters <= 200
        && 0.0 <= o.min_post
        && o.min_post < 1.0
        && o.posterior_scale.is_finite()
        && o.max_count.is_finite()
        && o.min_energy.is_finite()
}

pub(super) const GAUSS: i32 = 1024;
pub(super) const FEAT: i32 = 64;
pub(super) const IVEC: i32 = 128;
pub(super) const LDACOLS: i32 = 1089;
pub(super) const SKIP: i32 = 1_000_000;
