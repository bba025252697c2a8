// What stands in the original's place where its sources are not at hand, so that the other sides can be compared: its names, none of its
// work. HERE says so, and then nothing of this is called.
pub const HERE: bool = false;
pub mod decoder {
    pub struct PhoneSegment {
        pub phone: i32,
        pub start: usize,
        pub end: usize,
    }
    #[derive(Default)]
    pub struct Path {
        pub phones: Vec<PhoneSegment>,
    }
}
pub mod silence_weighting {
    pub struct SilenceWeighting;
    impl SilenceWeighting {
        pub fn new(_: &[i32], _: f32, _: usize) -> Self {
            unimplemented!()
        }
        pub fn compute_current_traceback(&mut self, _: &super::decoder::Path, _: usize) {
            unimplemented!()
        }
        pub fn get_delta_weights(&mut self, _: usize, _: usize) -> Vec<(usize, f32)> {
            unimplemented!()
        }
        pub fn active(&self) -> bool {
            unimplemented!()
        }
        pub fn x_table(&self) -> Vec<(bool, bool, u32)> {
            unimplemented!()
        }
    }
}
pub mod ivector {
    #[derive(Default)]
    pub struct IvectorOptions {
        pub num_gselect: usize,
        pub min_post: f32,
        pub posterior_scale: f32,
        pub max_count: f64,
        pub num_cg_iters: i32,
        pub cmn_window: usize,
        pub global_frames: usize,
        pub min_energy: f32,
        pub left_context: usize,
        pub right_context: usize,
    }
    pub fn settings(_: &str, _: &str) -> IvectorOptions {
        unimplemented!()
    }
    pub struct Gmm {
        pub num_gauss: usize,
        pub dim: usize,
    }
    pub struct Extractor {
        pub num_gauss: usize,
        pub feat_dim: usize,
        pub ivector_dim: usize,
        pub prior_offset: f64,
    }
    pub struct IvectorInfo {
        pub opts: IvectorOptions,
        pub gmm: Gmm,
        pub extractor: Extractor,
    }
    pub struct Tables {
        pub gconsts: Vec<f32>,
        pub means_invvars_t: Vec<f32>,
        pub inv_vars_t: Vec<f32>,
        pub sigma_inv_m: Vec<f64>,
        pub u: Vec<f64>,
        pub lda_t: Vec<f32>,
        pub lda_offset: Vec<f32>,
        pub global: Vec<f64>,
    }
    impl IvectorInfo {
        pub fn open_bytes(_: IvectorOptions, _: &[u8], _: &[u8], _: &[u8], _: &[u8]) -> Result<IvectorInfo, ()> {
            panic!("the original's sources are not here")
        }
        pub fn tables(&self) -> Tables {
            unimplemented!()
        }
        pub fn ivector_dim(&self) -> usize {
            unimplemented!()
        }
    }
    pub struct IvectorStream<'a>(pub &'a IvectorInfo);
    impl<'a> IvectorStream<'a> {
        pub fn new(info: &'a IvectorInfo) -> Self {
            IvectorStream(info)
        }
        pub fn update_frame_weights(&mut self, _: &[(usize, f32)]) {
            unimplemented!()
        }
        pub fn forget_before(&mut self, _: usize) {
            unimplemented!()
        }
        pub fn push_frame(&mut self, _: &[f32]) {
            unimplemented!()
        }
        pub fn set_input_finished(&mut self) {
            unimplemented!()
        }
        pub fn num_frames_ready(&self) -> usize {
            unimplemented!()
        }
        pub fn get_frame(&mut self, _: usize, _: &mut [f32]) {
            unimplemented!()
        }
        pub fn x_held(&self) -> (u64, u64) {
            unimplemented!()
        }
        pub fn x_state(&self) -> Vec<f64> {
            unimplemented!()
        }
        pub fn x_next(&self) -> usize {
            unimplemented!()
        }
        pub fn x_waiting(&self) -> usize {
            unimplemented!()
        }
    }
}
