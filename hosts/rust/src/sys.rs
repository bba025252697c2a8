//! The library as C sees it: the records and calls of include/shofrakin.h, in its order, a field or an argument for each of the header's.
//! All raw declarations are in this file alone; tests/header.rs holds them to the header, names, types, sizes and places. What the calls
//! ask of a caller is in the header; the types of this crate see to it, and a program that uses them needs nothing from here.

/// The records, each after its name in C. A field is a line, in the header's order.
macro_rules! records {
    ($($(#[$doc:meta])* $c:ident: struct $name:ident { $($(#[$what:meta])* $field:ident: $t:ty,)* })*) => {
        $(
            $(#[$doc])*
            #[repr(C)]
            #[derive(Clone, Copy, Debug, PartialEq)]
            pub struct $name {
                $($(#[$what])* pub $field: $t,)*
            }
        )*
        /// Of each record its name in C and here, its size, and its fields with their types and places.
        pub const RECORDS: &[Record] = &[$(Record {
            c: stringify!($c),
            rust: stringify!($name),
            size: std::mem::size_of::<$name>(),
            fields: &[$((stringify!($field), stringify!($t), std::mem::offset_of!($name, $field)),)*],
        },)*];
    };
}

/// A record's layout, for the test that compares it with C's.
pub struct Record {
    pub c: &'static str,
    pub rust: &'static str,
    pub size: usize,
    pub fields: &'static [(&'static str, &'static str, usize)],
}

records! {
    /// The options of a model. The defaults are the original's.
    shofrakin_options: struct IvectorOptions {
        /// Frames before one that its spliced row has: 0 to 8.
        left_context: usize,
        /// Frames after one that its spliced row has: 0 to 8.
        right_context: usize,
        /// Frames of the CMVN window: 1 to 1,000.
        cmn_window: usize,
        /// How many frames the global CMVN row counts for at most: 1 to 10,000.
        global_frames: usize,
        /// How many Gaussians are selected: 1 to 32.
        num_gselect: usize,
        /// How many steps a solve has: 0 to 200.
        num_cg_iters: usize,
        /// Posteriors below are pruned: from 0 to below 1.
        min_post: f32,
        /// What posteriors are scaled by: finite.
        posterior_scale: f32,
        /// The count from which on the prior is scaled: finite.
        max_count: f64,
        /// A frame is loud where its first number is above: finite.
        min_energy: f32,
    }

    /// A model's sizes.
    shofrakin_dimensions: struct Dimensions {
        /// Gaussians of the GMM.
        num_gauss: usize,
        /// Gaussians of the extractor.
        ext_gauss: usize,
        /// The feature dimension, after the LDA.
        feat_dim: usize,
        /// The i-vector dimension.
        ivector_dim: usize,
        /// The base dimension: how many numbers a frame has.
        base_dim: usize,
        /// Columns of the LDA.
        lda_cols: usize,
    }

    /// The lengths of the tables that a model is loaded into.
    shofrakin_table_lengths: struct TableLengths {
        gconsts: usize,
        means_invvars_t: usize,
        inv_vars_t: usize,
        sigma_inv_m: usize,
        u: usize,
        lda_t: usize,
        lda_offset: usize,
        global_mean_stats: usize,
    }

    /// A loaded model's record.
    shofrakin_info: struct IvectorInfo {
        opts: IvectorOptions,
        dims: Dimensions,
        prior_offset: f64,
        tables: TableLengths,
    }

    shofrakin_load_answer: struct LoadAnswer {
        refusal: usize,
        info: IvectorInfo,
    }

    shofrakin_settings_answer: struct SettingsAnswer {
        refusal: usize,
        opts: IvectorOptions,
    }

    shofrakin_dimensions_answer: struct DimensionsAnswer {
        refusal: usize,
        dims: Dimensions,
    }

    shofrakin_tables_answer: struct TablesAnswer {
        refusal: usize,
        tables: TableLengths,
        scratch: usize,
    }

    shofrakin_ring_lengths: struct RingLengths {
        frames: usize,
        rows: usize,
        waiting_frames: usize,
        waiting_weights: usize,
    }

    shofrakin_estimate_lengths: struct EstimateLengths {
        cmvn_stats: usize,
        linear: usize,
        quadratic: usize,
        current: usize,
        scratch: usize,
    }

    shofrakin_room_lengths: struct RoomLengths {
        rings: RingLengths,
        estimate: EstimateLengths,
    }

    shofrakin_rooms_answer: struct RoomsAnswer {
        refusal: usize,
        lengths: RoomLengths,
    }

    /// A stream's record.
    shofrakin_stream: struct IvectorStream {
        info: IvectorInfo,
        lengths: RoomLengths,
        accepted: usize,
        num_frames_stats: usize,
        mark: usize,
        waiting: usize,
        past_highest: usize,
        delta_weights_provided: bool,
        input_finished: bool,
        num_frames: f64,
        floor: usize,
        window: usize,
        longest: usize,
    }

    shofrakin_stream_answer: struct StreamAnswer {
        refusal: usize,
        frames_held: usize,
        rows_held: usize,
        not_finite: usize,
        nan_likelihoods: usize,
    }

    shofrakin_new_stream_answer: struct NewStreamAnswer {
        answer: StreamAnswer,
        stream: IvectorStream,
    }

    shofrakin_input_frame: struct InputFrame {
        number: usize,
    }

    shofrakin_decoder_frame: struct DecoderFrame {
        number: usize,
    }

    /// A silence table's record.
    shofrakin_silence: struct SilenceWeighting {
        silence_weight: f32,
        subsampling: usize,
        phones: usize,
        table: usize,
        length: DecoderFrame,
    }

    shofrakin_new_table_answer: struct NewTableAnswer {
        refusal: usize,
        silence: SilenceWeighting,
    }

    shofrakin_silence_counts: struct SilenceCounts {
        refusal: usize,
        changes: usize,
    }

    shofrakin_voice_answer: struct VoiceAnswer {
        refusal: usize,
        found: bool,
        index: usize,
        distance: f32,
    }

    shofrakin_step_answer: struct StepAnswer {
        refusal: usize,
    }

    shofrakin_round_outcome: struct RoundOutcome {
        refusal: usize,
        step: usize,
        full: bool,
        found: bool,
        index: usize,
        distance: f32,
    }

    shofrakin_round_answer: struct RoundAnswer {
        outcome: RoundOutcome,
        changes: usize,
        stream: IvectorStream,
        silence: SilenceWeighting,
    }

    /// The sizes of a model that is written: Gaussians of the GMM and of the extractor, feature and i-vector dimension, columns of the LDA.
    shofrakin_model_sizes: struct ModelSizes {
        num_gauss: usize,
        ext_gauss: usize,
        feat_dim: usize,
        ivector_dim: usize,
        lda_cols: usize,
    }

    shofrakin_written_answer: struct WrittenAnswer {
        refusal: usize,
        gmm: usize,
        extractor: usize,
        lda: usize,
    }
}

// A slice is a pointer and a length, two arguments.
#[rustfmt::skip]
extern "C" {
    pub fn shofrakin_load(
        opts: IvectorOptions,
        gmm: *const u8, gmm_len: usize, extractor: *const u8, extractor_len: usize,
        lda: *const u8, lda_len: usize, cmvn: *const u8, cmvn_len: usize,
        gconsts: *mut f32, gconsts_len: usize, means_invvars_t: *mut f32, means_invvars_t_len: usize,
        inv_vars_t: *mut f32, inv_vars_t_len: usize, sigma_inv_m: *mut f64, sigma_inv_m_len: usize,
        u: *mut f64, u_len: usize, lda_t: *mut f32, lda_t_len: usize,
        lda_offset: *mut f32, lda_offset_len: usize, global_mean_stats: *mut f64, global_mean_stats_len: usize,
        scratch: *mut f64, scratch_len: usize,
    ) -> LoadAnswer;
    pub fn shofrakin_settings(splice: *const u8, splice_len: usize, online_cmvn: *const u8, online_cmvn_len: usize) -> SettingsAnswer;
    pub fn shofrakin_load_with_settings(
        splice: *const u8, splice_len: usize, online_cmvn: *const u8, online_cmvn_len: usize,
        gmm: *const u8, gmm_len: usize, extractor: *const u8, extractor_len: usize,
        lda: *const u8, lda_len: usize, cmvn: *const u8, cmvn_len: usize,
        gconsts: *mut f32, gconsts_len: usize, means_invvars_t: *mut f32, means_invvars_t_len: usize,
        inv_vars_t: *mut f32, inv_vars_t_len: usize, sigma_inv_m: *mut f64, sigma_inv_m_len: usize,
        u: *mut f64, u_len: usize, lda_t: *mut f32, lda_t_len: usize,
        lda_offset: *mut f32, lda_offset_len: usize, global_mean_stats: *mut f64, global_mean_stats_len: usize,
        scratch: *mut f64, scratch_len: usize,
    ) -> LoadAnswer;
    pub fn shofrakin_model_dimensions(
        opts: IvectorOptions,
        gmm: *const u8, gmm_len: usize, extractor: *const u8, extractor_len: usize,
        lda: *const u8, lda_len: usize, cmvn: *const u8, cmvn_len: usize,
    ) -> DimensionsAnswer;
    pub fn shofrakin_tables_needed(opts: IvectorOptions, dims: Dimensions) -> TablesAnswer;
    pub fn shofrakin_rooms_needed(dims: Dimensions, frames: usize, rows: usize, changes: usize) -> RoomsAnswer;
    pub fn shofrakin_new_stream(
        info: IvectorInfo,
        gconsts: *const f32, gconsts_len: usize, means_invvars_t: *const f32, means_invvars_t_len: usize,
        inv_vars_t: *const f32, inv_vars_t_len: usize, sigma_inv_m: *const f64, sigma_inv_m_len: usize,
        u: *const f64, u_len: usize, lda_t: *const f32, lda_t_len: usize,
        lda_offset: *const f32, lda_offset_len: usize, global_mean_stats: *const f64, global_mean_stats_len: usize,
        frames: *const f32, frames_len: usize, rows: *mut f64, rows_len: usize,
        waiting_frames: *const usize, waiting_frames_len: usize, waiting_weights: *const f32, waiting_weights_len: usize,
        cmvn_stats: *mut f64, cmvn_stats_len: usize, linear: *mut f64, linear_len: usize,
        quadratic: *mut f64, quadratic_len: usize, current: *mut f64, current_len: usize,
        scratch: *const f64, scratch_len: usize,
    ) -> NewStreamAnswer;
    pub fn shofrakin_push_frame(
        s: *mut IvectorStream, frame: *const f32, frame_len: usize,
        frames: *mut f32, frames_len: usize, rows: *mut f64, rows_len: usize,
        waiting_frames: *const usize, waiting_frames_len: usize, waiting_weights: *const f32, waiting_weights_len: usize,
    ) -> StreamAnswer;
    pub fn shofrakin_set_input_finished(
        s: *mut IvectorStream, frames: *const f32, frames_len: usize, rows: *const f64, rows_len: usize,
        waiting_frames: *const usize, waiting_frames_len: usize, waiting_weights: *const f32, waiting_weights_len: usize,
    ) -> StreamAnswer;
    pub fn shofrakin_update_frame_weights(
        s: *mut IvectorStream, delta_frames: *const usize, delta_frames_len: usize, delta_weights: *const f32, delta_weights_len: usize,
        frames: *const f32, frames_len: usize, rows: *const f64, rows_len: usize,
        waiting_frames: *mut usize, waiting_frames_len: usize, waiting_weights: *mut f32, waiting_weights_len: usize,
    ) -> StreamAnswer;
    pub fn shofrakin_forget_before(
        s: *mut IvectorStream, frame: usize, frames: *const f32, frames_len: usize, rows: *const f64, rows_len: usize,
        waiting_frames: *const usize, waiting_frames_len: usize, waiting_weights: *const f32, waiting_weights_len: usize,
    ) -> StreamAnswer;
    pub fn shofrakin_set_cmn_window(
        s: *mut IvectorStream, window: usize, frames: *const f32, frames_len: usize, rows: *const f64, rows_len: usize,
        waiting_frames: *const usize, waiting_frames_len: usize, waiting_weights: *const f32, waiting_weights_len: usize,
    ) -> StreamAnswer;
    pub fn shofrakin_get_frame(
        s: *mut IvectorStream, frame: usize,
        gconsts: *const f32, gconsts_len: usize, means_invvars_t: *const f32, means_invvars_t_len: usize,
        inv_vars_t: *const f32, inv_vars_t_len: usize, sigma_inv_m: *const f64, sigma_inv_m_len: usize,
        u: *const f64, u_len: usize, lda_t: *const f32, lda_t_len: usize,
        lda_offset: *const f32, lda_offset_len: usize, global_mean_stats: *const f64, global_mean_stats_len: usize,
        frames: *const f32, frames_len: usize, rows: *const f64, rows_len: usize,
        waiting_frames: *mut usize, waiting_frames_len: usize, waiting_weights: *mut f32, waiting_weights_len: usize,
        cmvn_stats: *mut f64, cmvn_stats_len: usize, linear: *mut f64, linear_len: usize,
        quadratic: *mut f64, quadratic_len: usize, current: *mut f64, current_len: usize,
        scratch: *mut f64, scratch_len: usize, out: *mut u32, out_len: usize,
    ) -> StreamAnswer;
    pub fn shofrakin_num_frames_ready(s: *const IvectorStream) -> usize;
    pub fn shofrakin_ivector_dim(s: *const IvectorStream) -> usize;
    pub fn shofrakin_num_frames_stats(s: *const IvectorStream) -> usize;
    pub fn shofrakin_new_silence_weighting(
        silence_phones: *const i32, silence_phones_len: usize, silence_weight: f32, subsampling: usize, table: usize,
    ) -> NewTableAnswer;
    pub fn shofrakin_silence_active(s: *const SilenceWeighting) -> bool;
    pub fn shofrakin_compute_current_traceback(
        s: *mut SilenceWeighting, silence_phones: *const i32, silence_phones_len: usize,
        known: *mut bool, known_len: usize, is_silence: *mut bool, is_silence_len: usize,
        current_weight: *mut f32, current_weight_len: usize,
        segment_phones: *const i32, segment_phones_len: usize, starts: *const usize, starts_len: usize,
        ends: *const usize, ends_len: usize, num_frames_decoded: DecoderFrame,
    ) -> SilenceCounts;
    pub fn shofrakin_get_delta_weights(
        s: *mut SilenceWeighting, known: *mut bool, known_len: usize, is_silence: *mut bool, is_silence_len: usize,
        current_weight: *mut f32, current_weight_len: usize, num_frames_ready: InputFrame, first_decoder_frame: InputFrame,
        frames: *mut usize, frames_len: usize, weights: *mut f32, weights_len: usize,
    ) -> SilenceCounts;
    pub fn shofrakin_nearest_voice(
        dim: usize, vector: *const u32, vector_len: usize, count: usize, enrolled: *const u32, enrolled_len: usize, limit: f32,
    ) -> VoiceAnswer;
    pub fn shofrakin_registers_step(
        s: *mut IvectorStream, block: *mut u8, block_len: usize, frame: *const f32, frame_len: usize,
        gconsts: *const f32, gconsts_len: usize, means_invvars_t: *const f32, means_invvars_t_len: usize,
        inv_vars_t: *const f32, inv_vars_t_len: usize, sigma_inv_m: *const f64, sigma_inv_m_len: usize,
        u: *const f64, u_len: usize, lda_t: *const f32, lda_t_len: usize,
        lda_offset: *const f32, lda_offset_len: usize, global_mean_stats: *const f64, global_mean_stats_len: usize,
        frames: *mut f32, frames_len: usize, rows: *mut f64, rows_len: usize,
        waiting_frames: *mut usize, waiting_frames_len: usize, waiting_weights: *mut f32, waiting_weights_len: usize,
        cmvn_stats: *mut f64, cmvn_stats_len: usize, linear: *mut f64, linear_len: usize,
        quadratic: *mut f64, quadratic_len: usize, current: *mut f64, current_len: usize,
        scratch: *mut f64, scratch_len: usize, out: *mut u32, out_len: usize,
    ) -> StepAnswer;
    pub fn shofrakin_round(
        s: IvectorStream, silence: SilenceWeighting, start: usize, numbers: *const f32, numbers_len: usize,
        phones: *const i32, phones_len: usize, starts: *const usize, starts_len: usize, ends: *const usize, ends_len: usize,
        gconsts: *const f32, gconsts_len: usize, means_invvars_t: *const f32, means_invvars_t_len: usize,
        inv_vars_t: *const f32, inv_vars_t_len: usize, sigma_inv_m: *const f64, sigma_inv_m_len: usize,
        u: *const f64, u_len: usize, lda_t: *const f32, lda_t_len: usize,
        lda_offset: *const f32, lda_offset_len: usize, global_mean_stats: *const f64, global_mean_stats_len: usize,
        frames: *mut f32, frames_len: usize, rows: *mut f64, rows_len: usize,
        waiting_frames: *mut usize, waiting_frames_len: usize, waiting_weights: *mut f32, waiting_weights_len: usize,
        cmvn_stats: *mut f64, cmvn_stats_len: usize, linear: *mut f64, linear_len: usize,
        quadratic: *mut f64, quadratic_len: usize, current: *mut f64, current_len: usize,
        scratch: *mut f64, scratch_len: usize,
        silence_phones: *const i32, silence_phones_len: usize,
        known: *mut bool, known_len: usize, is_silence: *mut bool, is_silence_len: usize, current_weight: *mut f32, current_weight_len: usize,
        delta_frames: *mut usize, delta_frames_len: usize, delta_weights: *mut f32, delta_weights_len: usize,
        out: *mut u32, out_len: usize, voices: usize, enrolled: *const u32, enrolled_len: usize, limit: f32,
    ) -> RoundAnswer;
    pub fn shofrakin_write_f32(
        opts: IvectorOptions, sizes: ModelSizes, cmvn: *const u8, cmvn_len: usize, weights: *const f32, weights_len: usize,
        means_invvars: *const f32, means_invvars_len: usize, inv_vars: *const f32, inv_vars_len: usize, m: *const f32, m_len: usize,
        sigma_inv: *const f32, sigma_inv_len: usize, prior_offset: f32, lda: *const f32, lda_len: usize, out: *mut u8, out_len: usize,
    ) -> WrittenAnswer;
    pub fn shofrakin_write_f64(
        opts: IvectorOptions, sizes: ModelSizes, cmvn: *const u8, cmvn_len: usize, weights: *const f64, weights_len: usize,
        means_invvars: *const f64, means_invvars_len: usize, inv_vars: *const f64, inv_vars_len: usize, m: *const f64, m_len: usize,
        sigma_inv: *const f64, sigma_inv_len: usize, prior_offset: f64, lda: *const f64, lda_len: usize, out: *mut u8, out_len: usize,
    ) -> WrittenAnswer;
}
