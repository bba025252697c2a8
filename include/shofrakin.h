/* Shofrakin for C: the calls of the static library that `tools/library` builds (crates/exports/out/libexports.a, x86-64 Linux).
 * What each call answers is proved in Rattle (crates/exports); no proof speaks of this file, which compare/c/check runs against the library.
 * shofrakin_live.h, beside it, keeps a model's or a stream's record and rooms together; hosts/rust is the same for Rust.
 *
 * What a caller sees to:
 * - A slice is a pointer and a length, two arguments. No pointer is null; where a length is 0 any aligned address will do.
 * - What is lent is initialised memory, also a room that a call only writes.
 * - A room that a call writes overlaps nothing else that the call is lent.
 * - The record of a stream or of a silence table stays where the host keeps it. A call on it takes a pointer to it, first, and writes the
 *   numbers that change; a question only reads. During a call nothing else reads or writes the record, during a question nothing writes
 *   it, and it overlaps no slice lent. A model's record goes in by value, and a round takes both records so and answers the new ones.
 *   Records may be copied, and are not written by hand.
 * - A bool is 0 or 1, in records and in rooms.
 * - A room keeps its contents from call to call; its length is the one that the record was made with.
 * The calls ask nothing else: whatever numbers they get, they return; the questions answer any record. They keep no state, allocate
 * nothing, and may run in several threads on different records and rooms.
 *
 * Answers: `refusal` is 0 for a call that is taken, else a number from 1 to 32. A refused call leaves the record and all that it is lent as
 * they were; of a NaN that stood there the proof does not tell the bits. A round is several calls: those before the refused one remain done.
 *   1 an option is outside its range               13 push: 1,000,000,000 frames are in
 *   2 bytes end before an item does                14 push: the frame room is full
 *   3 the mark, a token or a size byte is wrong    15 push: the row room is full
 *   4 a dimension is outside its limits            16 change: lists of different length, or of more than 384
 *   5 dimensions disagree                          17 change: a frame of 1,000,000,000 or more, or a weight not finite
 *   6 a number is not finite, or not above 0       18 change: a frame that is no longer kept
 *   7 the CMVN text breaks its form                19 change: no room for that many
 *   8 a lent room is too short                     20 fetch: the output's length is not the i-vector dimension
 *   9 silence settings outside their limits        21 fetch: the frame is not ready
 *  10 a record that no call made, or other lengths 22 fetch: the frame is above the highest changed one
 *  11 push: length is not the base dimension       23 silence: more frames than the table has, or a frame number too high
 *  12 push: a number is not finite                 24 silence: lists of different length, or too short for the answer
 *  25 a settings text not ASCII, or too long       29 voice: a number not finite, or a limit below 0
 *  26 write: the output is shorter than the files  30 change: a frame below one that a forget named
 *  27 voice: no enrolled vector, or more than 32   31 window: outside 1..1,000
 *  28 voice: a length is not the dimension's       32 window: above the longest, and older rows are gone
 */
#ifndef SHOFRAKIN_H
#define SHOFRAKIN_H

#include <stdbool.h>
#include <stddef.h>
#include <stdint.h>

#ifdef __cplusplus
extern "C" {
#endif

/* ---- the model */

/* The options: contexts 0..8, window 1..1,000, global frames 1..10,000, num_gselect 1..32, num_cg_iters 0..200, 0 <= min_post < 1,
 * the other floats finite. */
typedef struct {
    size_t left_context;
    size_t right_context;
    size_t cmn_window;
    size_t global_frames;
    size_t num_gselect;
    size_t num_cg_iters;
    float min_post;
    float posterior_scale;
    double max_count;
    float min_energy;
} shofrakin_options;

/* A model's sizes: Gaussians of the GMM (g) and of the extractor (e), feature dimension (d), i-vector dimension (s), base dimension (b),
 * columns of the LDA. */
typedef struct {
    size_t num_gauss;
    size_t ext_gauss;
    size_t feat_dim;
    size_t ivector_dim;
    size_t base_dim;
    size_t lda_cols;
} shofrakin_dimensions;

/* The lengths of the tables that a model is loaded into. */
typedef struct {
    size_t gconsts;
    size_t means_invvars_t;
    size_t inv_vars_t;
    size_t sigma_inv_m;
    size_t u;
    size_t lda_t;
    size_t lda_offset;
    size_t global_mean_stats;
} shofrakin_table_lengths;

/* A loaded model's record. */
typedef struct {
    shofrakin_options opts;
    shofrakin_dimensions dims;
    double prior_offset;
    shofrakin_table_lengths tables;
} shofrakin_info;

/* The answer of a load: the record where the refusal is 0, else one that no fresh stream takes. */
typedef struct {
    size_t refusal;
    shofrakin_info info;
} shofrakin_load_answer;

/* Loads a model from the bytes of its four files (final.dubm, final.ie, final.mat, global_cmvn.stats) into eight tables. Refusals 1 to
 * 8. With k = b (left + 1 + right), the tables keep g, dg, dg, eds, es(s+1)/2, kd, d and b+1 numbers; longer ones are taken. Scratch is
 * d(d+1)/2 + ds numbers, and free afterwards. shofrakin_model_dimensions and shofrakin_tables_needed answer these lengths. A block's
 * numbers may be f32 or f64, as its tag says; an f64 for a table of floats is rounded to the nearest. */
shofrakin_load_answer shofrakin_load(shofrakin_options opts,
    const uint8_t *gmm, size_t gmm_len, const uint8_t *extractor, size_t extractor_len,
    const uint8_t *lda, size_t lda_len, const uint8_t *cmvn, size_t cmvn_len,
    float *gconsts, size_t gconsts_len, float *means_invvars_t, size_t means_invvars_t_len,
    float *inv_vars_t, size_t inv_vars_t_len, double *sigma_inv_m, size_t sigma_inv_m_len,
    double *u, size_t u_len, float *lda_t, size_t lda_t_len,
    float *lda_offset, size_t lda_offset_len, double *global_mean_stats, size_t global_mean_stats_len,
    double *scratch, size_t scratch_len);

/* The answer of the settings: the options where the refusal is 0, else ones that a load refuses with 1. */
typedef struct {
    size_t refusal;
    shofrakin_options opts;
} shofrakin_settings_answer;

/* The options from the maker's settings texts, splice.conf and online_cmvn.conf; a missing file is a text of no bytes. Lines `--key=value`, blanks
 * around line and value aside; the first line with a key decides, and where its value can't be read the default stays. In splice.conf left-context
 * and right-context (3), in online_cmvn.conf cmn-window (600), global-frames (200) and cmn-min-energy (50): a whole number below 2^64, and for
 * the energy a float of digits below 2^24 with a power of ten of -10..10. The other options are 5, 15, 0.025, 0.1 and 100. An option outside its range
 * is given as it is read: a load refuses it with 1. Refusal 25: a text above 65,536 bytes, or a byte above 127. */
shofrakin_settings_answer shofrakin_settings(const uint8_t *splice, size_t splice_len, const uint8_t *online_cmvn, size_t online_cmvn_len);

/* The options from the two texts, then shofrakin_load with them. Refusals 25, then 1 to 8. */
shofrakin_load_answer shofrakin_load_with_settings(
    const uint8_t *splice, size_t splice_len, const uint8_t *online_cmvn, size_t online_cmvn_len,
    const uint8_t *gmm, size_t gmm_len, const uint8_t *extractor, size_t extractor_len,
    const uint8_t *lda, size_t lda_len, const uint8_t *cmvn, size_t cmvn_len,
    float *gconsts, size_t gconsts_len, float *means_invvars_t, size_t means_invvars_t_len,
    float *inv_vars_t, size_t inv_vars_t_len, double *sigma_inv_m, size_t sigma_inv_m_len,
    double *u, size_t u_len, float *lda_t, size_t lda_t_len,
    float *lda_offset, size_t lda_offset_len, double *global_mean_stats, size_t global_mean_stats_len,
    double *scratch, size_t scratch_len);

/* ---- how much memory */

/* The answer of shofrakin_model_dimensions: the dimensions where the refusal is 0, else zeros. */
typedef struct {
    size_t refusal;
    shofrakin_dimensions dims;
} shofrakin_dimensions_answer;

/* The dimensions of the model in four files, as a load judges them: refusals 1 to 7. Nothing is written. */
shofrakin_dimensions_answer shofrakin_model_dimensions(shofrakin_options opts,
    const uint8_t *gmm, size_t gmm_len, const uint8_t *extractor, size_t extractor_len,
    const uint8_t *lda, size_t lda_len, const uint8_t *cmvn, size_t cmvn_len);

/* The answer of shofrakin_tables_needed: the lengths where the refusal is 0, else zeros. */
typedef struct {
    size_t refusal;
    shofrakin_table_lengths tables;
    size_t scratch;
} shofrakin_tables_answer;

/* How many numbers each table of a model keeps, and a load's scratch. A load into exactly these is not refused 8, into any shorter one it is.
 * Refusals 1, 4, 5: options or dimensions that no load takes. */
shofrakin_tables_answer shofrakin_tables_needed(shofrakin_options opts, shofrakin_dimensions dims);

/* ---- the stream */

/* The lengths of the rings that every call on a stream is lent: of frames, of prefix rows, and of the changes that wait. */
typedef struct {
    size_t frames;
    size_t rows;
    size_t waiting_frames;
    size_t waiting_weights;
} shofrakin_ring_lengths;

/* The lengths of the rooms that a fetch is lent besides. */
typedef struct {
    size_t cmvn_stats;
    size_t linear;
    size_t quadratic;
    size_t current;
    size_t scratch;
} shofrakin_estimate_lengths;

/* The lengths of the rooms that a stream works in. */
typedef struct {
    shofrakin_ring_lengths rings;
    shofrakin_estimate_lengths estimate;
} shofrakin_room_lengths;

/* The answer of shofrakin_rooms_needed: the lengths where the refusal is 0, else zeros. */
typedef struct {
    size_t refusal;
    shofrakin_room_lengths lengths;
} shofrakin_rooms_answer;

/* How many numbers each room of a stream has that holds `frames` frames (1 to 1,000,000,000), `rows` prefix rows (2 to 2,000,000,000) and `changes` waiting
 * changes. A fresh stream in rooms of exactly these lengths is not refused 8, and holds that many of each; in a room one number shorter it is refused 8, or
 * holds one less. Refusal 4: dimensions that no load takes; 8: frames or rows outside these limits. */
shofrakin_rooms_answer shofrakin_rooms_needed(shofrakin_dimensions dims, size_t frames, size_t rows, size_t changes);

/* A stream's record: its model's record, the lengths of its rooms, frames accepted, the first frame not in the statistics, the mark below
 * which nothing is kept, changes that wait, one more than the highest changed frame, the statistics' frame count, the floor, which is the
 * highest frame named in a forget, the window in force, and the longest since the mark last rose. */
typedef struct {
    shofrakin_info info;
    shofrakin_room_lengths lengths;
    size_t accepted;
    size_t num_frames_stats;
    size_t mark;
    size_t waiting;
    size_t past_highest;
    bool delta_weights_provided;
    bool input_finished;
    double num_frames;
    size_t floor;
    size_t window;
    size_t longest;
} shofrakin_stream;

/* The answer of a call on a stream: the refusal, frames and prefix rows held (0 with a refusal 10), and, of a fetch, how many elements
 * of its vector are not finite, and how many likelihoods of the frames that it brought in were NaN: one for each Gaussian and frame. A frame
 * of weight 0 and a fetch that brings no frame in count 0; an infinite likelihood is not counted. Each fetch counts its own. */
typedef struct {
    size_t refusal;
    size_t frames_held;
    size_t rows_held;
    size_t not_finite;
    size_t nan_likelihoods;
} shofrakin_stream_answer;

/* The answer of a fresh stream: its numbers (no frame is held, and one row; none beside a refusal), and the record, which is one that every call refuses
 * with 10 where the refusal is not 0. */
typedef struct {
    shofrakin_stream_answer answer;
    shofrakin_stream stream;
} shofrakin_new_stream_answer;

/* A fresh stream on a loaded model, in rooms for F frames (Fb numbers) and R prefix rows (Rb numbers, R above 1), lists for the changes
 * that wait, and rooms of b+1, s, s(s+1)/2 and s numbers; scratch is the larger of gd and ss: shofrakin_rooms_needed. Longer rooms are taken.
 * Refusals 10, 8.
 * F frames are as many as may be held at once. How long the rooms have to be, proved over every list of calls, refused ones among them
 * (crates/program/specs/Habit.antt, docs/THEOREMS.md):
 * - rows_enough: with R = F + window no push is refused 15. The window is the options', or the longest that is set.
 * - frames-enough: with F = L + left + right context no push is refused 14, where at most L frames are pushed from one start of an utterance to the next.
 *   A start is a forget of a frame above the last ready one (the count of frames pushed will do), where that one was fetched and no change since has
 *   named it or a frame below it.
 * - all-taken: so a host that pushes an utterance, fetches the last ready frame and forgets, again and again, has every frame taken, up to 1,000,000,000.
 * - held-after-forget: after a forget of f, where all frames below f were fetched and no change below f waits, at most the frames from f on and the left
 *   context are held.
 * Neither room can be less: with a frame fewer a push of the example `tight` is refused 14, with a row fewer 15. */
shofrakin_new_stream_answer shofrakin_new_stream(shofrakin_info info,
    const float *gconsts, size_t gconsts_len, const float *means_invvars_t, size_t means_invvars_t_len,
    const float *inv_vars_t, size_t inv_vars_t_len, const double *sigma_inv_m, size_t sigma_inv_m_len,
    const double *u, size_t u_len, const float *lda_t, size_t lda_t_len,
    const float *lda_offset, size_t lda_offset_len, const double *global_mean_stats, size_t global_mean_stats_len,
    const float *frames, size_t frames_len, double *rows, size_t rows_len,
    const size_t *waiting_frames, size_t waiting_frames_len, const float *waiting_weights, size_t waiting_weights_len,
    double *cmvn_stats, size_t cmvn_stats_len, double *linear, size_t linear_len,
    double *quadratic, size_t quadratic_len, double *current, size_t current_len,
    const double *scratch, size_t scratch_len);

/* Appends a frame of b numbers. Refusals 10 to 15. */
shofrakin_stream_answer shofrakin_push_frame(shofrakin_stream *s, const float *frame, size_t frame_len,
    float *frames, size_t frames_len, double *rows, size_t rows_len,
    const size_t *waiting_frames, size_t waiting_frames_len, const float *waiting_weights, size_t waiting_weights_len);

/* No frame needs its right context any more: every accepted frame is ready. Refusal 10. */
shofrakin_stream_answer shofrakin_set_input_finished(shofrakin_stream *s,
    const float *frames, size_t frames_len, const double *rows, size_t rows_len,
    const size_t *waiting_frames, size_t waiting_frames_len, const float *waiting_weights, size_t waiting_weights_len);

/* Changes of weights, by frame, at most 384 in one call. More go into several: taken, they do what one would, and where one is refused, as for want
 * of room, those before it stay. From the first such call on, even an empty one, fetches are weighted. Refusals 10, 16, 17, 30, 19, in that order (18 stands between 30 and 19, and never occurs). */
shofrakin_stream_answer shofrakin_update_frame_weights(shofrakin_stream *s,
    const size_t *delta_frames, size_t delta_frames_len, const float *delta_weights, size_t delta_weights_len,
    const float *frames, size_t frames_len, const double *rows, size_t rows_len,
    size_t *waiting_frames, size_t waiting_frames_len, float *waiting_weights, size_t waiting_weights_len);

/* An utterance begins at `frame`, and no change may name a frame before it from now on: frees what neither it, nor a frame that is not in the statistics
 * yet, nor a waiting change can need. Refusal 10. Any frame number is taken and none is taken back: a forget far ahead, of SIZE_MAX say, ends all changes of this stream for
 * good (30), but for the empty one. */
shofrakin_stream_answer shofrakin_forget_before(shofrakin_stream *s, size_t frame,
    const float *frames, size_t frames_len, const double *rows, size_t rows_len,
    const size_t *waiting_frames, size_t waiting_frames_len, const float *waiting_weights, size_t waiting_weights_len);

/* The window of the fetches to come, 1..1,000; CMVN state, statistics and waiting changes carry over. Refusals 10, 31, 32. A window above the longest
 * one in force since the mark last rose is 32 once mark + 1 is above that longest: the older rows are gone. So from then on the longest can
 * only fall: a stream that gets a window of 1 and begins an utterance is left with 1. */
shofrakin_stream_answer shofrakin_set_cmn_window(shofrakin_stream *s, size_t window,
    const float *frames, size_t frames_len, const double *rows, size_t rows_len,
    const size_t *waiting_frames, size_t waiting_frames_len, const float *waiting_weights, size_t waiting_weights_len);

/* The vector at `frame`, the bits of s floats, NaN as 7FC00000. Brings the statistics up to the frame; below them it answers the current
 * vector. Refusals 10, 20, 21, 22. A frame whose c0 is at most the minimum energy is viewed by the CMVN state that the fetches before it left. So the vector
 * can depend on when a host fetches: equal frames give equal vectors where they are fetched at equal moments. */
shofrakin_stream_answer shofrakin_get_frame(shofrakin_stream *s, size_t frame,
    const float *gconsts, size_t gconsts_len, const float *means_invvars_t, size_t means_invvars_t_len,
    const float *inv_vars_t, size_t inv_vars_t_len, const double *sigma_inv_m, size_t sigma_inv_m_len,
    const double *u, size_t u_len, const float *lda_t, size_t lda_t_len,
    const float *lda_offset, size_t lda_offset_len, const double *global_mean_stats, size_t global_mean_stats_len,
    const float *frames, size_t frames_len, const double *rows, size_t rows_len,
    size_t *waiting_frames, size_t waiting_frames_len, float *waiting_weights, size_t waiting_weights_len,
    double *cmvn_stats, size_t cmvn_stats_len, double *linear, size_t linear_len,
    double *quadratic, size_t quadratic_len, double *current, size_t current_len,
    double *scratch, size_t scratch_len, uint32_t *out, size_t out_len);

/* How many frames can be fetched: those accepted, less the right context until the input is finished. */
size_t shofrakin_num_frames_ready(const shofrakin_stream *s);

/* The length of a fetch's output. */
size_t shofrakin_ivector_dim(const shofrakin_stream *s);

/* The first frame that is not in the statistics. */
size_t shofrakin_num_frames_stats(const shofrakin_stream *s);

/* ---- the silence table */

/* A number of input frames, or the number of one. */
typedef struct {
    size_t number;
} shofrakin_input_frame;

/* A number of decoder frames, or the number of one. One is `subsampling` input frames. */
typedef struct {
    size_t number;
} shofrakin_decoder_frame;

/* A silence table's record: the weight of silence, the subsampling, how many phones are silence, the places of the table's rooms, and
 * how many of them are in use: a number of decoder frames. */
typedef struct {
    float silence_weight;
    size_t subsampling;
    size_t phones;
    size_t table;
    shofrakin_decoder_frame length;
} shofrakin_silence;

/* The answer where a table is made: the record where the refusal is 0, else one that every call refuses with 10. */
typedef struct {
    size_t refusal;
    shofrakin_silence silence;
} shofrakin_new_table_answer;

/* The answer of a call on a silence table: the refusal, and how many changes it gives. */
typedef struct {
    size_t refusal;
    size_t changes;
} shofrakin_silence_counts;

/* A table of no frames yet, for three rooms of `table` places each, of which at most 1,000,000 are used: at most 64 phones, subsampling 1..16, a finite
 * weight. Refusal 9. */
shofrakin_new_table_answer shofrakin_new_silence_weighting(
    const int32_t *silence_phones, size_t silence_phones_len, float silence_weight, size_t subsampling, size_t table);

/* Whether the weighting changes anything: there are phones, and the weight is not 1. */
bool shofrakin_silence_active(const shofrakin_silence *s);

/* Notes which of the decoded frames are silence, from the best path's segments (phone, start, end). Refusals 10, 23, 24. */
shofrakin_silence_counts shofrakin_compute_current_traceback(shofrakin_silence *s,
    const int32_t *silence_phones, size_t silence_phones_len,
    bool *known, size_t known_len, bool *is_silence, size_t is_silence_len, float *current_weight, size_t current_weight_len,
    const int32_t *segment_phones, size_t segment_phones_len, const size_t *starts, size_t starts_len,
    const size_t *ends, size_t ends_len, shofrakin_decoder_frame num_frames_decoded);

/* The changes of weight up to `num_frames_ready`, by input frame, decoder frame 0 beginning at `first_decoder_frame`: the first
 * `changes` places of two lists, for shofrakin_update_frame_weights. They can be more than the 384 that one call of it takes, and are not given
 * again: hand them over in parts. Refusals 10, 23, 24. */
shofrakin_silence_counts shofrakin_get_delta_weights(shofrakin_silence *s,
    bool *known, size_t known_len, bool *is_silence, size_t is_silence_len, float *current_weight, size_t current_weight_len,
    shofrakin_input_frame num_frames_ready, shofrakin_input_frame first_decoder_frame,
    size_t *frames, size_t frames_len, float *weights, size_t weights_len);

/* ---- whose voice it is */

/* The nearest voice: whether there is one near enough, its index from 0 and its distance. Beside nobody, and beside a refusal, both are 0. */
typedef struct {
    size_t refusal;
    bool found;
    size_t index;
    float distance;
} shofrakin_voice_answer;

/* Of `count` enrolled vectors, 1 to 32, the nearest to `vector`: the lowest index whose distance is least, where that is at most `limit`. Vectors are bits
 * as a fetch gives them out, `dim` numbers each (shofrakin_ivector_dim), the enrolled ones one after the other. A distance is the sum of the squared
 * differences in order, in float; one that overflows is never near enough. No root is taken: the limit is one for a sum of squares. Squares of differences
 * below some 2.6e-23 are 0, so that unlike vectors can be at distance 0. Nothing is written.
 * Refusals 27: no enrolled vector, or more than 32; 28: a length that is not dim, or count times dim (of the enrolled ones only the length of all
 * together is seen: one too short and another too long by as much go unseen); 29: a number that is not finite, in a vector or the limit, or a limit below 0. */
shofrakin_voice_answer shofrakin_nearest_voice(size_t dim, const uint32_t *vector, size_t vector_len,
    size_t count, const uint32_t *enrolled, size_t enrolled_len, float limit);

/* ---- a board with registers */

/* The answer of a step: 0, or 10 for a block that has not sixteen bytes. */
typedef struct {
    size_t refusal;
} shofrakin_step_answer;

/* One step over a block of sixteen bytes. The host writes bytes 0, 2 and 4 to 7 and reads the others:
 *   0      command: 1 push `frame`, 2 finish, 3 forget, 4 fetch into `out`; any other is none. The step clears it
 *   1      flags: bit 0 the command was a fetch and `out` has the vector, bit 1 the command was refused, bit 2 there is room for a push
 *   2, 3   mask of bits 0 to 2; 1 where a flag and its mask bit are both 1
 *   4..7   frame number of a forget and of a fetch, the lowest byte first
 *   8..11  frames held, the lowest byte first
 *   12     the command's refusal number or 0;  13..15  zero
 * With no command bits 0 and 1 and byte 12 stay as they are found. A refused command is told in the block alone: the step is taken. Where the record falls
 * under 10, bit 2 and bytes 8 to 11 are 0. A block of another length is refused 10: nothing is written, and no command done. A fetch that is refused leaves the
 * last vector in `out`: bit 0 says whose it is. Bit 2 and bytes 8 to 11 are those of the last step, and a plain call between steps does not change them. */
shofrakin_step_answer shofrakin_registers_step(shofrakin_stream *s, uint8_t *block, size_t block_len, const float *frame, size_t frame_len,
    const float *gconsts, size_t gconsts_len, const float *means_invvars_t, size_t means_invvars_t_len,
    const float *inv_vars_t, size_t inv_vars_t_len, const double *sigma_inv_m, size_t sigma_inv_m_len,
    const double *u, size_t u_len, const float *lda_t, size_t lda_t_len,
    const float *lda_offset, size_t lda_offset_len, const double *global_mean_stats, size_t global_mean_stats_len,
    float *frames, size_t frames_len, double *rows, size_t rows_len,
    size_t *waiting_frames, size_t waiting_frames_len, float *waiting_weights, size_t waiting_weights_len,
    double *cmvn_stats, size_t cmvn_stats_len, double *linear, size_t linear_len,
    double *quadratic, size_t quadratic_len, double *current, size_t current_len,
    double *scratch, size_t scratch_len, uint32_t *out, size_t out_len);

/* ---- the trigger */

/* How a round ended: the refusal and its step, 1 to 7, or both 0; whether the round was full, that is, went through all its steps; whether a voice
 * is near enough, its index and its distance. Without a refusal a round that is not full ended before the fetch, no frame being ready. Index and
 * distance are 0 where no voice was found. */
typedef struct {
    size_t refusal;
    size_t step;
    bool full;
    bool found;
    size_t index;
    float distance;
} shofrakin_round_outcome;

/* The answer of a round: how it ended, how many changes weighing gave, and the two records, which take the place of those that were given. */
typedef struct {
    shofrakin_round_outcome outcome;
    size_t changes;
    shofrakin_stream stream;
    shofrakin_silence silence;
} shofrakin_round_answer;

/* The round of an utterance. Its steps: 1 forget at `start`; 2 push the frames that `numbers` holds one after the other, a last one that is cut short
 * as it stands; 3 note the path of the segments (phone, start, end), the frames decoded being the largest end; 4 weigh, from `start` up to the
 * stream's ready count; 5 change by what weighing gave; 6 fetch the last ready frame into `out`; 7 find the nearest of `voices` enrolled vectors.
 * A refusal ends the round with its number and step, and what was done remains done: go on with the records that the answer holds, whatever it
 * says. The first `changes` places of `delta_frames` and `delta_weights` hold what weighing gave, `out` the vector once the fetch is taken. Weighing
 * that gives more than 384 changes is refused 16 at step 5, with its weights noted in the table: they are not given again. A host hands them over in parts by
 * plain calls and goes on with a fetch, or lends lists of at most 384 places: then it is 24 at step 4, before a weight has moved. A start above 1,000,000,000 is
 * forgotten at step 1 before it is 23 at step 4: that stream takes no change any more, but for the empty one. The table is not made
 * anew by a round: a new utterance wants a fresh one. Refusals by step: 1: 10. 2: 10 to 15. 3 and 4: 10, 23, 24. 5: 10, 16, 17, 30, 19.
 * 6: 10, 20, 22. 7: 27 to 29. */
shofrakin_round_answer shofrakin_round(shofrakin_stream s, shofrakin_silence silence, size_t start, const float *numbers, size_t numbers_len,
    const int32_t *phones, size_t phones_len, const size_t *starts, size_t starts_len, const size_t *ends, size_t ends_len,
    const float *gconsts, size_t gconsts_len, const float *means_invvars_t, size_t means_invvars_t_len,
    const float *inv_vars_t, size_t inv_vars_t_len, const double *sigma_inv_m, size_t sigma_inv_m_len,
    const double *u, size_t u_len, const float *lda_t, size_t lda_t_len,
    const float *lda_offset, size_t lda_offset_len, const double *global_mean_stats, size_t global_mean_stats_len,
    float *frames, size_t frames_len, double *rows, size_t rows_len,
    size_t *waiting_frames, size_t waiting_frames_len, float *waiting_weights, size_t waiting_weights_len,
    double *cmvn_stats, size_t cmvn_stats_len, double *linear, size_t linear_len,
    double *quadratic, size_t quadratic_len, double *current, size_t current_len,
    double *scratch, size_t scratch_len,
    const int32_t *silence_phones, size_t silence_phones_len,
    bool *known, size_t known_len, bool *is_silence, size_t is_silence_len, float *current_weight, size_t current_weight_len,
    size_t *delta_frames, size_t delta_frames_len, float *delta_weights, size_t delta_weights_len,
    uint32_t *out, size_t out_len, size_t voices, const uint32_t *enrolled, size_t enrolled_len, float limit);

/* ---- a model written back */

/* A model's sizes: Gaussians of the GMM and of the extractor, feature and i-vector dimension, columns of the LDA. */
typedef struct {
    size_t num_gauss;
    size_t ext_gauss;
    size_t feat_dim;
    size_t ivector_dim;
    size_t lda_cols;
} shofrakin_model_sizes;

/* The lengths of the three files in bytes. Beside a refusal they are 0. */
typedef struct {
    size_t refusal;
    size_t gmm;
    size_t extractor;
    size_t lda;
} shofrakin_written_answer;

/* Writes the GMM's, the extractor's and the LDA's file one after the other to the front of `out`, in Kaldi's bytes, all numbers as float; a load
 * takes each of the three parts. Lists, row after row: weights (num_gauss), means times inverse variances and inverse variances (num_gauss rows of
 * feat_dim), m (ext_gauss times feat_dim rows of ivector_dim), sigma_inv (ext_gauss lower triangles of feat_dim rows), lda (feat_dim rows of lda_cols).
 * The options and the CMVN text are not written; a load's tests need them. At w bytes a number the files have 112 + w g (1 + 2 d),
 * 111 + w + e (21 + w (d s + d (d + 1) / 2)) and 15 + w d c bytes: at most 85,784,310 together.
 * Refusals as a load of the written files would have them, 1 and 4 to 7, a list of the wrong length 5 before its numbers; 26, the last: `out` is shorter
 * than the three files. A refusal writes nothing, and places past the end keep their values. Numbers for tables of float are judged as such. */
shofrakin_written_answer shofrakin_write_f32(shofrakin_options opts, shofrakin_model_sizes sizes, const uint8_t *cmvn, size_t cmvn_len,
    const float *weights, size_t weights_len, const float *means_invvars, size_t means_invvars_len, const float *inv_vars, size_t inv_vars_len,
    const float *m, size_t m_len, const float *sigma_inv, size_t sigma_inv_len, float prior_offset, const float *lda, size_t lda_len,
    uint8_t *out, size_t out_len);

/* The same with all numbers as double. A load narrows those that its tables keep as float. */
shofrakin_written_answer shofrakin_write_f64(shofrakin_options opts, shofrakin_model_sizes sizes, const uint8_t *cmvn, size_t cmvn_len,
    const double *weights, size_t weights_len, const double *means_invvars, size_t means_invvars_len, const double *inv_vars, size_t inv_vars_len,
    const double *m, size_t m_len, const double *sigma_inv, size_t sigma_inv_len, double prior_offset, const double *lda, size_t lda_len,
    uint8_t *out, size_t out_len);

#ifdef __cplusplus
}
#endif

#endif
