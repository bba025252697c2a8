/* Shofrakin for C, a model and a stream at a time: what shofrakin.h lends to each call again is kept together here, so that a call has its
 * own arguments only. Header only, over shofrakin.h; nothing is allocated: the caller gives each model, stream or table one block of
 * memory, as long as its .._memory function tells (aligned as malloc does), and keeps it and the struct where they are as long as it is used.
 *
 * What shofrakin.h asks of a caller is seen to: blocks are cleared, rooms lie beside each other in them and have the lengths that the
 * record was made with, bools are 0 or 1. Left to the caller: no pointer is null but a block's (as one that is too short: 8), files and lists
 * are initialised and overlap no block, and a stream, or a table, is used by one thread at a time. A model is only read once it is open, and
 * may be shared.
 *
 *     shofrakin_options opts = shofrakin_settings(splice, splice_len, online_cmvn, online_cmvn_len).opts;
 *     shofrakin_model m;
 *     size_t n = shofrakin_model_memory(opts, files);
 *     size_t refusal = shofrakin_model_open(&m, opts, files, malloc(n), n);
 *     shofrakin_live s;
 *     shofrakin_room room = shofrakin_room_for_utterances(&m, 500);
 *     n = shofrakin_live_memory(&m, room);
 *     refusal = shofrakin_live_open(&s, &m, room, malloc(n), n);
 *     shofrakin_stream_answer a = shofrakin_live_push_frame(&s, frame, m.info.dims.base_dim);
 */
#ifndef SHOFRAKIN_LIVE_H
#define SHOFRAKIN_LIVE_H

#include "shofrakin.h"
#include <string.h>

#ifdef __cplusplus
extern "C" {
#endif

/* What a refusal's number says. */
static inline const char *shofrakin_sentence(size_t refusal) {
    switch (refusal) {
    case 0: return "taken";
    case 1: return "an option is outside its range";
    case 2: return "the bytes end before an item does";
    case 3: return "the mark, a token or a size byte is wrong";
    case 4: return "a dimension is outside its limits";
    case 5: return "dimensions disagree";
    case 6: return "a number is not finite, or a weight or inverse variance is not above 0";
    case 7: return "the CMVN text breaks its form";
    case 8: return "a lent room is too short";
    case 9: return "the silence settings are outside their limits";
    case 10: return "the record was made by no call, or for rooms of other lengths";
    case 11: return "the frame's length is not the model's base dimension";
    case 12: return "a number of the frame is not finite";
    case 13: return "1,000,000,000 frames are in";
    case 14: return "the frame room is full";
    case 15: return "the row room is full";
    case 16: return "the change lists differ in length, or are longer than 384";
    case 17: return "a change names a frame of 1,000,000,000 or more, or its weight is not finite";
    case 18: return "a change names a frame that is no longer kept";
    case 19: return "there is no room for that many waiting changes";
    case 20: return "the output's length is not the i-vector dimension";
    case 21: return "the frame is not ready";
    case 22: return "the frame is above the highest changed one";
    case 23: return "more decoder frames than the silence table has, or a frame number too high";
    case 24: return "the silence lists differ in length, or are too short for the answer";
    case 25: return "a settings text is not ASCII, or longer than 65,536 bytes";
    case 26: return "the output is shorter than the model's files";
    case 27: return "no vector is enrolled, or more than 32 are";
    case 28: return "a vector's length is not the dimension";
    case 29: return "a number of a vector or the limit is not finite, or the limit is below 0";
    case 30: return "a change names a frame below one that a forget named";
    case 31: return "the window is outside 1 to 1,000";
    case 32: return "the window is above the longest, and older rows are gone";
    case 33: return "a seed or a size outside its limits, a list too short for what is drawn, or input that can't be read";
    default: return "a number that this header has no sentence for";
    }
}

/* The original's defaults. A model's own are in its maker's settings files: shofrakin_settings. */
static inline shofrakin_options shofrakin_default_options(void) {
    shofrakin_options o = {3, 3, 600, 200, 5, 15, 0.025f, 0.1f, 100, 50};
    return o;
}

/* ---- the model */

/* The bytes of a model's four files: final.dubm, final.ie, final.mat and global_cmvn.stats. */
typedef struct {
    const uint8_t *gmm;
    size_t gmm_len;
    const uint8_t *extractor;
    size_t extractor_len;
    const uint8_t *lda;
    size_t lda_len;
    const uint8_t *cmvn;
    size_t cmvn_len;
} shofrakin_files;

/* A loaded model: its record, and the tables that it is about. */
typedef struct {
    shofrakin_info info;
    double *sigma_inv_m;
    double *u;
    double *global_mean_stats;
    float *gconsts;
    float *means_invvars_t;
    float *inv_vars_t;
    float *lda_t;
    float *lda_offset;
} shofrakin_model;

/* The files of a model, as the calls are lent them. */
#define SHOFRAKIN_FILES_(f) (f).gmm, (f).gmm_len, (f).extractor, (f).extractor_len, (f).lda, (f).lda_len, (f).cmvn, (f).cmvn_len

/* The lengths of the tables that the model in these files needs, and of a load's scratch, or the number that a load refuses the files with: 1 to 7. */
static inline shofrakin_tables_answer shofrakin_files_tables(shofrakin_options opts, shofrakin_files f) {
    shofrakin_dimensions_answer d = shofrakin_model_dimensions(opts, SHOFRAKIN_FILES_(f));
    shofrakin_tables_answer n = shofrakin_tables_needed(opts, d.dims);
    if (d.refusal) n.refusal = d.refusal;
    return n;
}

static inline size_t shofrakin_tables_bytes(shofrakin_tables_answer a) {
    shofrakin_table_lengths n = a.tables;
    return sizeof(double) * (n.sigma_inv_m + n.u + n.global_mean_stats + a.scratch) +
        sizeof(float) * (n.gconsts + n.means_invvars_t + n.inv_vars_t + n.lda_t + n.lda_offset);
}

/* How many bytes of memory a model takes; 0 for files that a load refuses. */
static inline size_t shofrakin_model_memory(shofrakin_options opts, shofrakin_files files) {
    shofrakin_tables_answer n = shofrakin_files_tables(opts, files);
    return n.refusal ? 0 : shofrakin_tables_bytes(n);
}

/* Loads a model into a block of memory. Its refusal: 1 to 8, or 0. */
static inline size_t shofrakin_model_open(shofrakin_model *m, shofrakin_options opts, shofrakin_files f, void *memory, size_t bytes) {
    static const shofrakin_tables_answer none = {0, {0, 0, 0, 0, 0, 0, 0, 0}, 0};
    static double any; /* an address for rooms of no length */
    double *d = &any;
    shofrakin_tables_answer need = shofrakin_files_tables(opts, f);
    shofrakin_table_lengths n;
    shofrakin_load_answer a;
    /* in a block that is too short, or for files that are refused, no room is lent: a load refuses that itself */
    if (need.refusal || !memory || bytes < shofrakin_tables_bytes(need)) need = none;
    else d = (double *)memset(memory, 0, shofrakin_tables_bytes(need));
    n = need.tables;
    m->sigma_inv_m = d;
    m->u = m->sigma_inv_m + n.sigma_inv_m;
    m->global_mean_stats = m->u + n.u;
    d = m->global_mean_stats + n.global_mean_stats;
    m->gconsts = (float *)(d + need.scratch);
    m->means_invvars_t = m->gconsts + n.gconsts;
    m->inv_vars_t = m->means_invvars_t + n.means_invvars_t;
    m->lda_t = m->inv_vars_t + n.inv_vars_t;
    m->lda_offset = m->lda_t + n.lda_t;
    a = shofrakin_load(opts, SHOFRAKIN_FILES_(f), m->gconsts, n.gconsts, m->means_invvars_t, n.means_invvars_t, m->inv_vars_t, n.inv_vars_t,
        m->sigma_inv_m, n.sigma_inv_m, m->u, n.u, m->lda_t, n.lda_t, m->lda_offset, n.lda_offset, m->global_mean_stats, n.global_mean_stats,
        d, need.scratch);
    m->info = a.info;
    return a.refusal;
}

/* ---- the stream */

/* How much a stream has room for: frames that may be held at once, prefix rows (0: as many as the frames and the model's window, as `rows_enough` asks
 * for; a host that sets a longer window gives the frames and that window), and changes that wait. How long they have to be is told at shofrakin_new_stream. */
typedef struct {
    size_t frames;
    size_t rows;
    size_t waiting;
} shofrakin_room;

/* For utterances of at most `longest` frames, each begun by a fetch of the last ready frame and a forget: `longest` frames and both contexts
 * (`frames-enough`), as many rows as these and the window (`rows_enough`), and 1,024 changes. */
static inline shofrakin_room shofrakin_room_for_utterances(const shofrakin_model *m, size_t longest) {
    shofrakin_room room = {longest + m->info.opts.left_context + m->info.opts.right_context, 0, 1024};
    if (room.frames < longest) room.frames = SIZE_MAX;
    return room;
}

/* A stream: its model, its record and its rooms. */
typedef struct {
    const shofrakin_model *model;
    shofrakin_stream stream;
    double *rows;
    double *cmvn_stats;
    double *linear;
    double *quadratic;
    double *current;
    double *scratch;
    size_t *waiting_frames;
    float *frames;
    float *waiting_weights;
} shofrakin_live;

/* The lengths of the rooms, the least that hold as much, or refusal 8 for frames or rows outside their limits. */
static inline shofrakin_rooms_answer shofrakin_room_lengths_for(const shofrakin_model *m, shofrakin_room room) {
    return shofrakin_rooms_needed(m->info.dims, room.frames, room.rows ? room.rows : room.frames + m->info.opts.cmn_window, room.waiting);
}

/* How many bytes of memory a stream takes. None is large enough for a room that is refused, or for more than 1,000,000,000 changes: SIZE_MAX. */
static inline size_t shofrakin_live_memory(const shofrakin_model *m, shofrakin_room room) {
    shofrakin_rooms_answer a = shofrakin_room_lengths_for(m, room);
    shofrakin_room_lengths n = a.lengths;
    if (a.refusal || room.waiting > 1000000000) return SIZE_MAX;
    return sizeof(double) * (n.rings.rows + n.estimate.cmvn_stats + n.estimate.linear + n.estimate.quadratic + n.estimate.current +
               n.estimate.scratch) +
        sizeof(size_t) * n.rings.waiting_frames + sizeof(float) * (n.rings.frames + n.rings.waiting_weights);
}

/* The tables and rooms of a stream, as the calls are lent them. */
#define SHOFRAKIN_TABLES_(m) (m)->gconsts, (m)->info.tables.gconsts, (m)->means_invvars_t, (m)->info.tables.means_invvars_t, \
    (m)->inv_vars_t, (m)->info.tables.inv_vars_t, (m)->sigma_inv_m, (m)->info.tables.sigma_inv_m, (m)->u, (m)->info.tables.u, \
    (m)->lda_t, (m)->info.tables.lda_t, (m)->lda_offset, (m)->info.tables.lda_offset, (m)->global_mean_stats, (m)->info.tables.global_mean_stats
#define SHOFRAKIN_RINGS_(s, n) (s)->frames, (n).rings.frames, (s)->rows, (n).rings.rows, (s)->waiting_frames, (n).rings.waiting_frames, \
    (s)->waiting_weights, (n).rings.waiting_weights
#define SHOFRAKIN_ESTIMATE_(s, n) (s)->cmvn_stats, (n).estimate.cmvn_stats, (s)->linear, (n).estimate.linear, (s)->quadratic, \
    (n).estimate.quadratic, (s)->current, (n).estimate.current, (s)->scratch, (n).estimate.scratch

/* A fresh stream in a block of memory, on a model that is open. Its refusal: 8, or 10 on a model that was refused. */
static inline size_t shofrakin_live_open(shofrakin_live *s, const shofrakin_model *m, shofrakin_room room, void *memory, size_t bytes) {
    static const shofrakin_room_lengths none = {{0, 0, 0, 0}, {0, 0, 0, 0, 0}};
    static double any; /* an address for rooms of no length */
    double *d = &any;
    shofrakin_room_lengths n = none;
    shofrakin_new_stream_answer a;
    size_t need = shofrakin_live_memory(m, room);
    if (memory && need < SIZE_MAX && bytes >= need) {
        n = shofrakin_room_lengths_for(m, room).lengths;
        d = (double *)memset(memory, 0, need);
    }
    s->model = m;
    s->rows = d;
    s->cmvn_stats = s->rows + n.rings.rows;
    s->linear = s->cmvn_stats + n.estimate.cmvn_stats;
    s->quadratic = s->linear + n.estimate.linear;
    s->current = s->quadratic + n.estimate.quadratic;
    s->scratch = s->current + n.estimate.current;
    s->waiting_frames = (size_t *)(s->scratch + n.estimate.scratch);
    s->frames = (float *)(s->waiting_frames + n.rings.waiting_frames);
    s->waiting_weights = s->frames + n.rings.frames;
    a = shofrakin_new_stream(m->info, SHOFRAKIN_TABLES_(m), SHOFRAKIN_RINGS_(s, n), SHOFRAKIN_ESTIMATE_(s, n));
    s->stream = a.stream;
    return a.answer.refusal;
}

/* The calls of shofrakin.h by the same names. Refusals 11 to 15. */
static inline shofrakin_stream_answer shofrakin_live_push_frame(shofrakin_live *s, const float *frame, size_t frame_len) {
    return shofrakin_push_frame(&s->stream, frame, frame_len, SHOFRAKIN_RINGS_(s, s->stream.lengths));
}

static inline shofrakin_stream_answer shofrakin_live_set_input_finished(shofrakin_live *s) {
    return shofrakin_set_input_finished(&s->stream, SHOFRAKIN_RINGS_(s, s->stream.lengths));
}

/* Refusals 16, 17, 30, 19. */
static inline shofrakin_stream_answer shofrakin_live_update_frame_weights(
    shofrakin_live *s, const size_t *delta_frames, const float *delta_weights, size_t len) {
    return shofrakin_update_frame_weights(&s->stream, delta_frames, len, delta_weights, len, SHOFRAKIN_RINGS_(s, s->stream.lengths));
}

static inline shofrakin_stream_answer shofrakin_live_forget_before(shofrakin_live *s, size_t frame) {
    return shofrakin_forget_before(&s->stream, frame, SHOFRAKIN_RINGS_(s, s->stream.lengths));
}

/* Refusals 31, 32. */
static inline shofrakin_stream_answer shofrakin_live_set_cmn_window(shofrakin_live *s, size_t window) {
    return shofrakin_set_cmn_window(&s->stream, window, SHOFRAKIN_RINGS_(s, s->stream.lengths));
}

/* The vector's bits, for a memcpy into floats. Refusals 20 to 22. */
static inline shofrakin_stream_answer shofrakin_live_get_frame(shofrakin_live *s, size_t frame, uint32_t *out, size_t out_len) {
    return shofrakin_get_frame(&s->stream, frame, SHOFRAKIN_TABLES_(s->model), SHOFRAKIN_RINGS_(s, s->stream.lengths),
        SHOFRAKIN_ESTIMATE_(s, s->stream.lengths), out, out_len);
}

/* A step over a block of sixteen bytes. Refusal 10. */
static inline shofrakin_step_answer shofrakin_live_registers_step(
    shofrakin_live *s, uint8_t *block, size_t block_len, const float *frame, size_t frame_len, uint32_t *out, size_t out_len) {
    return shofrakin_registers_step(&s->stream, block, block_len, frame, frame_len, SHOFRAKIN_TABLES_(s->model),
        SHOFRAKIN_RINGS_(s, s->stream.lengths), SHOFRAKIN_ESTIMATE_(s, s->stream.lengths), out, out_len);
}

static inline size_t shofrakin_live_num_frames_ready(const shofrakin_live *s) { return shofrakin_num_frames_ready(&s->stream); }

static inline size_t shofrakin_live_ivector_dim(const shofrakin_live *s) { return shofrakin_ivector_dim(&s->stream); }

static inline size_t shofrakin_live_num_frames_stats(const shofrakin_live *s) { return shofrakin_num_frames_stats(&s->stream); }

/* ---- the silence table */

/* A silence table: its record, its phones, which the caller keeps, and its rooms. */
typedef struct {
    shofrakin_silence silence;
    const int32_t *silence_phones;
    float *current_weight;
    bool *known;
    bool *is_silence;
} shofrakin_silence_live;

/* How many bytes of memory a table of so many decoder frames takes. No memory is large enough for more than 1,000,000. */
static inline size_t shofrakin_silence_live_memory(size_t table) {
    return table > 1000000 ? SIZE_MAX : table * (sizeof(float) + 2 * sizeof(bool));
}

/* A table in a block of memory. Its refusal: 8 for a block that is too short, or 9. After either every call on it is refused 10. */
static inline size_t shofrakin_silence_live_open(shofrakin_silence_live *s, const int32_t *silence_phones, size_t silence_phones_len,
    float silence_weight, size_t subsampling, size_t table, void *memory, size_t bytes) {
    static float any; /* an address for rooms of no length */
    size_t need = shofrakin_silence_live_memory(table);
    bool fits = memory && bytes >= need;
    shofrakin_new_table_answer a;
    /* subsampling 0 is refused, with a record of no places */
    if (!fits) table = subsampling = 0;
    s->silence_phones = silence_phones;
    s->current_weight = fits ? (float *)memset(memory, 0, need) : &any;
    s->known = (bool *)(s->current_weight + table);
    s->is_silence = s->known + table;
    a = shofrakin_new_silence_weighting(silence_phones, silence_phones_len, silence_weight, subsampling, table);
    s->silence = a.silence;
    return fits ? a.refusal : 8;
}

static inline bool shofrakin_silence_live_active(const shofrakin_silence_live *s) { return shofrakin_silence_active(&s->silence); }

/* Refusals 10, 23. */
static inline shofrakin_silence_counts shofrakin_silence_live_traceback(shofrakin_silence_live *s, const int32_t *segment_phones,
    const size_t *starts, const size_t *ends, size_t segments, shofrakin_decoder_frame num_frames_decoded) {
    return shofrakin_compute_current_traceback(&s->silence, s->silence_phones, s->silence.phones, s->known, s->silence.table,
        s->is_silence, s->silence.table, s->current_weight, s->silence.table, segment_phones, segments, starts, segments, ends, segments,
        num_frames_decoded);
}

/* Refusals 10, 23, 24. */
static inline shofrakin_silence_counts shofrakin_silence_live_delta_weights(shofrakin_silence_live *s,
    shofrakin_input_frame num_frames_ready, shofrakin_input_frame first_decoder_frame, size_t *frames, float *weights, size_t len) {
    return shofrakin_get_delta_weights(&s->silence, s->known, s->silence.table, s->is_silence, s->silence.table, s->current_weight,
        s->silence.table, num_frames_ready, first_decoder_frame, frames, len, weights, len);
}

/* ---- the trigger */

/* The round of an utterance on a stream and a table: shofrakin_round with their records and rooms, which it leaves as the round does. `segments` is the
 * length of the three lists of segments, `changes` that of the two lists for the changes. */
static inline shofrakin_round_answer shofrakin_live_round(shofrakin_live *s, shofrakin_silence_live *t, size_t start,
    const float *numbers, size_t numbers_len, const int32_t *phones, const size_t *starts, const size_t *ends, size_t segments,
    size_t *delta_frames, float *delta_weights, size_t changes, uint32_t *out, size_t out_len,
    size_t voices, const uint32_t *enrolled, size_t enrolled_len, float limit) {
    shofrakin_round_answer a = shofrakin_round(s->stream, t->silence, start, numbers, numbers_len, phones, segments, starts, segments, ends, segments,
        SHOFRAKIN_TABLES_(s->model), SHOFRAKIN_RINGS_(s, s->stream.lengths), SHOFRAKIN_ESTIMATE_(s, s->stream.lengths),
        t->silence_phones, t->silence.phones, t->known, t->silence.table, t->is_silence, t->silence.table, t->current_weight, t->silence.table,
        delta_frames, changes, delta_weights, changes, out, out_len, voices, enrolled, enrolled_len, limit);
    s->stream = a.stream;
    t->silence = a.silence;
    return a;
}

#ifdef __cplusplus
}
#endif

#endif
