/* include/shofrakin.h and include/shofrakin_live.h against the library: a model, a small stream, the scope's examples P9 and P12, and the nearest
 * voice, from C, each as the calls are and through the helpers. Prints what differs. */
#include "shofrakin_live.h"
#include <stdio.h>
#include <stdlib.h>
#include <string.h>

static int wrong;
static void is(const char *name, double got, double want) {
    if (got != want) {
        printf("%s: %g, not %g\n", name, got, want);
        wrong++;
    }
}

/* The files of a model whose dimensions are 1: all GMM numbers 1, M 2, SigmaInv 1, the prior, an LDA of ones, P7's global row. */
typedef struct {
    uint8_t b[512];
    size_t len;
} bytes;

static void put(bytes *f, const void *p, size_t n) {
    memcpy(f->b + f->len, p, n);
    f->len += n;
}
static void token(bytes *f, const char *t) {
    put(f, t, strlen(t));
    put(f, " ", 1);
}
static void dim(bytes *f, int32_t n) {
    put(f, "\4", 1);
    put(f, &n, 4);
}
static void f32(bytes *f, float x) { put(f, &x, 4); }
static void f64(bytes *f, double x) { put(f, &x, 8); }

static bytes gmm, extractor, lda;
static const char cmvn_text[] = " [ 50 100\n 0 0 ]\n";

static void model(int columns, double prior) {
    gmm.len = extractor.len = lda.len = 0;
    put(&gmm, "\0B", 2);
    token(&gmm, "<DiagGMM>");
    token(&gmm, "<WEIGHTS>");
    token(&gmm, "FV");
    dim(&gmm, 1);
    f32(&gmm, 1);
    token(&gmm, "<MEANS_INVVARS>");
    token(&gmm, "FM");
    dim(&gmm, 1);
    dim(&gmm, 1);
    f32(&gmm, 1);
    token(&gmm, "<INV_VARS>");
    token(&gmm, "FM");
    dim(&gmm, 1);
    dim(&gmm, 1);
    f32(&gmm, 1);

    put(&extractor, "\0B", 2);
    token(&extractor, "<IvectorExtractor>");
    token(&extractor, "<w>");
    token(&extractor, "DM");
    dim(&extractor, 0);
    dim(&extractor, 0);
    token(&extractor, "<w_vec>");
    token(&extractor, "DV");
    dim(&extractor, 0);
    token(&extractor, "<M>");
    dim(&extractor, 1);
    token(&extractor, "DM");
    dim(&extractor, 1);
    dim(&extractor, 1);
    f64(&extractor, 2);
    token(&extractor, "<SigmaInv>");
    token(&extractor, "DP");
    dim(&extractor, 1);
    f64(&extractor, 1);
    token(&extractor, "<IvectorOffset>");
    put(&extractor, "\10", 1);
    f64(&extractor, prior);
    token(&extractor, "</IvectorExtractor>");

    put(&lda, "\0B", 2);
    token(&lda, "FM");
    dim(&lda, 1);
    dim(&lda, columns);
    for (int i = 0; i < columns; i++) f32(&lda, 1);
}

/* Its tables, and rooms for four frames and seven rows. */
static float gconsts[1], means[1], invvars[1], lda_t[3], lda_offset[1];
static double sigma_inv_m[1], u[1], global_row[2];
static float frames[4], waiting_weights[3];
static double rows[7], cmvn[2], linear[1], quadratic[1], current[1], scratch[2];
static size_t waiting_frames[3];

#define FILES gmm.b, gmm.len, extractor.b, extractor.len, lda.b, lda.len, (const uint8_t *)cmvn_text, sizeof cmvn_text - 1
#define TABLES gconsts, 1, means, 1, invvars, 1, sigma_inv_m, 1, u, 1, lda_t, 3, lda_offset, 1, global_row, 2
#define RINGS frames, 4, rows, 7, waiting_frames, 3, waiting_weights, 3
#define ESTIMATE cmvn, 2, linear, 1, quadratic, 1, current, 1, scratch, 2

static shofrakin_stream stream;
static void took(const char *name, shofrakin_stream_answer a, size_t refusal, size_t frames_held, size_t rows_held) {
    is(name, a.refusal, refusal);
    is("frames held", a.frames_held, frames_held);
    is("rows held", a.rows_held, rows_held);
    is("not finite", a.not_finite, 0);
    is("NaN likelihoods", a.nan_likelihoods, 0);
}

/* A block of exactly so many bytes, so that a sanitizer sees what is past it; and one whose bytes past it are looked at, since the library's
 * own writes are not seen. */
enum { PAST = 64 };
static unsigned char *block(size_t bytes, bool exact) {
    unsigned char *p = malloc(exact ? bytes : bytes + PAST);
    if (!p) exit(1);
    memset(p, 0xa5, exact ? bytes : bytes + PAST);
    return p;
}
static void past(const char *name, const unsigned char *p, size_t bytes) {
    for (size_t i = 0; i < PAST; i++) is(name, p[bytes + i], 0xa5);
}

/* The same through the helpers: P9, what is refused, a stream that forgets, the table of P12. */
static void live(bool exact) {
    shofrakin_options opts = shofrakin_default_options();
    shofrakin_model m;
    shofrakin_live s;
    uint32_t out[1] = {0};
    float x = 4, half;
    is("a default", opts.cmn_window + opts.num_cg_iters, 615);
    opts.left_context = opts.right_context = 0;
    opts.posterior_scale = 0.25f;
    model(1, 1);
    shofrakin_files f = {gmm.b, gmm.len, extractor.b, extractor.len, lda.b, lda.len, (const uint8_t *)cmvn_text, sizeof cmvn_text - 1};
    size_t n = shofrakin_model_memory(opts, f);
    is("a model's memory", n, 8 * (1 + 1 + 2 + 2) + 4 * 5);
    unsigned char *tables = block(n, exact);
    is("a model, short block", shofrakin_model_open(&m, opts, f, tables, n - 1), 8);
    is("a model, no block", shofrakin_model_open(&m, opts, f, NULL, n), 8);
    is("its block", tables[0] == 0xa5 && tables[n - 1] == 0xa5, true);
    is("a stream on a refused model", shofrakin_live_open(&s, &m, (shofrakin_room){4, 0, 0}, tables, n), 10);
    opts.cmn_window = 0;
    is("a model, window 0", shofrakin_model_open(&m, opts, f, tables, n), 1);
    opts.cmn_window = 600;
    for (int file = 0; file < 4; file++) {
        shofrakin_files g = f;
        const uint8_t **bytes[] = {&g.gmm, &g.extractor, &g.lda, &g.cmvn};
        size_t *lengths[] = {&g.gmm_len, &g.extractor_len, &g.lda_len, &g.cmvn_len};
        const uint8_t *whole = *bytes[file];
        size_t len = *lengths[file];
        /* of the text the last line end may go */
        for (size_t i = 0; i < (file == 3 ? len - 1 : len); i++) {
            uint8_t *part = block(i + !i, true);
            memcpy(part, whole, i);
            *bytes[file] = part;
            *lengths[file] = i;
            is("a model of which a file is cut", shofrakin_model_open(&m, opts, g, tables, n), file == 3 ? 7 : 2);
            free(part);
        }
    }
    is("a model", shofrakin_model_open(&m, opts, f, tables, n), 0);
    is("its base dimension", m.info.dims.base_dim, 1);
    if (!exact) past("past a model's block", tables, n);

    shofrakin_room room = {4, 0, 3};
    size_t k = shofrakin_live_memory(&m, room);
    is("a stream's memory", k, 8 * (604 + 2 + 1 + 1 + 1 + 1 + 3) + 4 * (4 + 3));
    is("a stream of too many frames", shofrakin_live_memory(&m, (shofrakin_room){SIZE_MAX / 2, 0, 0}) == SIZE_MAX, true);
    unsigned char *rooms = block(k, exact);
    is("a stream, short block", shofrakin_live_open(&s, &m, room, rooms, k - 1), 8);
    is("a call on it", shofrakin_live_set_input_finished(&s).refusal, 10);
    is("a stream, no block", shofrakin_live_open(&s, &m, room, NULL, k), 8);
    is("a call on it", shofrakin_live_push_frame(&s, &x, 1).refusal, 10);
    is("a stream of no frames", shofrakin_live_open(&s, &m, (shofrakin_room){0, 9, 0}, rooms, k), 8);
    is("a stream", shofrakin_live_open(&s, &m, room, rooms, k), 0);
    took("P9's push", shofrakin_live_push_frame(&s, &x, 1), 0, 1, 2);
    took("a longer frame", shofrakin_live_push_frame(&s, (float[]){1, 2}, 2), 11, 1, 2);
    took("P9's fetch", shofrakin_live_get_frame(&s, 0, out, 1), 0, 1, 2);
    memcpy(&half, out, 4);
    is("P9", half, 0.5);
    is("ready", shofrakin_live_num_frames_ready(&s), 1);
    is("next", shofrakin_live_num_frames_stats(&s), 1);
    is("i-vector dimension", shofrakin_live_ivector_dim(&s), 1);
    for (int t = 1; t < 2000; t++) {
        x = (float)(t % 90);
        is("push", shofrakin_live_push_frame(&s, &x, 1).refusal, 0);
        if (t % 3 == 0) {
            is("fetch", shofrakin_live_get_frame(&s, t, out, 1).refusal, 0);
            is("forget", shofrakin_live_forget_before(&s, t + 1).frames_held, 0);
        }
    }
    size_t at[3] = {2001, 2000, 1998};
    float w[3] = {1, 0.5f, 1};
    is("a change that is behind", shofrakin_live_update_frame_weights(&s, at, w, 3).refusal, 30);
    is("a change", shofrakin_live_update_frame_weights(&s, at, w, 2).refusal, 0);
    is("a fetch that is too far", shofrakin_live_get_frame(&s, 2000, out, 1).refusal, 21);
    is("finish", shofrakin_live_set_input_finished(&s).refusal, 0);
    if (!exact) past("past a stream's block", rooms, k);

    const int32_t phones[2] = {1, 2}, path[1] = {2};
    size_t by[16], from[1] = {0}, to[1] = {2};
    float weights[16];
    shofrakin_silence_live table;
    size_t q = shofrakin_silence_live_memory(8);
    unsigned char *places = block(q, exact);
    is("a table, before one that is refused", shofrakin_silence_live_open(&table, phones, 2, 0.25f, 3, 8, places, q), 0);
    is("a table, short block", shofrakin_silence_live_open(&table, phones, 2, 0.25f, 3, 8, places, q - 1), 8);
    is("no table", shofrakin_silence_live_traceback(&table, path, from, to, 1, (shofrakin_decoder_frame){3}).refusal, 10);
    is("a table, no block", shofrakin_silence_live_open(&table, phones, 2, 0.25f, 3, 8, NULL, q), 8);
    is("no table", shofrakin_silence_live_delta_weights(&table, (shofrakin_input_frame){4}, (shofrakin_input_frame){0}, by, weights, 16).refusal, 10);
    is("a table, subsampling 17", shofrakin_silence_live_open(&table, phones, 2, 0.25f, 17, 8, places, q), 9);
    is("a table", shofrakin_silence_live_open(&table, phones, 2, 0.25f, 3, 8, places, q), 0);
    is("active", shofrakin_silence_live_active(&table), true);
    shofrakin_input_frame ready = {4}, first = {0};
    shofrakin_silence_counts d = shofrakin_silence_live_delta_weights(&table, ready, first, by, weights, 16);
    is("P12", d.refusal == 0 && d.changes == 6 && by[5] == 5 && weights[5] == 0.25f, true);
    is("lists too short", shofrakin_silence_live_delta_weights(&table, ready, first, by, weights, 2).refusal, 24);
    d = shofrakin_silence_live_traceback(&table, path, from, to, 1, (shofrakin_decoder_frame){3});
    is("traceback", d.refusal == 0 && table.silence.length.number == 3 && table.known[1] && !table.known[2], true);
    is("traceback past the table", shofrakin_silence_live_traceback(&table, path, from, to, 1, (shofrakin_decoder_frame){9}).refusal, 23);
    if (!exact) past("past a table's block", places, q);
    for (size_t i = 0; i < 40; i++) is("a sentence", strlen(shofrakin_sentence(i)) > 4, true);
    free(places);
    free(rooms);
    free(tables);
}

/* The rules for the rooms, on P9's model with contexts 1 and 1 and window 2: the example of crates/program/proofs/Tight.antt, three utterances of 2
 * frames, the second and the third begun by a fetch of the last ready frame and a forget; the calls' refusal numbers in exactly these rooms, with a frame
 * less, and with a row less, are computed there from the definitions. Then a thousand utterances, of one and of two frames. */
static void rooms(void) {
    static const size_t want[3][10] = {{0}, {0, 0, 0, 0, 0, 14, 21, 0, 14, 14}, {0, 0, 0, 0, 0, 0, 0, 0, 0, 15}};
    static const char calls[] = "ppvdppvdpp";
    static const size_t at[10] = {0, 0, 0, 2, 0, 0, 2, 4, 0, 0};
    shofrakin_options opts = shofrakin_settings((const uint8_t *)"--left-context=1\n--right-context=1", 34, (const uint8_t *)"--cmn-window=2", 14).opts;
    shofrakin_model m;
    shofrakin_live s;
    uint32_t out[1];
    float x = 60;
    opts.posterior_scale = 0.25f;
    model(3, 1);
    shofrakin_files f = {gmm.b, gmm.len, extractor.b, extractor.len, lda.b, lda.len, (const uint8_t *)cmvn_text, sizeof cmvn_text - 1};
    size_t n = shofrakin_model_memory(opts, f), pushed = 0;
    unsigned char *tables = block(n, true);
    is("a model with contexts", shofrakin_model_open(&m, opts, f, tables, n), 0);
    shofrakin_room room = shofrakin_room_for_utterances(&m, 2);
    is("frames for utterances of 2", room.frames, 4);
    is("its rows", shofrakin_room_lengths_for(&m, room).lengths.rings.rows, 6);
    is("utterances of any length", shofrakin_live_memory(&m, shofrakin_room_for_utterances(&m, SIZE_MAX)) == SIZE_MAX, true);
    n = shofrakin_live_memory(&m, room);
    unsigned char *memory = block(n, true);
    for (size_t less = 0; less < 3; less++) {
        room.frames = less == 1 ? 3 : 4;
        room.rows = less == 2 ? 5 : 6;
        is("a stream in it", shofrakin_live_open(&s, &m, room, memory, n), 0);
        for (size_t i = 0; i < 10; i++) {
            size_t got = calls[i] == 'p' ? shofrakin_live_push_frame(&s, &x, 1).refusal
                : calls[i] == 'v'        ? shofrakin_live_get_frame(&s, at[i], out, 1).refusal
                                         : shofrakin_live_forget_before(&s, at[i]).refusal;
            is("a call in it", got, want[less][i]);
        }
    }
    is("a stream by the rules", shofrakin_live_open(&s, &m, shofrakin_room_for_utterances(&m, 2), memory, n), 0);
    for (size_t u = 0; u < 1000; u++) {
        for (size_t i = 0; i < 1 + (u % 3 > 0); i++, pushed++) is("an utterance's push", shofrakin_live_push_frame(&s, &x, 1).refusal, 0);
        if (u > 0) is("its fetch", shofrakin_live_get_frame(&s, shofrakin_live_num_frames_ready(&s) - 1, out, 1).refusal, 0);
        is("its forget", shofrakin_live_forget_before(&s, pushed).refusal, 0);
    }
    is("a window that is shorter", shofrakin_live_set_cmn_window(&s, 1).refusal, 0);
    is("a window of 0", shofrakin_live_set_cmn_window(&s, 0).refusal, 31);
    is("a window that is longer", shofrakin_live_set_cmn_window(&s, 3).refusal, 32);
    uint8_t registers[16] = {1};
    is("a step", shofrakin_live_registers_step(&s, registers, 16, &x, 1, out, 1).refusal, 0);
    is("its push", registers[12] == 0 && s.stream.accepted == pushed + 1, true);
    is("a step over fifteen bytes", shofrakin_live_registers_step(&s, registers, 15, &x, 1, out, 1).refusal, 10);
    free(memory);
    free(tables);
}

int main(void) {
    live(true);
    live(false);
    rooms();
    shofrakin_options opts = {.left_context = 1, .right_context = 1, .cmn_window = 2, .global_frames = 200, .num_gselect = 5,
        .num_cg_iters = 15, .min_post = 0.025f, .posterior_scale = 0.1f, .max_count = 100, .min_energy = 50};
    model(3, 1.5);
    shofrakin_load_answer m = shofrakin_load(opts, FILES, TABLES, scratch, 1);
    is("load, short scratch", m.refusal, 8);
    is("a table of a refused load", u[0], 0);
    shofrakin_new_stream_answer a = shofrakin_new_stream(m.info, TABLES, RINGS, ESTIMATE);
    is("a fresh stream on the record beside it", a.answer.refusal, 10);
    m = shofrakin_load(opts, FILES, TABLES, scratch, 2);
    is("load", m.refusal, 0);
    is("sigma_inv_m", sigma_inv_m[0], 2);
    is("u", u[0], 4);
    is("an LDA column", lda_t[2], 1);
    is("the global row's count", global_row[1], 100);
    is("the record's columns", m.info.dims.lda_cols, 3);
    is("its energy", m.info.opts.min_energy, 50);
    is("its prior", m.info.prior_offset, 1.5);
    is("its last length", m.info.tables.global_mean_stats, 2);
    shofrakin_info info = m.info;
    a = shofrakin_new_stream(info, TABLES, RINGS, ESTIMATE);
    took("fresh stream", a.answer, 0, 0, 1);
    is("its prior", current[0], 1.5);
    is("its quadratic", quadratic[0], 1);
    stream = a.stream;
    is("its record", memcmp(&stream.info.dims, &info.dims, sizeof info.dims), 0);
    is("its scratch", stream.lengths.estimate.scratch, 2);
    a = shofrakin_new_stream(info, TABLES, RINGS, cmvn, 1, linear, 1, quadratic, 1, current, 1, scratch, 2);
    is("fresh stream, short room", a.answer.refusal, 8);
    is("the call on the record beside it", shofrakin_set_input_finished(&a.stream, RINGS).refusal, 10);
    for (int t = 0; t < 4; t++) {
        float x = 60 + t;
        took("push", shofrakin_push_frame(&stream, &x, 1, RINGS), 0, t + 1, t + 2);
    }
    is("prefix row 4", rows[4], 60 + 61 + 62 + 63);
    is("accepted", stream.accepted, 4);
    float x = 1, two[2] = {1, 2};
    took("push, full", shofrakin_push_frame(&stream, &x, 1, RINGS), 14, 4, 5);
    is("accepted, after a refusal", stream.accepted, 4);
    took("push, two numbers", shofrakin_push_frame(&stream, two, 2, RINGS), 11, 4, 5);
    is("ready", shofrakin_num_frames_ready(&stream), 3);
    took("finish", shofrakin_set_input_finished(&stream, RINGS), 0, 4, 5);
    is("ready", shofrakin_num_frames_ready(&stream), 4);
    size_t at[3] = {3, 1, 2};
    float w[3] = {0.5f, 1, 0.25f};
    took("change", shofrakin_update_frame_weights(&stream, at, 3, w, 3, RINGS), 0, 4, 5);
    is("the first that waits", waiting_frames[0], 1);
    is("its weight", waiting_weights[0], 1);
    is("the last that waits", waiting_frames[2], 3);
    is("one past the highest", stream.past_highest, 4);
    is("a change call was taken", stream.delta_weights_provided, true);
    took("change, no room", shofrakin_update_frame_weights(&stream, at, 1, w, 1, RINGS), 19, 4, 5);
    took("change, lists", shofrakin_update_frame_weights(&stream, at, 2, w, 1, RINGS), 16, 4, 5);
    took("forget", shofrakin_forget_before(&stream, 3, RINGS), 0, 4, 5);
    is("the floor", stream.floor, 3);
    took("forget, lower", shofrakin_forget_before(&stream, 1, RINGS), 0, 4, 5);
    is("the floor, after a lower one", stream.floor, 3);
    took("window", shofrakin_set_cmn_window(&stream, 1, RINGS), 0, 4, 5);
    is("the window in force", stream.window, 1);
    is("the longest", stream.longest, 2);
    took("window, too long", shofrakin_set_cmn_window(&stream, 1001, RINGS), 31, 4, 5);
    took("change, below the floor", shofrakin_update_frame_weights(&stream, at + 2, 1, w, 1, RINGS), 30, 4, 5);
    is("i-vector dimension", shofrakin_ivector_dim(&stream), 1);
    is("next", shofrakin_num_frames_stats(&stream), 0);

    /* the scope's P9: no context, scale 0.25, prior 1, one frame 4 */
    opts = (shofrakin_options){.left_context = 0, .right_context = 0, .cmn_window = 600, .global_frames = 200, .num_gselect = 5,
        .num_cg_iters = 15, .min_post = 0.025f, .posterior_scale = 0.25f, .max_count = 100, .min_energy = 50};
    model(1, 1);
    m = shofrakin_load(opts, FILES, TABLES, scratch, 2);
    a = shofrakin_new_stream(m.info, TABLES, RINGS, ESTIMATE);
    is("P9's stream", a.answer.refusal, 0);
    stream = a.stream;
    x = 4;
    took("P9's push", shofrakin_push_frame(&stream, &x, 1, RINGS), 0, 1, 2);
    uint32_t out[1] = {0};
    took("P9's fetch", shofrakin_get_frame(&stream, 0, TABLES, RINGS, ESTIMATE, out, 1), 0, 1, 2);
    float half;
    memcpy(&half, out, 4);
    is("P9", half, 0.5);
    is("next", shofrakin_num_frames_stats(&stream), 1);
    took("a frame too far", shofrakin_get_frame(&stream, 1, TABLES, RINGS, ESTIMATE, out, 1), 21, 1, 2);
    took("an output too long", shofrakin_get_frame(&stream, 0, TABLES, RINGS, ESTIMATE, out, 0), 20, 1, 2);

    /* two frames so loud that three of them, spliced, have an infinite feature: the likelihood of the one Gaussian is NaN */
    opts = (shofrakin_options){.left_context = 1, .right_context = 1, .cmn_window = 600, .global_frames = 200, .num_gselect = 5,
        .num_cg_iters = 15, .min_post = 0.025f, .posterior_scale = 0.1f, .max_count = 100, .min_energy = 50};
    model(3, 1.5);
    m = shofrakin_load(opts, FILES, TABLES, scratch, 2);
    a = shofrakin_new_stream(m.info, TABLES, RINGS, ESTIMATE);
    is("a stream for loud frames", a.answer.refusal, 0);
    stream = a.stream;
    x = 3e38f;
    took("a loud push", shofrakin_push_frame(&stream, &x, 1, RINGS), 0, 1, 2);
    took("another", shofrakin_push_frame(&stream, &x, 1, RINGS), 0, 2, 3);
    took("their finish", shofrakin_set_input_finished(&stream, RINGS), 0, 2, 3);
    a.answer = shofrakin_get_frame(&stream, 1, TABLES, RINGS, ESTIMATE, out, 1);
    is("a loud fetch", a.answer.refusal, 0);
    is("its vector", out[0], 0);
    is("its NaN likelihoods", a.answer.nan_likelihoods, 2);
    took("the same fetch again", shofrakin_get_frame(&stream, 1, TABLES, RINGS, ESTIMATE, out, 1), 0, 2, 3);

    /* the scope's P12 */
    bool known[8] = {0}, is_silence[8] = {0};
    float current_weight[8] = {0}, weights[16] = {0};
    int32_t phones[2] = {1, 2}, path[1] = {2};
    size_t by[16] = {0}, from[1] = {0}, to[1] = {2};
    shofrakin_new_table_answer b = shofrakin_new_silence_weighting(phones, 2, 0.25f, 17, 8);
    is("table, subsampling 17", b.refusal, 9);
    b = shofrakin_new_silence_weighting(phones, 2, 0.25f, 3, 8);
    is("table", b.refusal, 0);
    shofrakin_silence table = b.silence;
    is("active", shofrakin_silence_active(&table), true);
    shofrakin_silence_counts d = shofrakin_get_delta_weights(&table, known, 8, is_silence, 8, current_weight, 8,
        (shofrakin_input_frame){4}, (shofrakin_input_frame){0}, by, 16, weights, 16);
    is("weights", d.refusal, 0);
    is("changes", d.changes, 6);
    for (int i = 0; i < 6; i++) {
        is("frame", by[i], i);
        is("weight", weights[i], 0.25f);
    }
    d = shofrakin_get_delta_weights(&table, known, 8, is_silence, 8, current_weight, 8,
        (shofrakin_input_frame){4}, (shofrakin_input_frame){0}, by, 16, weights, 16);
    is("changes, repeated", d.changes, 3);
    is("frame", by[0], 3);
    is("weight", weights[2], 0);
    d = shofrakin_compute_current_traceback(&table, phones, 2, known, 8, is_silence, 8, current_weight, 8,
        path, 1, from, 1, to, 1, (shofrakin_decoder_frame){3});
    is("traceback", d.refusal, 0);
    is("length", table.length.number, 3);
    is("known", known[1] && is_silence[1] && !known[2], true);
    d = shofrakin_compute_current_traceback(&table, phones, 2, known, 8, is_silence, 8, current_weight, 8,
        path, 1, from, 1, to, 1, (shofrakin_decoder_frame){9});
    is("traceback past the table", d.refusal, 23);
    is("length, after a refusal", table.length.number, 3);

    /* the nearest voice: the vectors (3, 4), (1, 2), (1, 2) beside (1, 1), at the distances 13, 1 and 1 */
    uint32_t voices[6], asked[2];
    memcpy(voices, (float[]){3, 4, 1, 2, 1, 2}, sizeof voices);
    memcpy(asked, (float[]){1, 1}, sizeof asked);
    shofrakin_voice_answer v = shofrakin_nearest_voice(2, asked, 2, 3, voices, 6, 1);
    is("voice", v.refusal, 0);
    is("somebody", v.found, true);
    is("of two the lower index", v.index, 1);
    is("distance", v.distance, 1);
    v = shofrakin_nearest_voice(2, asked, 2, 3, voices, 6, 0.75f);
    is("voice, limit too low", v.refusal, 0);
    is("nobody", v.found, false);
    is("no index", v.index, 0);
    is("no distance", v.distance, 0);
    is("no voice enrolled", shofrakin_nearest_voice(2, asked, 2, 0, voices, 0, 1).refusal, 27);
    is("a voice too many", shofrakin_nearest_voice(2, asked, 2, 33, voices, 6, 1).refusal, 27);
    is("a vector too short", shofrakin_nearest_voice(2, asked, 1, 3, voices, 6, 1).refusal, 28);
    is("a voice too short", shofrakin_nearest_voice(2, asked, 2, 3, voices, 5, 1).refusal, 28);
    is("a limit below 0", shofrakin_nearest_voice(2, asked, 2, 3, voices, 6, -1).refusal, 29);
    voices[5] = 0x7fc00000;
    is("a voice that is not finite", shofrakin_nearest_voice(2, asked, 2, 3, voices, 6, 1).refusal, 29);

    /* P9 again, through registers: a push and a fetch, each by a byte */
    opts = (shofrakin_options){.left_context = 0, .right_context = 0, .cmn_window = 600, .global_frames = 200, .num_gselect = 5,
        .num_cg_iters = 15, .min_post = 0.025f, .posterior_scale = 0.25f, .max_count = 100, .min_energy = 50};
    model(1, 1);
    m = shofrakin_load(opts, FILES, TABLES, scratch, 2);
    stream = shofrakin_new_stream(m.info, TABLES, RINGS, ESTIMATE).stream;
    uint8_t block[16] = {1, 0, 5};
    x = 4;
    out[0] = 0;
    is("step, push", shofrakin_registers_step(&stream, block, 16, &x, 1, TABLES, RINGS, ESTIMATE, out, 1).refusal, 0);
    is("its command is cleared", block[0], 0);
    is("its flags: room for a push", block[1], 4);
    is("its interrupt", block[3], 1);
    is("frames held", block[8], 1);
    is("accepted", stream.accepted, 1);
    block[0] = 4;
    is("step, fetch", shofrakin_registers_step(&stream, block, 16, &x, 1, TABLES, RINGS, ESTIMATE, out, 1).refusal, 0);
    is("its flags: the vector, and room", block[1], 5);
    memcpy(&half, out, 4);
    is("P9, through registers", half, 0.5);
    block[0] = 4, block[4] = 1;
    is("step, a frame too far", shofrakin_registers_step(&stream, block, 16, &x, 1, TABLES, RINGS, ESTIMATE, out, 1).refusal, 0);
    is("its flags: refused, and room", block[1], 6);
    is("its number", block[12], 21);
    is("step, a block too short", shofrakin_registers_step(&stream, block, 15, &x, 1, TABLES, RINGS, ESTIMATE, out, 1).refusal, 10);
    is("its flags are left", block[1], 6);

    /* how much memory: the model's dimensions, its tables, and the rooms of a stream that holds four frames, seven rows and three changes */
    shofrakin_dimensions_answer size = shofrakin_model_dimensions(opts, FILES);
    is("dimensions", size.refusal, 0);
    is("lda_cols", size.dims.lda_cols, 1);
    is("base_dim", size.dims.base_dim, 1);
    shofrakin_tables_answer need = shofrakin_tables_needed(opts, size.dims);
    is("tables", need.refusal, 0);
    is("lda_t", need.tables.lda_t, 1);
    is("global_mean_stats", need.tables.global_mean_stats, 2);
    is("scratch of a load", need.scratch, 2);
    is("tables of no dimension", shofrakin_tables_needed(opts, (shofrakin_dimensions){0}).refusal, 4);
    shofrakin_rooms_answer room = shofrakin_rooms_needed(size.dims, 4, 7, 3);
    is("rooms", room.refusal, 0);
    is("frames", room.lengths.rings.frames, 4);
    is("rows", room.lengths.rings.rows, 7);
    is("waiting_weights", room.lengths.rings.waiting_weights, 3);
    is("cmvn_stats", room.lengths.estimate.cmvn_stats, 2);
    is("scratch of a fetch", room.lengths.estimate.scratch, 1);
    is("rooms for no frame", shofrakin_rooms_needed(size.dims, 0, 7, 3).refusal, 8);
    is("dimensions of a cut file", shofrakin_model_dimensions(opts, gmm.b, gmm.len - 1, extractor.b, extractor.len, lda.b, lda.len, (const uint8_t *)cmvn_text, sizeof cmvn_text - 1).refusal, 2);
    /* rounds on the same model: nobody enrolled, then the vector of that round; a frame that is not finite */
    stream = shofrakin_new_stream(m.info, TABLES, RINGS, ESTIMATE).stream;
    table = shofrakin_new_silence_weighting(phones, 2, 0.25f, 1, 8).silence;
    shofrakin_round_answer r = shofrakin_round(stream, table, 0, &x, 1, path, 1, from, 1, to, 1, TABLES, RINGS, ESTIMATE, phones, 2,
        known, 8, is_silence, 8, current_weight, 8, by, 16, weights, 16, out, 1, 0, voices, 0, 1);
    is("round, nobody enrolled", r.outcome.refusal, 27);
    is("its step", r.outcome.step, 7);
    is("not full", r.outcome.full, false);
    is("accepted", r.stream.accepted, 1);
    is("accepted, in the record that was given", stream.accepted, 0);
    is("length", r.silence.length.number, 2);
    voices[0] = out[0];
    r = shofrakin_round(r.stream, r.silence, 0, &x, 0, path, 1, from, 1, to, 1, TABLES, RINGS, ESTIMATE, phones, 2,
        known, 8, is_silence, 8, current_weight, 8, by, 16, weights, 16, out, 1, 1, voices, 1, 1);
    is("round, one enrolled", r.outcome.refusal, 0);
    is("full", r.outcome.full, true);
    is("somebody", r.outcome.found, true);
    memcpy(&x, voices + 5, 4);
    r = shofrakin_round(r.stream, r.silence, 1, &x, 1, path, 1, from, 1, to, 1, TABLES, RINGS, ESTIMATE, phones, 2,
        known, 8, is_silence, 8, current_weight, 8, by, 16, weights, 16, out, 1, 1, voices, 1, 1);
    is("round, a frame that is not finite", r.outcome.refusal, 12);
    is("its step", r.outcome.step, 2);
    is("no changes", r.changes, 0);
    /* the maker's settings: a load with them, their refusal, and a record that meets 1 */
#define TEXTS(s, c) (const uint8_t *)(s), sizeof(s) - 1, (const uint8_t *)(c), sizeof(c) - 1
    shofrakin_settings_answer o = shofrakin_settings(TEXTS("--left-context=1\n--right-context=1\n--left-context=9\n", " --cmn-window=2\r\n--cmn-min-energy=-4.55e1\n--global-frames=x\n"));
    is("settings", o.refusal, 0);
    is("the first left-context", o.opts.left_context, 1);
    is("right-context", o.opts.right_context, 1);
    is("cmn-window", o.opts.cmn_window, 2);
    is("global-frames, unreadable", o.opts.global_frames, 200);
    is("cmn-min-energy", o.opts.min_energy, -45.5);
    is("num_gselect", o.opts.num_gselect, 5);
    is("min_post", o.opts.min_post, 0.025f);
    is("settings that are not ASCII", shofrakin_settings(TEXTS("", "\200")).refusal, 25);
    model(3, 1.5);
    m = shofrakin_load_with_settings(TEXTS("--left-context=1\n--right-context=1\n", ""), FILES, TABLES, scratch, 2);
    is("load with settings", m.refusal, 0);
    is("its window", m.info.opts.cmn_window, 600);
    is("load with settings out of range", shofrakin_load_with_settings(TEXTS("--left-context=9\n", ""), FILES, TABLES, scratch, 2).refusal, 1);
    is("load with refused settings", shofrakin_load_with_settings(TEXTS("--left-context=9\n\377", ""), FILES, TABLES, scratch, 2).refusal, 25);

    {
        /* a model written back: dimensions of 1, at both widths */
        shofrakin_options plain = {0, 0, 600, 200, 5, 15, 0.025f, 0.1f, 100, 50};
        shofrakin_model_sizes ones = {1, 1, 1, 1, 1};
        uint8_t out[512];
        memset(out, 0xee, sizeof out);
        float f[] = {1, 2};
        double g[] = {1, 2};
        const uint8_t *row = (const uint8_t *)cmvn_text;
        size_t row_len = strlen(cmvn_text);
        shofrakin_written_answer w = shofrakin_write_f32(plain, ones, row, row_len, f, 1, f, 1, f, 1, f + 1, 1, f, 1, 0.5f, f, 1, out, sizeof out);
        is("written", w.refusal, 0);
        is("its GMM", w.gmm, 124);
        is("its extractor", w.extractor, 144);
        is("its LDA", w.lda, 19);
        is("past its end", out[124 + 144 + 19], 0xee);
        is("its offset", out[124 + 144 - 25], 4);
        w = shofrakin_write_f64(plain, ones, row, row_len, g, 1, g, 1, g, 1, g + 1, 1, g, 1, 0.5, g, 1, out, sizeof out);
        is("written as double", w.gmm + w.extractor + w.lda, 136 + 156 + 23);
        w = shofrakin_write_f64(plain, ones, row, row_len, g, 1, g, 1, g, 1, g + 1, 1, g, 1, 0.5, g, 1, out, 314);
        is("a byte too few", w.refusal, 26);
        is("no length", w.gmm, 0);
        w = shofrakin_write_f64(plain, ones, row, row_len, g, 1, g, 2, g, 1, g + 1, 1, g, 1, 0.5, g, 1, out, 314);
        is("a list too long", w.refusal, 5);
    }
    printf(wrong ? "%d differ\n" : "the headers fit the library\n", wrong);
    return wrong != 0;
}
