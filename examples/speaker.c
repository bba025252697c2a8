/* The main job, from C: loads a model's four files, pushes feature frames and prints the speaker's vector as it grows.
 *
 *     speaker MODEL FEATURES
 *
 * MODEL is a folder with final.dubm, final.ie, final.mat and global_cmvn.stats; splice.conf and online_cmvn.conf count where they are there. FEATURES
 * is text, a frame to a line. Every 10 frames, and at the end, a line: the frame, how many frames and prefix rows are held, then the vector. What is
 * behind the last fetch is forgotten, so that rooms for a few frames serve an input of any length. */
#include "shofrakin_live.h"
#include <errno.h>
#include <stdio.h>
#include <stdlib.h>

static shofrakin_model model;
static shofrakin_live live;

static void take(const char *what, size_t refusal) {
    if (refusal) fprintf(stderr, "%s: refused, %zu: %s\n", what, refusal, shofrakin_sentence(refusal)), exit(1);
}

/* A settings file may be missing, and has no bytes then. */
static uint8_t *read_file(const char *folder, const char *name, size_t *len) {
    char path[4096];
    snprintf(path, sizeof path, "%s/%s", folder, name);
    FILE *f = fopen(path, "rb");
    if (!f && errno == ENOENT && strstr(name, ".conf")) return calloc(1, 1);
    if (!f) perror(path), exit(1);
    uint8_t *bytes = NULL;
    for (size_t n = 1; n > 0; *len += n) {
        bytes = realloc(bytes, *len + 65536);
        n = fread(bytes + *len, 1, 65536, f);
    }
    fclose(f);
    return bytes;
}

static void print_vector(size_t frame) {
    uint32_t bits[128];
    size_t n = shofrakin_live_ivector_dim(&live);
    shofrakin_stream_answer a = shofrakin_live_get_frame(&live, frame, bits, n);
    take("fetch", a.refusal);
    printf("frame %zu, held %zu and %zu:", frame, a.frames_held, a.rows_held);
    for (size_t i = 0; i < n; i++) {
        float x;
        memcpy(&x, bits + i, sizeof x);
        printf(" %.6g", x);
    }
    printf("\n");
    if (a.nan_likelihoods) printf("frame %zu: %zu likelihoods were NaN\n", frame, a.nan_likelihoods);
    take("forget", shofrakin_live_forget_before(&live, frame + 1).refusal);
}

int main(int argc, char **argv) {
    if (argc != 3) return fprintf(stderr, "speaker MODEL FEATURES\n"), 2;
    static shofrakin_files files;
    files.gmm = read_file(argv[1], "final.dubm", &files.gmm_len);
    files.extractor = read_file(argv[1], "final.ie", &files.extractor_len);
    files.lda = read_file(argv[1], "final.mat", &files.lda_len);
    files.cmvn = read_file(argv[1], "global_cmvn.stats", &files.cmvn_len);
    size_t splice_len = 0, online_len = 0;
    uint8_t *splice = read_file(argv[1], "splice.conf", &splice_len), *online = read_file(argv[1], "online_cmvn.conf", &online_len);
    shofrakin_settings_answer o = shofrakin_settings(splice, splice_len, online, online_len);
    take("settings", o.refusal);
    free(splice), free(online);
    size_t bytes = shofrakin_model_memory(o.opts, files);
    take("load", shofrakin_model_open(&model, o.opts, files, malloc(bytes), bytes));
    /* ten frames from one fetch to the next, and before the first its right context besides */
    shofrakin_room room = shofrakin_room_for_utterances(&model, 10 + o.opts.right_context);
    bytes = shofrakin_live_memory(&model, room);
    take("stream", shofrakin_live_open(&live, &model, room, malloc(bytes), bytes));

    FILE *f = fopen(argv[2], "r");
    if (!f) return perror(argv[2]), 1;
    float frame[64];
    for (size_t n = 1; n > 0;) {
        for (n = 0; n < model.info.dims.base_dim && fscanf(f, "%f", frame + n) == 1; n++) continue;
        take(n ? "push" : "finish", (n ? shofrakin_live_push_frame(&live, frame, n) : shofrakin_live_set_input_finished(&live)).refusal);
        size_t ready = shofrakin_live_num_frames_ready(&live);
        if (ready > shofrakin_live_num_frames_stats(&live) && (n == 0 || ready % 10 == 0)) print_vector(ready - 1);
    }
    fclose(f);
    return 0;
}
