/* Rounds of utterances, from C: whose voice it is, utterance by utterance.
 *
 *     rounds MODEL FEATURES
 *
 * MODEL is a folder with final.dubm, final.ie, final.mat and global_cmvn.stats; splice.conf and online_cmvn.conf count where they are there. FEATURES
 * is text, a frame to a line. Each round is given 20 frames and the path that a decoder would give: five frames of silence, then speech. The first round
 * finds nobody enrolled, which is refused at step 7 with the vector there, and that is enrolled; the later ones ask for it. The last round has a frame
 * cut short. */
#include "shofrakin_live.h"
#include <errno.h>
#include <stdio.h>
#include <stdlib.h>

enum { LENGTH = 20, LISTS = 384 };

static shofrakin_model model;
static shofrakin_live live;
static shofrakin_silence_live table;
static uint32_t enrolled[32 * 128], vector[128];
static size_t voices, start;

static void take(const char *what, size_t refusal) {
    if (refusal) fprintf(stderr, "%s: refused, %zu: %s\n", what, refusal, shofrakin_sentence(refusal)), exit(1);
}

/* A settings file may be missing, and has no bytes then. */
static uint8_t *read_file(const char *folder, const char *name, size_t *len) {
    char path[4096];
    snprintf(path, sizeof path, "%s/%s", folder, name);
    FILE *f = fopen(path, "rb");
    if (!f && errno == ENOENT && strstr(name, ".conf")) return calloc(1, 1);
    if (!f) perror(path), exit(1);
    uint8_t *bytes = NULL;
    for (size_t n = 1; n > 0; *len += n) {
        bytes = realloc(bytes, *len + 65536);
        n = fread(bytes + *len, 1, 65536, f);
    }
    fclose(f);
    return bytes;
}

/* A fresh table for each utterance: its decoder frames count from the start. */
static void round_of(const float *numbers, size_t len) {
    static const int32_t silence[] = {1}, phones[] = {1, 2};
    static const size_t starts[] = {0, 5}, ends[] = {5, LENGTH - 1};
    static double memory[LENGTH * 4];
    static size_t frames[LISTS];
    static float weights[LISTS];
    take("table", shofrakin_silence_live_open(&table, silence, 1, 0.001f, 1, LENGTH, memory, sizeof memory));
    size_t dim = shofrakin_live_ivector_dim(&live);
    shofrakin_round_answer a = shofrakin_live_round(
        &live, &table, start, numbers, len, phones, starts, ends, 2, frames, weights, LISTS, vector, dim, voices, enrolled, voices * dim, 0.5f);
    shofrakin_round_outcome o = a.outcome;
    printf("from frame %zu, %zu changes: ", start, a.changes);
    if (o.refusal) printf("refused at step %zu, %zu: %s\n", o.step, o.refusal, shofrakin_sentence(o.refusal));
    else if (!o.full) printf("no vector\n");
    else if (o.found) printf("voice %zu, at distance %.6g\n", o.index, o.distance);
    else printf("nobody\n");
    if (o.step == 7 && o.refusal == 27) memcpy(enrolled, vector, sizeof *vector * dim), voices = 1;
    start = live.stream.accepted;
}

int main(int argc, char **argv) {
    if (argc != 3) return fprintf(stderr, "rounds MODEL FEATURES\n"), 2;
    static shofrakin_files files;
    files.gmm = read_file(argv[1], "final.dubm", &files.gmm_len);
    files.extractor = read_file(argv[1], "final.ie", &files.extractor_len);
    files.lda = read_file(argv[1], "final.mat", &files.lda_len);
    files.cmvn = read_file(argv[1], "global_cmvn.stats", &files.cmvn_len);
    size_t splice_len = 0, online_len = 0;
    uint8_t *splice = read_file(argv[1], "splice.conf", &splice_len), *online = read_file(argv[1], "online_cmvn.conf", &online_len);
    shofrakin_settings_answer o = shofrakin_settings(splice, splice_len, online, online_len);
    take("settings", o.refusal);
    free(splice), free(online);
    size_t bytes = shofrakin_model_memory(o.opts, files);
    take("load", shofrakin_model_open(&model, o.opts, files, malloc(bytes), bytes));
    shofrakin_room room = shofrakin_room_for_utterances(&model, LENGTH);
    bytes = shofrakin_live_memory(&model, room);
    take("stream", shofrakin_live_open(&live, &model, room, malloc(bytes), bytes));

    FILE *f = fopen(argv[2], "r");
    if (!f) return perror(argv[2]), 1;
    static float numbers[LENGTH * 64];
    size_t b = model.info.dims.base_dim, n;
    do {
        for (n = 0; n < LENGTH * b && fscanf(f, "%f", numbers + n) == 1; n++) continue;
        if (n) round_of(numbers, n);
    } while (n == LENGTH * b);
    fclose(f);
    round_of(numbers, b - 1);
    return 0;
}
