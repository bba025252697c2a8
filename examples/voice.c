/* Whose voice it is, by the library's header alone: three repairers are enrolled, one vector each, and two vectors are asked about. In use the vectors
 * are what shofrakin_get_frame gives out, as they are: bits of floats. */
#include "shofrakin.h"
#include <stdio.h>
#include <string.h>

enum { DIM = 3, VOICES = 3 };

static void ask(const char *who, const float *vector, const float *enrolled, float limit) {
    uint32_t v[DIM], e[VOICES * DIM];
    memcpy(v, vector, sizeof v);
    memcpy(e, enrolled, sizeof e);
    shofrakin_voice_answer a = shofrakin_nearest_voice(DIM, v, DIM, VOICES, e, VOICES * DIM, limit);
    if (a.refusal)
        printf("%s: refused, %zu\n", who, a.refusal);
    else if (a.found)
        printf("%s: voice %zu, at distance %.6g\n", who, a.index, a.distance);
    else
        printf("%s: nobody within %.6g\n", who, limit);
}

int main(void) {
    const float enrolled[VOICES * DIM] = {0.25f, 0.5f, -0.25f, -0.5f, 0.75f, 0.125f, 0.25f, 0.5f, -0.25f};
    const float near[DIM] = {0.268725f, 0.556953f, -0.247306f}, far[DIM] = {4, -4, 4};
    ask("near", near, enrolled, 0.5f); /* voices 0 and 2 are the same: the lower index */
    ask("far", far, enrolled, 0.5f);
    ask("limit below 0", near, enrolled, -1);
    return 0;
}
