/* Prints, for each statement of a flow file, its masks, live-in and live-out.
   cc -I include examples/states.c target/staticlib/libyarnuskel.a -o target/states && target/states examples/p5.flow */
#include <inttypes.h>
#include <stdio.h>

#include "yarnuskel.h"

#define N YARNUSKEL_MAX_STATEMENTS
#define ARRAYS YARNUSKEL_MAX_ARRAYS

static uint8_t file[262144 + 1];
static uint8_t masks[N * ARRAYS];
static uint64_t live_in[N], live_out[N], work[YARNUSKEL_WORK_WORDS * N];

int main(int count, char **words) {
    FILE *input = count == 2 ? fopen(words[1], "rb") : NULL;
    if (input == NULL) {
        fprintf(stderr, "usage: states FILE\n");
        return 2;
    }
    size_t length = fread(file, 1, sizeof file, input);
    fclose(input);

    uint64_t place, visits;
    uint64_t number = yarnuskel_states(file, length, masks, N * ARRAYS, live_in, N, live_out, N,
                                       work, YARNUSKEL_WORK_WORDS * N, &place, &visits);
    if (number != 0) {
        printf("refused %" PRIu64 " at %" PRIu64 "\n", number, place);
        return 1;
    }
    size_t n = file[2] | (size_t)file[3] << 8, arrays = file[4];
    for (size_t i = 0; i < n; i++) {
        printf("%zu ", i);
        for (size_t a = 0; a < arrays; a++) printf("%u", masks[i * arrays + a]);
        printf(" %016" PRIx64 " %016" PRIx64 "\n", live_in[i], live_out[i]);
    }
    printf("%" PRIu64 " visits\n", visits);
    return 0;
}
