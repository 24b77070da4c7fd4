/* Prints the names of a flow file that are certainly written before they are read: the word, then the names by number.
   cc -I include examples/certain.c target/staticlib/libyarnuskel.a -o target/certain && target/certain examples/names.flow */
#include <inttypes.h>
#include <stdio.h>

#include "yarnuskel.h"

#define WORK (YARNUSKEL_WORK_WORDS * YARNUSKEL_MAX_STATEMENTS)

static uint8_t file[262144 + 1];
static uint64_t work[WORK];

int main(int count, char **words) {
    FILE *input = count == 2 ? fopen(words[1], "rb") : NULL;
    if (input == NULL) {
        fprintf(stderr, "usage: certain FILE\n");
        return 2;
    }
    size_t length = fread(file, 1, sizeof file, input);
    fclose(input);

    uint64_t place, certain;
    uint64_t number = yarnuskel_certain(file, length, work, WORK, &place, &certain);
    if (number != 0) {
        printf("refused %" PRIu64 " at %" PRIu64 "\n", number, place);
        return 1;
    }
    printf("%016" PRIx64, certain);
    for (unsigned name = 0; name < 64; name++) {
        if (certain >> name & 1) printf(" %u", name);
    }
    printf("\n");
    return 0;
}
