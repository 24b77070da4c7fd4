/* Prints the names of a flow file that interfere, a row a name, how many are live at once, and cells that they may share.
   cc -I include examples/interference.c target/staticlib/libyarnuskel.a -o target/interference && target/interference examples/cells.flow */
#include <inttypes.h>
#include <stdio.h>

#include "yarnuskel.h"

#define WORK (YARNUSKEL_WORK_WORDS * YARNUSKEL_MAX_STATEMENTS)
#define NONE YARNUSKEL_MAX_NAMES

static uint8_t file[262144 + 1];
static uint64_t rows[YARNUSKEL_MAX_NAMES], work[WORK];

static int interfere(unsigned x, unsigned y) {
    return rows[x] >> y & 1;
}

static unsigned met(unsigned x) {
    unsigned count = 0;
    for (unsigned y = 0; y < YARNUSKEL_MAX_NAMES; y++) count += interfere(x, y);
    return count;
}

/* The name without a cell that meets most others, the first of them; NONE where each has its cell. */
static unsigned next_name(const unsigned *cells, unsigned names) {
    unsigned next = NONE;
    for (unsigned x = 0; x < names; x++) {
        if (cells[x] == NONE && (next == NONE || met(x) > met(next))) next = x;
    }
    return next;
}

/* The lowest cell that no name has which meets x. */
static unsigned free_cell(const unsigned *cells, unsigned names, unsigned x) {
    unsigned cell = 0, y = 0;
    while (y < names) {
        int taken = interfere(x, y) && cells[y] == cell;
        cell += taken;
        y = taken ? 0 : y + 1;
    }
    return cell;
}

/* A cell a name, so that names which interfere share none; those that meet no other are in cell 0. Returns how many cells there are. */
static unsigned share_cells(unsigned *cells, unsigned names) {
    unsigned count = 0;
    for (unsigned x = 0; x < names; x++) cells[x] = NONE;
    for (unsigned x = next_name(cells, names); x != NONE; x = next_name(cells, names)) {
        cells[x] = free_cell(cells, names, x);
        if (count <= cells[x]) count = cells[x] + 1;
    }
    return count;
}

int main(int count, char **words) {
    FILE *input = count == 2 ? fopen(words[1], "rb") : NULL;
    if (input == NULL) {
        fprintf(stderr, "usage: interference FILE\n");
        return 2;
    }
    size_t length = fread(file, 1, sizeof file, input);
    fclose(input);

    uint64_t place, most;
    uint64_t number = yarnuskel_interference(file, length, rows, YARNUSKEL_MAX_NAMES, work, WORK, &place, &most);
    if (number != 0) {
        printf("refused %" PRIu64 " at %" PRIu64 "\n", number, place);
        return 1;
    }
    unsigned names = file[5], cells[YARNUSKEL_MAX_NAMES];
    for (unsigned x = 0; x < names; x++) {
        printf("%2u ", x);
        for (unsigned y = 0; y < names; y++) putchar(interfere(x, y) ? 'x' : '.');
        printf("\n");
    }
    unsigned shared = share_cells(cells, names);
    printf("%" PRIu64 " live at once\n%u cell%s:", most, shared, shared == 1 ? "" : "s");
    for (unsigned x = 0; x < names; x++) printf(" %u", cells[x]);
    printf("\n");
    return 0;
}
