/*
 * Reads lines of eight numbers, a piece's rectangle and a reference's, and
 * prints the shares that finder_tile_shares gives as tools/job shares words
 * them. tests/examples compares the two.
 */
#include "finder.h"

#include <inttypes.h>
#include <stdio.h>
#include <stdlib.h>

static const char *const names[FINDER_TILES] = {
    "south west", "south", "south east", "west", "within", "east",
    "north west", "north", "north east",
};

static void print_shares(const finder_shares *shares)
{
    const char *before = "";
    for (size_t tile = 0; tile < FINDER_TILES; tile++) {
        uint64_t thousandths = shares->thousandths[tile];
        if (shares->areas[tile] == 0)
            continue;
        printf("%s%s %" PRIu64 ".%" PRIu64 " %%", before, names[tile],
               thousandths / 10, thousandths % 10);
        before = ", ";
    }
    printf("\n");
}

int main(void)
{
    char line[128];
    while (fgets(line, sizeof line, stdin) != NULL) {
        uint32_t p[4], q[4];
        if (sscanf(line,
                   "%" SCNu32 "%" SCNu32 "%" SCNu32 "%" SCNu32
                   "%" SCNu32 "%" SCNu32 "%" SCNu32 "%" SCNu32,
                   &p[0], &p[1], &p[2], &p[3],
                   &q[0], &q[1], &q[2], &q[3]) != 8) {
            fprintf(stderr, "tests/shares.c: not eight numbers: %s", line);
            return EXIT_FAILURE;
        }
        finder_shares shares = finder_tile_shares(p[0], p[1], p[2], p[3],
                                                  q[0], q[1], q[2], q[3]);
        if (shares.refusal != FINDER_ACCEPTED) {
            fprintf(stderr, "tests/shares.c: refusal %" PRIu32 ": %s",
                    shares.refusal, line);
            return EXIT_FAILURE;
        }
        print_shares(&shares);
    }
    return EXIT_SUCCESS;
}
