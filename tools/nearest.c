/*
 * nearest X Y PAGES: reads a job, places its pieces, and finds the piece
 * nearest to the point (X, Y), with at most PAGES pages opened. Prints
 * "P position refusal" for each refused piece, as the program finder does, and
 * after them what finder_nearest_piece was asked and what it returns:
 *
 *     N X Y PAGES refusal found number opened left distance left_distance
 *
 * tools/job make writes the job, and tools/job show reads the lines.
 */
#include "finder.h"

#define PROGRAM "nearest"
#include "job_words.h"

#include <inttypes.h>

static uint32_t table[FINDER_TABLE_WORDS];

/* Digits alone: no sign, no blank, and nothing that is cut to 32 bits. */
static uint32_t number_of(const char *text, const char *name)
{
    uint64_t number = 0;
    const char *at = text;
    while (*at >= '0' && *at <= '9' && number <= UINT32_MAX)
        number = 10 * number + (uint64_t)(*at++ - '0');
    if (at == text || *at != '\0' || number > UINT32_MAX) {
        fprintf(stderr,
                PROGRAM ": %s is '%s' and not a number from 0 to %" PRIu32 "\n",
                name, text, UINT32_MAX);
        exit(EXIT_FAILURE);
    }
    return (uint32_t)number;
}

/* Returns the words of the pieces and sets their count. The queries are not
   used, but a job without a whole section of them is none, as for finder. */
static const uint32_t *read_pieces(uint32_t *count)
{
    read_words();
    *count = *take(1);
    const uint32_t *pieces = words + words_taken;
    for (uint32_t left = *count; left > 0; left--)
        take(PIECE_WORDS);
    for (uint32_t left = *take(1); left > 0; left--) {
        const uint32_t *query = take(QUERY_HEAD_WORDS);
        for (uint32_t clauses = query[RECT_WORDS]; clauses > 0; clauses--)
            take(CLAUSE_WORDS);
    }
    expect_end();
    return pieces;
}

static void place_pieces(const uint32_t *piece, uint32_t count)
{
    for (uint32_t position = 0; position < count; position++) {
        uint32_t refusal = finder_place(table, FINDER_TABLE_WORDS, piece[0],
                                        piece[1], piece[2], piece[3], piece[4]);
        if (refusal != FINDER_ACCEPTED)
            printf("P %" PRIu32 " %" PRIu32 "\n", position, refusal);
        piece += PIECE_WORDS;
    }
}

static void print_nearest(uint32_t x, uint32_t y, uint32_t pages)
{
    finder_nearest nearest =
        finder_nearest_piece(table, FINDER_TABLE_WORDS, x, y, pages);
    printf("N %" PRIu32 " %" PRIu32 " %" PRIu32 " %" PRIu32, x, y, pages,
           nearest.refusal);
    printf(" %" PRIu32 " %" PRIu32 " %" PRIu32 " %" PRIu32, nearest.found,
           nearest.number, nearest.opened, nearest.left);
    printf(" %" PRIu64 " %" PRIu64 "\n", nearest.distance,
           nearest.left_distance);
}

int main(int argc, char **argv)
{
    if (argc != 4)
        fail("three arguments are needed: X Y PAGES");
    uint32_t x = number_of(argv[1], "X");
    uint32_t y = number_of(argv[2], "Y");
    uint32_t pages = number_of(argv[3], "PAGES");
    uint32_t count;
    const uint32_t *pieces = read_pieces(&count);
    if (finder_empty(table, FINDER_TABLE_WORDS) != FINDER_ACCEPTED)
        fail("the table cannot be emptied");
    place_pieces(pieces, count);
    print_nearest(x, y, pages);
    if (fflush(stdout) != 0 || ferror(stdout))
        fail("the answer cannot be written");
    return EXIT_SUCCESS;
}
