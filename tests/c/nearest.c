/*
 * Nearest pieces: the nine pieces of nine.c, nine with ties, and one in the
 * last corner of the cloth. Prints what is found from points, and refusals.
 */
#include "finder.h"

#include <inttypes.h>
#include <stdio.h>
#include <stdlib.h>

static uint32_t table[FINDER_TABLE_WORDS];

/* Ends the program when a call that should be accepted is refused. */
static void accepted(const char *call, uint32_t refusal)
{
    if (refusal != FINDER_ACCEPTED) {
        printf("%s refused: %" PRIu32 "\n", call, refusal);
        exit(EXIT_FAILURE);
    }
}

static void empty(void)
{
    accepted("empty", finder_empty(table, FINDER_TABLE_WORDS));
}

static void place(uint32_t number, uint32_t x1, uint32_t y1, uint32_t x2,
                  uint32_t y2)
{
    accepted("place",
             finder_place(table, FINDER_TABLE_WORDS, number, x1, y1, x2, y2));
}

/* What belongs to an absent piece or page is 0, and all is where refused. */
static int is_whole(const finder_nearest *nearest)
{
    if (nearest->found > 1 || nearest->left > 1)
        return 0;
    if (!nearest->found && (nearest->number || nearest->distance))
        return 0;
    if (!nearest->left && nearest->left_distance)
        return 0;
    return nearest->refusal == FINDER_ACCEPTED ||
           !(nearest->found || nearest->opened || nearest->left);
}

static void print_from(const char *name, size_t len, uint32_t x, uint32_t y,
                       uint32_t allowance)
{
    finder_nearest nearest = finder_nearest_piece(table, len, x, y, allowance);
    printf("%s (%" PRIu32 ", %" PRIu32 "), allowance %" PRIu32 ": ", name, x, y,
           allowance);
    if (!is_whole(&nearest)) {
        printf("an absent piece or page that is not zero\n");
        exit(EXIT_FAILURE);
    }
    if (nearest.refusal != FINDER_ACCEPTED) {
        printf("refusal %" PRIu32 "\n", nearest.refusal);
        return;
    }
    if (nearest.found)
        printf("piece %" PRIu32 " at %" PRIu64, nearest.number,
               nearest.distance);
    else
        printf("no piece");
    printf(", %" PRIu32 " opened, ", nearest.opened);
    if (nearest.left)
        printf("left at %" PRIu64 "\n", nearest.left_distance);
    else
        printf("none left\n");
}

static void print_nearest(const char *name, uint32_t x, uint32_t y,
                          uint32_t allowance)
{
    print_from(name, FINDER_TABLE_WORDS, x, y, allowance);
}

/*
 * Piece c at (10c, 0, 10c + 5, 5). The root is page 2; page 0 has pieces 0 to 3
 * and is (0, 0, 35, 5), page 1 has pieces 4 to 8 and is (40, 0, 85, 5).
 */
static void print_nine(void)
{
    empty();
    for (uint32_t c = 0; c < 9; c++)
        place(c, 10 * c, 0, 10 * c + 5, 5);
    /* On a corner of piece 8, inside page 1; page 0 is 45 away. */
    print_nearest("nine", 80, 0, 1);
    print_nearest("nine", 80, 0, 2);
    print_nearest("nine", 80, 0, FINDER_PAGES);
    /* 2 from page 0 and piece 3, 3 from page 1. */
    print_nearest("nine", 37, 2, 1);
    print_nearest("nine", 37, 2, FINDER_PAGES);
    /* 3 and 4 from page 0, 2 and 4 from page 1 and piece 4. */
    print_nearest("nine", 38, 9, 1);
    print_nearest("nine", 38, 9, 3);
    /* Inside page 0, 1 from piece 2; 14 from page 1. */
    print_nearest("nine", 26, 5, FINDER_PAGES);
    /* Corners of the cloth: on one of piece 0, 40 from page 1; then 999,915
       from piece 8 and 999,965 from page 0, at last 999,995 on y too. */
    print_nearest("nine", 0, 0, FINDER_PAGES);
    print_nearest("nine", FINDER_EDGE, 0, FINDER_PAGES);
    print_nearest("nine", FINDER_EDGE, FINDER_EDGE, FINDER_PAGES);
}

/*
 * Piece 8 - c at (20c, 0, 20c + 10, 10): page 0 has pieces 8 to 5 and is
 * (0, 0, 70, 10), page 1 has pieces 4 to 0 and is (80, 0, 170, 10).
 */
static void print_ties(void)
{
    empty();
    for (uint32_t c = 0; c < 9; c++)
        place(8 - c, 20 * c, 0, 20 * c + 10, 10);
    /* 5 from both pages, and from piece 5 in page 0 and piece 4 in page 1:
       page 0 is opened, and page 1 is then no nearer than piece 5. */
    print_nearest("ties", 75, 5, 1);
    print_nearest("ties", 75, 5, FINDER_PAGES);
    /* 5 from piece 4 and from piece 3, both in page 1; 25 from page 0. */
    print_nearest("ties", 95, 5, FINDER_PAGES);
    /* 4 from piece 4 and 6 from piece 3, then the other way round. */
    print_nearest("ties", 94, 5, FINDER_PAGES);
    print_nearest("ties", 96, 5, FINDER_PAGES);
}

/* The only page is the root, which is a leaf: opened with any allowance. */
static void print_last_corner(void)
{
    empty();
    place(FINDER_PIECES - 1, FINDER_EDGE - 1, FINDER_EDGE - 1, FINDER_EDGE,
          FINDER_EDGE);
    print_nearest("last corner", FINDER_EDGE, FINDER_EDGE, 1);
    print_nearest("last corner", FINDER_EDGE - 2, FINDER_EDGE - 1, 1);
    /* 999,999 on both axes. */
    print_nearest("last corner", 0, 0, 1);
    print_nearest("last corner", 0, 0, FINDER_PAGES);
}

/* The order is 1, 6, 13, 14: each call has the later ones too, if it can. */
static void print_refusals(void)
{
    empty();
    print_from("short", FINDER_TABLE_WORDS - 1, FINDER_EDGE + 1, 0, 0);
    table[2]++;
    print_nearest("not sound", FINDER_EDGE + 1, 0, 0);
    table[2]--;
    print_nearest("empty", FINDER_EDGE + 1, 0, 1);
    print_nearest("empty", 0, FINDER_EDGE + 1, 1);
    print_nearest("empty", 0, 0, 0);
    print_nearest("empty", 0, 0, FINDER_PAGES + 1);
    print_nearest("empty", 0, 0, 1);
    place(0, 0, 0, 10, 10);
    print_nearest("one piece", FINDER_EDGE + 1, 0, 1);
    print_nearest("one piece", 0, 0, FINDER_PAGES + 1);
    print_nearest("one piece", 0, 0, 1);
}

int main(void)
{
    print_nine();
    print_ties();
    print_last_corner();
    print_refusals();
    return EXIT_SUCCESS;
}
