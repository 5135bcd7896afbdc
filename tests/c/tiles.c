/*
 * Shares: pieces about the reference (20, 10, 50, 30), and the largest cloth.
 * Prints how each piece is shared among the nine tiles.
 */
#include "finder.h"

#include <inttypes.h>
#include <stdio.h>
#include <stdlib.h>

typedef struct {
    uint32_t x1, y1, x2, y2;
} rect;

static const rect reference = {20, 10, 50, 30};
static const rect cloth = {0, 0, FINDER_EDGE, FINDER_EDGE};

static const char *const names[FINDER_TILES] = {
    [FINDER_TILE_SOUTH_WEST] = "south west",
    [FINDER_TILE_SOUTH] = "south",
    [FINDER_TILE_SOUTH_EAST] = "south east",
    [FINDER_TILE_WEST] = "west",
    [FINDER_TILE_WITHIN] = "within",
    [FINDER_TILE_EAST] = "east",
    [FINDER_TILE_NORTH_WEST] = "north west",
    [FINDER_TILE_NORTH] = "north",
    [FINDER_TILE_NORTH_EAST] = "north east",
};

static finder_shares shares_of(rect p, rect q)
{
    return finder_tile_shares(p.x1, p.y1, p.x2, p.y2, q.x1, q.y1, q.x2, q.y2);
}

static void print_nine(const char *what, const uint64_t *nine)
{
    printf("  %s", what);
    for (size_t tile = 0; tile < FINDER_TILES; tile++)
        printf(" %" PRIu64, nine[tile]);
    printf("\n");
}

static void print_shares(const char *name, rect piece, rect about)
{
    finder_shares shares = shares_of(piece, about);
    printf("%s: refusal %" PRIu32 "\n", name, shares.refusal);
    print_nine("areas", shares.areas);
    print_nine("thousandths", shares.thousandths);
    print_nine("remainders", shares.remainders);
}

/* Prints the tiles that have some of the piece, by their names. */
static void print_names(const char *name, rect piece)
{
    finder_shares shares = shares_of(piece, reference);
    printf("%s by names:", name);
    for (size_t tile = 0; tile < FINDER_TILES; tile++)
        if (shares.areas[tile] > 0)
            printf(" %s %" PRIu64 ";", names[tile], shares.areas[tile]);
    printf("\n");
}

/* 5, 30 and 7 wide from the west, 3, 20 and 11 high from the south. */
static void print_all_nine(void)
{
    const rect piece = {15, 7, 57, 41};
    print_shares("all nine", piece, reference);
    print_names("all nine", piece);
}

/* A third is north and two thirds north east; then pieces in one tile each. */
static void print_few(void)
{
    const rect thirds = {40, 30, 70, 32};
    print_shares("thirds", thirds, reference);
    print_names("thirds", thirds);
    print_shares("inside", (rect){25, 15, 35, 25}, reference);
    print_shares("equal", reference, reference);
    print_shares("meets at the west", (rect){13, 10, 20, 30}, reference);
    print_shares("meets at a corner", (rect){50, 3, 60, 10}, reference);
}

static void print_cloth(void)
{
    const rect middle = {400000, 300000, 600000, 900000};
    const rect small = {1, 1, 2, 2};
    const rect last = {FINDER_EDGE - 1, FINDER_EDGE - 1, FINDER_EDGE,
                       FINDER_EDGE};
    print_shares("cloth about its middle", cloth, middle);
    print_shares("cloth about a small reference", cloth, small);
    print_shares("cloth about its last unit", cloth, last);
    print_shares("last unit about the cloth", last, cloth);
}

/* The piece is not valid, then the reference, then both. */
static void print_refusals(void)
{
    const rect narrow = {20, 10, 20, 30};
    const rect flat = {20, 30, 50, 30};
    const rect turned = {50, 10, 20, 30};
    const rect wide = {20, 10, FINDER_EDGE + 1, 30};
    const rect high = {20, 10, 50, UINT32_MAX};
    print_shares("narrow piece", narrow, reference);
    print_shares("turned piece", turned, reference);
    print_shares("wide piece", wide, reference);
    print_shares("flat reference", reference, flat);
    print_shares("turned reference", reference, turned);
    print_shares("high reference", reference, high);
    print_shares("flat piece, wide reference", flat, wide);
}

int main(void)
{
    print_all_nine();
    print_few();
    print_cloth();
    print_refusals();
    return EXIT_SUCCESS;
}
