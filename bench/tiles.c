/*
 * The shares of a piece, timed: 4,096 pieces and references anywhere on the
 * cloth, both small, both of any size, and small references in large pieces.
 * Beside it the same as plain C, which tests no rectangle. Every answer is
 * compared first.
 */
#include "finder.h"
#include "timing.h"

#include <stdlib.h>
#include <string.h>

#define SMALL 10000

typedef struct {
    uint32_t x1, y1, x2, y2;
} rect;

static rect pieces[ASKED], references[ASKED];

/* A rectangle whose sides are at most so long. */
static rect anywhere(uint32_t most)
{
    uint32_t width = 1 + random_up_to(most - 1), height = 1 + random_up_to(most - 1);
    uint32_t x = random_up_to(FINDER_EDGE - width), y = random_up_to(FINDER_EDGE - height);
    return (rect){x, y, x + width, y + height};
}

static uint64_t common(uint32_t p1, uint32_t p2, uint32_t t1, uint32_t t2)
{
    uint32_t low = p1 > t1 ? p1 : t1, high = p2 < t2 ? p2 : t2;
    return low < high ? high - low : 0;
}

/* Not made part of the loop, where the compiler would leave out what is not added up. */
__attribute__((noinline)) static finder_shares plain_shares(rect p, rect q)
{
    const uint32_t across[] = {0, q.x1, q.x2, FINDER_EDGE}, up[] = {0, q.y1, q.y2, FINDER_EDGE};
    uint64_t whole = (uint64_t)(p.x2 - p.x1) * (p.y2 - p.y1);
    finder_shares shares;
    memset(&shares, 0, sizeof shares);
    for (int tile = 0; tile < FINDER_TILES; tile++) {
        int row = tile / 3, column = tile % 3;
        uint64_t area = common(p.y1, p.y2, up[row], up[row + 1])
                        * common(p.x1, p.x2, across[column], across[column + 1]);
        shares.areas[tile] = area;
        shares.thousandths[tile] = 1000 * area / whole;
        shares.remainders[tile] = 1000 * area % whole;
    }
    return shares;
}

static finder_shares proved_shares(rect p, rect q)
{
    return finder_tile_shares(p.x1, p.y1, p.x2, p.y2, q.x1, q.y1, q.x2, q.y2);
}

static uint64_t sum_of(const finder_shares *shares)
{
    return shares->areas[FINDER_TILE_WITHIN] + shares->thousandths[FINDER_TILE_NORTH]
           + shares->remainders[FINDER_TILE_NORTH_EAST];
}

static void ask_finder(void)
{
    for (size_t i = 0; i < ASKED; i++) {
        finder_shares shares = proved_shares(pieces[i], references[i]);
        sink += sum_of(&shares);
    }
}

static void ask_plain(void)
{
    for (size_t i = 0; i < ASKED; i++) {
        finder_shares shares = plain_shares(pieces[i], references[i]);
        sink += sum_of(&shares);
    }
}

static const side sides[] = {ask_finder, ask_plain};

static int same(const uint64_t *one, const uint64_t *other)
{
    return memcmp(one, other, FINDER_TILES * sizeof *one) == 0;
}

static void compare(void)
{
    for (size_t i = 0; i < ASKED; i++) {
        finder_shares one = proved_shares(pieces[i], references[i]);
        finder_shares other = plain_shares(pieces[i], references[i]);
        if (one.refusal != 0 || !same(one.areas, other.areas) || !same(one.thousandths, other.thousandths)
            || !same(one.remainders, other.remainders)) {
            fprintf(stderr, "bench/tiles: different shares of pair %zu\n", i);
            exit(EXIT_FAILURE);
        }
    }
}

static void print_row(const char *name, uint32_t piece, uint32_t reference)
{
    for (size_t i = 0; i < ASKED; i++) {
        pieces[i] = anywhere(piece);
        references[i] = anywhere(reference);
    }
    compare();
    printf("| %s |", name);
    print_times(sides, sizeof(sides) / sizeof(sides[0]));
}

int main(void)
{
    printf("| pieces | shares | plain C |\n|---|---|---|\n");
    print_row("both small", SMALL, SMALL);
    print_row("both of any size", FINDER_EDGE, FINDER_EDGE);
    print_row("small references in large pieces", FINDER_EDGE, SMALL);
    return EXIT_SUCCESS;
}
