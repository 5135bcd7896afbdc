/*
 * Quarter turns, timed: 4,096 valid rectangles anywhere on the cloth, and as
 * many clauses of any relations. Beside them the same as plain C, which tests
 * no rectangle. Every answer is compared first.
 */
#include "finder.h"
#include "timing.h"

#include <stdlib.h>
#include <string.h>

static finder_rect rects[ASKED];
static uint64_t clauses[ASKED];

#define TOPOLOGICAL UINT64_C(0xff)
#define NORTH_TO_SOUTH UINT64_C(0xffffff00)
#define WEST (TOPOLOGICAL << 32)

static finder_rect plain_rect(finder_rect r)
{
    return (finder_rect){r.y1, FINDER_EDGE - r.x2, r.y2, FINDER_EDGE - r.x1};
}

static uint64_t plain_clause(uint64_t clause)
{
    return (clause & TOPOLOGICAL) | (clause & NORTH_TO_SOUTH) << 8 | (clause & WEST) >> 24;
}

static finder_rect proved_rect(finder_rect r)
{
    return finder_turned_rect(r.x1, r.y1, r.x2, r.y2);
}

static void turn_rects(void)
{
    for (size_t i = 0; i < ASKED; i++) {
        finder_rect r = proved_rect(rects[i]);
        sink += r.x1 ^ r.y1 ^ r.x2 ^ r.y2;
    }
}

static void turn_rects_plainly(void)
{
    for (size_t i = 0; i < ASKED; i++) {
        finder_rect r = plain_rect(rects[i]);
        sink += r.x1 ^ r.y1 ^ r.x2 ^ r.y2;
    }
}

static void turn_clauses(void)
{
    for (size_t i = 0; i < ASKED; i++)
        sink += finder_turned_clause(clauses[i]);
}

static void turn_clauses_plainly(void)
{
    for (size_t i = 0; i < ASKED; i++)
        sink += plain_clause(clauses[i]);
}

/* Two numbers in rising order, not equal. */
static void edges(uint32_t *low, uint32_t *high)
{
    uint32_t one = random_up_to(FINDER_EDGE), other = random_up_to(FINDER_EDGE - 1);
    other += other >= one;
    *low = one < other ? one : other;
    *high = one < other ? other : one;
}

static void make(void)
{
    for (size_t i = 0; i < ASKED; i++) {
        edges(&rects[i].x1, &rects[i].x2);
        edges(&rects[i].y1, &rects[i].y2);
        clauses[i] = (uint64_t)random_up_to(255) << 32 | random_up_to(UINT32_MAX);
    }
}

static void compare(void)
{
    for (size_t i = 0; i < ASKED; i++) {
        finder_rect one = proved_rect(rects[i]), other = plain_rect(rects[i]);
        if (memcmp(&one, &other, sizeof one) != 0 || finder_turned_clause(clauses[i]) != plain_clause(clauses[i])) {
            fprintf(stderr, "bench/turning: rectangle or clause %zu is turned otherwise\n", i);
            exit(EXIT_FAILURE);
        }
    }
}

static void print_row(const char *name, side finder, side plain)
{
    const side sides[] = {finder, plain};
    printf("| %s |", name);
    print_times(sides, sizeof(sides) / sizeof(sides[0]));
}

int main(void)
{
    make();
    compare();
    printf("| turned | finder | plain C |\n|---|---|---|\n");
    print_row("rectangle", turn_rects, turn_rects_plainly);
    print_row("clause", turn_clauses, turn_clauses_plainly);
    return EXIT_SUCCESS;
}
