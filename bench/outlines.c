/*
 * The calls on outlines, timed: a star of 4, 16 and 64 points, and 4,096 points
 * anywhere on the cloth. Beside them the point test as a plain loop, which
 * tests no word for its range. Every answer is compared first.
 */
#include "finder.h"
#include "timing.h"

#include <stdlib.h>

#define MIDDLE (FINDER_EDGE / 2)

static const double TURN = 6.283185307179586;
static uint32_t star[2 * FINDER_POINTS];
static size_t len; /* words of the star */
static uint32_t asked[2 * ASKED];

/* Points by turns far from the middle and near it. */
static void draw_star(size_t points)
{
    len = 2 * points;
    for (size_t i = 0; i < points; i++) {
        double angle = TURN * (double)i / (double)points;
        double far = i % 2 == 0 ? 480000 : 300000;
        star[2 * i] = (uint32_t)(MIDDLE + far * cos(angle));
        star[2 * i + 1] = (uint32_t)(MIDDLE + far * sin(angle));
    }
}

static uint32_t plain_point(int64_t x, int64_t y)
{
    uint32_t odd = 0;
    size_t last = len - 2;
    for (size_t i = 0; i < len; last = i, i += 2) {
        int64_t a = star[last], b = star[last + 1];
        int64_t c = star[i], d = star[i + 1];
        int64_t side = (c - a) * (y - b) - (d - b) * (x - a);
        int in_box = (a < c ? a <= x && x <= c : c <= x && x <= a)
                     && (b < d ? b <= y && y <= d : d <= y && y <= b);
        if (side == 0 && in_box)
            return FINDER_PLACE_ON;
        if ((b <= y) != (d <= y) && (b < d) == (side > 0))
            odd ^= 1;
    }
    return odd ? FINDER_PLACE_INSIDE : FINDER_PLACE_OUTSIDE;
}

static void ask_finder(void)
{
    for (size_t i = 0; i < ASKED; i++)
        sink += finder_outline_point(star, len, asked[2 * i], asked[2 * i + 1]).place;
}

static void ask_plain(void)
{
    for (size_t i = 0; i < ASKED; i++)
        sink += plain_point(asked[2 * i], asked[2 * i + 1]);
}

static void ask_area(void)
{
    for (size_t i = 0; i < ASKED; i++)
        sink += (uint64_t)finder_outline_area(star, len).twice_area;
}

static const side sides[] = {ask_finder, ask_plain, ask_area};

static void compare(void)
{
    for (size_t i = 0; i < ASKED; i++) {
        uint32_t x = asked[2 * i], y = asked[2 * i + 1];
        finder_point point = finder_outline_point(star, len, x, y);
        if (point.refusal != 0 || point.place != plain_point(x, y)) {
            fprintf(stderr, "bench/outlines: different answers at (%u, %u)\n", x, y);
            exit(EXIT_FAILURE);
        }
    }
}

int main(void)
{
    for (size_t i = 0; i < 2 * ASKED; i++)
        asked[i] = random_up_to(FINDER_EDGE);
    printf("| points | point | plain loop | area |\n|---|---|---|---|\n");
    for (size_t points = 4; points <= FINDER_POINTS; points *= 4) {
        draw_star(points);
        compare();
        printf("| %zu |", points);
        print_times(sides, sizeof(sides) / sizeof(sides[0]));
    }
    return EXIT_SUCCESS;
}
