/*
 * Outlines: a right triangle both ways round, a pentagram, the largest square
 * and one of 64 points. Prints their areas and where points lie by them.
 */
#include "finder.h"

#include <inttypes.h>
#include <stdio.h>
#include <stdlib.h>

/* The number of words of an array. */
#define WORDS(array) (sizeof(array) / sizeof((array)[0]))

static const uint32_t triangle[] = {0, 0, 40, 0, 0, 30};
static const uint32_t clockwise[] = {0, 0, 0, 30, 40, 0};
static const uint32_t pentagram[] = {50, 100, 79, 10, 3, 65, 97, 65, 21, 10};
static const uint32_t largest[] = {0, 0, FINDER_EDGE, 0, FINDER_EDGE,
                                   FINDER_EDGE, 0, FINDER_EDGE};
static uint32_t saw[2 * FINDER_POINTS + 2];

/* Points (0, 0) and (62, 0), then 62 back to the west, by turns 10 and 4 up. */
static void draw_saw(void)
{
    saw[2] = 62;
    for (uint32_t x = 62; x > 0; x--) {
        size_t word = 2 * (size_t)(64 - x);
        saw[word] = x;
        saw[word + 1] = x % 2 == 0 ? 10 : 4;
    }
}

static void print_area(const char *name, const uint32_t *outline, size_t len)
{
    finder_area area = finder_outline_area(outline, len);
    printf("%s: refusal %" PRIu32 ", twice the area %" PRId64 "\n", name,
           area.refusal, area.twice_area);
}

static void print_point(const char *name, const uint32_t *outline, size_t len,
                        uint32_t x, uint32_t y)
{
    static const char *const places[] = {"no place", "on", "inside", "outside"};
    finder_point point = finder_outline_point(outline, len, x, y);
    if (point.place > FINDER_PLACE_OUTSIDE) {
        printf("%s: no such place: %" PRIu32 "\n", name, point.place);
        exit(EXIT_FAILURE);
    }
    printf("%s (%" PRIu32 ", %" PRIu32 "): refusal %" PRIu32 ", %s\n", name, x,
           y, point.refusal, places[point.place]);
}

static void print_areas(void)
{
    print_area("triangle", triangle, WORDS(triangle));
    print_area("clockwise", clockwise, WORDS(clockwise));
    print_area("pentagram", pentagram, WORDS(pentagram));
    print_area("largest", largest, WORDS(largest));
    print_area("saw", saw, 2 * FINDER_POINTS);
}

static void print_points(void)
{
    print_point("triangle", triangle, WORDS(triangle), 20, 15);
    print_point("triangle", triangle, WORDS(triangle), 20, 14);
    print_point("triangle", triangle, WORDS(triangle), 20, 16);
    print_point("clockwise", clockwise, WORDS(clockwise), 20, 14);
    print_point("pentagram", pentagram, WORDS(pentagram), 50, 80);
    print_point("pentagram", pentagram, WORDS(pentagram), 50, 65);
    print_point("pentagram", pentagram, WORDS(pentagram), 50, 50);
    print_point("largest", largest, WORDS(largest), FINDER_EDGE, 7);
    print_point("saw", saw, 2 * FINDER_POINTS, 30, 9);
    print_point("saw", saw, 2 * FINDER_POINTS, 31, 9);
}

/* Each refusal of each call; the number of points is tested first. */
static void print_refusals(void)
{
    const uint32_t wide[] = {0, 0, FINDER_EDGE + 1, 0, 0, 30};
    print_area("no words", triangle, 0);
    print_area("odd words", triangle, 5);
    print_area("two points", triangle, 4);
    print_area("65 points", saw, 2 * FINDER_POINTS + 2);
    print_area("wide", wide, WORDS(wide));
    print_area("wide, odd words", wide, 5);
    print_point("no words", triangle, 0, 0, 0);
    print_point("wide", wide, WORDS(wide), 0, 0);
    print_point("triangle", triangle, WORDS(triangle), FINDER_EDGE + 1, 0);
    print_point("triangle", triangle, WORDS(triangle), 0, FINDER_EDGE + 1);
    print_point("odd words", triangle, 5, FINDER_EDGE + 1, 0);
}

int main(void)
{
    draw_saw();
    print_areas();
    print_points();
    print_refusals();
    return EXIT_SUCCESS;
}
