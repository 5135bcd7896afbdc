/*
 * Outlines beside GEOS, a library of others that answers the same questions:
 * the signed area of a ring, and where a point lies by the crossings of a ray.
 * Outlines of eight kinds, on grids of 2 by 2 points up to the whole cloth.
 */
#include "finder.h"

#include <geos/algorithm/Area.h>
#include <geos/algorithm/RayCrossingCounter.h>
#include <geos/geom/CoordinateArraySequence.h>

#include <cmath>
#include <cstdio>
#include <cstdlib>
#include <numeric>
#include <random>
#include <vector>

using geos::geom::Coordinate;
using geos::geom::CoordinateArraySequence;
using geos::geom::Location;

namespace {

struct Point {
    uint32_t x, y;
};

using Outline = std::vector<Point>;

enum Kind { ANYWHERE, EXTREME, REPEATED, LEVEL, UPRIGHT, SLANTING, STAR, STAIRS, KINDS };

const uint32_t SIZES[] = {1, 2, 3, 5, 10, 100, 1000, FINDER_EDGE - 1, FINDER_EDGE};
const int ROUNDS = 400;
const int ASKED = 12;
const double TURN = 6.283185307179586;

std::mt19937_64 chance(20261117);
long areas, places[FINDER_PLACE_OUTSIDE + 1];

uint32_t up_to(uint32_t most)
{
    return (uint32_t)(chance() % ((uint64_t)most + 1));
}

Point anywhere(uint32_t size)
{
    uint32_t x = up_to(size);
    return {x, up_to(size)};
}

Point on_star(size_t i, size_t count, uint32_t size)
{
    double angle = TURN * (double)i / (double)count;
    double far = (0.1 + 0.0004 * up_to(1000)) * size;
    return {(uint32_t)(0.5 * size + far * cos(angle)), (uint32_t)(0.5 * size + far * sin(angle))};
}

Outline outline_of(Kind kind, size_t count, uint32_t size)
{
    const Point few[] = {anywhere(size), anywhere(size), anywhere(size)};
    Outline outline;
    for (size_t i = 0; i < count; i++) {
        Point p = anywhere(size);
        Point last = i > 0 ? outline.back() : p;
        switch (kind) {
        case EXTREME: p = {up_to(1) * size, up_to(1) * size}; break;
        case REPEATED: p = few[up_to(2)]; break;
        case LEVEL: p.y = few[0].y; break;
        case UPRIGHT: p.x = few[0].x; break;
        case SLANTING: p.y = p.x; break;
        case STAR: p = on_star(i, count, size); break;
        case STAIRS: (i % 2 == 0 ? p.x : p.y) = i % 2 == 0 ? last.x : last.y; break;
        default: break;
        }
        outline.push_back(p);
    }
    return outline;
}

/* A point of whole units on the edge, an end of it where there is no other. */
Point on_edge(Point from, Point to)
{
    int64_t across = (int64_t)to.x - from.x, up = (int64_t)to.y - from.y;
    int64_t parts = std::gcd(across, up);
    if (parts == 0)
        return from;
    int64_t part = up_to((uint32_t)parts);
    return {(uint32_t)(from.x + across / parts * part), (uint32_t)(from.y + up / parts * part)};
}

void add_beside(std::vector<Point> &points, Point p)
{
    points.push_back(p);
    points.push_back({p.x < FINDER_EDGE ? p.x + 1 : p.x, p.y});
    points.push_back({p.x > 0 ? p.x - 1 : p.x, p.y});
    points.push_back({p.x, p.y < FINDER_EDGE ? p.y + 1 : p.y});
    points.push_back({p.x, p.y > 0 ? p.y - 1 : p.y});
}

/* At corners and on edges and beside them, level with corners, anywhere. */
std::vector<Point> points_by(const Outline &outline, uint32_t size)
{
    std::vector<Point> points;
    for (int i = 0; i < ASKED; i++) {
        size_t corner = chance() % outline.size();
        size_t other = chance() % outline.size();
        Point from = outline[corner], to = outline[(corner + 1) % outline.size()];
        add_beside(points, from);
        add_beside(points, on_edge(from, to));
        points.push_back({outline[other].x, from.y});
        points.push_back({up_to(size), from.y});
        points.push_back(anywhere(size));
    }
    return points;
}

[[noreturn]] void differs(const std::vector<uint32_t> &words, const char *what, double finder, double geos)
{
    fprintf(stderr, "tests/outside: %s is %.0f, of GEOS %.0f; the outline's words are", what, finder, geos);
    for (uint32_t word : words)
        fprintf(stderr, " %u", word);
    fprintf(stderr, "\n");
    exit(EXIT_FAILURE);
}

uint32_t place_of(Location location)
{
    switch (location) {
    case Location::BOUNDARY: return FINDER_PLACE_ON;
    case Location::INTERIOR: return FINDER_PLACE_INSIDE;
    default: return FINDER_PLACE_OUTSIDE;
    }
}

/* GEOS wants the first point again at the end, and has clockwise areas positive. */
void compare(const Outline &outline, const std::vector<Point> &points)
{
    std::vector<uint32_t> words;
    std::vector<Coordinate> corners;
    for (Point p : outline) {
        words.insert(words.end(), {p.x, p.y});
        corners.emplace_back(p.x, p.y);
    }
    corners.push_back(corners.front());
    const CoordinateArraySequence ring(std::move(corners), 2);
    finder_area area = finder_outline_area(words.data(), words.size());
    double twice = -2 * geos::algorithm::Area::ofRingSigned(&ring);
    if (area.refusal != FINDER_ACCEPTED || (double)area.twice_area != twice)
        differs(words, "twice the area", (double)area.twice_area, twice);
    areas++;
    for (Point p : points) {
        finder_point point = finder_outline_point(words.data(), words.size(), p.x, p.y);
        uint32_t place = place_of(geos::algorithm::RayCrossingCounter::locatePointInRing(Coordinate(p.x, p.y), ring));
        if (point.refusal != FINDER_ACCEPTED || point.place != place) {
            char what[64];
            snprintf(what, sizeof what, "the place of (%u, %u)", p.x, p.y);
            differs(words, what, point.place, place);
        }
        places[place]++;
    }
}

} // namespace

int main()
{
    for (int round = 0; round < ROUNDS; round++) {
        for (int kind = 0; kind < KINDS; kind++) {
            for (uint32_t size : SIZES) {
                uint32_t most = round % 3 == 0 ? FINDER_POINTS : 10;
                size_t count = FINDER_POINTS_FEWEST + up_to(most - FINDER_POINTS_FEWEST);
                Outline outline = outline_of((Kind)kind, count, size);
                compare(outline, points_by(outline, size));
            }
        }
    }
    printf("outlines: as GEOS has them, %ld areas and points: %ld on, %ld inside, %ld outside\n", areas,
           places[FINDER_PLACE_ON], places[FINDER_PLACE_INSIDE], places[FINDER_PLACE_OUTSIDE]);
    return EXIT_SUCCESS;
}
