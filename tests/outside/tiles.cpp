/*
 * Shares beside GEOS, a library of others: the area in a tile is that of its
 * overlay of two polygons, the piece and the tile on the largest cloth. All
 * pairs of rectangles on a few lines, and pairs by chance on grids of 1 by 1
 * unit up to the whole cloth.
 */
#include "finder.h"

/* Without it GEOS warns that its C++ interface may change. */
#define USE_UNSTABLE_GEOS_CPP_API
#include <geos/geom/Envelope.h>
#include <geos/geom/Geometry.h>
#include <geos/geom/GeometryFactory.h>
#include <geos/operation/overlayng/OverlayNG.h>

#include <algorithm>
#include <cinttypes>
#include <cstdio>
#include <cstdlib>
#include <memory>
#include <random>
#include <vector>

using geos::geom::Envelope;
using geos::geom::Geometry;
using geos::geom::GeometryFactory;
using geos::operation::overlayng::OverlayNG;

namespace {

struct Rect {
    uint32_t x1, y1, x2, y2;
};

struct Span {
    uint32_t low, high;
};

const std::vector<uint32_t> SMALL_LINES = {0, 1, 2, 3, 4};
const std::vector<uint32_t> LARGE_LINES = {0, 1, 333333, FINDER_EDGE - 1, FINDER_EDGE};
const uint32_t SIZES[] = {1, 2, 3, 5, 10, 100, 1000, FINDER_EDGE - 1, FINDER_EDGE};
const int ROUNDS = 2000;

std::mt19937_64 chance(20261117);
long pairs, filled, empty;

uint32_t up_to(uint32_t most)
{
    return (uint32_t)(chance() % ((uint64_t)most + 1));
}

Span between(uint32_t one, uint32_t other)
{
    if (one != other)
        return {std::min(one, other), std::max(one, other)};
    return one < FINDER_EDGE ? Span{one, one + 1} : Span{one - 1, one};
}

Rect anywhere(uint32_t size)
{
    Span x = between(up_to(size), up_to(size)), y = between(up_to(size), up_to(size));
    return {x.low, y.low, x.high, y.high};
}

/* One of the two lines, or a unit beside it. */
uint32_t by(uint32_t low, uint32_t high)
{
    uint32_t line = up_to(1) == 0 ? low : high, beside = line + up_to(2);
    return std::min(beside > 0 ? beside - 1 : 0, (uint32_t)FINDER_EDGE);
}

/* A rectangle whose edges lie on those of another or a unit beside them. */
Rect close_to(Rect q)
{
    Span x = between(by(q.x1, q.x2), by(q.x1, q.x2)), y = between(by(q.y1, q.y2), by(q.y1, q.y2));
    return {x.low, y.low, x.high, y.high};
}

/* A rectangle that covers another. */
Rect around(Rect q)
{
    uint32_t x1 = up_to(q.x1), y1 = up_to(q.y1);
    uint32_t x2 = q.x2 + up_to(FINDER_EDGE - q.x2), y2 = q.y2 + up_to(FINDER_EDGE - q.y2);
    return {x1, y1, x2, y2};
}

std::vector<Rect> on_lines(const std::vector<uint32_t> &lines)
{
    std::vector<Span> spans;
    for (uint32_t low : lines)
        for (uint32_t high : lines)
            if (low < high)
                spans.push_back({low, high});
    std::vector<Rect> rects;
    for (Span y : spans)
        for (Span x : spans)
            rects.push_back({x.low, y.low, x.high, y.high});
    return rects;
}

void same(Rect p, Rect q, int tile, const char *what, uint64_t finder, uint64_t geos)
{
    if (finder == geos)
        return;
    fprintf(stderr, "tests/outside: %s in tile %d is %" PRIu64 ", of GEOS %" PRIu64, what, tile, finder, geos);
    fprintf(stderr, "; the piece is %u %u %u %u", p.x1, p.y1, p.x2, p.y2);
    fprintf(stderr, " and the reference %u %u %u %u\n", q.x1, q.y1, q.x2, q.y2);
    exit(EXIT_FAILURE);
}

std::unique_ptr<Geometry> polygon(Rect r)
{
    const Envelope bounds(r.x1, r.x2, r.y1, r.y2);
    return GeometryFactory::getDefaultInstance()->toGeometry(&bounds);
}

/* Whole numbers up to 10^12 are exact in GEOS's doubles. */
uint64_t area_of(const Geometry &shape)
{
    double area = shape.getArea();
    if (area != (double)(uint64_t)area) {
        fprintf(stderr, "tests/outside: an area of GEOS is %.17g and not whole\n", area);
        exit(EXIT_FAILURE);
    }
    return (uint64_t)area;
}

/* A tile beyond the edge of the cloth is no polygon and has nothing of a piece. */
uint64_t area_in(const Geometry &piece, Rect tile)
{
    if (tile.x1 == tile.x2 || tile.y1 == tile.y2)
        return 0;
    return area_of(*OverlayNG::overlay(&piece, polygon(tile).get(), OverlayNG::INTERSECTION));
}

void compare(Rect p, Rect q)
{
    const finder_shares shares = finder_tile_shares(p.x1, p.y1, p.x2, p.y2, q.x1, q.y1, q.x2, q.y2);
    const uint32_t across[] = {0, q.x1, q.x2, FINDER_EDGE}, up[] = {0, q.y1, q.y2, FINDER_EDGE};
    const std::unique_ptr<Geometry> piece = polygon(p);
    const uint64_t whole = area_of(*piece);
    for (int tile = 0; tile < FINDER_TILES; tile++) {
        int row = tile / 3, column = tile % 3;
        uint64_t area = area_in(*piece, {across[column], up[row], across[column + 1], up[row + 1]});
        same(p, q, tile, "the refusal", shares.refusal, FINDER_ACCEPTED);
        same(p, q, tile, "the area", shares.areas[tile], area);
        same(p, q, tile, "the number of thousandths", shares.thousandths[tile], 1000 * area / whole);
        same(p, q, tile, "the remainder", shares.remainders[tile], 1000 * area % whole);
        (area > 0 ? filled : empty)++;
    }
    pairs++;
}

void compare_all(const std::vector<Rect> &rects)
{
    for (Rect p : rects)
        for (Rect q : rects)
            compare(p, q);
}

} // namespace

int main()
{
    compare_all(on_lines(SMALL_LINES));
    compare_all(on_lines(LARGE_LINES));
    for (int round = 0; round < ROUNDS; round++) {
        for (uint32_t size : SIZES) {
            Rect q = anywhere(size);
            compare(anywhere(size), q);
            compare(close_to(q), q);
            compare(around(q), q);
        }
    }
    printf("tiles: as GEOS has them, %ld pairs of rectangles, %ld tiles with some of the piece and %ld with none\n", pairs,
           filled, empty);
    return EXIT_SUCCESS;
}
