// Times of the finder's calls beside a linear scan, the Rust model, Boost.Geometry's R-tree and libspatialindex, in one run.
// Each figure is the best of up to ROUNDS rounds in each of LAPS turns; the finder's answers are compared with the scan's, and every side sorts by number.
#include <algorithm>
#include <chrono>
#include <cmath>
#include <cstdint>
#include <cstdio>
#include <cstdlib>
#include <functional>
#include <memory>
#include <vector>

#include <boost/geometry.hpp>
#include <boost/geometry/geometries/box.hpp>
#include <boost/geometry/geometries/point.hpp>
#include <boost/geometry/index/rtree.hpp>
#include <spatialindex/SpatialIndex.h>

#include "finder.h"

extern "C" {
// The inner calls on a table that is tested once: crate finder_bench.
uint64_t bench_queries(const uint32_t *table, size_t table_len, const uint32_t *references, size_t reference_words, const uint64_t *clauses,
                       size_t clause_count, uint16_t *answer, size_t answer_len);
uint64_t bench_nearest(const uint32_t *table, size_t table_len, const uint32_t *points, size_t point_words, uint32_t allowance);
uint32_t bench_replay(uint32_t *table, size_t table_len, const uint32_t *calls, size_t call_words, uint32_t *refusals, size_t refusal_len);
// The Rust model's walk: crate bench_model.
uint32_t model_query(const uint32_t *table, size_t table_len, uint32_t x1, uint32_t y1, uint32_t x2, uint32_t y2, const uint64_t *clauses,
                     size_t clause_count, uint16_t *answer, size_t answer_len, uint32_t *hits);
}

namespace bg = boost::geometry;
namespace bgi = boost::geometry::index;
using Point = bg::model::point<uint32_t, 2, bg::cs::cartesian>;
using Box = bg::model::box<Point>;
using Value = std::pair<Box, uint32_t>;
using Tree = bgi::rtree<Value, bgi::quadratic<8>>;

struct Rect {
    uint32_t x1, y1, x2, y2;
};
using Rects = std::vector<Rect>;

static const int ROUNDS = 15;
static const int LAPS = 6;
// No further round of a side begins in a turn after this time.
static const double ENOUGH = 40e6;
static const uint32_t EDGE = FINDER_EDGE;
static const uint32_t PIECES = FINDER_PIECES;
// So many queries that the processor cannot learn how their branches go, and that the one test of the table does not count.
static const int QUERIES = 16384;
// The slow sides are asked for the first few alone. In a second table these stand again and again, so that the branches are learnt.
static const int FEW = 64;

static volatile uint64_t sink;
static std::vector<uint32_t> table(FINDER_TABLE_WORDS);

static void fail(const char *what) {
    fprintf(stderr, "answers differ: %s\n", what);
    exit(1);
}

static double best_of(const std::function<void()> &run, int each) {
    double best = 1e99, spent = 0;
    for (int i = 0; i < ROUNDS && spent < ENOUGH; i++) {
        auto start = std::chrono::steady_clock::now();
        run();
        auto end = std::chrono::steady_clock::now();
        double took = std::chrono::duration<double, std::nano>(end - start).count();
        best = std::min(best, took / each);
        spent += took;
    }
    return best;
}

struct Timed {
    std::function<void()> run;
    int each;
};

// The best of each side over LAPS turns, all sides in every turn, so that a slow while of the machine meets all of them.
static std::vector<double> side_by_side(const std::vector<Timed> &sides) {
    std::vector<double> best(sides.size(), 1e99);
    for (int lap = 0; lap < LAPS; lap++)
        for (size_t i = 0; i < sides.size(); i++) best[i] = std::min(best[i], best_of(sides[i].run, sides[i].each));
    return best;
}

// ---- data ----

static uint32_t random_state = 1;

static uint32_t random_below(uint32_t n) {
    random_state = random_state * 1664525u + 1013904223u;
    return (uint32_t)(((uint64_t)random_state * n) >> 32);
}

static Rects grid() {
    Rects r;
    for (uint32_t i = 0; i < PIECES; i++) {
        uint32_t x = i % 32 * 30000, y = i / 32 * 30000;
        r.push_back({x, y, x + 25000, y + 25000});
    }
    return r;
}

// Rows of pieces of differing widths, as a marker has them.
static Rects lay() {
    Rects r;
    uint32_t y = 0;
    while (r.size() < PIECES) {
        uint32_t x = 0, height = 20000 + random_below(20000);
        while (x < 960000 && r.size() < PIECES) {
            uint32_t w = 10000 + random_below(30000), h = height - random_below(8000);
            r.push_back({x, y, x + w, y + h});
            x += w + 200 + random_below(800);
        }
        y += height + 300;
    }
    return r;
}

static Rects strips() {
    Rects r;
    for (uint32_t i = 0; i < PIECES; i++) {
        uint32_t y = i * 970, x = random_below(300000);
        r.push_back({x, y, x + 500000 + random_below(150000), y + 600});
    }
    return r;
}

// Each rectangle has at most this share of the whole area.
static Rects random_rects(double share) {
    uint32_t side = (uint32_t)(EDGE * std::sqrt(share));
    Rects r;
    for (uint32_t i = 0; i < PIECES; i++) {
        uint32_t w = 1 + random_below(side), h = 1 + random_below(side), x = random_below(EDGE - w), y = random_below(EDGE - h);
        r.push_back({x, y, x + w, y + h});
    }
    return r;
}

static std::vector<uint32_t> calls_of(const Rects &rects) {
    std::vector<uint32_t> calls;
    for (uint32_t i = 0; i < rects.size(); i++)
        for (uint32_t word : {i, rects[i].x1, rects[i].y1, rects[i].x2, rects[i].y2}) calls.push_back(word);
    return calls;
}

static void build(const Rects &rects) {
    auto calls = calls_of(rects);
    std::vector<uint32_t> refusals(rects.size());
    if (bench_replay(table.data(), table.size(), calls.data(), calls.size(), refusals.data(), refusals.size()) != 0) fail("replay");
    for (auto r : refusals)
        if (r != 0) fail("a place call was refused");
}

// A piece's own rectangle, or one around it; the pieces are drawn at random.
static Rects references_of(const Rects &rects) {
    Rects refs;
    const uint32_t margin = 30000;
    for (int i = 0; i < QUERIES; i++) {
        Rect q = rects[random_below(PIECES)];
        if (i % 2)
            q = {q.x1 > margin ? q.x1 - margin : 0, q.y1 > margin ? q.y1 - margin : 0, std::min(q.x2 + margin, EDGE), std::min(q.y2 + margin, EDGE)};
        refs.push_back(q);
    }
    return refs;
}

// ---- the linear scan ----

static int code(uint32_t p1, uint32_t p2, uint32_t q1, uint32_t q2) {
    if (p1 > q2) return 1;
    if (p1 == q2) return 2;
    int start = p1 > q1 ? 0 : p1 == q1 ? 1 : 2;
    if (p2 > q2) return 3 + start;
    if (p2 == q2) return 6 + start;
    if (p2 > q1) return 9 + start;
    return p2 == q1 ? 12 : 13;
}

static bool admitted(const finder_admitted &set, const Rect &p, const Rect &q) {
    return set.rows[code(p.y1, p.y2, q.y1, q.y2) - 1] >> (code(p.x1, p.x2, q.x1, q.x2) - 1) & 1;
}

static void scan(const Rects &rects, const finder_admitted &set, const Rect &q, std::vector<uint32_t> &found) {
    found.clear();
    for (uint32_t i = 0; i < rects.size(); i++)
        if (admitted(set, rects[i], q)) found.push_back(i);
}

// ---- the libraries ----

static Box box(const Rect &r) { return Box(Point(r.x1, r.y1), Point(r.x2, r.y2)); }

static Rect rect(const Box &b) {
    return {bg::get<bg::min_corner, 0>(b), bg::get<bg::min_corner, 1>(b), bg::get<bg::max_corner, 0>(b), bg::get<bg::max_corner, 1>(b)};
}

static Tree boost_tree(const Rects &rects) {
    Tree t;
    for (uint32_t i = 0; i < rects.size(); i++) t.insert({box(rects[i]), i});
    return t;
}

static SpatialIndex::Region region(const Rect &r) {
    double low[2] = {(double)r.x1, (double)r.y1}, high[2] = {(double)r.x2, (double)r.y2};
    return SpatialIndex::Region(low, high, 2);
}

struct Library {
    std::unique_ptr<SpatialIndex::IStorageManager> store;
    std::unique_ptr<SpatialIndex::ISpatialIndex> tree;
    explicit Library(const Rects &rects) : store(SpatialIndex::StorageManager::createNewMemoryStorageManager()) {
        SpatialIndex::id_type id;
        tree.reset(SpatialIndex::RTree::createNewRTree(*store, 0.5, 8, 8, 2, SpatialIndex::RTree::RV_QUADRATIC, id));
        for (uint32_t i = 0; i < rects.size(); i++) tree->insertData(0, nullptr, region(rects[i]), i);
    }
};

struct Collect : SpatialIndex::IVisitor {
    const Rects &rects;
    const finder_admitted &set;
    const Rect &q;
    std::vector<uint32_t> &found;
    Collect(const Rects &rects, const finder_admitted &set, const Rect &q, std::vector<uint32_t> &found) : rects(rects), set(set), q(q), found(found) {}
    void visitNode(const SpatialIndex::INode &) override {}
    void visitData(const SpatialIndex::IData &d) override {
        uint32_t id = (uint32_t)d.getIdentifier();
        if (admitted(set, rects[id], q)) found.push_back(id);
    }
    void visitData(std::vector<const SpatialIndex::IData *> &) override {}
};

// ---- queries ----

struct Wish {
    const char *name;
    std::vector<uint64_t> clauses;
    // the window that a library is asked for; what it gives is then tested as the scan does
    std::function<Rect(const Rect &)> window;
};

static std::vector<Wish> wishes() {
    auto itself = [](const Rect &q) { return q; };
    auto northern = [](const Rect &q) { return Rect{0, q.y1, EDGE, EDGE}; };
    auto all = [](const Rect &) { return Rect{0, 0, EDGE, EDGE}; };
    uint64_t north = FINDER_BIT(FINDER_NORTH), east = FINDER_BIT(FINDER_EAST), overlap = FINDER_BIT(FINDER_OVERLAP);
    return {{"overlap", {overlap}, itself},
            {"equal", {FINDER_BIT(FINDER_EQUAL)}, itself},
            {"plain north", {north}, northern},
            {"disjoint", {FINDER_BIT(FINDER_DISJOINT)}, all},
            {"overlap & north\\|east", {overlap, north | east}, itself}};
}

static finder_answer ask(const Rect &q, const std::vector<uint64_t> &clauses, std::vector<uint16_t> &answer) {
    return finder_query(table.data(), table.size(), q.x1, q.y1, q.x2, q.y2, clauses.data(), clauses.size(), answer.data(), answer.size());
}

// With `learnt` only the inner query beside Boost.
static void query_row(const char *data, const Rects &rects, const Wish &wish, const Rects &refs, const Tree &boost, const Library &library, bool learnt) {
    auto set = finder_admitted_set(wish.clauses.data(), wish.clauses.size());
    std::vector<uint16_t> answer(PIECES);
    std::vector<uint32_t> found, words;
    std::vector<Value> values;
    found.reserve(PIECES);
    values.reserve(PIECES);
    uint64_t hits = 0;
    Rects few(refs.begin(), refs.begin() + FEW);
    for (auto &q : refs) {
        for (uint32_t word : {q.x1, q.y1, q.x2, q.y2}) words.push_back(word);
        auto a = ask(q, wish.clauses, answer);
        hits += a.hits;
        scan(rects, set, q, found);
        if (a.refusal || a.hits != found.size() || !std::equal(found.begin(), found.end(), answer.begin())) fail("finder and scan");
    }
    auto ask_boost = [&](const finder_admitted &admissible, const Rect &q) {
        values.clear();
        found.clear();
        boost.query(bgi::intersects(box(wish.window(q))), std::back_inserter(values));
        for (auto &v : values)
            if (admitted(admissible, rect(v.first), q)) found.push_back(v.second);
        std::sort(found.begin(), found.end());
        sink += found.size();
    };
    auto full = [&] { for (auto &q : few) sink += ask(q, wish.clauses, answer).hits; };
    auto inner = [&] {
        sink += bench_queries(table.data(), table.size(), words.data(), words.size(), wish.clauses.data(), wish.clauses.size(), answer.data(), answer.size());
    };
    auto linear = [&] {
        for (auto &q : few) {
            scan(rects, set, q, found);
            sink += found.size();
        }
    };
    auto model = [&] {
        for (auto &q : few) {
            uint32_t h;
            model_query(table.data(), table.size(), q.x1, q.y1, q.x2, q.y2, wish.clauses.data(), wish.clauses.size(), answer.data(), answer.size(), &h);
            sink += h;
        }
    };
    auto by_library = [&] {
        for (auto &q : few) {
            found.clear();
            Collect c(rects, set, q, found);
            library.tree->intersectsWithQuery(region(wish.window(q)), c);
            std::sort(found.begin(), found.end());
            sink += found.size();
        }
    };
    // from the clauses, as the finder's calls, and with their set given
    auto by_boost = [&] { for (auto &q : refs) ask_boost(finder_admitted_set(wish.clauses.data(), wish.clauses.size()), q); };
    auto set_given = [&] { for (auto &q : refs) ask_boost(set, q); };
    if (learnt) {
        auto ns = side_by_side({{inner, QUERIES}, {by_boost, QUERIES}, {set_given, QUERIES}});
        printf("| %s | %s | %.0f | %.0f | %.0f | %.2f | %.2f |\n", data, wish.name, ns[0], ns[1], ns[2], ns[0] / ns[1], ns[0] / ns[2]);
        return;
    }
    auto ns = side_by_side({{full, FEW}, {inner, QUERIES}, {linear, FEW}, {model, FEW}, {by_library, FEW}, {by_boost, QUERIES}, {set_given, QUERIES}});
    printf("| %s | %s | %.1f | %.0f | %.0f | %.0f | %.0f | %.0f | %.0f | %.0f | %.2f | %.2f |\n", data, wish.name, (double)hits / QUERIES, ns[0], ns[1], ns[2],
           ns[3], ns[4], ns[5], ns[6], ns[1] / ns[5], ns[1] / ns[6]);
}

static void queries(const char *data, const Rects &rects, bool learnt) {
    build(rects);
    Tree boost = boost_tree(rects);
    Library library(rects);
    auto refs = references_of(rects);
    for (int i = FEW; learnt && i < QUERIES; i++) refs[i] = refs[i - FEW];
    for (auto &wish : wishes()) query_row(data, rects, wish, refs, boost, library, learnt);
}

// ---- nearest pieces ----

struct At {
    uint32_t x, y;
};
using Ats = std::vector<At>;

static uint32_t gap(uint32_t v, uint32_t low, uint32_t high) { return v < low ? low - v : v > high ? v - high : 0; }

static uint64_t distance(const Rect &r, const At &p) {
    uint64_t dx = gap(p.x, r.x1, r.x2), dy = gap(p.y, r.y1, r.y2);
    return dx * dx + dy * dy;
}

// The first that no other is nearer than.
static uint32_t scan_nearest(const Rects &rects, const At &p) {
    uint32_t best = 0;
    uint64_t least = UINT64_MAX;
    for (uint32_t i = 0; i < rects.size(); i++) {
        uint64_t d = distance(rects[i], p);
        if (d < least) {
            least = d;
            best = i;
        }
    }
    return best;
}

static finder_nearest find_nearest(const At &p, uint32_t allowance) { return finder_nearest_piece(table.data(), table.size(), p.x, p.y, allowance); }

// Boost takes the squares of uint32_t coordinates' differences in long long, so none wraps.
static Value boost_nearest(const Tree &boost, const At &p) {
    Value found;
    boost.query(bgi::nearest(Point(p.x, p.y), 1), &found);
    return found;
}

static Rect area_of(const Rects &rects) {
    Rect a = rects[0];
    for (auto &r : rects) a = {std::min(a.x1, r.x1), std::min(a.y1, r.y1), std::max(a.x2, r.x2), std::max(a.y2, r.y2)};
    return a;
}

static Ats points_in(const Rect &r, int count) {
    Ats points;
    for (int i = 0; i < count; i++) {
        uint32_t x = r.x1 + random_below(r.x2 - r.x1 + 1), y = r.y1 + random_below(r.y2 - r.y1 + 1);
        points.push_back({x, y});
    }
    return points;
}

static std::vector<uint32_t> words_of(const Ats &points) {
    std::vector<uint32_t> words;
    for (auto &p : points)
        for (uint32_t word : {p.x, p.y}) words.push_back(word);
    return words;
}

// How many pages are opened, where all sides agree: on the distance, since of two pieces as near each may find either.
static double pages_opened(const Rects &rects, const Tree &boost, const Ats &points) {
    uint64_t opened = 0, total = 0;
    auto words = words_of(points);
    for (auto &p : points) {
        uint64_t least = distance(rects[scan_nearest(rects, p)], p);
        auto a = find_nearest(p, FINDER_PAGES);
        if (a.refusal || !a.found || a.distance != least || distance(rects[a.number], p) != least) fail("finder and scan, the nearest piece");
        if (distance(rects[boost_nearest(boost, p).second], p) != least) fail("Boost and scan, the nearest piece");
        opened += a.opened;
        total += a.number + a.opened + a.distance + a.left_distance;
    }
    if (bench_nearest(table.data(), table.size(), words.data(), words.size(), FINDER_PAGES) != total) fail("full and inner, the nearest piece");
    return (double)opened / points.size();
}

static std::vector<double> nearest_times(const Rects &rects, const Tree &boost, const Ats &points) {
    auto words = words_of(points);
    Ats few(points.begin(), points.begin() + FEW);
    auto full = [&] { for (auto &p : few) sink += find_nearest(p, FINDER_PAGES).number; };
    auto inner = [&] { sink += bench_nearest(table.data(), table.size(), words.data(), words.size(), FINDER_PAGES); };
    auto linear = [&] { for (auto &p : few) sink += scan_nearest(rects, p); };
    auto by_boost = [&] { for (auto &p : points) sink += boost_nearest(boost, p).second; };
    int each = (int)points.size();
    return side_by_side({{full, FEW}, {inner, each}, {linear, FEW}, {by_boost, each}});
}

static void nearest_row(const char *data, const char *where, const Rects &rects, const Tree &boost, const Ats &points) {
    double opened = pages_opened(rects, boost, points);
    auto ns = nearest_times(rects, boost, points);
    printf("| %s | %s | %.1f | %.0f | %.0f | %.0f | %.0f | %.0f | %.2f |\n", data, where, opened, ns[0], ns[1], ns[1] / opened, ns[2], ns[3], ns[1] / ns[3]);
}

static void nearest(const char *data, const Rects &rects) {
    build(rects);
    Tree boost = boost_tree(rects);
    nearest_row(data, "cloth", rects, boost, points_in({0, 0, EDGE, EDGE}, QUERIES));
    nearest_row(data, "area", rects, boost, points_in(area_of(rects), QUERIES));
}

// The tree of FINDER_PAGES pages with four entries each, over the rectangles in their order.
static void build_full(const Rects &rects) {
    const uint32_t head = 3, page_words = 42, entries = 4;
    Rects below = rects;
    std::vector<uint32_t> numbers;
    for (uint32_t i = 0; i < rects.size(); i++) numbers.push_back(i);
    std::fill(table.begin(), table.end(), 0);
    uint32_t pages = 0;
    for (uint32_t level = 0; below.size() > 1; level++) {
        Rects above;
        std::vector<uint32_t> made;
        for (size_t i = 0; i < below.size(); i += entries) {
            uint32_t *word = &table[head + page_words * pages];
            *word++ = level;
            *word++ = entries;
            for (size_t j = i; j < i + entries; j++)
                for (uint32_t w : {below[j].x1, below[j].y1, below[j].x2, below[j].y2, numbers[j]}) *word++ = w;
            above.push_back(area_of(Rects(below.begin() + i, below.begin() + i + entries)));
            made.push_back(pages++);
        }
        below = above;
        numbers = made;
    }
    table[0] = pages;
    table[1] = numbers[0];
    table[2] = (uint32_t)rects.size();
    if (pages != FINDER_PAGES || finder_check(table.data(), table.size()).pieces != rects.size()) fail("the full table");
}

// Small pieces on a ring: from near its middle every page is nearer than every piece.
static void nearest_worst() {
    const double around = 2 * std::acos(-1.0), middle = EDGE / 2, radius = 450000;
    Rects ring;
    for (uint32_t i = 0; i < PIECES; i++) {
        uint32_t x = (uint32_t)(middle + radius * std::cos(around * i / PIECES)), y = (uint32_t)(middle + radius * std::sin(around * i / PIECES));
        ring.push_back({x, y, x + 1, y + 1});
    }
    build_full(ring);
    Tree boost = boost_tree(ring);
    const uint32_t m = EDGE / 2;
    auto points = points_in({m - 3, m - 3, m + 3, m + 3}, QUERIES / 64);
    if (pages_opened(ring, boost, points) != FINDER_PAGES) fail("not every page is opened");
    auto ns = nearest_times(ring, boost, points);
    printf("| ring | %d | %.0f | %.0f | %.0f | %.0f | %.0f | %.2f |\n", FINDER_PAGES, ns[0], ns[1], ns[1] / FINDER_PAGES, ns[2], ns[3], ns[1] / ns[3]);
}

// How much a search finds on its allowance.
static void allowances(const Rects &rects) {
    build(rects);
    auto points = points_in({0, 0, EDGE, EDGE}, QUERIES);
    auto words = words_of(points);
    for (uint32_t allowance : {1, 2, 4, 8, 16, FINDER_PAGES}) {
        double opened = 0, found = 0, nearest = 0, beyond = 0;
        for (auto &p : points) {
            auto a = find_nearest(p, allowance);
            uint64_t least = distance(rects[scan_nearest(rects, p)], p);
            opened += a.opened;
            found += a.found;
            nearest += a.found && a.distance == least;
            if (a.found) beyond += std::sqrt(a.distance) - std::sqrt(least);
        }
        auto ns = side_by_side({{[&] { sink += bench_nearest(table.data(), table.size(), words.data(), words.size(), allowance); }, QUERIES}})[0];
        printf("| %u | %.1f | %.1f | %.1f | ", allowance, opened / QUERIES, found / QUERIES * 100, nearest / QUERIES * 100);
        if (found > 0) printf("%.2f", beyond / found / 10);
        printf(" | %.0f | %.0f |\n", ns, ns * QUERIES / opened);
    }
}

// ---- placing ----

static void placing(const char *data, const Rects &rects, double pass) {
    auto calls = calls_of(rects);
    std::vector<uint32_t> refusals(rects.size());
    auto full = [&] {
        finder_empty(table.data(), table.size());
        for (uint32_t i = 0; i < rects.size(); i++)
            sink += finder_place(table.data(), table.size(), i, rects[i].x1, rects[i].y1, rects[i].x2, rects[i].y2);
    };
    auto inner = [&] { sink += bench_replay(table.data(), table.size(), calls.data(), calls.size(), refusals.data(), refusals.size()); };
    auto by_boost = [&] { sink += boost_tree(rects).size(); };
    auto by_library = [&] { Library l(rects); };
    auto ns = side_by_side({{full, (int)PIECES}, {inner, (int)PIECES}, {by_boost, (int)PIECES}, {by_library, (int)PIECES}});
    printf("| %s | %.0f | %.1f | %.0f | %.0f | %.0f | %.2f |\n", data, ns[0], ns[0] / pass, ns[1], ns[2], ns[3], ns[1] / ns[2]);
}

// ---- one pass, check, empty ----

static double one_pass() {
    const int passes = 2000;
    auto sum_up = [&] {
        for (int k = 0; k < passes; k++) {
            const uint32_t *words = table.data();
            uint32_t sum = 0;
            for (size_t i = 0; i < FINDER_TABLE_WORDS; i++) sum += words[i];
            sink += sum;
        }
    };
    return side_by_side({{sum_up, passes}})[0];
}

static void passes(const char *data, const Rects &rects, double pass) {
    build(rects);
    auto check = side_by_side({{[&] { for (int k = 0; k < 50; k++) sink += finder_check(table.data(), table.size()).pieces; }, 50}})[0];
    printf("| %s | %u | %.0f | %.2f |\n", data, table[0], check, check / pass);
}

// ---- shares of pages opened ----

struct Row {
    const char *name;
    int relation;
    double paper[3];
};

// Tables 8 and 10 of the source paper, R-trees, small, medium and large data: disk accesses for one search.
static const Row ROWS[] = {
    {"disjoint", 0, {296, 297, 298}}, {"meet", 1, {4.13, 5.35, 9.16}}, {"overlap", 2, {4.04, 5.26, 8.99}},
    {"covered_by", 3, {4.04, 5.26, 8.99}}, {"inside", 4, {4.04, 5.26, 8.99}}, {"equal", 5, {3.58, 3.92, 4.31}},
    {"covers", 6, {3.58, 3.92, 4.31}}, {"contains", 7, {3.42, 3.75, 4.13}}, {"strong north", 8, {163.08, 155.20, 159.33}},
    {"weak north", 9, {25.69, 27.73, 38.28}}, {"strong bounded north", 10, {16.50, 19.09, 26.87}},
    {"weak bounded north", 11, {3.81, 4.71, 7.48}}, {"strong corner north", 12, {96.29, 86.72, 95.65}},
    {"weak corner north", 13, {15.01, 16.56, 24.47}}, {"just north", 14, {26.36, 28.31, 38.84}}, {"plain north", 15, {163.08, 155.20, 159.33}}};
// Every page of the paper's tree is read for disjoint, so its count there stands for all pages.
static const double SIZES[3] = {0.0002, 0.001, 0.005};

static void shares() {
    double ours[16][3];
    for (int s = 0; s < 3; s++) {
        random_state = 7 + s;
        auto rects = random_rects(SIZES[s]), refs = random_rects(SIZES[s]);
        build(rects);
        std::vector<uint16_t> answer(PIECES);
        for (auto &row : ROWS) {
            uint64_t opened = 0;
            for (int i = 0; i < 100; i++) opened += ask(refs[i], {FINDER_BIT(row.relation)}, answer).opened;
            ours[row.relation][s] = opened / 100.0 / table[0] * 100;
        }
    }
    for (auto &row : ROWS) {
        printf("| %s |", row.name);
        for (int s = 0; s < 3; s++) printf(" %.1f | %.1f |", ours[row.relation][s], row.paper[s] / ROWS[0].paper[s] * 100);
        printf("\n");
    }
}

int main() {
    struct Data {
        const char *name;
        Rects rects;
    };
    std::vector<Data> data;
    data.push_back({"lay", lay()});
    data.push_back({"grid", grid()});
    data.push_back({"strips", strips()});
    data.push_back({"random", random_rects(0.001)});
    build(data[0].rects);
    double pass = one_pass();
    printf("One pass over %d words takes %.0f ns.\n\n", FINDER_TABLE_WORDS, pass);
    printf("`check` on 1,024 pieces:\n\n| data | pages | ns | passes |\n|---|---|---|---|\n");
    for (auto &d : data) passes(d.name, d.rects, pass);
    printf("\nQueries on 1,024 pieces, ns each:\n\n| data | wish | hits | full call | inner | linear scan | Rust model | libspatialindex | Boost | Boost, set given | inner / Boost | "
           "inner / Boost, set given |\n|---|---|---|---|---|---|---|---|---|---|---|---|\n");
    for (auto &d : data) queries(d.name, d.rects, false);
    printf("\nThe same %d references again and again, ns each:\n\n| data | wish | inner | Boost | Boost, set given | inner / Boost | inner / Boost, set given |\n|---|---|---|---|---|---|---|\n", FEW);
    for (auto &d : data) queries(d.name, d.rects, true);
    printf("\nThe nearest piece on 1,024 pieces, ns each:\n\n| data | points | opened | full call | inner | inner, a page | linear scan | Boost | inner / Boost |\n|---|---|---|---|---|---|---|---|---|\n");
    for (auto &d : data) nearest(d.name, d.rects);
    printf("\nThe most that it can open:\n\n| data | opened | full call | inner | inner, a page | linear scan | Boost | inner / Boost |\n|---|---|---|---|---|---|---|---|\n");
    nearest_worst();
    printf("\nThe same on an allowance, on the lay; how many of 100 find a piece, and the nearest, and how much farther the piece found is, in mm:\n\n"
           "| allowance | opened | a piece | the nearest | farther | inner | inner, a page |\n|---|---|---|---|---|---|---|\n");
    allowances(data[0].rects);
    printf("\nPlacing 1,024 pieces, ns each:\n\n| data | full call | in passes | inner | Boost | libspatialindex | inner / Boost |\n|---|---|---|---|---|---|---|\n");
    for (auto &d : data) placing(d.name, d.rects, pass);
    printf("\nPages opened in percent of all pages, beside the paper's:\n\n| relation | small | paper | medium | paper | large | paper |\n|---|---|---|---|---|---|---|\n");
    shares();
    return 0;
}
