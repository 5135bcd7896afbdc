/*
 * The piece finder: page tables, spatial relations, nearest pieces, outlines,
 * shares and turned lays.
 *
 * A table of up to 1,024 pieces is a slice of 32-bit words that the caller
 * owns. Pieces are placed in it; a query writes the numbers of the pieces whose
 * rectangle stands to a reference rectangle as the clauses say; another call
 * finds the piece nearest to a point. An outline is a slice of points and needs
 * no table: two calls give its area and say where a point lies by it. Shares
 * need no table either: one call says how much of a piece lies in each of the
 * nine tiles about a reference. Nor does turning: two calls give a rectangle
 * and a clause after a quarter turn of the cloth.
 *
 * What is lent. A pointer and the length after it, in elements, lend a slice
 * for the time of the call; nothing of it is kept afterwards. The pointer is
 * never null, not even for a length of 0: then it may point to any object of
 * its type. It is aligned for its type (4 bytes for uint32_t, 8 for uint64_t, 2
 * for uint16_t). A slice that a call writes to does not overlap with another
 * slice of the same call, and no other thread touches it meanwhile. The calls
 * share nothing but what is lent to them.
 *
 * Within that, anything may be passed: slices of any length with any words in
 * them, and any numbers. Every call comes to an end and either does its work or
 * refuses with one of the numbers below. A refusal reports zero counts (and
 * empty rows, a zero area, no place, zero shares, no piece) and changes no word
 * of any slice.
 */
#ifndef FINDER_H
#define FINDER_H

#include <stddef.h>
#include <stdint.h>

#ifdef __cplusplus
extern "C" {
#endif

/* Sizes. */

/* Words of a table. It is the first so many words of the slice; words after
   them are never touched, and a shorter slice is refused. */
#define FINDER_TABLE_WORDS 14325

/* Piece numbers are 0 to 1,023. So many answer words always suffice for
   finder_query. */
#define FINDER_PIECES 1024

/* Pages of a table. So many answer words always suffice for
   finder_opened_pages, and it is the largest allowance of
   finder_nearest_piece. */
#define FINDER_PAGES 341

/* The largest number in a valid rectangle, in tenths of a millimetre, and the
   largest coordinate of an outline or of a point. */
#define FINDER_EDGE 1000000

/* A query has 1 to so many clauses. */
#define FINDER_CLAUSES 8

/* Relations are numbered 0 to 39. */
#define FINDER_RELATIONS 40

/* Row sets of an admitted set, and bits in each. */
#define FINDER_CODES 13

/* An outline has at least FINDER_POINTS_FEWEST points and at most
   FINDER_POINTS, two words each. */
#define FINDER_POINTS_FEWEST 3
#define FINDER_POINTS 64

/* Tiles into which a reference's four edge lines cut the plane. */
#define FINDER_TILES 9

/* Refusals. Each call tests in the order given with it, and returns the first
   whose condition holds. */

/* The call did its work. */
#define FINDER_ACCEPTED 0
/* The table slice is shorter than FINDER_TABLE_WORDS. */
#define FINDER_TABLE_TOO_SHORT 1
/* The rectangle, or one of two, is not valid. Valid is: x1 < x2, y1 < y2 and
   none above FINDER_EDGE. */
#define FINDER_RECTANGLE_NOT_VALID 2
/* The piece number is above 1,023. */
#define FINDER_NUMBER_TOO_LARGE 3
/* There is no clause, or more than FINDER_CLAUSES. */
#define FINDER_CLAUSE_COUNT 4
/* A clause is zero or has bit 40 or higher. */
#define FINDER_CLAUSE_NOT_VALID 5
/* The table is not sound. */
#define FINDER_TABLE_NOT_SOUND 6
/* The number already stands in the table. */
#define FINDER_ALREADY_STANDING 7
/* The answer slice is shorter than the table's piece count (finder_query) or
   than its page count (finder_opened_pages). */
#define FINDER_ANSWER_TOO_SHORT 8
/* The outline has an odd number of words, or fewer than FINDER_POINTS_FEWEST or
   more than FINDER_POINTS points. */
#define FINDER_POINT_COUNT 10
/* A coordinate of the outline or of the point is above FINDER_EDGE. */
#define FINDER_COORDINATE_TOO_LARGE 11
/* The point or the allowance of finder_nearest_piece is out of range: x or y is
   above FINDER_EDGE, or the allowance is 0 or above FINDER_PAGES. */
#define FINDER_OUT_OF_RANGE 13
/* The table has no pieces. */
#define FINDER_NO_PIECES 14

/* Relations, and clauses made of them.

   A clause is a 64-bit set whose bit t (bit 0 lowest) stands for relation t. A
   query admits the configurations that, in every clause, belong to at least
   one named relation: FINDER_BIT(FINDER_OVERLAP) in one clause and
   FINDER_BIT(FINDER_NORTH) | FINDER_BIT(FINDER_EAST) in another ask for
   "overlaps, and is north or east". */
#define FINDER_BIT(relation) ((uint64_t)1 << (relation))

#define FINDER_DISJOINT 0
#define FINDER_MEET 1
#define FINDER_OVERLAP 2
#define FINDER_COVERED_BY 3
#define FINDER_INSIDE 4
#define FINDER_EQUAL 5
#define FINDER_COVERS 6
#define FINDER_CONTAINS 7

/* A directed relation is 8 + 8 times the direction + the kind. */
#define FINDER_DIRECTED(direction, kind) (8 + 8 * (direction) + (kind))

/* Directions. Each further one is a quarter turn clockwise. */
#define FINDER_TO_NORTH 0
#define FINDER_TO_EAST 1
#define FINDER_TO_SOUTH 2
#define FINDER_TO_WEST 3

/* Kinds. The corner of north is north east, that of east south east, that of
   south south west, that of west north west. */
#define FINDER_STRONG 0
#define FINDER_WEAK 1
#define FINDER_STRONG_BOUNDED 2
#define FINDER_WEAK_BOUNDED 3
#define FINDER_STRONG_CORNER 4
#define FINDER_WEAK_CORNER 5
#define FINDER_JUST 6
#define FINDER_PLAIN 7

#define FINDER_NORTH FINDER_DIRECTED(FINDER_TO_NORTH, FINDER_PLAIN)
#define FINDER_EAST FINDER_DIRECTED(FINDER_TO_EAST, FINDER_PLAIN)
#define FINDER_SOUTH FINDER_DIRECTED(FINDER_TO_SOUTH, FINDER_PLAIN)
#define FINDER_WEST FINDER_DIRECTED(FINDER_TO_WEST, FINDER_PLAIN)

/* Places of a point by an outline. */
#define FINDER_PLACE_ON 1
#define FINDER_PLACE_INSIDE 2
#define FINDER_PLACE_OUTSIDE 3

/* Tiles about a reference, in rising rows from the south, each from west to
   east: tile 3 * row + column. FINDER_TILE_WITHIN is the reference itself. */
#define FINDER_TILE_SOUTH_WEST 0
#define FINDER_TILE_SOUTH 1
#define FINDER_TILE_SOUTH_EAST 2
#define FINDER_TILE_WEST 3
#define FINDER_TILE_WITHIN 4
#define FINDER_TILE_EAST 5
#define FINDER_TILE_NORTH_WEST 6
#define FINDER_TILE_NORTH 7
#define FINDER_TILE_NORTH_EAST 8

/* What the calls return. In each but finder_rect, refusal is 0 or one of the
   numbers above, and where it is not 0 all else is zero. */

typedef struct {
    uint32_t refusal;
    uint32_t pieces; /* the piece count */
} finder_checked;

typedef struct {
    uint32_t refusal;
    uint32_t hits;   /* how many piece numbers were written */
    uint32_t opened; /* how many pages were opened */
} finder_answer;

typedef struct {
    uint32_t refusal;
    uint32_t count; /* how many page numbers were written */
} finder_opened;

typedef struct {
    uint32_t refusal;
    uint16_t rows[FINDER_CODES]; /* row set i, from 1 to 13, is rows[i - 1]: its
                                    bit j - 1 is one for each admitted (i, j),
                                    i the code on y and j the code on x */
    uint32_t count;              /* how many of the 169 are admitted */
} finder_admitted;

typedef struct {
    uint32_t refusal;
    int64_t twice_area; /* positive when the points run counter-clockwise */
} finder_area;

typedef struct {
    uint32_t refusal;
    uint32_t place; /* one of the places above */
} finder_point;

typedef struct {
    uint32_t refusal;
    uint64_t areas[FINDER_TILES];       /* the piece's area in each tile */
    uint64_t thousandths[FINDER_TILES]; /* 1,000 times that, divided by the
                                           piece's area: the whole quotient */
    uint64_t remainders[FINDER_TILES];  /* the remainder of that division */
} finder_shares;

typedef struct {
    uint32_t refusal;
    uint32_t found;         /* 1 where there is a piece, else 0 */
    uint32_t number;        /* its number; 0 where there is none */
    uint32_t opened;        /* how many pages were opened */
    uint32_t left;          /* 1 where a page is left that could have been
                               opened next, else 0 */
    uint64_t distance;      /* the piece's squared distance; 0 where there is
                               none */
    uint64_t left_distance; /* the least squared distance of the pages left; 0
                               where there are none */
} finder_nearest;

typedef struct {
    uint32_t x1, y1; /* the south-west corner */
    uint32_t x2, y2; /* the north-east corner */
} finder_rect;

/* Makes the table empty, whatever its words are. Refuses 1. Returns the
   refusal. */
uint32_t finder_empty(uint32_t *table, size_t table_len);

/* Tests whether the table is sound, and counts its pieces. Refuses 1, 6. */
finder_checked finder_check(const uint32_t *table, size_t table_len);

/* Places a piece with this number and rectangle. Refuses 1, 6, 2, 3, 7. Returns
   the refusal. */
uint32_t finder_place(uint32_t *table, size_t table_len, uint32_t number,
                      uint32_t x1, uint32_t y1, uint32_t x2, uint32_t y2);

/* Writes the numbers of the admitted pieces at the start of answer, each one
   time and rising, and leaves the rest of it. Refuses 1, 6, 2, 4, 5, 8.

   The front part of the answer is its first hits words: read answer[0] to
   answer[hits - 1]. On a refusal hits is 0, so the front part is empty; hits is
   never above answer_len. */
finder_answer finder_query(const uint32_t *table, size_t table_len,
                           uint32_t x1, uint32_t y1, uint32_t x2, uint32_t y2,
                           const uint64_t *clauses, size_t clause_count,
                           uint16_t *answer, size_t answer_len);

/* Writes the numbers of the pages that the query opens at the start of answer,
   each one time and in any order, and leaves the rest of it. The root is always
   opened. Refuses 1, 6, 2, 4, 5, 8. The front part is taken as above, with
   count for hits. */
finder_opened finder_opened_pages(const uint32_t *table, size_t table_len,
                                  uint32_t x1, uint32_t y1,
                                  uint32_t x2, uint32_t y2,
                                  const uint64_t *clauses, size_t clause_count,
                                  uint16_t *answer, size_t answer_len);

/* Finds the piece nearest to the point (x, y), and opens at least one page and
   no more than the allowance. The root is opened first; then, of the pages not
   yet opened whose parent has been, always the nearest, of those as near the one
   with the lowest number, until the allowance is spent, or there is a piece and
   no such page is nearer than it. The piece is the nearest one in the opened
   leaves, of those as near the one with the lowest number. A distance is that to
   the piece's rectangle, or to the smallest one round all that is under the
   page, squared, in squares of a tenth of a millimetre; it is 0 in the rectangle
   and on its edge.

   Look at found and left first: what is absent has a distance of 0 that says
   nothing. One of the two is there. No piece of the table is nearer than the
   smaller of distance and left_distance, or than the only one that is there. So
   where found is 1, and left is 0 or left_distance is not below distance, no
   piece is nearer than the one returned; a page left may hold one as near with a
   lower number. With an allowance of FINDER_PAGES that is always so. A larger
   allowance never gives a farther piece. Refuses 1, 6, 13, 14. */
finder_nearest finder_nearest_piece(const uint32_t *table, size_t table_len,
                                    uint32_t x, uint32_t y,
                                    uint32_t allowance);

/* Gives the configurations that the clauses admit. Refuses 4, 5. */
finder_admitted finder_admitted_set(const uint64_t *clauses,
                                    size_t clause_count);

/* Outlines. The words are x and y of each point in turn, x to the east and y to
   the north; the last point is joined to the first. An outline may cross itself
   and may have the same point more than once. outline_len counts words, so it
   is twice the number of points. */

/* Gives twice the signed area of the outline: positive when its points run
   counter-clockwise, negative when they run clockwise, zero on a refusal. It is
   the sum of a * d - b * c over the edges from (a, b) to (c, d). Refuses 10,
   11. */
finder_area finder_outline_area(const uint32_t *outline, size_t outline_len);

/* Says where the point (x, y) lies by the outline. A point on any edge is on
   the outline, which is answered before all else; any other is inside when the
   ray from it to the east crosses an odd number of edges, and else outside. So
   a part that an outline runs round twice is outside. Refuses 10, 11. */
finder_point finder_outline_point(const uint32_t *outline, size_t outline_len,
                                  uint32_t x, uint32_t y);

/* Shares. The four edge lines of a reference cut the plane into nine tiles. */

/* Gives for each tile about the reference q the area of the piece p in it, how
   many whole thousandths of the piece's area that is, and the remainder of this
   division. Areas are in squares of a tenth of a millimetre. The nine areas add
   up to the piece's area; the nine thousandths times that area, plus the nine
   remainders, add up to 1,000 times it. Refuses 2, for either rectangle. */
finder_shares finder_tile_shares(uint32_t px1, uint32_t py1,
                                 uint32_t px2, uint32_t py2,
                                 uint32_t qx1, uint32_t qy1,
                                 uint32_t qx2, uint32_t qy2);

/* Turned lays. A marker may be spread along the cloth or across it: both calls
   give what a quarter turn of the whole cloth makes of their input, clockwise,
   so that what was north is east. Take the table in which every piece stands
   turned. A query with the turned reference and every clause turned lists there
   the numbers that the query lists in the table of the pieces; how many pages
   it opens may differ. Four turns of a valid rectangle or of a clause are none,
   so three turn back.
   Neither call refuses anything, and so neither returns a refusal. */

/* Gives the turned rectangle, (y1, FINDER_EDGE - x2, y2, FINDER_EDGE - x1). A
   rectangle that is not valid gives four zeros, which are not valid either: the
   calls that refuse it with 2 refuse them likewise. */
finder_rect finder_turned_rect(uint32_t x1, uint32_t y1,
                               uint32_t x2, uint32_t y2);

/* Gives the turned clause. For each directed relation that the clause names it
   names the one of the same kind in the next direction, north after west. The
   topological relations stay, and so do bits 40 to 63, which stand for none: a
   turned clause is valid exactly when the clause is. */
uint64_t finder_turned_clause(uint64_t clause);

#ifdef __cplusplus
}
#endif

#endif
