/*
 * Turned lays: rectangles and clauses after quarter turns of the cloth, then
 * nine pieces about the reference (100, 100, 200, 200), placed as they lie and
 * turned. Prints what each turn gives and what the queries list.
 */
#include "finder.h"

#include <inttypes.h>
#include <stdio.h>
#include <stdlib.h>

#define TURNS 4

static const finder_rect reference = {100, 100, 200, 200};

static const finder_rect pieces[] = {
    {120, 150, 180, 250}, /* across the north side */
    {100, 120, 250, 180}, /* across the east side, from the west side on */
    {150, 120, 250, 180}, /* across the east side */
    {250, 250, 300, 300}, /* north east */
    {200, 100, 300, 200}, /* just east */
    {50, 120, 150, 180},  /* across the west side */
    {120, 50, 180, 150},  /* across the south side */
    {150, 150, 250, 250}, /* across the north-east corner */
    {100, 100, 200, 200}, /* equal */
};
#define PIECES (sizeof pieces / sizeof pieces[0])

/* "Overlaps, and is north or east." */
static const uint64_t wish[2] = {
    FINDER_BIT(FINDER_OVERLAP),
    FINDER_BIT(FINDER_NORTH) | FINDER_BIT(FINDER_EAST),
};

static uint32_t along[FINDER_TABLE_WORDS], across[FINDER_TABLE_WORDS];

/* Ends the program when a call that should be accepted is refused. */
static void accepted(const char *call, uint32_t refusal)
{
    if (refusal != FINDER_ACCEPTED) {
        printf("%s refused: %" PRIu32 "\n", call, refusal);
        exit(EXIT_FAILURE);
    }
}

static finder_rect turned(finder_rect r)
{
    return finder_turned_rect(r.x1, r.y1, r.x2, r.y2);
}

static void print_rect(finder_rect r)
{
    printf(" (%" PRIu32 ", %" PRIu32 ", %" PRIu32 ", %" PRIu32 ")", r.x1, r.y1,
           r.x2, r.y2);
}

/* Prints the rectangle after one to four turns. */
static void print_turns(const char *name, finder_rect r)
{
    printf("%s:", name);
    for (int turn = 0; turn < TURNS; turn++) {
        r = turned(r);
        print_rect(r);
    }
    printf("\n");
}

static void print_rectangles(void)
{
    const uint32_t edge = FINDER_EDGE, last = FINDER_EDGE - 1;
    print_turns("south west", (finder_rect){0, 0, 1, 1});
    print_turns("north west", (finder_rect){0, last, 1, edge});
    print_turns("north east", (finder_rect){last, last, edge, edge});
    print_turns("south east", (finder_rect){last, 0, edge, 1});
    print_turns("south", (finder_rect){5, 0, 20, 7});
    print_turns("whole cloth", (finder_rect){0, 0, edge, edge});
    print_turns("reference", reference);
}

/* Prints what a rectangle gives that is not valid, and how both are refused. */
static void print_refused(const char *name, finder_rect r)
{
    finder_rect t = turned(r);
    printf("%s:", name);
    print_rect(t);
    printf(", placed %" PRIu32 ", turned %" PRIu32 "\n",
           finder_place(along, FINDER_TABLE_WORDS, 0, r.x1, r.y1, r.x2, r.y2),
           finder_place(along, FINDER_TABLE_WORDS, 0, t.x1, t.y1, t.x2, t.y2));
}

static void print_not_valid(void)
{
    accepted("empty", finder_empty(along, FINDER_TABLE_WORDS));
    print_refused("narrow", (finder_rect){20, 10, 20, 30});
    print_refused("flat", (finder_rect){20, 30, 50, 30});
    print_refused("east before west", (finder_rect){50, 10, 20, 30});
    print_refused("wide", (finder_rect){20, 10, FINDER_EDGE + 1, 30});
    print_refused("high", (finder_rect){20, 10, 50, UINT32_MAX});
    print_refused("zeros", (finder_rect){0, 0, 0, 0});
}

/* The bit of a clause that has one. */
static unsigned bit_of(uint64_t clause)
{
    unsigned bit = 0;
    while (bit < 64 && FINDER_BIT(bit) != clause)
        bit++;
    return bit;
}

/* Prints where the bit is after one to four turns. */
static void print_bit(const char *name, unsigned bit)
{
    uint64_t clause = FINDER_BIT(bit);
    printf("%s, bit %u:", name, bit);
    for (int turn = 0; turn < TURNS; turn++) {
        clause = finder_turned_clause(clause);
        printf(" %u", bit_of(clause));
    }
    printf("\n");
}

static void print_clause(uint64_t clause)
{
    printf("clause 0x%" PRIx64 ": 0x%" PRIx64 "\n", clause,
           finder_turned_clause(clause));
}

static void print_clauses(void)
{
    print_bit("plain north", FINDER_NORTH);
    print_bit("plain west", FINDER_WEST);
    print_bit("strong north", FINDER_DIRECTED(FINDER_TO_NORTH, FINDER_STRONG));
    print_bit("weak corner of east",
              FINDER_DIRECTED(FINDER_TO_EAST, FINDER_WEAK_CORNER));
    print_bit("disjoint", FINDER_DISJOINT);
    print_bit("contains", FINDER_CONTAINS);
    print_bit("no relation", 40);
    print_bit("no relation", 63);
    print_clause(wish[0] | wish[1]);
    print_clause(FINDER_BIT(FINDER_OVERLAP) | FINDER_BIT(FINDER_WEST) |
                 FINDER_BIT(40));
    print_clause(0);
    print_clause(UINT64_MAX);
}

static void place(uint32_t *table, uint32_t number, finder_rect r)
{
    accepted("place", finder_place(table, FINDER_TABLE_WORDS, number, r.x1,
                                   r.y1, r.x2, r.y2));
}

static void print_listing(const char *name, const uint32_t *table,
                          finder_rect q, const uint64_t *clauses, size_t count)
{
    uint16_t answer[FINDER_PIECES];
    finder_answer found =
        finder_query(table, FINDER_TABLE_WORDS, q.x1, q.y1, q.x2, q.y2,
                     clauses, count, answer, FINDER_PIECES);
    accepted("query", found.refusal);
    printf("%s:", name);
    for (uint32_t i = 0; i < found.hits; i++)
        printf(" %" PRIu16, answer[i]);
    printf("\n");
}

/* The turned query on the turned pieces lists what the query lists; the query
   as it was lists those that were west or north. Each clause by itself lists
   more: 0, 2 and 7 stand in both listings. */
static void print_lays(void)
{
    const uint64_t turned_wish[2] = {finder_turned_clause(wish[0]),
                                     finder_turned_clause(wish[1])};
    accepted("empty", finder_empty(along, FINDER_TABLE_WORDS));
    accepted("empty", finder_empty(across, FINDER_TABLE_WORDS));
    for (uint32_t number = 0; number < PIECES; number++) {
        place(along, number, pieces[number]);
        place(across, number, turned(pieces[number]));
    }
    print_listing("overlap, and north or east", along, reference, wish, 2);
    print_listing("turned", across, turned(reference), turned_wish, 2);
    print_listing("turned pieces, wish as it was", across, turned(reference),
                  wish, 2);
    print_listing("overlap", along, reference, &wish[0], 1);
    print_listing("overlap, turned", across, turned(reference),
                  &turned_wish[0], 1);
    print_listing("north or east", along, reference, &wish[1], 1);
    print_listing("north or east, turned", across, turned(reference),
                  &turned_wish[1], 1);
}

int main(void)
{
    print_rectangles();
    print_not_valid();
    print_clauses();
    print_lays();
    return EXIT_SUCCESS;
}
