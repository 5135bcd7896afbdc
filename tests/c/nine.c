/*
 * The example of nine pieces: piece c at (10c, 0, 10c + 5, 5). Runs it through
 * every call and prints the answers.
 */
#include "finder.h"

#include <inttypes.h>
#include <stdio.h>
#include <stdlib.h>

static uint32_t table[FINDER_TABLE_WORDS];

/* Ends the program when a call that should be accepted is refused. */
static void accepted(const char *call, uint32_t refusal)
{
    if (refusal != FINDER_ACCEPTED) {
        printf("%s refused: %" PRIu32 "\n", call, refusal);
        exit(EXIT_FAILURE);
    }
}

/* Prints the front part of an answer. */
static void print_front(const uint16_t *answer, uint32_t count)
{
    for (uint32_t i = 0; i < count; i++)
        printf(" %" PRIu16, answer[i]);
    printf("\n");
}

static int by_number(const void *a, const void *b)
{
    return *(const uint16_t *)a - *(const uint16_t *)b;
}

static void place_nine(void)
{
    accepted("empty", finder_empty(table, FINDER_TABLE_WORDS));
    for (uint32_t c = 0; c < 9; c++)
        accepted("place", finder_place(table, FINDER_TABLE_WORDS, c,
                                       10 * c, 0, 10 * c + 5, 5));
    printf("pages %" PRIu32 ", root %" PRIu32 ", pieces %" PRIu32 "\n",
           table[0], table[1], table[2]);
}

/* The two entries of the root, page 2: (0, 0, 35, 5, 0) and (40, 0, 85, 5, 1). */
static void print_root(void)
{
    const uint32_t *page = table + 3 + 42 * (size_t)table[1];
    printf("root at level %" PRIu32 " with %" PRIu32 " entries\n", page[0], page[1]);
    for (uint32_t e = 0; e < page[1] && e < 8; e++) {
        const uint32_t *entry = page + 2 + 5 * (size_t)e;
        printf("entry %" PRIu32 " %" PRIu32 " %" PRIu32 " %" PRIu32 " %" PRIu32 "\n",
               entry[0], entry[1], entry[2], entry[3], entry[4]);
    }
}

static void print_check(void)
{
    finder_checked checked = finder_check(table, FINDER_TABLE_WORDS);
    accepted("check", checked.refusal);
    printf("check: %" PRIu32 " pieces\n", checked.pieces);
}

/* "Equal" to (80, 0, 85, 5) lists 8 and opens 2 pages. */
static void print_query(void)
{
    const uint64_t equal[] = {FINDER_BIT(FINDER_EQUAL)};
    uint16_t answer[FINDER_PIECES];
    finder_answer found = finder_query(table, FINDER_TABLE_WORDS, 80, 0, 85, 5,
                                       equal, 1, answer, FINDER_PIECES);
    accepted("query", found.refusal);
    printf("query: %" PRIu32 " hits, %" PRIu32 " pages opened:", found.hits,
           found.opened);
    print_front(answer, found.hits);

    uint16_t pages[FINDER_PAGES];
    finder_opened opened =
        finder_opened_pages(table, FINDER_TABLE_WORDS, 80, 0, 85, 5, equal, 1,
                            pages, FINDER_PAGES);
    accepted("opened pages", opened.refusal);
    qsort(pages, opened.count, sizeof pages[0], by_number);
    printf("opened pages: %" PRIu32 ":", opened.count);
    print_front(pages, opened.count);
}

/* Admitted: overlap and north 9; weak corner north 3; equal and contains 0. */
static void print_admitted(void)
{
    const uint64_t wishes[3][2] = {
        {FINDER_BIT(FINDER_OVERLAP), FINDER_BIT(FINDER_NORTH)},
        {FINDER_BIT(FINDER_DIRECTED(FINDER_TO_NORTH, FINDER_WEAK_CORNER)),
         FINDER_BIT(FINDER_DISJOINT)},
        {FINDER_BIT(FINDER_EQUAL), FINDER_BIT(FINDER_CONTAINS)},
    };
    for (size_t w = 0; w < 3; w++) {
        finder_admitted set = finder_admitted_set(wishes[w], 2);
        accepted("admitted set", set.refusal);
        printf("admitted: %" PRIu32 ", rows", set.count);
        print_front(set.rows, FINDER_CODES);
    }
}

/* One refusal of each number. */
static void print_refusals(void)
{
    const uint64_t none[] = {0};
    uint16_t answer[1] = {0};
    printf("refused: %" PRIu32, finder_empty(table, FINDER_TABLE_WORDS - 1));
    printf(" %" PRIu32, finder_place(table, FINDER_TABLE_WORDS, 9, 0, 0, 1000001, 5));
    printf(" %" PRIu32, finder_place(table, FINDER_TABLE_WORDS, 1024, 0, 0, 5, 5));
    printf(" %" PRIu32, finder_admitted_set(none, 0).refusal);
    printf(" %" PRIu32, finder_admitted_set(none, 1).refusal);
    table[2]++;
    printf(" %" PRIu32, finder_check(table, FINDER_TABLE_WORDS).refusal);
    table[2]--;
    printf(" %" PRIu32, finder_place(table, FINDER_TABLE_WORDS, 8, 0, 0, 5, 5));
    const uint64_t equal[] = {FINDER_BIT(FINDER_EQUAL)};
    printf(" %" PRIu32 "\n", finder_query(table, FINDER_TABLE_WORDS, 80, 0, 85, 5,
                                          equal, 1, answer, 1).refusal);
}

int main(void)
{
    place_nine();
    print_root();
    print_check();
    print_query();
    print_admitted();
    print_refusals();
    print_check();
    return EXIT_SUCCESS;
}
