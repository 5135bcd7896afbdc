/*
 * Reads a job and writes the job turned a quarter turn: each rectangle by
 * finder_turned_rect, each clause by finder_turned_clause. tests/turned
 * compares tools/job turn with it.
 */
#include "finder.h"

#define PROGRAM "tests/turned.c"
#include "../tools/job_words.h"

static void write_job(void)
{
    for (size_t i = 0; i < words_in_job; i++) {
        for (int byte = 0; byte < WORD_BYTES; byte++)
            putchar(words[i] >> (8 * byte) & 0xff);
    }
    if (fflush(stdout) != 0 || ferror(stdout))
        fail("the turned job cannot be written");
}

static void turn_rect(uint32_t *rect)
{
    finder_rect turned = finder_turned_rect(rect[0], rect[1], rect[2], rect[3]);
    rect[0] = turned.x1;
    rect[1] = turned.y1;
    rect[2] = turned.x2;
    rect[3] = turned.y2;
}

static void turn_clause(uint32_t *clause)
{
    uint64_t turned =
        finder_turned_clause(clause[0] | (uint64_t)clause[1] << 32);
    clause[0] = (uint32_t)turned;
    clause[1] = (uint32_t)(turned >> 32);
}

static void turn_pieces(void)
{
    for (uint32_t left = *take(1); left > 0; left--)
        turn_rect(take(PIECE_WORDS) + 1);
}

static void turn_queries(void)
{
    for (uint32_t left = *take(1); left > 0; left--) {
        uint32_t *query = take(QUERY_HEAD_WORDS);
        turn_rect(query);
        for (uint32_t clauses = query[RECT_WORDS]; clauses > 0; clauses--)
            turn_clause(take(CLAUSE_WORDS));
    }
}

int main(void)
{
    read_words();
    turn_pieces();
    turn_queries();
    expect_end();
    write_job();
    return EXIT_SUCCESS;
}
