/*
 * What the C programs that read a job share: its words, one after the other.
 * Before it is included, PROGRAM is the name that messages begin with.
 */
#ifndef JOB_WORDS_H
#define JOB_WORDS_H

#include <stdint.h>
#include <stdio.h>
#include <stdlib.h>

#define WORD_BYTES 4
#define JOB_BYTES 65536
#define JOB_WORDS (JOB_BYTES / WORD_BYTES)

/* A piece is its number and its rectangle; a query is its rectangle, the count
   of its clauses, and the clauses. */
#define RECT_WORDS 4
#define PIECE_WORDS (1 + RECT_WORDS)
#define QUERY_HEAD_WORDS (RECT_WORDS + 1)
#define CLAUSE_WORDS 2

/* The job's words, how many it has, and how many of them are taken. */
static uint32_t words[JOB_WORDS];
static size_t words_in_job, words_taken;

static void fail(const char *why)
{
    fprintf(stderr, "%s: %s\n", PROGRAM, why);
    exit(EXIT_FAILURE);
}

static uint32_t word_at(const unsigned char *bytes)
{
    return bytes[0] | (uint32_t)bytes[1] << 8 | (uint32_t)bytes[2] << 16 |
           (uint32_t)bytes[3] << 24;
}

static void read_words(void)
{
    static unsigned char bytes[JOB_BYTES + 1];
    size_t length = fread(bytes, 1, sizeof bytes, stdin);
    if (ferror(stdin))
        fail("the job cannot be read");
    if (length > JOB_BYTES)
        fail("bad job: it has more than 65536 bytes");
    if (length % WORD_BYTES != 0)
        fail("bad job: its last word is cut");
    words_in_job = length / WORD_BYTES;
    for (size_t i = 0; i < words_in_job; i++)
        words[i] = word_at(bytes + WORD_BYTES * i);
}

static uint32_t *take(size_t count)
{
    uint32_t *taken = words + words_taken;
    if (count > words_in_job - words_taken)
        fail("bad job: it is too short for its counts");
    words_taken += count;
    return taken;
}

static void expect_end(void)
{
    if (words_taken != words_in_job)
        fail("bad job: it is too long for its counts");
}

#endif
