/*
 * The memory of a call under test, made for another process. A question: which call, by its place in src/call.rs, n, k and how many runs; of each of four
 * runs the length that the call is told and the length in bytes; then the memory around each run that there is, MARGIN bytes on both sides and a few more, so
 * that the next begins where a record may. The answer: what the call answered, and the same memory as it left it.
 */
#include "serve.h"

struct bones_link {
    uint8_t a, b;
    uint16_t tally;
};

struct bones_answer {
    uint32_t number, place, count, finished;
};

struct bones_count {
    uint32_t number, place, count;
};

struct bones_input {
    uint32_t number, place, n, k, links, cuts;
};

enum { MARGIN = 64, ALIGNED = 8, RUNS = 4, WORDS = 4 + 2 * RUNS };

/* The greatest answer; a smaller one is followed by noughts. */
enum { TOLD = sizeof(struct bones_input) };

/* The runs: NULL where there is nothing to lend, as a caller in C would have it. */
static struct {
    void *at;
    size_t length;
} run[RUNS];

/* Which call is asked for, n, k, how many runs, and the lengths of each. */
static uint64_t words[WORDS];

/* Where the runs stand in memory that begins at `at`; gives where it ends. */
static uint8_t *lay_out(uint8_t *at, uint64_t runs, const uint64_t *lengths)
{
    for (uint64_t i = 0; i < runs; i++) {
        size_t bytes = lengths[2 * i + 1];
        run[i].at = bytes == 0 ? (void *)0 : at + MARGIN;
        run[i].length = lengths[2 * i];
        at += (MARGIN + bytes + MARGIN + ALIGNED - 1) / ALIGNED * ALIGNED;
    }
    return at;
}

/* Reads what is asked, and makes room for what the call will answer. */
static void read_question(uint8_t *question, size_t length, uint8_t *answer)
{
    memcpy(words, question, sizeof words);
    if (words[3] > RUNS || lay_out(question + sizeof words, words[3], words + 4) != question + length)
        _exit(3);
    for (size_t i = 0; i < TOLD; i++)
        answer[i] = 0;
}

/* The memory as the call left it, behind what it answered; gives the length of both. */
static size_t end_answer(const uint8_t *question, size_t length, uint8_t *answer)
{
    memcpy(answer + TOLD, question + sizeof words, length - sizeof words);
    return TOLD + length - sizeof words;
}
