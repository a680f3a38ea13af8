/*
 * The calls, as a C program sees them: document 01's cases that are run, every row of the refusal table that each call can give, what
 * is written and what is not. Expectations were worked out by hand, or by reference.h and frames.h.
 */
#include <inttypes.h>
#include <stdint.h>
#include <stdio.h>

#include "test.h"

unsigned passed, failed;

void expect(int holds, const char *what, const char *part)
{
    if (holds) {
        passed++;
    } else {
        failed++;
        printf("FAILED: %s: %s\n", what, part);
    }
}

unsigned random_below(unsigned end)
{
    static uint64_t state = 20;
    state = state * UINT64_C(6364136223846793005) + UINT64_C(1442695040888963407);
    return (unsigned)(state >> 33) % end;
}

int main(void)
{
    test_calls();
    test_thinning();
    test_reading();
    test_writing();
    test_round_trips();
    printf("%u passed, %u failed\n", passed, failed);
    return failed != 0;
}
