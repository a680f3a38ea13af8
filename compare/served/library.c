/* The calls of the library under test, made for another process, as runs.h says. */
#include "runs.h"

/* runs as include/bones.h has them: a pointer and a length each */
#define BYTES const uint8_t *, size_t
#define LINKS const struct bones_link *, size_t
#define BYTE_ROOM uint8_t *, size_t
#define LINK_ROOM struct bones_link *, size_t

struct bones_answer bones_grouping(uint64_t n, uint64_t k, BYTES, BYTES, BYTE_ROOM, BYTE_ROOM);
struct bones_answer bones_checking(uint64_t n, uint64_t k, BYTES, BYTES, BYTE_ROOM);
struct bones_count bones_thinning(uint64_t n, uint64_t k, BYTES, BYTE_ROOM);
struct bones_answer bones_grouping_records(uint64_t n, uint64_t k, LINKS, BYTES, BYTE_ROOM, BYTE_ROOM);
struct bones_answer bones_checking_records(uint64_t n, uint64_t k, LINKS, BYTES, BYTE_ROOM);
struct bones_count bones_thinning_records(uint64_t n, uint64_t k, LINKS, LINK_ROOM);
struct bones_input bones_read(BYTES, LINK_ROOM, BYTE_ROOM);
struct bones_count bones_write_input(uint64_t n, uint64_t k, LINKS, BYTES, BYTE_ROOM);
struct bones_count bones_write_result(uint64_t n, uint64_t k, LINKS, BYTES, BYTE_ROOM);

#define RUN(i) run[i].at, run[i].length

#define TELL(type, called)                   \
    do {                                     \
        struct type told = called;           \
        memcpy(answer, &told, sizeof told);  \
    } while (0)

/* The call, by its place in src/call.rs. */
static void call(uint64_t which, uint64_t n, uint64_t k, uint8_t *answer)
{
    switch (which) {
    case 0: TELL(bones_answer, bones_grouping(n, k, RUN(0), RUN(1), RUN(2), RUN(3))); break;
    case 1: TELL(bones_answer, bones_checking(n, k, RUN(0), RUN(1), RUN(2))); break;
    case 2: TELL(bones_count, bones_thinning(n, k, RUN(0), RUN(1))); break;
    case 3: TELL(bones_answer, bones_grouping_records(n, k, RUN(0), RUN(1), RUN(2), RUN(3))); break;
    case 4: TELL(bones_answer, bones_checking_records(n, k, RUN(0), RUN(1), RUN(2))); break;
    case 5: TELL(bones_count, bones_thinning_records(n, k, RUN(0), RUN(1))); break;
    case 6: TELL(bones_input, bones_read(RUN(0), RUN(1), RUN(2))); break;
    case 7: TELL(bones_count, bones_write_input(n, k, RUN(0), RUN(1), RUN(2))); break;
    case 8: TELL(bones_count, bones_write_result(n, k, RUN(0), RUN(1), RUN(2))); break;
    default: _exit(3);
    }
}

static size_t act(uint8_t *question, size_t length, uint8_t *answer)
{
    read_question(question, length, answer);
    call(words[0], words[1], words[2], answer);
    return end_answer(question, length, answer);
}

int main(void)
{
    serve(0, 1, act);
    return 0;
}
