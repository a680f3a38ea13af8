/*
 * A server over two pipes. A question is a length in eight bytes, low byte first, and that many bytes; so is an answer. The length of
 * eight bytes 255 asks for the answers so far: none is written before, so the asker may write many questions and then read.
 *
 * Built for x86-64 by the toolchain's own clang, which has no headers: what is used of the C library is declared here.
 */
typedef __SIZE_TYPE__ size_t;
typedef __UINT32_TYPE__ uint32_t;
typedef __UINT64_TYPE__ uint64_t;
typedef __UINT8_TYPE__ uint8_t;
typedef __UINT16_TYPE__ uint16_t;
typedef long ssize_t;

ssize_t read(int, void *, size_t);
ssize_t write(int, const void *, size_t);
void *memcpy(void *, const void *, size_t);
unsigned alarm(unsigned);
void _exit(int);

/* The asker keeps within these. */
enum { MOST_ASKED = 1 << 20, MOST_ANSWERED = 1 << 24, LENGTH = 8 };

/* No question takes near this many seconds; when they have passed, the alarm ends the process. */
enum { PATIENCE = 10 };

/* What is asked is aligned for any number, since it may hold records. */
static _Alignas(16) uint8_t asked[MOST_ASKED];
static uint8_t answered[MOST_ANSWERED];

/* Whether all the bytes came; the pipe may end between two questions. */
static int take(int from, void *bytes, size_t length)
{
    for (size_t got = 0; got < length;) {
        ssize_t more = read(from, (uint8_t *)bytes + got, length - got);
        if (more <= 0)
            return 0;
        got += (size_t)more;
    }
    return 1;
}

static void give(int to, const void *bytes, size_t length)
{
    for (size_t gone = 0; gone < length;) {
        ssize_t more = write(to, (const uint8_t *)bytes + gone, length - gone);
        if (more <= 0)
            _exit(3);
        gone += (size_t)more;
    }
}

static size_t used;

/* Takes the next question, and gives its length; whether there was one, since the pipe may end. What was answered before is written when it is asked for. */
static int next_question(int from, int to, uint64_t *length)
{
    while (take(from, length, LENGTH)) {
        if (*length == ~(uint64_t)0) {
            give(to, answered, used);
            used = 0;
            continue;
        }
        if (*length > MOST_ASKED || used + 2 * MOST_ASKED > MOST_ANSWERED || !take(from, asked, *length))
            _exit(3);
        alarm(PATIENCE);
        return 1;
    }
    return 0;
}

/* Where the answer to that question is written, */
static uint8_t *answer_room(void)
{
    return answered + used + LENGTH;
}

/* and that so many bytes of it were. */
static void answer_ends(uint64_t wrote)
{
    alarm(0);
    memcpy(answered + used, &wrote, LENGTH);
    used += LENGTH + wrote;
}

/* Answers questions until the pipe ends. `act` reads the bytes asked, writes the answer, and gives its length. */
static inline void serve(int from, int to, size_t (*act)(uint8_t *question, size_t length, uint8_t *answer))
{
    uint64_t length;
    while (next_question(from, to, &length))
        answer_ends(act(asked, length, answer_room()));
}
