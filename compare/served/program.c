/*
 * The program under test, run on many texts in one process: loaded before it, this takes the place of the start of `main`, and runs
 * `main` once for each question, a text on its standard input. The answer: the status that it ended with, four bytes, and what it
 * printed. A program of the toolchain keeps nothing from one run of `main` to the next.
 */
#include "serve.h"

typedef int (*main_function)(int, char **, char **);
typedef void (*function)(void);
typedef int (*start_function)(main_function, int, char **, function, function, function, void *);

void *dlsym(void *, const char *);
int memfd_create(const char *, unsigned);
int dup(int);
int dup2(int, int);
int ftruncate(int, long);
long lseek(int, long, int);
ssize_t pwrite(int, const void *, size_t, long);
ssize_t pread(int, void *, size_t, long);

static main_function tested;
static int words;
static char **word, **environment;
static int text, printed;

/* An empty file, and its place at the start. */
static void clear(int file)
{
    if (ftruncate(file, 0) != 0 || lseek(file, 0, 0) != 0)
        _exit(3);
}

static size_t act(uint8_t *question, size_t length, uint8_t *answer)
{
    clear(text);
    clear(printed);
    if (pwrite(text, question, length, 0) != (ssize_t)length)
        _exit(3);
    int status = tested(words, word, environment);
    long size = lseek(printed, 0, 2);
    if (size < 0 || size > MOST_ASKED || pread(printed, answer + sizeof status, (size_t)size, 0) != size)
        _exit(3);
    memcpy(answer, &status, sizeof status);
    return sizeof status + (size_t)size;
}

static int instead(int argc, char **argv, char **envp)
{
    words = argc, word = argv, environment = envp;
    int from = dup(0), to = dup(1);
    text = memfd_create("text", 0), printed = memfd_create("printed", 0);
    if (dup2(text, 0) < 0 || dup2(printed, 1) < 0)
        _exit(3);
    serve(from, to, act);
    return 0;
}

int __libc_start_main(main_function entry, int argc, char **argv, function init, function fini, function ended, void *stack)
{
    start_function start;
    /* the next one of that name, which is the C library's */
    *(void **)&start = dlsym((void *)-1L, "__libc_start_main");
    tested = entry;
    return start(instead, argc, argv, init, fini, ended, stack);
}
