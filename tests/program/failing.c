/*
 * Loaded before the program: its first read of standard input is carried out, and every later one fails, as a disk or a line may. Built for x86-64 by the
 * toolchain's own clang, which has no headers.
 */
typedef __SIZE_TYPE__ size_t;
typedef long ssize_t;
typedef ssize_t (*read_function)(int, void *, size_t);

void *dlsym(void *, const char *);

static int reads;

ssize_t read(int from, void *bytes, size_t length)
{
    read_function next;
    /* the next one of that name, which is the C library's */
    *(void **)&next = dlsym((void *)-1L, "read");
    return from == 0 && reads++ > 0 ? -1 : next(from, bytes, length);
}
