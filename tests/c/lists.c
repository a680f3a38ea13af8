#include "lists.h"

#include <string.h>

#include "llamas.h"
#include "test.h"

void bytes_of(const struct list *list, uint8_t *bytes)
{
    for (size_t i = 0; i < list->count; i++, bytes += BONES_LINK) {
        bytes[0] = list->links[i].a;
        bytes[1] = list->links[i].b;
        bytes[2] = (uint8_t)(list->links[i].tally / 256);
        bytes[3] = (uint8_t)(list->links[i].tally % 256);
    }
}

struct list llamas_at(uint64_t k)
{
    struct list list = {LLAMAS, k, llama_links, LLAMAS_LINKS};
    return list;
}

struct list random_list(unsigned n, uint64_t k, struct bones_link *links)
{
    struct list list = {n, k, links, random_below(3 * n)};
    for (size_t i = 0; i < list.count; i++) {
        links[i].a = (uint8_t)random_below(n);
        links[i].b = (uint8_t)((links[i].a + 1 + random_below(n - 1)) % n);
        links[i].tally = (uint16_t)(1 + random_below(3));
    }
    return list;
}

struct list list_of_128(uint64_t k, uint16_t tally, struct bones_link *links)
{
    struct list list = {BONES_MOST, k, links, BONES_LINKS};
    for (size_t i = 0; i < BONES_LINKS; i++)
        links[i] = (struct bones_link){(uint8_t)(i % 128), (uint8_t)((i + 1 + i / 128) % 128), tally};
    return list;
}

static void bad_numbers(refusing *refuses)
{
    static const uint64_t bad_n[] = {0, 129, 256, 256 + 6, (UINT64_C(1) << 32) + 6, UINT64_MAX};
    static const uint64_t bad_k[] = {0, 65536, 65536 + 2, (UINT64_C(1) << 32) + 2, UINT64_MAX};
    static struct bones_link bad_links[BONES_LINKS + 1];
    for (size_t i = 0; i < sizeof bad_n / sizeof *bad_n; i++) {
        struct list list = llamas_at(2);
        list.n = bad_n[i];
        refuses("row 1", &list, 1, 0);
        list.k = 0;
        refuses("row 1 before 2", &list, 1, 0);
    }
    for (size_t i = 0; i < sizeof bad_k / sizeof *bad_k; i++) {
        struct list list = llamas_at(bad_k[i]);
        refuses("row 2", &list, 2, 0);
        list.links = bad_links;
        list.count = BONES_LINKS + 1;
        refuses("row 2 before 3", &list, 2, 0);
    }
}

static void bad_counts(refusing *refuses)
{
    static struct bones_link many[BONES_LINKS + 1];
    for (size_t i = 0; i <= BONES_LINKS; i++)
        many[i] = llama_links[i % LLAMAS_LINKS];
    struct list list = {LLAMAS, 2, many, BONES_LINKS + 1};
    refuses("row 3", &list, 3, 0);
    many[0].a = 77;
    refuses("row 3 before 4", &list, 3, 0);
    list.count--;
    refuses("row 4 at the first of 4096", &list, 4, 0);
    many[0].a = 0;
    many[BONES_LINKS - 1].b = LLAMAS;
    refuses("row 4 at the last of 4096", &list, 4, BONES_LINKS - 1);
}

/* the llamas with one link changed; the others have a tally of 1, and then each another one */
static void bad_link(refusing *refuses, const char *what, size_t at, struct bones_link to, uint32_t number)
{
    struct bones_link links[LLAMAS_LINKS];
    struct list list = {LLAMAS, 2, links, LLAMAS_LINKS};
    memcpy(links, llama_links, sizeof links);
    links[at] = to;
    refuses(what, &list, number, (uint32_t)at);
    for (size_t i = 0; i < LLAMAS_LINKS; i++)
        if (i != at)
            links[i].tally = (uint16_t)(2 + 300 * i);
    refuses(what, &list, number, (uint32_t)at);
}

static void bad_links(refusing *refuses)
{
    for (size_t at = 0; at < LLAMAS_LINKS; at++) {
        uint8_t a = llama_links[at].a, b = llama_links[at].b;
        bad_link(refuses, "row 4, first end", at, (struct bones_link){LLAMAS, b, 1}, 4);
        bad_link(refuses, "row 4, second end", at, (struct bones_link){a, 255, 1}, 4);
        bad_link(refuses, "row 5", at, (struct bones_link){b, b, 256}, 5);
        bad_link(refuses, "row 6", at, (struct bones_link){a, b, 0}, 6);
        bad_link(refuses, "row 4 before 5", at, (struct bones_link){9, 9, 1}, 4);
        bad_link(refuses, "row 4 before 6", at, (struct bones_link){a, LLAMAS, 0}, 4);
        bad_link(refuses, "row 5 before 6", at, (struct bones_link){a, a, 0}, 5);
    }
    static const struct bones_link two_bad[] = {{0, 1, 1}, {1, 2, 0}, {6, 0, 1}}, loop[] = {{2, 2, 1}};
    struct list list = {LLAMAS, 2, two_bad, 3}, two = {2, 1, loop, 1};
    refuses("row 6 at an earlier link before row 4", &list, 6, 1);
    refuses("2-2 when n is 2", &two, 4, 0);
}

void each_bad_list(refusing *refuses)
{
    bad_numbers(refuses);
    bad_counts(refuses);
    bad_links(refuses);
}
