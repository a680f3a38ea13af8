/* Thinning in both forms: what it keeps, and that it keeps the same; the room that it asks for; what it refuses. */
#include "bones.h"
#include "lent.h"
#include "lists.h"
#include "llamas.h"
#include "reference.h"
#include "test.h"

static struct arena links_arena, space_arena;
static uint8_t links_bytes[BONES_LINK * (BONES_LINKS + 1)];

static struct bones_count thin_records(const struct list *list, size_t room)
{
    const struct bones_link *links = arena_copy_links(&links_arena, list->links, list->count);
    return bones_thinning_records(list->n, list->k, links, list->count, arena_lend_links(&space_arena, room), room);
}

/* over bytes, with so many left over behind the links, and room in bytes */
static struct bones_count thin_bytes(const struct list *list, size_t left_over, size_t room)
{
    size_t length = BONES_LINK * list->count + left_over;
    bytes_of(list, links_bytes);
    const uint8_t *links = arena_copy(&links_arena, links_bytes, length);
    return bones_thinning(list->n, list->k, links, length, arena_lend(&space_arena, room), room);
}

static int is(struct bones_count count, uint32_t number, uint32_t place, uint32_t kept)
{
    return count.number == number && count.place == place && count.count == kept;
}

/* --- refusals --- */

static void refuses_records(const char *what, const struct list *list, size_t room, uint32_t number, uint32_t place)
{
    expect(is(thin_records(list, room), number, place, 0), what, "refusal of thinning over records");
    expect(arena_same(&links_arena, list->links, list->count * sizeof *list->links) && arena_kept(&space_arena, 0), what,
           "a refusal over records changes nothing");
}

static void refuses_bytes(const char *what, const struct list *list, size_t left_over, size_t room, uint32_t number, uint32_t place)
{
    expect(is(thin_bytes(list, left_over, room), number, place, 0), what, "refusal of thinning over bytes");
    expect(arena_same(&links_arena, links_bytes, BONES_LINK * list->count + left_over) && arena_kept(&space_arena, 0), what,
           "a refusal over bytes changes nothing");
}

/* in both forms, and in too little room too: row 14 is tried last */
static void refuses(const char *what, const struct list *list, uint32_t number, uint32_t place)
{
    size_t all = list->count;
    refuses_records(what, list, all, number, place);
    refuses_bytes(what, list, 0, BONES_LINK * all, number, place);
    refuses_records(what, list, 0, number, place);
    refuses_bytes(what, list, 0, BONES_LINK * all - 1, number, place);
}

static void refusals_of_bytes_left_over(void)
{
    struct list list = llamas_at(2), nothing = {LLAMAS, 2, NULL, 0};
    for (size_t more = 1; more < BONES_LINK; more++) {
        refuses_bytes("row 3, not whole", &list, more, sizeof llamas + more, 3, 0);
        refuses_bytes("row 3, less than a link", &nothing, more, 0, 3, 0);
        list.k = 0;
        refuses_bytes("row 2 before 3, not whole", &list, more, 0, 2, 0);
        list.k = 2;
    }
}

/* Room is asked for all links, even where none is kept; bytes that are no whole link are no room. */
static void refusals_of_room(uint64_t k)
{
    struct list list = llamas_at(k);
    for (size_t room = 0; room < LLAMAS_LINKS; room++)
        refuses_records("row 14", &list, room, 14, 0);
    for (size_t room = 0; room < sizeof llamas; room++)
        refuses_bytes("row 14", &list, 0, room, 14, 0);
}

/* --- what is kept --- */

static void keeps_records(const char *what, const struct list *list, size_t room, const struct bones_link *kept, size_t count)
{
    expect(is(thin_records(list, room), 0, 0, (uint32_t)count), what, "answer over records");
    expect(arena_same(&links_arena, list->links, list->count * sizeof *kept), what, "records are only read");
    expect(arena_wrote(&space_arena, kept, count * sizeof *kept), what, "the records kept, and nothing past them");
}

static void keeps_bytes(const char *what, const struct list *list, size_t room, const uint8_t *kept, size_t count)
{
    expect(is(thin_bytes(list, 0, room), 0, 0, (uint32_t)count), what, "answer over bytes");
    expect(arena_same(&links_arena, links_bytes, BONES_LINK * list->count), what, "bytes are only read");
    expect(arena_wrote(&space_arena, kept, BONES_LINK * count), what, "the bytes kept, and nothing past them");
}

static void keeps(const char *what, const struct list *list, const struct bones_link *kept, size_t count)
{
    static uint8_t bytes[BONES_LINK * BONES_LINKS];
    struct list kept_list = {list->n, list->k, kept, count};
    bytes_of(&kept_list, bytes);
    keeps_records(what, list, list->count, kept, count);
    keeps_records(what, list, list->count + 9, kept, count);
    for (size_t more = 0; more <= 5; more++)
        keeps_bytes(what, list, BONES_LINK * list->count + more, bytes, count);
}

static void cases_by_hand(void)
{
    static const struct bones_link strong[] = {{0, 1, 1}, {0, 2, 1}, {1, 2, 1}, {2, 3, 3}, {3, 4, 1}, {3, 5, 1}, {4, 5, 1}};
    static const struct bones_link both_ways[] = {{0, 1, 1}, {1, 0, 258}};
    struct list list = llamas_at(1);
    keeps("llamas at 1", &list, llama_links, 7);
    list.k = 2;
    keeps("llamas at 2, all but the last", &list, llama_links, 6);
    list.k = 3;
    keeps("llamas at 3", &list, NULL, 0);
    struct list bridge = {6, 3, strong, 7}, two = {2, 259, both_ways, 2}, none = {1, 1, NULL, 0};
    keeps("strong bridge at 3, only the bridge", &bridge, strong + 3, 1);
    keeps("two links of a pair, as they were written", &two, both_ways, 2);
    two.k = 260;
    keeps("two links of a pair, too light", &two, NULL, 0);
    keeps("one bone", &none, NULL, 0);
    none.n = BONES_MOST;
    none.k = 65535;
    keeps("128 bones without links", &none, NULL, 0);
}

/* all of 4,096 links, or none of them */
static void cases_of_128(void)
{
    static struct bones_link links[BONES_LINKS];
    struct list list = list_of_128(65535, 65535, links);
    keeps("4096 links of the greatest tally", &list, links, BONES_LINKS);
    list = list_of_128(64, 1, links);
    keeps("64 links a bone, at 64", &list, links, BONES_LINKS);
    list.k = 65;
    keeps("64 links a bone, at 65", &list, NULL, 0);
}

/* the links whose ends are of one label, by the reference's labels */
static void cases_by_reference(void)
{
    static struct pit pit;
    struct bones_link links[24], kept[24];
    uint8_t labels[BONES_MOST], record[BONES_ENTRY * BONES_MOST];
    for (unsigned i = 0; i < 60; i++) {
        struct list list = random_list(2 + i % 7, 1 + random_below(6), links);
        size_t count = 0;
        bytes_of(&list, links_bytes);
        pit_fill(&pit, (unsigned)list.n, (uint32_t)list.k, links_bytes, BONES_LINK * list.count);
        cut_all(&pit, 0, labels, record);
        for (size_t at = 0; at < list.count; at++)
            if (labels[links[at].a] == labels[links[at].b])
                kept[count++] = links[at];
        keeps("random list", &list, kept, count);
    }
}

void test_thinning(void)
{
    arena_make(&links_arena, ARENA);
    arena_make(&space_arena, ARENA);
    each_bad_list(refuses);
    refusals_of_bytes_left_over();
    refusals_of_room(1);
    refusals_of_room(3);
    cases_by_hand();
    cases_of_128();
    cases_by_reference();
}
