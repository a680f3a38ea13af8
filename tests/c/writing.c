/* The two writers: what they write, the room that they ask for, and what they refuse. */
#include <inttypes.h>

#include "bones.h"
#include "frames.h"
#include "lent.h"
#include "lists.h"
#include "llamas.h"
#include "reference.h"
#include "test.h"

static struct arena links_arena, record_arena, text_arena;
static struct text wanted;

typedef struct bones_count writer(uint64_t, uint64_t, const struct bones_link *, size_t, const uint8_t *, size_t, uint8_t *, size_t);

/* a writer, and its name in what is printed of a failure */
struct writing {
    writer *write;
    const char *name;
};
static const struct writing input = {bones_write_input, "the input writer"}, result = {bones_write_result, "the result writer"};

static struct bones_count writes(const struct writing *by, const struct list *list, const uint8_t *record, size_t length, size_t room)
{
    const struct bones_link *links = arena_copy_links(&links_arena, list->links, list->count);
    const uint8_t *entries = arena_copy(&record_arena, record, length);
    return by->write(list->n, list->k, links, list->count, entries, length, arena_lend(&text_arena, room), room);
}

static int is(struct bones_count count, uint32_t number, uint32_t place, size_t bytes)
{
    return count.number == number && count.place == place && count.count == bytes;
}

static int inputs_kept(const struct list *list, const uint8_t *record, size_t length)
{
    return arena_same(&links_arena, list->links, list->count * sizeof *list->links) && arena_same(&record_arena, record, length);
}

/* --- refusals --- */

static void refuses_in(const struct writing *by, const char *what, const struct list *list, const uint8_t *record, size_t length,
                       size_t room, uint32_t number, uint32_t place)
{
    struct bones_count count = writes(by, list, record, length, room);
    if (!is(count, number, place, 0))
        printf("%s: wanted %" PRIu32 " at %" PRIu32 ", got %" PRIu32 " at %" PRIu32 "\n", what, number, place, count.number, count.place);
    expect(is(count, number, place, 0), what, by->name);
    expect(inputs_kept(list, record, length) && arena_kept(&text_arena, 0), what, "a refusal changes nothing");
}

/* in room enough for any text, and in none: row 20 is tried last */
static void refuses_by(const struct writing *by, const char *what, const struct list *list, const uint8_t *record, size_t length,
                       uint32_t number, uint32_t place)
{
    refuses_in(by, what, list, record, length, BONES_TEXT, number, place);
    refuses_in(by, what, list, record, length, 0, number, place);
}

static void refuses_list(const char *what, const struct list *list, uint32_t number, uint32_t place)
{
    static const uint8_t bad[BONES_ENTRY * LLAMAS + 1];
    for (size_t length = 0; length <= sizeof bad; length += sizeof bad) { /* row 9 comes later */
        refuses_by(&input, what, list, bad, length, number, place);
        refuses_by(&result, what, list, bad, length, number, place);
    }
}

static void refusals_of_records(void)
{
    static const uint8_t record[BONES_ENTRY * LLAMAS];
    struct list list = llamas_at(2), one = {1, 1, NULL, 0};
    for (size_t length = 1; length <= sizeof record; length++)
        if (length % BONES_ENTRY != 0 || length == sizeof record) {
            refuses_by(&input, "row 9", &list, record, length, 9, 0);
            refuses_by(&result, "row 9 before 10 to 13", &list, record, length, 9, 0);
        }
    refuses_by(&input, "row 9, an entry for one bone", &one, record, BONES_ENTRY, 9, 0);
    refuses_by(&result, "row 9, an entry for one bone", &one, record, BONES_ENTRY, 9, 0);
}

/* what a writer writes in just the room and in more; in each that is too little, it writes nothing */
static void writes_text(const struct writing *by, const char *what, const struct list *list, const uint8_t *record, size_t length)
{
    size_t rooms[] = {wanted.length, wanted.length + 1, wanted.length + 100};
    for (size_t i = 0; i < sizeof rooms / sizeof *rooms; i++) {
        expect(is(writes(by, list, record, length, rooms[i]), 0, 0, wanted.length), what, by->name);
        expect(inputs_kept(list, record, length), what, "links and record are only read");
        expect(arena_wrote(&text_arena, wanted.bytes, wanted.length), what, "the text, and nothing past it");
    }
    for (size_t room = 0; room < wanted.length; room += 1 + wanted.length / 40)
        refuses_in(by, "row 20", list, record, length, room, 20, 0);
    refuses_in(by, "row 20, a byte less", list, record, length, wanted.length - 1, 20, 0);
}

/* A cut that is not lawful is refused by the result writer, in its place behind `good` lawful ones; the input writer does not look. */
static void refuses_cut(const char *what, unsigned good, unsigned pile, uint32_t weight, uint64_t mask, uint32_t number)
{
    uint8_t record[BONES_ENTRY * 4];
    struct list list = llamas_at(good == 0 ? 2 : 3);
    put_entry(record, 0, 1, 0x38);
    put_entry(record + BONES_ENTRY, 0, 2, 0x02);
    put_entry(record + BONES_ENTRY * good, pile, weight, mask);
    put_entry(record + BONES_ENTRY * (good + 1), 99, 0, 0);
    for (unsigned later = 0; later < 2; later++) {
        size_t length = BONES_ENTRY * (good + 1 + later);
        refuses_by(&result, what, &list, record, length, number, good);
        input_text(&wanted, LLAMAS, (unsigned)list.k, llama_links, LLAMAS_LINKS, record, good + 1 + later);
        writes_text(&input, "a cut that is not lawful, written as it is", &list, record, length);
    }
}

static void refusals_of_cuts(void)
{
    refuses_cut("row 10, within a pile", 0, 3, 1, 0x38, 10);
    refuses_cut("row 10, far", 0, 255, 1, 0x38, 10);
    refuses_cut("row 10 after two cuts", 2, 2, 2, 0x20, 10);
    refuses_cut("row 10 before 11", 0, 5, 1, 0, 10);
    refuses_cut("row 11, empty", 0, 0, 0, 0, 11);
    refuses_cut("row 11, least bone", 0, 0, 1, 0x07, 11);
    refuses_cut("row 11, bone 6", 0, 0, 1, 0x78, 11);
    refuses_cut("row 11 after a cut, moved already", 1, 0, 2, 0x08, 11);
    refuses_cut("row 11 before 12", 0, 0, 7, 0, 11);
    refuses_cut("row 12, one more", 0, 0, 2, 0x38, 12);
    refuses_cut("row 12, high byte", 0, 0, 0x01000001, 0x38, 12);
    refuses_cut("row 12 before 13", 0, 0, 3, 0x02, 12);
    refuses_cut("row 12, weighed in the whole list", 1, 0, 3, 0x04, 12);
    refuses_cut("row 13", 0, 0, 2, 0x02, 13);
    refuses_cut("row 13, more", 0, 0, 3, 0x04, 13);
}

/* --- what is written --- */

static void wants(const char *text)
{
    text_clear(&wanted);
    add_line(&wanted, text);
}

/* the texts that document 01 prints, and the same list before its cut, where every bone is of pile 0 */
static void printed_texts(void)
{
    struct list list = llamas_at(2), one = {1, 65535, NULL, 0};
    wants(llama_input);
    expect(wanted.length == BONES_INPUT_TEXT(7, 0), "the printed input", "length of the text");
    writes_text(&input, "the printed input", &list, NULL, 0);
    wants(llama_result);
    expect(wanted.length == BONES_RESULT_TEXT(6, 1), "the printed result", "length of the text");
    writes_text(&result, "the printed result", &list, llama_record, sizeof llama_record);
    wants("01060002f7\n040000fc\n040100fb\n040200fa\n040300f9\n040400f8\n040500f7\n060007f3\n");
    writes_text(&result, "a record that is not finished", &list, NULL, 0);
    wants("0101fffe01\n060001f9\n");
    one.k = 65534;
    writes_text(&input, "one bone", &one, NULL, 0);
    wants("0101ffff00\n040000fc\n060002f8\n");
    one.k = 65535;
    writes_text(&result, "one bone", &one, NULL, 0);
}

/* 128 bones and as many links and cuts as there may be: without links, the greatest bone of pile 0 moves out, one after another */
static void longest_texts(void)
{
    static struct bones_link links[BONES_LINKS];
    static uint8_t record[BONES_ENTRY * 127], names[BONES_MOST];
    struct list list = list_of_128(65535, 0x0102, links), none = {BONES_MOST, 1, NULL, 0};
    for (unsigned i = 0; i < 127; i++) {
        uint8_t *entry = record + BONES_ENTRY * i;
        unsigned bone = 127 - i;
        put_entry(entry, 0, 0, 0);
        entry[5 + bone / 8] = (uint8_t)(1 << bone % 8);
        names[bone] = (uint8_t)bone;
    }
    input_text(&wanted, BONES_MOST, 65535, links, BONES_LINKS, record, 127);
    expect(wanted.length == BONES_INPUT_TEXT(BONES_LINKS, 127), "4096 links and 127 cuts", "length of the text");
    writes_text(&input, "4096 links and 127 cuts", &list, record, sizeof record);
    result_text(&wanted, BONES_MOST, 1, record, 127, names);
    expect(wanted.length == BONES_RESULT_TEXT(BONES_MOST, 127), "127 cuts of 128 bones", "length of the text");
    writes_text(&result, "127 cuts of 128 bones", &none, record, sizeof record);
}

/* runs of another cutter at every length: the names that they leave so far */
static void runs_of_another(void)
{
    static struct pit pit;
    struct bones_link links[24];
    uint8_t bytes[BONES_LINK * 24], labels[BONES_MOST], record[BONES_ENTRY * BONES_MOST];
    for (unsigned i = 0; i < 20; i++) {
        uint8_t names[BONES_MOST] = {0};
        struct list list = random_list(2 + i % 7, 1 + random_below(6), links);
        bytes_of(&list, bytes);
        pit_fill(&pit, (unsigned)list.n, (uint32_t)list.k, bytes, BONES_LINK * list.count);
        unsigned cuts = cut_all(&pit, (int)(i % 2), labels, record);
        for (unsigned given = 0; given <= cuts; given++) {
            result_text(&wanted, pit.n, pit.k, record, given, names);
            writes_text(&result, "a run so far", &list, record, BONES_ENTRY * given);
            if (given < cuts)
                move_out(pit.n, names, record + BONES_ENTRY * given);
        }
    }
}

/* Runs that are only read may overlap: 21 links and 4 entries in the same 84 bytes; the first 11 links, and the last 2 entries. */
static void overlapping_runs(void)
{
    struct bones_link links[BONES_ENTRY];
    const uint8_t *bytes = (const uint8_t *)links;
    for (unsigned i = 0; i < BONES_ENTRY; i++)
        links[i] = (struct bones_link){(uint8_t)i, (uint8_t)(100 - i), (uint16_t)(1000 + 77 * i)};
    for (size_t from = 0; from <= 2; from += 2) {
        size_t count = from == 0 ? BONES_ENTRY : 11, cuts = 4 - from;
        uint8_t *text = arena_lend(&text_arena, BONES_INPUT_TEXT(count, cuts));
        input_text(&wanted, BONES_MOST, 5, links, count, bytes + BONES_ENTRY * from, cuts);
        expect(is(bones_write_input(BONES_MOST, 5, links, count, bytes + BONES_ENTRY * from, BONES_ENTRY * cuts, text, wanted.length), 0, 0,
                  wanted.length),
               "runs that overlap", input.name);
        expect(arena_same(&text_arena, wanted.bytes, wanted.length), "runs that overlap", "the text");
    }
}

void test_writing(void)
{
    arena_make(&links_arena, ARENA);
    arena_make(&record_arena, ARENA);
    arena_make(&text_arena, TEXT_ARENA);
    each_bad_list(refuses_list);
    refusals_of_records();
    refusals_of_cuts();
    printed_texts();
    longest_texts();
    runs_of_another();
    overlapping_runs();
}
