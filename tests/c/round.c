/* From call to call: what is written is read back the same and written again the same, and a text becomes its result. */
#include "bones.h"
#include "frames.h"
#include "lent.h"
#include "lists.h"
#include "llamas.h"
#include "reference.h"
#include "test.h"

static struct arena text_arena, links_arena, space_arena, again_arena;

static int is(struct bones_count count, size_t bytes) { return count.number == 0 && count.place == 0 && count.count == bytes; }

/* Written, read in just the room that it asks for, and written again. The second writing takes its runs where the reader put them. */
static void goes_round(const char *what, const struct list *list, const uint8_t *record, size_t cuts)
{
    size_t length = BONES_INPUT_TEXT(list->count, cuts);
    uint8_t *text = arena_lend(&text_arena, length), *again = arena_lend(&again_arena, length);
    struct bones_link *links = arena_lend_links(&links_arena, list->count);
    uint8_t *space = arena_lend(&space_arena, BONES_ENTRY * cuts);
    struct bones_count written =
        bones_write_input(list->n, list->k, list->links, list->count, record, BONES_ENTRY * cuts, text, length);
    expect(is(written, length), what, "written");
    struct bones_input input = bones_read(text, length, links, list->count, space, BONES_ENTRY * cuts);
    expect(input.number == 0 && input.n == list->n && input.k == list->k && input.links == list->count && input.cuts == cuts, what,
           "numbers read back");
    expect(arena_same(&links_arena, list->links, list->count * sizeof *links), what, "links read back");
    expect(arena_same(&space_arena, record, BONES_ENTRY * cuts), what, "cuts read back");
    written = bones_write_input(input.n, input.k, links, input.links, space, BONES_ENTRY * input.cuts, again, length);
    expect(is(written, length), what, "written again");
    expect(memcmp(text, again, length) == 0, what, "the same text");
}

static void rounds(void)
{
    static struct pit pit;
    static struct bones_link many[BONES_LINKS];
    struct bones_link links[24];
    uint8_t bytes[BONES_LINK * 24], labels[BONES_MOST], record[BONES_ENTRY * BONES_MOST];
    struct list list = llamas_at(2);
    goes_round("llamas", &list, NULL, 0);
    goes_round("llamas, cut", &list, llama_record, 1);
    for (unsigned i = 0; i < 20; i++) {
        list = random_list(2 + i % 7, 1 + random_below(65535), links);
        bytes_of(&list, bytes);
        pit_fill(&pit, (unsigned)list.n, (uint32_t)list.k, bytes, BONES_LINK * list.count);
        goes_round("random list and a finished run", &list, record, cut_all(&pit, 0, labels, record));
    }
    list = list_of_128(1, 0xfedc, many);
    memset(record, 0xb5, sizeof record);
    goes_round("4096 links and 127 entries", &list, record, 127);
}

/* The printed text, read, grouped over records and written, is the printed result. */
static void text_to_result(void)
{
    size_t length = sizeof llama_input - 1;
    const uint8_t *text = arena_copy(&text_arena, llama_input, length);
    struct bones_link *links = arena_lend_links(&links_arena, BONES_LINKS);
    uint8_t cuts[BONES_SPACE(BONES_MOST)], labels[BONES_MOST], *space = arena_lend(&space_arena, BONES_SPACE(BONES_MOST));
    struct bones_input input = bones_read(text, length, links, BONES_LINKS, cuts, sizeof cuts);
    expect(input.number == 0, "the printed text", "read");
    struct bones_answer answer = bones_grouping_records(input.n, input.k, links, input.links, cuts, BONES_ENTRY * input.cuts, labels,
                                                        sizeof labels, space, BONES_SPACE(BONES_MOST));
    expect(answer.number == 0 && answer.count == 2 && answer.finished == 1, "the printed text", "grouped");
    size_t room = sizeof llama_result - 1;
    struct bones_count written = bones_write_result(input.n, input.k, links, input.links, space, BONES_ENTRY * (answer.count - 1),
                                                    arena_lend(&again_arena, room), room);
    expect(is(written, room) && arena_same(&again_arena, llama_result, room), "the printed text", "the printed result");
}

/* Thinned, the llamas keep their groups: the doubtful link is gone, and nothing is left to cut between them but nought. */
static void thinned_list(void)
{
    struct list list = llamas_at(2);
    struct bones_link *links = arena_lend_links(&links_arena, LLAMAS_LINKS);
    uint8_t labels[LLAMAS], record[BONES_SPACE(LLAMAS)], parted[BONES_ENTRY];
    static const uint8_t halves[] = {0, 0, 0, 3, 3, 3};
    struct bones_count kept = bones_thinning_records(list.n, list.k, list.links, list.count, links, LLAMAS_LINKS);
    expect(is(kept, 6), "thinned llamas", "links kept");
    struct bones_answer answer =
        bones_grouping_records(list.n, list.k, links, kept.count, NULL, 0, labels, sizeof labels, record, sizeof record);
    put_entry(parted, 0, 0, 0x38);
    expect(answer.count == 2 && memcmp(labels, halves, sizeof halves) == 0, "thinned llamas", "the same groups");
    expect(memcmp(record, parted, sizeof parted) == 0, "thinned llamas", "a cut of nought");
}

void test_round_trips(void)
{
    arena_make(&text_arena, TEXT_ARENA);
    arena_make(&links_arena, ARENA);
    arena_make(&space_arena, ARENA);
    arena_make(&again_arena, TEXT_ARENA);
    rounds();
    text_to_result();
    thinned_list();
}
