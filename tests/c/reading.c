/* The reader: what it finds in a text, the room that it asks for, and every line that it refuses. */
#include <inttypes.h>

#include "bones.h"
#include "frames.h"
#include "lent.h"
#include "llamas.h"
#include "reference.h"
#include "test.h"

static struct arena text_arena, links_arena, space_arena;
static struct text text;

static struct bones_input reads(size_t links, size_t space)
{
    const uint8_t *bytes = arena_copy(&text_arena, text.bytes, text.length);
    struct bones_link *link_room = arena_lend_links(&links_arena, links);
    return bones_read(bytes, text.length, link_room, links, arena_lend(&space_arena, space), space);
}

static int is(struct bones_input input, uint32_t number, uint32_t place, uint32_t n, uint32_t k, uint32_t links, uint32_t cuts)
{
    return input.number == number && input.place == place && input.n == n && input.k == k && input.links == links && input.cuts == cuts;
}

static void refuses_in(const char *what, size_t links, size_t space, uint32_t number, uint32_t place)
{
    struct bones_input input = reads(links, space);
    if (!is(input, number, place, 0, 0, 0, 0))
        printf("%s: wanted %" PRIu32 " at %" PRIu32 ", got %" PRIu32 " at %" PRIu32 "\n", what, number, place, input.number, input.place);
    expect(is(input, number, place, 0, 0, 0, 0), what, "refusal of the reader");
    expect(arena_same(&text_arena, text.bytes, text.length) && arena_kept(&links_arena, 0) && arena_kept(&space_arena, 0), what,
           "a refusal changes nothing");
}

/* whatever the room: none, and all that any text asks for */
static void refuses(const char *what, uint32_t number, uint32_t place)
{
    refuses_in(what, BONES_LINKS, BONES_SPACE(BONES_MOST), number, place);
    refuses_in(what, 0, 0, number, place);
}

/* the text holds this, in just the room that it asks for and in more */
static void holds(const char *what, uint32_t n, uint32_t k, const struct bones_link *links, size_t count, const uint8_t *record,
                  size_t cuts)
{
    for (size_t more = 0; more <= 50; more += 25) {
        struct bones_input input = reads(count + more, BONES_ENTRY * cuts + more);
        expect(is(input, 0, 0, n, k, (uint32_t)count, (uint32_t)cuts), what, "answer of the reader");
        expect(arena_same(&text_arena, text.bytes, text.length), what, "the text is only read");
        expect(arena_wrote(&links_arena, links, count * sizeof *links), what, "the links, and nothing past them");
        expect(arena_wrote(&space_arena, record, BONES_ENTRY * cuts), what, "the record, and nothing past it");
    }
}

/* the printed case, with the one cut or without it */
static void llamas_text(size_t cuts) { input_text(&text, LLAMAS, 2, llama_links, LLAMAS_LINKS, llama_record, cuts); }

static void texts_that_are_read(void)
{
    text_clear(&text);
    add_line(&text, llama_input);
    holds("the printed text", 6, 2, llama_links, LLAMAS_LINKS, NULL, 0);
    llamas_text(1);
    holds("the printed links with a cut", 6, 2, llama_links, LLAMAS_LINKS, llama_record, 1);
    input_text(&text, 1, 1, NULL, 0, NULL, 0);
    holds("head and close", 1, 1, NULL, 0, NULL, 0);
    static const struct bones_link wide[] = {{255, 0, 0x1234}, {128, 128, 0}, {7, 9, 0xffff}};
    input_text(&text, 2, 0x1234, wide, 3, NULL, 0);
    holds("links that no call takes are read as they are", 2, 0x1234, wide, 3, NULL, 0);
    static const unsigned heads[][2] = {{0, 0}, {0, 1}, {1, 0}, {129, 1}, {255, 65535}};
    for (size_t i = 0; i < sizeof heads / sizeof *heads; i++) {
        input_text(&text, heads[i][0], heads[i][1], NULL, 0, NULL, 0);
        holds("a head that no call takes is read as it is", heads[i][0], heads[i][1], NULL, 0, NULL, 0);
    }
}

/* notes among links and among cuts, which the close counts */
static void notes_are_passed_over(void)
{
    uint8_t record[2 * BONES_ENTRY];
    put_entry(record, 200, 0xfedcba98, UINT64_C(0x8000000000000001));
    put_entry(record + BONES_ENTRY, 0, 1, 0x38);
    text_clear(&text);
    add_head(&text, 6, 2);
    add_note(&text);
    add_link(&text, llama_links[0]);
    add_note(&text);
    add_link(&text, llama_links[1]);
    add_note(&text);
    add_cut(&text, record);
    add_note(&text);
    add_note(&text);
    add_cut(&text, record + BONES_ENTRY);
    add_note(&text);
    add_close(&text);
    holds("notes", 6, 2, llama_links, 2, record, 2);
}

/* 4,096 links and 127 cuts: so many are taken, and one more of either is not; a text of 65,536 bytes, and one more */
static void texts_at_the_limits(void)
{
    static struct bones_link links[BONES_LINKS + 1];
    static uint8_t record[BONES_ENTRY * BONES_MOST];
    for (size_t i = 0; i <= BONES_LINKS; i++)
        links[i] = (struct bones_link){(uint8_t)i, (uint8_t)(i >> 8), (uint16_t)(7 * i)};
    for (size_t i = 0; i < sizeof record; i++)
        record[i] = (uint8_t)(i * i);
    input_text(&text, 128, 9, links, BONES_LINKS, record, 127);
    expect(text.length == BONES_INPUT_TEXT(BONES_LINKS, 127), "the longest input", "length of the text");
    holds("4096 links and 127 cuts", 128, 9, links, BONES_LINKS, record, 127);
    refuses_in("row 14, one less than 4096", BONES_LINKS - 1, BONES_SPACE(BONES_MOST), 14, 0);
    refuses_in("row 8, a byte less than 127 entries", BONES_LINKS, BONES_SPACE(BONES_MOST) - 1, 8, 0);
    input_text(&text, 128, 9, links, BONES_LINKS + 1, record, 127);
    refuses("row 3", 3, 0);
    input_text(&text, 128, 9, links, BONES_LINKS + 1, record, 128);
    refuses("row 3 before 9", 3, 0);
    input_text(&text, 128, 9, links, BONES_LINKS, record, 128);
    refuses("row 9, also before 14 and 8", 9, 0);
    text_clear(&text);
    add_head(&text, 1, 1);
    add_link(&text, links[1]);
    add_link(&text, links[2]);
    for (unsigned i = 0; i < 1770; i++)
        add_note(&text);
    add_close(&text);
    expect(text.length == BONES_TEXT, "the longest text", "length of the text");
    holds("65536 bytes", 1, 1, links + 1, 2, NULL, 0);
    add_line(&text, "\n");
    refuses("row 15, before 16", 15, 0);
    memset(text.bytes, '\n', BONES_TEXT);
    text.length = BONES_TEXT;
    refuses("65536 line feeds", 16, 0);
}

static void refusals_of_room(void)
{
    llamas_text(1);
    for (size_t links = 0; links < LLAMAS_LINKS; links++) {
        refuses_in("row 14", links, BONES_ENTRY, 14, 0);
        refuses_in("row 14 before 8", links, 0, 14, 0);
    }
    for (size_t space = 0; space < BONES_ENTRY; space++)
        refuses_in("row 8", LLAMAS_LINKS, space, 8, 0);
}

/* the printed text with the line in some place put in another's stead, which is first refused by this row */
static void refuses_line(const char *what, unsigned at, const char *line, uint32_t number)
{
    const char *from = llama_input;
    text_clear(&text);
    for (unsigned i = 0; *from != 0; i++) {
        char good[80] = {0};
        size_t length = (size_t)(strchr(from, '\n') - from) + 1;
        memcpy(good, from, length);
        add_line(&text, i == at ? line : good);
        from += length;
    }
    refuses(what, number, at);
}

static void refusals_of_lines(void)
{
    for (unsigned at = 0; at < 9; at++) {
        refuses_line("row 16, empty", at, "\n", 16);
        refuses_line("row 16, a capital letter", at, "0200010001FC\n", 16);
        refuses_line("row 16, kind 00", at, "0000\n", 16);
        refuses_line("row 16, kind 08", at, "08f8\n", 16);
        refuses_line("row 16, a byte short", at, "02000100fd\n", 16);
        refuses_line("row 16, a byte long", at, "020001000100fc\n", 16);
        refuses_line("row 16, half a byte", at, "0200010001f\n", 16);
        refuses_line("row 16, carriage return", at, "0200010001fc\r\n", 16);
        refuses_line("row 16, a space", at, "0200010001 c\n", 16);
        refuses_line("row 17, one more", at, "0200010001fd\n", 17);
        refuses_line("row 17, one less", at, "0200010001fb\n", 17);
        refuses_line("row 17 before 18", at, "040000fd\n", 17);
        refuses_line("row 17 before 19", at, "060009f2\n", 17);
        refuses_line("row 18, a label", at, "040000fc\n", 18);
        refuses_line("row 18, a refusal", at, "07120000e7\n", 18);
    }
    for (unsigned at = 1; at < 9; at++) {
        refuses_line("row 18, a second head", at, "01060002f7\n", 18);
        refuses_line("row 19, one more than stand before", at, at == 8 ? "060009f1\n" : "060008f2\n", 19);
    }
    refuses_line("row 18, a link first", 0, "0200010001fc\n", 18);
    refuses_line("row 18, a note first", 0, "0500000000000000000000000000000000fb\n", 18);
    refuses_line("row 18 before 19, a close first", 0, "060008f2\n", 18);
    refuses_line("row 19, counts itself", 8, "060009f1\n", 19);
    refuses_line("row 19, high byte", 8, "060108f1\n", 19);
}

/* the llamas with a cut, and then another line, whose place is the tenth */
static void refuses_at_the_end(const char *what, const char *line, uint32_t number)
{
    llamas_text(1);
    add_line(&text, line);
    refuses(what, number, 10);
}

static void refusals_of_ends(void)
{
    text_clear(&text);
    refuses("row 18, no text", 18, 0);
    add_head(&text, 6, 2);
    refuses("row 18, no close after the head", 18, 1);
    add_cut(&text, llama_record);
    refuses("row 18, no close after a cut", 18, 2);
    add_link(&text, llama_links[0]);
    refuses("row 18, a link after a cut", 18, 2);
    llamas_text(0);
    text.length--;
    refuses("row 16, no line feed", 16, 8);
    text.length = 5;
    refuses("row 16, half a line", 16, 0);
    refuses_at_the_end("row 18, a second close", "060009f1\n", 18);
    refuses_at_the_end("row 18, a note after the close", "0500000000000000000000000000000000fb\n", 18);
    refuses_at_the_end("row 16 after the close", "\n", 16);
    refuses_at_the_end("row 17 after the close", "060009f0\n", 17);
    refuses_at_the_end("row 16 after the close, no line feed", "060009f1", 16);
}

/* the first bad line counts, whatever its row */
static void refusals_of_two_lines(void)
{
    static const struct { const char *first, *second; uint32_t number; } two[] = {
        {"0200010001fd\n", "\n", 17},       {"040000fc\n", "\n", 18},   {"060000fa\n", "\n", 19},
        {"060000fa\n", "040000fd\n", 19}, {"\n", "040000fd\n", 16},
    };
    for (size_t i = 0; i < sizeof two / sizeof *two; i++) {
        text_clear(&text);
        add_head(&text, 6, 2);
        add_line(&text, two[i].first);
        add_line(&text, two[i].second);
        refuses("the earlier line", two[i].number, 1);
    }
}

void test_reading(void)
{
    arena_make(&text_arena, TEXT_ARENA);
    arena_make(&links_arena, ARENA);
    arena_make(&space_arena, ARENA);
    texts_that_are_read();
    notes_are_passed_over();
    texts_at_the_limits();
    refusals_of_room();
    refusals_of_lines();
    refusals_of_ends();
    refusals_of_two_lines();
}
