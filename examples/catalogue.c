/*
 * A catalogue's calls: which bones of a tray belong together, the cuts that show why the others do not, the matches that are worth
 * keeping, and all of it as texts for those who have no database.
 *
 *   ./libbones
 *   cc -Iinclude examples/catalogue.c -Llib -lbones -o catalogue && ./catalogue
 */
#include <stdio.h>
#include <string.h>

#include "bones.h"

enum { BONES = 6, THRESHOLD = 2 };

/* two llamas of three bones each, and one doubtful match between them */
static const struct bones_link MATCHES[] = {
    {0, 1, 1}, {0, 2, 1}, {1, 2, 1}, {3, 4, 1}, {3, 5, 1}, {4, 5, 1}, {2, 3, 1},
};
enum { MATCHES_COUNT = sizeof MATCHES / sizeof MATCHES[0] };

/* the four bytes of a link, as a database would store it: two bones, and the tally with its high byte first, whatever the machine's own
 * order is */
static void put_link(uint8_t *to, const struct bones_link *match)
{
    to[0] = match->a;
    to[1] = match->b;
    to[2] = (uint8_t)(match->tally >> 8);
    to[3] = (uint8_t)(match->tally & 0xff);
}

static void print_cut(const uint8_t *entry)
{
    unsigned long weight = (unsigned long)entry[1] << 24 | (unsigned long)entry[2] << 16 | (unsigned long)entry[3] << 8 | entry[4];
    printf("cut of weight %lu in pile %u, moved out:", weight, (unsigned)entry[0]);
    for (unsigned bone = 0; bone < BONES_MOST; bone++)
        if (entry[5 + bone / 8] >> bone % 8 & 1)
            printf(" %u", bone);
    printf("\n");
}

static void print_labels(const uint8_t *labels)
{
    for (unsigned bone = 0; bone < BONES; bone++)
        printf("bone %u is of group %u\n", bone, (unsigned)labels[bone]);
}

/* says why a call was refused; the caller then leaves the tray as it was, as the call did */
static int refused(const char *call, uint32_t number, uint32_t place)
{
    if (number == 0)
        return 0;
    if (number >= BONES_BAD_END && number <= BONES_BAD_TALLY)
        printf("%s: refusal %u, match %u\n", call, (unsigned)number, (unsigned)place);
    else
        printf("%s: refusal %u, place %u\n", call, (unsigned)number, (unsigned)place);
    return 1;
}

/* the matches within groups, as a text that can be read in again; what lies between groups has done its work */
static int print_kept(void)
{
    struct bones_link kept[MATCHES_COUNT];
    uint8_t text[BONES_INPUT_TEXT(MATCHES_COUNT, 0)];
    struct bones_count thinned = bones_thinning_records(BONES, THRESHOLD, MATCHES, MATCHES_COUNT, kept, MATCHES_COUNT);
    if (refused("thinning", thinned.number, thinned.place))
        return 1;
    printf("%u of %u matches lie within groups\n", (unsigned)thinned.count, (unsigned)MATCHES_COUNT);
    struct bones_count written = bones_write_input(BONES, THRESHOLD, kept, thinned.count, NULL, 0, text, sizeof text);
    if (refused("writing the matches", written.number, written.place))
        return 1;
    printf("%.*s", (int)written.count, (const char *)text);
    return 0;
}

/* the cuts and the labels as a text */
static int print_result(const uint8_t *record, size_t length)
{
    uint8_t text[BONES_RESULT_TEXT(BONES, BONES - 1)];
    struct bones_count written =
        bones_write_result(BONES, THRESHOLD, MATCHES, MATCHES_COUNT, record, length, text, sizeof text);
    if (refused("writing the result", written.number, written.place))
        return 1;
    printf("the result as a text\n%.*s", (int)written.count, (const char *)text);
    return 0;
}

int main(void)
{
    uint8_t links[BONES_LINK * MATCHES_COUNT];
    uint8_t labels[BONES], names[BONES], record[BONES_SPACE(BONES)];

    for (size_t i = 0; i < MATCHES_COUNT; i++)
        put_link(links + BONES_LINK * i, &MATCHES[i]);

    /* from nothing to a finished record: no record is given */
    struct bones_answer answer =
        bones_grouping(BONES, THRESHOLD, links, sizeof links, NULL, 0, labels, sizeof labels, record, sizeof record);
    if (refused("grouping", answer.number, answer.place))
        return 1;
    size_t length = BONES_ENTRY * (answer.count - 1);
    printf("%u groups\n", (unsigned)answer.count);
    print_labels(labels);
    for (size_t at = 0; at < length; at += BONES_ENTRY)
        print_cut(record + at);

    /* a record that was kept is judged before it is believed */
    answer = bones_checking(BONES, THRESHOLD, links, sizeof links, record, length, names, sizeof names);
    if (refused("checking", answer.number, answer.place))
        return 1;
    printf("the record is %s and its piles %s\n", answer.finished ? "finished" : "not finished",
           memcmp(names, labels, sizeof labels) == 0 ? "are the groups" : "are not the groups");

    if (print_kept() || print_result(record, length))
        return 1;

    /* a slip of the pen: a match of a bone with itself */
    links[BONES_LINK * 4] = links[BONES_LINK * 4 + 1];
    answer = bones_grouping(BONES, THRESHOLD, links, sizeof links, NULL, 0, labels, sizeof labels, record, sizeof record);
    if (refused("grouping with a slip", answer.number, answer.place))
        print_cut(record); /* still the cut from before */
    return 0;
}
