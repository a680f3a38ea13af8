/*
 * Grouping and checking, over links as bytes and over link records: every test is run in both forms. Runs of other cutters are handed
 * over at every length.
 */
#include <inttypes.h>

#include "bones.h"
#include "lent.h"
#include "llamas.h"
#include "reference.h"
#include "test.h"

/* One call: its numbers, its runs, and how much room is lent. */
struct job {
    uint64_t n, k;
    const uint8_t *links;
    size_t links_length;
    const uint8_t *record;
    size_t record_length;
    size_t labels_length, space_length;
};

/* whether the tests are run over records now */
static int over_records;

static struct arena links_arena, record_arena, labels_arena, space_arena;
static struct bones_link links_records[BONES_LINKS + 1];

static struct bones_answer call_bytes(const struct job *job, int grouping, const uint8_t *record, uint8_t *labels, uint8_t *space)
{
    const uint8_t *links = arena_copy(&links_arena, job->links, job->links_length);
    if (grouping)
        return bones_grouping(job->n, job->k, links, job->links_length, record, job->record_length, labels, job->labels_length, space,
                              job->space_length);
    return bones_checking(job->n, job->k, links, job->links_length, record, job->record_length, labels, job->labels_length);
}

static struct bones_answer call_records(const struct job *job, int grouping, const uint8_t *record, uint8_t *labels, uint8_t *space)
{
    size_t count = records_of(job->links, job->links_length, links_records);
    const struct bones_link *links = arena_copy_links(&links_arena, links_records, count);
    if (grouping)
        return bones_grouping_records(job->n, job->k, links, count, record, job->record_length, labels, job->labels_length, space,
                                      job->space_length);
    return bones_checking_records(job->n, job->k, links, count, record, job->record_length, labels, job->labels_length);
}

static struct bones_answer call(const struct job *job, int grouping)
{
    const uint8_t *record = arena_copy(&record_arena, job->record, job->record_length);
    uint8_t *labels = arena_lend(&labels_arena, job->labels_length);
    uint8_t *space = arena_lend(&space_arena, grouping ? job->space_length : 0);
    return over_records ? call_records(job, grouping, record, labels, space) : call_bytes(job, grouping, record, labels, space);
}

static int inputs_kept(const struct job *job)
{
    const void *links = over_records ? (const void *)links_records : job->links;
    size_t length = over_records ? job->links_length / BONES_LINK * sizeof *links_records : job->links_length;
    return arena_same(&links_arena, links, length) && arena_same(&record_arena, job->record, job->record_length);
}

static const uint8_t *given_labels(void) { return arena_run(&labels_arena); }
static const uint8_t *given_space(void) { return arena_run(&space_arena); }

static int is(struct bones_answer answer, uint32_t number, uint32_t place, uint32_t count, uint32_t finished)
{
    return answer.number == number && answer.place == place && answer.count == count && answer.finished == finished;
}

/* --- refusals --- */

static void refuses_in(const char *what, const struct job *job, uint32_t number, uint32_t place, int grouping)
{
    struct bones_answer answer = call(job, grouping);
    if (!is(answer, number, place, 0, 0))
        printf("%s: wanted %" PRIu32 " at %" PRIu32 ", got %" PRIu32 " at %" PRIu32 "\n", what, number, place, answer.number, answer.place);
    expect(is(answer, number, place, 0, 0), what, grouping ? "refusal of grouping" : "refusal of checking");
    expect(inputs_kept(job) && arena_kept(&labels_arena, 0) && arena_kept(&space_arena, 0), what, "a refusal changes nothing");
}

/* Both calls refuse alike, but that checking has no record space to be short of. */
static void refuses(const char *what, const struct job *job, uint32_t number, uint32_t place)
{
    refuses_in(what, job, number, place, 1);
    if (number != BONES_BAD_SPACE)
        refuses_in(what, job, number, place, 0);
}

static struct job llamas_job(uint64_t k)
{
    struct job job = {LLAMAS, k, llamas, sizeof llamas, NULL, 0, LLAMAS, BONES_SPACE(LLAMAS)};
    return job;
}

static void refusals_of_numbers(void)
{
    static const uint64_t bad_n[] = {0, 129, 256, 256 + 6, (UINT64_C(1) << 32) + 6, UINT64_MAX};
    static const uint64_t bad_k[] = {0, 65536, 65536 + 2, (UINT64_C(1) << 32) + 2, UINT64_MAX};
    for (size_t i = 0; i < sizeof bad_n / sizeof *bad_n; i++) {
        struct job job = llamas_job(2);
        job.n = bad_n[i];
        refuses("row 1", &job, 1, 0);
        job.k = 0;
        refuses("row 1 before 2", &job, 1, 0);
    }
    for (size_t i = 0; i < sizeof bad_k / sizeof *bad_k; i++) {
        struct job job = llamas_job(bad_k[i]);
        refuses("row 2", &job, 2, 0);
        job.links_length = 5;
        refuses("row 2 before 3", &job, 2, 0);
    }
}

static void refusals_of_runs(void)
{
    static uint8_t many[BONES_LINK * (BONES_LINKS + 1)];
    for (size_t i = 0; i < sizeof many; i += BONES_LINK)
        memcpy(many + i, llamas + i % sizeof llamas, BONES_LINK);
    struct job job = llamas_job(2);
    for (size_t length = 1; length < 10; length++) {
        job.links_length = length;
        if (length % BONES_LINK != 0 && !over_records)
            refuses("row 3, not whole", &job, 3, 0);
    }
    job.links = many;
    for (size_t less = 0; less < BONES_LINK && !(over_records && less > 0); less++) {
        job.links_length = sizeof many - less;
        refuses("row 3, too many", &job, 3, 0);
    }
    many[0] = 77;
    job.links_length = sizeof many;
    refuses("row 3 before 4", &job, 3, 0);
    job.links_length -= BONES_LINK;
    refuses("row 4 at 4096 links", &job, 4, 0);
    many[0] = 0;
    many[BONES_LINK * 4095 + 1] = 6;
    refuses("row 4 at the last of 4096", &job, 4, 4095);
}

/* the links of the llamas with one byte, or two, changed */
static void refuses_changed(const char *what, size_t link, int at, uint8_t to, int at2, uint8_t to2, uint32_t number, uint32_t place)
{
    uint8_t links[sizeof llamas];
    memcpy(links, llamas, sizeof links);
    links[BONES_LINK * link + (size_t)at] = to;
    links[BONES_LINK * link + (size_t)at2] = to2;
    struct job job = llamas_job(2);
    job.links = links;
    refuses(what, &job, number, place);
    job.labels_length = 0;
    refuses("links before labels", &job, number, place);
}

static void refusals_of_links(void)
{
    for (size_t link = 0; link < LLAMAS_LINKS; link++) {
        uint8_t a = llamas[BONES_LINK * link], b = llamas[BONES_LINK * link + 1];
        uint32_t place = (uint32_t)link;
        refuses_changed("row 4, first end", link, 0, 6, 0, 6, 4, place);
        refuses_changed("row 4, second end", link, 1, 255, 1, 255, 4, place);
        refuses_changed("row 5", link, 0, b, 0, b, 5, place);
        refuses_changed("row 6", link, 3, 0, 3, 0, 6, place);
        refuses_changed("row 4 before 5", link, 0, 9, 1, 9, 4, place);
        refuses_changed("row 5 before 6", link, 1, a, 3, 0, 5, place);
        refuses_changed("row 4 before 6", link, 0, 6, 3, 0, 4, place);
    }
    uint8_t links[sizeof llamas];
    memcpy(links, llamas, sizeof links);
    links[BONES_LINK * 2 + 3] = 0;
    links[BONES_LINK * 3] = 6;
    struct job job = llamas_job(2);
    job.links = links;
    refuses("row 6 at an earlier link before row 4", &job, 6, 2);
    static const uint8_t loop[] = {2, 2, 0, 1};
    struct job two = {2, 1, loop, sizeof loop, NULL, 0, 2, BONES_ENTRY};
    refuses("2-2 when n is 2", &two, 4, 0);
}

static void refusals_of_room(void)
{
    uint8_t record[BONES_ENTRY * LLAMAS] = {0};
    struct job job = llamas_job(2);
    job.record = record;
    for (size_t length = 0; length < LLAMAS; length++) {
        job.labels_length = length;
        job.space_length = 0;
        job.record_length = 1;
        refuses("row 7 before 8 and 9", &job, 7, 0);
    }
    job.labels_length = LLAMAS;
    for (size_t length = 0; length < BONES_SPACE(LLAMAS); length += 13) {
        job.space_length = length;
        refuses("row 8 before 9", &job, 8, 0);
    }
    job.space_length = BONES_SPACE(LLAMAS) - 1;
    refuses("row 8", &job, 8, 0);
    job.space_length++;
    for (size_t length = 1; length <= sizeof record; length++) {
        job.record_length = length;
        if (length % BONES_ENTRY != 0 || length == sizeof record)
            refuses("row 9 before 10 to 13", &job, 9, 0);
    }
    struct job one = {1, 1, NULL, 0, record, BONES_ENTRY, 1, 0};
    refuses("row 9, an entry for one bone", &one, 9, 0);
}

/* a record with one bad cut after `good` lawful ones: pile 0 loses 3 4 5, which are cut no further at k = 3 */
static void refuses_cut(const char *what, unsigned good, unsigned pile, uint32_t weight, uint64_t mask, uint32_t number)
{
    uint8_t record[BONES_ENTRY * 5];
    put_entry(record, 0, 1, 0x38);
    put_entry(record + BONES_ENTRY, 0, 2, 0x02);
    put_entry(record + BONES_ENTRY * good, pile, weight, mask);
    put_entry(record + BONES_ENTRY * (good + 1), 99, 0, 0);
    struct job job = llamas_job(good == 0 ? 2 : 3);
    job.record = record;
    job.record_length = BONES_ENTRY * (good + 2);
    refuses(what, &job, number, good);
    job.record_length -= BONES_ENTRY;
    refuses(what, &job, number, good);
}

static void refusals_of_cuts(void)
{
    refuses_cut("row 10, within a pile", 0, 3, 1, 0x38, 10);
    refuses_cut("row 10, no such bone", 0, 6, 1, 0x38, 10);
    refuses_cut("row 10, far", 0, 255, 1, 0x38, 10);
    refuses_cut("row 10 after a cut", 1, 4, 2, 0x20, 10);
    refuses_cut("row 10 after two cuts", 2, 2, 2, 0x20, 10);
    refuses_cut("row 10 before 11", 0, 5, 1, 0, 10);
    refuses_cut("row 11, empty", 0, 0, 0, 0, 11);
    refuses_cut("row 11, least bone", 0, 0, 1, 0x07, 11);
    refuses_cut("row 11, all bones", 0, 0, 0, 0x3f, 11);
    refuses_cut("row 11, bone 6", 0, 0, 1, 0x78, 11);
    refuses_cut("row 11, bone 63", 0, 0, 1, (UINT64_C(1) << 63) | 0x38, 11);
    refuses_cut("row 11 after a cut, moved already", 1, 0, 2, 0x08, 11);
    refuses_cut("row 11 after a cut, least bone of 3", 1, 3, 2, 0x08, 11);
    refuses_cut("row 11 after two cuts", 2, 0, 1, 0x02, 11);
    refuses_cut("row 11 before 12", 0, 0, 7, 0, 11);
    refuses_cut("row 12, one more", 0, 0, 2, 0x38, 12);
    refuses_cut("row 12, one less", 0, 0, 0, 0x38, 12);
    refuses_cut("row 12, high byte", 0, 0, 0x01000001, 0x38, 12);
    refuses_cut("row 12, second byte", 0, 0, 0x00010001, 0x38, 12);
    refuses_cut("row 12 before 13", 0, 0, 3, 0x02, 12);
    refuses_cut("row 12, weighed in the whole list", 1, 0, 3, 0x04, 12);
    refuses_cut("row 12 after two cuts", 2, 0, 2, 0x04, 12);
    refuses_cut("row 13", 0, 0, 2, 0x02, 13);
    refuses_cut("row 13, more", 0, 0, 3, 0x04, 13);
}

/* bits of a side beyond the 64 that the masks reach, and a weight of four full bytes */
static void refusals_of_far_cuts(void)
{
    uint8_t record[BONES_ENTRY], heavy[BONES_LINK * BONES_LINKS];
    struct job job = llamas_job(2);
    job.record = record;
    job.record_length = sizeof record;
    for (unsigned bone = 64; bone < BONES_MOST; bone++) {
        put_entry(record, 0, 1, 0x38);
        record[5 + bone / 8] |= (uint8_t)(1 << bone % 8);
        refuses("row 11, far bone", &job, 11, 0);
    }
    for (size_t i = 0; i < sizeof heavy; i += BONES_LINK)
        memcpy(heavy + i, "\000\001\377\377", BONES_LINK);
    struct job two = {2, 65535, heavy, sizeof heavy, record, sizeof record, 2, BONES_ENTRY};
    put_entry(record, 0, UINT32_C(268431360), 2);
    refuses("row 13, all tallies", &two, 13, 0);
    put_entry(record, 0, UINT32_C(268431359), 2);
    refuses("row 12, one less than all tallies", &two, 12, 0);
}

/* 13 after a cut: bone 0 with 1 and 2 in a triangle of tally 2, 3 hangs on by 1 */
static void refusal_of_a_later_heavy_cut(void)
{
    static const uint8_t links[] = {0, 1, 0, 2, 1, 2, 0, 2, 0, 2, 0, 2, 2, 3, 0, 1};
    uint8_t record[BONES_ENTRY * 2];
    put_entry(record, 0, 1, 0x8);
    put_entry(record + BONES_ENTRY, 0, 4, 0x4);
    struct job job = {4, 4, links, sizeof links, record, sizeof record, 4, BONES_SPACE(4)};
    refuses("row 13 after a cut", &job, 13, 1);
}

/* error 5: each cut is lawful in its own place only */
static void refusal_of_a_reordered_run(void)
{
    uint8_t run[BONES_ENTRY * 5], other[sizeof run];
    put_entry(run, 0, 1, 0x38);                     /* 3 4 5 from the rest */
    put_entry(run + BONES_ENTRY, 0, 2, 0x02);       /* 1 from 0 2 */
    put_entry(run + BONES_ENTRY * 2, 0, 1, 0x04);   /* 2 from 0 */
    put_entry(run + BONES_ENTRY * 3, 3, 2, 0x20);   /* 5 from 3 4 */
    put_entry(run + BONES_ENTRY * 4, 3, 1, 0x10);   /* 4 from 3 */
    static const struct { int a, b; uint32_t number, place; } swaps[] = {
        {1, 2, 12, 1}, {3, 4, 12, 3}, {0, 1, 0, 0}, {0, 3, 10, 0}, {2, 3, 0, 0}, {1, 3, 12, 2}, {0, 2, 12, 0},
    };
    for (size_t i = 0; i < sizeof swaps / sizeof *swaps; i++) {
        memcpy(other, run, sizeof run);
        memcpy(other + BONES_ENTRY * swaps[i].a, run + BONES_ENTRY * swaps[i].b, BONES_ENTRY);
        memcpy(other + BONES_ENTRY * swaps[i].b, run + BONES_ENTRY * swaps[i].a, BONES_ENTRY);
        struct job job = llamas_job(3);
        job.record = other;
        job.record_length = sizeof other;
        if (swaps[i].number != 0)
            refuses("a reordered run", &job, swaps[i].number, swaps[i].place);
        else
            expect(is(call(&job, 0), 0, 0, 6, 1), "a reordered run", "a reordered run that is lawful still");
    }
}

/* --- calls that are carried out --- */

static uint32_t sum_of_weights(const uint8_t *record, size_t length)
{
    uint32_t sum = 0;
    for (size_t at = 0; at < length; at += BONES_ENTRY)
        sum += stated_weight(record + at);
    return sum;
}

static int run_is_lawful(const struct job *job, const uint8_t *record, size_t length, uint8_t *names)
{
    static struct pit pit;
    pit_fill(&pit, (unsigned)job->n, (uint32_t)job->k, job->links, job->links_length);
    memset(names, 0, BONES_MOST);
    for (size_t at = 0; at < length; at += BONES_ENTRY)
        if (!lawful(&pit, names, record + at))
            return 0;
    return 1;
}

/* Grouping gives these labels; then checking its record finds it finished, and grouping it again adds nothing. */
static void groups(const char *what, const struct job *job, uint32_t count, const uint8_t *labels)
{
    uint8_t names[BONES_MOST], record[BONES_ENTRY * (BONES_MOST - 1)];
    size_t n = (size_t)job->n, length = BONES_ENTRY * (size_t)(count - 1);
    struct bones_answer answer = call(job, 1);
    expect(is(answer, 0, 0, count, 1), what, "answer of grouping");
    if (answer.number != 0 || answer.count != count)
        return;
    expect(inputs_kept(job), what, "links and record are only read");
    expect(memcmp(given_labels(), labels, n) == 0, what, "labels");
    expect(arena_kept(&labels_arena, n), what, "nothing past the labels");
    expect(arena_kept(&space_arena, length), what, "nothing past the record");
    expect(job->record_length == 0 || memcmp(given_space(), job->record, job->record_length) == 0, what, "the given cuts are kept");
    if (length != 0)
        memcpy(record, given_space(), length);
    expect(run_is_lawful(job, record, length, names) && memcmp(names, labels, n) == 0, what, "the run is lawful");

    struct job again = *job;
    again.record = record;
    again.record_length = length;
    expect(is(call(&again, 0), 0, 0, count, 1), what, "its own record is finished");
    expect(memcmp(given_labels(), labels, n) == 0 && arena_kept(&labels_arena, n), what, "names of a finished run are the labels");
    expect(is(call(&again, 1), 0, 0, count, 1), what, "its own record is kept");
    expect((length == 0 || memcmp(given_space(), record, length) == 0) && arena_kept(&space_arena, length), what, "nothing is added");
}

/* the same with room to spare, and the weights of an empty start adding up */
static void groups_case(const char *what, unsigned n, uint32_t k, const uint8_t *links, size_t length, uint32_t count,
                        const uint8_t *labels, uint32_t sum)
{
    struct job job = {n, k, links, length, NULL, 0, n, BONES_SPACE(n)};
    groups(what, &job, count, labels);
    call(&job, 1);
    expect(sum_of_weights(given_space(), BONES_ENTRY * (size_t)(count - 1)) == sum, what, "the weights add up");
    job.labels_length += 40;
    job.space_length += 100;
    groups(what, &job, count, labels);
}

static void cases_of_two(void)
{
    static const uint8_t three[] = {0, 1, 0, 3}, both_ways[] = {0, 1, 0, 1, 1, 0, 0, 2};
    static const uint8_t together[] = {0, 0}, apart[] = {0, 1};
    groups_case("one bone", 1, 1, NULL, 0, 1, together, 0);
    groups_case("one bone, great k", 1, 65535, NULL, 0, 1, together, 0);
    groups_case("two bones, no links", 2, 1, NULL, 0, 2, apart, 0);
    groups_case("tally 3 at 3", 2, 3, three, sizeof three, 1, together, 0);
    groups_case("tally 3 at 4", 2, 4, three, sizeof three, 2, apart, 3);
    groups_case("1 and 2 at 3", 2, 3, both_ways, sizeof both_ways, 1, together, 0);
    groups_case("1 and 2 at 4", 2, 4, both_ways, sizeof both_ways, 2, apart, 3);
}

static void cases_of_llamas(void)
{
    static const uint8_t all[6] = {0}, halves[] = {0, 0, 0, 3, 3, 3}, singles[] = {0, 1, 2, 3, 4, 5}, bridge[] = {0, 1, 2, 2, 4, 5};
    uint8_t strong[sizeof llamas];
    memcpy(strong, llamas, sizeof llamas);
    strong[sizeof strong - 1] = 3;
    groups_case("llamas at 1", 6, 1, llamas, sizeof llamas, 1, all, 0);
    groups_case("llamas at 2", 6, 2, llamas, sizeof llamas, 2, halves, 1);
    groups_case("llamas at 3", 6, 3, llamas, sizeof llamas, 6, singles, 7);
    groups_case("strong bridge at 2", 6, 2, strong, sizeof strong, 1, all, 0);
    groups_case("strong bridge at 3", 6, 3, strong, sizeof strong, 5, bridge, 6);
    static const uint8_t paths[] = {0, 2, 0, 1, 0, 3, 0, 1, 0, 4, 0, 1, 1, 2, 0, 1, 1, 3, 0, 1, 1, 4, 0, 1};
    groups_case("three paths at 2", 5, 2, paths, sizeof paths, 1, all, 0);
    groups_case("three paths at 3", 5, 3, paths, sizeof paths, 5, singles, 6);
}

/* 4,096 links of 65,535: every bone of 128 with the 32 that follow it; and none at all */
static void cases_of_128(void)
{
    static uint8_t links[BONES_LINK * BONES_LINKS];
    static uint8_t all[BONES_MOST], singles[BONES_MOST];
    for (size_t i = 0; i < BONES_LINKS; i++) {
        uint8_t *link = links + BONES_LINK * i;
        link[0] = (uint8_t)(i % 128);
        link[1] = (uint8_t)((i + 1 + i / 128) % 128);
        link[2] = link[3] = 0xff;
    }
    for (unsigned bone = 0; bone < BONES_MOST; bone++)
        singles[bone] = (uint8_t)bone;
    groups_case("128 bones, all tallies the greatest", 128, 65535, links, sizeof links, 1, all, 0);
    groups_case("128 bones, no links", 128, 1, NULL, 0, 128, singles, 0);
    for (size_t i = 0; i < BONES_LINKS; i++) {
        links[BONES_LINK * i + 2] = 0;
        links[BONES_LINK * i + 3] = 1;
    }
    groups_case("128 bones, 64 links each, at 64", 128, 64, links, sizeof links, 1, all, 0);
    groups_case("128 bones, 64 links each, at 65", 128, 65, links, sizeof links, 128, singles, 4096);
}

/* --- runs of two other cutters, handed over at every length --- */

static void picks_up(const char *what, const struct job *list, int down)
{
    static struct pit pit;
    uint8_t labels[BONES_MOST], names[BONES_MOST] = {0}, record[BONES_ENTRY * BONES_MOST];
    pit_fill(&pit, (unsigned)list->n, (uint32_t)list->k, list->links, list->links_length);
    unsigned cuts = cut_all(&pit, down, labels, record);
    for (unsigned given = 0; given <= cuts; given++) {
        struct job job = *list;
        job.record = record;
        job.record_length = BONES_ENTRY * given;
        groups(what, &job, cuts + 1, labels);
        expect(is(call(&job, 0), 0, 0, given + 1, given == cuts), what, "piles of a run so far, and whether it is finished");
        expect(memcmp(given_labels(), names, pit.n) == 0 && arena_kept(&labels_arena, pit.n), what, "names of a run so far");
        if (given < cuts)
            move_out(pit.n, names, record + BONES_ENTRY * given);
    }
}

static size_t random_links(unsigned n, uint8_t *links)
{
    size_t count = random_below(3 * n);
    for (size_t i = 0; i < count; i++) {
        uint8_t *link = links + BONES_LINK * i;
        link[0] = (uint8_t)random_below(n);
        link[1] = (uint8_t)((link[0] + 1 + random_below(n - 1)) % n);
        link[2] = 0;
        link[3] = (uint8_t)(1 + random_below(3));
    }
    return BONES_LINK * count;
}

static void runs_of_others(void)
{
    uint8_t links[BONES_LINK * 3 * 8];
    for (uint64_t k = 1; k <= 4; k++) {
        struct job job = llamas_job(k);
        picks_up("llamas, cutter up", &job, 0);
        picks_up("llamas, cutter down", &job, 1);
    }
    for (unsigned i = 0; i < 60; i++) {
        unsigned n = 2 + i % 7;
        struct job job = {n, 1 + random_below(6), links, random_links(n, links), NULL, 0, n, BONES_SPACE(n)};
        picks_up("random list, cutter up", &job, 0);
        picks_up("random list, cutter down", &job, 1);
    }
}

static void in_one_form(void)
{
    refusals_of_numbers();
    refusals_of_runs();
    refusals_of_links();
    refusals_of_room();
    refusals_of_cuts();
    refusals_of_far_cuts();
    refusal_of_a_later_heavy_cut();
    refusal_of_a_reordered_run();
    cases_of_two();
    cases_of_llamas();
    cases_of_128();
    runs_of_others();
}

/* Record space is asked for an entry fewer than bones, and none of it for none. */
static void space_asked(void)
{
    expect(BONES_SPACE(0) == 0 && BONES_SPACE(1) == 0 && BONES_SPACE(2) == 21 && BONES_SPACE(BONES_MOST) == 2667, "BONES_SPACE",
           "n - 1 entries");
    struct job job = llamas_job(2);
    job.n = 0;
    job.space_length = BONES_SPACE(job.n);
    refuses("row 1 with the space of no bones", &job, 1, 0);
}

void test_calls(void)
{
    arena_make(&links_arena, ARENA);
    arena_make(&record_arena, ARENA);
    arena_make(&labels_arena, ARENA);
    arena_make(&space_arena, ARENA);
    space_asked();
    in_one_form();
    over_records = 1;
    in_one_form();
}
