/*
 * bones.h: which bones of a pit belong together.
 *
 * Bones are numbered from 0. A link says that two bones were matched and carries a tally of matching traits. A set of bones is firm
 * at a threshold k if every way of parting it into two sides parts tallies of k or more in all. Each bone lies in exactly one largest
 * firm set, its group; the label of a bone is the least bone number of its group. A record is a run of cuts that takes the heap of all
 * bones apart into its groups, one pile after another.
 *
 *   bones_grouping      finishes a record (often an empty one) and gives every bone its label
 *   bones_checking      judges a record that was made elsewhere and says whether it is finished
 *   bones_thinning      keeps the links whose two bones share a group
 *   bones_read          reads an input text: n, k, links and a record
 *   bones_write_input   writes that text
 *   bones_write_result  writes a result text: the cuts of a record, and the pile name that they leave for every bone
 *
 * The first three take links as runs of bytes, which may come from anywhere. Under a name with _records they do the same on arrays of
 * struct bones_link. The three on texts have their links in such arrays too.
 *
 * Link with lib/libbones.a, which the command ./libbones proves and builds: cc -Iinclude prog.c -Llib -lbones
 *
 * Numbers
 *   n        bones, 1 to 128
 *   k        threshold, 1 to 65535
 *   A number out of range is refused, never cut down to fit: both are 64 bits wide here for that reason.
 *
 * Runs: each is a pointer, then a length. A name that ends in _length is IN BYTES, one that ends in _count IN LINKS.
 *   links    at most BONES_LINKS links. The two bones may stand in either order. Several links of one pair add up.
 *            As bytes: BONES_LINK bytes a link, a bone, another bone, and the tally in two bytes, high byte first.
 *            As records: an array of struct bones_link, aligned as the compiler aligns it, the tally in the machine's own order.
 *   record   BONES_ENTRY bytes an entry, at most n - 1 entries, as they were written by bones_grouping or elsewhere:
 *              byte 0         the name of the pile that is cut: its least bone
 *              bytes 1 to 4   the weight of the cut in that pile as it then stands, high byte first; it is below k
 *              bytes 5 to 20  the side that moves out, never the pile's least bone: bone b is the bit worth 1 << (b % 8) of byte
 *                             5 + b / 8. The moved bones become a pile under their own least bone.
 *   text     what bones_read reads: at most BONES_TEXT bytes, with no NUL at the end.
 *   A run of length 0 may have a NULL pointer. The length of every other run is the caller's word: that much is there.
 *
 * Room that is written
 *   labels   room for n bytes or more. Byte b becomes the label (checking: the pile name) of bone b.
 *   space    grouping: room for BONES_SPACE(n) bytes or more. The given record is copied to its start and the new entries follow. When
 *            grouping has given `count` groups, the record in space is BONES_ENTRY * (count - 1) bytes long.
 *            thinning: room for as many links as are given, whole ones, in the form in which they are given, even if fewer are kept.
 *            The `count` links that are kept stand at its start, in their order.
 *            reading: room for BONES_ENTRY bytes a cut of the text. BONES_SPACE(BONES_MOST) bytes are enough for any.
 *   links    reading: room for the links of the text. BONES_LINKS links are enough for any.
 *   text     writing: room for the text or more: BONES_INPUT_TEXT(links, cuts) bytes, or BONES_RESULT_TEXT(n, cuts). No NUL is added.
 *
 * Texts
 *   A text is lines of lower-case hexadecimal. bones_write_input writes one of n, k, links and a record, and bones_read gives back the
 *   same n and k, the same links in their order and the same record: the first `links` links and the first BONES_ENTRY * `cuts` bytes of
 *   its two rooms. Any text that was written is short enough to be read. Texts from elsewhere may also hold notes, which are passed
 *   over. The reader looks at the text alone: whether n, k, links and cuts are any good, the call that they are given to next will say.
 *   So from a text to its groups: bones_read, then bones_grouping_records with what was read and a second record space, then
 *   bones_write_result with the record that grouping left. Links as bytes become records one by one, and back:
 *     link->a = bytes[0], link->b = bytes[1], link->tally = (uint16_t)(bytes[2] << 8 | bytes[3]);
 *     bytes[0] = link->a, bytes[1] = link->b, bytes[2] = (uint8_t)(link->tally >> 8), bytes[3] = (uint8_t)(link->tally & 0xff);
 *
 * Who owns what
 *   The caller owns every run; nothing is kept after the call, nothing is allocated, and no other memory is changed. Calls from
 *   several threads do not disturb each other. A call uses some 70 KB of stack, bones_read hardly any. Room that is
 *   written must not overlap other room that is written, nor a run that is read: no list is thinned, and no record finished, in its own
 *   place. Runs that are only read may overlap.
 *
 * What comes back
 *   `number` is 0 when the call was carried out. Then labels holds n new bytes, space (grouping) the finished record, and so on as said
 *   above, and every byte past what was written is as it was. Which cuts grouping adds is its own choice among the lawful ones;
 *   nothing else is.
 *   Any other `number` is a refusal, BONES_BAD_.. below, with its place (counted from 0): the other fields are 0, and no byte of any
 *   run has changed. The refusals are tried in this order, and the first that applies is given; of links, of entries and of lines, the
 *   first bad one counts:
 *     grouping        1 2 3; 4 5 6 on each link in turn; 7 8 9; 10 11 12 13 on each entry in turn
 *     checking        the same without 8
 *     thinning        1 2 3; 4 5 6 on each link; 14
 *     reading         15; 16 17 18 19 on each line; 3 9 14 8
 *     write_input     1 2 3; 4 5 6 on each link; 9 20. It does not look into the entries.
 *     write_result    1 2 3; 4 5 6 on each link; 9; 10 11 12 13 on each entry; 20
 */
#ifndef BONES_H
#define BONES_H

#include <stddef.h>
#include <stdint.h>

#ifdef __cplusplus
extern "C" {
#endif

/* the greatest number of bones, of links, and of bytes of a text that is read */
#define BONES_MOST 128
#define BONES_LINKS 4096
#define BONES_TEXT 65536

/* bytes of a link, and of an entry of a record */
#define BONES_LINK 4
#define BONES_ENTRY 21

/* bytes of record space that grouping n bones asks for: an entry fewer than bones, and none for no bones, which are refused */
#define BONES_SPACE(n) (BONES_ENTRY * ((size_t)(n) - ((size_t)(n) != 0)))

/* bytes of the text that bones_write_input writes of so many links and cuts, and bones_write_result of so many bones and cuts */
#define BONES_INPUT_TEXT(links, cuts) (20 + 13 * (size_t)(links) + 47 * (size_t)(cuts))
#define BONES_RESULT_TEXT(n, cuts) (20 + 9 * (size_t)(n) + 47 * (size_t)(cuts))

/* refusals; the order in which a call tries them is said above */
enum {
    BONES_BAD_N = 1,           /* n is 0 or over 128 */
    BONES_BAD_K = 2,           /* k is 0 or over 65535 */
    BONES_BAD_LINKS = 3,       /* over 4096 links, or a length in bytes that is not whole links */
    BONES_BAD_END = 4,         /* a bone of a link is n or more; place: the link */
    BONES_BAD_LOOP = 5,        /* a link of a bone with itself; place: the link */
    BONES_BAD_TALLY = 6,       /* a tally of nought; place: the link */
    BONES_BAD_LABELS = 7,      /* labels shorter than n bytes */
    BONES_BAD_SPACE = 8,       /* space shorter than BONES_SPACE(n) bytes; reading: than BONES_ENTRY bytes for each cut read */
    BONES_BAD_RECORD = 9,      /* the record is not whole entries, or over n - 1 of them; reading: over 127 cuts */
    BONES_BAD_PILE = 10,       /* a cut of a pile that does not stand; place: the entry */
    BONES_BAD_SIDE = 11,       /* a side that is empty, holds the pile's least bone or a bone outside the pile; place: the entry */
    BONES_BAD_WEIGHT = 12,     /* the stated weight is wrong; place: the entry */
    BONES_BAD_CUT = 13,        /* the weight is k or more; place: the entry */
    BONES_BAD_LINK_SPACE = 14, /* link space shorter than the links given or read */
    BONES_BAD_TEXT = 15,       /* a text of over 65536 bytes */
    BONES_BAD_LINE = 16,       /* a line that is not well formed; place: the line */
    BONES_BAD_SUM = 17,        /* a line whose sum is not nought; place: the line */
    BONES_BAD_ORDER = 18,      /* a frame out of its order, or no close; place: the line, for a missing close that after the last */
    BONES_BAD_CLOSE = 19,      /* a close with a wrong count; place: the line */
    BONES_BAD_TEXT_SPACE = 20  /* text space shorter than the text */
};

/* a link as a record */
struct bones_link {
    uint8_t a, b;   /* the two bones */
    uint16_t tally; /* of matching traits */
};

/* of grouping and checking */
struct bones_answer {
    uint32_t number;   /* 0, or the refusal */
    uint32_t place;    /* of a refusal: the link or the entry, from 0; else 0 */
    uint32_t count;    /* grouping: groups; checking: piles */
    uint32_t finished; /* grouping: 1; checking: 1 if no pile can be cut further, else 0 */
};

/* of thinning and the writers */
struct bones_count {
    uint32_t number; /* 0, or the refusal */
    uint32_t place;  /* of a refusal: the link or the entry, from 0; else 0 */
    uint32_t count;  /* thinning: links kept; writers: bytes written */
};

/* of the reader */
struct bones_input {
    uint32_t number; /* 0, or the refusal */
    uint32_t place;  /* of a refusal: the line, from 0; else 0 */
    uint32_t n;      /* as the text says, whatever that is: 0 to 255 */
    uint32_t k;      /* 0 to 65535 */
    uint32_t links;  /* links read */
    uint32_t cuts;   /* entries read */
};

/* Finishes the record given and labels every bone with its group. */
struct bones_answer bones_grouping(uint64_t n, uint64_t k,
                                   const uint8_t *links, size_t links_length,
                                   const uint8_t *record, size_t record_length,
                                   uint8_t *labels, size_t labels_length,
                                   uint8_t *space, size_t space_length);

/* Judges the record given and writes the name of the pile in which it leaves every bone. These are the labels of the groups exactly
 * when the record is finished. */
struct bones_answer bones_checking(uint64_t n, uint64_t k,
                                   const uint8_t *links, size_t links_length,
                                   const uint8_t *record, size_t record_length,
                                   uint8_t *labels, size_t labels_length);

/* Writes the links whose two bones share a group, in their order. */
struct bones_count bones_thinning(uint64_t n, uint64_t k,
                                  const uint8_t *links, size_t links_length,
                                  uint8_t *space, size_t space_length);

/* The same three on links that are records. */
struct bones_answer bones_grouping_records(uint64_t n, uint64_t k,
                                           const struct bones_link *links, size_t links_count,
                                           const uint8_t *record, size_t record_length,
                                           uint8_t *labels, size_t labels_length,
                                           uint8_t *space, size_t space_length);

struct bones_answer bones_checking_records(uint64_t n, uint64_t k,
                                           const struct bones_link *links, size_t links_count,
                                           const uint8_t *record, size_t record_length,
                                           uint8_t *labels, size_t labels_length);

struct bones_count bones_thinning_records(uint64_t n, uint64_t k,
                                          const struct bones_link *links, size_t links_count,
                                          struct bones_link *space, size_t space_count);

/* Reads an input text; links and space are room for what it holds. A text is judged whole before anything is written. */
struct bones_input bones_read(const uint8_t *text, size_t text_length,
                              struct bones_link *links, size_t links_count,
                              uint8_t *space, size_t space_length);

/* Writes an input text of the links and of the record so far, which may be empty. */
struct bones_count bones_write_input(uint64_t n, uint64_t k,
                                     const struct bones_link *links, size_t links_count,
                                     const uint8_t *record, size_t record_length,
                                     uint8_t *text, size_t text_length);

/* Writes a result text of a record, finished or not: its cuts, and the name of the pile in which they leave every bone. */
struct bones_count bones_write_result(uint64_t n, uint64_t k,
                                      const struct bones_link *links, size_t links_count,
                                      const uint8_t *record, size_t record_length,
                                      uint8_t *text, size_t text_length);

#ifdef __cplusplus
}
#endif

#endif
