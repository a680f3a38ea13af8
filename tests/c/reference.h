/* What the calls are held to: rules 1, 2, 6 and 7 by hand, and light splits by trying every subset of a small pile. */
#ifndef REFERENCE_H
#define REFERENCE_H

#include <stddef.h>
#include <stdint.h>
#include <string.h>

#include "bones.h"

struct pit {
    unsigned n;
    uint32_t k;
    uint32_t tally[BONES_MOST][BONES_MOST];
};

static inline void pit_fill(struct pit *pit, unsigned n, uint32_t k, const uint8_t *links, size_t length)
{
    memset(pit, 0, sizeof *pit);
    pit->n = n;
    pit->k = k;
    for (size_t i = 0; i + BONES_LINK <= length; i += BONES_LINK) {
        uint32_t tally = (uint32_t)links[i + 2] << 8 | links[i + 3];
        pit->tally[links[i]][links[i + 1]] += tally;
        pit->tally[links[i + 1]][links[i]] += tally;
    }
}

/* links as bytes made records, one by one; gives their number */
static inline size_t records_of(const uint8_t *links, size_t length, struct bones_link *records)
{
    for (size_t i = 0; i < length / BONES_LINK; i++) {
        const uint8_t *link = links + BONES_LINK * i;
        records[i] = (struct bones_link){link[0], link[1], (uint16_t)(link[2] << 8 | link[3])};
    }
    return length / BONES_LINK;
}

static inline int side_holds(const uint8_t *side, unsigned bone)
{
    return side[bone / 8] >> bone % 8 & 1;
}

static inline uint32_t weight_of(const struct pit *pit, const uint8_t *names, unsigned pile, const uint8_t *side)
{
    uint32_t weight = 0;
    for (unsigned a = 0; a < pit->n; a++)
        for (unsigned b = 0; b < pit->n; b++)
            if (names[a] == pile && names[b] == pile && side_holds(side, a) && !side_holds(side, b))
                weight += pit->tally[a][b];
    return weight;
}

static inline uint32_t stated_weight(const uint8_t *entry)
{
    return (uint32_t)entry[1] << 24 | (uint32_t)entry[2] << 16 | (uint32_t)entry[3] << 8 | entry[4];
}

/* moves the bones of the entry's side to a pile under their least bone */
static inline void move_out(unsigned n, uint8_t *names, const uint8_t *entry)
{
    unsigned least = n;
    for (unsigned bone = n; bone-- > 0;)
        if (side_holds(entry + 5, bone))
            least = bone;
    for (unsigned bone = 0; bone < n; bone++)
        if (side_holds(entry + 5, bone))
            names[bone] = (uint8_t)least;
}

/* 1 and the heap after the cut, or 0 where the cut is not lawful */
static inline int lawful(const struct pit *pit, uint8_t *names, const uint8_t *entry)
{
    unsigned pile = entry[0], moved = 0;
    if (pile >= pit->n || names[pile] != pile)
        return 0;
    for (unsigned bone = 0; bone < BONES_MOST; bone++) {
        if (!side_holds(entry + 5, bone))
            continue;
        if (bone == pile || bone >= pit->n || names[bone] != pile)
            return 0;
        moved++;
    }
    uint32_t weight = weight_of(pit, names, pile, entry + 5);
    if (moved == 0 || weight != stated_weight(entry) || weight >= pit->k)
        return 0;
    move_out(pit->n, names, entry);
    return 1;
}

/* an entry whose side is the low bones of a mask */
static inline void put_entry(uint8_t *entry, unsigned pile, uint32_t weight, uint64_t mask)
{
    memset(entry, 0, BONES_ENTRY);
    entry[0] = (uint8_t)pile;
    for (unsigned i = 0; i < 4; i++)
        entry[1 + i] = (uint8_t)(weight >> (24 - 8 * i));
    for (unsigned i = 0; i < 8; i++)
        entry[5 + i] = (uint8_t)(mask >> 8 * i);
}

static inline uint64_t members(const struct pit *pit, const uint8_t *names, unsigned pile)
{
    uint64_t set = 0;
    for (unsigned bone = 0; bone < pit->n; bone++)
        if (names[bone] == pile)
            set |= (uint64_t)1 << bone;
    return set;
}

/* A light split of one pile, by every subset of its bones but the least: from the smallest mask up, or from the greatest down. */
static inline int cut_of_pile(const struct pit *pit, const uint8_t *names, unsigned pile, int down, uint8_t *entry)
{
    uint64_t rest = members(pit, names, pile) & ~((uint64_t)1 << pile), side = 0;
    for (;;) {
        side = down ? (side - 1) & rest : (side - rest) & rest;
        if (side == 0)
            return 0;
        put_entry(entry, pile, 0, side);
        uint32_t weight = weight_of(pit, names, pile, entry + 5);
        if (weight < pit->k) {
            put_entry(entry, pile, weight, side);
            return 1;
        }
    }
}

/* The next cut of one of two cutters: piles upwards and small masks first, or piles downwards and great masks first. */
static inline int next_cut(const struct pit *pit, const uint8_t *names, int down, uint8_t *entry)
{
    for (unsigned i = 0; i < pit->n; i++) {
        unsigned pile = down ? pit->n - 1 - i : i;
        if (names[pile] == pile && cut_of_pile(pit, names, pile, down, entry))
            return 1;
    }
    return 0;
}

/* a finished run of one of the two cutters, and the labels that it leaves; gives its number of entries */
static inline unsigned cut_all(const struct pit *pit, int down, uint8_t *names, uint8_t *record)
{
    unsigned cuts = 0;
    memset(names, 0, pit->n);
    while (next_cut(pit, names, down, record + BONES_ENTRY * cuts)) {
        move_out(pit->n, names, record + BONES_ENTRY * cuts);
        cuts++;
    }
    return cuts;
}

#endif
