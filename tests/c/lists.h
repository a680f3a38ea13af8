/* Lists of links as records, and those of them that the rows 1 to 6 refuse, which every call tries alike. */
#ifndef LISTS_H
#define LISTS_H

#include "bones.h"

struct list {
    uint64_t n, k;
    const struct bones_link *links;
    size_t count;
};

/* the links as bytes, BONES_LINK a link */
void bytes_of(const struct list *list, uint8_t *bytes);

/* two llamas at a threshold */
struct list llamas_at(uint64_t k);

/* a list of up to 3 n links of tallies up to 3 */
struct list random_list(unsigned n, uint64_t k, struct bones_link *links);

/* every bone of 128 with the 32 that follow it: 4,096 links of a tally */
struct list list_of_128(uint64_t k, uint16_t tally, struct bones_link *links);

/* Hands over each bad list, with the refusal that it is to be given. */
typedef void refusing(const char *what, const struct list *list, uint32_t number, uint32_t place);
void each_bad_list(refusing *refuses);

#endif
