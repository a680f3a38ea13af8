/* The case that document 01 prints: two triangles 0 1 2 and 3 4 5 of tally 1, and a link 2-3, at k = 2. */
#ifndef LLAMAS_H
#define LLAMAS_H

#include "bones.h"

enum { LLAMAS = 6, LLAMAS_LINKS = 7 };

static const uint8_t llamas[BONES_LINK * LLAMAS_LINKS] = {
    0, 1, 0, 1, 0, 2, 0, 1, 1, 2, 0, 1, 3, 4, 0, 1, 3, 5, 0, 1, 4, 5, 0, 1, 2, 3, 0, 1,
};

static const struct bones_link llama_links[LLAMAS_LINKS] = {
    {0, 1, 1}, {0, 2, 1}, {1, 2, 1}, {3, 4, 1}, {3, 5, 1}, {4, 5, 1}, {2, 3, 1},
};

/* the one cut that is possible: pile 0, weight 1, and bones 3, 4 and 5 move out */
static const uint8_t llama_record[BONES_ENTRY] = {0, 0, 0, 0, 1, 0x38};

static const char llama_input[] = "01060002f7\n"
                                  "0200010001fc\n"
                                  "0200020001fb\n"
                                  "0201020001fa\n"
                                  "0203040001f6\n"
                                  "0203050001f5\n"
                                  "0204050001f4\n"
                                  "0202030001f8\n"
                                  "060008f2\n";

static const char llama_result[] = "01060002f7\n"
                                   "03000000000138000000000000000000000000000000c4\n"
                                   "040000fc\n"
                                   "040100fb\n"
                                   "040200fa\n"
                                   "040303f6\n"
                                   "040403f5\n"
                                   "040503f4\n"
                                   "060008f2\n";

#endif
