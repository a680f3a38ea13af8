/* Texts made frame by frame, as document 01 says: kind, payload and sum byte in lower-case hexadecimal, and a line feed. */
#ifndef FRAMES_H
#define FRAMES_H

#include <stdio.h>
#include <string.h>

#include "bones.h"

enum { TEXT_MOST = 1 << 17 };

struct text {
    char bytes[TEXT_MOST];
    size_t length;
    unsigned frames;
};

static inline void text_clear(struct text *text) { text->length = text->frames = 0; }

/* a line that need not be a frame, as it stands */
static inline void add_line(struct text *text, const char *line)
{
    memcpy(text->bytes + text->length, line, strlen(line));
    text->length += strlen(line);
    text->frames++;
}

static inline void add_frame(struct text *text, unsigned kind, const uint8_t *payload, size_t length)
{
    char line[80];
    size_t at = (size_t)sprintf(line, "%02x", kind);
    unsigned sum = kind;
    for (size_t i = 0; i < length; i++) {
        at += (size_t)sprintf(line + at, "%02x", (unsigned)payload[i]);
        sum += payload[i];
    }
    sprintf(line + at, "%02x\n", (256 - sum % 256) % 256);
    add_line(text, line);
}

static inline void add_head(struct text *text, unsigned n, unsigned k)
{
    uint8_t payload[] = {(uint8_t)n, (uint8_t)(k / 256), (uint8_t)(k % 256)};
    add_frame(text, 1, payload, sizeof payload);
}

static inline void add_link(struct text *text, struct bones_link link)
{
    uint8_t payload[] = {link.a, link.b, (uint8_t)(link.tally / 256), (uint8_t)(link.tally % 256)};
    add_frame(text, 2, payload, sizeof payload);
}

static inline void add_cut(struct text *text, const uint8_t *entry) { add_frame(text, 3, entry, BONES_ENTRY); }

static inline void add_label(struct text *text, unsigned bone, unsigned label)
{
    uint8_t payload[] = {(uint8_t)bone, (uint8_t)label};
    add_frame(text, 4, payload, sizeof payload);
}

static inline void add_note(struct text *text)
{
    static const uint8_t payload[16] = "left of the pit";
    add_frame(text, 5, payload, sizeof payload);
}

static inline void add_close_of(struct text *text, unsigned frames)
{
    uint8_t payload[] = {(uint8_t)(frames / 256), (uint8_t)(frames % 256)};
    add_frame(text, 6, payload, sizeof payload);
}

/* a close that counts the frames before it */
static inline void add_close(struct text *text) { add_close_of(text, text->frames); }

/* the text that the input writer is to write */
static inline void input_text(struct text *text, unsigned n, unsigned k, const struct bones_link *links, size_t count,
                              const uint8_t *record, size_t cuts)
{
    text_clear(text);
    add_head(text, n, k);
    for (size_t i = 0; i < count; i++)
        add_link(text, links[i]);
    for (size_t i = 0; i < cuts; i++)
        add_cut(text, record + BONES_ENTRY * i);
    add_close(text);
}

/* the text that the result writer is to write, of cuts that leave these pile names */
static inline void result_text(struct text *text, unsigned n, unsigned k, const uint8_t *record, size_t cuts, const uint8_t *names)
{
    text_clear(text);
    add_head(text, n, k);
    for (size_t i = 0; i < cuts; i++)
        add_cut(text, record + BONES_ENTRY * i);
    for (unsigned bone = 0; bone < n; bone++)
        add_label(text, bone, names[bone]);
    add_close(text);
}

#endif
