/* Runs the lines of a script by the typed calls, and prints what a script prints. Each line must have a meaning. */
#ifndef TYPED_H
#define TYPED_H

#include "lodvarn.h"
#include <stdio.h>

/* How many bytes the first character of UTF-8 has, and the character. */
static inline size_t utf8_length(const char *from) {
    unsigned char lead = (unsigned char)*from;
    return lead < 0x80 ? 1 : lead < 0xe0 ? 2 : lead < 0xf0 ? 3 : 4;
}
static inline uint32_t utf8_character(const char *from) {
    size_t len = utf8_length(from);
    uint32_t c = (unsigned char)*from & (len == 1 ? 0x7f : 0x7f >> len);
    for (size_t i = 1; i < len; i++) c = c << 6 | ((unsigned char)from[i] & 0x3f);
    return c;
}

/* A session, the settings for the next one, and the mode of this one. */
struct typed {
    lodvarn *s;
    size_t limit, ring;
    enum lodvarn_mode mode, own_mode;
};

/* Opens the session that a script begins with. */
void typed_begin(struct typed *t);

/* Runs one line, which has no newline, and prints its reply, the cursor and the text. */
void typed_line(struct typed *t, const char *line, FILE *out);

/* Prints what each line prints last: a space, the cursor and the text. */
void typed_state(struct typed *t, FILE *out);

/* Runs all lines. */
void typed_script(struct typed *t, const char *script, FILE *out);

/* Another session that is as this one, since it was saved and loaded. */
lodvarn *twin_of(lodvarn *one);

/* Whether both are saved as the same bytes: the text, the cursor, the record, the ring and the options. */
int are_same(lodvarn *one, lodvarn *two);

/* Types the characters of UTF-8 one by one, by lodvarn_insert. Returns what the last one returned. */
int insert_each(lodvarn *s, const char *bytes, size_t len);

/* Whether what the reads return agrees with the newlines of the text. */
int typed_reads_agree(struct typed *t);

#endif
