/* What the tests in C share: they count what holds, say what does not, and pass bad input. */
#ifndef SEE_H
#define SEE_H

#include "lodvarn.h"
#include <limits.h>
#include <stdio.h>
#include <stdlib.h>
#include <string.h>

#define SEE(holds) see(#holds, holds)
#define COUNT(array) (sizeof(array) / sizeof *(array))

/* The file that has main defines them. */
extern int passed, failed;

static inline int see(const char *what, int holds) {
    if (holds) passed++;
    else {
        failed++;
        printf("FAILED: %s\n", what);
    }
    return holds;
}

/* Says the sum, as the last line. Returns the status of the program. */
static inline int sum(void) {
    printf("%d passed, %d failed\n", passed, failed);
    return failed != 0;
}

/* Ends the program if a test can't go on. */
static inline void must(int holds) {
    if (!holds) exit(2);
}

static inline lodvarn_range range(size_t from, size_t to) { return (lodvarn_range){from, to}; }

static inline int is(lodvarn_view view, const char *text) {
    return view.len == strlen(text) && (!view.len || !memcmp(view.at, text, view.len));
}

/* Puts what was printed to a temporary file into a buffer, and closes the file. Returns the buffer. */
static inline char *printed_in(FILE *to, char *got, size_t cap) {
    rewind(to);
    got[fread(got, 1, cap - 1, to)] = 0;
    fclose(to);
    return got;
}

/* Prints a text with a | at the cursor. */
static inline void print_marked(FILE *to, lodvarn_view text, size_t pos) {
    fprintf(to, "%.*s|%.*s", (int)pos, text.at, (int)(text.len - pos), text.at + pos);
}

/* Texts that are no UTF-8, characters that are none, and counts that are too great. */
static const char *const no_utf8[] = {
    "\xff", "\x80", "\xc3", "a\xc3", "\xc0\x80", "\xed\xa0\x80", "\xf4\x90\x80\x80", "\xe2\x82", "\xf0\x9f\x91",
};
static const uint32_t no_characters[] = {0xd800, 0xdfff, 0x110000, UINT32_MAX};
static const size_t great_counts[] = {65536, 65537, (size_t)1 << 32, SIZE_MAX};

/* Numbers around an enum, and far from it. */
enum { NUMBERS = 145 };
static inline int around(int k, int first) {
    static const int far[] = {256, 65536, 1 << 30};
    return k < 140 ? k - 1 : k < 143 ? first + far[k - 140] : k == 143 ? INT_MAX : INT_MIN;
}

/* Each number for which that holds, in turn; each that is none of an enum. */
#define EACH_NUMBER(first, is_bad)            \
    for (int k = 0, number; k < NUMBERS; k++) \
        if (number = around(k, first), is_bad)
#define EACH_OUTSIDE(first, last) EACH_NUMBER(first, number < (int)(first) || number > (int)(last))

enum { LAST_MOVEMENT = LODVARN_TO_CHAR_ + LODVARN_BACK_TO_AFTER - LODVARN_TO };

/* Tries each kind of movement that has a count. */
static inline void each_counted_movement(size_t n, void (*try)(lodvarn_movement)) {
    for (uint32_t kind = LODVARN_CHARS_BACK_; kind <= LAST_MOVEMENT; kind++) try(lodvarn_movement_(kind, 'a', n));
}

/* Tries movements of no kind, of a number outside of its enum, with a count that is too great, to no character, and to
 * no text. */
static inline void each_bad_movement(void (*refuse)(lodvarn_movement)) {
    EACH_OUTSIDE(LODVARN_WHOLE_LINE_, LAST_MOVEMENT) refuse(lodvarn_movement_((uint32_t)number, 'a', 1));
    refuse(lodvarn_movement_(LODVARN_CHARS_BACK_ - 1, 'a', 1));
    EACH_OUTSIDE(LODVARN_FORWARD, LODVARN_BACKWARD) refuse(lodvarn_to_match((enum lodvarn_direction)number, "a", 1));
    for (int direction = LODVARN_FORWARD; direction <= LODVARN_BACKWARD; direction++) {
        refuse(lodvarn_to_match((enum lodvarn_direction)direction, NULL, 0));
        refuse(lodvarn_to_match((enum lodvarn_direction)direction, "a", 0));
    }
    EACH_OUTSIDE(LODVARN_BIG, LODVARN_VI) {
        refuse(lodvarn_words_back((enum lodvarn_word)number, 1));
        refuse(lodvarn_words_forward((enum lodvarn_word)number, LODVARN_AT_START, 1));
    }
    EACH_OUTSIDE(LODVARN_AT_START, LODVARN_AFTER_END)
        refuse(lodvarn_words_forward(LODVARN_BIG, (enum lodvarn_stop)number, 1));
    EACH_OUTSIDE(LODVARN_TO, LODVARN_BACK_TO_AFTER) refuse(lodvarn_to_char((enum lodvarn_search)number, 'a', 1));
    for (size_t i = 0; i < COUNT(great_counts); i++) each_counted_movement(great_counts[i], refuse);
    for (size_t i = 0; i < COUNT(no_characters); i++)
        for (int search = LODVARN_TO; search <= LODVARN_BACK_TO_AFTER; search++)
            refuse(lodvarn_to_char((enum lodvarn_search)search, no_characters[i], 1));
}

#endif
