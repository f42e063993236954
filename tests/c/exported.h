/* The functions of the library that make movements, which the header defines too under the same names. */
#ifndef EXPORTED_H
#define EXPORTED_H

#include "lodvarn.h"

/* Each of them, and some of what it may be passed. */
#define MOVEMENTS(ROW)                                                    \
    ROW(whole_line, ())                                                   \
    ROW(to_line_start, ())                                                \
    ROW(to_line_end, ())                                                  \
    ROW(to_first_nonblank, ())                                            \
    ROW(whole_text, ())                                                   \
    ROW(to_text_start, ())                                                \
    ROW(to_text_end, ())                                                  \
    ROW(chars_back, (1))                                                  \
    ROW(chars_forward, (65535))                                           \
    ROW(lines_up, (0))                                                    \
    ROW(lines_down, (SIZE_MAX))                                           \
    ROW(whole_lines_up, (2))                                              \
    ROW(whole_lines_down, (3))                                            \
    ROW(words_back, (LODVARN_BIG, 4))                                     \
    ROW(words_back, (LODVARN_VI, 5))                                      \
    ROW(words_back, ((enum lodvarn_word)(LODVARN_VI + 1), 5))             \
    ROW(words_forward, (LODVARN_BIG, LODVARN_AFTER_END, 6))               \
    ROW(words_forward, (LODVARN_EMACS, LODVARN_BEFORE_END, 7))            \
    ROW(words_forward, (LODVARN_VI, LODVARN_AT_START, 8))                 \
    ROW(words_forward, (LODVARN_VI, (enum lodvarn_stop)0, 8))             \
    ROW(to_char, (LODVARN_TO, 'a', 1))                                    \
    ROW(to_char, (LODVARN_BACK_TO_AFTER, 0x1f680, 2))                     \
    ROW(to_char, ((enum lodvarn_search)(LODVARN_TO - 1), UINT32_MAX, 2))  \
    ROW(to_match, (LODVARN_FORWARD, "one", 3))                            \
    ROW(to_match, (LODVARN_BACKWARD, NULL, 0))                            \
    ROW(to_match, ((enum lodvarn_direction)(LODVARN_BACKWARD + 1), "", 0))

/* The movement of a row, by the function of the library; after the last row one of kind 0. */
lodvarn_movement exported(size_t row);

#endif
