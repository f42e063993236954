/* What the files test*.c share: the session of the tests, what it should have, and the table of tests. */
#ifndef TEST_H
#define TEST_H

#include "see.h"
#include "typed.h"

#define FAMILY "\U0001F468\u200D\U0001F469\u200D\U0001F467"
#define FLAGS "\U0001F1E9\U0001F1EA\U0001F1EB\U0001F1F7"
#define WORD_BACK lodvarn_words_back(LODVARN_EMACS, 1)
/* The call returns that, and the session stands so: its text with a | at the cursor and, if there is a #, the texts of
 * the ring from the current one on, each after a #. */
#define DOES(wanted, call, left) does(#call, call, LODVARN_##wanted, left)
/* Changes one of the options. */
#define SET(member, value) (options = chosen(), options.member = (value), lodvarn_set_options(s, &options))
/* The oldest reports, up to so many, are these: a line of each has its numbers and texts. They are taken. */
#define REPORTS(count, wanted) reports_are("reports: " wanted, count, wanted)

#define U LODVARN_UNICODE
#define W LODVARN_WC_WIDTH
#define Z LODVARN_NO_ZWJ
#define F LODVARN_FORWARD
#define B LODVARN_BACKWARD
#define ON(columns, prompt, continuation, tab, controls, mode) \
    {sizeof(lodvarn_screen), columns, prompt, continuation, tab, controls, mode}

enum { NO = 99, PRINTED = 1 << 14 };

/* The session of the tests; that of a script is it too. */
extern lodvarn *s;
extern struct typed script_session;
extern lodvarn_options options;
static const lodvarn_screen screen = ON(10, 0, 0, 8, 0, U);
static const lodvarn_position corner = {0, 0};

/* Opens the session anew on a text with a | at the cursor. */
void open_at(const char *marked, size_t limit);
lodvarn_options chosen(void);
int has_chosen(const lodvarn_options *wanted);
int add_to_ring(const char *text);
/* Adds each character of a text. */
void add_each(const char *text);
void print_ring(FILE *to);
void does(const char *what, int answer, int wanted, const char *left);
void reports_are(const char *what, size_t count, const char *wanted);
/* Whether that is all that changed since it was asked last. */
int changed_is(size_t from, size_t old_to, size_t new_to);
/* What the script prints by lodvarn_script; to be freed. */
char *printed_at_once(const char *script);
/* What was printed is what should be; it is freed. */
void see_printed(const char *what, char *printed, const char *wanted);
void begin_script(void);
/* What a line prints; good until the next one. */
const char *run(const char *line);

/* Bad input, and what has nothing to do: what the calls write to, and what the session was. */
extern struct out {
    char text[8];
    size_t number;
    lodvarn *opened;
    lodvarn_view view;
    lodvarn_range range;
    lodvarn_position position;
    lodvarn_cluster cluster;
    lodvarn_splice splice;
} out, untouched;
extern char before[512];

/* All that can be read of the session, but what was done last, and its reports. */
void print_state(char *to, size_t cap);
/* "aé\nb " with a limit of 12 bytes, in a group, with reports. A kill was done last, or a yank. */
void begin_row(int yanked);
/* Whether the call left all as it was; if it parts, it was a command, which ends a run of kills. The oldest report is
 * that of the deletion of "cd". */
int has_left_all(int yanked, int parts);

/* The call returns that and changes nothing; PARTS: it counts as a command. */
#define LEAVES(wanted, call) ROW(LODVARN_##wanted, call, 0)
#define PARTS(wanted, call) ROW(LODVARN_##wanted, call, 1)
#define RETURNS(wanted, call) ROW(wanted, call, 0)
#define ROW(wanted, call, parts)                                                                              \
    for (int yanked = 0; yanked < 2; yanked++) {                                                              \
        begin_row(yanked);                                                                                    \
        int answer = (call);                                                                                  \
        if (!see(#call, answer == (wanted) && has_left_all(yanked, parts)))                                   \
            printf("  returned %s after a %s\n", lodvarn_answer_name(answer), yanked ? "yank" : "kill");      \
    }

/* The tests, by files. */
#define TESTS(TEST)                             \
    TEST(scripts_print)                         \
    TEST(versions_and_answers_have_names)       \
    TEST(sessions_open_and_close)               \
    TEST(options_are_chosen)                    \
    TEST(options_take_effect)                   \
    TEST(a_session_begins_anew)                 \
    TEST(a_session_is_saved_and_loaded)         \
    TEST(great_sessions_are_saved_and_loaded)   \
    TEST(the_ring_is_resized)                   \
    TEST(damaged_bytes_are_not_loaded)          \
    TEST(insertions_return_where_they_went)     \
    TEST(what_a_terminal_sends_is_typed)        \
    TEST(pieces_are_typed)                      \
    TEST(texts_are_moved_to)                    \
    TEST(movements_mean_what_they_say)          \
    TEST(movements_are_exported)                \
    TEST(numbers_mean_what_they_say)            \
    TEST(a_yank_is_popped)                      \
    TEST(the_ring_has_what_was_killed_and_kept) \
    TEST(a_saved_text_comes_back)               \
    TEST(groups_are_closed)                     \
    TEST(an_edit_is_one_unit)                   \
    TEST(a_yank_and_its_pops_are_one_unit)      \
    TEST(an_undo_stays_in_its_group)            \
    TEST(what_was_undone_is_kept)               \
    TEST(edits_keep_what_was_undone)            \
    TEST(offsets_move)                          \
    TEST(marks_follow)                          \
    TEST(what_changed_is_told)                  \
    TEST(changes_are_reported)                  \
    TEST(reports_wait)                          \
    TEST(asking_what_changed_parts_nothing)     \
    TEST(reports_are_drained_quickly)           \
    TEST(reads_read)                            \
    TEST(movements_are_asked)                   \
    TEST(clusters_of_a_session_are_measured)    \
    TEST(texts_are_found)                       \
    TEST(widths_are_measured)                   \
    TEST(clusters_are_found)                    \
    TEST(cells_and_offsets_are_found)           \
    TEST(rows_are_found)                        \
    TEST(rows_and_clusters_are_found_from_each) \
    TEST(motions_by_rows_keep_the_column)       \
    TEST(numbers_outside_of_their_enums)        \
    TEST(numbers_that_are_too_great)            \
    TEST(counts_and_characters_that_are_none)   \
    TEST(texts_that_are_longer_than_the_limit)  \
    TEST(counts_of_0_do_nothing)                \
    TEST(texts_that_are_no_utf8)                \
    TEST(offsets_that_are_none)                 \
    TEST(nothing_is_done)                       \
    TEST(texts_are_lent)                        \
    TEST(saved_bytes_are_lent)                  \
    TEST(buffers_are_filled)                    \
    TEST(structures_have_sizes)                 \
    TEST(great_input_is_met)

#define DECLARE(name) void name(void);
TESTS(DECLARE)

#endif
