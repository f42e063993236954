/* Bad input, and what has nothing to do: nothing changes. */
#include "test.h"

/* Options that differ from the session's, with a limit that is less than what its text has. */
static const lodvarn_options *other_options(size_t size, int mode) {
    options = (lodvarn_options){size, 5, 1, 1, 1, 1, 7, (enum lodvarn_mode)mode, true};
    return &options;
}

static const lodvarn_splice *change_of(size_t from, size_t old_to, size_t new_to) {
    static lodvarn_splice change;
    change = (lodvarn_splice){from, old_to, new_to};
    return &change;
}

/* No call takes the movement. An indent of a text that is searched for is not asked for its text. */
#define BY_NO_CALL(wanted, movement)                                                      \
    LEAVES(wanted, lodvarn_move(s, movement));                                            \
    LEAVES(wanted, lodvarn_delete_by(s, movement));                                       \
    LEAVES(wanted, lodvarn_kill(s, movement));                                            \
    LEAVES(wanted, lodvarn_copy(s, movement, out.text, sizeof out.text, &out.number));    \
    LEAVES(wanted, lodvarn_movement_range(s, 1, movement, &out.range));                   \
    LEAVES(wanted, lodvarn_movement_target(s, 1, movement, &out.number))
#define NO_CALL_TAKES(wanted, movement) \
    BY_NO_CALL(wanted, movement);       \
    LEAVES(wanted, lodvarn_indent(s, movement, 1, LODVARN_INDENT))
static void refuse_movement(lodvarn_movement bad) { NO_CALL_TAKES(NO_SUCH_NUMBER, bad); }
static void leave_movement(lodvarn_movement by) { NO_CALL_TAKES(NOTHING, by); }

/* No call takes the screen. */
static void refuse_screen(int wanted, lodvarn_screen bad) {
    size_t column = LODVARN_OWN_COLUMN;
    RETURNS(wanted, lodvarn_cell(&bad, 0, "a", 1, &out.position));
    RETURNS(wanted, lodvarn_offset_at(&bad, corner, "a", 1, &out.number));
    RETURNS(wanted, lodvarn_rows(&bad, "a", 1, &out.number, 1, &out.number));
    RETURNS(wanted, lodvarn_row_above(s, &bad, 0, 1, &column, &out.number));
    RETURNS(wanted, lodvarn_row_below(s, &bad, 0, 1, &column, &out.number));
    RETURNS(wanted, lodvarn_rows_from(s, &bad, 0, &out.number, 1, &out.number, &column));
    SEE(column == LODVARN_OWN_COLUMN);
}

static lodvarn_screen screen_in(int mode) {
    lodvarn_screen of = LODVARN_SCREEN(10);
    of.mode = (enum lodvarn_mode)mode;
    return of;
}

void numbers_outside_of_their_enums(void) {
    EACH_NUMBER(W, number != (int)U && number != (int)W && number != (int)Z) {
        LEAVES(NO_SUCH_NUMBER, lodvarn_open(&out.opened, other_options(sizeof options, number), "a", 1));
        LEAVES(NO_SUCH_NUMBER, lodvarn_set_options(s, other_options(sizeof options, number)));
        LEAVES(NO_SUCH_NUMBER, lodvarn_width((enum lodvarn_mode)number, "a", 1, &out.number));
        LEAVES(NO_SUCH_NUMBER, lodvarn_clusters((enum lodvarn_mode)number, "a", 1, &out.cluster, 1, &out.number));
        LEAVES(NO_SUCH_NUMBER,
               lodvarn_clusters_from(s, (enum lodvarn_mode)number, 0, &out.cluster, 1, &out.number, &out.range.from));
        refuse_screen(LODVARN_NO_SUCH_NUMBER, screen_in(number));
    }
    EACH_OUTSIDE(LODVARN_FORWARD, LODVARN_BACKWARD) {
        LEAVES(NO_SUCH_NUMBER, lodvarn_kill_range(s, range(0, 1), (enum lodvarn_direction)number));
        LEAVES(NO_SUCH_NUMBER, lodvarn_find(s, 0, "a", 1, (enum lodvarn_direction)number, &out.range));
    }
    EACH_OUTSIDE(LODVARN_BEFORE, LODVARN_AFTER)
        LEAVES(NO_SUCH_NUMBER, lodvarn_map_offset(change_of(1, 2, 2), 1, (enum lodvarn_side)number, &out.number));
    EACH_OUTSIDE(LODVARN_CAPITALIZE, LODVARN_UPPERCASE)
        LEAVES(NO_SUCH_NUMBER, lodvarn_change_case(s, (enum lodvarn_case)number));
    EACH_OUTSIDE(LODVARN_INDENT, LODVARN_DEDENT)
        LEAVES(NO_SUCH_NUMBER, lodvarn_indent(s, lodvarn_whole_text(), 1, (enum lodvarn_indentation)number));
    each_bad_movement(refuse_movement);
    const lodvarn_movement not_to_one_side[] = {
        lodvarn_whole_line(),      lodvarn_whole_text(), lodvarn_to_first_nonblank(), lodvarn_chars_back(1),
        lodvarn_chars_forward(1),  lodvarn_lines_up(1),  lodvarn_lines_down(1),       lodvarn_whole_lines_up(1),
        lodvarn_whole_lines_down(1),
    };
    for (size_t i = 0; i < COUNT(not_to_one_side); i++)
        LEAVES(NO_SUCH_NUMBER, lodvarn_delete_by(s, not_to_one_side[i]));
    LEAVES(NO_SUCH_NUMBER, lodvarn_indent(s, lodvarn_to_match(F, "b", 1), 1, LODVARN_INDENT));
    LEAVES(NO_SUCH_NUMBER, lodvarn_indent(s, lodvarn_to_match(B, "a", 1), 1, LODVARN_DEDENT));
}

/* Screens, options and amounts with a number that is too great, or no columns; and the greatest that they may have. */
void numbers_that_are_too_great(void) {
    static const size_t great[] = {65536, 65616, (size_t)1 << 32, SIZE_MAX}, amounts[] = {256, 300, 65536, SIZE_MAX};
    static const lodvarn_screen widest = ON(65535, 65535, 65535, 65535, 65535, U);
    static const lodvarn_position below = {1, 0};
    lodvarn_position cell;
    refuse_screen(LODVARN_NO_SUCH_NUMBER, (lodvarn_screen)LODVARN_SCREEN(0));
    for (size_t i = 0; i < COUNT(great); i++) {
        size_t n = great[i];
        const lodvarn_screen screens[] = {ON(n, 0, 0, 0, 0, U), ON(80, n, 0, 0, 0, U), ON(80, 0, n, 0, 0, U),
                                          ON(80, 0, 0, n, 0, U), ON(80, 0, 0, 0, n, U)};
        for (size_t k = 0; k < COUNT(screens); k++) refuse_screen(LODVARN_NO_SUCH_NUMBER, screens[k]);
        LEAVES(NO_SUCH_NUMBER, SET(prompt, n));
        LEAVES(NO_SUCH_NUMBER, lodvarn_row_below(s, &screen, 0, n, &out.number, &out.number));
        LEAVES(NO_SUCH_NUMBER, lodvarn_indent(s, lodvarn_whole_text(), amounts[i], LODVARN_INDENT));
        LEAVES(NO_SUCH_NUMBER, lodvarn_indent(s, lodvarn_whole_text(), amounts[i], LODVARN_DEDENT));
    }
    SEE(lodvarn_cell(&widest, 1, "\na", 2, &cell) > 0 && cell.line == 2 && cell.column == 0);
    SEE(lodvarn_offset_at(&widest, below, "\na", 2, &out.number) > 0 && out.number == 0);
    open_at("|", 255);
    DOES(DONE, SET(prompt, 65535), "|");
    DOES(NO_ROOM, (lodvarn_insert(s, 'a', 1), lodvarn_indent(s, lodvarn_whole_text(), 255, LODVARN_INDENT)), "a|");
    must(lodvarn_indent(s, lodvarn_whole_text(), 254, LODVARN_INDENT) > 0);
    DOES(DONE, lodvarn_indent(s, lodvarn_whole_text(), 255, LODVARN_DEDENT), "a|");
}

void counts_and_characters_that_are_none(void) {
    for (size_t i = 0; i < COUNT(great_counts); i++) {
        size_t n = great_counts[i];
        LEAVES(NO_SUCH_NUMBER, lodvarn_insert(s, 'a', n));
        LEAVES(NO_SUCH_NUMBER, lodvarn_paste(s, "a", 1, n));
        LEAVES(NO_SUCH_NUMBER, lodvarn_paste(s, NULL, 0, n));
        LEAVES(NO_SUCH_NUMBER, lodvarn_yank(s, n));
        LEAVES(NO_SUCH_NUMBER, lodvarn_delete(s, n));
        LEAVES(NO_SUCH_NUMBER, lodvarn_backspace(s, n));
        LEAVES(NO_SUCH_NUMBER, lodvarn_transpose_words(s, n));
        LEAVES(NO_SUCH_NUMBER, lodvarn_undo(s, n));
    }
    for (size_t i = 0; i < COUNT(no_characters); i++) LEAVES(NO_SUCH_NUMBER, lodvarn_insert(s, no_characters[i], 1));
    DOES(DONE, lodvarn_backspace(s, 65535), "|");
}

/* What was typed is undone and would be kept, then comes what is done first, and the limit is what the text has. The
 * call changes nothing. */
#define FULL(marked, first, call)                                                                 \
    do {                                                                                          \
        char now[sizeof before];                                                                  \
        open_at(marked, 64);                                                                      \
        must(SET(keep_undone, true) > 0 && lodvarn_watch(s, 9, 64) > 0);                         \
        lodvarn_insert(s, '-', 1), lodvarn_undo(s, 1), first;                                     \
        must(lodvarn_text(s, &out.view) > 0 && SET(limit, out.view.len) > 0);                     \
        print_state(before, sizeof before);                                                       \
        int answer = (call);                                                                      \
        print_state(now, sizeof now);                                                             \
        if (!see(#call, answer == LODVARN_NO_ROOM && !strcmp(now, before))) printf("  %s\n", now); \
    } while (0)

void texts_that_are_longer_than_the_limit(void) {
    LEAVES(NO_ROOM, lodvarn_insert(s, 'a', 7));
    LEAVES(NO_ROOM, lodvarn_insert(s, 0x1f680, 65535));
    LEAVES(NO_ROOM, lodvarn_paste(s, "1234567", 7, 1));
    LEAVES(NO_ROOM, lodvarn_paste(s, "a", 1, 65535));
    LEAVES(NO_ROOM, lodvarn_yank(s, 4));
    LEAVES(NO_ROOM, lodvarn_set_text(s, 0, "1234567890123", 13));
    LEAVES(NO_ROOM, lodvarn_insert_at(s, 0, "1234567", 7));
    LEAVES(NO_ROOM, lodvarn_replace(s, range(0, 3), "1234567890", 10));
    LEAVES(NO_ROOM, lodvarn_indent(s, lodvarn_whole_text(), 4, LODVARN_INDENT));
    LEAVES(NO_ROOM, lodvarn_restart(s, "1234567890123", 13));
    LEAVES(NO_ROOM, lodvarn_open(&out.opened, other_options(sizeof options, U), "123456", 6));
    LEAVES(NO_ROOM, lodvarn_set_options(s, other_options(sizeof options, U)));
    FULL("a|b", add_to_ring("cd"), lodvarn_yank(s, 1));
    FULL("a|b", (add_to_ring("cd"), add_to_ring("e"), lodvarn_yank(s, 1)), lodvarn_yank_pop(s));
    FULL("abc |d", lodvarn_set_pos(s, 4), lodvarn_transpose_words(s, 1));
    FULL("|ŉ", lodvarn_set_pos(s, 0), lodvarn_change_case(s, LODVARN_UPPERCASE));
    FULL("a|b", lodvarn_set_pos(s, 1), lodvarn_redo(s));
    FULL("a|b", lodvarn_delete_range(s, range(0, 1)), lodvarn_undo(s, 1));
    FULL("a|b", (lodvarn_delete_range(s, range(0, 1)), lodvarn_insert(s, 'c', 1)), lodvarn_undo(s, 3));
    FULL("a|b", (lodvarn_begin_group(s), lodvarn_delete(s, 1)), lodvarn_abandon_group(s));
    open_at("aé\nb|", 6);
    DOES(DONE, lodvarn_replace(s, range(1, 3), "xyz", 3), "axyz|\nb");
    DOES(NO_ROOM, lodvarn_insert(s, 'a', 1), "axyz|\nb");
    DOES(DONE, lodvarn_set_text(s, 6, "123456", 6), "123456|");
    DOES(DONE, lodvarn_restart(s, "654321", 6), "654321|");
    SEE(chosen().limit == 6);
}

/* By a count of 0, also where there is no text or no room, and a run of kills goes on. */
void counts_of_0_do_nothing(void) {
    LEAVES(NOTHING, lodvarn_insert(s, 'a', 0));
    LEAVES(NOTHING, lodvarn_paste(s, "a", 1, 0));
    LEAVES(NOTHING, lodvarn_paste(s, NULL, 0, 0));
    LEAVES(NOTHING, lodvarn_yank(s, 0));
    LEAVES(NOTHING, lodvarn_delete(s, 0));
    LEAVES(NOTHING, lodvarn_backspace(s, 0));
    LEAVES(NOTHING, lodvarn_transpose_words(s, 0));
    LEAVES(NOTHING, lodvarn_undo(s, 0));
    each_counted_movement(0, leave_movement);
}

void texts_that_are_no_utf8(void) {
    for (size_t i = 0; i < COUNT(no_utf8); i++) {
        const char *bad = no_utf8[i];
        size_t len = strlen(bad);
        LEAVES(NOT_UTF8, lodvarn_open(&out.opened, NULL, bad, len));
        LEAVES(NOT_UTF8, lodvarn_paste(s, bad, len, 1));
        LEAVES(NOT_UTF8, lodvarn_set_text(s, 0, bad, len));
        LEAVES(NOT_UTF8, lodvarn_restart(s, bad, len));
        LEAVES(NOT_UTF8, lodvarn_insert_at(s, 0, bad, len));
        LEAVES(NOT_UTF8, lodvarn_replace(s, range(0, 1), bad, len));
        LEAVES(NOT_UTF8, lodvarn_ring_add(s, bad, len));
        LEAVES(NOT_UTF8, lodvarn_width(LODVARN_UNICODE, bad, len, &out.number));
        LEAVES(NOT_UTF8, lodvarn_first_cluster(bad, len, &out.number));
        LEAVES(NOT_UTF8, lodvarn_last_cluster(bad, len, &out.number));
        LEAVES(NOT_UTF8, lodvarn_cell(&screen, 0, bad, len, &out.position));
        LEAVES(NOT_UTF8, lodvarn_offset_at(&screen, corner, bad, len, &out.number));
        LEAVES(NOT_UTF8, lodvarn_clusters(U, bad, len, &out.cluster, 1, &out.number));
        LEAVES(NOT_UTF8, lodvarn_rows(&screen, bad, len, &out.number, 1, &out.number));
        LEAVES(NOT_UTF8, lodvarn_find(s, 0, bad, len, F, &out.range));
        LEAVES(NOT_UTF8, lodvarn_find(s, 6, bad, len, B, &out.range));
        BY_NO_CALL(NOT_UTF8, lodvarn_to_match(F, bad, len));
        BY_NO_CALL(NOT_UTF8, lodvarn_to_match(B, bad, len));
    }
    SEE(lodvarn_script("\xff\n", 2, out.text, 8, &out.number) == LODVARN_DONE && out.number == 4);
    SEE(!memcmp(out.text, "bad\n#", 5));
}

/* Each call that takes a range or an offset, on the text of the rows. */
static void refuse_range(size_t from, size_t to) {
    LEAVES(BAD_OFFSET, lodvarn_slice(s, range(from, to), &out.view));
    LEAVES(BAD_OFFSET, lodvarn_kill_range(s, range(from, to), LODVARN_FORWARD));
    LEAVES(BAD_OFFSET, lodvarn_kill_range(s, range(from, to), LODVARN_BACKWARD));
    PARTS(BAD_OFFSET, lodvarn_replace(s, range(from, to), "x", 1));
    PARTS(BAD_OFFSET, lodvarn_delete_range(s, range(from, to)));
}

void offsets_that_are_none(void) {
    static const size_t table[] = {2, 7, SIZE_MAX};
    for (size_t i = 0; i < COUNT(table); i++) {
        size_t bad = table[i];
        PARTS(BAD_OFFSET, lodvarn_set_pos(s, bad));
        PARTS(BAD_OFFSET, lodvarn_set_text(s, bad, "aé\nb ", 6));
        PARTS(BAD_OFFSET, lodvarn_insert_at(s, bad, "x", 1));
        LEAVES(BAD_OFFSET, lodvarn_cluster_at(s, bad, &out.cluster));
        LEAVES(BAD_OFFSET, lodvarn_cluster_before(s, bad, &out.cluster));
        LEAVES(BAD_OFFSET, lodvarn_clusters_from(s, U, bad, &out.cluster, 1, &out.number, &out.range.from));
        LEAVES(BAD_OFFSET, lodvarn_rows_from(s, &screen, bad, &out.number, 1, &out.number, &out.range.from));
        if (bad != LODVARN_LINE_START) {
            LEAVES(BAD_OFFSET, lodvarn_row_above(s, &screen, bad, 1, &out.number, &out.number));
            LEAVES(BAD_OFFSET, lodvarn_row_below(s, &screen, bad, 1, &out.number, &out.number));
        }
        LEAVES(BAD_OFFSET, lodvarn_line_at(s, bad, &out.number));
        LEAVES(BAD_OFFSET, lodvarn_movement_range(s, bad, lodvarn_whole_text(), &out.range));
        LEAVES(BAD_OFFSET, lodvarn_movement_target(s, bad, lodvarn_to_text_start(), &out.number));
        LEAVES(BAD_OFFSET, lodvarn_find(s, bad, "b", 1, F, &out.range));
        LEAVES(BAD_OFFSET, lodvarn_find(s, bad, "b", 1, B, &out.range));
        LEAVES(BAD_OFFSET, lodvarn_movement_range(s, bad, lodvarn_to_match(F, "b", 1), &out.range));
        LEAVES(BAD_OFFSET, lodvarn_movement_target(s, bad, lodvarn_to_match(B, "a", 1), &out.number));
        LEAVES(BAD_OFFSET, lodvarn_cell(&screen, bad, "aé\nb ", 6, &out.position));
        refuse_range(0, bad);
        refuse_range(bad, 6);
        refuse_range(bad, bad);
    }
    refuse_range(3, 1);
    refuse_range(6, 0);
    LEAVES(BAD_OFFSET, lodvarn_map_offset(change_of(2, 1, 2), 0, LODVARN_BEFORE, &out.number));
    LEAVES(BAD_OFFSET, lodvarn_map_offset(change_of(2, 2, 1), 0, LODVARN_AFTER, &out.number));
    LEAVES(BAD_OFFSET, lodvarn_map_offset(change_of(1, 1, 2), SIZE_MAX, LODVARN_AFTER, &out.number));
    LEAVES(BAD_OFFSET, lodvarn_map_offset(change_of(0, SIZE_MAX - 1, SIZE_MAX), SIZE_MAX, LODVARN_BEFORE, &out.number));
    PARTS(BAD_OFFSET, lodvarn_insert_at(s, 0, "12345漢", 8));
    PARTS(NOT_REPLAYING, lodvarn_truncate(s, 0));
    PARTS(NOT_REPLAYING, lodvarn_truncate(s, 1));
    LEAVES(IS_WATCHED, lodvarn_watch(s, 1, 1));
    LEAVES(IS_WATCHED, lodvarn_watch(s, SIZE_MAX, 0));
}

void nothing_is_done(void) {
    LEAVES(NOTHING, lodvarn_cluster_at(s, 6, &out.cluster));
    LEAVES(NOTHING, lodvarn_cluster_before(s, 0, &out.cluster));
    LEAVES(NOTHING, lodvarn_find(s, 0, "B", 1, F, &out.range));
    LEAVES(NOTHING, lodvarn_find(s, 3, NULL, 0, F, &out.range));
    LEAVES(NOTHING, lodvarn_find(s, 6, "a", 0, B, &out.range));
    LEAVES(NOTHING, lodvarn_movement_range(s, 0, lodvarn_to_match(F, "a", 1), &out.range));
    LEAVES(NOTHING, lodvarn_movement_target(s, 1, lodvarn_to_match(F, "a", 1), &out.number));
    LEAVES(NOTHING, lodvarn_line_range(s, 2, &out.range));
    LEAVES(NOTHING, lodvarn_line_range(s, SIZE_MAX, &out.range));
    LEAVES(NOTHING, lodvarn_movement_range(s, 6, lodvarn_to_line_end(), &out.range));
    LEAVES(NOTHING, lodvarn_movement_target(s, 1, lodvarn_whole_line(), &out.number));
    LEAVES(NOTHING, lodvarn_ring_text(s, lodvarn_ring_count(s), &out.view));
    LEAVES(NOTHING, lodvarn_ring_text(s, SIZE_MAX, &out.view));
    LEAVES(NOTHING, lodvarn_take_change(s, &out.splice));
    LEAVES(NOTHING, lodvarn_first_cluster("", 0, &out.number));
    LEAVES(DONE, SET(limit, 12));
    PARTS(DONE, lodvarn_set_pos(s, 6));
    PARTS(NOTHING, lodvarn_move(s, lodvarn_to_line_end()));
    PARTS(NOTHING, lodvarn_move(s, lodvarn_whole_line()));
    PARTS(NOTHING, lodvarn_move(s, lodvarn_whole_text()));
    PARTS(NOTHING, lodvarn_move(s, lodvarn_to_match(F, "a", 1)));
    PARTS(NOTHING, lodvarn_move(s, lodvarn_to_match(B, "c", 1)));
    PARTS(NOTHING, lodvarn_delete_by(s, lodvarn_to_match(F, "a", 1)));
    PARTS(NOTHING, lodvarn_copy(s, lodvarn_to_match(F, "a", 1), out.text, sizeof out.text, &out.number));
    LEAVES(NOTHING, lodvarn_type(s, NULL, 0, &out.number));
    LEAVES(NOTHING, lodvarn_type(s, "\xe6\x97", 2, &out.number));
    PARTS(NOTHING, lodvarn_indent(s, lodvarn_whole_text(), 0, LODVARN_INDENT));
    PARTS(NOTHING, lodvarn_indent(s, lodvarn_whole_text(), 0, LODVARN_DEDENT));
    PARTS(NOTHING, lodvarn_indent(s, lodvarn_whole_line(), 255, LODVARN_DEDENT));
    PARTS(NOTHING, lodvarn_paste(s, NULL, 0, 1));
    PARTS(NOTHING, lodvarn_delete(s, 1));
    PARTS(NOTHING, lodvarn_delete_by(s, lodvarn_to_text_end()));
    PARTS(NOTHING, lodvarn_kill(s, lodvarn_chars_forward(1)));
    PARTS(NOTHING, lodvarn_copy(s, lodvarn_to_line_end(), NULL, 0, &out.number));
    PARTS(NOTHING, lodvarn_change_case(s, LODVARN_UPPERCASE));
    PARTS(NOTHING, lodvarn_redo(s));
    PARTS(DONE, lodvarn_truncate(s, lodvarn_record_entries(s)));
    open_at("a|b", 64);
    DOES(DONE, lodvarn_delete_range(s, range(2, 2)), "ab|");
    DOES(DONE, lodvarn_replace(s, range(0, 1), NULL, 0), "|b");
    DOES(DONE, lodvarn_insert_at(s, 0, NULL, 0), "|b");
    SEE(lodvarn_set_text(s, 0, NULL, 0) > 0);
    DOES(DONE, lodvarn_restart(s, NULL, 0), "|");
}
