/* The kill ring, undo and its record. */
#include "test.h"

void a_yank_is_popped(void) {
    open_at("ab|", 4);
    must(add_to_ring("xyz") > 0);
    must(add_to_ring("c") > 0);
    DOES(NOTHING, lodvarn_yank_pop(s), "ab|#c#xyz");
    DOES(DONE_AT_END, lodvarn_yank(s, 1), "abc|#c#xyz");
    DOES(NO_ROOM, lodvarn_yank_pop(s), "abc|#c#xyz");
    SEE(lodvarn_record_entries(s) == 1 && lodvarn_last_was_yank(s));
    SET(limit, 6);
    DOES(DONE_AT_END, lodvarn_yank_pop(s), "abxyz|#xyz#c");
    lodvarn_set_pos(s, 0);
    DOES(NOTHING, lodvarn_yank_pop(s), "|abxyz#xyz#c");
    must(add_to_ring("") > 0);
    must(add_to_ring("c") > 0);
    DOES(DONE, lodvarn_yank(s, 1), "c|abxyz#c##c#xyz");
    DOES(DONE, lodvarn_yank_pop(s), "|abxyz##c#xyz#c");
    open_at("|ab", 64);
    must(add_to_ring("xy") > 0);
    must(add_to_ring("c") > 0);
    DOES(DONE, lodvarn_yank(s, 1), "c|ab");
    DOES(DONE, lodvarn_yank_pop(s), "xy|ab#xy#c");
}

void the_ring_has_what_was_killed_and_kept(void) {
    open_at("one two|", 64);
    DOES(DONE, lodvarn_kill(s, WORD_BACK), "one |#two");
    DOES(NOTHING, lodvarn_kill(s, lodvarn_to_text_end()), "one |#two");
    DOES(DONE, lodvarn_undo_boundary(s), "one |#two");
    DOES(DONE, lodvarn_kill(s, WORD_BACK), "|#one #two");
    DOES(DONE, add_to_ring("né"), "|#né#one #two");
    DOES(DONE, lodvarn_ring_add(s, NULL, 0), "|##né#one #two");
    SEE(lodvarn_record_entries(s) == 2 && lodvarn_yank_pop(s) == LODVARN_NOTHING);
    DOES(DONE, lodvarn_ring_clear(s), "|");
    SEE(lodvarn_yank(s, 1) == LODVARN_NOTHING && lodvarn_yank_pop(s) == LODVARN_NOTHING);
    SEE(lodvarn_record_entries(s) == 2);
    open_at("one two|", 64);
    lodvarn_kill(s, WORD_BACK);
    DOES(DONE, lodvarn_ring_clear(s), "one |");
    DOES(DONE, lodvarn_kill(s, WORD_BACK), "|#one ");
    open_at("|", 64);
    add_each("abcd");
    DOES(DONE_AT_END, lodvarn_yank(s, 1), "d|#d#c#b#a");
    SEE(lodvarn_yank_pop(s) == LODVARN_DONE_AT_END && lodvarn_yank_pop(s) == LODVARN_DONE_AT_END);
    DOES(DONE, lodvarn_kill(s, WORD_BACK), "|#b#d#c#b#a");
}

void a_saved_text_comes_back(void) {
    open_at("|", 64);
    SEE(!lodvarn_is_saved(s) && lodvarn_mark_saved(s) == LODVARN_DONE && lodvarn_is_saved(s));
    lodvarn_insert(s, 'a', 1);
    SEE(!lodvarn_is_saved(s) && lodvarn_mark_saved(s) == LODVARN_DONE && lodvarn_is_saved(s));
    SEE(lodvarn_record_entries(s) == 1);
    lodvarn_insert(s, 'b', 1);
    SEE(!lodvarn_is_saved(s) && lodvarn_record_entries(s) == 2);
    DOES(DONE, lodvarn_undo(s, 1), "a|");
    SEE(lodvarn_is_saved(s) && lodvarn_redo(s) == LODVARN_DONE && !lodvarn_is_saved(s));
    DOES(DONE, lodvarn_undo(s, 2), "|");
    DOES(DONE, lodvarn_redo(s), "a|");
    SEE(lodvarn_is_saved(s));
    lodvarn_insert(s, 'c', 1);
    DOES(DONE, lodvarn_undo(s, 1), "a|");
    SEE(lodvarn_is_saved(s));
    lodvarn_undo(s, 1);
    lodvarn_insert(s, 'a', 1);
    SEE(!lodvarn_is_saved(s) && lodvarn_mark_saved(s) == LODVARN_DONE);
    /* marks of groups do not count */
    SEE(lodvarn_begin_group(s) == LODVARN_DONE && lodvarn_is_saved(s));
    SEE(lodvarn_end_group(s) == LODVARN_NOTHING && lodvarn_is_saved(s));
    SEE(SET(max_entries, 0) == LODVARN_DONE && lodvarn_is_saved(s));
    lodvarn_insert(s, 'b', 1);
    SEE(lodvarn_undo(s, 1) == LODVARN_NOTHING && !lodvarn_is_saved(s));
    SEE(lodvarn_mark_saved(s) == LODVARN_DONE && lodvarn_restart(s, "", 0) == LODVARN_DONE && !lodvarn_is_saved(s));
    /* a letter that is refused in a reopened group leaves the text saved */
    open_at("|", 1);
    lodvarn_begin_group(s), lodvarn_insert(s, 'a', 1), lodvarn_end_group(s), lodvarn_mark_saved(s);
    SEE(lodvarn_reopen_group(s) == LODVARN_DONE && lodvarn_insert(s, 'b', 1) == LODVARN_NO_ROOM);
    SEE(lodvarn_end_group(s) == LODVARN_DONE && lodvarn_is_saved(s));
}

void groups_are_closed(void) {
    open_at("|one", 64);
    SEE(lodvarn_end_group(s) == LODVARN_NOTHING && lodvarn_end_all_groups(s) == LODVARN_NOTHING);
    SEE(!lodvarn_group_level(s));
    SEE(lodvarn_begin_group(s) == LODVARN_DONE && lodvarn_record_entries(s) == 1);
    DOES(DONE, lodvarn_change_case(s, LODVARN_UPPERCASE), "ONE|");
    SEE(lodvarn_begin_group(s) == LODVARN_DONE && lodvarn_group_level(s) == 2 && !lodvarn_can_undo(s));
    lodvarn_insert(s, 'b', 1);
    SEE(lodvarn_can_undo(s) && lodvarn_end_group(s) == LODVARN_DONE && lodvarn_group_level(s) == 1);
    lodvarn_begin_group(s);
    SEE(lodvarn_end_group(s) == LODVARN_NOTHING && lodvarn_group_level(s) == 1);
    SEE(lodvarn_end_group(s) == LODVARN_DONE && !lodvarn_group_level(s));
    SEE(lodvarn_record_entries(s) == 9 && !lodvarn_can_redo(s));
    DOES(DONE, lodvarn_undo(s, 1), "|one");
    SEE(!lodvarn_can_undo(s) && lodvarn_can_redo(s));
    DOES(DONE, lodvarn_redo(s), "ONEb|");
    SEE(lodvarn_reopen_group(s) == LODVARN_DONE && lodvarn_group_level(s) == 1);
    lodvarn_insert(s, 'c', 1);
    SEE(lodvarn_reopen_group(s) == LODVARN_NOTHING && lodvarn_end_group(s) == LODVARN_DONE && !lodvarn_group_level(s));
    DOES(DONE, lodvarn_undo(s, 1), "|one");
    DOES(DONE, lodvarn_redo(s), "ONEbc|");
    for (int i = 0; i < 3; i++) lodvarn_begin_group(s), lodvarn_insert(s, 'd', 1);
    SEE(lodvarn_group_level(s) == 3 && lodvarn_end_all_groups(s) == LODVARN_DONE && !lodvarn_group_level(s));
    DOES(DONE, lodvarn_undo(s, 1), "ONEbc|");
}

/* On the text the call leaves that. One undo takes it back, and leaves nothing recorded; one redo makes it again. */
#define UNIT(marked, call, left)                                     \
    do {                                                             \
        open_at(marked, 64);                                         \
        DOES(DONE, call, left);                                      \
        DOES(DONE, lodvarn_undo(s, 1), marked);                      \
        SEE(!lodvarn_record_entries(s) && lodvarn_redo(s) == LODVARN_DONE); \
        DOES(NOTHING, lodvarn_redo(s), left);                        \
    } while (0)

void an_edit_is_one_unit(void) {
    UNIT("ab|", lodvarn_set_text(s, 1, "xyz", 3), "x|yz");
    UNIT("ab|", lodvarn_transpose_chars(s), "ba|");
    UNIT("one two|", lodvarn_transpose_words(s, 1), "two one|");
    UNIT("|ab c", lodvarn_change_case(s, LODVARN_UPPERCASE), "AB| c");
    UNIT("a\nb|", lodvarn_indent(s, lodvarn_whole_text(), 2, LODVARN_INDENT), "  a\n  b|");
    UNIT("  a\n  b|", lodvarn_indent(s, lodvarn_whole_text(), 1, LODVARN_DEDENT), " a\n b|");
    open_at("abc|", 64);
    lodvarn_backspace(s, 1), lodvarn_transpose_chars(s);
    SEE(lodvarn_record_entries(s) == 5);
    DOES(DONE, lodvarn_undo(s, 1), "ab|");
    DOES(NOTHING, lodvarn_change_case(s, LODVARN_UPPERCASE), "ab|");
    DOES(DONE, lodvarn_redo(s), "ba|");
    open_at("|", 64);
    lodvarn_insert(s, 'a', 1);
    DOES(NOTHING, lodvarn_transpose_words(s, 1), "a|");
    lodvarn_insert(s, 'b', 1);
    SEE(lodvarn_record_entries(s) == 1);
}

void a_yank_and_its_pops_are_one_unit(void) {
    open_at("|", 64);
    add_each("abc");
    lodvarn_insert(s, '-', 1);
    DOES(DONE_AT_END, lodvarn_yank(s, 1), "-c|");
    DOES(DONE_AT_END, lodvarn_yank_pop(s), "-b|");
    SEE(lodvarn_record_entries(s) == 6);
    DOES(DONE_AT_END, lodvarn_yank_pop(s), "-a|");
    DOES(DONE, lodvarn_undo(s, 1), "-|");
    DOES(DONE, lodvarn_redo(s), "-a|");
    SEE(!lodvarn_can_redo(s));
    DOES(DONE_AT_END, lodvarn_yank(s, 2), "-aaa|");
    DOES(DONE_AT_END, lodvarn_yank_pop(s), "-aac|");
    DOES(DONE, lodvarn_undo(s, 1), "-aaa|");
    DOES(DONE_AT_END, lodvarn_yank(s, 1), "-aaac|");
    SEE(lodvarn_mark_saved(s) == LODVARN_DONE && lodvarn_yank_pop(s) == LODVARN_DONE_AT_END);
    DOES(DONE, lodvarn_undo(s, 1), "-aaac|");
    SEE(lodvarn_is_saved(s));
}

void an_undo_stays_in_its_group(void) {
    open_at("|", 64);
    lodvarn_insert(s, 'a', 1);
    DOES(DONE, lodvarn_begin_group(s), "a|");
    DOES(NOTHING, lodvarn_undo(s, 1), "a|");
    lodvarn_insert(s, '-', 1), lodvarn_insert(s, '+', 1);
    DOES(DONE, lodvarn_undo(s, 9), "a|");
    DOES(NOTHING, lodvarn_undo(s, 9), "a|");
    SEE(lodvarn_group_level(s) == 1 && lodvarn_record_entries(s) == 2 && !lodvarn_can_undo(s) && lodvarn_can_redo(s));
    DOES(DONE, lodvarn_redo(s), "a-|");
    DOES(DONE, lodvarn_begin_group(s), "a-|");
    DOES(NOTHING, lodvarn_undo(s, 9), "a-|");
    DOES(DONE, lodvarn_transpose_chars(s), "-a|");
    DOES(DONE, lodvarn_undo(s, 9), "a-|");
    SEE(lodvarn_group_level(s) == 2 && lodvarn_end_group(s) == LODVARN_NOTHING);
    DOES(DONE, lodvarn_undo(s, 9), "a|");
    DOES(DONE, lodvarn_abandon_group(s), "a|");
    DOES(DONE, lodvarn_undo(s, 9), "|");
    SEE(!lodvarn_group_level(s) && !lodvarn_record_entries(s));
}

void what_was_undone_is_kept(void) {
    open_at("one two|", 64);
    must(SET(keep_undone, true) > 0);
    lodvarn_kill(s, WORD_BACK), lodvarn_begin_group(s), lodvarn_insert(s, '-', 1), lodvarn_insert(s, '+', 1);
    lodvarn_end_group(s);
    DOES(DONE, lodvarn_undo(s, 2), "one two|#two");
    lodvarn_set_pos(s, 0), lodvarn_insert(s, '*', 1);
    SEE(lodvarn_record_entries(s) == 11 && !lodvarn_group_level(s) && !lodvarn_can_redo(s));
    DOES(DONE, lodvarn_undo(s, 2), "one |#two");
    DOES(DONE, lodvarn_undo(s, 1), "one -+|#two");
    DOES(DONE, lodvarn_undo(s, 1), "one |#two");
    DOES(DONE, lodvarn_undo(s, 1), "one two|#two");
    DOES(NOTHING, lodvarn_undo(s, 1), "one two|#two");
    open_at("|", 64);
    must(SET(max_entries, 2) > 0 && SET(keep_undone, true) > 0);
    lodvarn_insert(s, '-', 1), lodvarn_insert(s, '+', 1), lodvarn_undo(s, 1), lodvarn_insert(s, '*', 1);
    SEE(lodvarn_record_entries(s) == 2);
    DOES(DONE, lodvarn_undo(s, 1), "-|");
    DOES(DONE, lodvarn_undo(s, 9), "-+|");
    DOES(NOTHING, lodvarn_undo(s, 1), "-+|");
}

/* A session in which "-" was typed after "one two", and undone. */
static void begin_undone(bool keeps) {
    open_at("one two|", 64);
    must(SET(keep_undone, keeps) > 0 && add_to_ring("kept") > 0);
    must(lodvarn_insert(s, '-', 1) > 0 && lodvarn_undo(s, 1) > 0);
}

/* Whether undos come to the text that was undone. */
static int comes_back(void) {
    lodvarn_view text;
    if (lodvarn_group_level(s)) lodvarn_end_all_groups(s);
    while (lodvarn_record_entries(s) > 0 && lodvarn_undo(s, 1) >= 0)
        if (lodvarn_text(s, &text) > 0 && is(text, "one two-")) return 1;
    return 0;
}

/* The call keeps the undone changes if that is chosen, and else they can be redone or not; or it does not, and they can
 * be redone or are dropped. */
#define KEEPS(call) UNDONE(call, comes_back() == keeps)
#define STAYS(call) UNDONE(call, !keeps == (lodvarn_redo(s) == LODVARN_DONE))
#define PASSES(call) UNDONE(call, lodvarn_can_redo(s) && !comes_back())
#define FORGETS(call) UNDONE(call, !lodvarn_can_redo(s) && !comes_back())
#define UNDONE(call, holds)                                                                              \
    for (int keeps = 0; keeps < 2; keeps++) {                                                            \
        begin_undone(keeps);                                                                             \
        int answer = (call);                                                                             \
        if (!see(#call, (holds))) printf("  after %s, %d\n", lodvarn_answer_name(answer), keeps);        \
    }

void edits_keep_what_was_undone(void) {
    char copied[8];
    size_t len;
    KEEPS(lodvarn_insert(s, '+', 1));
    KEEPS(lodvarn_type(s, "+*", 2, &len));
    KEEPS(lodvarn_paste(s, "+", 1, 1));
    KEEPS(lodvarn_yank(s, 1));
    KEEPS(lodvarn_yank_pop(s));
    KEEPS(lodvarn_set_text(s, 0, "+", 1));
    KEEPS(lodvarn_insert_at(s, 0, "+", 1));
    KEEPS(lodvarn_replace(s, range(0, 1), "+", 1));
    KEEPS(lodvarn_delete_range(s, range(0, 1)));
    KEEPS(lodvarn_delete_range(s, range(0, 9)));
    KEEPS(lodvarn_delete(s, 1));
    KEEPS(lodvarn_backspace(s, 1));
    KEEPS(lodvarn_delete_by(s, lodvarn_to_line_start()));
    KEEPS(lodvarn_delete_by(s, lodvarn_to_match(B, "one", 3)));
    KEEPS(lodvarn_transpose_chars(s));
    KEEPS(lodvarn_transpose_words(s, 1));
    KEEPS(lodvarn_change_case(s, LODVARN_UPPERCASE));
    KEEPS(lodvarn_kill(s, WORD_BACK));
    KEEPS(lodvarn_kill_range(s, range(0, 1), LODVARN_FORWARD));
    KEEPS(lodvarn_indent(s, lodvarn_whole_text(), 1, LODVARN_INDENT));
    KEEPS(lodvarn_begin_group(s));
    KEEPS(lodvarn_end_group(s));
    KEEPS(lodvarn_end_all_groups(s));
    STAYS(lodvarn_begin_group(s));
    STAYS((lodvarn_begin_group(s), lodvarn_end_group(s)));
    STAYS((lodvarn_begin_group(s), lodvarn_begin_group(s), lodvarn_end_all_groups(s)));
    STAYS((lodvarn_begin_group(s), lodvarn_abandon_group(s)));
    PASSES(lodvarn_insert(s, '+', 0));
    PASSES(lodvarn_insert(s, '+', 65535));
    PASSES(lodvarn_insert(s, '+', 65536));
    PASSES(lodvarn_paste(s, "\xff", 1, 1));
    PASSES(lodvarn_type(s, "\xc3", 1, &len));
    PASSES(lodvarn_type(s, "\xff+", 2, &len));
    PASSES(lodvarn_indent(s, lodvarn_whole_text(), 0, LODVARN_INDENT));
    PASSES(lodvarn_indent(s, lodvarn_whole_text(), 1, LODVARN_DEDENT));
    PASSES(lodvarn_set_pos(s, 0));
    PASSES(lodvarn_move(s, WORD_BACK));
    PASSES(lodvarn_copy(s, WORD_BACK, copied, sizeof copied, &len));
    PASSES(add_to_ring("+"));
    PASSES(lodvarn_undo_boundary(s));
    PASSES(lodvarn_mark_saved(s));
    PASSES(lodvarn_undo(s, 1));
    PASSES(lodvarn_abandon_group(s));
    PASSES(lodvarn_reopen_group(s));
    FORGETS(lodvarn_truncate(s, 0));
    FORGETS(lodvarn_restart(s, "+", 1));
    begin_undone(true);
    lodvarn_insert(s, '+', 1), lodvarn_undo(s, 1);
    lodvarn_begin_group(s), lodvarn_kill(s, WORD_BACK), lodvarn_end_group(s);
    DOES(DONE, lodvarn_undo(s, 1), "one two|#two#kept");
    DOES(DONE, lodvarn_undo(s, 1), "one two+|#two#kept");
    DOES(DONE, lodvarn_undo(s, 2), "one two-|#two#kept");
    DOES(DONE, lodvarn_undo(s, 1), "one two|#two#kept");
    DOES(NOTHING, lodvarn_undo(s, 1), "one two|#two#kept");
    lodvarn_begin_group(s), lodvarn_insert(s, '-', 1), lodvarn_end_group(s);
    lodvarn_insert(s, '+', 1), lodvarn_undo(s, 1);
    SEE(lodvarn_reopen_group(s) == LODVARN_NOTHING && lodvarn_can_redo(s));
    SEE(SET(keep_undone, false) > 0 && lodvarn_reopen_group(s) == LODVARN_DONE && !lodvarn_can_redo(s));
}
