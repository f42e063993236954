/* What changed: splices, reports, and where offsets move. */
#include <time.h>
#include "test.h"

/* Where a change moves an offset, on each side. */
static int moves_to(const lodvarn_splice *change, size_t offset, size_t before, size_t after) {
    size_t to_before = NO, to_after = NO;
    return lodvarn_map_offset(change, offset, LODVARN_BEFORE, &to_before) == LODVARN_DONE && to_before == before
        && lodvarn_map_offset(change, offset, LODVARN_AFTER, &to_after) == LODVARN_DONE && to_after == after;
}

void offsets_move(void) {
    static const struct { lodvarn_splice change; size_t offset, before, after; } table[] = {
        {{3, 3, 5}, 2, 2, 2}, {{3, 3, 5}, 3, 3, 5}, {{3, 3, 5}, 4, 6, 6}, {{2, 6, 2}, 2, 2, 2}, {{2, 6, 2}, 4, 2, 2},
        {{2, 6, 2}, 6, 2, 2}, {{2, 6, 2}, 7, 3, 3}, {{2, 6, 5}, 2, 2, 2}, {{2, 6, 5}, 3, 2, 5}, {{2, 6, 5}, 6, 5, 5},
        {{2, 5, 6}, 7, 8, 8}, {{0, 0, 0}, 9, 9, 9}, {{0, SIZE_MAX, 1}, SIZE_MAX, 1, 1},
        {{0, 0, 1}, SIZE_MAX - 1, SIZE_MAX, SIZE_MAX}, {{0, 0, 0}, SIZE_MAX, SIZE_MAX, SIZE_MAX},
    };
    for (size_t i = 0; i < COUNT(table); i++)
        if (!SEE(moves_to(&table[i].change, table[i].offset, table[i].before, table[i].after)))
            printf("  in row %zu\n", i);
}

/* Marks before the é of "one é two" follow each line in turn: by the reports, on both sides, and by what changed at
 * once, on that of the text before. */
void marks_follow(void) {
    static const struct { const char *line; size_t before, after, at_once; } table[] = {
        {"str 0 語", 7, 7, 7},  {"str 7 x", 7, 8, 7}, {"undo 1", 7, 7, 7}, {"range 6 9", 6, 6, 6}, {"undo 1", 6, 9, 6},
        {"undo 1", 3, 6, 3},    {"begin", 3, 6, 3},   {"str 0 a", 4, 7, 4}, {"str 11 b", 4, 7, 4}, {"end", 4, 7, 4},
        {"undo 1", 3, 6, 0},    {"redo", 4, 7, 0},
    };
    size_t before = 4, after = 4, at_once = 4;
    lodvarn_report r = LODVARN_REPORT;
    lodvarn_splice change;
    begin_script();
    run("limit 64");
    run("text one é two");
    must(lodvarn_watch(s, 8, 64) == LODVARN_DONE);
    lodvarn_take_change(s, &change);
    for (size_t i = 0; i < COUNT(table); i++) {
        run(table[i].line);
        while (lodvarn_take_report(s, &r) > 0) {
            change = (lodvarn_splice){r.at, r.at + r.old_len, r.at + r.new_len};
            must(lodvarn_map_offset(&change, before, LODVARN_BEFORE, &before) == LODVARN_DONE);
            must(lodvarn_map_offset(&change, after, LODVARN_AFTER, &after) == LODVARN_DONE);
        }
        if (lodvarn_take_change(s, &change) > 0)
            must(lodvarn_map_offset(&change, at_once, LODVARN_BEFORE, &at_once) == LODVARN_DONE);
        if (!see(table[i].line, before == table[i].before && after == table[i].after && at_once == table[i].at_once))
            printf("  in row %zu: %zu, %zu, %zu\n", i, before, after, at_once);
    }
}

/* What changed by each line in turn, from "one two" on, if it is asked. */
void what_changed_is_told(void) {
    enum { UNASKED = 98 };
    static const struct { const char *line, *printed; size_t from, old_to, new_to; } table[] = {
        {"limit 64", "ok 0 \n", NO, NO, NO},
        {"text one two", "ok 7 one two\n", NO, NO, NO},
        {"pos 3", "ok 3 one two\n", NO, NO, NO},
        {"ins 1 x", "false 4 onex two\n", 3, 3, 4},
        {"pos 4", "ok 4 onex two\n", NO, NO, NO},
        {"range 1 3", "ok 1 ox two\n", 1, 3, 1},
        {"ins 1 a", "false 2 oax two\n", UNASKED, 0, 0},
        {"move eol", "true 7 oax two\n", UNASKED, 0, 0},
        {"paste 1 é", "true 9 oax twoé\n", 1, 6, 9},
        {"undo 1", "true 7 oax two\n", 7, 9, 7},
        {"redo", "true 9 oax twoé\n", 7, 7, 9},
        {"rep 0 3 1\\n2", "ok 3 1\\n2 twoé\n", 0, 3, 3},
        {"undo 65535", "true 3 one two\n", 0, 9, 7},
        {"range 0 8", "refused:2 3 one two\n", NO, NO, NO},
        {"ins 58 x", "none 3 one two\n", NO, NO, NO},
        {"ins 1 x", "false 4 onex two\n", UNASKED, 0, 0},
        {"undo 1", "true 3 one two\n", NO, NO, NO},
        {"range 4 7", "ok 4 one \n", UNASKED, 0, 0},
        {"undo 1", "true 3 one two\n", 4, 7, 7},
        {"update 0 ", "ok 0 \n", 0, 7, 0},
    };
    begin_script();
    for (size_t i = 0; i < COUNT(table); i++) {
        const char *printed = run(table[i].line);
        int told = table[i].from == UNASKED || changed_is(table[i].from, table[i].old_to, table[i].new_to);
        if (!see(table[i].line, told && !strcmp(printed, table[i].printed))) printf("  in row %zu: %s", i, printed);
    }
}

#define KILL(reports) "KILL_STARTED 0 0 0 0 0 \n" reports "KILL_STOPPED 0 0 0 0 0 \n"

/* The reports of a line, or of several with a ; between them. Those before it come before the queue, which has room for
 * so much. The text is "one two", with the cursor at its end. */
static const struct reported {
    const char *before[3], *line;
    size_t reports, text_bytes;
    const char *wanted;
} reported[] = {
    {{0}, "ins 1 x", 8, 64, "CHAR_INSERTED 7 0 1 7 8 x\n"},
    {{"pos 3"}, "ins 1 é", 8, 64, "CHAR_INSERTED 3 0 2 3 5 é\n"},
    {{0}, "paste 2 ab", 8, 64, "TEXT_INSERTED 7 0 4 7 11 abab\n"},
    {{"pos 4"}, "str 0 é", 8, 64, "TEXT_INSERTED 0 0 2 4 4 é\n"},
    {{"pos 3"}, "del 2", 8, 64, "DELETED_FORWARD 3 2 0 3 3  t\n"},
    {{0}, "back 2", 8, 64, "DELETED_BACKWARD 5 2 0 7 5 wo\n"},
    {{"pos 3"}, "killline", 8, 64, "DELETED_FORWARD 3 4 0 3 3  two\n"},
    {{0}, "rep 0 3 1é", 8, 64, "REPLACED 0 3 3 7 3 one1é\n"},
    {{0}, "kill bword 1 emacs", 8, 64, KILL("DELETED_BACKWARD 4 3 0 7 4 two\n")},
    {{"pos 4"}, "kill eol", 8, 64, KILL("DELETED_FORWARD 4 3 0 4 4 two\n")},
    {{"kill bword 1 emacs"}, "yank 1", 8, 64, "TEXT_INSERTED 4 0 3 4 7 two\n"},
    {{"pos 3", "ins 1 é"}, "undo 1", 8, 64, "REPLACED 3 2 0 5 3 é\n"},
    {{"pos 3", "ins 1 é", "undo 1"}, "redo", 8, 64, "REPLACED 3 0 2 3 5 é\n"},
    {{"back 1", "pos 2"}, "undo 1", 8, 64, "REPLACED 6 0 1 2 7 o\n"},
    {{"pos 3", "ins 1 x", "rep 0 1 O"}, "undo 2", 8, 64, "REPLACED 0 1 1 1 4 Oo\nREPLACED 3 1 0 4 3 x\n"},
    {{"begin", "ins 1 x", "rep 0 1 O"}, "abandon", 8, 64, "REPLACED 0 1 1 1 8 Oo\nREPLACED 7 1 0 8 7 x\n"},
    {{0}, "move home", 8, 64, ""},
    {{0}, "kill eol", 8, 1, KILL("")},
    {{0}, "kill eol", 8, 0, "FOLDED 0 0 0 0 0 \n"},
    {{0}, "rep 0 3 1é", 8, 0, "REPLACED 0 3 3 7 3 \n"},
    {{0}, "rep 0 3 1é", 8, 6, "REPLACED 0 3 3 7 3 one1é\n"},
    {{0}, "rep 0 3 1é", 8, 5, "FOLDED 0 3 3 7 3 \n"},
    {{0}, "kill bword 1 emacs", 3, 3, KILL("DELETED_BACKWARD 4 3 0 7 4 two\n")},
    {{0}, "kill bword 1 emacs", 2, 3, "FOLDED 4 3 0 7 4 \n"},
    {{0}, "kill bword 1 emacs", 8, 0, "FOLDED 4 3 0 7 4 \n"},
    {{0}, "kill bword 1 emacs", 1, 64, "FOLDED 4 3 0 7 4 \n"},
    {{0}, "ins 1 a;ins 1 b", 2, 64, "CHAR_INSERTED 7 0 1 7 8 a\nCHAR_INSERTED 8 0 1 8 9 b\n"},
    {{0}, "ins 1 a;ins 1 b;ins 1 c;range 0 1", 2, 64, "FOLDED 0 7 9 7 0 \n"},
    {{0}, "ins 1 a;str 0 b", 2, 0, "FOLDED 0 7 9 7 8 \n"},
};

void changes_are_reported(void) {
    for (size_t i = 0; i < COUNT(reported); i++) {
        const struct reported *row = &reported[i];
        char lines[64], *line = strtok(strcpy(lines, row->line), ";");
        begin_script();
        run("text one two");
        for (size_t k = 0; k < 3 && row->before[k]; k++) run(row->before[k]);
        must(lodvarn_watch(s, row->reports, row->text_bytes) == LODVARN_DONE);
        for (; line; line = strtok(NULL, ";")) run(line);
        reports_are(row->line, SIZE_MAX, row->wanted);
    }
}

void reports_wait(void) {
    static const size_t great[][2] = {{SIZE_MAX, 1}, {1, SIZE_MAX}, {SIZE_MAX, SIZE_MAX}, {SIZE_MAX / 2, 1}};
    lodvarn_report report = LODVARN_REPORT;
    open_at("ab|", 64);
    SEE(lodvarn_take_report(s, &report) == LODVARN_NOTHING && lodvarn_unwatch(s) == LODVARN_DONE);
    SEE(lodvarn_watch(s, 0, 0) == LODVARN_NO_SUCH_NUMBER && lodvarn_watch(s, 0, 64) == LODVARN_NO_SUCH_NUMBER);
    for (size_t i = 0; i < COUNT(great); i++)
        SEE(lodvarn_watch(s, great[i][0], great[i][1]) == LODVARN_NO_MEMORY);
    lodvarn_insert(s, 'c', 1);
    SEE(lodvarn_watch(s, 3, 64) == LODVARN_DONE && lodvarn_report_count(s) == 0);
    lodvarn_insert(s, 'd', 1);
    lodvarn_replace(s, range(0, 1), "x", 1);
    SEE(lodvarn_report_count(s) == 2);
    REPORTS(1, "CHAR_INSERTED 3 0 1 3 4 d\n");
    SEE(lodvarn_report_count(s) == 1);
    SEE(lodvarn_unwatch(s) == LODVARN_DONE && lodvarn_report_count(s) == 0 && lodvarn_unwatch(s) == LODVARN_DONE);
    SEE(lodvarn_take_report(s, &report) == LODVARN_NOTHING);
    lodvarn_insert(s, 'e', 1);
    SEE(lodvarn_watch(s, 1, 1) == LODVARN_DONE && lodvarn_take_report(s, &report) == LODVARN_NOTHING);
    lodvarn_insert(s, 'f', 1);
    REPORTS(9, "CHAR_INSERTED 2 0 1 2 3 f\n");
    lodvarn_insert(s, 'g', 1), lodvarn_insert(s, 'h', 1);
    REPORTS(1, "FOLDED 3 0 2 3 5 \n");
    lodvarn_insert(s, 'i', 1);
    REPORTS(9, "CHAR_INSERTED 5 0 1 5 6 i\n");
}

void asking_what_changed_parts_nothing(void) {
    lodvarn_report report = LODVARN_REPORT;
    open_at("one two three four|", 64);
    DOES(DONE, lodvarn_kill(s, WORD_BACK), "one two three |#four");
    SEE(changed_is(14, 18, 14) && lodvarn_watch(s, 8, 64) == LODVARN_DONE);
    DOES(DONE, lodvarn_kill(s, WORD_BACK), "one two |#three four");
    while (lodvarn_take_report(s, &report) > 0) {}
    SEE(changed_is(8, 14, 8));
    DOES(DONE, lodvarn_kill(s, WORD_BACK), "one |#two three four");
    SEE(lodvarn_report_count(s) == 3 && lodvarn_unwatch(s) == LODVARN_DONE);
    DOES(DONE, lodvarn_kill(s, WORD_BACK), "|#one two three four");
    DOES(DONE_AT_END, lodvarn_yank(s, 1), "one two three four|");
    SEE(changed_is(0, 8, 18) && lodvarn_last_was_yank(s));
}

/* 64,000 reports of 100 bytes are taken in a time that grows with their number, not with its square. */
void reports_are_drained_quickly(void) {
    static char text[101];
    int count = 64000;
    lodvarn_report report = LODVARN_REPORT;
    clock_t end = clock() + 5 * CLOCKS_PER_SEC;
    memset(text, 'a', 100);
    open_at("|", LODVARN_NO_LIMIT);
    must(SET(max_entries, 0) > 0 && lodvarn_watch(s, 64000, 6400000) > 0);
    for (int i = 0; i < count / 2; i++)
        must(lodvarn_paste(s, text, 100, 1) > 0 && lodvarn_delete_range(s, range(0, 100)) > 0);
    while (clock() < end && lodvarn_take_report(s, &report) > 0 && report.kind != LODVARN_FOLDED
           && (is(report.old_text, text) || is(report.new_text, text)))
        count--;
    SEE(count == 0 && lodvarn_report_count(s) == 0);
}
