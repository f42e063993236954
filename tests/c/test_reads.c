/* Reads, and the calls that take a text. */
#include "test.h"

void reads_read(void) {
    static const size_t lines[][2] = {{0, 2}, {3, 3}, {4, 6}};
    lodvarn_range line = {NO, NO};
    open_at("ab\n|\ncd", 6);
    SEE(chosen().limit == 6 && lodvarn_line_count(s) == 3);
    static const size_t line_of[] = {0, 0, 0, 1, 2, 2, 2};
    for (size_t offset = 0, number = NO; offset <= 6; offset++)
        SEE(lodvarn_line_at(s, offset, &number) == LODVARN_DONE && number == line_of[offset]);
    SEE(lodvarn_line_range(s, 3, &line) == LODVARN_NOTHING && line.from == NO && line.to == NO);
    for (size_t i = 0; i < 3; i++)
        SEE(lodvarn_line_range(s, i, &line) == LODVARN_DONE && line.from == lines[i][0] && line.to == lines[i][1]);
    SEE(!lodvarn_record_entries(s) && !lodvarn_group_level(s) && !lodvarn_ring_count(s) && !lodvarn_report_count(s));
    SEE(!lodvarn_can_undo(s) && !lodvarn_can_redo(s) && !lodvarn_last_was_yank(s));
    lodvarn_kill(s, lodvarn_to_text_start());
    lodvarn_yank(s, 1);
    SEE(lodvarn_last_was_yank(s) && lodvarn_record_entries(s) == 2 && lodvarn_can_undo(s));
    lodvarn_set_pos(s, 0);
    SEE(!lodvarn_last_was_yank(s));
}

/* What a movement covers, and where it goes, from an offset of "one two\n  three x\n \t \n", wherever the cursor is. NO
 * if that is nothing. */
void movements_are_asked(void) {
    const struct {
        size_t pos;
        lodvarn_movement by;
        size_t from, to, destination;
    } table[] = {
        {12, lodvarn_whole_line(), 8, 17, NO},
        {12, lodvarn_to_line_start(), 8, 12, 8},
        {12, lodvarn_to_line_end(), 12, 17, 17},
        {17, lodvarn_to_line_end(), NO, NO, NO},
        {12, WORD_BACK, 10, 12, 10},
        {12, lodvarn_words_back(LODVARN_BIG, 2), 4, 12, 4},
        {12, lodvarn_words_forward(LODVARN_EMACS, LODVARN_AFTER_END, 1), 12, 15, 15},
        {12, lodvarn_words_forward(LODVARN_VI, LODVARN_AT_START, 1), 12, 16, 16},
        {12, lodvarn_to_char(LODVARN_TO, 'x', 1), 12, 17, 16},
        {12, lodvarn_to_char(LODVARN_BACK_TO, 'w', 1), 5, 12, 5},
        {12, lodvarn_to_char(LODVARN_TO, 'q', 1), NO, NO, NO},
        {12, lodvarn_to_match(F, "x\n", 2), 12, 16, 16},
        {10, lodvarn_to_match(F, "three", 5), NO, NO, 10},
        {12, lodvarn_to_match(B, "two", 3), 4, 12, 4},
        {12, lodvarn_to_match(B, "th", 2), 10, 12, 10},
        {12, lodvarn_chars_back(2), 10, 12, 10},
        {12, lodvarn_chars_forward(2), 12, 14, 14},
        {12, lodvarn_lines_up(1), 0, 18, 4},
        {22, lodvarn_lines_down(1), NO, NO, NO},
        {2, lodvarn_lines_down(1), 0, 18, 10},
        {12, lodvarn_whole_lines_up(65535), 0, 18, NO},
        {12, lodvarn_whole_lines_down(2), 8, 22, NO},
        {22, lodvarn_whole_lines_up(2), 18, 22, NO},
        {12, lodvarn_whole_text(), 0, 22, NO},
        {12, lodvarn_to_text_start(), 0, 12, 0},
        {12, lodvarn_to_text_end(), 12, 22, 22},
        {12, lodvarn_to_first_nonblank(), 10, 12, 10},
        {22, lodvarn_to_first_nonblank(), NO, NO, NO},
    };
    open_at("one two\n|  three x\n \t \n", 64);
    for (size_t i = 0; i < COUNT(table); i++) {
        lodvarn_range got = {NO, NO};
        size_t to = NO, from = table[i].pos;
        int covers = lodvarn_movement_range(s, from, table[i].by, &got);
        int goes = lodvarn_movement_target(s, from, table[i].by, &to);
        if (!SEE(covers == (table[i].from != NO) && got.from == table[i].from && got.to == table[i].to))
            printf("  by row %zu: %zu to %zu\n", i, got.from, got.to);
        if (!SEE(goes == (table[i].destination != NO) && to == table[i].destination))
            printf("  by row %zu: %zu\n", i, to);
        SEE(lodvarn_pos(s) == 8);
    }
}

void clusters_of_a_session_are_measured(void) {
    static const size_t table[][3] = {{0, 1, 1}, {1, 2, 1}, {2, 5, 2}, {6, 9, 1}, {7, 9, 0}, {9, 27, 2}, {16, 27, 2}};
    static const size_t before[][3] = {{1, 0, 1}, {2, 1, 1}, {5, 2, 2}, {7, 6, 1}, {9, 6, 1}, {16, 9, 2}, {27, 9, 2}};
    lodvarn_cluster got = {NO, NO, NO};
    open_at("ab漢\ne\u0301" FAMILY "|", 64);
    SEE(lodvarn_cluster_at(s, 27, &got) == LODVARN_NOTHING && got.to == NO && got.columns == NO);
    SEE(lodvarn_cluster_before(s, 0, &got) == LODVARN_NOTHING && got.from == NO && got.columns == NO);
    for (size_t i = 0; i < COUNT(table); i++)
        if (!SEE(lodvarn_cluster_at(s, table[i][0], &got) == LODVARN_DONE && got.from == table[i][0]
                 && got.to == table[i][1] && got.columns == table[i][2]))
            printf("  at %zu: %zu, %zu\n", table[i][0], got.to, got.columns);
    for (size_t i = 0; i < COUNT(before); i++)
        if (!SEE(lodvarn_cluster_before(s, before[i][0], &got) == LODVARN_DONE && got.from == before[i][1]
                 && got.to == before[i][0] && got.columns == before[i][2]))
            printf("  before %zu: %zu, %zu\n", before[i][0], got.from, got.columns);
    SEE(lodvarn_cluster_at(s, 5, &got) == LODVARN_DONE && got.to == 6);
    lodvarn_position at = {NO, NO};
    SEE(lodvarn_cursor_position(s, &at) == LODVARN_DONE && at.line == 1 && at.column == 3);
    SET(mode, LODVARN_WC_WIDTH);
    SEE(lodvarn_cluster_at(s, 9, &got) == LODVARN_DONE && got.to == 27 && got.columns == 6);
    SEE(lodvarn_cursor_position(s, &at) == LODVARN_DONE && at.line == 1 && at.column == 7);
    SET(prompt, 5);
    lodvarn_set_pos(s, 1);
    SEE(lodvarn_cursor_position(s, &at) == LODVARN_DONE && at.line == 0 && at.column == 1);
}

/* Where a text is found: from an offset in a direction, at that offset, or NO. */
static const struct { const char *in, *text; size_t from; enum lodvarn_direction direction; size_t at; } found[] = {
    {"abab aéa\nabé", "ab", 1, F, 2},   {"abab aéa\nabé", "ab", 11, F, NO}, {"abab aéa\nabé", "ab", 12, B, 10},
    {"abab aéa\nabé", "ab", 11, B, 2},  {"abab aéa\nabé", "é", 6, F, 6},    {"abab aéa\nabé", "é", 8, B, 6},
    {"abab aéa\nabé", "a\na", 0, F, 8}, {"abab aéa\nabé", "AB", 0, F, NO},  {"aaaa", "aa", 3, B, 1},
    {"abaabab", "abab", 0, F, 3},       {"e\u0301", "\u0301", 1, F, 1},      {"ĩé", "é", 0, F, 2},
    {"", "a", 0, B, NO},                {"ab", "", 1, F, NO},                {"", "", 0, F, NO},
};

void texts_are_found(void) {
    for (size_t i = 0; i < COUNT(found); i++) {
        lodvarn_range got = {NO, NO};
        size_t len = strlen(found[i].text);
        open_at("|", 64);
        must(lodvarn_restart(s, found[i].in, strlen(found[i].in)) > 0);
        int answer = lodvarn_find(s, found[i].from, found[i].text, len, found[i].direction, &got);
        int is = found[i].at != NO;
        if (!SEE(answer == is && got.from == found[i].at && got.to == (is ? found[i].at + len : NO)))
            printf("  in row %zu: %s, %zu to %zu\n", i, lodvarn_answer_name(answer), got.from, got.to);
    }
}

void widths_are_measured(void) {
    static const struct { const char *text; size_t in[3]; } table[] = {
        {"\U0001F44B\U0001F3FF", {2, 4, 2}},
        {"\U0001F469\u200D\U0001F680", {2, 4, 4}},
        {"\u2764\uFE0F", {2, 1, 2}},
    };
    static char letters[70000];
    static const enum lodvarn_mode modes[] = {LODVARN_UNICODE, LODVARN_WC_WIDTH, LODVARN_NO_ZWJ};
    size_t columns = NO;
    for (size_t i = 0; i < COUNT(table); i++)
        for (size_t k = 0; k < 3; k++) {
            int answer = lodvarn_width(modes[k], table[i].text, strlen(table[i].text), &columns);
            if (!SEE(answer > 0 && columns == table[i].in[k])) printf("  of %s: %zu\n", table[i].text, columns);
        }
    memset(letters, 'a', sizeof letters);
    SEE(lodvarn_width(LODVARN_UNICODE, letters, sizeof letters, &columns) == LODVARN_DONE && columns == 65535);
    SEE(lodvarn_width(LODVARN_UNICODE, NULL, 0, &columns) == LODVARN_DONE && columns == 0);
}

void clusters_are_found(void) {
    static const struct { const char *text; size_t first, last; } table[] = {
        {"ab", 1, 1},   {"e\u0301x", 3, 1},  {"xe\u0301", 1, 3},  {"\r\n", 2, 2},
        {"\n\r", 1, 1}, {FAMILY "x", 18, 1}, {"x" FAMILY, 1, 18}, {FLAGS, 8, 8},
    };
    size_t first = NO, last = NO;
    SEE(lodvarn_first_cluster(NULL, 0, &first) == LODVARN_NOTHING && first == NO);
    SEE(lodvarn_last_cluster(NULL, 0, &last) == LODVARN_NOTHING && last == NO);
    for (size_t i = 0; i < COUNT(table); i++) {
        size_t len = strlen(table[i].text);
        SEE(lodvarn_first_cluster(table[i].text, len, &first) == LODVARN_DONE && first == table[i].first);
        SEE(lodvarn_last_cluster(table[i].text, len, &last) == LODVARN_DONE && last == table[i].last);
    }
}
