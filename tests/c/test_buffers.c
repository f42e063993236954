/* What calls lend and fill, structures with a size, and great input. */
#include "test.h"

/* Makes each read. Whether each is there. */
static int read_all(void) {
    char copied[32];
    lodvarn_view view;
    lodvarn_range covered;
    lodvarn_position position;
    lodvarn_cluster cluster;
    lodvarn_options now = chosen();
    size_t offset, column = LODVARN_OWN_COLUMN;
    lodvarn_row_above(s, &screen, LODVARN_LINE_START, 1, &column, &offset);
    return lodvarn_text(s, &view) > 0 && lodvarn_slice(s, range(0, 1), &view) > 0 && lodvarn_pos(s)
        && lodvarn_text_copy(s, copied, sizeof copied, &offset) > 0 && lodvarn_find(s, 6, " ", 1, B, &covered) > 0
        && lodvarn_line_count(s) && lodvarn_line_at(s, 1, &offset) > 0 && lodvarn_cursor_position(s, &position) > 0
        && lodvarn_line_range(s, 0, &covered) > 0 && lodvarn_movement_range(s, 1, lodvarn_whole_line(), &covered) > 0
        && lodvarn_movement_target(s, 1, lodvarn_chars_back(1), &offset) > 0 && lodvarn_cluster_at(s, 0, &cluster) > 0
        && lodvarn_cluster_before(s, 1, &cluster) > 0 && lodvarn_clusters_from(s, U, 0, &cluster, 1, &offset, &column) > 0
        && lodvarn_rows_from(s, &screen, 0, &offset, 1, &column, &covered.from) > 0
        && lodvarn_record_entries(s) + lodvarn_group_level(s) && lodvarn_can_undo(s) && !lodvarn_can_redo(s)
        && lodvarn_ring_text(s, 0, &view) > 0 && lodvarn_ring_count(s) && lodvarn_report_count(s) && now.limit
        && lodvarn_save(s, &view) > 0 && lodvarn_last_was_yank(s) + 1;
}

/* A view is valid over all reads, and is taken anew after a change. */
void texts_are_lent(void) {
    lodvarn_view text, slice, none, ring;
    lodvarn_report report = LODVARN_REPORT;
    lodvarn_range goes;
    LEAVES(DONE, read_all());
    open_at("one two three|", 64);
    must(lodvarn_watch(s, 9, 64) == LODVARN_DONE && lodvarn_kill(s, WORD_BACK) == LODVARN_DONE);
    must(lodvarn_take_report(s, &report) == LODVARN_DONE);
    SEE(lodvarn_take_report(s, &report) == LODVARN_DONE && report.kind == LODVARN_DELETED_BACKWARD);
    SEE(lodvarn_text(s, &text) == LODVARN_DONE && lodvarn_slice(s, range(4, 7), &slice) == LODVARN_DONE);
    SEE(lodvarn_slice(s, range(8, 8), &none) == LODVARN_DONE && lodvarn_ring_text(s, 0, &ring) == LODVARN_DONE);
    SEE(read_all() && is(text, "one two ") && is(slice, "two") && is(none, "") && is(ring, "three"));
    SEE(report.old_len == 5 && is(report.old_text, "three") && report.new_len == 0 && is(report.new_text, ""));
    SEE(lodvarn_replace(s, range(0, 7), "1", 1) == LODVARN_DONE && add_to_ring("kept") == LODVARN_DONE);
    SEE(lodvarn_text(s, &text) == LODVARN_DONE && is(text, "1 "));
    SEE(lodvarn_slice(s, range(1, 2), &slice) == LODVARN_DONE && is(slice, " "));
    SEE(lodvarn_ring_text(s, 0, &ring) == LODVARN_DONE && is(ring, "kept"));
    SEE(lodvarn_take_report(s, &report) == LODVARN_DONE && report.kind == LODVARN_KILL_STOPPED);
    SEE(lodvarn_take_report(s, &report) == LODVARN_DONE && is(report.old_text, "one two") && is(report.new_text, "1"));
    open_at("a|é\nb", 64);
    SEE(lodvarn_movement_range(s, 1, lodvarn_chars_forward(2), &goes) == LODVARN_DONE);
    SEE(lodvarn_slice(s, goes, &slice) > 0 && is(slice, "é\n"));
    DOES(DONE, lodvarn_delete(s, 2), "a|b");
    DOES(DONE, lodvarn_delete(s, 9), "a|");
    DOES(DONE, lodvarn_undo(s, 1), "a|é\nb");
}

/* Saved bytes are valid over all that is no lodvarn_save. */
void saved_bytes_are_lent(void) {
    lodvarn_view bytes, again, text;
    lodvarn *loaded = NULL;
    open_at("one| two", 64);
    must(lodvarn_save(s, &bytes) == LODVARN_DONE && lodvarn_paste(s, " more of it", 11, 3) > 0);
    must(lodvarn_undo(s, 1) > 0 && lodvarn_restart(s, "x", 1) > 0 && lodvarn_kill(s, lodvarn_whole_text()) > 0);
    SEE(lodvarn_load(&loaded, bytes.at, bytes.len) == LODVARN_DONE && lodvarn_pos(loaded) == 3);
    SEE(lodvarn_text(loaded, &text) == LODVARN_DONE && is(text, "one two"));
    SEE(lodvarn_save(loaded, &again) == LODVARN_DONE && again.len == bytes.len && again.at != bytes.at
        && !memcmp(again.at, bytes.at, bytes.len));
    SEE(lodvarn_save(s, &bytes) == LODVARN_DONE && lodvarn_save(s, &bytes) == LODVARN_DONE);
    lodvarn_close(&s);
    must(lodvarn_load(&s, again.at, again.len) == LODVARN_DONE);
    lodvarn_close(&loaded);
    DOES(DONE, lodvarn_set_pos(s, 0), "|one two");
}

/* What writes to a buffer, on the text of the rows, and what it writes. */
typedef int filling(void *to, size_t cap, size_t *count);
static const char cut[] = "e\u0301漢\r\n" FAMILY "x", laid[] = "ab\ncde", script[] = "ins 1 x\n\xff\npaste 2 é\n";
static int fill_by_copy(void *to, size_t cap, size_t *count) {
    return lodvarn_copy(s, lodvarn_chars_back(4), to, cap, count);
}
static int fill_by_match(void *to, size_t cap, size_t *count) {
    return lodvarn_copy(s, lodvarn_to_match(B, "\n", 1), to, cap, count);
}
static int fill_by_text(void *to, size_t cap, size_t *count) { return lodvarn_text_copy(s, to, cap, count); }
static int fill_by_clusters(void *to, size_t cap, size_t *count) {
    return lodvarn_clusters(U, cut, sizeof cut - 1, to, cap, count);
}
static int fill_by_rows(void *to, size_t cap, size_t *count) {
    static const lodvarn_screen narrow = ON(2, 0, 1, 0, 0, U);
    return lodvarn_rows(&narrow, laid, sizeof laid - 1, to, cap, count);
}
static int fill_by_script(void *to, size_t cap, size_t *count) {
    return lodvarn_script(script, sizeof script - 1, to, cap, count);
}

static const lodvarn_cluster cut_clusters[] = {{0, 3, 1}, {3, 6, 2}, {6, 8, 1}, {8, 26, 2}, {26, 27, 1}};
static const size_t laid_starts[] = {0, 2, 4, 6};
static const struct filled {
    const char *what;
    filling *fill;
    size_t unit, need, count; /* how many of what size, and what is told */
    const void *wanted;
} fillings[] = {
    {"a copy", fill_by_copy, 1, 5, 5, "é\nb "},
    {"a copy to a text", fill_by_match, 1, 3, 3, "\nb "},
    {"the text and its NUL", fill_by_text, 1, 7, 6, "aé\nb "},
    {"clusters", fill_by_clusters, sizeof(lodvarn_cluster), 5, 5, cut_clusters},
    {"rows", fill_by_rows, sizeof(size_t), 4, 4, laid_starts},
    {"a script", fill_by_script, 1, 26, 26, "true 1 x\nbad\ntrue 5 xéé\n"},
};

/* Each capacity up to one too many, and many more: the buffer is as it was, or has what it should, and no byte after it
 * changed. */
void buffers_are_filled(void) {
    for (size_t i = 0; i < COUNT(fillings); i++)
        for (size_t n = 0; n <= fillings[i].need + 2; n++) {
            const struct filled *row = &fillings[i];
            char got[40 * sizeof(lodvarn_cluster)], wanted[sizeof got];
            size_t cap = n <= row->need + 1 ? n : 40, count = NO;
            memset(got, 0xa5, sizeof got), memset(wanted, 0xa5, sizeof wanted);
            if (cap >= row->need) memcpy(wanted, row->wanted, row->need * row->unit);
            begin_row(0);
            int answer = row->fill(cap ? got : NULL, cap, &count), is_done = cap >= row->need;
            int same = answer == (is_done ? LODVARN_DONE : LODVARN_TOO_SMALL) && count == row->count;
            if (!see(row->what, same && !memcmp(got, wanted, sizeof got) && has_left_all(0, is_done && i < 2)))
                printf("  %s, %zu with %zu\n", lodvarn_answer_name(answer), count, cap);
        }
    size_t len = NO;
    SEE(lodvarn_script(NULL, 0, NULL, 0, &len) == LODVARN_DONE && len == 0);
    open_at("|", 0);
    SEE(lodvarn_text_copy(s, NULL, 0, &len) == LODVARN_TOO_SMALL && len == 0);
    SEE(lodvarn_text_copy(s, out.text, 1, &len) == LODVARN_DONE && len == 0 && !*out.text);
    must(lodvarn_restart(s, NULL, 0) > 0 && SET(limit, 3) > 0 && lodvarn_paste(s, "a\0b", 3, 1) > 0);
    SEE(lodvarn_text_copy(s, out.text, 4, &len) == LODVARN_DONE && len == 3 && !memcmp(out.text, "a\0b", 4));
}

/* A structure with a size, and bytes after it. */
static union {
    lodvarn_options options;
    lodvarn_screen screen;
    lodvarn_report report;
    size_t size;
    unsigned char bytes[1024];
} grown;

/* Its size: so many bytes, or with is_more so many above what this version knows. One byte there may be no 0. */
static const struct sized { const char *what; int is_more; size_t size, other; int is_known; } sizes[] = {
    {"of no size", 0, 0, NO, 0},
    {"of one byte", 0, 1, NO, 0},
    {"of the size alone", 0, sizeof(size_t), NO, 0},
    {"of its first two members", 0, 2 * sizeof(size_t), NO, 0},
    {"a byte short", 1, SIZE_MAX, NO, 0},
    {"as known", 1, 0, NO, 1},
    {"a byte longer", 1, 1, NO, 1},
    {"a member longer", 1, sizeof(size_t), NO, 1},
    {"far longer", 1, 800, NO, 1},
    {"a byte longer, which is no 0", 1, 1, 0, -1},
    {"a member longer, whose last byte is no 0", 1, sizeof(size_t), 7, -1},
    {"far longer, with a byte that is no 0", 1, 800, 50, -1},
    {"whose last byte is no 0", 1, 800, 799, -1},
    {"after which a byte is no 0", 1, 50, 50, 1},
};

/* Gives the structure of that many bytes the size, and the bytes after it. */
static void grow(const struct sized *row, size_t known) {
    grown.size = row->is_more ? known + row->size : row->size;
    memset(grown.bytes + known, 0, sizeof grown.bytes - known);
    if (row->other != NO) grown.bytes[known + row->other] = 1;
}

static const lodvarn_options *grown_options(const struct sized *row) {
    grown.options = (lodvarn_options){0, 64, 5, 90, 3, 9, 7, Z, false};
    grow(row, sizeof grown.options);
    return &grown.options;
}

static const lodvarn_screen *grown_screen(const struct sized *row) {
    grown.screen = (lodvarn_screen)ON(10, 2, 3, 4, 5, W);
    grow(row, sizeof grown.screen);
    return &grown.screen;
}

/* The options and the screen of that size, which a call reads. */
static void take_sizes(const struct sized *row) {
    static const lodvarn_options plain = {sizeof plain, 64, 5, 90, 3, 9, 7, Z, false};
    lodvarn_position cell = {NO, NO};
    size_t starts[2] = {NO, NO}, count = NO, at = NO, column = LODVARN_OWN_COLUMN;
    open_at("\ta\n|b", 64);
    see(row->what, lodvarn_set_options(s, grown_options(row)) == LODVARN_DONE && has_chosen(&plain));
    see(row->what, lodvarn_row_above(s, grown_screen(row), 0, 1, &column, &at) == LODVARN_DONE && at == 0 && column == 3);
    at = NO, column = LODVARN_OWN_COLUMN;
    must(lodvarn_set_pos(s, 1) > 0);
    see(row->what, lodvarn_row_below(s, grown_screen(row), 0, 1, &column, &at) == LODVARN_DONE && at == 4 && column == 4);
    lodvarn_close(&s);
    see(row->what, lodvarn_open(&s, grown_options(row), "ab", 2) == LODVARN_DONE && has_chosen(&plain));
    see(row->what, lodvarn_cell(grown_screen(row), 4, "\ta\nb", 4, &cell) == LODVARN_DONE && cell.line == 1
        && cell.column == 4);
    see(row->what, lodvarn_offset_at(grown_screen(row), cell, "\ta\nb", 4, &at) == LODVARN_DONE && at == 4);
    see(row->what, lodvarn_rows(grown_screen(row), "\ta\nb", 4, starts, 2, &count) == LODVARN_DONE && count == 2
        && starts[0] == 0 && starts[1] == 3);
}

static void refuse_sizes(const struct sized *row) {
    LEAVES(BAD_SIZE, lodvarn_open(&out.opened, grown_options(row), "a", 1));
    LEAVES(BAD_SIZE, lodvarn_set_options(s, grown_options(row)));
    grown_screen(row);
    LEAVES(BAD_SIZE, lodvarn_cell(&grown.screen, 0, "a", 1, &out.position));
    LEAVES(BAD_SIZE, lodvarn_offset_at(&grown.screen, corner, "a", 1, &out.number));
    LEAVES(BAD_SIZE, lodvarn_rows(&grown.screen, "a", 1, &out.number, 1, &out.number));
    LEAVES(BAD_SIZE, lodvarn_rows_from(s, &grown.screen, 0, &out.number, 1, &out.number, &out.range.from));
    LEAVES(BAD_SIZE, lodvarn_row_above(s, &grown.screen, 0, 1, &out.number, &out.number));
    LEAVES(BAD_SIZE, lodvarn_row_below(s, &grown.screen, 0, 1, &out.number, &out.number));
}

/* Whether the bytes after the structure are 0 up to its size, and those after that as they were. */
static int is_zeroed(const struct sized *row, size_t known) {
    int same = grown.size == known + row->size;
    for (size_t i = known; i < sizeof grown.bytes; i++) same = same && grown.bytes[i] == (i < grown.size ? 0 : 0xa5);
    return same;
}

/* Options and a report that a call writes: the bytes that it does not know are not read. */
static void write_sizes(const struct sized *row, int is_report) {
    size_t known = is_report ? sizeof(lodvarn_report) : sizeof(lodvarn_options);
    unsigned char before[sizeof grown.bytes];
    memset(grown.bytes, 0xa5, sizeof grown.bytes);
    grown.size = row->is_more ? known + row->size : row->size;
    memcpy(before, grown.bytes, sizeof before);
    begin_row(0);
    int answer = is_report ? lodvarn_take_report(s, &grown.report) : lodvarn_get_options(s, &grown.options);
    if (!row->is_more || row->size > sizeof grown)
        see(row->what, answer == LODVARN_BAD_SIZE && !memcmp(before, grown.bytes, sizeof before) && has_left_all(0, 0));
    else see(row->what, answer == LODVARN_DONE && is_zeroed(row, known)
             && (is_report ? grown.report.kind == LODVARN_DELETED_BACKWARD && is(grown.report.old_text, "cd")
                 : grown.options.limit == 12 && grown.options.ring_size == 60 && !grown.options.keep_undone));
}

void structures_have_sizes(void) {
    lodvarn_report report = LODVARN_REPORT;
    for (size_t i = 0; i < COUNT(sizes); i++) {
        if (sizes[i].is_known > 0) take_sizes(&sizes[i]);
        else refuse_sizes(&sizes[i]);
        write_sizes(&sizes[i], 0), write_sizes(&sizes[i], 1);
    }
    open_at("|", 64);
    report.at = NO;
    SEE(report.size == sizeof report && lodvarn_take_report(s, &report) == LODVARN_NOTHING && report.at == NO);
}

/* With ample memory no call returns NO_MEMORY, however large the ring, the texts, what is copied or a script is. */
void great_input_is_met(void) {
    enum { GREAT = 100001, PAIRS = 15000, PAIR = 15, ANSWERS = 17 };
    static char great[GREAT], got[PAIRS * ANSWERS], script[PAIRS * PAIR];
    lodvarn_view text;
    size_t len = 0;
    memset(great, 'a', GREAT);
    lodvarn_close(&s);
    options = (lodvarn_options)LODVARN_OPTIONS;
    options.mode = U, options.limit = 4 * GREAT, options.ring_size = 2000;
    SEE(lodvarn_open(&s, &options, great, GREAT) == LODVARN_DONE && lodvarn_pos(s) == GREAT);
    SEE(lodvarn_copy(s, lodvarn_whole_text(), got, sizeof got, &len) > 0 && len == GREAT && !memcmp(got, great, GREAT));
    SEE(lodvarn_kill(s, lodvarn_to_text_start()) > 0 && lodvarn_yank(s, 1) > 0 && lodvarn_pos(s) == GREAT);
    SEE(lodvarn_set_pos(s, 0) > 0 && lodvarn_delete(s, 65535) > 0);
    SEE(lodvarn_text(s, &text) > 0 && text.len == GREAT - 65535);
    SEE(lodvarn_paste(s, great, GREAT, 1) == LODVARN_DONE && lodvarn_pos(s) == GREAT);
    SEE(lodvarn_insert_at(s, 0, great, GREAT) > 0 && lodvarn_replace(s, range(1, 2), great, GREAT) > 0);
    SEE(lodvarn_set_text(s, GREAT, great, GREAT) > 0 && lodvarn_pos(s) == GREAT);
    for (size_t i = 0; i < PAIRS; i++) memcpy(script + PAIR * i, "ins 1 a\nback 1\n", PAIR);
    SEE(lodvarn_script(script, sizeof script, got, sizeof got, &len) == LODVARN_DONE);
    int same = len == sizeof got;
    for (size_t i = 0; same && i < PAIRS; i++) same = !memcmp(got + ANSWERS * i, "true 1 a\ntrue 0 \n", ANSWERS);
    see("a script of 225,000 bytes prints all that it should", same);
}
