/* Each call of lodvarn.h in sessions that differ in one size, for callgrind, which counts the instructions of each call
 * alone: tests/growth.py runs it. A dump is named by the call, what else its row says, the size, and its number. */
#include "see.h"
#include <valgrind/callgrind.h>

/* The sizes of a session. Bytes: of the lines above and below the cursor's, of its line to the left and the right of the
 * cursor, of what a call covers of these, of the clusters beside the cursor, of what is given or yanked. Then entries of
 * the record, changes that a call goes over or drops, texts of the ring, and reports that wait. */
enum { ABOVE, LEFT, RIGHT, BELOW, RANGE, CLUSTER, GIVEN, ENTRIES, CHANGES, RING, REPORTS, SIZES };
static const char *const names[] = {"above", "left", "right", "below", "range", "cluster", "given", "entries",
                                    "changes", "ring", "reports"};
static const size_t usual[SIZES] = {4096, 4096, 4096, 4096, 1280, 5, 1024, 80, 20, 20, 20};
static size_t size[SIZES];

/* What else a session may be: without bounds; with some that are far away, or that are reached, of entries or of bytes;
 * in a group, within the bounds or beyond them; with undone changes. */
enum state { PLAIN, FAR, FULL, FULL_BYTES, GROUP, GROUP_BEYOND, UNDONE };
static const char *const said[] = {"", "bounds far away", "bound of entries reached", "bounds of bytes reached",
                                   "in a group", "in a group beyond the bound", "undone"};
/* Which size differs, and in which state. */
static const struct {
    int size;
    enum state state;
} cases[] = {
    {ABOVE, PLAIN},   {LEFT, PLAIN},          {RIGHT, PLAIN},   {BELOW, PLAIN},
    {RANGE, PLAIN},   {CLUSTER, PLAIN},       {GIVEN, PLAIN},   {ENTRIES, PLAIN},
    {ENTRIES, FAR},   {ENTRIES, FULL},        {ENTRIES, GROUP}, {ENTRIES, GROUP_BEYOND},
    {CHANGES, PLAIN}, {ENTRIES, FULL_BYTES},  {RING, PLAIN},    {RING, FULL_BYTES},
    {REPORTS, PLAIN}, {CHANGES, UNDONE},
};

enum { MOST = 1 << 18, WORD = 8, COLUMNS = 80, TEXT = 256, SLOT = 2048, QUEUE = 1000 };
static lodvarn *s, *other;
static char words[MOST], line[MOST], built[MOST], script[MOST], out[MOST];
static lodvarn_options options;
static size_t pos, n, offsets[MOST];
static lodvarn_cluster clusters[MOST];
static lodvarn_view view;
static lodvarn_range found;

static size_t put(size_t at, const char *what, size_t bytes, size_t step) {
    memcpy(built + at, what, bytes -= bytes % step);
    return at + bytes;
}

static size_t put_cluster(size_t at) {
    built[at++] = 'e';
    for (size_t i = 1; i < size[CLUSTER]; i += 2, at += 2) memcpy(built + at, "\u0301", 2);
    return at;
}

/* Makes the text. In its line a # stands where a range ends, to either side of the cursor. */
static size_t build(void) {
    size_t at = put(put(0, words, size[ABOVE], COLUMNS), line, size[LEFT] - size[RANGE], WORD);
    built[at++] = '#';
    pos = put_cluster(put(at, line, size[RANGE], WORD));
    at = put(put_cluster(pos), line, size[RANGE], WORD);
    built[at++] = '#';
    at = put(at, line, size[RIGHT] - size[RANGE], WORD);
    built[at++] = '\n';
    return put(at, words, size[BELOW], COLUMNS);
}

/* Makes so many changes that join no other, in pairs that leave the text. */
static int edit(size_t times, size_t len) {
    for (size_t i = 0; i < times; i++)
        must((i & 1 ? lodvarn_delete_range(s, range(pos, pos + len)) : lodvarn_insert_at(s, pos, words, len)) > 0);
    return 1;
}

static int change(void) { return edit(size[CHANGES], 1); }

static int lower(void) {
    options.max_entries = lodvarn_record_entries(s);
    return change();
}

static int undo(size_t times) { return lodvarn_undo(s, times); }
static int indent_all(void) { return lodvarn_indent(s, lodvarn_whole_text(), 4, LODVARN_INDENT); }
static int open_group(void) { return lodvarn_begin_group(s) > 0 ? change() : -1; }
static int group(void) { return open_group() > 0 ? lodvarn_end_group(s) : -1; }
static int save(void) { return lodvarn_save(s, &view); }

/* Opens a session without a table of lines. */
static int open_again(void) {
    size_t len = build();
    lodvarn_close(&s);
    return lodvarn_open(&s, NULL, built, len);
}

static int keep_undone(void) {
    options.keep_undone = true;
    return lodvarn_set_options(s, &options) > 0 && change() > 0 ? undo(size[CHANGES]) : -1;
}

static int fill_queue(void) {
    must(lodvarn_unwatch(s) > 0 && lodvarn_watch(s, size[REPORTS], MOST) > 0);
    return edit(size[REPORTS], 1);
}

static void set_bounds(enum state state) {
    size_t far = state == FAR ? 2 : 1;
    if (state == PLAIN || state == GROUP || state == UNDONE) return;
    options.max_entries = state == FULL_BYTES ? LODVARN_NO_BOUND : far * (size[ENTRIES] - 20 * (state == GROUP_BEYOND));
    options.max_bytes = far * size[ENTRIES] * TEXT;
    options.max_ring_bytes = far * ((size[RING] - 1) * SLOT + size[GIVEN]);
    must(lodvarn_set_options(s, &options) > 0);
}

/* Opens a session of these sizes. It has room for more text and lines, so no call that is counted has to find any. */
static void begin(enum state state) {
    size_t len = build();
    options = (lodvarn_options)LODVARN_OPTIONS;
    options.ring_size = size[RING];
    must(lodvarn_open(&s, &options, words, 2 * len) > 0 && lodvarn_line_count(s) > 1);
    must(lodvarn_restart(s, built, len) > 0 && lodvarn_set_pos(s, pos) > 0 && lodvarn_line_count(s) > 1);
    for (size_t i = 1; i < size[RING]; i++) must(lodvarn_ring_add(s, words, SLOT) > 0);
    must(lodvarn_ring_add(s, words, size[GIVEN]) > 0);
    edit(2, 1);
    if (state == GROUP || state == GROUP_BEYOND) must(lodvarn_begin_group(s) > 0);
    edit(size[ENTRIES], state == FULL_BYTES ? TEXT : 1);
    set_bounds(state);
    must(lodvarn_watch(s, size[REPORTS] + QUEUE, MOST) > 0);
    for (size_t i = 0; i < size[REPORTS]; i += 2) must(undo(1) > 0 && lodvarn_redo(s) > 0);
    if (state == UNDONE) must(change() && undo(size[CHANGES]) > 0);
    must(lodvarn_pos(s) == pos);
}

static char of[64]; /* what differs in the session */

/* A row, if its turn has come: what is said of the call, what is done before, and the call, which is counted if it does
 * something. */
#define ROW(label, before, call)                                   \
    if (which-- == 0) {                                            \
        char name[256];                                            \
        snprintf(name, sizeof name, "%s|%s|%s", #call, label, of); \
        must((before) >= 0);                                       \
        CALLGRIND_ZERO_STATS;                                      \
        int answer = (int)(call);                                  \
        if (answer > 0) CALLGRIND_DUMP_STATS_AT(name);             \
        return 1;                                                  \
    }

static int with_movement(unsigned which) {
    const size_t many = size[RANGE] / WORD, lines = size[RANGE] / COLUMNS;
    const struct {
        const char *label;
        lodvarn_movement by;
    } all[] = {
        {"by clusters", lodvarn_chars_back(size[RANGE])},
        {"by clusters", lodvarn_chars_forward(size[RANGE])},
        {"by words", lodvarn_words_back(LODVARN_EMACS, many)},
        {"by words", lodvarn_words_forward(LODVARN_VI, LODVARN_AT_START, many)},
        {"in the line", lodvarn_to_line_start()},
        {"in the line", lodvarn_to_line_end()},
        {"in the line", lodvarn_to_first_nonblank()},
        {"in the line", lodvarn_whole_line()},
        {"by lines", lodvarn_lines_up(lines)},
        {"by lines", lodvarn_lines_down(lines)},
        {"by lines", lodvarn_whole_lines_up(lines)},
        {"to a hit", lodvarn_to_char(LODVARN_TO, '#', 1)},
        {"to a hit", lodvarn_to_match(LODVARN_BACKWARD, "#", 1)},
        {"in the text", lodvarn_to_text_start()},
        {"in the text", lodvarn_to_text_end()},
        {"in the text", lodvarn_whole_text()},
    };
    const char *label = all[which % COUNT(all)].label;
    const lodvarn_movement by = all[which % COUNT(all)].by;
    which /= COUNT(all);
    ROW(label, 0, lodvarn_move(s, by))
    ROW(label, 0, lodvarn_copy(s, by, out, MOST, &n))
    ROW(label, 0, lodvarn_movement_range(s, pos, by, &found))
    ROW(label, 0, lodvarn_movement_target(s, pos, by, &n))
    ROW(label, 0, lodvarn_delete_by(s, by))
    ROW(label, 0, lodvarn_kill(s, by))
    return 0;
}

static const lodvarn_screen screen = LODVARN_SCREEN(COLUMNS);

static int of_edits(unsigned which) {
    const size_t given = size[GIVEN];
    const lodvarn_range covered = {pos, pos + size[RANGE]};
    const lodvarn_movement lines = lodvarn_whole_lines_down(size[RANGE] / COLUMNS);
    const lodvarn_movement word = lodvarn_words_back(LODVARN_EMACS, 1);
    ROW("", 0, lodvarn_restart(s, words, given))
    ROW("", 0, lodvarn_set_options(s, &options))
    ROW("to lower bounds", lower(), lodvarn_set_options(s, &options))
    ROW("", 0, lodvarn_set_pos(s, 0))
    ROW("", 0, lodvarn_insert(s, 'c', 1))
    ROW("", 0, lodvarn_insert(s, '\n', 1))
    ROW("", lodvarn_insert(s, 'c', given) + lodvarn_insert(s, 'c', 1), lodvarn_insert(s, 'c', 1))
    ROW("of copies", 0, lodvarn_insert(s, 'c', given))
    ROW("into a full queue", fill_queue(), lodvarn_insert(s, 'c', 1))
    ROW("with keep_undone", keep_undone(), lodvarn_insert(s, 'c', 1))
    ROW("", 0, lodvarn_type(s, "c", 1, &n))
    ROW("of a text", 0, lodvarn_type(s, words, given, &n))
    ROW("", 0, lodvarn_paste(s, words, given, 1))
    ROW("", 0, lodvarn_paste(s, words, WORD, given / WORD))
    ROW("", 0, lodvarn_insert_at(s, pos, words, given))
    ROW("far away", 0, lodvarn_insert_at(s, 0, words, given))
    ROW("", 0, lodvarn_replace(s, covered, words, given))
    ROW("", 0, lodvarn_set_text(s, 0, words, given))
    ROW("", 0, lodvarn_delete_range(s, covered))
    ROW("", 0, lodvarn_kill_range(s, covered, LODVARN_BACKWARD))
    ROW("of a cluster", 0, lodvarn_delete(s, 1))
    ROW("of a cluster", 0, lodvarn_backspace(s, 1))
    ROW("", 0, lodvarn_delete(s, size[RANGE]))
    ROW("", 0, lodvarn_backspace(s, size[RANGE]))
    ROW("", 0, lodvarn_transpose_chars(s))
    ROW("", 0, lodvarn_transpose_words(s, size[RANGE] / WORD))
    ROW("", 0, lodvarn_change_case(s, LODVARN_UPPERCASE))
    ROW("in the line", 0, lodvarn_indent(s, lodvarn_whole_line(), 4, LODVARN_INDENT))
    ROW("by lines", 0, lodvarn_indent(s, lines, 4, LODVARN_INDENT))
    ROW("by lines", indent_all(), lodvarn_indent(s, lines, 4, LODVARN_DEDENT))
    ROW("in the text", 0, lodvarn_indent(s, lodvarn_whole_text(), 4, LODVARN_INDENT))
    ROW("in a run", lodvarn_kill_range(s, covered, LODVARN_FORWARD) + lodvarn_kill(s, word), lodvarn_kill(s, word))
    ROW("", 0, lodvarn_yank(s, 1))
    ROW("", lodvarn_yank(s, 1), lodvarn_yank_pop(s))
    ROW("", 0, lodvarn_ring_add(s, words, given))
    ROW("", 0, lodvarn_ring_clear(s))
    ROW("", lodvarn_insert(s, '-', 1), lodvarn_undo(s, 1))
    ROW("", lodvarn_insert_at(s, pos, words, given), lodvarn_undo(s, 1))
    ROW("", lodvarn_delete_range(s, covered), lodvarn_undo(s, 1))
    ROW("of several", change(), lodvarn_undo(s, size[CHANGES]))
    ROW("of several", group(), lodvarn_undo(s, 1))
    ROW("of an indent", lodvarn_indent(s, lines, 4, LODVARN_INDENT), lodvarn_undo(s, 1))
    ROW("", lodvarn_insert(s, '-', 1) > 0 ? undo(1) : -1, lodvarn_redo(s))
    ROW("", lodvarn_delete_range(s, covered) > 0 ? undo(1) : -1, lodvarn_redo(s))
    ROW("of several", group() > 0 ? undo(1) : -1, lodvarn_redo(s))
    ROW("", 0, lodvarn_undo_boundary(s))
    ROW("", 0, lodvarn_begin_group(s))
    ROW("", open_group(), lodvarn_end_group(s))
    ROW("", open_group(), lodvarn_end_all_groups(s))
    ROW("", group(), lodvarn_reopen_group(s))
    ROW("", open_group(), lodvarn_abandon_group(s))
    ROW("", change(), lodvarn_truncate(s, lodvarn_record_entries(s) - size[CHANGES]))
    return 0;
}

static size_t row;

/* Finds where the row begins that is so many rows above the cursor's, in its line. */
static int find_row(size_t above) {
    size_t count, next, at = 0;
    must(lodvarn_rows_from(s, &screen, size[ABOVE], offsets, MOST, &count, &next) > 0);
    while (at + 1 < count && offsets[at + 1] <= pos) at++;
    must(at >= above);
    row = offsets[at - above];
    return 1;
}

static int of_others(unsigned which) {
    lodvarn_splice splice;
    lodvarn_report report = LODVARN_REPORT;
    lodvarn_position position;
    lodvarn_cluster cluster;
    size_t column = COLUMNS / 2, next;
    const size_t rows = size[RANGE] / COLUMNS;
    ROW("", 0, lodvarn_open(&other, NULL, words, size[GIVEN]))
    ROW("", save(), lodvarn_load(&other, view.at, view.len))
    ROW("", 0, lodvarn_save(s, &view))
    ROW("", 0, (lodvarn_close(&s), 1))
    ROW("", 0, lodvarn_get_options(s, &options))
    ROW("", 0, lodvarn_mark_saved(s))
    ROW("", 0, lodvarn_take_change(s, &splice))
    ROW("", lodvarn_unwatch(s), lodvarn_watch(s, size[REPORTS], MOST))
    ROW("", 0, lodvarn_unwatch(s))
    ROW("", 0, lodvarn_take_report(s, &report))
    ROW("", 0, lodvarn_text(s, &view))
    ROW("", 0, lodvarn_slice(s, range(pos, pos + size[RANGE]), &view))
    ROW("", 0, lodvarn_text_copy(s, out, MOST, &n))
    ROW("", 0, lodvarn_pos(s))
    ROW("", 0, lodvarn_find(s, pos, "#", 1, LODVARN_FORWARD, &found))
    ROW("", 0, lodvarn_find(s, pos, "#", 1, LODVARN_BACKWARD, &found))
    ROW("without a hit", 0, lodvarn_find(s, pos, "##", 2, LODVARN_FORWARD, &found) + 1)
    ROW("without a hit", 0, lodvarn_find(s, pos, "##", 2, LODVARN_BACKWARD, &found) + 1)
    ROW("", 0, lodvarn_line_count(s))
    ROW("at first", open_again(), lodvarn_line_count(s))
    ROW("", 0, lodvarn_line_at(s, pos, &n))
    ROW("", 0, lodvarn_line_range(s, 3, &found))
    ROW("", 0, lodvarn_cursor_position(s, &position))
    ROW("", 0, lodvarn_cluster_at(s, pos, &cluster))
    ROW("", 0, lodvarn_cluster_before(s, pos, &cluster))
    ROW("", 0, lodvarn_row_above(s, &screen, LODVARN_LINE_START, rows, &column, &n))
    ROW("", 0, lodvarn_row_below(s, &screen, LODVARN_LINE_START, rows, &column, &n))
    ROW("from a row", find_row(rows + 2), lodvarn_row_above(s, &screen, row, rows, &column, &n))
    ROW("from a row", find_row(1), lodvarn_row_below(s, &screen, row, rows, &column, &n))
    ROW("", find_row(1), lodvarn_rows_from(s, &screen, row, offsets, rows, &n, &next))
    ROW("", 0, lodvarn_clusters_from(s, LODVARN_UNICODE, pos, clusters, size[RANGE], &n, &next))
    ROW("", 0, lodvarn_can_undo(s) + 1)
    ROW("", 0, lodvarn_can_redo(s) + 1)
    ROW("", lodvarn_mark_saved(s) > 0 && change() > 0 ? undo(size[CHANGES]) : -1, lodvarn_is_saved(s))
    ROW("", 0, lodvarn_record_entries(s))
    ROW("", 0, lodvarn_group_level(s) + 1)
    ROW("", 0, lodvarn_ring_count(s))
    ROW("", 0, lodvarn_ring_text(s, size[RING] - 1, &view))
    ROW("", 0, lodvarn_last_was_yank(s) + 1)
    ROW("", 0, lodvarn_report_count(s))
    return 0;
}

static int without_session(unsigned which) {
    static const lodvarn_splice splice = {0, 1, 2};
    lodvarn_position cell = {(size_t)-1, 0};
    const size_t given = size[GIVEN];
    ROW("", 0, lodvarn_version())
    ROW("", 0, lodvarn_answer_name(0) != NULL)
    ROW("", 0, lodvarn_error_text(0) != NULL)
    ROW("", 0, lodvarn_script(script, given, out, MOST, &n))
    ROW("", 0, lodvarn_width(LODVARN_UNICODE, words, given, &n))
    ROW("", 0, lodvarn_first_cluster(words, given, &n))
    ROW("", 0, lodvarn_last_cluster(words, given, &n))
    ROW("", 0, lodvarn_clusters(LODVARN_UNICODE, words, given, clusters, MOST, &n))
    ROW("", 0, lodvarn_cell(&screen, given, words, given, &cell))
    ROW("", 0, lodvarn_offset_at(&screen, cell, words, given, &n))
    ROW("", 0, lodvarn_rows(&screen, words, given, offsets, MOST, &n))
    ROW("", 0, lodvarn_map_offset(&splice, 1, LODVARN_AFTER, &n))
    return 0;
}

/* Opens the session of a case, in which the size is so many times the usual one, and runs a row in it. */
static int run(size_t c, size_t times, int (*rows)(unsigned), unsigned which) {
    const int differs = cases[c].size;
    memcpy(size, usual, sizeof size);
    size[differs] *= times;
    /* A range lies in text of one size. */
    for (int i = ABOVE; differs == RANGE && i <= BELOW; i++) size[i] = 16 * usual[RANGE] + 4 * COLUMNS;
    snprintf(of, sizeof of, "%s|%s|%zu", names[differs], said[cases[c].state], size[differs]);
    begin(cases[c].state);
    int ran = rows(which);
    lodvarn_close(&s);
    lodvarn_close(&other);
    return ran;
}

/* Whether rows are run in a case: movements where text or entries differ, what has no session where what is given does,
 * and what records nothing without bounds of bytes. */
static int takes(int (*rows)(unsigned), size_t c) {
    const int differs = cases[c].size;
    const enum state state = cases[c].state;
    if (rows == with_movement) return differs <= CLUSTER || (differs == ENTRIES && state == PLAIN);
    if (rows == without_session) return differs == GIVEN;
    return rows == of_edits || state != FULL_BYTES;
}

int main(void) {
    static int (*const rows[])(unsigned) = {of_edits, of_others, with_movement, without_session};
    for (size_t i = 0; i < MOST; i++) {
        line[i] = i % WORD == WORD - 1 ? ' ' : 'w';
        words[i] = i % COLUMNS == COLUMNS - 1 ? '\n' : line[i];
    }
    memset(script, 'a', sizeof script);
    memcpy(script, "text ", 5);
    for (size_t c = 0; c < COUNT(cases); c++)
        for (size_t kind = 0; kind < COUNT(rows); kind++)
            for (unsigned which = 0; takes(rows[kind], c) && run(c, 1, rows[kind], which); which++)
                must(run(c, 4, rows[kind], which) && run(c, 16, rows[kind], which));
    return 0;
}
