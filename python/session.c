/* What the extension module has of its own: a session that may be closed, and indexes of a str, which counts characters
 * where the library counts bytes. For each other call of lodvarn.h that takes a session, setup.py makes a function
 * py_NAME. */
#include <lodvarn.h>
#include <stdlib.h>
#include <string.h>

#if LODVARN_VERSION_NUMBER < PACKAGE_VERSION || LODVARN_VERSION_NUMBER >> 8 != PACKAGE_VERSION >> 8
#error "Lodvarn for Python needs a library of its own version, or of a later one with the same first two numbers"
#endif

/* By its name cffi makes one of a str. */
#define char32_t uint32_t

/* cffi gives the interpreter's lock up for each call. Here it is kept, so that one thread at a time is in a session. */
#ifdef Py_GIL_DISABLED
#error "Lodvarn for Python needs the interpreter's lock, which this Python is without"
#endif
#undef Py_BEGIN_ALLOW_THREADS
#undef Py_END_ALLOW_THREADS
#define Py_BEGIN_ALLOW_THREADS {
#define Py_END_ALLOW_THREADS }

/* What the calls get. Python code may run after each of them, as a finalizer, and make others. So what the library
 * lends is copied in the call that reads it. */
typedef struct session {
    lodvarn *s;            /* NULL once it is closed */
    size_t turn;           /* the number of calls so far that may change it or its reports */
    size_t chars;          /* the characters that the text had when its changes were taken last */
    char *copy;            /* while it is watched: the text before the oldest report, as a gap buffer, */
    size_t room;           /* its bytes, */
    size_t gap;            /* the bytes before the gap, */
    size_t index;          /* the characters in these, */
    size_t rest;           /* and the bytes after the gap */
    bool is_taken;         /* whether a report was taken from the library and not yet handed out, */
    lodvarn_report report; /* that report, in bytes, */
    char *texts;           /* and room for its texts */
} session;

enum { BLOCK = 240 };

/* Returns the number of characters that begin in so many bytes. */
static size_t chars_in(const char *at, size_t len) {
    size_t chars = 0, i;
    unsigned char few;
    /* A block whose characters a byte can count, so that the compiler counts 16 at once. */
    for (; len >= BLOCK; at += BLOCK, len -= BLOCK, chars += few)
        for (few = 0, i = 0; i < BLOCK; i++) few = (unsigned char)(few + ((signed char)at[i] >= -64));
    for (i = 0; i < len; i++) chars += (signed char)at[i] >= -64;
    return chars;
}

/* Returns the offset of an index, or SIZE_MAX if it is outside the text. */
static size_t offset_in(const char *at, size_t len, long long index) {
    size_t offset = 0, chars;
    if (index < 0) return SIZE_MAX;
    for (; len - offset >= BLOCK; offset += BLOCK, index -= (long long)chars)
        if ((chars = chars_in(at + offset, BLOCK)) > (size_t)index) break;
    for (; offset < len; offset++)
        if ((signed char)at[offset] >= -64 && index-- == 0) return offset;
    return index ? SIZE_MAX : len;
}

static lodvarn_view text_of(session *it) {
    lodvarn_view text = {"", 0};
    if (it->s) lodvarn_text(it->s, &text);
    return text;
}

static size_t offset_of(session *it, long long index) {
    lodvarn_view text = text_of(it);
    return offset_in(text.at, text.len, index);
}

static long long py_open(session *it, const lodvarn_options *options, const char *text, size_t len) {
    it->turn++;
    it->chars = chars_in(text, len);
    return lodvarn_open(&it->s, options, text, len);
}

static long long py_load(session *it, const char *bytes, size_t len) {
    int answer = lodvarn_load(&it->s, bytes, len);
    lodvarn_view text = text_of(it);
    it->turn++;
    it->chars = chars_in(text.at, text.len);
    return answer;
}

/* Copies the saved session to memory of its own, which drop_bytes frees. */
static long long py_save(session *it, lodvarn_view *bytes) {
    lodvarn_view lent = {"", 0};
    int answer = it->s ? lodvarn_save(it->s, &lent) : LODVARN_CLOSED;
    char *copy = answer > 0 ? malloc(lent.len) : NULL;
    if (answer <= 0) return answer;
    if (!copy) return LODVARN_NO_MEMORY;
    bytes->at = memcpy(copy, lent.at, lent.len);
    bytes->len = lent.len;
    return answer;
}

static void drop_bytes(lodvarn_view *bytes) { free((char *)bytes->at); }

static long long py_index(session *it) {
    return it->s ? (long long)chars_in(text_of(it).at, lodvarn_pos(it->s)) : LODVARN_CLOSED;
}

static long long py_char_count(session *it) {
    lodvarn_view text = text_of(it);
    return it->s ? (long long)chars_in(text.at, text.len) : LODVARN_CLOSED;
}

/* Copies a text, if a call lent one, and sets *len to its length. */
static long long copied(int answer, lodvarn_view text, char *out, size_t cap, size_t *len) {
    if (answer <= 0) return answer;
    *len = text.len;
    if (text.len > cap) return LODVARN_TOO_SMALL;
    if (text.len) memcpy(out, text.at, text.len);
    return answer;
}

static long long py_text(session *it, char *out, size_t cap, size_t *len) {
    return copied(it->s ? LODVARN_DONE : LODVARN_CLOSED, text_of(it), out, cap, len);
}

static long long py_slice(session *it, lodvarn_range range, char *out, size_t cap, size_t *len) {
    lodvarn_view text = {"", 0};
    return copied(it->s ? lodvarn_slice(it->s, range, &text) : LODVARN_CLOSED, text, out, cap, len);
}

static long long py_ring_text(session *it, size_t back, char *out, size_t cap, size_t *len) {
    lodvarn_view text = {"", 0};
    return copied(it->s ? lodvarn_ring_text(it->s, back, &text) : LODVARN_CLOSED, text, out, cap, len);
}

/* Copies the text of a cluster, if a call found one, and sets *columns to its width. */
static long long cluster(session *it, int answer, lodvarn_cluster found, size_t *columns, char *out, size_t cap,
                         size_t *len) {
    lodvarn_view text = {text_of(it).at + found.from, found.to - found.from};
    *columns = found.columns;
    return copied(answer, text, out, cap, len);
}

static long long py_cluster_at(session *it, size_t offset, size_t *columns, char *out, size_t cap, size_t *len) {
    lodvarn_cluster found = {0, 0, 0};
    int answer = it->s ? lodvarn_cluster_at(it->s, offset, &found) : LODVARN_CLOSED;
    return cluster(it, answer, found, columns, out, cap, len);
}

static long long py_cluster_before(session *it, size_t offset, size_t *columns, char *out, size_t cap, size_t *len) {
    lodvarn_cluster found = {0, 0, 0};
    int answer = it->s ? lodvarn_cluster_before(it->s, offset, &found) : LODVARN_CLOSED;
    return cluster(it, answer, found, columns, out, cap, len);
}

/* Writes the indexes of a range, if a call found one. */
static long long indexes(session *it, int answer, lodvarn_range range, size_t out[2]) {
    const char *at = text_of(it).at;
    if (answer <= 0) return answer;
    out[0] = chars_in(at, range.from);
    out[1] = out[0] + chars_in(at + range.from, range.to - range.from);
    return answer;
}

static long long py_find(session *it, size_t from, const char *text, size_t len, enum lodvarn_direction direction,
                         size_t out[2]) {
    lodvarn_range range = {0, 0};
    return indexes(it, it->s ? lodvarn_find(it->s, from, text, len, direction, &range) : LODVARN_CLOSED, range, out);
}

static long long py_line_range(session *it, size_t line, size_t out[2]) {
    lodvarn_range range = {0, 0};
    return indexes(it, it->s ? lodvarn_line_range(it->s, line, &range) : LODVARN_CLOSED, range, out);
}

static long long py_movement_range(session *it, size_t from, lodvarn_movement movement, size_t out[2]) {
    lodvarn_range range = {0, 0};
    return indexes(it, it->s ? lodvarn_movement_range(it->s, from, movement, &range) : LODVARN_CLOSED, range, out);
}

static long long py_movement_target(session *it, size_t from, lodvarn_movement movement, size_t out[2]) {
    lodvarn_range range = {0, 0};
    return indexes(it, it->s ? lodvarn_movement_target(it->s, from, movement, &range.to) : LODVARN_CLOSED, range, out);
}

static long long row_cell(session *it, int answer, size_t offset, size_t column, size_t out[2]) {
    if (answer <= 0) return answer;
    out[0] = chars_in(text_of(it).at, offset);
    out[1] = column;
    return answer;
}

static long long py_row_above(session *it, const lodvarn_screen *screen, size_t from, size_t n, size_t column,
                              size_t out[2]) {
    size_t offset = 0;
    int answer = it->s ? lodvarn_row_above(it->s, screen, from, n, &column, &offset) : LODVARN_CLOSED;
    return row_cell(it, answer, offset, column, out);
}

static long long py_row_below(session *it, const lodvarn_screen *screen, size_t from, size_t n, size_t column,
                              size_t out[2]) {
    size_t offset = 0;
    int answer = it->s ? lodvarn_row_below(it->s, screen, from, n, &column, &offset) : LODVARN_CLOSED;
    return row_cell(it, answer, offset, column, out);
}

/* Writes the indexes where rows begin, how many these are, and where the next one begins, or SIZE_MAX. */
static long long py_rows(session *it, const lodvarn_screen *screen, size_t from, size_t *starts, size_t most,
                         size_t out[2]) {
    const char *at = text_of(it).at;
    size_t index, last = from, i;
    int answer = it->s ? lodvarn_rows_from(it->s, screen, from, starts, most, &out[0], &out[1]) : LODVARN_CLOSED;
    if (answer <= 0) return answer;
    index = chars_in(at, from);
    for (i = 0; i < out[0]; last = starts[i], starts[i++] = index) index += chars_in(at + last, starts[i] - last);
    if (out[1] != LODVARN_NO_OFFSET) out[1] = index + chars_in(at + last, out[1] - last);
    return answer;
}

/* Writes clusters by their indexes, how many these are, and where the next one begins, or SIZE_MAX; and their text. */
static long long py_clusters(session *it, enum lodvarn_mode mode, size_t from, lodvarn_cluster *found, size_t most,
                             size_t out[2], char *text, size_t cap, size_t *len) {
    lodvarn_view whole = text_of(it), part = {whole.at + from, 0};
    size_t index, i;
    int answer = it->s ? lodvarn_clusters_from(it->s, mode, from, found, most, &out[0], &out[1]) : LODVARN_CLOSED;
    if (answer <= 0) return answer;
    for (index = chars_in(whole.at, from), i = 0; i < out[0]; i++) {
        size_t bytes = found[i].to - found[i].from;
        found[i].from = index;
        found[i].to = index += chars_in(part.at + part.len, bytes);
        part.len += bytes;
    }
    if (out[1] != LODVARN_NO_OFFSET) out[1] = index;
    return copied(answer, part, text, cap, len);
}

/* The removed text is gone. It had as many characters as the old text had more than what is left of it. */
static long long py_take_change(session *it, size_t out[3]) {
    lodvarn_view text = text_of(it);
    lodvarn_splice splice;
    size_t start, inserted, left;
    int answer = it->s ? lodvarn_take_change(it->s, &splice) : LODVARN_CLOSED;
    if (answer <= 0) return answer;
    start = chars_in(text.at, splice.from);
    inserted = chars_in(text.at + splice.from, splice.new_to - splice.from);
    left = chars_in(text.at + splice.new_to, text.len - splice.new_to);
    out[0] = start;
    out[1] = it->chars - left;
    out[2] = start + inserted;
    it->chars = start + inserted + left;
    return answer;
}

/* Reports count in texts that are gone, so a copy follows them, from each to the next. Its gap is at the oldest report,
 * since the next one is mostly near to it. */

static char *rest_of(session *it) { return it->copy + it->room - it->rest; }

/* Makes the copy one with room for more bytes, and frees what is far too much. */
static bool find_room(session *it, size_t more) {
    size_t len = it->gap + it->rest, room = len + more + len / 8 + 64;
    bool has = it->room >= len + more;
    char *copy = has && it->room / 4 <= room ? NULL : malloc(room);
    if (!copy) return has;
    if (it->copy) memcpy(copy, it->copy, it->gap), memcpy(copy + room - it->rest, rest_of(it), it->rest);
    free(it->copy);
    it->copy = copy;
    it->room = room;
    return true;
}

static void move_gap(session *it, size_t offset) {
    char *rest = rest_of(it);
    size_t back = offset < it->gap ? it->gap - offset : 0, ahead = offset > it->gap ? offset - it->gap : 0;
    it->index = it->index - chars_in(it->copy + offset, back) + chars_in(rest, ahead);
    memmove(rest - back, it->copy + offset, back);
    memmove(it->copy + it->gap, rest, ahead);
    it->rest = it->rest + back - ahead;
    it->gap = offset;
}

static size_t index_in_copy(session *it, size_t offset) {
    if (offset < it->gap) return it->index - chars_in(it->copy + offset, it->gap - offset);
    return it->index + chars_in(rest_of(it), offset - it->gap);
}

static void drop_copy(session *it) {
    free(it->copy);
    free(it->texts);
    it->copy = it->texts = NULL;
    it->room = it->gap = it->index = it->rest = 0;
    it->is_taken = false;
}

static void py_close(session *it) {
    it->turn++;
    lodvarn_close(&it->s);
    drop_copy(it);
}

static long long py_unwatch(session *it) {
    it->turn++;
    drop_copy(it);
    return it->s ? lodvarn_unwatch(it->s) : LODVARN_CLOSED;
}

static long long py_watch(session *it, size_t reports, size_t text_bytes) {
    int answer = it->s ? lodvarn_watch(it->s, reports, text_bytes) : LODVARN_CLOSED;
    lodvarn_view text = text_of(it);
    it->turn++;
    if (answer <= 0) return answer;
    it->texts = malloc(text_bytes + 1);
    if (!it->texts || !find_room(it, text.len)) return py_unwatch(it), LODVARN_NO_MEMORY;
    it->rest = text.len;
    if (text.len) memcpy(rest_of(it), text.at, text.len);
    return answer;
}

/* Makes one report of one without texts and the next one. */
static void fold(lodvarn_report *report, const lodvarn_report *next) {
    size_t start = report->at < next->at ? report->at : next->at;
    size_t middle = report->at + report->new_len, end = next->at + next->old_len;
    if (!next->old_len && !next->new_len) return;
    if (end < middle) end = middle;
    report->kind = LODVARN_FOLDED;
    report->old_len += end - middle + report->at - start;
    report->new_len = end - start - next->old_len + next->new_len;
    report->at = start;
    report->pos_after = next->pos_after;
}

/* Takes the oldest report from the library, unless one is still to be handed out: so none is lost if a signal or a
 * finalizer runs before that. A text that is not kept is at NULL, and its new text is in the present text: so all
 * later changes are folded into such a report. */
static int take_report(session *it) {
    lodvarn_report next = LODVARN_REPORT, *report = &it->report;
    lodvarn_view *old = &report->old_text, *new = &report->new_text;
    int answer = it->s ? LODVARN_DONE : LODVARN_CLOSED;
    if (answer > 0 && !it->is_taken) {
        *report = next;
        answer = lodvarn_take_report(it->s, report);
        it->is_taken = answer > 0;
        if (report->kind == LODVARN_FOLDED || old->len + new->len != report->old_len + report->new_len)
            old->at = new->at = NULL;
        else {
            if (old->len) memcpy(it->texts, old->at, old->len);
            if (new->len) memcpy(it->texts + old->len, new->at, new->len);
            old->at = it->texts;
            new->at = it->texts + old->len;
        }
    }
    while (it->is_taken && !old->at && lodvarn_take_report(it->s, &next) > 0) fold(report, &next);
    return answer;
}

static long long py_report_count(session *it) {
    if (it->is_taken) take_report(it);
    return it->s ? (long long)lodvarn_report_count(it->s) + it->is_taken : LODVARN_CLOSED;
}

/* The new text of the report that was taken. */
static const char *new_text(session *it) {
    return it->report.new_text.at ? it->report.new_text.at : text_of(it).at + it->report.at;
}

/* Reads the oldest report, with indexes for offsets, and the turn in which it is that. Its texts are copied, the new
 * one after the old one; if they do not fit, *len is set to their length. */
static long long py_next_report(session *it, lodvarn_report *out, size_t *turn, char *texts, size_t cap, size_t *len) {
    lodvarn_report *report = &it->report;
    size_t after, pos;
    int answer = take_report(it);
    if (answer <= 0) return answer;
    if (!find_room(it, report->new_len)) return LODVARN_NO_MEMORY;
    *out = *report;
    *len = out->old_text.at ? out->old_len + out->new_len : 0;
    if (*len > cap) return LODVARN_TOO_SMALL;
    if (*len) memcpy(texts, it->texts, *len);
    move_gap(it, report->at);
    after = report->at + report->new_len, pos = report->pos_after;
    out->at = it->index;
    out->old_len = chars_in(rest_of(it), report->old_len);
    out->new_len = chars_in(new_text(it), report->new_len);
    out->pos_before = index_in_copy(it, report->pos_before);
    if (pos <= it->gap) out->pos_after = index_in_copy(it, pos);
    else if (pos <= after) out->pos_after = it->index + chars_in(new_text(it), pos - it->gap);
    else out->pos_after = it->index + out->new_len + chars_in(rest_of(it) + report->old_len, pos - after);
    *turn = it->turn;
    return answer;
}

/* Drops the report that py_next_report read, at which the gap is. Does nothing if a call was made since that turn, by
 * which another one may be the oldest. */
static long long py_drop_report(session *it, size_t turn) {
    size_t len = it->report.new_len;
    if (turn != it->turn || !it->is_taken) return LODVARN_NOTHING;
    if (len) memcpy(it->copy + it->gap, new_text(it), len);
    it->index += chars_in(new_text(it), len);
    it->gap += len;
    it->rest -= it->report.old_len;
    it->is_taken = false;
    it->turn++;
    find_room(it, 0);
    return LODVARN_DONE;
}
