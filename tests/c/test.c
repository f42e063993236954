/* Worked scripts, by lodvarn_script and by the typed calls; what each call returns and leaves; and bad input. Its last
 * line is 'N passed, M failed'. This file runs the tests and has what they share. */
#include "test.h"
#include "rows.h"

int passed, failed;
lodvarn *s;
lodvarn_options options;
struct out out, untouched;
char before[512];
struct typed script_session;

void open_at(const char *marked, size_t limit) {
    char text[64];
    size_t pos = strcspn(marked, "|");
    snprintf(text, sizeof text, "%.*s%s", (int)pos, marked, marked + pos + 1);
    lodvarn_close(&s);
    options = (lodvarn_options)LODVARN_OPTIONS;
    options.limit = limit;
    must(lodvarn_open(&s, &options, text, strlen(text)) == LODVARN_DONE && lodvarn_set_pos(s, pos) == LODVARN_DONE);
}

lodvarn_options chosen(void) {
    lodvarn_options now = LODVARN_OPTIONS;
    must(lodvarn_get_options(s, &now) == LODVARN_DONE);
    return now;
}

int has_chosen(const lodvarn_options *wanted) {
    lodvarn_options now = chosen();
    return now.size == sizeof now && now.mode == wanted->mode && now.prompt == wanted->prompt
        && now.limit == wanted->limit && now.ring_size == wanted->ring_size && now.max_entries == wanted->max_entries
        && now.max_bytes == wanted->max_bytes && now.max_ring_bytes == wanted->max_ring_bytes
        && now.keep_undone == wanted->keep_undone;
}

int add_to_ring(const char *text) { return lodvarn_ring_add(s, text, strlen(text)); }

void add_each(const char *text) {
    for (; *text; text++) must(lodvarn_ring_add(s, text, 1) == LODVARN_DONE);
}

void print_ring(FILE *to) {
    lodvarn_view view;
    for (size_t back = 0; lodvarn_ring_text(s, back, &view) > 0; back++) fprintf(to, "#%.*s", (int)view.len, view.at);
}

void does(const char *what, int answer, int wanted, const char *left) {
    char got[512];
    lodvarn_view text;
    FILE *to = tmpfile();
    must(to && lodvarn_text(s, &text) == LODVARN_DONE);
    print_marked(to, text, lodvarn_pos(s));
    if (strchr(left, '#')) print_ring(to);
    printed_in(to, got, sizeof got);
    if (!see(what, answer == wanted && !strcmp(got, left)))
        printf("  returned %s and left %s, not %s\n", lodvarn_answer_name(answer), got, left);
}

void reports_are(const char *what, size_t count, const char *wanted) {
    static const char *const names[] = {
        "?", "CHAR_INSERTED", "TEXT_INSERTED", "DELETED_FORWARD", "DELETED_BACKWARD", "REPLACED", "KILL_STARTED",
        "KILL_STOPPED", "FOLDED",
    };
    char got[256];
    FILE *to = tmpfile();
    lodvarn_report r = LODVARN_REPORT;
    must(to != NULL);
    while (count-- && lodvarn_take_report(s, &r) == LODVARN_DONE) {
        fprintf(to, "%s %zu %zu %zu %zu %zu ", names[r.kind <= LODVARN_FOLDED ? r.kind : 0], r.at, r.old_len, r.new_len,
                r.pos_before, r.pos_after);
        fprintf(to, "%.*s%.*s\n", (int)r.old_text.len, r.old_text.at, (int)r.new_text.len, r.new_text.at);
    }
    printed_in(to, got, sizeof got);
    if (!see(what, !strcmp(got, wanted))) printf("  wanted\n%s  but got\n%s", wanted, got);
}

int changed_is(size_t from, size_t old_to, size_t new_to) {
    lodvarn_splice splice = {NO, NO, NO};
    return lodvarn_take_change(s, &splice) == (from != NO) && splice.from == from && splice.old_to == old_to
        && splice.new_to == new_to;
}

void begin_script(void) {
    lodvarn_close(&s);
    typed_begin(&script_session);
    s = script_session.s;
}

const char *run(const char *line) {
    static char printed[512];
    FILE *to = tmpfile();
    must(to != NULL);
    typed_line(&script_session, line, to);
    s = script_session.s;
    return printed_in(to, printed, sizeof printed);
}

char *printed_at_once(const char *script) {
    size_t len = 0;
    lodvarn_script(script, strlen(script), NULL, 0, &len);
    char *printed = malloc(len + 1);
    must(printed && lodvarn_script(script, strlen(script), printed, len, &len) == LODVARN_DONE);
    printed[len] = 0;
    return printed;
}

void see_printed(const char *what, char *printed, const char *wanted) {
    if (!see(what, !strcmp(printed, wanted))) printf("  wanted\n%s  but got\n%s", wanted, printed);
    free(printed);
}

void print_state(char *to, size_t cap) {
    FILE *file = tmpfile();
    lodvarn_options now = chosen();
    lodvarn_view text;
    must(file && lodvarn_text(s, &text) == LODVARN_DONE);
    print_marked(file, text, lodvarn_pos(s));
    print_ring(file);
    fprintf(file, " %zu %zu", lodvarn_record_entries(s), lodvarn_group_level(s));
    fprintf(file, " %d %d", lodvarn_can_undo(s), lodvarn_can_redo(s));
    fprintf(file, " %d %zu %zu %zu %zu %zu %zu", now.mode, now.prompt, now.limit, now.ring_size, now.max_entries,
            now.max_bytes, now.max_ring_bytes);
    fprintf(file, " %d %zu", now.keep_undone, lodvarn_report_count(s));
    printed_in(file, to, cap);
}

void begin_row(int yanked) {
    open_at("aé\nb cd|", 12);
    lodvarn_report report = LODVARN_REPORT;
    must(lodvarn_watch(s, 9, 64) == LODVARN_DONE && add_to_ring("kept") == LODVARN_DONE);
    must(lodvarn_begin_group(s) == LODVARN_DONE && lodvarn_kill(s, WORD_BACK) == LODVARN_DONE);
    if (yanked) {
        must(lodvarn_undo_boundary(s) == LODVARN_DONE && lodvarn_kill(s, WORD_BACK) == LODVARN_DONE);
        must(lodvarn_yank(s, 1) == LODVARN_DONE_AT_END);
    }
    must(lodvarn_take_report(s, &report) == LODVARN_DONE && lodvarn_take_change(s, &out.splice) == LODVARN_DONE);
    memset(&out, '#', sizeof out);
    memset(&untouched, '#', sizeof untouched);
    print_state(before, sizeof before);
}

int has_left_all(int yanked, int parts) {
    char now[sizeof before];
    lodvarn_report report = LODVARN_REPORT;
    print_state(now, sizeof now);
    int same = !strcmp(now, before) && !memcmp(&out, &untouched, sizeof out)
        && lodvarn_last_was_yank(s) == (yanked && !parts) && lodvarn_take_change(s, &out.splice) == LODVARN_NOTHING
        && lodvarn_take_report(s, &report) == LODVARN_DONE && report.at == 6 && is(report.old_text, "cd");
    lodvarn_kill(s, WORD_BACK);
    same = same && lodvarn_ring_count(s) == (yanked ? 4 : parts ? 3 : 2);
    return same && lodvarn_undo(s, 65535) == LODVARN_DONE && lodvarn_text(s, &out.view) > 0 && is(out.view, "aé\nb cd");
}

/* What the script prints by typed calls; to be freed. */
static char *printed_by(const char *script) {
    char *printed = malloc(PRINTED);
    FILE *to = tmpfile();
    must(printed && to);
    begin_script();
    typed_script(&script_session, script, to);
    s = script_session.s;
    return printed_in(to, printed, PRINTED);
}

void scripts_print(void) {
    for (size_t i = 0; i < COUNT(rows); i++) {
        const struct row *row = &rows[i];
        see_printed(row->what, printed_at_once(row->script), row->wanted);
        if (!row->has_calls) continue;
        see_printed(row->what, printed_by(row->script), row->wanted);
        see(row->what, typed_reads_agree(&script_session));
    }
}

#define RUN(name) name();
int main(void) {
    TESTS(RUN)
    lodvarn_close(&s);
    return sum();
}
