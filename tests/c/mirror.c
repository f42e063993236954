/* mirror [SEED]: runs random commands, and keeps two copies of the text beside the session: one by the reports, one by
 * lodvarn_take_change. Each must be the text of the session, whatever the room of the queue, also if requests for
 * memory are refused. To be linked with -Wl,--wrap=malloc,--wrap=realloc. Its last line is 'N passed, M failed'. */
#include "chance.h"
#include "see.h"

enum { COMMANDS = 60000, LIMIT = 600, LONG = 300, ROOM = 1 << 16 };

int passed, failed;
static lodvarn *s;
static unsigned refused_of; /* one of so many requests is refused, none if it is 0 */
static size_t most;         /* a bound of the record now and then, in entries and in bytes */

void *__real_malloc(size_t size);
void *__real_realloc(void *at, size_t size);

static int refuses(void) { return refused_of && !below(refused_of); }

void *__wrap_malloc(size_t size) { return refuses() ? NULL : __real_malloc(size); }

void *__wrap_realloc(void *at, size_t size) { return refuses() ? NULL : __real_realloc(at, size); }

/* A copy of the text, and whether all changes fitted it. */
struct copy { char text[ROOM]; size_t len; int holds; };

static void splice(struct copy *c, size_t at, size_t old_len, const char *new, size_t new_len) {
    c->holds = c->holds && at <= c->len && old_len <= c->len - at && new_len <= ROOM - (c->len - old_len);
    if (!c->holds) return;
    memmove(c->text + at + new_len, c->text + at + old_len, c->len - at - old_len);
    memcpy(c->text + at, new, new_len);
    c->len = c->len - old_len + new_len;
}

static lodvarn_view text_of(void) {
    lodvarn_view text;
    must(lodvarn_text(s, &text) == LODVARN_DONE);
    return text;
}

static int is_present(const struct copy *c) {
    lodvarn_view text = text_of();
    return c->holds && text.len == c->len && !memcmp(text.at, c->text, c->len);
}

static int is_boundary(const struct copy *c, size_t at) { return at == c->len || (c->text[at] & 0xc0) != 0x80; }

/* Some part of the text is lent, byte for byte that of the copy, if it is between characters. */
static int has_slice(const struct copy *c) {
    size_t from = below((unsigned)c->len + 1), to = from + below((unsigned)(c->len - from) + 1);
    int is_good = is_boundary(c, from) && is_boundary(c, to);
    lodvarn_view part = {"", 0};
    int answer = lodvarn_slice(s, range(from, to), &part);
    if (!is_good) return answer == LODVARN_BAD_OFFSET;
    return answer == LODVARN_DONE && part.len == to - from && !memcmp(part.at, c->text + from, part.len);
}

/* Brings a copy up to date by all that changed. */
static void splice_changed(struct copy *c) {
    lodvarn_splice p;
    if (lodvarn_take_change(s, &p) != LODVARN_DONE) return;
    lodvarn_view text = text_of();
    c->holds = c->holds && p.from <= p.old_to && p.from <= p.new_to && p.new_to <= text.len;
    if (c->holds) splice(c, p.from, p.old_to - p.from, text.at + p.from, p.new_to - p.from);
}

/* Takes up to that many reports into a copy, and counts each kind. The new text of a report without texts is taken from
 * the present text, and that of any other is its own. */
static void read_reports(struct copy *c, int has_texts, unsigned most, unsigned counts[]) {
    lodvarn_report r = LODVARN_REPORT;
    size_t waiting = lodvarn_report_count(s);
    while (c->holds && most-- > 0 && lodvarn_take_report(s, &r) == LODVARN_DONE) {
        int is_whole = has_texts && r.kind != LODVARN_FOLDED;
        c->holds = r.kind <= LODVARN_FOLDED && r.pos_before <= c->len && r.at <= c->len && r.old_len <= c->len - r.at
            && r.old_text.len == (is_whole ? r.old_len : 0) && r.new_text.len == (is_whole ? r.new_len : 0)
            && lodvarn_report_count(s) == --waiting;
        if (!c->holds) return;
        counts[r.kind]++;
        lodvarn_view text = text_of();
        if (is_whole) c->holds = !memcmp(r.old_text.at, c->text + r.at, r.old_len);
        else c->holds = r.at + r.new_len <= text.len;
        if (c->holds) splice(c, r.at, r.old_len, is_whole ? r.new_text.at : text.at + r.at, r.new_len);
        c->holds = c->holds && r.pos_after <= c->len;
    }
}

/* Bounds record and ring, or lets them grow; and lets edits keep the undone changes, or drop them. */
static int bound(void) {
    lodvarn_options options = LODVARN_OPTIONS;
    must(lodvarn_get_options(s, &options) == LODVARN_DONE);
    options.max_entries = below(2) ? most : LODVARN_NO_BOUND;
    options.max_bytes = below(2) ? most : LODVARN_NO_BOUND;
    options.max_ring_bytes = below(2) ? most : LODVARN_NO_BOUND;
    options.keep_undone = below(2);
    return lodvarn_set_options(s, &options);
}

/* A random command. A text that grew long is replaced. */
static int run_command(void) {
    static const uint16_t counts[] = {0, 1, 1, 1, 1, 2, 3, 5, 65535};
    static const uint32_t chars[] = {'a', 'b', 'o', '7', ' ', '.', '\n', 0xe9, 0x301, 0x6f22, 0x1f469, 0x200d};
    static const char *const texts[] = {"", "x", "é", "one two", "a\nb", "\n", "  c", "漢字", "e\u0301", "ǆ ßa", "\r\n"};
    const char *text = ONE_OF(texts);
    size_t n = ONE_OF(counts), len = text_of().len, from = below((unsigned)len + 2), size = strlen(text);
    lodvarn_range covered = {from, from + below(5)};
    uint32_t c = ONE_OF(chars);
    uint32_t kind = LODVARN_WHOLE_LINE_ + below(LAST_MOVEMENT - LODVARN_WHOLE_LINE_ + 1);
    lodvarn_movement movement = lodvarn_movement_(kind, c, n);
    movement.text = text, movement.len = size;
    switch (len > LONG ? 0 : below(40)) {
    case 0: return below(32) ? lodvarn_set_text(s, size, text, size) : lodvarn_restart(s, text, size);
    case 1: return lodvarn_replace(s, covered, text, size);
    case 2: case 3: return lodvarn_insert_at(s, from, text, size);
    case 4: return lodvarn_delete_range(s, covered);
    case 5: return lodvarn_delete(s, n);
    case 6: return lodvarn_backspace(s, n);
    case 7: case 8: case 9: case 10: return lodvarn_delete_by(s, movement);
    case 11: return lodvarn_transpose_chars(s);
    case 12: return lodvarn_transpose_words(s, n);
    case 13: return lodvarn_change_case(s, LODVARN_CAPITALIZE + below(3));
    case 14: return lodvarn_indent(s, movement, below(9), LODVARN_INDENT + below(2));
    case 15: case 16: case 17: case 18: return lodvarn_kill(s, movement);
    case 19: return lodvarn_yank(s, n);
    case 20: return lodvarn_yank_pop(s);
    case 21: case 22: return lodvarn_undo(s, below(20) ? n % 9 : n);
    case 23: return lodvarn_redo(s);
    case 24: return lodvarn_begin_group(s);
    case 25: return below(2) ? lodvarn_end_all_groups(s) : lodvarn_end_group(s);
    case 26: return lodvarn_set_pos(s, from);
    case 27: return lodvarn_move(s, movement);
    case 28: case 29: return lodvarn_paste(s, text, size, n);
    case 30: return lodvarn_truncate(s, lodvarn_record_entries(s) - below(3));
    case 31: case 32: return lodvarn_kill_range(s, covered, LODVARN_FORWARD + below(2));
    case 33: return lodvarn_ring_add(s, text, size);
    case 34: return bound();
    case 35: return below(2) ? lodvarn_undo_boundary(s) : lodvarn_reopen_group(s);
    case 36: return lodvarn_abandon_group(s);
    case 37: return lodvarn_type(s, text, size, &len);
    default: return lodvarn_insert(s, c, n);
    }
}

static void check(const char *what, int holds, size_t reports, unsigned one_of) {
    if (!see(what, holds)) printf("  a queue of %zu, one of %u requests refused\n", reports, one_of);
}

/* Random commands on a session with a queue of that room. Reports and changes are read late now and then. */
static void run(size_t reports, size_t text_bytes, unsigned one_of) {
    static struct copy reported, changed;
    unsigned counts[LODVARN_FOLDED + 1] = {0}, refused = 0, halfway = 0, late = 0, i;
    reported.len = changed.len = 0;
    reported.holds = changed.holds = 1;
    lodvarn_options options = LODVARN_OPTIONS;
    options.limit = LIMIT;
    options.ring_size = 3;
    must(lodvarn_open(&s, &options, "", 0) > 0 && lodvarn_watch(s, reports, text_bytes) > 0);
    refused_of = one_of;
    most = reports < 1000 ? 40 : LODVARN_NO_BOUND;
    for (i = 0; i < COMMANDS && reported.holds && changed.holds; i++) {
        int is_refused = run_command() == LODVARN_NO_MEMORY;
        refused += is_refused;
        halfway += is_refused && !late && !is_present(&reported);
        late = !below(3);
        read_reports(&reported, text_bytes > 0, late ? below(3) : UINT_MAX, counts);
        if (!late) reported.holds = is_present(&reported) && has_slice(&reported);
        if (!below(3)) continue;
        splice_changed(&changed);
        changed.holds = is_present(&changed);
    }
    refused_of = 0;
    for (size_t n = 0; n <= reports; n++) must(lodvarn_restart(s, n % 2 ? "a" : "b", 1) > 0); /* these are folded */
    read_reports(&reported, text_bytes > 0, UINT_MAX, counts);
    reported.holds = is_present(&reported);
    check("the copy by reports is the text", reported.holds, reports, one_of);
    check("the copy by what changed is the text", changed.holds, reports, one_of);
    if (i < COMMANDS) printf("  after command %u\n", i);
    check("some commands were out of memory", (refused > 0) == (one_of > 0), reports, one_of);
    check("some of them halfway", (halfway > 0) == (one_of > 0), reports, one_of);
    for (uint32_t kind = LODVARN_CHAR_INSERTED; kind <= LODVARN_FOLDED; kind++) {
        int is_mark = kind == LODVARN_KILL_STARTED || kind == LODVARN_KILL_STOPPED, is_alone = reports == 1;
        check("there was each kind of report", counts[kind] > 0 || (is_mark && is_alone), reports, one_of);
    }
    lodvarn_close(&s);
}

int main(int argc, char **argv) {
    static const struct { size_t reports, text_bytes; } queues[] = {{1, 64}, {4, 256}, {1000, 2048}, {1, 0}};
    begin_chance(strtoull(argc > 1 ? argv[1] : "7", NULL, 10));
    for (size_t i = 0; i < sizeof queues / sizeof *queues; i++) {
        run(queues[i].reports, queues[i].text_bytes, 0);
        run(queues[i].reports, queues[i].text_bytes, 12);
    }
    return sum();
}
