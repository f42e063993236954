/* Refuses each request of the library for memory in turn: the call says so, the session is sound, and undo leads back
 * to the text that it began with. A call whose comment names no NO_MEMORY makes none but that for the table of the
 * text's lines, if it goes by lines or rows. Nothing takes more than it needs, and a session that is closed gives back
 * all. To be linked with -Wl,--wrap=malloc,--wrap=realloc,--wrap=free. Its last line is 'N passed, M failed', where
 * each request, each such call and each check of what is taken counts one. */
#include "checksum.h"
#include "see.h"

#define WORD_BACK lodvarn_words_back(LODVARN_EMACS, 1)
/* The next of the calls that a function makes, one each time. Those of several steps may stop between two: an edit that
 * keeps what was undone first, or one of several changes, which makes them a group. */
#define CALL(call) if (which-- == 0) return (call)
#define KEEPS(call) if (which-- == 0) return several = 1, (call)
#define LINES(call) if (which-- == 0) return by_lines = 1, (call)
#define STEPS(call) if (which-- == 0) return several = 1, was_refused_before = was_refused, grouped(call)
#define NONE ((lodvarn *)(uintptr_t)0x5a5a5a50)

enum { NO_MORE = INT_MIN };

int passed, failed;
static lodvarn *s;
static size_t left = SIZE_MAX; /* requests before the one that is refused */
static int was_refused, was_refused_before;
static int several;         /* whether the last call has several steps */
static int by_lines;        /* whether it goes by lines or rows */
static size_t greatest;     /* the greatest request */
static size_t requests;     /* how many there were */
static size_t held, blocks; /* the bytes that were asked for and are held, and in how many blocks */
static size_t peak;         /* the most bytes that were held, with what was asked for */

void *__real_malloc(size_t size);
void *__real_calloc(size_t count, size_t size);
void *__real_realloc(void *at, size_t size);
void __real_free(void *at);
void *__wrap_malloc(size_t size);
void *__wrap_calloc(size_t count, size_t size);
void *__wrap_realloc(void *at, size_t size);
void __wrap_free(void *at);

static int refuses(size_t size) {
    requests++;
    if (size > greatest) greatest = size;
    if (held + size > peak) peak = held + size;
    if (left-- > 0) return 0;
    was_refused = 1;
    return 1;
}

/* A block has its size before it. */
enum { HEAD = 16 };

static void *taken(char *block, size_t size) {
    if (!block) return NULL;
    memcpy(block, &size, sizeof size);
    held += size, blocks++;
    return block + HEAD;
}

/* The block with its head, which is no longer held. */
static char *given_back(void *at) {
    size_t size;
    if (!at) return NULL;
    memcpy(&size, (char *)at - HEAD, sizeof size);
    held -= size, blocks--;
    return (char *)at - HEAD;
}

void *__wrap_malloc(size_t size) { return refuses(size) ? NULL : taken(__real_malloc(size + HEAD), size); }

/* A compiler may make one call of malloc and memset. */
void *__wrap_calloc(size_t count, size_t size) {
    return refuses(count * size) ? NULL : taken(__real_calloc(1, count * size + HEAD), count * size);
}

void *__wrap_realloc(void *at, size_t size) {
    return refuses(size) ? NULL : taken(__real_realloc(given_back(at), size + HEAD), size);
}

void __wrap_free(void *at) { __real_free(given_back(at)); }

static const char start[] = "ab cd";

static void open_it(size_t ring_size) {
    lodvarn_options options = LODVARN_OPTIONS;
    options.ring_size = ring_size;
    must(lodvarn_open(&s, &options, start, 5) > 0);
}

/* What opens is closed again; an error leaves the pointer, which is not read. */
static int closes(lodvarn *opened, int answer) {
    if (answer < 0) return opened == NONE ? answer : NO_MORE;
    lodvarn_close(&opened);
    return answer;
}

static int opens(void) {
    lodvarn *opened = NONE;
    int answer = lodvarn_open(&opened, NULL, start, 5);
    return closes(opened, answer);
}

static lodvarn_view saved;

static int loads(void) {
    lodvarn *opened = NONE;
    int answer = lodvarn_load(&opened, saved.at, saved.len);
    return closes(opened, answer);
}

/* Types a line. The bytes that were not used are passed again. Only the first call may return an error. */
static int types(const char *line) {
    size_t len = strlen(line), used = 0, more = 0;
    int answer = lodvarn_type(s, line, len, &used);
    if (answer > 0 && used < len) answer = lodvarn_type(s, line + used, len - used, &more);
    return answer < 0 || used + more == len ? answer : LODVARN_NOTHING;
}

static int keep_undone(void) {
    lodvarn_options options = LODVARN_OPTIONS;
    must(lodvarn_get_options(s, &options) > 0);
    options.keep_undone = true;
    return lodvarn_set_options(s, &options);
}

/* What an edit of several changes returned; NO_MEMORY too if it was refused the marks of their group. */
static int grouped(int answer) {
    if (answer <= 0 || was_refused == was_refused_before) return answer;
    return lodvarn_reopen_group(s) > 0 && lodvarn_end_group(s) > 0 ? answer : LODVARN_NO_MEMORY;
}

/* The calls that may take memory, one after the other. */
static int step(unsigned which) {
    CALL(opens());
    CALL(lodvarn_watch(s, 3, 40));
    CALL(lodvarn_insert(s, 'e', 3));
    CALL(lodvarn_backspace(s, 1));
    CALL(types("Zwölf, 12\u65e5\n"));
    CALL(lodvarn_backspace(s, 11));
    CALL(lodvarn_begin_group(s));
    CALL(lodvarn_paste(s, "x y", 3, 2));
    CALL(lodvarn_set_pos(s, 3));
    STEPS(lodvarn_change_case(s, LODVARN_UPPERCASE));
    CALL(lodvarn_end_all_groups(s));
    CALL(lodvarn_kill(s, WORD_BACK));
    CALL(lodvarn_kill(s, WORD_BACK));
    CALL(lodvarn_yank(s, 2));
    STEPS(lodvarn_yank_pop(s));
    STEPS(lodvarn_transpose_words(s, 1));
    STEPS(lodvarn_transpose_chars(s));
    CALL(lodvarn_insert_at(s, 0, "ab\n", 3));
    STEPS(lodvarn_indent(s, lodvarn_whole_text(), 40, LODVARN_INDENT));
    STEPS(lodvarn_indent(s, lodvarn_whole_text(), 3, LODVARN_DEDENT));
    CALL(lodvarn_replace(s, range(0, 4), "cd\ne", 4));
    CALL(lodvarn_delete_range(s, range(0, 1)));
    CALL(lodvarn_delete(s, 1));
    CALL(lodvarn_set_pos(s, 4));
    CALL(lodvarn_delete_by(s, lodvarn_words_back(LODVARN_VI, 1)));
    CALL(lodvarn_undo(s, 2));
    CALL(lodvarn_redo(s));
    STEPS(lodvarn_set_text(s, 3, "one two", 7));
    CALL(lodvarn_delete_by(s, lodvarn_words_forward(LODVARN_BIG, LODVARN_AFTER_END, 1)));
    CALL(lodvarn_delete_by(s, lodvarn_to_char(LODVARN_BACK_TO, 'o', 1)));
    CALL(lodvarn_set_text(s, 3, "one two", 7));
    CALL(lodvarn_delete_by(s, lodvarn_to_line_end()));
    CALL(lodvarn_delete_by(s, lodvarn_to_text_start()));
    CALL(lodvarn_paste(s, "kept and killed", 15, 1));
    CALL(lodvarn_kill(s, lodvarn_to_match(LODVARN_BACKWARD, "led", 3)));
    CALL(lodvarn_kill_range(s, range(2, 5), LODVARN_FORWARD));
    CALL(lodvarn_kill_range(s, range(0, 2), LODVARN_BACKWARD));
    CALL(lodvarn_ring_add(s, "kept", 4));
    CALL(lodvarn_begin_group(s));
    CALL(lodvarn_begin_group(s));
    CALL(lodvarn_set_pos(s, 3));
    CALL(lodvarn_kill(s, lodvarn_to_first_nonblank()));
    CALL(lodvarn_insert(s, 'x', 1));
    CALL(lodvarn_end_group(s));
    CALL(lodvarn_end_group(s));
    CALL(lodvarn_reopen_group(s));
    CALL(lodvarn_abandon_group(s));
    CALL(lodvarn_begin_group(s));
    CALL(lodvarn_replace(s, range(0, 1), "é", 2));
    CALL(lodvarn_end_group(s));
    CALL(lodvarn_undo(s, 3));
    CALL(keep_undone());
    CALL(lodvarn_delete_range(s, range(0, 0))); /* all that it does is to keep what was undone */
    CALL(lodvarn_undo(s, 2));
    KEEPS(lodvarn_paste(s, "x y", 3, 2));
    CALL(lodvarn_undo(s, 3));
    KEEPS(lodvarn_begin_group(s));
    CALL(lodvarn_save(s, &saved));
    CALL(lodvarn_save(s, &saved));
    CALL(loads());
    return NO_MORE;
}

/* The one that leaves nothing to undo. */
static int step_of_restart(unsigned which) {
    CALL(lodvarn_restart(s, "one\ntwo\nthree\nfour\nfive\nsix\nseven\neight\nnine\nten", 48));
    CALL(lodvarn_restart(s, start, 5));
    return NO_MORE;
}

/* The text is UTF-8 and keeps to the limit, and the cursor is at an offset of it. */
static int stands(void) {
    static const lodvarn_screen screen = LODVARN_SCREEN(80);
    lodvarn_options now = LODVARN_OPTIONS;
    lodvarn_position cell;
    lodvarn_view text;
    return lodvarn_text(s, &text) == LODVARN_DONE && lodvarn_get_options(s, &now) == LODVARN_DONE
        && text.len <= now.limit && lodvarn_cell(&screen, lodvarn_pos(s), text.at, text.len, &cell) == LODVARN_DONE;
}

/* The session as a text, but its ring, which may have kept a text. */
static void print_state(char *to, size_t cap) {
    lodvarn_options now = LODVARN_OPTIONS;
    lodvarn_view text;
    must(lodvarn_text(s, &text) > 0 && lodvarn_get_options(s, &now) > 0);
    snprintf(to, cap, "%.*s %zu %zu %zu %zu %d", (int)text.len, text.at, lodvarn_pos(s), now.limit,
             lodvarn_record_entries(s), lodvarn_group_level(s), lodvarn_can_redo(s));
}

/* After everything is undone the text is the first one. */
static int leads_back(void) {
    lodvarn_view text;
    lodvarn_end_all_groups(s);
    while (lodvarn_record_entries(s) > 0 && lodvarn_undo(s, 65535) != LODVARN_NO_MEMORY) {}
    return lodvarn_text(s, &text) == LODVARN_DONE && is(text, start);
}

/* How the last run of calls ended. */
static char ended[1024];

/* How many calls returned NO_MEMORY if the request of that number is refused. A call of one step leaves all as it
 * was then. If there is no such request each call finds something to do. */
static int refused_at(int (*calls)(unsigned), size_t request, int *holds) {
    char before[sizeof ended], after[sizeof ended];
    int refused = 0, idle = 0, answer;
    open_it(3);
    was_refused = 0;
    left = request;
    print_state(before, sizeof before);
    for (unsigned i = 0; several = 0, (answer = calls(i)) != NO_MORE; i++) {
        print_state(after, sizeof after);
        refused += answer == LODVARN_NO_MEMORY;
        idle += answer <= 0;
        *holds = *holds && stands() && (answer != LODVARN_NO_MEMORY || several || !strcmp(before, after));
        strcpy(before, after);
    }
    left = SIZE_MAX;
    *holds = *holds && leads_back() && (was_refused || !idle);
    strcpy(ended, before);
    lodvarn_close(&s);
    return refused;
}

/* Refuses each request by itself. One call says so, or all is as if nothing was refused: a text does without the table
 * by which its lines are looked up. */
static void refuse_each(const char *what, int (*calls)(unsigned)) {
    char plain[sizeof ended];
    int holds = 1;
    see(what, !refused_at(calls, SIZE_MAX, &holds) && holds);
    strcpy(plain, ended);
    size_t request = 0;
    do {
        int refused = refused_at(calls, request, &holds);
        holds = holds && (refused == was_refused || !strcmp(ended, plain));
        if (!see(what, holds)) printf("  request %zu, said by %d calls\n", request, refused);
        holds = 1;
        request++;
    } while (was_refused);
}

/* A script of which a request is refused writes nothing, or its lines say so. */
static int script_is_whole(size_t request) {
    static const char script[] = "text a\ntext b\n", whole[] = "ok 1 a\nok 1 b\n";
    char out[64] = "#";
    size_t len = sizeof out + 1;
    was_refused = 0;
    left = request;
    int answer = lodvarn_script(script, sizeof script - 1, out, sizeof out, &len);
    left = SIZE_MAX;
    if (answer == LODVARN_NO_MEMORY) return was_refused && len > sizeof out && !strcmp(out, "#");
    int same = len == sizeof whole - 1 && !memcmp(out, whole, len);
    return answer == LODVARN_DONE && same != was_refused;
}

/* The calls whose comments name no NO_MEMORY, one after the other. */
static int frugal_step(unsigned which) {
    static const char text[] = "e\u0301 \U0001F468\u200D\U0001F469\n日本";
    static const lodvarn_screen screen = LODVARN_SCREEN(2);
    enum { LEN = sizeof text - 1 };
    lodvarn_options options = LODVARN_OPTIONS;
    lodvarn_view view;
    lodvarn_range covered;
    lodvarn_position position = {1, 1};
    lodvarn_cluster cluster, clusters[8];
    lodvarn_splice splice;
    lodvarn_report report = LODVARN_REPORT;
    char out[64];
    size_t n, column = LODVARN_OWN_COLUMN, starts[8];
    CALL(lodvarn_set_pos(s, 1));
    CALL(lodvarn_move(s, lodvarn_words_forward(LODVARN_VI, LODVARN_AT_START, 1)));
    CALL(lodvarn_move(s, lodvarn_to_char(LODVARN_BACK_TO, 'a', 1)));
    LINES(lodvarn_move(s, lodvarn_lines_up(1)));
    CALL(lodvarn_move(s, lodvarn_to_match(LODVARN_BACKWARD, "\n", 1)));
    CALL(lodvarn_copy(s, lodvarn_whole_text(), out, sizeof out, &n));
    CALL(lodvarn_copy(s, lodvarn_to_match(LODVARN_BACKWARD, "d\n", 2), out, sizeof out, &n));
    CALL(lodvarn_text_copy(s, out, sizeof out, &n));
    CALL(lodvarn_find(s, 1, "d\n", 2, LODVARN_FORWARD, &covered));
    CALL(lodvarn_undo_boundary(s));
    CALL(lodvarn_reopen_group(s));
    CALL(lodvarn_take_change(s, &splice));
    CALL(lodvarn_take_report(s, &report));
    CALL(lodvarn_unwatch(s));
    CALL(lodvarn_text(s, &view));
    CALL(lodvarn_slice(s, range(1, 2), &view));
    LINES(-!(lodvarn_pos(s) && lodvarn_line_count(s) && lodvarn_record_entries(s)));
    CALL(-!(lodvarn_can_undo(s) && !lodvarn_can_redo(s) && !lodvarn_group_level(s) && !lodvarn_last_was_yank(s)));
    CALL(-!(lodvarn_ring_count(s) && lodvarn_report_count(s)));
    CALL(-!(lodvarn_version() && lodvarn_answer_name(0) && lodvarn_error_text(0)));
    CALL(lodvarn_ring_text(s, 0, &view));
    CALL(lodvarn_ring_clear(s));
    CALL(lodvarn_mark_saved(s));
    CALL(-(int)lodvarn_is_saved(s));
    LINES(lodvarn_line_range(s, 1, &covered));
    LINES(lodvarn_cursor_position(s, &position));
    LINES(lodvarn_line_at(s, 1, &n));
    CALL(lodvarn_cluster_at(s, 1, &cluster));
    CALL(lodvarn_cluster_before(s, 1, &cluster));
    LINES(lodvarn_movement_range(s, 1, lodvarn_lines_up(1), &covered));
    LINES(lodvarn_movement_target(s, 1, lodvarn_to_first_nonblank(), &n));
    CALL(lodvarn_get_options(s, &options));
    options.ring_size = SIZE_MAX;
    options.limit = LODVARN_NO_LIMIT;
    options.max_entries = options.max_bytes = 0;
    CALL(lodvarn_set_options(s, &options));
    CALL(lodvarn_width(LODVARN_UNICODE, text, LEN, &n));
    CALL(lodvarn_width(LODVARN_WC_WIDTH, text, LEN, &n));
    CALL(lodvarn_width(LODVARN_NO_ZWJ, text, LEN, &n));
    CALL(lodvarn_first_cluster(text, LEN, &n));
    CALL(lodvarn_last_cluster(text, LEN, &n));
    CALL(lodvarn_cell(&screen, LEN, text, LEN, &position));
    CALL(lodvarn_offset_at(&screen, position, text, LEN, &n));
    CALL(lodvarn_rows(&screen, text, LEN, starts, 8, &n));
    CALL(-(lodvarn_rows(&screen, text, LEN, NULL, 0, &n) != LODVARN_TOO_SMALL));
    CALL(lodvarn_clusters(LODVARN_UNICODE, text, LEN, clusters, 8, &n));
    CALL(lodvarn_map_offset(&(lodvarn_splice){0, 1, 2}, 1, LODVARN_AFTER, &n));
    CALL(lodvarn_rows_from(s, &screen, 0, starts, 8, &n, &column));
    CALL(lodvarn_clusters_from(s, LODVARN_UNICODE, 0, clusters, 8, &n, &column));
    LINES(lodvarn_row_above(s, &screen, 0, 1, &column, &n));
    LINES(lodvarn_row_below(s, &screen, LODVARN_LINE_START, 1, &column, &n));
    return NO_MORE;
}

/* What the call of that number returns while every request is refused. There is a change and a report, a ring
 * with one text, and, if that is wanted, the table by which the text's lines are looked up. */
static int frugal_answer(unsigned which, int with_lines) {
    open_it(3);
    must(lodvarn_ring_add(s, "kept", 4) > 0 && lodvarn_watch(s, 3, 40) > 0 && lodvarn_begin_group(s) > 0);
    must(lodvarn_paste(s, "\nab", 3, 1) > 0 && lodvarn_end_group(s) > 0);
    must(!with_lines || lodvarn_line_count(s) == 2);
    was_refused = by_lines = 0;
    left = 0;
    int answer = frugal_step(which);
    left = SIZE_MAX;
    lodvarn_close(&s);
    return answer;
}

static void frugal_calls_take_nothing(void) {
    int answer;
    for (unsigned i = 0; (answer = frugal_answer(i, 1)) != NO_MORE; i++) {
        if (!see("a call without a request", answer >= 0 && !was_refused)) printf("  call %u returns %d\n", i, answer);
        answer = frugal_answer(i, 0);
        if (!see("a call without lines", answer >= 0 && was_refused == by_lines)) printf("  call %u: %d\n", i, answer);
    }
}

/* A great text, as a line of a script, and what it prints. */
enum { GREAT = 1000000 };
static char great[GREAT + 6], printed[GREAT + 64];

static int closes_a_group(void) {
    return lodvarn_begin_group(s) > 0 && lodvarn_insert(s, 'a', 1) > 0 && lodvarn_end_group(s) > 0;
}

static int keeps(void) { return keep_undone() > 0 ? lodvarn_delete_range(s, range(0, 0)) : 0; }

/* No call took memory before it is needed, more of it than is needed, or for longer. */
static void see_taken(const char *what, int holds) {
    if (!see(what, holds)) printf("  %zu requests, the greatest %zu, %zu held\n", requests, greatest, peak);
    greatest = requests = peak = 0;
}

static void little_is_taken(void) {
    size_t len;
    memset(great, 'a', sizeof great);
    memcpy(great, "text ", 5);
    great[sizeof great - 1] = '\n';
    greatest = requests = peak = 0;
    open_it(GREAT);
    see_taken("nothing is taken for what may come", greatest < 4096);
    see_taken("the end of a group", closes_a_group() && greatest < 4096);
    see_taken("a queue", lodvarn_watch(s, 3, 40) == LODVARN_DONE && requests == 2 && greatest < 4096);
    see_taken("a report of a text", lodvarn_paste(s, "x y ", 4, 1) > 0 && greatest < 4096);
    see_taken("a word of 17 letters", types("seventeenthletter") > 0 && greatest < 4096);
    see_taken("a save of a small text", lodvarn_save(s, &saved) > 0 && greatest < 4096);
    see_taken("a word that was undone and is kept", lodvarn_undo(s, 1) > 0 && keeps() > 0 && greatest < 4096);
    see_taken("a great text", lodvarn_insert_at(s, 0, great, GREAT) > 0 && greatest < GREAT * 3 / 2);
    see_taken("a great kill", lodvarn_kill(s, lodvarn_whole_text()) > 0 && greatest < GREAT * 3 / 2);
    lodvarn_close(&s);
    int answer = lodvarn_script(great, sizeof great, printed, sizeof printed, &len);
    see_taken("a great line of a script", answer == LODVARN_DONE && peak < GREAT * 9 / 2 && !held);
}

/* A load holds at most six times the bytes that it is given. The files are those of which it makes most: of many small
 * parts. Each of these makes one in a session. */
enum { PARTS = 4100 };

static int adds_to_ring(size_t i) { return lodvarn_ring_add(s, &start[i % 2], 1); }
static int adds_line(size_t i) { return lodvarn_insert_at(s, i, "\n", 1); }
static int inserts(size_t i) { return lodvarn_insert_at(s, i % 2 * 2, "a", 1); }
static int deletes(size_t i) { return lodvarn_delete_range(s, range(i % 2 * 2, i % 2 * 2 + 1)); }
static int replaces(size_t i) { return lodvarn_replace(s, range(i % 2 * 2, i % 2 * 2 + 1), &start[i % 2], 1); }
static int begins(size_t i) { return (void)i, lodvarn_begin_group(s); }
static int groups(size_t i) { return begins(i) > 0 && inserts(i) > 0 ? lodvarn_end_group(s) : 0; }

static void loads_little(const char *what, int (*part)(size_t), int is_undone) {
    lodvarn_options options = LODVARN_OPTIONS;
    lodvarn *opened;
    options.ring_size = PARTS;
    must(lodvarn_open(&s, &options, great, 2 * PARTS) > 0);
    for (size_t i = 0; i < PARTS; i++) must(part(i) > 0);
    if (is_undone) must(lodvarn_undo(s, PARTS) > 0);
    must(lodvarn_save(s, &saved) > 0);
    size_t before = peak = held;
    int answer = lodvarn_load(&opened, saved.at, saved.len);
    peak -= before;
    see_taken(what, answer > 0 && peak <= 6 * saved.len);
    lodvarn_close(&opened);
    lodvarn_close(&s);
}

static void loads_take_little(void) {
    loads_little("a load of a ring of small texts", adds_to_ring, 0);
    loads_little("a load of short lines", adds_line, 0);
    loads_little("a load of small insertions", inserts, 0);
    loads_little("a load of small insertions that were undone", inserts, 1);
    loads_little("a load of small deletions", deletes, 0);
    loads_little("a load of small replacements", replaces, 0);
    loads_little("a load of small replacements that were undone", replaces, 1);
    loads_little("a load of marks", begins, 0);
    loads_little("a load of small groups", groups, 0);
}

/* Wherever a file says 2^24, such as of its entries or the texts of its ring, a load takes no memory for as many. */
static void loads_trust_no_number(void) {
    char bytes[512];
    lodvarn *opened;
    open_it(3);
    must(lodvarn_ring_add(s, "kept", 4) > 0 && lodvarn_insert(s, 'a', 1) > 0);
    must(lodvarn_save(s, &saved) > 0 && saved.len < sizeof bytes);
    for (size_t at = 8; at < saved.len - 15; at++) {
        memcpy(bytes, saved.at, saved.len);
        memset(bytes + at, 0, 8), bytes[at + 3] = 1;
        mend((unsigned char *)bytes, saved.len);
        int answer = lodvarn_load(&opened, bytes, saved.len);
        if (answer > 0) lodvarn_close(&opened);
        see_taken("a load of a great number", answer != LODVARN_NO_MEMORY && greatest < 4096);
    }
    lodvarn_close(&s);
}

/* An empty session has two blocks, its own and that of what it holds. What is done with it takes more, and its end
 * gives back all. */
#define GIVES_BACK(use)                                                                       \
    do {                                                                                      \
        requests = 0;                                                                         \
        SEE(lodvarn_open(&s, NULL, NULL, 0) == LODVARN_DONE && blocks == 2 && requests == 2); \
        SEE((use) > 0 && blocks > 2);                                                         \
        lodvarn_close(&s);                                                                    \
        SEE(!blocks && !held);                                                                \
    } while (0)

static void all_is_given_back(void) {
    GIVES_BACK(lodvarn_watch(s, 4, 64));
    GIVES_BACK(lodvarn_watch(s, 4, 64) > 0 && lodvarn_unwatch(s) > 0 ? lodvarn_insert(s, 'a', 1) : 0);
    GIVES_BACK(lodvarn_insert(s, '\n', 9));
    GIVES_BACK(lodvarn_ring_add(s, "kept", 4));
    GIVES_BACK(lodvarn_ring_add(s, "kept", 4) > 0 ? lodvarn_ring_clear(s) : 0);
    GIVES_BACK(lodvarn_restart(s, "a\nb", 3));
    GIVES_BACK(types("a\nb"));
    GIVES_BACK(lodvarn_save(s, &saved));
    GIVES_BACK(lodvarn_save(s, &saved) > 0 ? lodvarn_save(s, &saved) : 0);
}

int main(void) {
    size_t request = 0;
    frugal_calls_take_nothing();
    little_is_taken();
    loads_take_little();
    loads_trust_no_number();
    all_is_given_back();
    refuse_each("a refused request of a session", step);
    refuse_each("a refused request of a restart", step_of_restart);
    do see("a refused request of a script", script_is_whole(request++));
    while (was_refused);
    return sum();
}
