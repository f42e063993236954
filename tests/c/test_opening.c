/* Opening, saving and closing; the options; what the library says of itself. */
#include "test.h"

#define NAMED(answer) see(#answer " has its name", !strcmp(lodvarn_answer_name(LODVARN_##answer), "LODVARN_" #answer))

void versions_and_answers_have_names(void) {
    static const int none[] = {3, 4, 255, 256, INT_MAX, -14, -15, -255, INT_MIN};
    char numbers[32];
    snprintf(numbers, sizeof numbers, "%d.%d.%d", LODVARN_VERSION_MAJOR, LODVARN_VERSION_MINOR, LODVARN_VERSION_PATCH);
    SEE(!strcmp(LODVARN_VERSION, numbers) && lodvarn_version() == LODVARN_VERSION_NUMBER);
    SEE(lodvarn_version() == LODVARN_VERSION_MAJOR * 65536 + LODVARN_VERSION_MINOR * 256 + LODVARN_VERSION_PATCH);
    NAMED(NOTHING), NAMED(DONE), NAMED(DONE_AT_END), NAMED(NO_MEMORY), NAMED(BAD_OFFSET), NAMED(BAD_YANK_SIZE);
    NAMED(NOT_REPLAYING), NAMED(NO_ROOM), NAMED(NOT_UTF8), NAMED(NO_SUCH_NUMBER), NAMED(TOO_SMALL), NAMED(IS_WATCHED);
    NAMED(CLOSED), NAMED(UNKNOWN_FORMAT), NAMED(DAMAGED), NAMED(BAD_SIZE);
    for (size_t i = 0; i < COUNT(none); i++)
        if (!SEE(!strcmp(lodvarn_answer_name(none[i]), "unknown") && *lodvarn_error_text(none[i])))
            printf("  of %d\n", none[i]);
    SEE(strstr(lodvarn_error_text(LODVARN_NO_ROOM), "the text would exceed the limit") != NULL);
    for (int a = LODVARN_BAD_SIZE; a <= LODVARN_DONE_AT_END; a++)
        for (int b = LODVARN_BAD_SIZE; b < a; b++)
            if (!SEE(strcmp(lodvarn_error_text(a), lodvarn_error_text(b)))) printf("  of %d and %d\n", a, b);
}

void sessions_open_and_close(void) {
    lodvarn *const garbage = (lodvarn *)(uintptr_t)0x5a5a5a50, *a = garbage, *b = garbage;
    lodvarn_view text;
    SEE(lodvarn_open(&a, NULL, "\xff", 1) == LODVARN_NOT_UTF8 && a == garbage);
    SEE(lodvarn_open(&a, NULL, "a", 1) == LODVARN_DONE && a != garbage && lodvarn_pos(a) == 1);
    SEE(lodvarn_open(&b, NULL, NULL, 0) == LODVARN_DONE && b != a && b != garbage && !lodvarn_pos(b));
    SEE(lodvarn_kill(a, lodvarn_whole_text()) == LODVARN_DONE && lodvarn_yank(b, 1) == LODVARN_NOTHING);
    lodvarn_close(&a);
    SEE(a == NULL && lodvarn_paste(b, "xy", 2, 1) == LODVARN_DONE_AT_END);
    lodvarn_close(&a);
    lodvarn_close(NULL);
    SEE(a == NULL && lodvarn_text(b, &text) == LODVARN_DONE && is(text, "xy"));
    lodvarn_close(&b);
    SEE(b == NULL);
}

void options_are_chosen(void) {
    static const lodvarn_options defaults = LODVARN_OPTIONS,
                                 first = {sizeof first, 64, 5, 90, 3, 9, 65535, Z, false},
                                 second = {sizeof second, LODVARN_NO_LIMIT, LODVARN_NO_BOUND, 0,
                                           2, LODVARN_NO_BOUND, 0, W, true};
    lodvarn_close(&s);
    SEE(defaults.size == sizeof defaults && LODVARN_UNICODE == 0);
    SEE(defaults.mode == LODVARN_UNICODE && defaults.prompt == 0 && defaults.limit == LODVARN_NO_LIMIT);
    SEE(defaults.max_entries == LODVARN_NO_BOUND && defaults.max_bytes == LODVARN_NO_BOUND);
    SEE(defaults.max_ring_bytes == LODVARN_NO_BOUND && !defaults.keep_undone && defaults.ring_size == 60);
    SEE(lodvarn_open(&s, NULL, "ab", 2) == LODVARN_DONE && has_chosen(&defaults));
    lodvarn_close(&s);
    SEE(lodvarn_open(&s, &first, "ab", 2) == LODVARN_DONE && has_chosen(&first));
    SEE(lodvarn_set_options(s, &second) == LODVARN_DONE && has_chosen(&second));
    SEE(lodvarn_set_options(s, &first) == LODVARN_DONE && has_chosen(&first));
    DOES(DONE, lodvarn_restart(s, "", 0), "|");
    add_each("abcd");
    DOES(DONE, lodvarn_undo_boundary(s), "|#d#c#b");
    SEE(has_chosen(&first));
}

void options_take_effect(void) {
    open_at("abcd\nefg|h", 64);
    DOES(DONE, SET(prompt, 2), "abcd\nefg|h");
    DOES(DONE, lodvarn_move(s, lodvarn_lines_up(1)), "a|bcd\nefgh");
    DOES(DONE, lodvarn_move(s, lodvarn_lines_down(1)), "abcd\nefg|h");
    DOES(DONE, lodvarn_restart(s, "ab\nc", 4), "ab\nc|");
    DOES(DONE, lodvarn_move(s, lodvarn_lines_up(1)), "|ab\nc");
    open_at("abc|", 3);
    DOES(NO_ROOM, lodvarn_insert(s, 'd', 1), "abc|");
    DOES(DONE, SET(limit, 4), "abc|");
    DOES(DONE_AT_END, lodvarn_insert(s, 'd', 1), "abcd|");
    SEE(SET(limit, 3) == LODVARN_NO_ROOM && chosen().limit == 4);
    SEE(SET(limit, LODVARN_NO_LIMIT) == LODVARN_DONE && lodvarn_insert(s, 'e', 60000) == LODVARN_DONE_AT_END);
    open_at("|", LODVARN_NO_LIMIT);
    DOES(DONE, SET(max_entries, 2), "|");
    for (const char *c = "-+*"; *c; c++) lodvarn_insert(s, (uint32_t)*c, 1);
    SEE(lodvarn_record_entries(s) == 2 && SET(max_bytes, 1) == LODVARN_DONE && lodvarn_record_entries(s) == 1);
    DOES(DONE, lodvarn_undo(s, 9), "-+|");
    SEE(!lodvarn_can_undo(s) && SET(max_bytes, LODVARN_NO_BOUND) == LODVARN_DONE);
    SET(max_entries, LODVARN_NO_BOUND);
    for (const char *c = "-+*"; *c; c++) lodvarn_insert(s, (uint32_t)*c, 1);
    SEE(lodvarn_record_entries(s) == 3);
    open_at("abcd|", 64);
    DOES(DONE, SET(max_ring_bytes, 4), "abcd|");
    DOES(DONE, add_to_ring("x"), "abcd|#x");
    DOES(DONE, add_to_ring("yz"), "abcd|#yz#x");
    DOES(DONE, add_to_ring("w"), "abcd|#w#yz#x");
    DOES(DONE_AT_END, lodvarn_yank(s, 1), "abcdw|#w#yz#x");
    DOES(DONE_AT_END, lodvarn_yank_pop(s), "abcdyz|#yz#x#w");
    DOES(DONE, SET(max_ring_bytes, 3), "abcdyz|#yz#w");
    DOES(DONE_AT_END, lodvarn_yank_pop(s), "abcdw|#w#yz");
    DOES(DONE, lodvarn_kill(s, WORD_BACK), "|");
    DOES(DONE, SET(max_ring_bytes, LODVARN_NO_BOUND), "|");
}

void a_session_begins_anew(void) {
    open_at("one two|", 8);
    lodvarn_kill(s, WORD_BACK);
    lodvarn_insert(s, 'x', 1);
    SEE(changed_is(4, 7, 5));
    DOES(DONE, lodvarn_restart(s, "né", 3), "né|#two");
    SEE(changed_is(0, 5, 3) && lodvarn_record_entries(s) == 0);
    DOES(NOTHING, lodvarn_undo(s, 1), "né|");
    DOES(NOTHING, lodvarn_redo(s), "né|");
    lodvarn_set_pos(s, 1);
    DOES(DONE, lodvarn_yank(s, 1), "ntwo|é");
    DOES(DONE, lodvarn_undo(s, 9), "n|é");
    lodvarn_yank(s, 1);
    DOES(DONE, lodvarn_restart(s, "one", 3), "one|");
    SEE(!lodvarn_last_was_yank(s));
    DOES(NOTHING, lodvarn_yank_pop(s), "one|");
    DOES(DONE, lodvarn_kill(s, WORD_BACK), "|#one#two");
    DOES(DONE, lodvarn_restart(s, "four", 4), "four|#one#two");
    DOES(DONE, lodvarn_kill(s, WORD_BACK), "|#four#one#two");
    SEE(lodvarn_restart(s, "", 0) == LODVARN_DONE && chosen().limit == 8);
}

/* A copy of the bytes of a session, to be freed. */
static char *saved(size_t *len) {
    lodvarn_view bytes = {NULL, 0};
    SEE(lodvarn_save(s, &bytes) == LODVARN_DONE);
    char *copied = malloc(*len = bytes.len);
    must(copied != NULL);
    return memcpy(copied, bytes.at, bytes.len);
}

/* Prints all that the reads tell of a session. */
static void print_all(FILE *to) {
    options = chosen();
    fprintf(to, "%zu %zu ", lodvarn_record_entries(s), lodvarn_group_level(s));
    fprintf(to, "%d %d ", lodvarn_can_undo(s), lodvarn_can_redo(s));
    fprintf(to, "%d %d ", lodvarn_is_saved(s), lodvarn_last_was_yank(s));
    fprintf(to, "%d %zu %zu ", options.keep_undone, options.limit, options.ring_size);
    fprintf(to, "%d %zu ", options.mode, options.prompt);
    fprintf(to, "%zu %zu %zu ", options.max_entries, options.max_bytes, options.max_ring_bytes);
    print_ring(to);
    fputc('\n', to);
}

/* What each line prints, and what the reads tell after it: of those with a ; between them, and of some more; to be
 * freed. */
static char *printed_on(const char *lines) {
    char copy[256], *printed = malloc(PRINTED);
    FILE *to = tmpfile();
    must(printed && to);
    print_all(to);
    snprintf(copy, sizeof copy, "%s;where;redo;undo 1;end;undo 1;undo 9;redo;redo;redo;redo;yank 1;yankpop", lines);
    for (char *line = strtok(copy, ";"); line; line = strtok(NULL, ";")) {
        fprintf(to, "%s", run(line));
        print_all(to);
    }
    return printed_in(to, printed, PRINTED);
}

/* What is done before a session is saved, and after it. The text is "one two", with the cursor at its end;
 * lodvarn_mark_saved comes after the first line. */
static const char *const kept[][2] = {
    {"where", "ins 1 x"},
    {"ins 1 x;ins 1 y", "ins 1 z"},
    {"ins 1 x;part", "ins 1 z"},
    {"kill bword 1 emacs", "kill bword 1 emacs"},
    {"kill bword 1 emacs;where;kill bword 1 emacs;yank 2", "yankpop;yankpop"},
    {"rep 0 3 " FAMILY ";pos 0;ins 1 é;undo 1", "redo"},
    {"pos 2;begin;rep 4 5 T;ins 1 \\u{1f680};begin;back 1", "ins 1 z;end;endone"},
    {"begin;str 0 " FLAGS ";ins 1 x;endone;undo 1;undo 9", "reopen;redo"},
    {"begin;ins 1 x;back 1;endone", "reopen;ins 1 y"},
    {"begin;ins 1 x;begin;killline;undo 1", "abandon"},
};

void a_session_is_saved_and_loaded(void) {
    for (size_t i = 0; i < COUNT(kept); i++) {
        char lines[128], *bytes, *again, *wanted;
        size_t len, len_again;
        lodvarn *loaded = NULL;
        lodvarn_splice change;
        begin_script();
        run("text one two");
        must(SET(mode, Z) > 0 && SET(prompt, 7) > 0 && SET(max_entries, 90 + i) > 0 && SET(max_ring_bytes, 80 + i) > 0);
        must(SET(limit, 500 + i) > 0 && SET(keep_undone, i % 4 == 1) > 0);
        must(i % 3 || lodvarn_watch(s, 1, 0) > 0);
        for (char *line = strtok(strcpy(lines, kept[i][0]), ";"); line; line = strtok(NULL, ";")) {
            run(line);
            if (line == lines) lodvarn_mark_saved(s);
        }
        bytes = saved(&len);
        wanted = printed_on(kept[i][1]);
        if (!see(kept[i][0], lodvarn_load(&loaded, bytes, len) == LODVARN_DONE)) return;
        lodvarn_close(&s);
        script_session.s = s = loaded;
        SEE(lodvarn_take_change(s, &change) == LODVARN_NOTHING && lodvarn_report_count(s) == 0);
        again = saved(&len_again);
        SEE(len_again == len && !memcmp(again, bytes, len));
        see_printed(kept[i][0], printed_on(kept[i][1]), wanted);
        SEE(lodvarn_watch(s, 1, 0) == LODVARN_DONE);
        free(bytes), free(again), free(wanted);
    }
}

/* With ample memory a session of any size is saved and loaded, with any limit and any bound. */
void great_sessions_are_saved_and_loaded(void) {
    enum { GREAT = 1 << 20, ENTRIES = 2000 };
    static char great[GREAT];
    size_t len, len_again;
    memset(great, 'a', GREAT);
    lodvarn_close(&s);
    options = (lodvarn_options)LODVARN_OPTIONS;
    options.limit = options.max_ring_bytes = (size_t)1 << 40;
    must(lodvarn_open(&s, &options, great, GREAT) > 0);
    for (size_t i = 0; i < ENTRIES; i++) must(lodvarn_insert(s, '-', 1) > 0);
    char *bytes = saved(&len);
    lodvarn_close(&s);
    must(lodvarn_load(&s, bytes, len) == LODVARN_DONE);
    char *again = saved(&len_again);
    SEE(len_again == len && !memcmp(again, bytes, len));
    SEE(lodvarn_record_entries(s) == ENTRIES && has_chosen(&options));
    free(bytes), free(again);
}

/* A ring that gets smaller drops its oldest texts, and one that gets larger has room for more, also once it is loaded.
 */
void the_ring_is_resized(void) {
    for (int is_loaded = 0; is_loaded < 2; is_loaded++) {
        open_at("|", 64);
        add_each("abcd");
        if (is_loaded) {
            size_t len;
            char *bytes = saved(&len);
            lodvarn_close(&s);
            must(lodvarn_load(&s, bytes, len) > 0);
            free(bytes);
        }
        DOES(DONE, SET(ring_size, 3), "|#d#c#b");
        DOES(DONE, SET(ring_size, 4), "|#d#c#b");
        DOES(DONE, (add_to_ring("e"), add_to_ring("f")), "|#f#e#d#c");
        DOES(DONE_AT_END, (lodvarn_yank(s, 1), lodvarn_yank_pop(s)), "e|#e#d#c#f");
        DOES(DONE, SET(ring_size, 2), "e|#e#f");
        DOES(DONE_AT_END, lodvarn_yank_pop(s), "f|#f#e");
        DOES(DONE_AT_END, lodvarn_yank_pop(s), "e|#e#f");
        DOES(DONE, SET(ring_size, 1), "e|#f");
        DOES(NOTHING, lodvarn_yank_pop(s), "e|#f");
        DOES(DONE, SET(ring_size, 0), "e|");
        DOES(DONE, lodvarn_kill(s, WORD_BACK), "|");
        DOES(DONE, SET(ring_size, LODVARN_NO_BOUND), "|");
        DOES(DONE, add_to_ring("g"), "|#g");
    }
}

/* Bytes of which no session is loaded, from a block of just their length. */
static void refuse_bytes(const char *bytes, size_t len, int wanted) {
    char *copy = malloc(len + !len);
    lodvarn *out = s;
    must(copy != NULL);
    memcpy(copy, bytes, len);
    int answer = lodvarn_load(&out, copy, len);
    if (!SEE(answer == wanted && out == s)) printf("  %s of %zu bytes\n", lodvarn_answer_name(answer), len);
    free(copy);
}

void damaged_bytes_are_not_loaded(void) {
    enum { HEADING = 8 };
    size_t len;
    open_at("one |two", 64);
    lodvarn_kill(s, WORD_BACK), lodvarn_insert(s, 0x1f680, 1), lodvarn_undo(s, 1), lodvarn_begin_group(s);
    char *bytes = saved(&len);
    for (size_t i = 0; i < len; i++) {
        int wanted = i < HEADING ? LODVARN_UNKNOWN_FORMAT : LODVARN_DAMAGED;
        refuse_bytes(bytes, i, wanted);
        for (int bit = 0; bit < 8; bytes[i] ^= (char)(1 << bit++)) {
            bytes[i] ^= (char)(1 << bit);
            refuse_bytes(bytes, len, wanted);
        }
    }
    must((bytes = realloc(bytes, len + 1)) != NULL);
    bytes[len] = 0;
    refuse_bytes(bytes, len + 1, LODVARN_DAMAGED);
    free(bytes);
}
