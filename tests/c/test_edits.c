/* Motions and edits: what is inserted and typed, and what each movement means. */
#include "exported.h"
#include "test.h"

/* NOTHING, DONE, DONE_AT_END and NO_ROOM of what inserts at the cursor. */
void insertions_return_where_they_went(void) {
    open_at("|ab", 4);
    DOES(NO_ROOM, lodvarn_insert(s, 0xe9, 2), "|ab");
    DOES(DONE, lodvarn_insert(s, 0xe9, 1), "é|ab");
    DOES(NO_ROOM, lodvarn_insert(s, 'x', 1), "é|ab");
    open_at("ab|", 4);
    DOES(DONE_AT_END, lodvarn_insert(s, 'x', 2), "abxx|");
    open_at("|ab", 6);
    DOES(NOTHING, lodvarn_paste(s, NULL, 0, 1), "|ab");
    DOES(NOTHING, lodvarn_paste(s, "x", 0, 9), "|ab");
    DOES(NO_ROOM, lodvarn_paste(s, "xy", 2, 3), "|ab");
    DOES(DONE, lodvarn_paste(s, "xy", 2, 1), "xy|ab");
    lodvarn_set_pos(s, 4);
    DOES(NO_ROOM, lodvarn_paste(s, "xyz", 3, 1), "xyab|");
    DOES(DONE_AT_END, lodvarn_paste(s, "z", 1, 2), "xyabzz|");
    open_at("|ab", 6);
    DOES(NOTHING, lodvarn_yank(s, 1), "|ab");
    must(add_to_ring("xy") > 0);
    DOES(NO_ROOM, lodvarn_yank(s, 3), "|ab#xy");
    SEE(!lodvarn_last_was_yank(s));
    DOES(DONE, lodvarn_yank(s, 1), "xy|ab#xy");
    lodvarn_set_pos(s, 4);
    DOES(DONE_AT_END, lodvarn_yank(s, 1), "xyabxy|");
    DOES(NO_ROOM, lodvarn_yank(s, 1), "xyabxy|");
    must(add_to_ring("") > 0);
    DOES(NOTHING, lodvarn_yank(s, 1), "xyabxy|##xy");
    open_at("ab|", 6);
    DOES(DONE, lodvarn_insert_at(s, 0, "é", 2), "é|ab");
    DOES(DONE_AT_END, lodvarn_insert_at(s, 4, "é", 2), "é|abé");
}

/* What is typed: the answer, how many bytes are used, or NO, and the text. */
static const struct typing {
    const char *what, *marked, *bytes;
    size_t limit;
    int answer;
    size_t used;
    const char *left;
} typings[] = {
    {"a letter", "|", "a", 64, LODVARN_DONE_AT_END, 1, "a|"},
    {"a letter before another", "|b", "a", 64, LODVARN_DONE, 1, "a|b"},
    {"characters of all lengths", "|", "aé漢\U0001f680", 64, LODVARN_DONE_AT_END, 10, "aé漢\U0001f680|"},
    {"the last character and the first of four bytes", "|", "\U0010ffff\U00010000", 64, LODVARN_DONE_AT_END, 8,
     "\U0010ffff\U00010000|"},
    {"around the surrogates", "|x", "\ud7ff\ue000", 64, LODVARN_DONE, 6, "\ud7ff\ue000|x"},
    {"a mark alone", "e|", "\u0301", 64, LODVARN_DONE_AT_END, 2, "e\u0301|"},
    {"control characters", "|", "\t\r\n\1\177", 64, LODVARN_DONE_AT_END, 5, "\t\r\n\1\177|"},
    {"half a character", "|a", "\xe6\x97", 64, LODVARN_NOTHING, NO, "|a"},
    {"three quarters", "a|", "\xf0\x9f\x9a", 64, LODVARN_NOTHING, NO, "a|"},
    {"nothing", "a|", "", 64, LODVARN_NOTHING, NO, "a|"},
    {"no UTF-8 first", "a|", "\xff" "ab", 64, LODVARN_NOT_UTF8, NO, "a|"},
    {"no UTF-8 after letters", "|", "ab\xff" "c", 64, LODVARN_DONE_AT_END, 2, "ab|"},
    {"a continuation after a character", "|", "é\xa9" "c", 64, LODVARN_DONE_AT_END, 2, "é|"},
    {"the first of these", "|", "\xc1", 64, LODVARN_NOT_UTF8, NO, "|"},
    {"three bytes for two", "|", "\xe0\x9f", 64, LODVARN_NOT_UTF8, NO, "|"},
    {"four bytes for three", "|", "\xf0\x8f", 64, LODVARN_NOT_UTF8, NO, "|"},
    {"two bytes of one", "|", "\xed\xa0", 64, LODVARN_NOT_UTF8, NO, "|"},
    {"the first byte of one, and of others", "|", "\xed", 64, LODVARN_NOTHING, NO, "|"},
    {"the first byte of five", "|", "\xf8", 64, LODVARN_NOT_UTF8, NO, "|"},
    {"a letter and room for none", "ab|", "c", 2, LODVARN_NO_ROOM, NO, "ab|"},
    {"letters and room for some", "ab|", "cde", 4, LODVARN_DONE_AT_END, 2, "abcd|"},
    {"no UTF-8 and no room", "ab|", "\xff", 2, LODVARN_NOT_UTF8, NO, "ab|"},
    {"half a character and no room", "ab|", "\xc3", 2, LODVARN_NOTHING, NO, "ab|"},
    {"a line", "|", "Zwölf Bögen, 12 µm: né_e\u0301 日本\n\U0001f469\u200d\U0001f680.", 64, LODVARN_DONE_AT_END, 50,
     "Zwölf Bögen, 12 µm: né_e\u0301 日本\n\U0001f469\u200d\U0001f680.|"},
};

/* What comes before the typing. */
static void after_nothing(void) {}
static void after_a_letter(void) { lodvarn_insert(s, 'q', 1); }
static void after_a_deletion(void) { lodvarn_insert(s, 'q', 1), lodvarn_backspace(s, 1); }
static void after_an_undo(void) { lodvarn_insert(s, 'q', 1), lodvarn_undo(s, 1); }
static void after_an_undo_that_is_kept(void) { must(SET(keep_undone, true) > 0), after_an_undo(); }
static void after_a_begin(void) { lodvarn_insert(s, 'q', 1), lodvarn_begin_group(s); }
static void after_a_boundary(void) { lodvarn_insert(s, 'q', 1), lodvarn_undo_boundary(s); }
static void after_a_save(void) { lodvarn_insert(s, 'q', 1), lodvarn_mark_saved(s); }
static void after_a_yank(void) { must(add_to_ring("q") > 0), lodvarn_yank(s, 1); }
static void after_a_kill(void) { lodvarn_kill(s, lodvarn_to_line_start()); }
static void with_a_bound(void) { must(SET(max_entries, 2) > 0 && SET(max_bytes, 5) > 0); }
static void (*const befores[])(void) = {
    after_nothing,    after_a_letter, after_a_deletion, after_an_undo, after_an_undo_that_is_kept, after_a_begin,
    after_a_boundary, after_a_save,   after_a_yank,     after_a_kill,  with_a_bound,
};

void what_a_terminal_sends_is_typed(void) {
    for (size_t i = 0; i < COUNT(typings); i++) {
        const struct typing *row = &typings[i];
        size_t used = NO;
        open_at(row->marked, row->limit);
        does(row->what, lodvarn_type(s, row->bytes, strlen(row->bytes), &used), row->answer, row->left);
        see(row->what, used == row->used);
        for (size_t k = 0; row->answer > 0 && row->limit == 64 && k < COUNT(befores); k++) {
            open_at(row->marked, 64);
            befores[k]();
            lodvarn *twin = twin_of(s);
            int answer = lodvarn_type(s, row->bytes, strlen(row->bytes), &used);
            int same = answer == insert_each(twin, row->bytes, row->used);
            if (!see(row->what, same && used == row->used && are_same(s, twin))) printf("  after %zu\n", k);
            lodvarn_insert(s, 'z', 1), lodvarn_insert(twin, 'z', 1);
            see(row->what, are_same(s, twin));
            lodvarn_close(&twin);
        }
    }
    size_t used = NO;
    open_at("|", 64);
    SEE(lodvarn_type(s, "a\0b", 3, &used) == LODVARN_DONE_AT_END && used == 3 && lodvarn_pos(s) == 3);
    open_at("|", 64);
    must(lodvarn_watch(s, 8, 64) == LODVARN_DONE);
    DOES(DONE_AT_END, lodvarn_type(s, "aé\xe6", 4, &used), "aé|");
    REPORTS(9, "CHAR_INSERTED 0 0 1 0 1 a\nCHAR_INSERTED 1 0 2 1 3 é\n");
}

/* A line that comes in pieces is typed as at once: the bytes that were not used are passed again with the next. */
void pieces_are_typed(void) {
    const char *line = typings[COUNT(typings) - 1].bytes;
    size_t len = strlen(line);
    open_at("|", 64);
    lodvarn *whole = twin_of(s);
    must(insert_each(whole, line, len) == LODVARN_DONE_AT_END);
    for (size_t piece = 1; piece <= len; piece++) {
        open_at("|", 64);
        for (size_t from = 0, to = 0, used; to < len;) {
            to = to + piece < len ? to + piece : len;
            used = 0;
            SEE(lodvarn_type(s, line + from, to - from, &used) >= 0);
            from += used;
        }
        if (!SEE(are_same(s, whole))) printf("  in pieces of %zu\n", piece);
    }
    lodvarn_close(&whole);
}

/* A movement to a text: what a motion leaves, or NULL if there is no such text, and what a kill does. Nothing lies
 * between the cursor and a text that begins at it. */
static const struct matched {
    const char *marked, *text, *moved, *killed;
    enum lodvarn_direction direction;
} matched[] = {
    {"|one two one", "two", "one |two one", "|two one#one ", F},
    {"one |two one", "one", "one two |one", "one |one#two ", F},
    {"one two one|", "two", "one |two one", "one |#two one", B},
    {"one two| one", "two", "one |two one", "one | one#two", B},
    {"|aab", "ab", "a|ab", "|ab#a", F},
    {"aaa|", "aa", "a|aa", "a|#aa", B},
    {"|one\ntwo", "two", "one\n|two", "|two#one\n", F},
    {"one\r\ntwo|", "\n", "one\r|\ntwo", "one\r|#\ntwo", B},
    {"日本|語", "日", "|日本語", "|語#日本", B},
    {"|e\u0301x", "\u0301", "e|\u0301x", "|\u0301x#e", F},
    {"|one", "one", "|one", "|one", F},
    {"one two o|ne", "one", "|one two one", "|ne#one two o", B},
    {"on|e", "one", NULL, "on|e", B},
    {"on|e", "one", NULL, "on|e", F},
    {"|one", "x", NULL, "|one", F},
    {"|", "x", NULL, "|", B},
};

void texts_are_moved_to(void) {
    for (size_t i = 0; i < COUNT(matched); i++) {
        const struct matched *row = &matched[i];
        lodvarn_movement by = lodvarn_to_match(row->direction, row->text, strlen(row->text));
        const char *moved = row->moved ? row->moved : row->marked;
        size_t pos = strcspn(row->marked, "|"), to = strcspn(moved, "|"), offset = NO, len = NO;
        int is_there = row->moved != NULL, wanted = pos != to;
        lodvarn_range covered = {NO, NO}, between = pos < to ? range(pos, to) : range(to, pos);
        lodvarn_view slice;
        char deleted[64];
        snprintf(deleted, sizeof deleted, "%.*s", (int)strcspn(row->killed, "#"), row->killed);
        open_at(row->marked, 64);
        SEE(lodvarn_movement_target(s, pos, by, &offset) == is_there && offset == (is_there ? to : NO));
        SEE(lodvarn_movement_range(s, pos, by, &covered) == wanted && covered.from == (wanted ? between.from : NO)
            && covered.to == (wanted ? between.to : NO));
        SEE(lodvarn_copy(s, by, out.text, 0, &len) == (wanted ? LODVARN_TOO_SMALL : LODVARN_NOTHING));
        must(lodvarn_slice(s, between, &slice) > 0);
        SEE(len == (wanted ? slice.len : NO));
        does(row->text, lodvarn_move(s, by), is_there, moved);
        open_at(row->marked, 64);
        does(row->text, lodvarn_kill(s, by), wanted, row->killed);
        if (wanted) does(row->text, lodvarn_undo(s, 1), LODVARN_DONE, row->marked);
        open_at(row->marked, 64);
        does(row->text, lodvarn_delete_by(s, by), wanted, deleted);
        SEE(!lodvarn_ring_count(s));
    }
    open_at("one two three two|", 64);
    DOES(DONE, lodvarn_kill(s, lodvarn_to_match(B, "two", 3)), "one two three |#two");
    DOES(DONE, lodvarn_kill(s, lodvarn_to_match(B, "two", 3)), "one |#two three two");
    lodvarn_yank(s, 1), lodvarn_set_pos(s, 0);
    DOES(DONE, lodvarn_kill(s, lodvarn_to_match(F, " t", 2)), "| two three two#one#two three two");
    DOES(NOTHING, lodvarn_kill(s, lodvarn_to_match(F, " t", 2)), "| two three two#one#two three two");
    DOES(DONE, lodvarn_kill(s, lodvarn_to_match(F, "three", 5)), "|three two#one two #two three two");
}

/* What each movement and number means: a call with it leaves what a line of a script does. */
typedef int meaning(lodvarn_movement by, int number);
static int moves(lodvarn_movement by, int number) { return (void)number, lodvarn_move(s, by); }
static int kills(lodvarn_movement by, int number) { return (void)number, lodvarn_kill(s, by); }
static int deletes(lodvarn_movement by, int number) { return (void)number, lodvarn_delete_by(s, by); }
static int indents(lodvarn_movement by, int number) {
    return lodvarn_indent(s, by, 2, (enum lodvarn_indentation)number);
}
static int changes(lodvarn_movement by, int number) {
    return (void)by, lodvarn_change_case(s, (enum lodvarn_case)number);
}
static int kills_range(lodvarn_movement by, int number) {
    lodvarn_kill(s, by);
    lodvarn_kill_range(s, range(1, 5), (enum lodvarn_direction)number);
    return lodvarn_yank(s, 1);
}

/* What each call left from both offsets of a text on which no two lines of a call do the same. */
static struct { meaning *call; char left[2][80]; } meant[128];
static size_t meanings;

/* Also, but for motions, no other movement or number of the same call leaves that. */
static void mean(meaning *call, lodvarn_movement by, int number, const char *format, const char *a, const char *b) {
    static const char text[] = "text   x One\\nx-two\\n two_x/y z,x aB b_c,d e.f x\\n3x\\n4\\n5";
    static const char *const offsets[] = {"pos 26", "pos 28"};
    char line[64], script[256];
    size_t me = meanings++;
    int apart = 1;
    must(me < COUNT(meant));
    meant[me].call = call;
    snprintf(line, sizeof line, format, a, b);
    for (size_t k = 0; k < 2; k++) {
        begin_script();
        run(text), run(offsets[k]);
        call(by, number);
        const char *shown = run("limit 4096");
        must(strlen(shown) < sizeof meant[me].left[k]);
        strcpy(meant[me].left[k], shown);
        snprintf(script, sizeof script, "%s\n%s\n%s\nlimit 4096\n", text, offsets[k], line);
        char *printed = printed_at_once(script), *last = printed + strlen(printed) - strlen(shown);
        if (!see(line, last > printed && !strcmp(last, shown))) printf("  left %s, not %s", shown, printed);
        free(printed);
    }
    for (size_t j = 0; j < me; j++)
        if (call == meant[j].call && !memcmp(meant[me].left, meant[j].left, sizeof meant[me].left)) apart = 0;
    see(line, apart || call == moves);
}

void movements_mean_what_they_say(void) {
    static const struct { int number; const char *name; } names[] = {
        {LODVARN_BIG, "big"}, {LODVARN_EMACS, "emacs"}, {LODVARN_VI, "vi"}, {LODVARN_AT_START, "start"},
        {LODVARN_BEFORE_END, "before"}, {LODVARN_AFTER_END, "after"}, {LODVARN_TO, "f"}, {LODVARN_TO_BEFORE, "t"},
        {LODVARN_BACK_TO, "F"}, {LODVARN_BACK_TO_AFTER, "T"},
    }, *words = names, *stops = names + 3, *searches = names + 6;
    for (size_t i = 0; i < 3; i++) {
        lodvarn_movement by = lodvarn_words_back((enum lodvarn_word)words[i].number, 2);
        mean(kills, by, 0, "kill bword 2 %s", words[i].name, "");
        mean(moves, by, 0, "move bword 2 %s", words[i].name, "");
        mean(deletes, by, 0, "prevword 2 %s", words[i].name, "");
        for (size_t k = 0; k < 3; k++) {
            by = lodvarn_words_forward((enum lodvarn_word)words[i].number, (enum lodvarn_stop)stops[k].number, 2);
            mean(kills, by, 0, "kill fword 2 %s %s", stops[k].name, words[i].name);
            mean(moves, by, 0, "move fword 2 %s %s", stops[k].name, words[i].name);
            mean(deletes, by, 0, "nextword 2 %s %s", stops[k].name, words[i].name);
        }
    }
    for (size_t i = 0; i < 4; i++) {
        lodvarn_movement by = lodvarn_to_char((enum lodvarn_search)searches[i].number, 'x', 2);
        mean(kills, by, 0, "kill find 2 %s x", searches[i].name, "");
        mean(moves, by, 0, "move find 2 %s x", searches[i].name, "");
        mean(deletes, by, 0, "to 2 %s x", searches[i].name, "");
    }
    const struct { lodvarn_movement by; const char *name; } others[] = {
        {lodvarn_whole_line(), "line"},       {lodvarn_to_line_start(), "home"},  {lodvarn_to_line_end(), "eol"},
        {lodvarn_chars_back(2), "bchar 2"},   {lodvarn_chars_forward(2), "fchar 2"},
        {lodvarn_lines_up(2), "up 2"},        {lodvarn_lines_down(2), "down 2"},  {lodvarn_whole_text(), "buf"},
        {lodvarn_to_text_start(), "bob"},     {lodvarn_to_text_end(), "eob"},
        {lodvarn_to_first_nonblank(), "nonblank"},
        {lodvarn_whole_lines_up(2), "linesup 2"}, {lodvarn_whole_lines_down(2), "lines 2"},
    };
    for (size_t i = 0; i < COUNT(others); i++) {
        mean(kills, others[i].by, 0, "kill %s", others[i].name, "");
        mean(moves, others[i].by, 0, "move %s", others[i].name, "");
    }
}

/* The library makes the movements that the header makes. */
void movements_are_exported(void) {
    size_t row = 0;
#define ROW_(name, given)                                                                                    \
    {                                                                                                        \
        lodvarn_movement inlined = lodvarn_##name given, it = exported(row++);                               \
        see("lodvarn_" #name #given, it.kind == inlined.kind && it.c == inlined.c && it.n == inlined.n       \
            && it.len == inlined.len && !it.text == !inlined.text                                            \
            && (!it.len || !memcmp(it.text, inlined.text, it.len)));                                         \
    }
    MOVEMENTS(ROW_)
    SEE(row == 26 && exported(row).kind == 0);
}

void numbers_mean_what_they_say(void) {
    mean(deletes, lodvarn_to_line_end(), 0, "killline", "", "");
    mean(deletes, lodvarn_to_text_end(), 0, "killbuf", "", "");
    mean(deletes, lodvarn_to_line_start(), 0, "discline", "", "");
    mean(deletes, lodvarn_to_text_start(), 0, "discbuf", "", "");
    mean(changes, lodvarn_whole_text(), LODVARN_CAPITALIZE, "case cap", "", "");
    mean(changes, lodvarn_whole_text(), LODVARN_LOWERCASE, "case low", "", "");
    mean(changes, lodvarn_whole_text(), LODVARN_UPPERCASE, "case up", "", "");
    mean(indents, lodvarn_whole_text(), LODVARN_INDENT, "indent 2 buf", "", "");
    mean(indents, lodvarn_whole_text(), LODVARN_DEDENT, "dedent 2 buf", "", "");
    mean(kills_range, lodvarn_to_line_end(), LODVARN_FORWARD, "kill eol\nkillrange 1 5 f\nyank 1", "", "");
    mean(kills_range, lodvarn_to_line_end(), LODVARN_BACKWARD, "kill eol\nkillrange 1 5 b\nyank 1", "", "");
}
