/* random SEED LINES SCRIPT ANSWERS: makes a script of random lines, runs each by the typed calls, and writes the
 * script, and what the calls returned in the form in which a script prints it. What a script has no word for, typed
 * bytes and the search for a text, is done in a twin of the session, and by lines of the script in the session. */
#include "chance.h"
#include "see.h"
#include "typed.h"
#include <stdarg.h>

enum { ROOM = 1 << 14 };

static char line[1024];

static void add(const char *format, ...) {
    size_t len = strlen(line);
    va_list given;
    va_start(given, format);
    vsnprintf(line + len, sizeof line - len, format, given);
    va_end(given);
}

/* A count of 0 means something in a script alone. */
static unsigned count(void) {
    static const unsigned counts[] = {1, 1, 1, 1, 2, 2, 3, 5, 65535};
    return ONE_OF(counts);
}

static unsigned length(struct typed *t) {
    lodvarn_view text;
    lodvarn_text(t->s, &text);
    return (unsigned)text.len;
}

/* Mostly an offset of the text, now and then one past its end. */
static unsigned offset(struct typed *t) { return below(length(t) + 2); }

static void add_char(void) {
    static const char *const chars[] = {
        "a", "b", "c", "Z", "7", "_", ".", "/", "\\s", "\\s", "\\n", "\\t", "\\r", "\\\\", "é", "ß", "δ", "漢", "ǆ",
        "\\u{301}", "\\u{200d}", "\\u{1f469}", "\\u{1f680}", "\\u{fe0f}", "\\u{1f1e9}", "\\u{1f1ea}", "\\u{3000}",
        "\\u{1100}", "\\u{1161}", "\\u{0}", "\\u{10ffff}",
    };
    add("%s", ONE_OF(chars));
}

static void add_text(void) {
    static const char *const texts[] = {
        "word", "one two", "a\\nb", "\\s\\sx", "foo_bar", "ÉTÉ", "\\u{1f44b}\\u{1f3ff}",
    };
    for (unsigned i = below(4); i > 0; i--) {
        if (below(2)) add_char();
        else add("%s", ONE_OF(texts));
    }
}

static const char *const kinds[] = {"big", "emacs", "vi"};
static const char *const ats[] = {"start", "before", "after"};
static const char *const searches[] = {"f", "t", "F", "T"};

static void add_movement(void) {
    static const char *const plain[] = {"line", "home", "eol", "nonblank", "buf", "bob", "eob"};
    static const char *const counted[] = {"bchar", "fchar", "up", "down", "linesup", "lines"};
    switch (below(8)) {
    case 0: case 1: add(" %s", ONE_OF(plain)); break;
    case 2: case 3: add(" %s %u", ONE_OF(counted), count()); break;
    case 4: add(" bword %u %s", count(), ONE_OF(kinds)); break;
    case 5: case 6: add(" fword %u %s ", count(), ONE_OF(ats)); add("%s", ONE_OF(kinds)); break;
    default: add(" find %u %s ", count(), ONE_OF(searches)); add_char();
    }
}

/* A line that starts over. */
static void add_start(void) {
    static const unsigned limits[] = {0, 3, 20, 100, 300}, rings[] = {0, 1, 2, 5};
    static const char *const modes[] = {"unicode", "wcwidth", "nozwj"};
    switch (below(4)) {
    case 0: add("limit %u", ONE_OF(limits)); break;
    case 1: add("ring %u", ONE_OF(rings)); break;
    case 2: add("mode %s", ONE_OF(modes)); break;
    default: add("text "); add_text();
    }
}

/* A line that inserts or replaces something. */
static void add_insertion(struct typed *t) {
    unsigned from = offset(t);
    switch (below(8)) {
    case 0: add("paste %u ", count()); add_text(); break;
    case 1: add("str %u ", from); add_text(); break;
    case 2: add("rep %u %u ", from, from + below(4)); add_text(); break;
    case 3:
        if (below(8)) { add("indent %u", below(4)); add_movement(); }
        else { add("update %u ", below(6)); add_text(); }
        break;
    default: add("ins %u ", count()); add_char();
    }
}

/* A line that deletes something. */
static void add_deletion(struct typed *t) {
    static const char *const whole[] = {"killline", "killline", "discline", "discline", "killbuf", "discbuf"};
    unsigned from = offset(t);
    switch (below(11)) {
    case 0: add("range %u %u", from, from + below(4)); break;
    case 10: add("killrange %u %u %s", from, from + below(4), below(2) ? "f" : "b"); break;
    case 1: add("del %u", count()); break;
    case 2: add("back %u", count()); break;
    case 3: add("%s", ONE_OF(whole)); break;
    case 4: add("prevword %u %s", count(), ONE_OF(kinds)); break;
    case 5: add("nextword %u %s ", count(), ONE_OF(ats)); add("%s", ONE_OF(kinds)); break;
    case 6: add("to %u %s ", count(), ONE_OF(searches)); add_char(); break;
    case 7: add("dedent %u", below(4)); add_movement(); break;
    default: add("kill"); add_movement();
    }
}

/* A yank-pop, if it surely has room: without room a script deletes what was yanked, and lodvarn_yank_pop changes
 * nothing. */
static void add_yank_pop(struct typed *t) {
    lodvarn_view older = {NULL, 0};
    lodvarn_options options = LODVARN_OPTIONS;
    lodvarn_ring_text(t->s, lodvarn_ring_count(t->s) > 1, &older);
    lodvarn_get_options(t->s, &options);
    add(length(t) + older.len <= options.limit ? "yankpop" : "where");
}

/* Whether a yank was popped. A call makes one unit of both, and puts a new kill elsewhere than a script. So another
 * yank-pop may come, and then a text begins anew. */
static int popped;

/* An undo that goes the same way in a script, which does not stay in a group. */
static void add_undo(struct typed *t) {
    if (!lodvarn_group_level(t->s)) add("undo %u", count() % 9);
    else add(lodvarn_can_undo(t->s) ? "undo 1" : "where");
}

/* A begin, end or abandon of a group that drops what was undone also by a call, if something was: of no empty group. */
static void add_mark(struct typed *t) {
    static const char *const marks[] = {"begin", "begin", "end", "endone", "endone", "abandon"};
    const char *mark = ONE_OF(marks);
    int empty = *mark == 'b' || !lodvarn_group_level(t->s) || !lodvarn_can_undo(t->s);
    add("%s", empty && lodvarn_can_redo(t->s) ? "where" : mark);
}

/* Any other line. */
static void add_other(struct typed *t) {
    static const char *const plain[] = {"tchars", "part", "redo", "redo", "reopen", "where"};
    static const char *const cases[] = {"cap", "low", "up"};
    switch (below(17)) {
    case 16: case 15: add_mark(t); break;
    case 14: add_yank_pop(t); break;
    case 13: add("keep "); add_text(); break;
    case 0: add("pos %u", offset(t)); break;
    case 1: add("move"); add_movement(); break;
    case 2: add("copy"); add_movement(); break;
    case 3: add("case %s", ONE_OF(cases)); break;
    case 4: add("twords %u", count()); break;
    case 5: add("yank %u", 1 + below(2)); break;
    case 6: add_undo(t); break;
    case 7: add("trunc %u", below((unsigned)lodvarn_record_entries(t->s) + 2)); break;
    default: add("%s", ONE_OF(plain));
    }
}

/* A line for the session as it is: a text that grew long is replaced. */
static void make_line(struct typed *t) {
    line[0] = 0;
    if (popped && lodvarn_last_was_yank(t->s) && below(2)) { add_yank_pop(t); return; }
    if (popped || length(t) > 400) { add("text "); add_text(); return; }
    unsigned which = below(100);
    if (lodvarn_last_was_yank(t->s) && which < 50) add_yank_pop(t);
    else if (which < 2) add_start();
    else if (which < 38) add_insertion(t);
    else if (which < 62) add_deletion(t);
    else add_other(t);
}

/* Whether the line is an edit of several changes, but a yank-pop. */
static int is_several(void) {
    static const char *const words[] = {"update ", "tchars", "twords ", "case ", "indent ", "dedent "};
    for (size_t i = 0; i < COUNT(words); i++)
        if (!strncmp(line, words[i], strlen(words[i]))) return 1;
    return 0;
}

/* Writes what was printed to a temporary file, if there is a file for it, and closes that. */
static void hand_on(FILE *printed, FILE *to) {
    rewind(printed);
    for (int c; to && (c = getc(printed)) != EOF;) putc(c, to);
    fclose(printed);
}

/* Whether the line is an indent or a dedent that changes nothing, of which a script says that it is done. It is a motion
 * that leads nowhere, which is tried in a twin. */
static int is_idle(struct typed *t, int *agrees) {
    if (strncmp(line, "indent ", 7) && strncmp(line, "dedent ", 7)) return 0;
    struct typed twin = *t;
    FILE *said = tmpfile();
    must(said != NULL);
    twin.s = twin_of(t->s);
    typed_line(&twin, line, said);
    rewind(said);
    int is = getc(said) == 'f';
    fclose(said);
    lodvarn *moved = twin_of(t->s);
    *agrees = !is || (lodvarn_set_pos(moved, lodvarn_pos(moved)) > 0 && are_same(moved, twin.s));
    lodvarn_close(&moved), lodvarn_close(&twin.s);
    return is;
}

/* Runs the line, and writes it and what it prints. If a call made a group of its changes, they stand in one in the
 * script, and one that stands alone is parted there from what was before. */
static void run_line(struct typed *t, FILE *script, FILE *answers) {
    size_t entries = lodvarn_record_entries(t->s);
    popped = strncmp(line, "text ", 5) && (popped || (!strcmp(line, "yankpop") && lodvarn_last_was_yank(t->s)));
    if (!is_several()) {
        fprintf(script, "%s\n", line);
        typed_line(t, line, answers);
        return;
    }
    FILE *before = tmpfile(), *said = tmpfile();
    must(before && said);
    typed_state(t, before);
    typed_line(t, line, said);
    size_t more = lodvarn_record_entries(t->s) - entries;
    fprintf(script, more > 1 ? "begin\n%s\nendone\n" : more ? "part\n%s\n" : "%s\n", line);
    if (more > 1) fprintf(answers, "mark:%zu", entries);
    else if (more) fputs("ok", answers);
    hand_on(before, more ? answers : NULL);
    hand_on(said, answers);
    if (more > 1) fputs("true", answers), typed_state(t, answers);
}

/* Some characters: their bytes, and for each a line of a script that inserts it. */
struct chars { char bytes[64]; size_t len; char lines[8][32]; unsigned count; };

static struct chars some_chars(void) {
    static const struct { const char *bytes, *written; } chars[] = {
        {"a", "a"}, {"b", "b"}, {"Z", "Z"}, {"7", "7"}, {"_", "_"}, {" ", "\\s"}, {"\n", "\\n"}, {"\r", "\\r"},
        {"é", "é"}, {"漢", "漢"}, {"\u0301", "\\u{301}"}, {"\u200d", "\\u{200d}"}, {"\U0001f469", "\\u{1f469}"},
        {"\U0010ffff", "\\u{10ffff}"},
    };
    struct chars made = {{0}, 0, {{0}}, 0};
    for (unsigned count = below(8); made.count < count; made.count++) {
        unsigned which = below(COUNT(chars));
        made.len += (size_t)sprintf(made.bytes + made.len, "%s", chars[which].bytes);
        sprintf(made.lines[made.count], "ins 1 %s", chars[which].written);
    }
    return made;
}

/* Types some bytes in a twin, and inserts their characters in the session, up to the first that has no room. */
static int type_beside(struct typed *t, FILE *script, FILE *answers) {
    static const struct { const char *bytes; int answer; } ends[] = {
        {"", LODVARN_NOTHING}, {"\xc3", LODVARN_NOTHING}, {"\xe6\x97", LODVARN_NOTHING},
        {"\xf0\x9f\x91", LODVARN_NOTHING}, {"\xff", LODVARN_NOT_UTF8}, {"\x80", LODVARN_NOT_UTF8},
        {"\xed\xa0\x80", LODVARN_NOT_UTF8}, {"\xe6" "a", LODVARN_NOT_UTF8},
    };
    struct chars made = some_chars();
    unsigned end = below(COUNT(ends));
    lodvarn_options options = LODVARN_OPTIONS;
    lodvarn *twin = twin_of(t->s);
    size_t used = 0, wanted = 0, from = lodvarn_pos(t->s);
    int answer;
    lodvarn_get_options(t->s, &options);
    strcpy(made.bytes + made.len, ends[end].bytes);
    answer = lodvarn_type(twin, made.bytes, strlen(made.bytes), &used);
    int model = made.count ? LODVARN_NO_ROOM : ends[end].answer;
    for (unsigned i = 0; i < made.count; i++, wanted = lodvarn_pos(t->s) - from) {
        if (length(t) + utf8_length(made.bytes + wanted) > options.limit) break;
        fprintf(script, "%s\n", made.lines[i]);
        typed_line(t, made.lines[i], answers);
        model = lodvarn_pos(t->s) == length(t) ? LODVARN_DONE_AT_END : LODVARN_DONE;
    }
    int same = answer == model && used == wanted && (answer <= 0 || are_same(t->s, twin));
    lodvarn_close(&twin);
    return same;
}

/* Sets the range to where the text is, by comparing it at each offset. Returns whether it is there. */
static int search(lodvarn_view in, size_t from, const char *text, size_t len, int is_ahead, lodvarn_range *range) {
    for (size_t n = 0; len && n <= in.len; n++) {
        size_t at = is_ahead ? from + n : from - len - n;
        if (is_ahead ? at + len > in.len : n + len > from) return 0;
        *range = (lodvarn_range){at, at + len};
        if (!memcmp(in.at + at, text, len)) return 1;
        *range = (lodvarn_range){0, 0};
    }
    return 0;
}

/* A text to search for: often one of the text. */
static size_t add_needle(lodvarn_view in, char needle[64]) {
    size_t from = below((unsigned)in.len + 1), to;
    while (from > 0 && (in.at[from] & 0xc0) == 0x80) from--;
    to = from;
    for (unsigned n = below(4); n && to < in.len; n--) to += utf8_length(in.at + to);
    if (to == from || to - from > 60 || !below(4)) return (size_t)sprintf(needle, "%s", some_chars().bytes);
    memcpy(needle, in.at + from, to - from);
    return to - from;
}

/* Whether a text is found from an offset as by the model. The offset may be none. */
static int find_agrees(lodvarn *s, lodvarn_view in, const char *text, size_t len, enum lodvarn_direction direction) {
    size_t from = below((unsigned)in.len + 2);
    lodvarn_range model = {0, 0}, got = model;
    int is_bad = from > in.len || (in.at[from] & 0xc0) == 0x80;
    int is_there = !is_bad && search(in, from, text, len, direction == LODVARN_FORWARD, &model);
    int answer = lodvarn_find(s, from, text, len, direction, &got);
    return answer == (is_bad ? LODVARN_BAD_OFFSET : is_there) && got.from == model.from && got.to == model.to;
}

/* Moves to a text, or kills, deletes or copies up to it in a twin, and in the session by the line that does so by
 * offsets: one that only ends a run of kills if nothing lies between. */
static int go_beside(struct typed *t, lodvarn_movement by, int is_there, lodvarn_range covered, int is_ahead) {
    static char copied[ROOM];
    size_t pos = lodvarn_pos(t->s), len = 0;
    int which = is_there ? (int)below(4) : 0, is_empty = !is_there || covered.from == covered.to;
    line[0] = 0;
    if (which == 0) add("pos %zu", !is_there ? pos : is_ahead ? covered.to : covered.from);
    else if (which == 1) add("killrange %zu %zu %s", covered.from, covered.to, is_ahead ? "f" : "b");
    else if (which == 2 && !is_empty) add("range %zu %zu", covered.from, covered.to);
    else add("where");
    int answer = which == 0 ? lodvarn_move(t->s, by) : which == 1 ? lodvarn_kill(t->s, by)
        : which == 2 ? lodvarn_delete_by(t->s, by) : lodvarn_copy(t->s, by, copied, ROOM, &len);
    return answer == (which == 0 ? is_there : !is_empty) && (which < 3 || is_empty || len == covered.to - covered.from);
}

/* Searches for a text, from an offset and by a movement. */
static int find_beside(struct typed *t, FILE *script, FILE *answers) {
    static char whole[ROOM];
    char needle[64];
    lodvarn_view in = {"", 0};
    lodvarn_range model = {0, 0};
    lodvarn_text(t->s, &in);
    memcpy(whole, in.at, in.len), whole[in.len] = 0, in.at = whole;
    size_t len = add_needle(in, needle), pos = lodvarn_pos(t->s);
    int is_ahead = (int)below(2), is_there = search(in, pos, needle, len, is_ahead, &model);
    lodvarn_movement by = lodvarn_to_match(is_ahead ? LODVARN_FORWARD : LODVARN_BACKWARD, needle, len);
    if (!find_agrees(t->s, in, needle, len, is_ahead ? LODVARN_FORWARD : LODVARN_BACKWARD)) return 0;
    if (!len) return lodvarn_move(t->s, by) == LODVARN_NO_SUCH_NUMBER;
    struct typed twin = *t;
    twin.s = twin_of(t->s);
    int agrees = go_beside(&twin, by, is_there, is_ahead ? range(pos, model.from) : range(model.from, pos), is_ahead);
    fprintf(script, "%s\n", line);
    typed_line(t, line, answers);
    agrees = agrees && are_same(t->s, twin.s);
    lodvarn_close(&twin.s);
    return agrees;
}

int main(int argc, char **argv) {
    if (argc != 5) { fputs("random SEED LINES SCRIPT ANSWERS\n", stderr); return 2; }
    begin_chance(strtoull(argv[1], NULL, 10));
    long lines = strtol(argv[2], NULL, 10), disagree = 0;
    FILE *script = fopen(argv[3], "w"), *answers = fopen(argv[4], "w");
    if (!script || !answers) { perror("fopen"); return 2; }
    struct typed t;
    typed_begin(&t);
    for (long i = 0; i < lines; i++) {
        unsigned which = popped ? 2 : below(24);
        int agrees = which == 0 ? type_beside(&t, script, answers) : which == 1 ? find_beside(&t, script, answers) : 1;
        if (which > 1) {
            make_line(&t);
            if (is_idle(&t, &agrees)) strcpy(line, "where");
            run_line(&t, script, answers);
        }
        if (agrees && typed_reads_agree(&t)) continue;
        printf("calls disagree with each other after line %ld: %s\n", i + 1, which == 0 ? "typed bytes" : line);
        disagree++;
    }
    lodvarn_close(&t.s);
    return fclose(script) || fclose(answers) || disagree;
}
