#include "typed.h"
#include <stdlib.h>
#include <string.h>

enum { ROOM = 1 << 16 };

/* What a call handed out. */
static char handed[ROOM];
static size_t handed_len, mark;
static lodvarn_position cursor;

static void fail(const char *what, const char *of) {
    fprintf(stderr, "%s: %s\n", what, of);
    exit(2);
}

/* The next word, which a space ends; *rest is what comes after it, or NULL if there is none. */
static char *word(char **rest) {
    char *start = *rest;
    if (!start) fail("a word is missing", "");
    char *space = strchr(start, ' ');
    if (space) *space = 0;
    *rest = space ? space + 1 : NULL;
    return start;
}

static size_t number(char **rest) { return strtoull(word(rest), NULL, 10); }

/* The index of the next word in a list. */
static unsigned named(char **rest, const char *const *names) {
    const char *name = word(rest);
    for (unsigned i = 0; names[i]; i++)
        if (!strcmp(name, names[i])) return i;
    fail("no such name", name);
    return 0;
}

#define NAMED(rest, ...) named(rest, (const char *const[]){__VA_ARGS__, NULL})

/* Writes a character as UTF-8, and returns how many bytes it has. */
static size_t encode(uint32_t c, char *to) {
    int more = c < 0x80 ? 0 : c < 0x800 ? 1 : c < 0x10000 ? 2 : 3;
    static const unsigned char leads[] = {0, 0xc0, 0xe0, 0xf0};
    to[0] = (char)(leads[more] | c >> 6 * more);
    for (int i = 1; i <= more; i++) to[i] = (char)(0x80 | (c >> 6 * (more - i) & 0x3f));
    return (size_t)more + 1;
}

/* Decodes the text that the rest of a line spells, in place. */
static char *text(char *rest, size_t *len) {
    static char none[1];
    if (!rest) rest = none;
    char *to = rest;
    for (const char *from = rest; *from;) {
        if (*from != '\\') { *to++ = *from++; continue; }
        static const char letters[] = "\\nrts", meant[] = "\\\n\r\t ";
        if (from[1] == 'u') {
            char *end;
            to += encode((uint32_t)strtoul(from + 3, &end, 16), to);
            from = end + 1;
        } else {
            const char *letter = strchr(letters, from[1]);
            if (!letter || !*letter) fail("no such escape", from);
            *to++ = meant[letter - letters];
            from += 2;
        }
    }
    *len = (size_t)(to - rest);
    return rest;
}

/* The arguments of a word. */
struct given {
    size_t n, len;
    lodvarn_range range;
    lodvarn_movement movement;
    enum lodvarn_word sense;
    enum lodvarn_stop stop;
    enum lodvarn_search search;
    enum lodvarn_direction direction;
    enum lodvarn_case to;
    uint32_t c;
    size_t amount;
    const char *text;
};

/* The movements: their words, what they take, and what they are. */
#define MOVEMENTS(ROW)                                                        \
    ROW(line, "", lodvarn_whole_line())                                       \
    ROW(home, "", lodvarn_to_line_start())                                    \
    ROW(eol, "", lodvarn_to_line_end())                                       \
    ROW(bword, "NS", lodvarn_words_back(g->sense, g->n))                      \
    ROW(fword, "NPS", lodvarn_words_forward(g->sense, g->stop, g->n))         \
    ROW(find, "NXC", lodvarn_to_char(g->search, g->c, g->n))                  \
    ROW(bchar, "N", lodvarn_chars_back(g->n))                                 \
    ROW(fchar, "N", lodvarn_chars_forward(g->n))                              \
    ROW(up, "N", lodvarn_lines_up(g->n))                                      \
    ROW(down, "N", lodvarn_lines_down(g->n))                                  \
    ROW(buf, "", lodvarn_whole_text())                                        \
    ROW(bob, "", lodvarn_to_text_start())                                     \
    ROW(eob, "", lodvarn_to_text_end())                                       \
    ROW(nonblank, "", lodvarn_to_first_nonblank())                            \
    ROW(linesup, "N", lodvarn_whole_lines_up(g->n))                           \
    ROW(lines, "N", lodvarn_whole_lines_down(g->n))

static void take_movement(char *rest, struct given *g);

/* Takes the arguments that the letters say: those of the tables in docs/RULES.md, but R for two offsets. */
static void take(const char *letters, char *rest, struct given *g) {
    for (; *letters; letters++)
        switch (*letters) {
        case 'N': g->n = number(&rest); break;
        case 'K': g->amount = number(&rest); break;
        case 'R': g->range.from = number(&rest), g->range.to = number(&rest); break;
        case 'S': g->sense = LODVARN_BIG + NAMED(&rest, "big", "emacs", "vi"); break;
        case 'P': g->stop = LODVARN_AT_START + NAMED(&rest, "start", "before", "after"); break;
        case 'X': g->search = LODVARN_TO + NAMED(&rest, "f", "t", "F", "T"); break;
        case 'D': g->direction = LODVARN_FORWARD + NAMED(&rest, "f", "b"); break;
        case 'W': g->to = LODVARN_CAPITALIZE + NAMED(&rest, "cap", "low", "up"); break;
        case 'C': g->c = utf8_character(text(rest, &g->len)); break;
        case 'T': g->text = text(rest, &g->len); break;
        default: take_movement(rest, g);
        }
}

static void take_movement(char *rest, struct given *g) {
    const char *name = word(&rest);
#define ROW(name_, letters, movement_)       \
    if (!strcmp(name, #name_)) {             \
        take(letters, rest, g);              \
        g->movement = movement_;             \
        return;                              \
    }
    MOVEMENTS(ROW)
#undef ROW
    fail("no such movement", name);
}

/* What was asked before a command must be what that does. */
static void see(const char *what, int holds) {
    if (!holds) fail("it did not do what it said", what);
}

static int move(lodvarn *s, lodvarn_movement m) {
    size_t to = lodvarn_pos(s);
    int asked = lodvarn_movement_target(s, to, m, &to), answer = lodvarn_move(s, m);
    see("move", asked == answer && lodvarn_pos(s) == to);
    return answer;
}

/* Keeps what a movement covers, to be printed. */
static int hand_out(lodvarn *s, lodvarn_movement m) {
    lodvarn_range range;
    lodvarn_view view;
    int answer = lodvarn_movement_range(s, lodvarn_pos(s), m, &range);
    if (answer <= 0) return answer;
    see("slice", lodvarn_slice(s, range, &view) == LODVARN_DONE && view.len == range.to - range.from);
    memcpy(handed, view.at, handed_len = view.len);
    return answer;
}

static int copy(lodvarn *s, lodvarn_movement m) {
    static char copied[ROOM];
    size_t len;
    int asked = hand_out(s, m), answer = lodvarn_copy(s, m, copied, ROOM, &len);
    see("copy", asked == answer && (answer <= 0 || (len == handed_len && !memcmp(copied, handed, len))));
    return answer;
}

static int delete(lodvarn *s, size_t n) {
    int asked = hand_out(s, lodvarn_chars_forward(n)), answer = lodvarn_delete(s, n);
    see("del", asked == answer || answer == LODVARN_NO_MEMORY);
    return answer;
}

/* A script says that nothing went in also if what was yanked was deleted, since the text before it is empty. */
static int yank_pop(lodvarn *s) {
    lodvarn_view older = {NULL, 0};
    lodvarn_ring_text(s, lodvarn_ring_count(s) > 1, &older);
    int answer = lodvarn_yank_pop(s);
    return answer < 0 || older.len ? answer : LODVARN_NOTHING;
}

static int begin(lodvarn *s) {
    size_t level = lodvarn_group_level(s);
    mark = lodvarn_record_entries(s);
    int answer = lodvarn_begin_group(s);
    see("begin", lodvarn_group_level(s) == level + (answer > 0) && lodvarn_record_entries(s) == mark + (answer > 0));
    return answer;
}

/* Makes a call that ends one group, or all. Without memory it ends none. */
static int ends(const char *what, lodvarn *s, int (*call)(lodvarn *), int is_all) {
    size_t level = lodvarn_group_level(s);
    int answer = call(s);
    see(what, answer < 0 || lodvarn_group_level(s) == (is_all || !level ? 0 : level - 1));
    return answer;
}

static int reopen(lodvarn *s) {
    size_t level = lodvarn_group_level(s);
    int answer = lodvarn_reopen_group(s);
    see("reopen", lodvarn_group_level(s) == level + (answer == LODVARN_DONE));
    return answer;
}

static int abandon(lodvarn *s) {
    size_t level = lodvarn_group_level(s);
    int answer = ends("abandon", s, lodvarn_abandon_group, 0);
    see("abandon", answer < 0 || (answer == (level > 0) && !(answer && lodvarn_can_redo(s))));
    return answer;
}

/* An undo finds a change if that is said. */
static int undo(lodvarn *s, size_t n) {
    int asked = lodvarn_can_undo(s), answer = lodvarn_undo(s, n);
    see("undo", answer < 0 || answer == asked);
    return answer;
}

static int redo(lodvarn *s) {
    int asked = lodvarn_can_redo(s), answer = lodvarn_redo(s);
    see("redo", answer < 0 || answer == asked);
    return answer;
}

static int where(lodvarn *s) {
    int answer = lodvarn_set_pos(s, lodvarn_pos(s));
    see("where", lodvarn_cursor_position(s, &cursor) == LODVARN_DONE);
    return answer;
}

/* What a script prints if a command is done: ok; true, or false if there was nothing to do; true or false for an
 * insertion at the end of the text or before it; the text that is handed out; the number of entries; the cursor. */
enum reply { OK, TRUTH, AT_END, TEXT, MARK, AT };

/* The words: their replies, what they take, and their calls. */
#define WORDS(ROW)                                                                                     \
    ROW(move, TRUTH, "M", move(s, g->movement))                                                        \
    ROW(kill, TRUTH, "M", lodvarn_kill(s, g->movement))                                                \
    ROW(copy, TEXT, "M", copy(s, g->movement))                                                         \
    ROW(indent, TRUTH, "KM", lodvarn_indent(s, g->movement, g->amount, LODVARN_INDENT))                \
    ROW(dedent, TRUTH, "KM", lodvarn_indent(s, g->movement, g->amount, LODVARN_DEDENT))                \
    ROW(ins, AT_END, "NC", lodvarn_insert(s, g->c, g->n))                                              \
    ROW(paste, AT_END, "NT", lodvarn_paste(s, g->text, g->len, g->n))                                  \
    ROW(update, OK, "NT", lodvarn_set_text(s, g->n, g->text, g->len))                                  \
    ROW(str, AT_END, "NT", lodvarn_insert_at(s, g->n, g->text, g->len))                                \
    ROW(rep, OK, "RT", lodvarn_replace(s, g->range, g->text, g->len))                                  \
    ROW(range, OK, "R", lodvarn_delete_range(s, g->range))                                             \
    ROW(killrange, TRUTH, "RD", lodvarn_kill_range(s, g->range, g->direction))                         \
    ROW(keep, OK, "T", lodvarn_ring_add(s, g->text, g->len))                                           \
    ROW(del, TEXT, "N", delete(s, g->n))                                                               \
    ROW(back, TRUTH, "N", lodvarn_backspace(s, g->n))                                                  \
    ROW(killline, TRUTH, "", lodvarn_delete_by(s, lodvarn_to_line_end()))                              \
    ROW(killbuf, TRUTH, "", lodvarn_delete_by(s, lodvarn_to_text_end()))                               \
    ROW(discline, TRUTH, "", lodvarn_delete_by(s, lodvarn_to_line_start()))                            \
    ROW(discbuf, TRUTH, "", lodvarn_delete_by(s, lodvarn_to_text_start()))                             \
    ROW(prevword, TRUTH, "NS", lodvarn_delete_by(s, lodvarn_words_back(g->sense, g->n)))               \
    ROW(nextword, TRUTH, "NPS", lodvarn_delete_by(s, lodvarn_words_forward(g->sense, g->stop, g->n)))  \
    ROW(to, TRUTH, "NXC", lodvarn_delete_by(s, lodvarn_to_char(g->search, g->c, g->n)))                \
    ROW(case, TRUTH, "W", lodvarn_change_case(s, g->to))                                               \
    ROW(tchars, TRUTH, "", lodvarn_transpose_chars(s))                                                 \
    ROW(twords, TRUTH, "N", lodvarn_transpose_words(s, g->n))                                          \
    ROW(yank, AT_END, "N", lodvarn_yank(s, g->n))                                                      \
    ROW(yankpop, AT_END, "", yank_pop(s))                                                              \
    ROW(part, OK, "", lodvarn_undo_boundary(s))                                                        \
    ROW(begin, MARK, "", begin(s))                                                                     \
    ROW(end, TRUTH, "", ends("end", s, lodvarn_end_all_groups, 1))                                     \
    ROW(endone, TRUTH, "", ends("endone", s, lodvarn_end_group, 0))                                    \
    ROW(reopen, TRUTH, "", reopen(s))                                                                  \
    ROW(abandon, TRUTH, "", abandon(s))                                                                \
    ROW(undo, TRUTH, "N", undo(s, g->n))                                                               \
    ROW(redo, TRUTH, "", redo(s))                                                                      \
    ROW(trunc, OK, "N", lodvarn_truncate(s, g->n))                                                     \
    ROW(pos, OK, "N", lodvarn_set_pos(s, g->n))                                                        \
    ROW(where, AT, "", where(s))

/* Whether there is memory for the limit, for which a script asks and lodvarn_open does not. */
static int has_room(size_t limit) {
    void *volatile room = malloc(limit ? limit : 1);
    int has = room != NULL;
    free(room);
    return has;
}

static int begin_text(struct typed *t, char *rest) {
    lodvarn_options options = LODVARN_OPTIONS;
    lodvarn *s;
    size_t len;
    const char *given = text(rest, &len);
    options.mode = t->mode;
    options.limit = t->limit > len ? t->limit : len;
    options.ring_size = t->ring;
    int answer = has_room(t->limit) ? lodvarn_open(&s, &options, given, len) : LODVARN_NO_MEMORY;
    if (answer < 0) return answer;
    lodvarn_close(&t->s);
    t->s = s;
    t->own_mode = t->mode;
    return answer;
}

/* The call of a word. */
static int call(lodvarn *s, const char *name, struct given *g) {
#define ROW(word_, reply_, letters, call_) if (!strcmp(name, #word_)) return call_;
    WORDS(ROW)
#undef ROW
    fail("no such word", name);
    return LODVARN_CLOSED;
}

/* The call, and if the limit refuses it, what a script does: it puts nothing in at the cursor, and ends a run of kills;
 * it cuts the text of an update; and for all else it raises the limit, just so far that the call is done. */
static int call_as_script(lodvarn *s, const char *name, struct given *g) {
    static const char *const at_cursor[] = {"ins", "paste", "yank", "yankpop"};
    lodvarn_options options = LODVARN_OPTIONS;
    int answer = call(s, name, g);
    if (answer != LODVARN_NO_ROOM || lodvarn_get_options(s, &options) < 0) return answer;
    for (size_t i = 0; i < sizeof at_cursor / sizeof *at_cursor; i++)
        if (!strcmp(name, at_cursor[i])) return lodvarn_set_pos(s, lodvarn_pos(s)) > 0 ? answer : LODVARN_CLOSED;
    if (!strcmp(name, "update")) {
        for (g->len = options.limit; (g->text[g->len] & 0xc0) == 0x80; g->len--) {}
        if (g->n > g->len) g->n = g->len;
        return call(s, name, g);
    }
    for (; answer == LODVARN_NO_ROOM; answer = call(s, name, g)) {
        options.limit++;
        see("limit", lodvarn_set_options(s, &options) == LODVARN_DONE);
    }
    return answer;
}

/* Runs a line that sets something or begins a text, or else a command. */
static int run(struct typed *t, const char *name, char *rest, enum reply *reply) {
    static const enum lodvarn_mode modes[] = {LODVARN_UNICODE, LODVARN_WC_WIDTH, LODVARN_NO_ZWJ};
    struct given given, *g = &given;
    *reply = OK;
    if (!strcmp(name, "text")) return begin_text(t, rest);
#define ROW(word_, reply_, letters, call_)     \
    if (!strcmp(name, #word_)) {               \
        *reply = reply_;                       \
        take(letters, rest, g);                \
        return call_as_script(t->s, name, g);  \
    }
    WORDS(ROW)
#undef ROW
    if (!strcmp(name, "limit")) t->limit = number(&rest);
    else if (!strcmp(name, "ring")) t->ring = number(&rest);
    else if (!strcmp(name, "mode")) t->mode = modes[NAMED(&rest, "unicode", "wcwidth", "nozwj")];
    else fail("no such word", name);
    return LODVARN_DONE;
}

static void print_escaped(const char *bytes, size_t len, int spaces, FILE *out) {
    for (size_t i = 0; i < len; i++) {
        switch (bytes[i]) {
        case '\\': fputs("\\\\", out); break;
        case '\n': fputs("\\n", out); break;
        case '\r': fputs("\\r", out); break;
        case '\t': fputs("\\t", out); break;
        case ' ': fputs(spaces ? "\\s" : " ", out); break;
        default: putc(bytes[i], out);
        }
    }
}

/* An answer that the call can't give is printed as its number, which no script prints. */
static void print_answer(int answer, enum reply reply, FILE *out) {
    int done = answer == LODVARN_DONE, nothing = answer == LODVARN_NOTHING;
    if (LODVARN_NOT_REPLAYING <= answer && answer < 0) fprintf(out, "refused:%d", -answer);
    else if (reply == OK && done) fputs("ok", out);
    else if (reply == TRUTH && (done || nothing)) fputs(done ? "true" : "false", out);
    else if (reply == AT_END && answer > 0) fputs(done ? "false" : "true", out);
    else if (reply == AT_END && (nothing || answer == LODVARN_NO_ROOM)) fputs("none", out);
    else if (reply == TEXT && nothing) fputs("none", out);
    else if (reply == TEXT && done) {
        fputs("text:", out);
        print_escaped(handed, handed_len, 1, out);
    } else if (reply == MARK && done) fprintf(out, "mark:%zu", mark);
    else if (reply == AT && done) fprintf(out, "at:%zu:%zu", cursor.line, cursor.column);
    else fprintf(out, "answer %d", answer);
}

void typed_begin(struct typed *t) {
    *t = (struct typed){NULL, 4096, 60, LODVARN_UNICODE, LODVARN_UNICODE};
    lodvarn_options options = LODVARN_OPTIONS;
    options.limit = t->limit;
    if (lodvarn_open(&t->s, &options, "", 0) != LODVARN_DONE) fail("no session", "");
}

static char *copy_of(const char *text) {
    char *copy = malloc(strlen(text) + 1);
    if (!copy) fail("no memory", text);
    return strcpy(copy, text);
}

void typed_state(struct typed *t, FILE *out) {
    lodvarn_view whole;
    fprintf(out, " %zu ", lodvarn_pos(t->s));
    lodvarn_text(t->s, &whole);
    print_escaped(whole.at, whole.len, 0, out);
    putc('\n', out);
}

void typed_line(struct typed *t, const char *line, FILE *out) {
    char *own = copy_of(line), *rest = own;
    enum reply reply;
    const char *name = word(&rest);
    int answer = run(t, name, rest, &reply);
    print_answer(answer, reply, out);
    free(own);
    typed_state(t, out);
}

void typed_script(struct typed *t, const char *script, FILE *out) {
    char *own = copy_of(script);
    for (char *line = strtok(own, "\n"); line; line = strtok(NULL, "\n")) typed_line(t, line, out);
    free(own);
}
