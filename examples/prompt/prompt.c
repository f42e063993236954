/* The prompt of a small shell over Lodvarn: sh runs each line, up to C-d on an empty one.
 *
 *     prompt [FILE]    FILE keeps the kill ring, and the last line with its record, for the next run */
#define _POSIX_C_SOURCE 200809L
#include "kept.h"
#include "lodvarn.h"
#include <glob.h>
#include <signal.h>
#include <stdio.h>
#include <stdlib.h>
#include <string.h>
#include <sys/ioctl.h> /* for the columns alone, which POSIX tells only since 2024 */
#include <termios.h>
#include <unistd.h>

enum {
    LIMIT = 4096, /* bytes that a line may have */
    LINES = 32,   /* lines that are kept */
    AHEAD = 8     /* columns from the cursor to the right edge, in a row that slides */
};

/* Keys. That of a character is its first byte; META(c) is c after an escape. */
#define CONTROL(letter) ((letter)&31)
#define META(c) (0x1000 + (c))
enum { ESCAPE = 0x1b, DELETE = 0x7f, UP = 0x2000, DOWN, OTHER };

static lodvarn *s;
static struct termios outside, raw;  /* the terminal's modes for commands, and those for keys */
static char lines[LINES][LIMIT + 1]; /* the one that is typed, and those before it, the newest first */
static size_t shown;                 /* which of them the session has */
static const char *path;             /* of the file that keeps the session, or NULL */

/* Copies the text, and ends it with a NUL. The next call overwrites the copy. */
static char *text(void) {
    static char copied[LIMIT + 1];
    size_t len;
    if (lodvarn_text_copy(s, copied, sizeof copied, &len) < 0) *copied = 0;
    return copied;
}

static size_t columns(void) {
    struct winsize size;
    if (ioctl(1, TIOCGWINSZ, &size) < 0 || size.ws_col == 0) return 80;
    return size.ws_col;
}

/* Draws one row, which the terminal cuts at its right edge. It slides to keep the cursor some columns before that. */
static void draw(void) {
    lodvarn_screen endless = LODVARN_SCREEN(65535);
    lodvarn_position cursor = {0, 0}, left = {0, 0};
    const char *line = text();
    size_t pos = lodvarn_pos(s), from = 0, width = 0;
    lodvarn_cursor_position(s, &cursor);
    if (cursor.column + AHEAD > columns()) left.column = cursor.column + AHEAD - columns();
    lodvarn_offset_at(&endless, left, line, pos, &from);
    lodvarn_width(LODVARN_UNICODE, line + from, pos - from, &width);
    dprintf(1, "\r\x1b[?7l$ %s\x1b[K\x1b[?7h\r\x1b[%zuC", line + from, 2 + width);
}

/* Ends at a hang-up, and leaves the terminal as it was. A handler may make these calls. */
static void hang_up(int number) {
    tcsetattr(0, TCSANOW, &outside);
    _exit(128 + number);
}

static void keep_session(void) {
    if (path && !kept_save(path, s)) perror(path);
}

/* Keeps what is typed, if no line of before is shown. */
static void keep_typed(void) {
    if (shown == 0) strcpy(lines[0], text());
}

/* Shows the n-th line back, or for 0 what was typed. The session begins anew with it, so no undo leads out of it. */
static int show_line(size_t n) {
    keep_typed();
    if (n >= LINES || (n > 0 && !*lines[n])) return LODVARN_NOTHING;
    shown = n;
    return lodvarn_restart(s, lines[n], strlen(lines[n]));
}

/* Shows the next older line that has in it what was typed. */
static int search(void) {
    keep_typed();
    for (size_t n = shown + 1; n < LINES; n++) {
        if (strstr(lines[n], lines[0])) return show_line(n);
    }
    return LODVARN_NOTHING;
}

/* Begins the next line, with the same kill ring. */
static int begin_line(void) {
    shown = 0;
    int answer = lodvarn_restart(s, "", 0);
    keep_session(); /* a hang-up keeps no more */
    return answer;
}

static int drop_line(void) {
    dprintf(1, "\n");
    return begin_line();
}

/* Has sh run the line. */
static int run_line(void) {
    dprintf(1, "\n");
    shown = 0;
    keep_typed();
    if (*lines[0]) {
        tcsetattr(0, TCSADRAIN, &outside);
        if (system(lines[0]) < 0) perror("prompt");
        tcsetattr(0, TCSADRAIN, &raw);
        dprintf(1, "%*s\r", (int)columns(), ""); /* leads out of a row that was not ended */
        memmove(lines + 1, lines, sizeof lines - sizeof lines[0]);
    }
    return begin_line();
}

/* Types a character. All that is typed with no other key between is one undo, as in GNU readline. */
static int type(const char *bytes, size_t len, bool goes_on) {
    size_t used;
    if (!goes_on || lodvarn_reopen_group(s) <= 0) lodvarn_begin_group(s);
    int answer = lodvarn_type(s, bytes, len, &used);
    lodvarn_end_group(s);
    return answer;
}

/* Types the character that begins with a byte. Its other bytes are read as long as lodvarn_type finds it incomplete. */
static int type_from(int first, bool goes_on) {
    char bytes[4];
    size_t len = 0;
    int byte = first, answer;
    do {
        bytes[len++] = byte;
        if (first == 0xc2 && 0x80 <= byte && byte < 0xa0) return LODVARN_NOTHING; /* a control character */
        answer = type(bytes, len, goes_on);
    } while (answer == LODVARN_NOTHING && (byte = getchar()) != EOF);
    if (answer == LODVARN_NOT_UTF8 && len > 1) ungetc(byte, stdin); /* it begins another key */
    return answer;
}

/* Returns the word before the cursor: up to a character that parts words, and is not quoted. */
static lodvarn_range word_before_cursor(void) {
    const char *at = text();
    lodvarn_range word = {lodvarn_pos(s), lodvarn_pos(s)};
    for (; word.from > 0; word.from--) {
        bool is_quoted = word.from > 1 && at[word.from - 2] == '\\';
        if (strchr(" &(;<=>`|", at[word.from - 1]) && !is_quoted) break;
    }
    return word;
}

/* Quotes a name for sh. Returns its length, or 0 if it is too long or has a control character, as no line may. */
static size_t quote(const char *name, char *quoted) {
    size_t len = 0;
    for (; *name; name++) {
        unsigned char c = (unsigned char)name[0], next = (unsigned char)name[1];
        bool is_control = c < ' ' || c == DELETE || (c == 0xc2 && next < 0xa0);
        if (is_control || len > LIMIT - 2) return 0;
        if (strchr(" !\"#$&'()*;<=>?[\\`{|~", c)) quoted[len++] = '\\';
        quoted[len++] = *name;
    }
    return len;
}

/* Tries the next name of a file that begins as the word before the cursor, or the first if none is tried. Its group
 * stays open, for the next key to abandon or to end. */
static int complete(void) {
    static size_t next;
    char pattern[LIMIT + 2], name[LIMIT], *line;
    int answer = LODVARN_NOTHING;
    glob_t found = {0};
    if (lodvarn_abandon_group(s) <= 0) next = 0;
    lodvarn_range word = word_before_cursor();
    line = text();
    line[word.to] = 0;
    snprintf(pattern, sizeof pattern, "%s*", line + word.from);
    if (glob(pattern, GLOB_MARK, NULL, &found) == 0) lodvarn_begin_group(s);
    for (size_t n = 0; n < found.gl_pathc && answer <= 0; n++) {
        size_t len = quote(found.gl_pathv[next % found.gl_pathc], name);
        if (len > 0) answer = lodvarn_replace(s, word, name, len);
        next++;
    }
    if (answer <= 0) lodvarn_abandon_group(s);
    globfree(&found);
    return answer;
}

/* Reads what comes after an escape. */
static int read_escape(void) {
    int c = getchar();
    if (c == ESCAPE) return read_escape();
    if (c != '[' && c != 'O') return META(c);
    do {
        c = getchar();
    } while (' ' <= c && c < '@'); /* the numbers of a key */
    return c == 'A' ? UP : c == 'B' ? DOWN : OTHER;
}

static int read_key(void) {
    int first = getchar();
    return first == ESCAPE ? read_escape() : first;
}

static bool is_text(int key) {
    return (' ' <= key && key < DELETE) || (0x80 <= key && key <= 0xff);
}

/* Does what a key says, or types the character that it is. */
static int press(int key) {
    static bool was_text;
    bool goes_on = was_text;
    was_text = is_text(key);
    if (key == CONTROL('g')) return lodvarn_abandon_group(s);
    if (key != '\t' && lodvarn_group_level(s) > 0) lodvarn_end_group(s); /* other keys keep the name that is tried */
    if (is_text(key)) return type_from(key, goes_on);
    switch (key) {
    case CONTROL('a'): return lodvarn_move(s, lodvarn_to_line_start());
    case CONTROL('e'): return lodvarn_move(s, lodvarn_to_line_end());
    case CONTROL('b'): return lodvarn_move(s, lodvarn_chars_back(1));
    case CONTROL('f'): return lodvarn_move(s, lodvarn_chars_forward(1));
    case META('b'): return lodvarn_move(s, lodvarn_words_back(LODVARN_EMACS, 1));
    case META('f'): return lodvarn_move(s, lodvarn_words_forward(LODVARN_EMACS, LODVARN_AFTER_END, 1));
    case DELETE: return lodvarn_backspace(s, 1);
    case CONTROL('d'): return lodvarn_delete(s, 1);
    case CONTROL('k'): return lodvarn_kill(s, lodvarn_to_line_end());
    case CONTROL('u'): return lodvarn_kill(s, lodvarn_to_line_start());
    case CONTROL('w'): return lodvarn_kill(s, lodvarn_words_back(LODVARN_BIG, 1));
    case META('d'): return lodvarn_kill(s, lodvarn_words_forward(LODVARN_EMACS, LODVARN_AFTER_END, 1));
    case CONTROL('y'): return lodvarn_yank(s, 1);
    case META('y'): return lodvarn_yank_pop(s);
    case CONTROL('_'): return lodvarn_undo(s, 1);
    case '\t': return complete();
    case CONTROL('r'): return search();
    case CONTROL('p'): case UP: return show_line(shown + 1);
    case CONTROL('n'): case DOWN: return shown == 0 ? LODVARN_NOTHING : show_line(shown - 1);
    case CONTROL('c'): return drop_line();
    case '\n': case '\r': return run_line();
    default: return LODVARN_NOTHING;
    }
}

/* Sets the terminal's modes for keys, which a hang-up leaves. */
static void enter_raw(void) {
    raw = outside;
    raw.c_lflag &= ~(tcflag_t)(ECHO | ICANON | IEXTEN | ISIG);
    raw.c_cc[VMIN] = 1;
    signal(SIGHUP, hang_up);
    signal(SIGTERM, hang_up);
    tcsetattr(0, TCSADRAIN, &raw);
    setvbuf(stdin, NULL, _IONBF, 0); /* what is typed ahead of a command's end is for the command to read */
}

int main(int argc, char **argv) {
    lodvarn_options options = LODVARN_OPTIONS;
    options.limit = LIMIT;
    options.keep_undone = true; /* no edit drops the undone changes: undos come to them */
    if (argc > 1) path = argv[1];
    if (path) s = kept_load(path, options);
    if (tcgetattr(0, &outside) < 0 || (!s && lodvarn_open(&s, &options, "", 0) < 0)) {
        perror("prompt");
        return 1;
    }
    enter_raw();
    for (;;) {
        draw();
        int key = read_key();
        if (key == EOF || (key == CONTROL('d') && !*text())) break;
        if (press(key) <= 0) dprintf(1, "\a"); /* nothing was done */
    }
    dprintf(1, "\n");
    tcsetattr(0, TCSADRAIN, &outside);
    keep_session();
    lodvarn_close(&s);
    return 0;
}
