/* A line editor for a terminal over Lodvarn: the Emacs keys of GNU readline, UTF-8, several rows. Each accepted text
 * is printed as "=> text". C-d on an empty text ends the editor, C-c drops the text, and C-z stops the job.
 *
 *     edit [FILE]    edits FILE: Enter begins a row, C-x C-s writes FILE, and C-c ends the editor
 *
 * The session is written with FILE, to .FILE.undo beside it. As long as it has the text of FILE, the next run goes on
 * with it: with what may be undone and redone, and with the kill ring. */
#define _DEFAULT_SOURCE
#include "../prompt/kept.h"
#include "drawing.h"
#include "lodvarn.h"
#include <errno.h>
#include <signal.h>
#include <stdio.h>
#include <stdlib.h>
#include <string.h>
#include <sys/select.h>
#include <termios.h>
#include <unistd.h>

enum {
    LIMIT = 65536, /* bytes that a text may have */
    WAIT = 200     /* milliseconds to wait for the rest of a key */
};

struct editor {
    lodvarn *session;
    struct termios before; /* the terminal's modes outside of the editor */
    sigset_t unblocked;    /* the signals that are blocked while the editor waits */
    int is_raw, is_over, rings;
    struct drawing drawing;
    char input[4096];
    size_t input_len, input_at;
    char pasted[LIMIT], output[65536];
    const char *path; /* of the file that is edited, or NULL */
    char kept[4104];  /* that of its session. What is too long here is so for the system */
};

/* The terminal's modes. */

/* Lets each byte come as it is typed, and a paste between marks. */
static void enter_raw(struct editor *e) {
    struct termios raw = e->before;
    raw.c_iflag &= ~(tcflag_t)(BRKINT | ICRNL | INPCK | ISTRIP | IXON);
    raw.c_lflag &= ~(tcflag_t)(ECHO | ICANON | IEXTEN | ISIG);
    raw.c_cc[VMIN] = 1;
    raw.c_cc[VTIME] = 0;
    tcsetattr(0, TCSADRAIN, &raw);
    fputs("\x1b[?2004h", stdout);
    drawing_forget(&e->drawing);
    e->is_raw = 1;
}

/* Leaves the cursor after what is shown, and the modes as they were before. */
static void leave_raw(struct editor *e) {
    if (!e->is_raw) return;
    go_to(&e->drawing, e->drawing.shown.bottom, 0);
    fputs("\r\n\x1b[?2004l", stdout);
    fflush(stdout);
    tcsetattr(0, TCSADRAIN, &e->before);
    e->is_raw = 0;
}

static void end_without_memory(struct editor *e) {
    leave_raw(e);
    fputs("edit: out of memory\n", stderr);
    exit(1);
}

/* Draws what changed, and rings the bell. */
static void redraw(struct editor *e) {
    if (e->rings) putchar('\a');
    e->rings = 0;
    if (!drawing_redraw(&e->drawing, e->session)) end_without_memory(e);
}

/* What the signals said: which one ends the editor, or 0, and whether it goes on after it was stopped. A change of the
 * screen's size says nothing here, and only ends the wait. */
static volatile sig_atomic_t ended_by, goes_on;

static void note(int number) {
    if (number == SIGCONT) goes_on = 1;
    else if (number != SIGWINCH) ended_by = number;
}

/* Blocks the signals that the editor hears, which come only while it waits. */
static void hear_signals(struct editor *e) {
    static const int heard[] = {SIGWINCH, SIGCONT, SIGTERM, SIGINT, SIGHUP};
    sigset_t blocked;
    sigemptyset(&blocked);
    for (size_t i = 0; i < sizeof heard / sizeof *heard; i++) {
        sigaddset(&blocked, heard[i]);
        signal(heard[i], note);
    }
    sigprocmask(SIG_BLOCK, &blocked, &e->unblocked);
}

/* Whether the bytes begin with a control character: one of one byte, or 0xc2 and a byte below 0xa0. */
static int is_control(const char *bytes, size_t len) {
    unsigned char byte = (unsigned char)bytes[0], next = len > 1 ? (unsigned char)bytes[1] : 0;
    return byte < ' ' || byte == 0x7f || (byte == 0xc2 && 0x80 <= next && next < 0xa0);
}

/* The input. All that waits is read at once and drawn once: the editor draws only if it has to wait for a byte. */

enum { END = -1, LATE = -2, FOR_EVER = -1 };

/* Waits for input, that many milliseconds or for ever, and hears the signals that are not in the mask. Returns above 0
 * if there is input, or its end, 0 if none came, and below 0 if a signal did. */
static int await_input(int milliseconds, const sigset_t *mask) {
    struct timespec time = {milliseconds / 1000, milliseconds % 1000 * 1000000L};
    fd_set terminal;
    FD_ZERO(&terminal);
    FD_SET(0, &terminal);
    int ready = pselect(1, &terminal, NULL, NULL, milliseconds == FOR_EVER ? NULL : &time, mask);
    return ready < 0 && errno != EINTR ? 1 : ready;
}

/* Reads more input after what is left of it. Returns 0, END at the end of input or of the editor, or LATE if none comes
 * in time. */
static int read_more(struct editor *e, int milliseconds) {
    int ready = await_input(0, NULL);
    while (ready <= 0 && !ended_by) {
        redraw(e);
        ready = await_input(milliseconds, &e->unblocked);
        if (ready == 0) return LATE;
        if (goes_on && !ended_by) enter_raw(e);
        goes_on = 0;
    }
    e->input_len -= e->input_at;
    memmove(e->input, e->input + e->input_at, e->input_len);
    e->input_at = 0;
    ssize_t len = ended_by ? 0 : read(0, e->input + e->input_len, sizeof e->input - e->input_len);
    if (len <= 0) return END;
    e->input_len += (size_t)len;
    return 0;
}

/* The next byte, or END or LATE. */
static int next_byte(struct editor *e, int milliseconds) {
    int ended = e->input_at == e->input_len ? read_more(e, milliseconds) : 0;
    return ended ? ended : (unsigned char)e->input[e->input_at++];
}

/* Lets the last byte be read again. */
static void put_back(struct editor *e) { e->input_at--; }

/* What keys do. The number comes from the table of keys. The bell rings if nothing was inserted, or at an error. */

static void insert(struct editor *e, uint32_t c) { e->rings |= lodvarn_insert(e->session, c, 1) <= 0; }

/* Types the text that waits, up to a control character. A byte that is not UTF-8 is dropped, and so are those of a
 * character whose rest does not come in time, or that has no room. */
static void type(struct editor *e) {
    const char *bytes = e->input + e->input_at;
    size_t len = 0, waiting = e->input_len - e->input_at, used = 1;
    while (len < waiting && !is_control(bytes + len, waiting - len)) len++;
    int answer = lodvarn_type(e->session, bytes, len, &used);
    if (answer == LODVARN_NOTHING && len == waiting && read_more(e, WAIT) == 0) return;
    e->rings |= answer < 0 && answer != LODVARN_NOT_UTF8;
    e->input_at += used;
}

static void delete_or_end(struct editor *e, uint32_t n) {
    lodvarn_view text;
    lodvarn_text(e->session, &text);
    if (text.len == 0) e->is_over = 1;
    else e->rings |= lodvarn_delete(e->session, n) < 0;
}

static void yank(struct editor *e, uint32_t older) {
    e->rings |= (older ? lodvarn_yank_pop(e->session) : lodvarn_yank(e->session, 1)) <= 0;
}

enum { CHARS, WORDS, BACK = 0x12, AHEAD = 0x13 };

static void change(struct editor *e, uint32_t what) {
    int answer = what == CHARS ? lodvarn_transpose_chars(e->session)
        : what == WORDS ? lodvarn_transpose_words(e->session, 1) : lodvarn_change_case(e->session, what);
    e->rings |= answer < 0;
}

static void undo(struct editor *e, uint32_t again) {
    e->rings |= (again ? lodvarn_redo(e->session) : lodvarn_undo(e->session, 1)) < 0;
}

/* Adds bytes to what is pasted. If they are more than a text may have, only their number is kept. */
static void add_pasted(struct editor *e, const char *bytes, size_t count, size_t *len) {
    if (*len + count <= LIMIT) memcpy(e->pasted + *len, bytes, count);
    *len += count;
}

/* Types a paste in which some bytes are not UTF-8, without these. One undo takes it back. */
static int type_pasted(struct editor *e, size_t len) {
    int answer = LODVARN_DONE;
    lodvarn_begin_group(e->session);
    for (size_t at = 0, used; at < len && answer != LODVARN_NO_ROOM; at += used) {
        used = 1;
        answer = lodvarn_type(e->session, e->pasted + at, len - at, &used);
    }
    return answer == LODVARN_NO_ROOM ? (lodvarn_abandon_group(e->session), answer) : lodvarn_end_group(e->session);
}

/* Inserts a paste as one text, without its control characters. Terminals send its newlines as "\r". What begins like
 * the mark of its end, and is not, is text too. */
static void paste(struct editor *e, uint32_t unused) {
    static const char mark[] = "\x1b[201~";
    size_t len = 0, marked = 0;
    (void)unused;
    for (int byte, last = 0; mark[marked] && (byte = next_byte(e, FOR_EVER)) >= 0; last = byte) {
        if (byte == mark[marked]) {
            marked++;
            continue;
        }
        if (marked > 1) add_pasted(e, mark + 1, marked - 1, &len);
        marked = byte == mark[0];
        char character = (char)byte;
        if (byte == '\r' || (byte == '\n' && last != '\r')) add_pasted(e, "\n", 1, &len);
        else if (last == 0xc2 && 0x80 <= byte && byte < 0xa0) len--; /* a control character of two bytes */
        else if (byte == '\t' || !is_control(&character, 1)) add_pasted(e, &character, 1, &len);
    }
    if (mark[marked]) return;
    int answer = len > LIMIT ? LODVARN_NO_ROOM : lodvarn_paste(e->session, e->pasted, len, 1);
    if (answer == LODVARN_NOT_UTF8) answer = type_pasted(e, len);
    e->rings |= answer <= 0;
}

/* Moves to the text that is typed next, which C-s and C-r search for again. Any other key ends the search. */
static void search(struct editor *e, uint32_t direction) {
    char text[64];
    size_t len = 0, from = lodvarn_pos(e->session);
    lodvarn_range found = {from, from};
    int byte;
    while ((byte = next_byte(e, FOR_EVER)) == AHEAD || byte == BACK
           || (byte >= ' ' && byte != 0x7f && len < sizeof text)) {
        if (byte == AHEAD) direction = LODVARN_FORWARD, from = found.to;
        else if (byte == BACK) direction = LODVARN_BACKWARD, from = found.from;
        else text[len++] = (char)byte;
        int answer = lodvarn_find(e->session, from, text, len, direction, &found);
        if (answer > 0) lodvarn_set_pos(e->session, found.from);
        e->rings |= answer == LODVARN_NOTHING && len > 0;
    }
    if (byte >= 0) put_back(e);
}

static void clear_screen(struct editor *e, uint32_t unused) {
    (void)unused;
    fputs("\x1b[H", stdout);
    drawing_forget(&e->drawing);
}

/* Stops the job as the terminal's own C-z does, until it is continued. */
static void stop(struct editor *e, uint32_t stopping) {
    sigset_t blocked;
    redraw(e);
    leave_raw(e);
    sigprocmask(SIG_SETMASK, &e->unblocked, &blocked);
    kill(0, (int)stopping);
    sigprocmask(SIG_SETMASK, &blocked, NULL);
    goes_on = 0;
    if (!ended_by) enter_raw(e);
}

/* Opens the session of the file, or begins one with its text: UTF-8, without control characters but for tabs and
 * newlines. Returns whether it could. */
static int open_file(struct editor *e, lodvarn_options options) {
    const char *slash = strrchr(e->path, '/'), *name = slash ? slash + 1 : e->path;
    lodvarn_view kept = {"", 0};
    size_t len = 0;
    char *text = kept_read(e->path, &len);
    int can_open = text || errno == ENOENT;
    for (size_t i = 0; can_open && i < len; i++)
        can_open = text[i] == '\t' || text[i] == '\n' || !is_control(text + i, len - i);
    if (options.limit < len) options.limit = len;
    snprintf(e->kept, sizeof e->kept, "%.*s.%s.undo", (int)(name - e->path), e->path, name);
    if (can_open && (e->session = kept_load(e->kept, options))) lodvarn_text(e->session, &kept);
    if (kept.len != len || (len && memcmp(kept.at, text, len))) lodvarn_close(&e->session);
    if (!e->session && can_open) can_open = lodvarn_open(&e->session, &options, text, len) > 0;
    free(text);
    return can_open;
}

static void write_file(struct editor *e, uint32_t unused) {
    lodvarn_view text;
    (void)unused;
    lodvarn_text(e->session, &text);
    int is_written = e->path && kept_write(e->path, 0666, text.len ? text.at : "", text.len);
    if (is_written) lodvarn_mark_saved(e->session);
    e->rings |= !is_written || !kept_save(e->kept, e->session);
}

/* Shows the text up to its end, prints it if it is accepted, and begins the next one, with the kill ring as it is. A
 * file goes on, or the editor ends. */
static void end_text(struct editor *e, uint32_t is_accepted) {
    if (e->path && is_accepted) insert(e, '\n');
    e->is_over = e->path && !is_accepted;
    if (e->path) return;
    lodvarn_move(e->session, lodvarn_to_text_end());
    redraw(e);
    if (is_accepted) printf("\n=> %s\n", e->drawing.text);
    else fputs("^C\n", stdout);
    if (lodvarn_restart(e->session, "", 0) < 0) end_without_memory(e);
    drawing_forget(&e->drawing);
}

static lodvarn_movement char_back(void) { return lodvarn_chars_back(1); }
static lodvarn_movement char_forward(void) { return lodvarn_chars_forward(1); }
static lodvarn_movement line_up(void) { return lodvarn_lines_up(1); }
static lodvarn_movement line_down(void) { return lodvarn_lines_down(1); }
static lodvarn_movement word_back(void) { return lodvarn_words_back(LODVARN_EMACS, 1); }
static lodvarn_movement word_end(void) { return lodvarn_words_forward(LODVARN_EMACS, LODVARN_AFTER_END, 1); }
static lodvarn_movement big_word_back(void) { return lodvarn_words_back(LODVARN_BIG, 1); }

/* What keys send, readline's name for what they do, and a call with its movement, or a function with its number. What
 * readline has no name for is said in several words. The ring keeps what is killed, but not what a kill by characters
 * deletes. */
static const struct key {
    const char *bytes[3], *name;
    int (*call)(lodvarn *, lodvarn_movement);
    lodvarn_movement (*by)(void);
    void (*does)(struct editor *, uint32_t);
    uint32_t number;
} keys[] = {
    {{"\x01", "\x1b[H", "\x1b[1~"}, "beginning-of-line", .call = lodvarn_move, .by = lodvarn_to_line_start},
    {{"\x02", "\x1b[D"}, "backward-char", .call = lodvarn_move, .by = char_back},
    {{"\x03"}, "drop the text", .does = end_text},
    {{"\x04"}, "delete-char", .does = delete_or_end, .number = 1},
    {{"\x1b[3~"}, "delete-char", .call = lodvarn_kill, .by = char_forward},
    {{"\x05", "\x1b[F", "\x1b[4~"}, "end-of-line", .call = lodvarn_move, .by = lodvarn_to_line_end},
    {{"\x06", "\x1b[C"}, "forward-char", .call = lodvarn_move, .by = char_forward},
    {{"\x08", "\x7f"}, "backward-delete-char", .call = lodvarn_kill, .by = char_back},
    {{"\n", "\r"}, "accept-line", .does = end_text, .number = 1},
    {{"\x0b"}, "kill-line", .call = lodvarn_kill, .by = lodvarn_to_line_end},
    {{"\x0c"}, "clear-screen", .does = clear_screen},
    {{"\x0e", "\x1b[B"}, "to the line below", .call = lodvarn_move, .by = line_down},
    {{"\x10", "\x1b[A"}, "to the line above", .call = lodvarn_move, .by = line_up},
    {{"\x12"}, "search back for a text", .does = search, .number = LODVARN_BACKWARD},
    {{"\x13"}, "search ahead for a text", .does = search, .number = LODVARN_FORWARD},
    {{"\x14"}, "transpose-chars", .does = change, .number = CHARS},
    {{"\x15"}, "unix-line-discard", .call = lodvarn_kill, .by = lodvarn_to_line_start},
    {{"\x17"}, "unix-word-rubout", .call = lodvarn_kill, .by = big_word_back},
    {{"\x19"}, "yank", .does = yank},
    {{"\x1a"}, "stop the job", .does = stop, .number = SIGTSTP},
    {{"\x1f", "\x18\x15"}, "undo", .does = undo},
    {{"\x18\x13"}, "write the file", .does = write_file},
    {{"\x1b" "b", "\x1b[1;5D"}, "backward-word", .call = lodvarn_move, .by = word_back},
    {{"\x1b" "f", "\x1b[1;5C"}, "forward-word", .call = lodvarn_move, .by = word_end},
    {{"\x1b" "d"}, "kill-word", .call = lodvarn_kill, .by = word_end},
    {{"\x1b\x7f"}, "backward-kill-word", .call = lodvarn_kill, .by = word_back},
    {{"\x18\x7f"}, "backward-kill-line", .call = lodvarn_kill, .by = lodvarn_to_line_start},
    {{"\x1b" "c"}, "capitalize-word", .does = change, .number = LODVARN_CAPITALIZE},
    {{"\x1b" "l"}, "downcase-word", .does = change, .number = LODVARN_LOWERCASE},
    {{"\x1b" "u"}, "upcase-word", .does = change, .number = LODVARN_UPPERCASE},
    {{"\x1b" "t"}, "transpose-words", .does = change, .number = WORDS},
    {{"\x1b" "y"}, "yank-pop", .does = yank, .number = 1},
    {{"\x1b" "_"}, "redo a change", .does = undo, .number = 1},
    {{"\x1b" "<"}, "to the start of the text", .call = lodvarn_move, .by = lodvarn_to_text_start},
    {{"\x1b" ">"}, "to the end of the text", .call = lodvarn_move, .by = lodvarn_to_text_end},
    {{"\x1b\r"}, "insert a newline", .does = insert, .number = '\n'},
    {{"\x1b[200~"}, "bracketed-paste-begin", .does = paste},
};

/* The key of exactly these bytes, or one that begins with them. */
static const struct key *key_of(const char *bytes, size_t len, int whole) {
    for (size_t i = 0; i < sizeof keys / sizeof *keys; i++)
        for (size_t k = 0; k < 3 && keys[i].bytes[k]; k++)
            if (!strncmp(keys[i].bytes[k], bytes, len) && whole == !keys[i].bytes[k][len]) return &keys[i];
    return NULL;
}

/* Skips the rest of a key that does nothing here, such as F5. An escape in the middle of it begins another key. */
static void pass_over(struct editor *e, const char *bytes, size_t len) {
    int byte = bytes[len - 1], ends = len > 2;
    if (len > 1 && byte == 0x1b) put_back(e);
    if (len < 2 || byte == 0x1b || (bytes[1] != '[' && bytes[1] != 'O')) return;
    for (; byte >= 0 && !(ends && 0x40 <= byte && byte <= 0x7e); ends = 1) byte = next_byte(e, WAIT);
}

/* Types a text, or reads a key and does what it says. Returns 0 if the editor should end. */
static int take_key(struct editor *e) {
    char bytes[8];
    size_t len = 0;
    int byte = next_byte(e, FOR_EVER);
    if (byte >= 0x20 && byte != 0x7f) {
        put_back(e);
        type(e);
        return 1;
    }
    while (byte >= 0) {
        bytes[len++] = (char)byte;
        const struct key *key = key_of(bytes, len, 1);
        if (key && key->call) e->rings |= key->call(e->session, key->by()) < 0;
        else if (key) key->does(e, key->number);
        else if (len == sizeof bytes || !key_of(bytes, len, 0)) pass_over(e, bytes, len);
        else {
            byte = next_byte(e, bytes[0] == 0x1b ? WAIT : FOR_EVER);
            continue;
        }
        break;
    }
    return byte != END && !e->is_over;
}

int main(int argc, char **argv) {
    static struct editor e;
    if (tcgetattr(0, &e.before)) return perror("edit"), 1;
    lodvarn_options options = LODVARN_OPTIONS;
    options.limit = LIMIT;
    options.prompt = prompt_columns;
    e.path = argc > 1 ? argv[1] : NULL;
    if (e.path ? !open_file(&e, options) : lodvarn_open(&e.session, &options, "", 0) < 0)
        return fprintf(stderr, "edit: can't open %s\n", e.path ? e.path : "a session"), 1;
    setvbuf(stdout, e.output, _IOFBF, sizeof e.output);
    hear_signals(&e);
    enter_raw(&e);
    while (take_key(&e)) {}
    if (!ended_by) redraw(&e);
    leave_raw(&e);
    lodvarn_close(&e.session);
    free(e.drawing.text);
    if (!ended_by) return 0;
    /* The process ends by the signal, so that the shell knows. */
    signal(ended_by, SIG_DFL);
    sigprocmask(SIG_SETMASK, &e.unblocked, NULL);
    raise(ended_by);
}
