/* Lodvarn for C (C99 or later) and C++: a line of text with its cursor, its undo record and its kill ring.
 *
 *     lodvarn *s;
 *     if (lodvarn_open(&s, NULL, "ab", 2) < 0) return 1;
 *     lodvarn_insert(s, 'c', 1);
 *     lodvarn_close(&s);
 *
 * docs/GUIDE.md builds an editor of these calls, docs/RULES.md says exactly what each one does, and docs/GLOSSARY.md
 * explains the terms. On Linux the shared library is liblodvarn.so.0, and all calls have the symbol version LODVARN_0.
 *
 * Pointers
 * - No pointer is NULL, unless a comment allows it: a session in lodvarn_close, the options in lodvarn_open, and a
 *   text or a buffer whose length is 0. The calls do not check the others.
 * - Memory that a call writes to overlaps nothing else that is passed to it. A text that is passed to a call is not
 *   one that the same session lends.
 * - At most one thread at a time is in a call on a session. That holds for reads too, which is why they take no const
 *   pointer.
 * - Do not call from a signal handler, nor in the forked child of a process with threads. If a signal handler leaves a
 *   call by siglongjmp, or a thread is cancelled in one, the session is lost: each later call on it returns
 *   LODVARN_CLOSED, false or 0. lodvarn_close still frees it.
 *
 * Texts
 * - Texts are UTF-8, and their length is in bytes. No NUL ends them, but lodvarn_text_copy adds one.
 * - A lent text is a lodvarn_view. It is valid until the next call on the session that may change something, which is
 *   any call but the reads. Copy what must live longer.
 *
 * Numbers
 * - An offset is a number of bytes from the start of the text. It must be a boundary: the start or the end of the
 *   text, or between two characters. Lengths and limits are in bytes too.
 * - A character c is a Unicode scalar value: at most 0x10FFFF, and no surrogate.
 * - A count n is of grapheme clusters, words, lines or repetitions, and at most 65535. With a count of 0 a call does
 *   nothing and returns NOTHING.
 * - Columns are those of a terminal, where a wide character takes two. Lines, rows and columns are numbered from 0.
 * - The undo record has entries: the changes, and the marks where groups begin and end.
 *
 * Sizes
 * lodvarn_options, lodvarn_screen and lodvarn_report begin with their size, which LODVARN_OPTIONS, LODVARN_SCREEN and
 * LODVARN_REPORT set. A newer header may add members at their end. This version accepts a longer structure if all
 * bytes that it does not know are 0, and sets them to 0 in one that it writes. Any other size is BAD_SIZE.
 *
 * Buffers
 * A call that writes to a buffer takes its capacity as cap, and sets *len or *count to how much there is to write. If
 * that is more than cap, the call returns TOO_SMALL, sets *len or *count, and leaves the buffer as it is. So a first
 * call with cap 0 finds the size.
 *
 * Results
 * A call that returns an int returns one of enum lodvarn_answer: below 0 an error, 0 if there was nothing to do, and
 * from 1 on if it is done. So `if (lodvarn_undo(s, 1) > 0)` tests whether anything was undone. The comment of each
 * call lists its errors, without LODVARN_. Besides these, CLOSED is an error of every call on a session, NOT_UTF8 of
 * every call that takes a text, BAD_SIZE of every call that takes a structure with a size, and NO_SUCH_NUMBER of every
 * call that takes a count, a character, a movement, an enum or a screen: a number that is too great, or not in its
 * enum.
 *
 * Errors
 * - NO_MEMORY: an edit of several steps keeps the steps that it made, and the record has them. Every other call leaves
 *   text, cursor and record as they were. The ring may have kept a text that a kill did not delete.
 * - BAD_OFFSET, BAD_YANK_SIZE and NOT_REPLAYING: text, cursor and record are as they were. The call still counts as a
 *   command, unless it is a read or lodvarn_kill_range: the next kill begins a new text of the ring, and
 *   lodvarn_yank_pop returns NOTHING.
 * - Every other error: the whole session is as it was.
 * - If the option keep_undone is set, a call that returns one of the first four errors may have recorded the undone
 *   changes before.
 * No call makes the text longer than the limit, not even between its steps: it returns NO_ROOM instead. A call writes
 * to its output arguments only if it returns 1 or more, or TOO_SMALL.
 *
 * Memory
 * It comes from malloc, calloc and realloc, and lodvarn_close frees all that a session has. A call allocates only if
 * its comment lists NO_MEMORY, with one exception: a call that goes by lines or rows, such as lodvarn_line_count or a
 * move to the end of a line, allocates an index of 8 bytes a line, and works without it if that fails. lodvarn_watch
 * allocates its whole queue.
 * The record grows until lodvarn_truncate or lodvarn_restart, or up to the bounds in the options; the ring grows up to
 * ring_size texts and max_ring_bytes bytes. */
#ifndef LODVARN_H
#define LODVARN_H

#include <stdbool.h>
#include <stddef.h>
#include <stdint.h>

#ifdef __cplusplus
extern "C" {
#endif

/* The version of this header: as numbers, as one number that grows with each version, and as a text such as "1.2.3".
 * lodvarn_version() returns that of the library that the program runs with. */
#define LODVARN_VERSION_MAJOR 0
#define LODVARN_VERSION_MINOR 1
#define LODVARN_VERSION_PATCH 0
#define LODVARN_VERSION_NUMBER ((LODVARN_VERSION_MAJOR << 16) | (LODVARN_VERSION_MINOR << 8) | LODVARN_VERSION_PATCH)
#define LODVARN_VERSION LODVARN_VERSION_OF_(LODVARN_VERSION_MAJOR, LODVARN_VERSION_MINOR, LODVARN_VERSION_PATCH)
/* Two steps, since a macro's name that is made a text at once would be that name. */
#define LODVARN_VERSION_OF_(major, minor, patch) LODVARN_DOTTED_(major, minor, patch)
#define LODVARN_DOTTED_(major, minor, patch) #major "." #minor "." #patch

/* Marks the calls after which an unseen error loses a text. */
#if defined(__GNUC__)
#define LODVARN_CHECK_ __attribute__((warn_unused_result))
#else
#define LODVARN_CHECK_
#endif

/* No limit for the length of the text. */
#define LODVARN_NO_LIMIT SIZE_MAX
/* No bound for the record or the ring. */
#define LODVARN_NO_BOUND SIZE_MAX
/* The column of the cursor, for motions by rows. */
#define LODVARN_OWN_COLUMN SIZE_MAX
/* The start of the line, for motions by rows. */
#define LODVARN_LINE_START SIZE_MAX
/* No offset: nothing follows. */
#define LODVARN_NO_OFFSET SIZE_MAX

/* A session. */
typedef struct lodvarn lodvarn;

/* What a call returns. */
enum lodvarn_answer {
    LODVARN_NOTHING = 0,          /* there was nothing to do, or nothing that was asked for */
    LODVARN_DONE = 1,             /* done */
    LODVARN_DONE_AT_END = 2,      /* done: the inserted text is the end of the text now */
    LODVARN_NO_MEMORY = -1,       /* out of memory */
    LODVARN_BAD_OFFSET = -2,      /* an offset is past the end or inside a character, or two are out of order */
    LODVARN_BAD_YANK_SIZE = -3,   /* no text of the yanked size ends at the cursor; see lodvarn_yank_pop */
    LODVARN_NOT_REPLAYING = -4,   /* the entries do not lead to the present text */
    LODVARN_NO_ROOM = -5,         /* the text would exceed the limit, or is too long to be saved */
    LODVARN_NOT_UTF8 = -6,        /* a text that was passed is not UTF-8 */
    LODVARN_NO_SUCH_NUMBER = -7,  /* a number is out of its range, not in its enum, or no character */
    LODVARN_TOO_SMALL = -8,       /* the result does not fit in the buffer */
    LODVARN_IS_WATCHED = -9,      /* the session keeps reports already */
    LODVARN_CLOSED = -10,         /* the session was lost in a call that a signal handler left */
    LODVARN_UNKNOWN_FORMAT = -11, /* the bytes do not begin as this version saves them */
    LODVARN_DAMAGED = -12,        /* the saved bytes are not those of a session */
    LODVARN_BAD_SIZE = -13        /* a structure has a size, or members, that this version does not know */
};

/* How columns are counted. The values of all enums that calls take differ. */
enum lodvarn_mode {
    LODVARN_UNICODE = 0,   /* the width of the whole text, an emoji sequence as one emoji */
    LODVARN_WC_WIDTH = 11, /* the sum of the widths of its characters */
    LODVARN_NO_ZWJ = 12    /* the sum of the widths of what zero-width joiners separate */
};

/* What belongs to a word. */
enum lodvarn_word {
    LODVARN_BIG = 20,   /* everything but blanks */
    LODVARN_EMACS = 21, /* letters and digits */
    LODVARN_VI = 22     /* letters, digits and _; a run of other characters except blanks is a word too */
};

/* Where a movement forward by words stops. */
enum lodvarn_stop {
    LODVARN_AT_START = 30,   /* at the start of a word */
    LODVARN_BEFORE_END = 31, /* at the last cluster of a word; after an Emacs word */
    LODVARN_AFTER_END = 32   /* after a word */
};

/* Where a movement to a character stops. */
enum lodvarn_search {
    LODVARN_TO = 40,           /* forward, at the character; a deletion takes it too */
    LODVARN_TO_BEFORE = 41,    /* forward, at the character before it; a deletion leaves it */
    LODVARN_BACK_TO = 42,      /* back, at the character; a deletion takes it too */
    LODVARN_BACK_TO_AFTER = 43 /* back, after the character; a deletion leaves it */
};

/* The direction of a search for a text. For lodvarn_kill_range, where the killed text goes in a run of kills. */
enum lodvarn_direction {
    LODVARN_FORWARD = 50, /* to the end of the ring's text, as text after the cursor does */
    LODVARN_BACKWARD = 51 /* to its front, as text before the cursor does */
};

/* The letter case that a word gets. */
enum lodvarn_case {
    LODVARN_CAPITALIZE = 60, /* the first character in upper case, the others in lower case */
    LODVARN_LOWERCASE = 61,
    LODVARN_UPPERCASE = 62
};

/* What lodvarn_indent does. */
enum lodvarn_indentation {
    LODVARN_INDENT = 70, /* inserts spaces */
    LODVARN_DEDENT = 71  /* deletes leading blanks */
};

/* The side on which an offset stays if a text is inserted at it. */
enum lodvarn_side {
    LODVARN_BEFORE = 80, /* before the inserted text */
    LODVARN_AFTER = 81   /* after it */
};

/* A lent text: len bytes from at on. If len is 0, at is no pointer to read from. */
typedef struct lodvarn_view {
    const char *at;
    size_t len;
} lodvarn_view;

/* The text between two offsets. */
typedef struct lodvarn_range {
    size_t from;
    size_t to;
} lodvarn_range;

/* A line and a column of it. On a screen a line is a row. */
typedef struct lodvarn_position {
    size_t line;
    size_t column;
} lodvarn_position;

/* A grapheme cluster: the offsets where it begins and ends, and how many columns it takes. */
typedef struct lodvarn_cluster {
    size_t from;
    size_t to;
    size_t columns;
} lodvarn_cluster;

/* A change: the old text from `from` to old_to was replaced by the new text from `from` to new_to. */
typedef struct lodvarn_splice {
    size_t from;
    size_t old_to;
    size_t new_to;
} lodvarn_splice;

/* Where a motion goes, and what a kill, a copy or an indent covers. The functions below make one. The text of
 * lodvarn_to_match is read by the call to which the movement is passed. */
typedef struct lodvarn_movement {
    uint32_t kind;
    uint32_t c;
    size_t n;
    const char *text;
    size_t len;
} lodvarn_movement;

/* A screen. All but size and columns may be 0. Begin with lodvarn_screen screen = LODVARN_SCREEN(80); */
typedef struct lodvarn_screen {
    size_t size;
    size_t columns;         /* how many columns a row has: from 1 to 65535, as all others at most */
    size_t prompt;          /* the column where the text begins, after a prompt */
    size_t continuation;    /* the column where each line after the first begins, after another prompt */
    size_t tab;             /* the distance of tab stops; if 0, a tab is as wide as any control character */
    size_t controls;        /* the columns of a control character, such as 2 for ^A; if 0, as lodvarn_width says */
    enum lodvarn_mode mode; /* how columns are counted */
} lodvarn_screen;

#define LODVARN_SCREEN(columns) { sizeof(lodvarn_screen), (columns), 0, 0, 0, 0, LODVARN_UNICODE }

/* The options of a session. Begin with lodvarn_options options = LODVARN_OPTIONS; and set what should differ.
 *
 * limit: the most bytes that the text may have.
 *
 * max_entries, max_bytes: the most entries of the record, and the most bytes of removed and inserted text in them. As
 * long as the record exceeds a bound, each command removes its oldest change or closed group, which can't be undone
 * then. An open group stays, with all that follows its begin, and so do undone changes. Numbers of entries that were
 * returned before count the removed ones.
 *
 * ring_size, max_ring_bytes: the most texts in the kill ring, and the most bytes that they have together. The ring
 * drops its oldest text as long as it exceeds one. If that was the current text, the newest becomes current, and the
 * next kill begins a new text.
 *
 * prompt: the column where the text begins, at most 65535, for lodvarn_lines_up and lodvarn_lines_down.
 *
 * mode: how columns are counted.
 *
 * keep_undone: an edit normally drops the undone changes. With keep_undone each edit, and each begin or end of a
 * group, records them again first (NO_MEMORY if that fails), followed by their inverses in reverse order: text and
 * cursor stay, nothing can be redone, and undos reach every earlier text. So n undos go where n redos would have gone,
 * n more come back, and those after them continue with what was recorded before. A bound counts these entries too.
 * lodvarn_abandon_group, lodvarn_truncate and lodvarn_restart drop the undone changes nevertheless. */
typedef struct lodvarn_options {
    size_t size;
    size_t limit;
    size_t max_entries;
    size_t max_bytes;
    size_t ring_size;
    size_t max_ring_bytes;
    size_t prompt;
    enum lodvarn_mode mode;
    bool keep_undone;
} lodvarn_options;

#define LODVARN_OPTIONS                                                                                          \
    { sizeof(lodvarn_options), LODVARN_NO_LIMIT, LODVARN_NO_BOUND, LODVARN_NO_BOUND, 60, LODVARN_NO_BOUND, 0,    \
      LODVARN_UNICODE, false }

/* The kinds of movements. A program calls the functions below instead. */
enum lodvarn_movement_kind {
    LODVARN_WHOLE_LINE_ = 100,
    LODVARN_TO_LINE_START_ = 101,
    LODVARN_TO_LINE_END_ = 102,
    LODVARN_TO_FIRST_NONBLANK_ = 103,
    LODVARN_WHOLE_TEXT_ = 104,
    LODVARN_TO_TEXT_START_ = 105,
    LODVARN_TO_TEXT_END_ = 106,
    LODVARN_TO_MATCH_ = 107, /* and the one after it: by enum lodvarn_direction */
    /* those with a count */
    LODVARN_CHARS_BACK_ = 110,
    LODVARN_CHARS_FORWARD_ = 111,
    LODVARN_LINES_UP_ = 112,
    LODVARN_LINES_DOWN_ = 113,
    LODVARN_WHOLE_LINES_UP_ = 114,
    LODVARN_WHOLE_LINES_DOWN_ = 115,
    LODVARN_WORDS_BACK_ = 116,    /* and the two after it: by enum lodvarn_word */
    LODVARN_WORDS_FORWARD_ = 119, /* and the eight after it: by enum lodvarn_word, and then enum lodvarn_stop */
    LODVARN_TO_CHAR_ = 128        /* and the three after it: by enum lodvarn_search */
};

static inline lodvarn_movement lodvarn_movement_(uint32_t kind, uint32_t c, size_t n) {
    lodvarn_movement movement;
    movement.kind = kind;
    movement.c = c;
    movement.n = n;
    movement.text = NULL;
    movement.len = 0;
    return movement;
}

/* The index of a number in an enum; for a number outside of it one that leads to no kind. */
static inline uint32_t lodvarn_index_(uint32_t number, uint32_t first, uint32_t count) {
    return number - first < count ? number - first : 1000;
}

/* The movements. For languages that can't call inline functions, the library has each of these also under the same
 * name. */

/* The cursor's whole line, without its newline. No motion: lodvarn_move returns NOTHING. */
static inline lodvarn_movement lodvarn_whole_line(void) { return lodvarn_movement_(LODVARN_WHOLE_LINE_, 0, 0); }

/* To the start, or the end, of the cursor's line. */
static inline lodvarn_movement lodvarn_to_line_start(void) { return lodvarn_movement_(LODVARN_TO_LINE_START_, 0, 0); }
static inline lodvarn_movement lodvarn_to_line_end(void) { return lodvarn_movement_(LODVARN_TO_LINE_END_, 0, 0); }

/* To the first character of the cursor's line that is no blank, or to the line's end. Covers the text between that
 * offset and the cursor, on either side of it. */
static inline lodvarn_movement lodvarn_to_first_nonblank(void) {
    return lodvarn_movement_(LODVARN_TO_FIRST_NONBLANK_, 0, 0);
}

/* To the start of the n-th word back. */
static inline lodvarn_movement lodvarn_words_back(enum lodvarn_word word, size_t n) {
    return lodvarn_movement_(LODVARN_WORDS_BACK_ + lodvarn_index_((uint32_t)word, LODVARN_BIG, 3), 0, n);
}

/* To the n-th word forward, at the end or start of it that stop says. */
static inline lodvarn_movement lodvarn_words_forward(enum lodvarn_word word, enum lodvarn_stop stop, size_t n) {
    return lodvarn_movement_(LODVARN_WORDS_FORWARD_ + 3 * lodvarn_index_((uint32_t)word, LODVARN_BIG, 3) +
                                 lodvarn_index_((uint32_t)stop, LODVARN_AT_START, 3),
                             0, n);
}

/* To the n-th character c, or the farthest if there are fewer. */
static inline lodvarn_movement lodvarn_to_char(enum lodvarn_search search, uint32_t c, size_t n) {
    return lodvarn_movement_(LODVARN_TO_CHAR_ + lodvarn_index_((uint32_t)search, LODVARN_TO, 4), c, n);
}

/* To the start of the text that lodvarn_find finds from the cursor; forward that may be at the cursor itself, and
 * lodvarn_move returns DONE then. Covers the text between that offset and the cursor: back also the found text. The
 * text must not be empty: NO_SUCH_NUMBER. lodvarn_indent does not take it. */
static inline lodvarn_movement lodvarn_to_match(enum lodvarn_direction direction, const char *text, size_t len) {
    lodvarn_movement movement =
        lodvarn_movement_(LODVARN_TO_MATCH_ + lodvarn_index_((uint32_t)direction, LODVARN_FORWARD, 2), 0, 0);
    movement.text = text;
    movement.len = len;
    return movement;
}

/* n grapheme clusters back, or forward. */
static inline lodvarn_movement lodvarn_chars_back(size_t n) { return lodvarn_movement_(LODVARN_CHARS_BACK_, 0, n); }
static inline lodvarn_movement lodvarn_chars_forward(size_t n) {
    return lodvarn_movement_(LODVARN_CHARS_FORWARD_, 0, n);
}

/* n lines up, or down, or as many as there are. As a motion: to the cluster of that line whose index equals the
 * cursor's column, which is too far right among wide characters; lodvarn_row_above and lodvarn_row_below go by columns.
 * Up covers the cursor's line with its newline and the lines above; nothing in the first line. Down covers the newline
 * above the cursor's line, the line, and the lines below with their newlines, so that a kill joins the line above to
 * the one below; nothing in the last line. lodvarn_whole_lines_down(n + 1) covers the same lines without the newline
 * above. */
static inline lodvarn_movement lodvarn_lines_up(size_t n) { return lodvarn_movement_(LODVARN_LINES_UP_, 0, n); }
static inline lodvarn_movement lodvarn_lines_down(size_t n) { return lodvarn_movement_(LODVARN_LINES_DOWN_, 0, n); }

/* n whole lines with their newlines, or as many as there are: the cursor's line and those above it, or those below it.
 * No motion: lodvarn_move returns NOTHING. */
static inline lodvarn_movement lodvarn_whole_lines_up(size_t n) {
    return lodvarn_movement_(LODVARN_WHOLE_LINES_UP_, 0, n);
}
static inline lodvarn_movement lodvarn_whole_lines_down(size_t n) {
    return lodvarn_movement_(LODVARN_WHOLE_LINES_DOWN_, 0, n);
}

/* The whole text, which is no motion; to its start; to its end. */
static inline lodvarn_movement lodvarn_whole_text(void) { return lodvarn_movement_(LODVARN_WHOLE_TEXT_, 0, 0); }
static inline lodvarn_movement lodvarn_to_text_start(void) { return lodvarn_movement_(LODVARN_TO_TEXT_START_, 0, 0); }
static inline lodvarn_movement lodvarn_to_text_end(void) { return lodvarn_movement_(LODVARN_TO_TEXT_END_, 0, 0); }

/* Opening, saving and closing. */

/* Opens a session on a text, with the cursor at its end, and sets *out to it. If options is NULL it has those of
 * LODVARN_OPTIONS. Memory for the limit or the ring is not reserved. Errors: NO_ROOM, NO_MEMORY; they leave *out. */
LODVARN_CHECK_ int lodvarn_open(lodvarn **out, const lodvarn_options *options, const char *text, size_t len);

/* Opens a session from the bytes that lodvarn_save returned, and sets *out to it. Text, cursor, record, ring and
 * options are as they were; nothing has changed yet, and no reports are kept. Safe for untrusted bytes: whoever made
 * them, the session is one that lodvarn_save saves as these bytes; at no time does it hold more than 6 * len bytes that
 * it asked for. Errors: UNKNOWN_FORMAT if the bytes do not begin as this version saves them, DAMAGED if their checksum
 * is wrong or no session is saved as them, NO_MEMORY; they leave *out. */
LODVARN_CHECK_ int lodvarn_load(lodvarn **out, const char *bytes, size_t len);

/* Saves the session: lends it as bytes, which are valid until the next lodvarn_save or lodvarn_close of the session.
 * They are the same on every machine; docs/FORMAT.md describes them. Reports are not saved. A read. Errors: NO_ROOM only
 * if the text of an entry has 4 GiB or more, or an offset in one is as great; NO_MEMORY. */
LODVARN_CHECK_ int lodvarn_save(lodvarn *s, lodvarn_view *bytes);

/* Closes the session, frees its memory, and sets *s to NULL. Does nothing if s or *s is NULL. */
void lodvarn_close(lodvarn **s);

/* Begins again with a text, with the cursor at its end, as an editor does with the next line. The record is empty then.
 * The ring keeps its texts; the next kill begins a new one, and lodvarn_yank_pop returns NOTHING until a yank. The
 * options stay. It is reported as the replacement of the whole text. Errors: NO_ROOM, and NO_MEMORY, which leaves the
 * whole session too, only if the text needs more memory. */
int lodvarn_restart(lodvarn *s, const char *text, size_t len);

/* Sets the options; bounds hold from now on. A kill after it still continues a run of kills. Errors: NO_ROOM if the
 * text is longer than the limit. */
int lodvarn_set_options(lodvarn *s, const lodvarn_options *options);

/* Writes the options to *options, whose size the caller has set. A read. */
int lodvarn_get_options(lodvarn *s, lodvarn_options *options);

/* Commands: motions and edits. */

/* Moves the cursor to the offset pos. Errors: BAD_OFFSET. */
int lodvarn_set_pos(lodvarn *s, size_t pos);

/* Moves the cursor. Returns NOTHING if there is nowhere to go. */
int lodvarn_move(lodvarn *s, lodvarn_movement movement);

/* Inserts the character c n times at the cursor, which goes after them. Errors: NO_ROOM, NO_MEMORY. */
int lodvarn_insert(lodvarn *s, uint32_t c, size_t n);

/* Types the bytes that a terminal sends: inserts each whole character at the front of them as lodvarn_insert does, and
 * sets *used to how many bytes they had. It stops before an incomplete character at the end, before bytes that are not
 * UTF-8, and before a character that can't be inserted. Keep the other bytes, and pass them again with those that
 * follow. Returns NOTHING if there is no whole character. Errors, only if the first character can't be inserted:
 * NO_ROOM, NO_MEMORY. */
LODVARN_CHECK_ int lodvarn_type(lodvarn *s, const char *bytes, size_t len, size_t *used);

/* Inserts a text n times at the cursor, which goes after it. Returns NOTHING if the text is empty. Errors: NO_ROOM,
 * NO_MEMORY. */
int lodvarn_paste(lodvarn *s, const char *text, size_t len, size_t n);

/* Replaces the whole text. The cursor goes to the offset pos of the new text. Errors: BAD_OFFSET if pos is no boundary
 * of the new text, NO_ROOM, NO_MEMORY. */
int lodvarn_set_text(lodvarn *s, size_t pos, const char *text, size_t len);

/* Inserts a text at an offset. The cursor's offset keeps its number. Errors: BAD_OFFSET also if the cursor would be
 * inside a character then, NO_ROOM, NO_MEMORY. */
int lodvarn_insert_at(lodvarn *s, size_t offset, const char *text, size_t len);

/* Replaces the text in a range. The cursor goes after the new text. Errors: BAD_OFFSET, NO_ROOM, NO_MEMORY. */
int lodvarn_replace(lodvarn *s, lodvarn_range range, const char *text, size_t len);

/* Deletes the text in a range. The cursor goes to its start. Errors: BAD_OFFSET, NO_MEMORY. */
int lodvarn_delete_range(lodvarn *s, lodvarn_range range);

/* Delete n clusters after the cursor; before it. Return NOTHING if there are none. Errors: NO_MEMORY. */
int lodvarn_delete(lodvarn *s, size_t n);
int lodvarn_backspace(lodvarn *s, size_t n);

/* Deletes what a movement to one side of the cursor covers: to the start or the end of the line or the text, by words,
 * or to a character or a text. At the end of a line lodvarn_to_line_end takes the newline, and at the start of one
 * lodvarn_to_line_start the newline before it, CR LF as one. The ring keeps no deletion but those by lodvarn_kill and
 * lodvarn_kill_range. Returns NOTHING if there is nothing. Errors: NO_SUCH_NUMBER also for the other movements,
 * NO_MEMORY. */
int lodvarn_delete_by(lodvarn *s, lodvarn_movement movement);

/* Exchanges the clusters before and after the cursor; at the end of the text, the last two. The cursor goes after both.
 * Returns NOTHING if there are not two. Errors: NO_MEMORY. */
int lodvarn_transpose_chars(lodvarn *s);

/* Exchanges the word that ends n-th after the cursor with the word n words before it. The cursor goes after both.
 * Returns NOTHING if there are not two; the cursor may have moved then. Errors: NO_ROOM also if a step between would
 * exceed the limit, NO_MEMORY. */
int lodvarn_transpose_words(lodvarn *s, size_t n);

/* Changes the letter case of the rest of the word at the cursor, or of the next word. The cursor goes after the word.
 * Returns NOTHING if there is none. Errors: NO_ROOM, NO_MEMORY. */
int lodvarn_change_case(lodvarn *s, enum lodvarn_case to);

/* Inserts amount spaces at the start of each line that a movement covers, or deletes up to amount bytes of blanks
 * there; amount is at most 255. Returns NOTHING if that changes nothing. Errors: NO_SUCH_NUMBER also for
 * lodvarn_to_match, NO_ROOM, NO_MEMORY. */
int lodvarn_indent(lodvarn *s, lodvarn_movement movement, size_t amount, enum lodvarn_indentation indentation);

/* Commands: the kill ring. */

/* Deletes what a movement covers. The ring keeps it, except by lodvarn_chars_back and lodvarn_chars_forward.
 *
 * Consecutive kills, a run, become one text of the ring: text from before the cursor goes to its front, text from
 * after the cursor to its end. A kill that removes nothing does not end a run. Neither do lodvarn_kill_range,
 * lodvarn_set_options, a lodvarn_type that returns NOTHING, the calls that return what changed, the reads, and a call
 * that returns NOT_UTF8, NO_SUCH_NUMBER or TOO_SMALL. Every other command ends it, also a motion, a kill by clusters, a
 * begin or end of a group, and a command that had nothing to do: the next kill begins a new text. That goes after the
 * newest, also after lodvarn_yank_pop, so only a full ring drops one, its oldest. Returns NOTHING if there is nothing.
 * Errors: NO_MEMORY. */
int lodvarn_kill(lodvarn *s, lodvarn_movement movement);

/* Kills the text in a range, wherever the cursor is. The cursor goes to its start. Returns NOTHING if the range is
 * empty, and the cursor stays then. Errors: BAD_OFFSET, NO_MEMORY. */
int lodvarn_kill_range(lodvarn *s, lodvarn_range range, enum lodvarn_direction direction);

/* Inserts the ring's current text n times at the cursor, which goes after it. Returns NOTHING if the ring has no text,
 * or an empty one. Errors: NO_ROOM, NO_MEMORY. */
int lodvarn_yank(lodvarn *s, size_t n);

/* Replaces the text that the last call yanked by the one before it in the ring. One undo takes back this, the yank and
 * the calls of this between them; but not a yank of n above 1, of which this replaces the last text, nor what was done
 * before lodvarn_mark_saved. If the text before it is empty, the yanked text is deleted. Returns NOTHING if
 * lodvarn_last_was_yank is false. Errors: NO_ROOM, NO_MEMORY, BAD_YANK_SIZE only right after lodvarn_load, from bytes
 * that were made to name another yanked text than stands before the cursor. */
int lodvarn_yank_pop(lodvarn *s);

/* Adds a text to the ring as a kill of its own: the next lodvarn_yank inserts it, and the next kill begins another
 * text. Text, cursor and record stay. A ring of size 0 keeps nothing. Errors: NO_MEMORY. */
LODVARN_CHECK_ int lodvarn_ring_add(lodvarn *s, const char *text, size_t len);

/* Removes all texts of the ring and frees them, without overwriting them. The next kill begins a new text, and
 * lodvarn_yank_pop returns NOTHING. No command: all else stays. */
int lodvarn_ring_clear(lodvarn *s);

/* Copies what a movement covers to a buffer. A command: it ends a run of kills. Returns NOTHING if there is nothing.
 * Errors: TOO_SMALL. */
LODVARN_CHECK_ int lodvarn_copy(lodvarn *s, lodvarn_movement movement, char *out, size_t cap, size_t *len);

/* Commands: undo and its record. */

/* Undoes the last n changes and groups, or all if there are fewer; while a group is open, at most those in the
 * innermost one, which stays open. The cursor goes to where it was before them. Returns NOTHING if there was no
 * change; if a group is open, the whole session stays then. Errors: NO_ROOM if a text on the way back is longer than
 * the limit, NO_MEMORY.
 *
 * An edit of several changes makes them a group: lodvarn_set_text, lodvarn_yank_pop, lodvarn_transpose_chars,
 * lodvarn_transpose_words, lodvarn_change_case and lodvarn_indent do, also if an error stopped them after some. If
 * there is no memory for the marks of such a group, each of its changes is undone alone.
 *
 * Any other edit is one change. It joins the last change, and is undone with it, if it is
 * - one letter or digit, by lodvarn_type or by lodvarn_insert with n = 1, and the last change is an insertion that
 *   ends at its offset;
 * - the deletion or kill of one letter or digit, and the last change is a deletion at that offset, to either side;
 * - a text by lodvarn_replace, and the last change is one whose new text ends at its offset.
 * Motions between them do not matter. Nothing joins across the begin or end of a group, or right after
 * lodvarn_undo_boundary, lodvarn_mark_saved, or an edit that recorded undone changes by the option keep_undone. */
int lodvarn_undo(lodvarn *s, size_t n);

/* Redoes the last undone change or group. Returns NOTHING if there is none. Errors: NO_ROOM as for an undo, NO_MEMORY.
 */
int lodvarn_redo(lodvarn *s);

/* Ends what is joined: the next change is undone alone, the next kill begins a new text of the ring, and
 * lodvarn_yank_pop returns NOTHING. Text, cursor, groups and undone changes stay. An edit that changes nothing leaves
 * the boundary; an undo, a redo, lodvarn_truncate, and the begin, end, reopening or abandon of a group remove it. */
int lodvarn_undo_boundary(lodvarn *s);

/* Begins an undo group: once it is closed, one undo takes back all its changes. Groups nest. Undone changes can be
 * redone until something changes in the group. Errors: NO_MEMORY. */
int lodvarn_begin_group(lodvarn *s);

/* Close the innermost group; all that are open. Return NOTHING if it had no change, or none is open. Errors:
 * NO_MEMORY. */
int lodvarn_end_group(lodvarn *s);
int lodvarn_end_all_groups(lodvarn *s);

/* Opens the group again whose end is the last entry, also that of an edit, or of an undone group that keep_undone
 * recorded: further changes belong to it until it is closed again. Undone changes are dropped. Returns NOTHING if there
 * is no such group, or if keep_undone is set and there is a change to redo; the record stays then. */
int lodvarn_reopen_group(lodvarn *s);

/* Takes back the innermost open group, with the closed groups in it, and drops it, as for a completion that is tried
 * and given up. Text and record are as they were at its begin, and nothing can be redone unless the group is empty.
 * The cursor goes to where it was before the group's first change, and the ring keeps what was killed. Returns NOTHING
 * if no group is open, and text and record stay. Errors: NO_ROOM as for an undo, NO_MEMORY. */
int lodvarn_abandon_group(lodvarn *s);

/* Keeps the first entries of the record, and drops the others and the undone changes. The kept ones must lead to the
 * present text. Errors: NOT_REPLAYING if they do not, NO_MEMORY. */
int lodvarn_truncate(lodvarn *s, size_t entries);

/* Marks the text as saved, for lodvarn_is_saved. The next change is undone alone, so that an undo can come back to this
 * text. No command: text, cursor and ring stay. A session begins unsaved, also after lodvarn_restart. */
int lodvarn_mark_saved(lodvarn *s);

/* What changed. A session notes all that changes its text: also an undo, a redo, and an edit that an error stopped
 * halfway. Apply the changes in order to a copy of the text, and the copy equals the session's. None of these calls
 * ends a run of kills. */

/* Writes all that changed since this was called last, or since the session was opened, as one change to *splice. Takes
 * no memory. Returns NOTHING if nothing changed. */
int lodvarn_take_change(lodvarn *s, lodvarn_splice *splice);

/* The kind of a report. */
enum lodvarn_report_kind {
    LODVARN_CHAR_INSERTED = 1,
    LODVARN_TEXT_INSERTED = 2,
    LODVARN_DELETED_FORWARD = 3,  /* a deletion after the cursor, or of a range */
    LODVARN_DELETED_BACKWARD = 4, /* a deletion before the cursor, or of a range that is killed backward */
    LODVARN_REPLACED = 5,         /* a replacement; also each change of an undo or a redo */
    LODVARN_KILL_STARTED = 6,     /* the deletions up to the next report of kind KILL_STOPPED are a kill */
    LODVARN_KILL_STOPPED = 7,     /* the kill has ended. These two report no change, and their numbers are 0 */
    LODVARN_FOLDED = 8            /* all waiting and all later changes as one, without texts: its new text stands in the
                                     present text. Its lengths are 0 if only kills began and ended */
};

/* A report: at the offset at, old_len bytes were replaced by new_len bytes. The cursor moved from pos_before in the
 * old text to pos_after in the new one; both are 0 if the positions are not known. old_text and new_text are the
 * removed and the inserted text. They are empty if no texts are kept or the report is folded, and valid until the next
 * call on the session that may change something. Begin with lodvarn_report report = LODVARN_REPORT; */
typedef struct lodvarn_report {
    size_t size;
    enum lodvarn_report_kind kind;
    size_t at;
    size_t old_len;
    size_t new_len;
    size_t pos_before;
    size_t pos_after;
    lodvarn_view old_text;
    lodvarn_view new_text;
} lodvarn_report;

#define LODVARN_REPORT \
    { sizeof(lodvarn_report), LODVARN_FOLDED, 0, 0, 0, 0, 0, { NULL, 0 }, { NULL, 0 } }

/* Keeps a report of each change from now on, in a queue of that many reports and text_bytes bytes of their texts. The
 * queue is allocated here, so no later call fails because of it. If a report or its texts do not fit, all waiting
 * reports and the new one become one report of kind FOLDED, into which each later change goes until it is taken. If
 * text_bytes is 0, reports have no texts and at most one waits: a change that comes before it is taken is folded into
 * it. Errors: IS_WATCHED, NO_SUCH_NUMBER if reports is 0, NO_MEMORY. */
int lodvarn_watch(lodvarn *s, size_t reports, size_t text_bytes);

/* Keeps no more reports, and drops those that wait. */
int lodvarn_unwatch(lodvarn *s);

/* Removes the oldest report from the queue and writes it to *report, whose size the caller has set. Returns NOTHING if
 * none waits. */
int lodvarn_take_report(lodvarn *s, lodvarn_report *report);

/* Reads. They change nothing, and do not end a run of kills. */

/* Lend the text; the text in a range. Errors: BAD_OFFSET for a range. */
int lodvarn_text(lodvarn *s, lodvarn_view *view);
int lodvarn_slice(lodvarn *s, lodvarn_range range, lodvarn_view *view);

/* Copies the text to a buffer and ends it with a NUL, for functions such as system and regexec. Sets *len to its length
 * without the NUL, and needs a cap above that. Errors: TOO_SMALL. */
LODVARN_CHECK_ int lodvarn_text_copy(lodvarn *s, char *out, size_t cap, size_t *len);

/* Returns the offset of the cursor. */
size_t lodvarn_pos(lodvarn *s);

/* Finds a text from the offset `from` on: forward the first occurrence that begins there or later, backward the last
 * one that ends there or earlier. Returns NOTHING if there is none, or if the text is empty. Errors: BAD_OFFSET. */
int lodvarn_find(lodvarn *s, size_t from, const char *text, size_t len, enum lodvarn_direction direction,
                 lodvarn_range *range);

/* Returns the number of lines, at least 1. */
size_t lodvarn_line_count(lodvarn *s);

/* Sets *line to the number of the line that has the offset; a newline belongs to the line that it ends. Errors:
 * BAD_OFFSET. */
int lodvarn_line_at(lodvarn *s, size_t offset, size_t *line);

/* Sets *range to a line, without its newline. Returns NOTHING if there is no such line. */
int lodvarn_line_range(lodvarn *s, size_t line, lodvarn_range *range);

/* Sets *position to the cursor's line, and to the width of that line up to the cursor, at most 65535. */
int lodvarn_cursor_position(lodvarn *s, lodvarn_position *position);

/* Sets *range to what lodvarn_copy would copy by the movement if the cursor were at the offset `from`; pass
 * lodvarn_pos(s) for the cursor. Returns NOTHING if that is nothing. Errors: BAD_OFFSET. */
int lodvarn_movement_range(lodvarn *s, size_t from, lodvarn_movement movement, lodvarn_range *range);

/* Sets *offset to where lodvarn_move would bring the cursor from the offset `from`. Returns NOTHING if there is nowhere
 * to go. Errors: BAD_OFFSET. */
int lodvarn_movement_target(lodvarn *s, size_t from, lodvarn_movement movement, size_t *offset);

/* Measure the first grapheme cluster after an offset; the last one before it. They read no more of the text than that
 * needs. Return NOTHING at the end of the text; at its start. Errors: BAD_OFFSET. */
int lodvarn_cluster_at(lodvarn *s, size_t offset, lodvarn_cluster *cluster);
int lodvarn_cluster_before(lodvarn *s, size_t offset, lodvarn_cluster *cluster);

/* Writes the grapheme clusters of the text from an offset on to a buffer, with their columns in the mode, until the
 * buffer is full or the text ends. Sets *count to how many these are, and *next to where the next cluster begins, or to
 * LODVARN_NO_OFFSET if none follows. It reads the text up to there. Errors: BAD_OFFSET. */
int lodvarn_clusters_from(lodvarn *s, enum lodvarn_mode mode, size_t from, lodvarn_cluster *clusters, size_t cap,
                          size_t *count, size_t *next);

/* Writes the offsets where the rows of the text begin on a screen, as by lodvarn_rows, from a row that begins at the
 * offset `from`, itself the first, until the buffer is full or the text ends. `from` is 0, the start of a line, or an
 * offset that lodvarn_rows or this call wrote. Sets *count to how many it wrote, and *next to where the next row begins,
 * or to LODVARN_NO_OFFSET if none follows. It reads the text up to there. Two rows begin at one offset if no cluster
 * fits in the first, as after a prompt up to the right edge. So that *next leads on then, cap must be 2 or more. Errors:
 * BAD_OFFSET. */
int lodvarn_rows_from(lodvarn *s, const lodvarn_screen *screen, size_t from, size_t *starts, size_t cap, size_t *count,
                      size_t *next);

/* Set *offset to n rows above the cursor on a screen; below it: to the last offset of that row whose column is at most
 * *column. Pass LODVARN_OWN_COLUMN in *column for the cursor's column, which is written there, and pass that to the
 * next such call, so that the cursor comes back to its column after a shorter row. The rows are those of lodvarn_rows:
 * the end of a line that fills its last row stands in the next row, where the next line begins. In a long line pass in
 * `from` the start of a row of the cursor's line at or above the cursor's row and the one it leads to, as written by
 * lodvarn_rows_from: the line is laid out only from there. Otherwise pass LODVARN_LINE_START, which also stands for an
 * offset in another line or after the cursor, and for one below the row that a motion leads to. They read the text only
 * from there to that row. Return NOTHING if there are fewer rows. Errors: BAD_OFFSET. */
int lodvarn_row_above(lodvarn *s, const lodvarn_screen *screen, size_t from, size_t n, size_t *column, size_t *offset);
int lodvarn_row_below(lodvarn *s, const lodvarn_screen *screen, size_t from, size_t n, size_t *column, size_t *offset);

/* Return whether lodvarn_undo with n = 1, or lodvarn_redo, would find a change. */
bool lodvarn_can_undo(lodvarn *s);
bool lodvarn_can_redo(lodvarn *s);

/* Returns whether the text is the one that lodvarn_mark_saved marked last, by the record: it was not changed since, or
 * undos, redos and abandons came back to it. Groups that begin, end or are reopened leave it so. It is false for good
 * once a change that was made before the mark is dropped: because its group was abandoned, because an edit dropped it
 * after it was undone, or by a bound. With keep_undone, only undos come back. */
bool lodvarn_is_saved(lodvarn *s);

/* Returns the number of entries of the record, marks of groups included. */
size_t lodvarn_record_entries(lodvarn *s);

/* Returns the number of open groups. */
size_t lodvarn_group_level(lodvarn *s);

/* Returns the number of texts in the ring. */
size_t lodvarn_ring_count(lodvarn *s);

/* Lends a text of the ring: for back = 0 the current one, which lodvarn_yank would insert, for 1 the one by which
 * lodvarn_yank_pop would replace that, and so on. Returns NOTHING if back is lodvarn_ring_count or more. */
int lodvarn_ring_text(lodvarn *s, size_t back, lodvarn_view *view);

/* Returns whether lodvarn_yank_pop would find a yanked text to replace: from a lodvarn_yank or lodvarn_yank_pop that
 * inserted one, up to the next command. A kill that removes nothing leaves it so. */
bool lodvarn_last_was_yank(lodvarn *s);

/* Returns the number of waiting reports; a folded one is one. */
size_t lodvarn_report_count(lodvarn *s);

/* Calls without a session. */

/* Returns the version of the library, in the form of LODVARN_VERSION_NUMBER. */
uint32_t lodvarn_version(void);

/* Return the name of an answer, such as "LODVARN_NO_ROOM", or "unknown"; a sentence that says what it means, such as
 * "the text would exceed the limit". Both are NUL-terminated, and valid for ever. */
const char *lodvarn_answer_name(int answer);
const char *lodvarn_error_text(int answer);

/* Runs a script in a session of its own and writes its output to a buffer. The script need not be UTF-8. docs/RULES.md
 * describes scripts. Errors: TOO_SMALL, NO_MEMORY. */
int lodvarn_script(const char *script, size_t len, char *out, size_t cap, size_t *printed);

/* Sets *columns to the width of a text, at most 65535. */
int lodvarn_width(enum lodvarn_mode mode, const char *text, size_t len, size_t *columns);

/* Set *bytes to the length of the first grapheme cluster of a text; of the last one. Return NOTHING if the text is
 * empty. They check that the whole text is UTF-8: for the text of a session, use lodvarn_cluster_at. */
int lodvarn_first_cluster(const char *text, size_t len, size_t *bytes);
int lodvarn_last_cluster(const char *text, size_t len, size_t *bytes);

/* Writes the grapheme clusters of a text to a buffer, with their columns in the mode. For the text of a session, use
 * lodvarn_clusters_from. Errors: TOO_SMALL. */
int lodvarn_clusters(enum lodvarn_mode mode, const char *text, size_t len, lodvarn_cluster *clusters, size_t cap,
                     size_t *count);

/* Sets *cell to the row, in line, and the column of an offset of a text on a screen.
 * - The text begins at column prompt of row 0. A newline, "\n" or "\r\n", leads to column continuation of the next row.
 * - A cluster that does not fit in the rest of its row goes whole to the next one, with the offset before it. One
 *   without columns always fits. So in a full row a newline leads one row down, and not two.
 * - An offset at the right edge is at column 0 of the next row; one inside a cluster is where the cluster starts.
 * - A tab goes to the next column that is a multiple of tab, or to the right edge if that is nearer. If tab is 0, it is
 *   a control character as any other.
 * Errors: BAD_OFFSET. */
int lodvarn_cell(const lodvarn_screen *screen, size_t offset, const char *text, size_t len, lodvarn_position *cell);

/* Sets *offset to the offset of a text at a cell of the screen, such as a mouse points to: the last offset between two
 * clusters whose cell, by lodvarn_cell, is that one or before it, by rows and then by columns; 0 if all are after it.
 */
int lodvarn_offset_at(const lodvarn_screen *screen, lodvarn_position cell, const char *text, size_t len,
                      size_t *offset);

/* Writes the offsets where the rows of a text begin on a screen, as lodvarn_cell lays it out, to a buffer. A row ends
 * where the next one begins. For the text of a session, use lodvarn_rows_from. Errors: TOO_SMALL. */
int lodvarn_rows(const lodvarn_screen *screen, const char *text, size_t len, size_t *starts, size_t cap, size_t *count);

/* Maps an offset in the text before a change to the text after it, for marks and selections. An offset inside the
 * removed text goes to the start of the new text, or with LODVARN_AFTER to its end. Map each offset by each report in
 * order, whose change is {at, at + old_len, at + new_len}, or by the change that lodvarn_take_change writes; but that
 * takes in what lies between several changes, so that an offset there goes to an end of it. Errors: BAD_OFFSET if
 * old_to or new_to is before from, or *mapped would exceed SIZE_MAX. */
int lodvarn_map_offset(const lodvarn_splice *change, size_t offset, enum lodvarn_side side, size_t *mapped);

#ifdef __cplusplus
}
#endif

#endif
