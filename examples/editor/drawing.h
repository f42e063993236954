/* The text of a session in a terminal, of several rows, below what was there before. What changed is drawn alone.
 *
 *     static struct drawing d;
 *     if (!drawing_redraw(&d, s)) return 1;
 *
 * All goes to stdout. Define _DEFAULT_SOURCE before all headers. */
#ifndef DRAWING_H
#define DRAWING_H

#include "lodvarn.h"
#include <stdio.h>
#include <stdlib.h>
#include <string.h>
#include <sys/ioctl.h>

static const char prompt[] = "> ";
static const size_t prompt_columns = 2;

/* A screen of that many columns, where a tab is drawn as a blank. */
static inline lodvarn_screen screen_of(size_t columns) {
    lodvarn_screen screen = LODVARN_SCREEN(columns);
    screen.prompt = prompt_columns;
    return screen;
}

/* The screen. Prompt and text make rows, as lodvarn_cell counts them, up to the row last. Those from top to bottom are
 * shown on a screen of that size. */
struct view { size_t top, bottom, last, columns, height; };

/* An offset of the text and where it stands. */
struct spot { size_t offset, row, column; };

/* What is drawn. At first, and where all is 0, nothing is. */
struct drawing {
    char *text; /* as it was drawn last */
    size_t len, size;
    struct view shown;  /* of no height if nothing is shown */
    struct spot cursor; /* the terminal's, in rows of the text */
};

/* Moves the terminal's cursor to a cell. Only relative moves lead to its row, since what was there before the editor
 * began stands above. */
static inline void go_to(struct drawing *d, size_t row, size_t column) {
    if (row < d->cursor.row) printf("\x1b[%zuA", d->cursor.row - row);
    if (row > d->cursor.row) printf("\x1b[%zuB", row - d->cursor.row);
    printf("\x1b[%zuG", column + 1);
    d->cursor.row = row;
}

/* Nothing is drawn any more: the terminal's cursor is where the prompt will begin. */
static inline void drawing_forget(struct drawing *d) {
    d->shown = (struct view){0, 0, 0, 0, 0};
    d->cursor = (struct spot){0, 0, 0};
}

/* Copies the text, since what the session lends is gone after the next edit. Returns whether there was memory. */
static inline int read_text(struct drawing *d, lodvarn *s) {
    while (lodvarn_text_copy(s, d->text, d->size, &d->len) == LODVARN_TOO_SMALL) {
        free(d->text);
        d->text = malloc(d->size = 2 * d->len + 64);
        if (!d->text) return d->size = 0;
    }
    return 1;
}

/* Begins the next row. Before that it erases what is left of the last one, if that is not full. */
static inline void begin_row(struct drawing *d, struct spot *at, const struct view *view) {
    int was_shown = view->top <= at->row && at->row <= view->bottom;
    if (was_shown && at->column < view->columns) fputs("\x1b[K", stdout);
    if (was_shown && at->row < view->bottom) {
        fputs("\r\n", stdout);
        d->cursor.row = at->row + 1;
    }
    at->row++;
    at->column = 0;
}

/* Draws a cluster, or begins the row after a newline. A tab is a blank. The terminal may measure a cluster of
 * several characters as the sum of their widths. So the cursor is placed after it, and at the right edge it is not
 * wrapped. */
static inline void draw_cluster(struct drawing *d, const char *bytes, lodvarn_cluster it, struct spot *at,
                         const struct view *view) {
    size_t sum = 0, len = it.to - it.from;
    if (*bytes == '\n' || at->column + it.columns > view->columns) begin_row(d, at, view);
    if (*bytes == '\n') return;
    at->column += it.columns;
    if (at->row < view->top || view->bottom < at->row) return;
    if (at->column >= view->columns) lodvarn_width(LODVARN_WC_WIDTH, bytes, len, &sum);
    if (sum > it.columns) fputs("\x1b[?7l", stdout);
    fwrite(*bytes == '\t' ? " " : bytes, 1, len, stdout);
    if (sum > it.columns) fputs("\x1b[?7h", stdout);
    if (len > 1 && at->column < view->columns) printf("\x1b[%zuG", at->column + 1);
}

/* Draws the text from a spot up to an offset, and erases what is left of the row there, or of all at the text's end. */
static inline void draw(struct drawing *d, lodvarn *s, struct spot at, size_t end, const struct view *view) {
    if (view->bottom < at.row) return;
    if (at.row < view->top) go_to(d, view->top, 0);
    else go_to(d, at.row, at.column);
    if (at.offset == 0) {
        if (view->top == 0) fputs(prompt, stdout);
        at.column = prompt_columns;
    }
    for (lodvarn_cluster it; at.offset < end && lodvarn_cluster_at(s, at.offset, &it) > 0; at.offset = it.to)
        draw_cluster(d, d->text + at.offset, it, &at, view);
    if (end == d->len && at.column >= view->columns) begin_row(d, &at, view);
    if (at.row < view->top || view->bottom < at.row || at.column >= view->columns) return;
    /* What is erased from the screen's first cell on would go into the scrollback of some terminals. */
    int takes_below = end == d->len && (at.row > view->top || at.column > 0);
    fputs(takes_below ? "\x1b[J" : "\x1b[K", stdout);
}

/* Where to begin if the text has changed from an offset on: a cluster before, since the new text may join that one, and
 * not at the left edge of a row that is wrapped, since the new text may fit in the row above. */
static inline struct spot spot_before(struct drawing *d, lodvarn *s, size_t offset, size_t columns) {
    lodvarn_screen screen = screen_of(columns);
    lodvarn_position cell = {0, 0};
    lodvarn_cluster it;
    do {
        if (lodvarn_cluster_before(s, offset, &it) <= 0 || it.from == 0) return (struct spot){0, 0, 0};
        offset = it.from;
        lodvarn_cell(&screen, offset, d->text, offset, &cell);
    } while (cell.column == 0 && d->text[offset - 1] != '\n');
    return (struct spot){offset, cell.line, cell.column};
}

/* What of the text should be shown on a screen of that size, and the spot of the cursor. */
static inline struct view view_of(struct drawing *d, lodvarn *s, struct winsize size, struct spot *cursor) {
    lodvarn_screen screen = screen_of(size.ws_col);
    lodvarn_position at = {0, 0}, last = {0, 0};
    size_t pos = lodvarn_pos(s);
    lodvarn_cell(&screen, pos, d->text, d->len, &at);
    lodvarn_cell(&screen, d->len, d->text, d->len, &last);
    *cursor = (struct spot){pos, at.line, at.column};
    size_t top = at.line < size.ws_row ? 0 : at.line - size.ws_row + 1;
    size_t bottom = last.line - top < size.ws_row ? last.line : top + size.ws_row - 1;
    return (struct view){top, bottom, last.line, size.ws_col, size.ws_row};
}

/* How many rows lower the cursor is once the terminal has got narrower. Most terminals then wrap each row that no
 * longer fits. A wider one joins none, since each row was begun by a newline. */
static inline size_t rows_wrapped(const struct drawing *d, size_t columns) {
    lodvarn_screen before = screen_of(d->shown.columns), now = screen_of(columns);
    size_t wrapped = 0;
    for (size_t row = d->shown.top; row <= d->cursor.row; row++) {
        lodvarn_position start = {row, 0}, end = {row + 1, 0};
        size_t from = 0, to = 0, on = 0, pos = d->cursor.offset;
        lodvarn_offset_at(&before, start, d->text, d->len, &from);
        lodvarn_offset_at(&before, end, d->text, d->len, &to);
        /* The cursor stands on a cluster, with which it may be wrapped. */
        lodvarn_first_cluster(d->text + pos, d->len - pos, &on);
        if (row == d->cursor.row && pos + on < to) to = pos + on;
        if (to > from && d->text[to - 1] == '\n') to--;
        now.prompt = row ? 0 : prompt_columns;
        lodvarn_cell(&now, to - from, d->text + from, to - from, &end);
        wrapped += end.line - (end.line && !end.column);
    }
    return wrapped;
}

/* Draws all if other rows are shown than before. Else it draws from the first change on: to the end, or if there
 * are as many rows as before, to the end of the line in which the last change ends. Returns 0 if there is no memory. */
static inline int drawing_redraw(struct drawing *d, lodvarn *s) {
    lodvarn_splice change;
    struct winsize size;
    struct spot cursor;
    if (ioctl(1, TIOCGWINSZ, &size) || !size.ws_col || !size.ws_row) size = (struct winsize){24, 80, 0, 0};
    if (size.ws_col < d->shown.columns) d->cursor.row += rows_wrapped(d, size.ws_col);
    int has_changed = lodvarn_take_change(s, &change) > 0;
    if (!read_text(d, s)) return 0;
    struct view view = view_of(d, s, size, &cursor);
    if (view.top != d->shown.top || view.columns != d->shown.columns || view.height != d->shown.height) {
        d->cursor.row = d->cursor.row - d->shown.top + view.top;
        go_to(d, view.top, 0);
        /* Erases the first row, and then what is below it, for the reason in draw. */
        fputs("\x1b[K\x1b" "7\x1b[B\x1b[J\x1b" "8", stdout);
        draw(d, s, (struct spot){0, 0, 0}, d->len, &view);
    } else if (has_changed) {
        const char *newline = NULL;
        if (view.last == d->shown.last) newline = memchr(d->text + change.new_to, '\n', d->len - change.new_to);
        draw(d, s, spot_before(d, s, change.from, view.columns), newline ? (size_t)(newline - d->text) : d->len, &view);
    }
    go_to(d, cursor.row, cursor.column);
    d->cursor.offset = cursor.offset;
    fflush(stdout);
    d->shown = view;
    return 1;
}

#endif
