/* The rows of a text on a screen. */
#include "test.h"

/* A offset and its cell, on a screen of so many columns, after a prompt, with tab stops and in a mode. */
struct laid {
    const char *what, *text;
    size_t offset;
    lodvarn_screen screen;
    lodvarn_position cell;
};

/* The cell of each offset; and the offset is the last one at that cell. */
static const struct laid cells[] = {
    {"nothing, without a prompt", "", 0, ON(10, 0, 0, 0, 0, U), {0, 0}},
    {"nothing, after a prompt", "", 0, ON(10, 2, 0, 0, 0, U), {0, 2}},
    {"two letters after a prompt", "ab", 2, ON(10, 2, 0, 0, 0, U), {0, 4}},
    {"a newline leads below, and to the left", "ab\ncd", 3, ON(10, 2, 0, 0, 0, U), {1, 0}},
    {"and letters go on there", "ab\ncd", 5, ON(10, 2, 0, 0, 0, U), {1, 2}},
    {"so does the one cluster of a carriage return and a newline", "ab\r\ncd", 5, ON(10, 2, 0, 0, 0, U), {1, 1}},
    {"newlines alone", "\n\n", 2, ON(10, 5, 0, 0, 0, U), {2, 0}},
    {"a line after another prompt", "ab\ncd", 4, ON(10, 2, 3, 0, 0, U), {1, 4}},
    {"that leaves no column", "ab\ncd", 4, ON(10, 2, 10, 0, 0, U), {2, 1}},
    {"a control character of two columns", "a\1b", 2, ON(10, 0, 0, 0, 2, U), {0, 3}},
    {"a delete of as many", "a\177b", 2, ON(10, 0, 0, 0, 2, W), {0, 3}},
    {"and one of two bytes", "a\302\200b", 3, ON(10, 0, 0, 0, 4, U), {0, 5}},
    {"but no tab with stops", "\1\t", 2, ON(10, 0, 0, 4, 2, U), {0, 4}},
    {"which is one without", "\1\t", 2, ON(10, 0, 0, 0, 2, U), {0, 4}},
    {"before the right edge", "abcd", 3, ON(4, 0, 0, 0, 0, U), {0, 3}},
    {"the right edge is the next row", "abcd", 4, ON(4, 0, 0, 0, 0, U), {1, 0}},
    {"and the next letter stands there", "abcde", 5, ON(4, 0, 0, 0, 0, U), {1, 1}},
    {"a prompt counts for its row alone", "abcdef", 6, ON(4, 2, 0, 0, 0, U), {2, 0}},
    {"a newline at the edge makes one row", "abcd\ne", 5, ON(4, 0, 0, 0, 0, U), {1, 0}},
    {"also after what takes no column", "abcd\u200b\ne", 8, ON(4, 0, 0, 0, 0, U), {1, 0}},
    {"and the letter after it stands on that", "abcd\ne", 6, ON(4, 0, 0, 0, 0, U), {1, 1}},
    {"a wide letter that fits to the edge", "ab漢", 5, ON(4, 0, 0, 0, 0, U), {1, 0}},
    {"before a wide letter that does not fit, where it stands", "abc漢", 3, ON(4, 0, 0, 0, 0, U), {1, 0}},
    {"a wide letter that does not fit is whole below", "abc漢", 6, ON(4, 0, 0, 0, 0, U), {1, 2}},
    {"a family is one cluster", FAMILY "x", 18, ON(10, 0, 0, 0, 0, U), {0, 2}},
    {"or three characters", FAMILY "x", 18, ON(10, 0, 0, 0, 0, W), {0, 6}},
    {"or three parts", FAMILY "x", 18, ON(10, 0, 0, 0, 0, Z), {0, 6}},
    {"a mark takes no column", "e\u0301x", 3, ON(10, 0, 0, 0, 0, U), {0, 1}},
    {"a prompt up to the edge", "", 0, ON(4, 4, 0, 0, 0, U), {1, 0}},
    {"a letter that is wider than the screen", "漢", 3, ON(1, 0, 0, 0, 0, U), {2, 0}},
    {"a tab as wide as it is measured", "a\tb", 3, ON(80, 0, 0, 0, 0, U), {0, 3}},
    {"or of no column", "a\tb", 3, ON(80, 0, 0, 0, 0, W), {0, 2}},
    {"a tab to the next multiple", "a\tb", 2, ON(80, 0, 0, 8, 0, U), {0, 8}},
    {"in each mode", "a\tb", 2, ON(80, 0, 0, 8, 0, W), {0, 8}},
    {"and the letter after it", "a\tb", 3, ON(80, 0, 0, 8, 0, U), {0, 9}},
    {"before it", "a\tb", 1, ON(80, 0, 0, 8, 0, U), {0, 1}},
    {"multiples of four", "a\tb", 2, ON(80, 0, 0, 4, 0, U), {0, 4}},
    {"a tab at a multiple", "abcd\t", 5, ON(80, 0, 0, 4, 0, U), {0, 8}},
    {"a tab after a prompt", "\t", 1, ON(80, 2, 0, 8, 0, U), {0, 8}},
    {"a tab on the next line", "abc\n\t\t", 6, ON(80, 2, 0, 8, 0, U), {1, 16}},
    {"a tab on a wrapped row", "abcdef\t", 7, ON(5, 0, 0, 4, 0, U), {1, 4}},
    {"a tab ends at the right edge", "abcdefghi\t", 10, ON(12, 0, 0, 8, 0, U), {1, 0}},
    {"and a letter after it stands on the next row", "abcdefghi\tj", 11, ON(12, 0, 0, 8, 0, U), {1, 1}},
    {"a tab at the right edge goes to the next row", "abcd\t", 5, ON(4, 0, 0, 3, 0, U), {1, 3}},
    {"a tab that is wider than the screen", "\t", 1, ON(4, 0, 0, 8, 0, U), {1, 0}},
};

/* The offset at each cell. */
static const struct laid offsets[] = {
    {"no text, far away", "", 0, ON(10, 2, 0, 0, 0, U), {7, 7}},
    {"on the prompt", "ab\ncd", 0, ON(10, 2, 0, 0, 0, U), {0, 1}},
    {"at the start", "ab\ncd", 0, ON(10, 2, 0, 0, 0, U), {0, 2}},
    {"between two letters", "ab\ncd", 1, ON(10, 2, 0, 0, 0, U), {0, 3}},
    {"at the end of a line", "ab\ncd", 2, ON(10, 2, 0, 0, 0, U), {0, 4}},
    {"to the right of a line", "ab\ncd", 2, ON(10, 2, 0, 0, 0, U), {0, SIZE_MAX}},
    {"inside it", "ab\ncd", 4, ON(10, 2, 0, 0, 0, U), {1, 1}},
    {"to the right of the last line", "ab\ncd", 5, ON(10, 2, 0, 0, 0, U), {1, 9}},
    {"below the last line", "ab\ncd", 5, ON(10, 2, 0, 0, 0, U), {SIZE_MAX, 0}},
    {"before a wide letter", "a漢b", 1, ON(10, 0, 0, 0, 0, U), {0, 1}},
    {"in its right half", "a漢b", 1, ON(10, 0, 0, 0, 0, U), {0, 2}},
    {"after it", "a漢b", 4, ON(10, 0, 0, 0, 0, U), {0, 3}},
    {"where it stands", "abc漢", 3, ON(4, 0, 0, 0, 0, U), {1, 0}},
    {"in its right half there", "abc漢", 3, ON(4, 0, 0, 0, 0, U), {1, 1}},
    {"inside a tab", "a\tb", 1, ON(20, 0, 0, 8, 0, U), {0, 7}},
    {"after a tab", "a\tb", 2, ON(20, 0, 0, 8, 0, U), {0, 8}},
    {"a tab of one column", "a\tb", 2, ON(20, 0, 0, 0, 0, U), {0, 2}},
    {"two offsets at one cell", "a\tb", 2, ON(20, 0, 0, 0, 0, W), {0, 1}},
    {"a mark is of its letter", "e\u0301x", 0, ON(10, 0, 0, 0, 0, U), {0, 0}},
    {"inside a family", FAMILY "x", 0, ON(10, 0, 0, 0, 0, U), {0, 1}},
    {"or of six", FAMILY "x", 0, ON(10, 0, 0, 0, 0, W), {0, 5}},
};

static void see_offset(const struct laid *row) {
    size_t got = NO;
    int answer = lodvarn_offset_at(&row->screen, row->cell, row->text, strlen(row->text), &got);
    if (!see(row->what, answer == LODVARN_DONE && got == row->offset)) printf("  got %zu\n", got);
}

static void see_cell(const struct laid *row) {
    lodvarn_position got = {NO, NO};
    int answer = lodvarn_cell(&row->screen, row->offset, row->text, strlen(row->text), &got);
    if (!see(row->what, answer == LODVARN_DONE && got.line == row->cell.line && got.column == row->cell.column))
        printf("  got %zu, %zu\n", got.line, got.column);
}

void cells_and_offsets_are_found(void) {
    static const struct laid inside = {"inside a cluster, where it starts", "xe\u0301x", 2, ON(10, 0, 0, 0, 0, U),
                                       {0, 1}};
    see_cell(&inside);
    for (size_t i = 0; i < COUNT(cells); i++) see_cell(&cells[i]), see_offset(&cells[i]);
    for (size_t i = 0; i < COUNT(offsets); i++) see_offset(&offsets[i]);
}

/* The rows of a text: where each begins, and how many there are. */
static const struct {
    const char *what, *text;
    lodvarn_screen screen;
    size_t count, starts[5];
} laid_rows[] = {
    {"no text", "", ON(80, 0, 0, 0, 0, U), 1, {0}},
    {"one row", "ab", ON(3, 0, 0, 0, 0, U), 1, {0}},
    {"one to the right edge, and the next for the cursor", "abc", ON(3, 0, 0, 0, 0, U), 2, {0, 3}},
    {"a wrapped line", "abcde", ON(3, 0, 0, 0, 0, U), 2, {0, 3}},
    {"after a prompt", "abcde", ON(3, 2, 0, 0, 0, U), 3, {0, 1, 4}},
    {"a prompt over a whole row", "ab", ON(3, 3, 0, 0, 0, U), 2, {0, 0}},
    {"over more than a row, before what takes no column", "\u200b\nd", ON(3, 4, 0, 0, 0, U), 2, {0, 0}},
    {"two lines", "ab\r\ncd", ON(80, 2, 0, 0, 0, U), 2, {0, 4}},
    {"the end of a line at the right edge", "abc\nd", ON(3, 0, 0, 0, 0, U), 2, {0, 3}},
    {"after another prompt", "a\nbcde", ON(4, 0, 2, 0, 0, U), 3, {0, 2, 4}},
    {"a wide letter that does not fit", "ab漢", ON(3, 0, 0, 0, 0, U), 2, {0, 2}},
    {"a letter that is wider than the screen", "漢a", ON(1, 0, 0, 0, 0, U), 4, {0, 0, 3, 4}},
    {"and what takes no column after it", "漢\u200b\nb", ON(1, 0, 0, 0, 0, U), 4, {0, 0, 3, 8}},
    {"a control character that is wider", "\1\nd", ON(3, 0, 0, 0, 5, U), 3, {0, 0, 1}},
    {"a control character of two columns", "a\1b", ON(3, 0, 0, 0, 2, U), 2, {0, 2}},
    {"of as many as it has", "a\1b", ON(4, 0, 0, 0, 0, U), 1, {0}},
    {"a tab to the next stop", "a\tb", ON(4, 0, 0, 4, 2, U), 2, {0, 2}},
};

void rows_are_found(void) {
    for (size_t i = 0; i < COUNT(laid_rows); i++) {
        size_t starts[6] = {NO, NO, NO, NO, NO, NO}, count = NO, len = strlen(laid_rows[i].text);
        int answer = lodvarn_rows(&laid_rows[i].screen, laid_rows[i].text, len, starts, 5, &count);
        int same = answer == LODVARN_DONE && count == laid_rows[i].count && starts[5] == NO;
        for (size_t k = 0; k < count && k < 5; k++) same = same && starts[k] == laid_rows[i].starts[k];
        if (!see(laid_rows[i].what, same)) printf("  got %zu: %zu, %zu, %zu\n", count, starts[0], starts[1], starts[2]);
    }
}

/* From each row, with room for some: the rows from there on, and where the next one begins. */
static void see_rows_from(lodvarn *t, const lodvarn_screen *screen, const size_t *all, size_t rows) {
    for (size_t k = 0; k < rows; k++)
        for (size_t cap = 0; cap < 5 && (!k || all[k - 1] < all[k]); cap++) {
            size_t starts[5] = {NO, NO, NO, NO, NO}, count = NO, next = 0, want = cap < rows - k ? cap : rows - k;
            int same = lodvarn_rows_from(t, screen, all[k], starts, cap, &count, &next) == LODVARN_DONE && count == want
                && next == (k + want < rows ? all[k + want] : LODVARN_NO_OFFSET) && starts[want] == NO;
            for (size_t i = 0; i < want; i++) same = same && starts[i] == all[k + i];
            if (!see("rows from a row on", same))
                printf("  columns %zu, prompt %zu, continuation %zu, row %zu of %zu: %zu, %zu\n", screen->columns,
                       screen->prompt, screen->continuation, k, rows, count, next);
        }
}

/* From before each cluster and from the end, motions by rows lead over as many rows as the whole text has. */
static void see_motions(lodvarn *t, const lodvarn_screen *screen, const char *text, const lodvarn_cluster *clusters,
                        size_t cut, size_t rows) {
    for (size_t k = 0; k <= cut; k++) {
        size_t len = strlen(text), pos = k < cut ? clusters[k].from : len, column = 0, offset;
        lodvarn_position at = {NO, NO};
        must(lodvarn_cell(screen, pos, text, len, &at) > 0 && lodvarn_set_pos(t, pos) >= 0);
        size_t left = rows - 1 - at.line;
        int same = !lodvarn_row_above(t, screen, LODVARN_LINE_START, at.line + 1, &column, &offset)
            && !lodvarn_row_below(t, screen, LODVARN_LINE_START, left + 1, &column, &offset)
            && (!at.line || lodvarn_row_above(t, screen, LODVARN_LINE_START, at.line, &column, &offset) > 0)
            && (!left || lodvarn_row_below(t, screen, LODVARN_LINE_START, left, &column, &offset) > 0);
        if (!see("rows above and below", same))
            printf("  columns %zu, prompt %zu, continuation %zu, offset %zu in row %zu of %zu\n", screen->columns,
                   screen->prompt, screen->continuation, pos, at.line, rows);
    }
}

/* On screens of all kinds, whose continuation leaves room for each cluster: the rows of a text are found from each of
 * them on, motions lead over all of them, and its clusters are found from each on. */
void rows_and_clusters_are_found_from_each(void) {
    static const char *const texts[] = {
        "", "abcdefghi", "ab\n\ncdefg\r\nh\n", "a\tb\1漢\n漢漢e\u0301\t\r" FAMILY "x\u200by",
        "\U0001f1e9\U0001f1ea\U0001f1eb\U0001f1f7\U0001f1ee",
    };
    for (size_t i = 0; i < COUNT(texts); i++) {
        lodvarn *t = NULL;
        size_t all[80], rows = 0, len = strlen(texts[i]), cut = 0, next = 0, count;
        lodvarn_cluster clusters[40], few[3];
        must(lodvarn_open(&t, NULL, texts[i], len) > 0);
        must(lodvarn_clusters(W, texts[i], len, clusters, COUNT(clusters), &cut) > 0);
        for (size_t k = 0; k < 4 * 7 * 7 * 7; k++) {
            size_t columns = 2 + k / 4 % 7;
            lodvarn_screen screen = ON(columns, k / 28 % 7, k / 196 % (columns - 1), k & 1 ? 4 : 0, k & 2, U);
            must(lodvarn_rows(&screen, texts[i], len, all, COUNT(all), &rows) > 0);
            see_rows_from(t, &screen, all, rows);
            see_motions(t, &screen, texts[i], clusters, cut, rows);
        }
        for (size_t k = 0; k <= cut; k++) {
            size_t want = cut - k < COUNT(few) ? cut - k : COUNT(few), from = k < cut ? clusters[k].from : len;
            int same = lodvarn_clusters_from(t, W, from, few, COUNT(few), &count, &next) == LODVARN_DONE && count == want
                && next == (k + want < cut ? clusters[k + want].from : LODVARN_NO_OFFSET)
                && !memcmp(few, clusters + k, want * sizeof *few);
            if (!see("clusters from one on", same)) printf("  %zu of %zu: %zu, %zu\n", k, cut, count, next);
        }
        lodvarn_close(&t);
    }
}

/* Motions by rows, one after another from an offset: up or down by so many, the offset, and the column that is kept. */
static const struct moved {
    const char *what, *text;
    size_t pos;
    lodvarn_screen screen;
    struct { int down; size_t n, offset, column; } steps[4];
} rows_moved[] = {
    {"over a shorter line, and back to the column", "abcdef\n\nghi", 11, ON(4, 0, 0, 0, 0, U),
     {{0, 1, 7, 3}, {0, 1, 6, 3}, {0, 1, 3, 3}, {0, 1, NO, 3}}},
    {"down, to the last row of the next line", "abcdef\nghi", 1, ON(4, 0, 0, 0, 0, U),
     {{1, 1, 5, 1}, {1, 1, 8, 1}, {1, 1, NO, 1}, {0, 2, 1, 1}}},
    {"after a prompt, and another", "abcd\nefg", 0, ON(80, 4, 2, 0, 0, U), {{1, 1, 7, 4}, {0, 1, 0, 4}}},
    {"many rows at once", "a\nb\nc\nd", 0, ON(80, 0, 0, 0, 0, U),
     {{1, 3, 6, 0}, {0, 2, 2, 0}, {0, 2, NO, 0}, {1, 3, NO, 0}}},
    {"by columns over a wide letter and a tab", "ab日c\n\tx\nabcdefghij", 5, ON(80, 0, 0, 8, 0, U),
     {{1, 1, 7, 4}, {1, 1, 14, 4}, {0, 2, 5, 4}}},
    {"a line that ends at the right edge has no row more", "abc\nd", 0, ON(3, 0, 0, 0, 0, U),
     {{1, 1, 4, 0}, {0, 1, 0, 0}, {1, 2, NO, 0}}},
    {"nor one of two rows; from its end as from the next line's row", "abcdef\ng", 6, ON(3, 0, 0, 0, 0, U),
     {{0, 1, 3, 0}, {1, 1, 7, 0}, {1, 1, NO, 0}, {0, 2, 0, 0}}},
    {"down from its end", "abcdef\ngh\ni", 6, ON(3, 0, 0, 0, 0, U), {{1, 1, 10, 0}, {0, 1, 7, 0}, {0, 1, 3, 0}}},
    {"nothing below its end", "abc\nd", 3, ON(3, 0, 0, 0, 0, U), {{1, 1, NO, 0}, {0, 1, 0, 0}}},
    {"before an empty line", "abc\n\nd", 1, ON(3, 0, 0, 0, 0, U),
     {{1, 1, 4, 1}, {1, 1, 6, 1}, {0, 2, 1, 1}, {1, 3, NO, 1}}},
    {"after a prompt, and another", "a\nbc\nd", 5, ON(3, 2, 1, 0, 0, U),
     {{0, 1, 2, 1}, {0, 1, 0, 1}, {1, 2, 5, 1}, {1, 1, NO, 1}}},
    {"before CR LF", "abc\r\nde", 7, ON(3, 0, 0, 0, 0, U), {{0, 1, 2, 2}, {1, 1, 7, 2}, {0, 2, NO, 2}}},
    {"not between CR and LF", "a\r\nbcd", 5, ON(4, 0, 0, 0, 0, U), {{0, 1, 1, 2}, {1, 1, 5, 2}}},
    {"the last line has one for its end", "a\nabc", 0, ON(3, 0, 0, 0, 0, U),
     {{1, 1, 2, 0}, {1, 1, 5, 0}, {1, 1, NO, 0}, {0, 1, 2, 0}}},
};

/* A step from each row of the text, as the line's start does it if the row stands in another line or below. */
static void see_moved(const struct moved *row, lodvarn *t) {
    size_t column = LODVARN_OWN_COLUMN, starts[16], rows = 0, next;
    must(lodvarn_rows_from(t, &row->screen, 0, starts, COUNT(starts) - 1, &rows, &next) > 0 && next == LODVARN_NO_OFFSET);
    starts[rows] = LODVARN_LINE_START;
    for (size_t k = 0; k < COUNT(row->steps) && row->steps[k].n; k++) {
        int (*call)(lodvarn *, const lodvarn_screen *, size_t, size_t, size_t *, size_t *) =
            row->steps[k].down ? lodvarn_row_below : lodvarn_row_above;
        size_t offset = NO, kept = column;
        int answer = 0;
        for (size_t i = 0; i <= rows; i++) {
            offset = NO, column = kept;
            answer = call(t, &row->screen, starts[i], row->steps[k].n, &column, &offset);
            int same = offset == row->steps[k].offset && (column == row->steps[k].column || offset == NO)
                && answer == (offset != NO);
            if (!see(row->what, same)) printf("  step %zu, %zu: %d, %zu, %zu\n", k, starts[i], answer, offset, column);
        }
        if (answer > 0) lodvarn_set_pos(t, offset);
    }
}

void motions_by_rows_keep_the_column(void) {
    for (size_t i = 0; i < COUNT(rows_moved); i++) {
        lodvarn *t = NULL;
        must(lodvarn_open(&t, NULL, rows_moved[i].text, strlen(rows_moved[i].text)) > 0);
        must(lodvarn_set_pos(t, rows_moved[i].pos) > 0);
        see_moved(&rows_moved[i], t);
        lodvarn_close(&t);
    }
}
