/* Whether sessions are the same, and what their reads return agrees. */
#include "see.h"
#include "typed.h"

lodvarn *twin_of(lodvarn *one) {
    lodvarn_view bytes;
    lodvarn *twin;
    must(lodvarn_save(one, &bytes) > 0 && lodvarn_load(&twin, bytes.at, bytes.len) > 0);
    return twin;
}

int are_same(lodvarn *one, lodvarn *two) {
    lodvarn_view a, b;
    must(lodvarn_save(one, &a) > 0 && lodvarn_save(two, &b) > 0);
    return a.len == b.len && !memcmp(a.at, b.at, a.len);
}

int insert_each(lodvarn *s, const char *bytes, size_t len) {
    int answer = LODVARN_NOTHING;
    for (size_t i = 0; i < len && answer >= 0; i += utf8_length(bytes + i))
        answer = lodvarn_insert(s, utf8_character(bytes + i), 1);
    return answer;
}

static lodvarn_position cell_of(const lodvarn_screen *screen, lodvarn_view text, size_t offset) {
    lodvarn_position cell;
    must(lodvarn_cell(screen, offset, text.at, text.len, &cell) == LODVARN_DONE);
    return cell;
}

static int is_after(lodvarn_position a, lodvarn_position b) {
    return a.line > b.line || (a.line == b.line && a.column > b.column);
}

/* Whether the offset that is found at the cell of another one is the last whose cell is not after that. */
static int offset_agrees(struct typed *t, lodvarn_view text, size_t pos) {
    lodvarn_screen screen = LODVARN_SCREEN(20);
    screen.prompt = 2, screen.tab = 8, screen.mode = t->own_mode;
    lodvarn_position at = cell_of(&screen, text, pos);
    size_t offset, k = 0;
    if (lodvarn_offset_at(&screen, at, text.at, text.len, &offset) != LODVARN_DONE || offset > text.len) return 0;
    int more = lodvarn_first_cluster(text.at + offset, text.len - offset, &k);
    return more == (offset < text.len) && !is_after(cell_of(&screen, text, offset), at)
        && (!more || is_after(cell_of(&screen, text, offset + k), at));
}

/* Whether line, column and clusters at the cursor are those that the calls return that get the text. */
static int cursor_agrees(struct typed *t, lodvarn_view text, size_t own, size_t first) {
    size_t pos = lodvarn_pos(t->s), line = 0, k = 0, width = 0;
    lodvarn_cluster found = {pos, pos, 0}, last = {pos, pos, 0};
    lodvarn_position at;
    if (lodvarn_cursor_position(t->s, &at) != LODVARN_DONE || at.line != own) return 0;
    if (lodvarn_width(t->own_mode, text.at + first, pos - first, &width) <= 0 || at.column != width) return 0;
    if (lodvarn_line_at(t->s, pos, &line) != LODVARN_DONE || line != own) return 0;
    int more = lodvarn_cluster_at(t->s, pos, &found);
    if (more != (pos < text.len) || lodvarn_first_cluster(text.at + pos, text.len - pos, &k) != more
        || lodvarn_width(t->own_mode, text.at + pos, k, &width) != LODVARN_DONE || found.from != pos
        || found.to != pos + k || found.columns != width) return 0;
    k = 0;
    more = lodvarn_cluster_before(t->s, pos, &last);
    return more == (pos > 0) && lodvarn_last_cluster(text.at, pos, &k) == more
        && lodvarn_width(t->own_mode, text.at + pos - k, k, &width) == LODVARN_DONE && last.from == pos - k
        && last.to == pos && last.columns == width;
}

/* Whether the ring has as many texts as it says. */
static int ring_agrees(struct typed *t) {
    size_t count = lodvarn_ring_count(t->s);
    lodvarn_view view;
    return lodvarn_ring_text(t->s, count, &view) == LODVARN_NOTHING
        && (!count || lodvarn_ring_text(t->s, count - 1, &view) == LODVARN_DONE);
}

int typed_reads_agree(struct typed *t) {
    lodvarn_options options = LODVARN_OPTIONS;
    lodvarn_range line, none = {1, 0};
    lodvarn_view text;
    size_t lines = 1, own = 0, first = 0, end, pos = lodvarn_pos(t->s);
    if (lodvarn_text(t->s, &text) != LODVARN_DONE || lodvarn_get_options(t->s, &options) != LODVARN_DONE) return 0;
    if (pos > text.len || text.len > options.limit || options.mode != t->own_mode) return 0;
    for (size_t i = 0; i < text.len; i++) {
        if (text.at[i] != '\n') continue;
        lines++;
        if (i < pos) { own++; first = i + 1; }
    }
    for (end = pos; end < text.len && text.at[end] != '\n'; end++) {}
    return lodvarn_line_count(t->s) == lines
        && lodvarn_line_range(t->s, own, &line) == LODVARN_DONE && line.from == first && line.to == end
        && lodvarn_line_range(t->s, lines, &none) == LODVARN_NOTHING && none.from == 1 && none.to == 0
        && cursor_agrees(t, text, own, first) && offset_agrees(t, text, pos) && ring_agrees(t);
}
