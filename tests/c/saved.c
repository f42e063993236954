/* saved [FILES [SEED]]: makes so many files by random changes of saved sessions, and loads them. Half have their
 * checksum mended, so that all else in them has to be checked. What is loaded must hold as a session. All bytes that
 * are passed end where no more memory is, but on Windows. Its last line is 'N passed, M failed'. */
#define _DEFAULT_SOURCE
#include "chance.h"
#include "checksum.h"
#include "see.h"
#include "typed.h"

enum { HEADING = 8, ROOM = 1 << 16, PAGE = 4096, MOST = 400 };
int passed, failed;
static const char *const scripts[] = {
    "text one",
    "limit 40;ring 2;text one two three;kill bword 1 emacs;pos 0;kill fword 1 after emacs;yank 1;yankpop",
    "text \\u{1f469}\\u{200d}\\u{1f680} é\\n漢;pos 0;ins 2 \\u{1f680};rep 0 4 x;back 1;undo 2",
    "text a b;begin;ins 1 é;begin;kill home;str 0 \\u{1f1e9}\\u{1f1ea};undo 1",
    "mode nozwj;ring 1;text a\\nb;begin;tchars;endone;ins 1 x;ins 1 y;undo 1;redo;case up;undo 3;keep",
    "text one two;begin;twords 1;end;begin;ins 1 z;end;undo 2",
};
static struct file { unsigned char bytes[ROOM]; size_t len; } files[COUNT(scripts)], file;
static char *end; /* of the memory */
static size_t loaded;

/* Makes a file of a session. Returns whether it could. */
static int save(lodvarn *s, struct file *to) {
    lodvarn_view bytes = {NULL, ROOM};
    int is_saved = lodvarn_save(s, &bytes) == LODVARN_DONE && bytes.len < ROOM;
    if (is_saved) memcpy(to->bytes, bytes.at, to->len = bytes.len);
    return is_saved;
}

/* Loads a session from bytes after which there is no more memory. */
static int load(lodvarn **s, const struct file *from) {
    return lodvarn_load(s, memcpy(end - from->len, from->bytes, from->len), from->len);
}

/* All that it does is to record the undone changes. The option stays as it was. */
static int keep_undone(lodvarn *s) {
    size_t pos = lodvarn_pos(s);
    lodvarn_options options = LODVARN_OPTIONS, kept;
    must(lodvarn_get_options(s, &options) > 0);
    kept = options, kept.keep_undone = true;
    must(lodvarn_set_options(s, &kept) > 0);
    int answer = lodvarn_delete_range(s, range(pos, pos));
    must(lodvarn_set_options(s, &options) > 0);
    return answer;
}

static int is_same(const struct file *it) { return it->len == file.len && !memcmp(it->bytes, file.bytes, it->len); }

static void make_file(const char *script, struct file *to, FILE *nowhere) {
    char lines[256];
    struct typed t;
    typed_begin(&t);
    for (char *line = strtok(strcpy(lines, script), ";"); line; line = strtok(NULL, ";"), lodvarn_mark_saved(t.s))
        if (strcmp(line, "keep")) typed_line(&t, line, nowhere);
        else must(keep_undone(t.s) > 0);
    must(save(t.s, to));
    file = *to;
    mend(file.bytes, file.len);
    SEE(is_same(to));
    lodvarn_close(&t.s);
}

/* Changes a bit, a byte, a number, or a part of the file: that goes, or is one of another file. */
static void change(void) {
    static const uint64_t numbers[] = {0, 1, 2, 3, 4, 7, 40, 'a', 0x80, 0xc3, 65536, UINT32_MAX, UINT64_MAX};
    static const size_t sizes[] = {1, 4, 8};
    const struct file *other = &ONE_OF(files);
    size_t at = below((unsigned)file.len - 7), len = 1 + below(40), went = below(2) ? len : 0, came = below(2) * len;
    unsigned char *byte = file.bytes + at;
    unsigned which = below(6);
    if (which == 0) *byte ^= (unsigned char)(1 << below(8));
    else if (which == 1) *byte = (unsigned char)(*byte + (below(2) ? 1 : -1));
    else if (which < 4) memcpy(byte, &ONE_OF(numbers), ONE_OF(sizes));
    else if (file.len - at >= went) {
        memmove(byte + came, byte + went, file.len - at - went);
        memcpy(byte, other->bytes + below((unsigned)other->len - 40), came);
        file.len += came - went;
    }
}

/* Whether text and ring are UTF-8, and the cursor stands between two characters. */
static int is_whole(lodvarn *s) {
    lodvarn_view it = {"", 0};
    size_t pos = lodvarn_pos(s), len;
    int holds = lodvarn_text(s, &it) > 0 && pos <= it.len && (pos == it.len || (it.at[pos] & 0xc0) != 0x80);
    for (size_t i = 0; (holds = holds && lodvarn_first_cluster(it.at, it.len, &len) >= 0); i++)
        if (lodvarn_ring_text(s, i, &it) <= 0) break;
    return holds;
}

static int undo(lodvarn *s) { return lodvarn_undo(s, 1); }

/* The limit may refuse what is done. */
static int is_fine(int answer) { return answer >= 0 || answer == LODVARN_NO_ROOM; }

/* A file may say that more was yanked than stands before its cursor. Only the call that would replace it sees that. */
static int is_popped(int answer) { return is_fine(answer) || answer == LODVARN_BAD_YANK_SIZE; }

/* Whether the session stays whole, up to where the call does no more. */
static int goes_on(lodvarn *s, int (*call)(lodvarn *)) {
    int answer = LODVARN_DONE;
    for (int n = 0; n < MOST && answer > 0 && is_whole(s); n++) answer = call(s);
    return answer <= 0 && is_fine(answer);
}

/* Whether a session that was loaded is saved as bytes that give it again, can be undone and redone, and edited. */
static int goes_well(lodvarn *s) {
    static struct file again;
    lodvarn *second = NULL;
    int holds = save(s, &file) && load(&second, &file) > 0 && save(second, &again)
        && is_same(&again) && goes_on(s, undo) && goes_on(s, lodvarn_redo) && goes_on(s, undo)
        && is_popped(lodvarn_yank_pop(second)) && is_fine(keep_undone(second))
        && is_fine(lodvarn_kill(second, lodvarn_words_back(LODVARN_BIG, 1))) && is_fine(lodvarn_yank(second, 1))
        && is_fine(lodvarn_abandon_group(second)) && goes_on(second, undo) && goes_on(second, lodvarn_redo);
    lodvarn_close(&second);
    return holds;
}

/* Whether the file is refused with the answer that its heading asks for, or loaded, and goes well. It may be loaded
 * only if its checksum was mended, or it is as it was. */
static int is_met(const struct file *from, int is_mended) {
    lodvarn *s = NULL;
    int is_changed = !is_same(from), is_known = !memcmp(file.bytes, from->bytes, HEADING);
    int answer = load(&s, &file);
    if (answer < 0) return is_changed && !s && answer == (is_known ? LODVARN_DAMAGED : LODVARN_UNKNOWN_FORMAT);
    loaded += (size_t)is_changed;
    int is_well = (!is_changed || is_mended) && goes_well(s);
    lodvarn_close(&s);
    return is_well;
}

#ifdef _WIN32
static char *room(void) { return malloc(ROOM); }
#else
#include <sys/mman.h>
static char *room(void) {
    char *at = mmap(NULL, ROOM + PAGE, PROT_READ | PROT_WRITE, MAP_PRIVATE | MAP_ANONYMOUS, -1, 0);
    return at == MAP_FAILED || mprotect(at + ROOM, PAGE, PROT_NONE) ? NULL : at;
}
#endif

int main(int argc, char **argv) {
    size_t count = argc > 1 ? strtoul(argv[1], NULL, 10) : 1000000;
    FILE *nowhere = tmpfile();
    char *from = room();
    must(nowhere && from);
    end = from + ROOM;
    for (size_t i = 0; i < COUNT(files); i++) make_file(scripts[i], &files[i], nowhere);
    begin_chance(argc > 2 ? strtoull(argv[2], NULL, 10) : 7);
    for (size_t i = 0; i < count; i++) {
        const struct file *from = &files[i / 2 % COUNT(files)];
        memcpy(file.bytes, from->bytes, file.len = from->len);
        for (unsigned n = 1 + below(3); n; n--) change();
        if (i % 2) mend(file.bytes, file.len);
        if (!SEE(is_met(from, i % 2))) printf("  of file %zu\n", i);
    }
    SEE(loaded >= count / 50);
    return fclose(nowhere), sum();
}
