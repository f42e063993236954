/* A line editor without a terminal. Each line of standard input is a list of keys, with blanks between them. It is
 * printed with the text that it leaves, which shows the cursor as "|". A word that names no key is typed, and one that
 * begins with " is pasted. */
#include "lodvarn.h"
#include <stdio.h>
#include <string.h>

enum { LIMIT = 24, WIDTH = 24 };

static lodvarn *s;

/* Prints the text, with the cursor as "|". */
static void show(void) {
    lodvarn_view text;
    size_t pos = lodvarn_pos(s);
    lodvarn_text(s, &text);
    fwrite(text.at, 1, pos, stdout);
    putchar('|');
    fwrite(text.at + pos, 1, text.len - pos, stdout);
}

/* Hands out the text, and begins the next line in the same session, so that the ring stays. */
static int accept_line(void) {
    printf("accepted ");
    show();
    printf(", and then ");
    return lodvarn_restart(s, "", 0);
}

/* Goes to the n-th text of that kind after the cursor in its line, or stays if there are fewer, as f of Vi. */
static int find_in_line(const char *text, size_t n) {
    size_t line = 0;
    lodvarn_range whole = {0, 0}, found = {lodvarn_pos(s), 0};
    lodvarn_cluster on;
    lodvarn_line_at(s, found.from, &line);
    lodvarn_line_range(s, line, &whole);
    for (; n; n--)
        if (lodvarn_cluster_at(s, found.from, &on) <= 0
            || lodvarn_find(s, on.to, text, strlen(text), LODVARN_FORWARD, &found) <= 0) return LODVARN_NOTHING;
    return found.to <= whole.to ? lodvarn_set_pos(s, found.from) : LODVARN_NOTHING;
}

/* Types a text. What did not fit is passed again, for its error. */
static int type(const char *word) {
    int answer = LODVARN_NOTHING;
    size_t used;
    while (*word && (answer = lodvarn_type(s, word, strlen(word), &used)) > 0) word += used;
    return answer;
}

/* Each key is one call. */
static int press(const char *word) {
#define IS(key) !strcmp(word, key)
    if (IS("C-a")) return lodvarn_move(s, lodvarn_to_line_start());
    if (IS("C-e")) return lodvarn_move(s, lodvarn_to_line_end());
    if (IS("C-b")) return lodvarn_move(s, lodvarn_chars_back(1));
    if (IS("C-f")) return lodvarn_move(s, lodvarn_chars_forward(1));
    if (IS("M-b")) return lodvarn_move(s, lodvarn_words_back(LODVARN_EMACS, 1));
    if (IS("M-f")) return lodvarn_move(s, lodvarn_words_forward(LODVARN_EMACS, LODVARN_AFTER_END, 1));
    if (IS("M-<")) return lodvarn_move(s, lodvarn_to_text_start());
    if (IS("M->")) return lodvarn_move(s, lodvarn_to_text_end());
    if (IS("C-d")) return lodvarn_delete(s, 1);
    if (IS("DEL")) return lodvarn_backspace(s, 1);
    if (IS("C-k")) return lodvarn_kill(s, lodvarn_to_line_end());
    if (IS("C-u")) return lodvarn_kill(s, lodvarn_to_line_start());
    if (IS("C-w")) return lodvarn_kill(s, lodvarn_words_back(LODVARN_BIG, 1));
    if (IS("M-DEL")) return lodvarn_kill(s, lodvarn_words_back(LODVARN_EMACS, 1));
    if (IS("M-d")) return lodvarn_kill(s, lodvarn_words_forward(LODVARN_EMACS, LODVARN_AFTER_END, 1));
    if (IS("C-y")) return lodvarn_yank(s, 1);
    if (IS("M-y")) return lodvarn_yank_pop(s);
    if (IS("C-_")) return lodvarn_undo(s, 1);
    if (IS("M-_")) return lodvarn_redo(s);
    if (IS("C-t")) return lodvarn_transpose_chars(s);
    if (IS("M-t")) return lodvarn_transpose_words(s, 1);
    if (IS("M-u")) return lodvarn_change_case(s, LODVARN_UPPERCASE);
    if (IS("M-l")) return lodvarn_change_case(s, LODVARN_LOWERCASE);
    if (IS("M-c")) return lodvarn_change_case(s, LODVARN_CAPITALIZE);
    if (IS("M-RET")) return lodvarn_insert(s, '\n', 1);
    if (IS("SPC")) return lodvarn_insert(s, ' ', 1);
    if (IS("RET")) return accept_line();
    if (!strncmp(word, "C-]", 3)) return find_in_line(word + 3, 1);
    if (*word == '"') return lodvarn_paste(s, word + 1, strlen(word + 1), 1);
    return type(word);
}

int main(void) {
    char line[256];
    lodvarn_options options = LODVARN_OPTIONS;
    options.limit = LIMIT;
    options.keep_undone = true; /* no edit drops the undone changes: undos come to them */
    if (lodvarn_open(&s, &options, "", 0) < 0) return 1;
    while (fgets(line, sizeof line, stdin)) {
        size_t columns = 0;
        line[strcspn(line, "\n")] = 0;
        lodvarn_width(LODVARN_UNICODE, line, strlen(line), &columns);
        printf("%s", line);
        do putchar(' ');
        while (++columns < WIDTH);
        for (char *word = strtok(line, " "); word; word = strtok(NULL, " ")) {
            int answer = press(word);
            if (answer < 0) printf("(%s) ", lodvarn_answer_name(answer));
        }
        show();
        printf("\n");
    }
    lodvarn_close(&s);
    return 0;
}
