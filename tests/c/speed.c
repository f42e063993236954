/* How long a call takes: a million of each, in nanoseconds. */
#define _POSIX_C_SOURCE 199309L
#include "lodvarn.h"
#include <stdio.h>
#include <time.h>

enum { CALLS = 1000000 };

static double nanoseconds(void) {
    struct timespec now;
    clock_gettime(CLOCK_MONOTONIC, &now);
    return (double)now.tv_sec * 1e9 + (double)now.tv_nsec;
}

static void say(const char *what, double since) {
    printf("%s: %.1f ns a call\n", what, (nanoseconds() - since) / CALLS);
}

int main(void) {
    lodvarn *s;
    lodvarn_view text = {NULL, 0};
    lodvarn_options options = LODVARN_OPTIONS;
    options.limit = CALLS + 2;
    if (lodvarn_open(&s, &options, "ab", 2) < 0) return 1;
    int wrong = 0;
    double since = nanoseconds();
    for (size_t i = 0; i < CALLS; i++) wrong |= lodvarn_set_pos(s, i & 1) != LODVARN_DONE;
    say("lodvarn_set_pos", since);
    wrong |= lodvarn_set_pos(s, 2) != LODVARN_DONE;
    since = nanoseconds();
    for (size_t i = 0; i < CALLS; i++) wrong |= lodvarn_insert(s, 'a', 1) != LODVARN_DONE_AT_END;
    say("lodvarn_insert at the end", since);
    wrong |= lodvarn_text(s, &text) != LODVARN_DONE || text.len != CALLS + 2;
    lodvarn_close(&s);
    return wrong;
}
