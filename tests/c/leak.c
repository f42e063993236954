/* Opens sessions and never closes them: where leaks are reported, this program does not end with status 0. There
 * are a hundred, since a word left on the stack may still point to one of them. */
#include "lodvarn.h"

int main(void) {
    for (int i = 0; i < 100; i++) {
        lodvarn *s;
        if (lodvarn_open(&s, NULL, "ab\n", 3) != LODVARN_DONE) return 0;
    }
    return 0;
}
