#include "exported.h"

/* The names for the linker are those of the library, since this file calls none of the header's own. */
#define DECLARED(name) extern __typeof__(lodvarn_##name) exported_##name __asm__("lodvarn_" #name);
DECLARED(whole_line)
DECLARED(to_line_start)
DECLARED(to_line_end)
DECLARED(to_first_nonblank)
DECLARED(whole_text)
DECLARED(to_text_start)
DECLARED(to_text_end)
DECLARED(chars_back)
DECLARED(chars_forward)
DECLARED(lines_up)
DECLARED(lines_down)
DECLARED(whole_lines_up)
DECLARED(whole_lines_down)
DECLARED(words_back)
DECLARED(words_forward)
DECLARED(to_char)
DECLARED(to_match)

lodvarn_movement exported(size_t row) {
    static const lodvarn_movement none;
#define ROW(name, given) if (row-- == 0) return exported_##name given;
    MOVEMENTS(ROW)
    return none;
}
