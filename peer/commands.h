/* The command language of docs/COMMANDS.md: one line in, one answer line out. */

#ifndef COMMANDS_H
#define COMMANDS_H

#include "panel.h"

#include <stddef.h>

enum { LINE_BYTES = 32768 };

/* The longest answer is `show` of 64 blinds and 512 links, below 20,000
   bytes. */
struct text {
    size_t length;
    char bytes[32768];
};

/* Carries out the input line with this number on the panel. `bytes` are the
   line without its line feed; a length above LINE_BYTES says that the line
   was too long, and then the bytes are not looked at. The answer replaces
   what stood in `answer`: one line with its line feed, or nothing if the
   line is passed over in silence. */
void carry_out_line(struct panel *panel, const char *bytes, size_t length,
                    uint64_t number, struct text *answer);

#endif
