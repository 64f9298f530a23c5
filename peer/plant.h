/* K3 of document 02, "A plant file": "A panel's wiring as lines of text". Its
   writer and its reader; both stand above the panel's calls. */

#ifndef PLANT_H
#define PLANT_H

#include "panel.h"

/* "The writer fills a lent buffer of at least 16,384 bytes" */
enum { PLANT_BYTES = 16384 };

/* The count is the length of the file; `lent` is how many bytes the caller
   lends. */
struct answer write_plant(const struct panel *panel, char *out, uint64_t lent);

/* 0, and the panel is the file's; or the number of the first bad line, and
   the panel is empty. Total: any bytes may be handed over. */
uint64_t read_plant(const char *bytes, uint64_t length, struct panel *panel);

#endif
