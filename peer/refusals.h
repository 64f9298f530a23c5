/* What the checks of `refusals` share. */

#ifndef REFUSALS_H
#define REFUSALS_H

#include "panel.h"

/* Counts a check, and says what is wrong if it does not hold. */
void expect(int holds, const char *what);

/* Blind 1 rests, 2 runs a full run up, 3 waits for a full run down, 4 runs a
   step, 5 waits for a step, 6 runs to a position, 7 waits for one. */
struct panel sound_panel(void);

/* The checks of plants.c. */
void plant_files(void);

#endif
