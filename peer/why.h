/* K1 of document 02, "Why didn't it move?": what one telegram would do to one
   blind, or why it would do nothing. It is no call of the panel, and nothing is
   sent. */

#ifndef WHY_H
#define WHY_H

#include "panel.h"

/* The reasons, first the one that goes before all others. K1: "Where several
   apply, that is their order." */
enum reason {
    NO_REASON, /* the question is refused */
    NOT_LINKED,
    WRONG_CLASS,
    UNDER_WIND,
    UNDER_RAIN,
    UNDER_FROST,
    UNDER_FORCED,
    NO_POSITION,
    WAITS_FOR_THE_PAUSE,
    ACTS,
    ALREADY_SO
};

struct explanation {
    uint64_t number;
    enum reason reason;
    uint64_t left; /* milliseconds of the pause; 0 for any other reason */
};

struct explanation why(const struct panel *panel, uint64_t tag, uint64_t address,
                       uint64_t value);

#endif
