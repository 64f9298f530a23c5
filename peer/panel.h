/* Document 01 written in C a second time, from the paper alone: the judge
   that the first implementation is compared with. Plain on purpose: the
   panel is one struct, the table is a sorted array, a time step is a loop
   over milliseconds. Words in quotation marks are document 01's; those after
   "K2:" to "K5:" are that request's, in document 02. */

#ifndef PANEL_H
#define PANEL_H

#include <stdint.h>

/* "A panel holds up to 64 blinds (tags 0 to 63), a strip of 128 terminals
   (0 to 127) and up to 512 links." */
enum { TAGS = 64, TERMINALS = 128, LINKS = 512 };

/* "Numbers the panel answers" */
enum number {
    DONE = 0,
    OUTSIDE_ITS_RANGE = 1,
    NO_BLIND_WITH_THIS_TAG = 2,
    BUSY = 3,
    ALREADY_THERE = 4,
    NO_SUCH_LINK = 5,
    NOT_OF_THE_CLASS = 6,
    LINKS_ALREADY_512 = 7,
    ANOTHER_CLASS = 8,
    WOULD_PASS_127 = 9,
    TERMINAL_IN_USE = 10,
    NOT_EXACTLY_THE_CELLS = 11,
    NOT_A_SOUND_PANEL = 12,
    BUFFER_TOO_SHORT = 13 /* K3: "(new, checked with 11)" */
};

/* "Parameters of a blind (house ranges, milliseconds)" */
struct parameters {
    uint64_t mudt; /* full run */
    uint64_t sst;  /* slat step */
    uint64_t rpt;  /* reversion pause */
    uint64_t rwa;  /* reactions to wind, rain and frost */
    uint64_t rra;
    uint64_t rfa;
};

/* "RWA, RRA, RFA, reactions: 0 ignore, 1 up, 2 down, 3 stop" */
enum reaction { IGNORE = 0, REACT_UP = 1, REACT_DOWN = 2, REACT_STOP = 3 };

/* Directions. NEITHER is "either" as a last direction, "none" as a forced
   one, and off as a motor command. UP and DOWN are the strip's numbers. */
enum direction { NEITHER = 0, UP = 1, DOWN = 2 };

/* What the motor and the order do. */
enum motion { AT_REST = 0, RUNNING = 1, WAITING = 2 };

/* What sort of run it is: a full run, a slat step, a run to a position. */
enum sort { FULL_RUN = 0, STEP = 1, TO_POSITION = 2 };

/* "The first of wind, rain, frost that is on and whose reaction is not
   ignore gives the duty: Up, Down or Hold." */
enum duty { DUTY_FREE, DUTY_UP, DUTY_DOWN, DUTY_HOLD };

/* "Kinds and classes: 0 WA, 1 RA, 2 FA (one bit); 3 FO (two bits); 4 MUD,
   5 STOP, 6 SSUD (one bit); 7 SAPBP (one byte)." */
enum kind { WA = 0, RA = 1, FA = 2, FO = 3, MUD = 4, STOP = 5, SSUD = 6, SAPBP = 7 };

struct blind {
    uint8_t present;   /* 0: "an absent tag carries nothing" */
    uint8_t valid;     /* whether the position is valid */
    uint8_t wind;      /* "Active flags: wind, rain, frost, */
    uint8_t rain;
    uint8_t frost;
    uint8_t forced;    /* and forced with its direction" */
    uint8_t last;      /* last direction */
    uint8_t motion;    /* at rest, running or waiting */
    uint8_t direction; /* of the run or the waiting order */
    uint8_t sort;      /* of the run or the waiting order */
    uint64_t length;   /* of the run or the waiting order */
    uint64_t rest;     /* rest time */
    uint64_t position;
    uint64_t terminal;
    struct parameters parameters;
};

/* "A link is (address 1 to 65535, tag, input kind)." */
struct link {
    uint16_t address;
    uint8_t tag;
    uint8_t kind;
};

struct panel {
    struct blind blinds[TAGS]; /* by tag */
    struct link links[LINKS];  /* the first link_count are used, the rest are 0 */
    uint64_t link_count;
};

struct answer {
    uint64_t number;
    uint64_t count;
};

struct inventory {
    uint64_t number;
    uint64_t blinds;
    uint64_t lowest_free_tag;
};

/* "The default set and the fresh blind belong to the kinds themselves as
   constants." */
extern const struct parameters default_parameters;
struct blind fresh_blind(uint64_t terminal, struct parameters parameters);

/* What the alarms and the forced input ask of a blind, for the cases to look
   at. */
enum duty duty(const struct blind *b);

/* A panel without blinds and links. */
struct panel empty_panel(void);

/* The paragraph "Sound", and K4's unused places. Total: any contents may be
   handed over. */
int is_sound(const struct panel *panel);

/* How many links come before this one: its place, if it is in the table,
   and else the place where it belongs. */
uint64_t place_of(const struct panel *panel, struct link link);

/* The edits. */
struct answer install(struct panel *panel, uint64_t tag, uint64_t terminal,
                      struct parameters parameters);
struct answer remove_blind(struct panel *panel, uint64_t tag);
struct answer write_parameters(struct panel *panel, uint64_t tag,
                               struct parameters parameters);
struct answer add_link(struct panel *panel, uint64_t address, uint64_t tag,
                       uint64_t kind);
struct answer remove_link(struct panel *panel, uint64_t address, uint64_t tag,
                          uint64_t kind);
struct answer splice_in(struct panel *panel, uint64_t t, uint64_t n);
struct answer splice_out(struct panel *panel, uint64_t t, uint64_t n);

/* Telegrams and time steps fill 64 lent cells, a strip reading 128; `lent`
   is how many the caller lends. */
struct answer telegram(struct panel *panel, uint64_t address, uint64_t value,
                       uint16_t *cells, uint64_t lent);
struct answer time_step(struct panel *panel, uint64_t dt, uint16_t *cells,
                        uint64_t lent);
struct answer strip_reading(const struct panel *panel, uint16_t *cells,
                            uint64_t lent);

struct inventory inventory(const struct panel *panel);

/* What a report says of a position, without the 256 of a valid one; for the
   cases to look at. */
uint64_t raw_report(uint64_t position, uint64_t mudt);

/* The entry of the wall display's table for a report without its 256. It is
   no call of the panel; above 255 the table has no entry. */
struct answer percent(uint64_t raw);

#endif
