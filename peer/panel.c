/* The panel of document 01. Every function stands for the sentence of the
   paper above it. Calls edit the caller's panel in place; a refused call
   changes nothing. */

#include "panel.h"

#include <string.h>

/* ---- Parameters ------------------------------------------------------ */

/* K5: "The default for RFA changes from ignore to stop." */
const struct parameters default_parameters = {
    .mudt = 60000, .sst = 200, .rpt = 500, .rwa = 1, .rra = 1, .rfa = 3
};

/* "MUDT 1,000 to 600,000; SST 1 to 10,000, at most MUDT; RPT 100 to 10,000;
   RWA, RRA, RFA 0 to 3" */
static int parameters_in_range(const struct parameters *p)
{
    return p->mudt >= 1000 && p->mudt <= 600000
        && p->sst >= 1 && p->sst <= 10000 && p->sst <= p->mudt
        && p->rpt >= 100 && p->rpt <= 10000
        && p->rwa <= 3 && p->rra <= 3 && p->rfa <= 3;
}

/* ---- A blind and its orders ------------------------------------------ */

/* "A fresh blind has position 0, not valid, no flags, last direction
   "either" and rest time RPT" */
struct blind fresh_blind(uint64_t terminal, struct parameters parameters)
{
    struct blind blind;
    memset(&blind, 0, sizeof blind);
    blind.present = 1;
    blind.last = NEITHER;
    blind.motion = AT_REST;
    blind.rest = parameters.rpt;
    blind.terminal = terminal;
    blind.parameters = parameters;
    return blind;
}

/* "Busy: running, waiting, or rest time above 0." */
static int is_busy(const struct blind *b)
{
    return b->motion == RUNNING || b->motion == WAITING || b->rest > 0;
}

static int runs_or_waits(const struct blind *b)
{
    return b->motion == RUNNING || b->motion == WAITING;
}

/* The motor goes on. "While running the rest time is 0", and "while running
   the last direction is the running one". */
static void start(struct blind *b)
{
    b->motion = RUNNING;
    b->last = b->direction;
    b->rest = 0;
}

/* Nothing runs and nothing waits. */
static void discard_order(struct blind *b)
{
    b->motion = AT_REST;
    b->direction = NEITHER;
    b->sort = FULL_RUN;
    b->length = 0;
}

/* The motor, which was running, goes off: "the rest time becomes RPT". */
static void motor_off(struct blind *b)
{
    discard_order(b);
    b->rest = b->parameters.rpt;
}

static void set_order(struct blind *b, uint8_t motion, uint8_t direction,
                      uint8_t sort, uint64_t length)
{
    b->motion = motion;
    b->direction = direction;
    b->sort = sort;
    b->length = length;
}

/* "An order for direction d replaces any run or waiting order. Motor running
   in d: it goes on, with the new length. Motor running the other way: it
   goes off, the rest time becomes RPT, the order waits. Motor off: the order
   waits if the rest time is above 0 and the last direction isn't d; else it
   starts at once." */
static void order(struct blind *b, uint8_t d, uint8_t sort, uint64_t length)
{
    if (b->motion == RUNNING && b->direction == d) {
        set_order(b, RUNNING, d, sort, length);
    } else if (b->motion == RUNNING) {
        motor_off(b);
        set_order(b, WAITING, d, sort, length);
    } else if (b->rest > 0 && b->last != d) {
        set_order(b, WAITING, d, sort, length);
    } else {
        set_order(b, WAITING, d, sort, length);
        start(b);
    }
}

/* "A stop discards the waiting order; if the motor was running it goes off
   and the rest time becomes RPT." */
static void order_stop(struct blind *b)
{
    if (b->motion == RUNNING)
        motor_off(b);
    else
        discard_order(b);
}

/* "MUD: full run, length MUDT." */
static void order_full_run(struct blind *b, uint8_t d)
{
    order(b, d, FULL_RUN, b->parameters.mudt);
}

/* "SSUD: at rest (motor off, nothing waiting, any rest time), or while a
   step runs or waits, order a step of length SST in the named direction.
   While any other run runs or waits, order a stop." */
static void order_slat_step(struct blind *b, uint8_t d)
{
    if (!runs_or_waits(b) || b->sort == STEP)
        order(b, d, STEP, b->parameters.sst);
    else
        order_stop(b);
}

/* "the target is floor(v * MUDT / 255), and the order is a run towards it of
   length |target - position|; length 0 is a stop." */
static void order_target(struct blind *b, uint64_t v)
{
    uint64_t target = v * b->parameters.mudt / 255;
    if (target > b->position)
        order(b, DOWN, TO_POSITION, target - b->position);
    else if (target < b->position)
        order(b, UP, TO_POSITION, b->position - target);
    else
        order_stop(b);
}

/* "SAPBP v: 0 is a full run up, 255 a full run down, valid or not. For
   others, dropped when the position isn't valid" */
static void order_position(struct blind *b, uint64_t v)
{
    if (v == 0)
        order_full_run(b, UP);
    else if (v == 255)
        order_full_run(b, DOWN);
    else if (b->valid)
        order_target(b, v);
}

/* ---- Who rules a blind ----------------------------------------------- */

static enum duty duty_of_reaction(uint64_t reaction)
{
    if (reaction == REACT_UP)
        return DUTY_UP;
    if (reaction == REACT_DOWN)
        return DUTY_DOWN;
    return DUTY_HOLD;
}

/* "The first of wind, rain, frost that is on and whose reaction is not
   ignore gives the duty: Up, Down or Hold. Otherwise forced gives Up or
   Down. Otherwise the duty is Free." */
enum duty duty(const struct blind *b)
{
    if (b->wind && b->parameters.rwa != IGNORE)
        return duty_of_reaction(b->parameters.rwa);
    if (b->rain && b->parameters.rra != IGNORE)
        return duty_of_reaction(b->parameters.rra);
    if (b->frost && b->parameters.rfa != IGNORE)
        return duty_of_reaction(b->parameters.rfa);
    if (b->forced == UP)
        return DUTY_UP;
    if (b->forced == DOWN)
        return DUTY_DOWN;
    return DUTY_FREE;
}

/* "If the duty changes by it: Up and Down order a full run, Hold and Free
   order a stop. If the duty is the same, nothing more happens" */
static void duty_rule(struct blind *b, enum duty before)
{
    enum duty now = duty(b);
    if (now == before)
        return;
    if (now == DUTY_UP)
        order_full_run(b, UP);
    else if (now == DUTY_DOWN)
        order_full_run(b, DOWN);
    else
        order_stop(b);
}

/* "FO: 2 up, 3 down, 0 and 1 none" */
static uint8_t forced_direction(uint64_t value)
{
    if (value == 2)
        return UP;
    if (value == 3)
        return DOWN;
    return NEITHER;
}

/* "MUD and SSUD: 0 up, 1 down." */
static uint8_t named_direction(uint64_t value)
{
    return value == 0 ? UP : DOWN;
}

/* "A telegram on kinds 0 to 3 sets its flag." */
static void deliver_to_flag(struct blind *b, uint64_t kind, uint64_t value)
{
    enum duty before = duty(b);
    if (kind == WA)
        b->wind = (uint8_t)value;
    else if (kind == RA)
        b->rain = (uint8_t)value;
    else if (kind == FA)
        b->frost = (uint8_t)value;
    else
        b->forced = forced_direction(value);
    duty_rule(b, before);
}

/* "Kinds 4 to 7 act only under duty Free; otherwise they are dropped for
   good." */
static void deliver_to_order(struct blind *b, uint64_t kind, uint64_t value)
{
    if (duty(b) != DUTY_FREE)
        return;
    if (kind == MUD)
        order_full_run(b, named_direction(value));
    else if (kind == STOP)
        order_stop(b);
    else if (kind == SSUD)
        order_slat_step(b, named_direction(value));
    else
        order_position(b, value);
}

static void deliver(struct blind *b, uint64_t kind, uint64_t value)
{
    if (kind <= FO)
        deliver_to_flag(b, kind, value);
    else
        deliver_to_order(b, kind, value);
}

/* ---- One millisecond ------------------------------------------------- */

/* "the position moves by 1 (down adds, up subtracts, kept within 0 to
   MUDT)" */
static void move_by_1(struct blind *b)
{
    if (b->direction == DOWN) {
        if (b->position < b->parameters.mudt)
            b->position += 1;
    } else {
        if (b->position > 0)
            b->position -= 1;
    }
}

/* "At length 0 the motor goes off and the rest time becomes RPT; if it was a
   full run the position becomes 0 or MUDT and is valid." */
static void end_of_run(struct blind *b)
{
    if (b->sort == FULL_RUN) {
        b->position = b->direction == DOWN ? b->parameters.mudt : 0;
        b->valid = 1;
    }
    motor_off(b);
}

/* "Running: the position moves by 1 and the length falls by 1. Off: a rest
   time above 0 falls by 1, and if it becomes 0 a waiting order starts." */
static void one_millisecond(struct blind *b)
{
    if (b->motion == RUNNING) {
        move_by_1(b);
        b->length -= 1;
        if (b->length == 0)
            end_of_run(b);
    } else if (b->rest > 0) {
        b->rest -= 1;
        if (b->rest == 0 && b->motion == WAITING)
            start(b);
    }
}

/* ---- Links ----------------------------------------------------------- */

/* The classes of the kinds: one bit, two bits, one byte. */
enum class { ONE_BIT, TWO_BITS, ONE_BYTE };

static enum class class_of(uint64_t kind)
{
    if (kind == FO)
        return TWO_BITS;
    if (kind == SAPBP)
        return ONE_BYTE;
    return ONE_BIT;
}

/* "Values: one bit 0 or 1, two bits 0 to 3, byte any." */
static int is_of_class(uint64_t value, enum class class)
{
    if (class == ONE_BIT)
        return value <= 1;
    if (class == TWO_BITS)
        return value <= 3;
    return value <= 255;
}

/* "ascending by address, then tag, then kind" */
static int comes_before(struct link a, struct link b)
{
    if (a.address != b.address)
        return a.address < b.address;
    if (a.tag != b.tag)
        return a.tag < b.tag;
    return a.kind < b.kind;
}

uint64_t place_of(const struct panel *panel, struct link link)
{
    uint64_t place = 0;
    while (place < panel->link_count && comes_before(panel->links[place], link))
        place += 1;
    return place;
}

static int is_at(const struct panel *panel, uint64_t place, struct link link)
{
    return place < panel->link_count && !comes_before(link, panel->links[place]);
}

/* The first place of this address, or link_count if it has no link. */
static uint64_t first_place(const struct panel *panel, uint64_t address)
{
    uint64_t place = 0;
    while (place < panel->link_count && panel->links[place].address != address)
        place += 1;
    return place;
}

static int link_in_range(uint64_t address, uint64_t tag, uint64_t kind)
{
    return address >= 1 && address <= 65535 && tag < TAGS && kind <= SAPBP;
}

static struct link make_link(uint64_t address, uint64_t tag, uint64_t kind)
{
    struct link link = { (uint16_t)address, (uint8_t)tag, (uint8_t)kind };
    return link;
}

/* ---- Sound ----------------------------------------------------------- */

/* "length 1 to MUDT for runs and waiting orders (a step at most SST; a
   waiting full run exactly MUDT, a waiting step exactly SST)" */
static int length_is_sound(const struct blind *b)
{
    if (b->length < 1 || b->length > b->parameters.mudt)
        return 0;
    if (b->sort == STEP && b->length > b->parameters.sst)
        return 0;
    if (b->motion == WAITING && b->sort == FULL_RUN)
        return b->length == b->parameters.mudt;
    if (b->motion == WAITING && b->sort == STEP)
        return b->length == b->parameters.sst;
    return 1;
}

/* "rest time [...] 0 while running"; "while running the last direction is
   the running one" */
static int run_is_sound(const struct blind *b)
{
    return length_is_sound(b) && b->rest == 0 && b->last == b->direction;
}

/* "an order waits only with rest time above 0 and never for the last
   direction" */
static int wait_is_sound(const struct blind *b)
{
    return length_is_sound(b) && b->rest > 0 && b->last != b->direction;
}

/* Values that no word of the paper stands for: C can hold them, and nothing
   that holds one is a panel. */
static int values_have_a_meaning(const struct blind *b)
{
    return b->valid <= 1 && b->wind <= 1 && b->rain <= 1 && b->frost <= 1
        && b->forced <= DOWN && b->last <= DOWN && b->motion <= WAITING
        && (b->motion == AT_REST
            || ((b->direction == UP || b->direction == DOWN)
                && b->sort <= TO_POSITION));
}

/* "parameters in range; position at most MUDT; [...] rest time at most
   RPT" */
static int blind_is_sound(const struct blind *b)
{
    if (!values_have_a_meaning(b) || !parameters_in_range(&b->parameters))
        return 0;
    if (b->position > b->parameters.mudt || b->rest > b->parameters.rpt)
        return 0;
    if (b->motion == RUNNING)
        return run_is_sound(b);
    if (b->motion == WAITING)
        return wait_is_sound(b);
    return 1;
}

/* "terminals distinct and in range" */
static int blinds_are_sound(const struct panel *panel)
{
    uint8_t in_use[TERMINALS] = { 0 };
    for (uint64_t tag = 0; tag < TAGS; tag++) {
        const struct blind *b = &panel->blinds[tag];
        if (b->present > 1)
            return 0;
        if (!b->present)
            continue;
        if (b->terminal >= TERMINALS || in_use[b->terminal] || !blind_is_sound(b))
            return 0;
        in_use[b->terminal] = 1;
    }
    return 1;
}

/* "links with address and kind in range, sorted and unique, of one class for
   an address, at most 512, each naming a present blind" */
static int links_are_sound(const struct panel *panel)
{
    if (panel->link_count > LINKS)
        return 0;
    for (uint64_t place = 0; place < panel->link_count; place++) {
        struct link link = panel->links[place];
        if (!link_in_range(link.address, link.tag, link.kind))
            return 0;
        if (!panel->blinds[link.tag].present)
            return 0;
        if (place == 0)
            continue;
        struct link before = panel->links[place - 1];
        if (!comes_before(before, link))
            return 0;
        if (before.address == link.address
            && class_of(before.kind) != class_of(link.kind))
            return 0;
    }
    return 1;
}

/* K4: "Unused words are 0, and a panel that breaks this is answered 12." Here
   a link is three numbers, and all three are 0. */
static int unused_places_are_0(const struct panel *panel)
{
    for (uint64_t place = panel->link_count; place < LINKS; place++) {
        struct link unused = panel->links[place];
        if (unused.address != 0 || unused.tag != 0 || unused.kind != 0)
            return 0;
    }
    return 1;
}

int is_sound(const struct panel *panel)
{
    return blinds_are_sound(panel) && links_are_sound(panel)
        && unused_places_are_0(panel);
}

/* ---- Answers --------------------------------------------------------- */

static struct answer done(uint64_t count)
{
    struct answer answer = { DONE, count };
    return answer;
}

/* "counts with it are 0, and panel and cells stay as they were" */
static struct answer refused(enum number number)
{
    struct answer answer = { number, 0 };
    return answer;
}

struct panel empty_panel(void)
{
    struct panel panel;
    memset(&panel, 0, sizeof panel);
    return panel;
}

/* ---- Edits of blinds ------------------------------------------------- */

static int terminal_in_use(const struct panel *panel, uint64_t first, uint64_t behind)
{
    for (uint64_t tag = 0; tag < TAGS; tag++) {
        const struct blind *b = &panel->blinds[tag];
        if (b->present && b->terminal >= first && b->terminal < behind)
            return 1;
    }
    return 0;
}

/* "Install (tag, terminal, parameters): a fresh blind." */
struct answer install(struct panel *panel, uint64_t tag, uint64_t terminal,
                      struct parameters parameters)
{
    if (!is_sound(panel))
        return refused(NOT_A_SOUND_PANEL);
    if (tag >= TAGS || terminal >= TERMINALS || !parameters_in_range(&parameters))
        return refused(OUTSIDE_ITS_RANGE);
    if (panel->blinds[tag].present)
        return refused(ALREADY_THERE);
    if (terminal_in_use(panel, terminal, terminal + 1))
        return refused(TERMINAL_IN_USE);
    panel->blinds[tag] = fresh_blind(terminal, parameters);
    return done(0);
}

/* Drops the links of this tag; answers "how many surviving links stand at
   another place than before". The freed places become 0, since K4 wants that
   of unused ones. */
static uint64_t drop_links_of(struct panel *panel, uint64_t tag)
{
    uint64_t kept = 0, moved = 0;
    for (uint64_t place = 0; place < panel->link_count; place++) {
        if (panel->links[place].tag == tag)
            continue;
        if (kept != place)
            moved += 1;
        panel->links[kept] = panel->links[place];
        kept += 1;
    }
    for (uint64_t place = kept; place < panel->link_count; place++)
        panel->links[place] = make_link(0, 0, 0);
    panel->link_count = kept;
    return moved;
}

/* "Remove blind: also drops its links." */
struct answer remove_blind(struct panel *panel, uint64_t tag)
{
    if (!is_sound(panel))
        return refused(NOT_A_SOUND_PANEL);
    if (tag >= TAGS)
        return refused(OUTSIDE_ITS_RANGE);
    if (!panel->blinds[tag].present)
        return refused(NO_BLIND_WITH_THIS_TAG);
    if (is_busy(&panel->blinds[tag]))
        return refused(BUSY);
    memset(&panel->blinds[tag], 0, sizeof panel->blinds[tag]);
    return done(drop_links_of(panel, tag));
}

/* "Write parameters: position 0, not valid, rest time the new RPT, last
   direction and flags kept; then the duty rule if the duty changed." */
struct answer write_parameters(struct panel *panel, uint64_t tag,
                               struct parameters parameters)
{
    if (!is_sound(panel))
        return refused(NOT_A_SOUND_PANEL);
    if (tag >= TAGS || !parameters_in_range(&parameters))
        return refused(OUTSIDE_ITS_RANGE);
    struct blind *b = &panel->blinds[tag];
    if (!b->present)
        return refused(NO_BLIND_WITH_THIS_TAG);
    if (is_busy(b))
        return refused(BUSY);
    enum duty before = duty(b);
    b->parameters = parameters;
    b->position = 0;
    b->valid = 0;
    b->rest = parameters.rpt;
    duty_rule(b, before);
    return done(0);
}

/* ---- Edits of the table ---------------------------------------------- */

/* Puts the link at its place; answers how many links had to move up. */
static uint64_t insert_at(struct panel *panel, uint64_t place, struct link link)
{
    uint64_t moved = 0;
    for (uint64_t i = panel->link_count; i > place; i--) {
        panel->links[i] = panel->links[i - 1];
        moved += 1;
    }
    panel->links[place] = link;
    panel->link_count += 1;
    return moved;
}

/* Takes the link at this place out; answers how many links had to move
   down. The freed place becomes 0, since K4 wants that of unused ones. */
static uint64_t take_out_at(struct panel *panel, uint64_t place)
{
    uint64_t moved = 0;
    panel->link_count -= 1;
    for (uint64_t i = place; i < panel->link_count; i++) {
        panel->links[i] = panel->links[i + 1];
        moved += 1;
    }
    panel->links[panel->link_count] = make_link(0, 0, 0);
    return moved;
}

/* "All links of one address have one class." */
static int has_another_class(const struct panel *panel, struct link link)
{
    uint64_t place = first_place(panel, link.address);
    return place < panel->link_count
        && class_of(panel->links[place].kind) != class_of(link.kind);
}

/* "Add link, remove link: flags and orders stay. Every edit of the table
   answers how many surviving links stand at another place than before." */
struct answer add_link(struct panel *panel, uint64_t address, uint64_t tag,
                       uint64_t kind)
{
    if (!is_sound(panel))
        return refused(NOT_A_SOUND_PANEL);
    if (!link_in_range(address, tag, kind))
        return refused(OUTSIDE_ITS_RANGE);
    if (!panel->blinds[tag].present)
        return refused(NO_BLIND_WITH_THIS_TAG);
    struct link link = make_link(address, tag, kind);
    uint64_t place = place_of(panel, link);
    if (is_at(panel, place, link))
        return refused(ALREADY_THERE);
    if (has_another_class(panel, link))
        return refused(ANOTHER_CLASS);
    if (panel->link_count == LINKS)
        return refused(LINKS_ALREADY_512);
    return done(insert_at(panel, place, link));
}

struct answer remove_link(struct panel *panel, uint64_t address, uint64_t tag,
                          uint64_t kind)
{
    if (!is_sound(panel))
        return refused(NOT_A_SOUND_PANEL);
    if (!link_in_range(address, tag, kind))
        return refused(OUTSIDE_ITS_RANGE);
    struct link link = make_link(address, tag, kind);
    uint64_t place = place_of(panel, link);
    if (!is_at(panel, place, link))
        return refused(NO_SUCH_LINK);
    return done(take_out_at(panel, place));
}

/* ---- Splices --------------------------------------------------------- */

/* "argument outside its range (splice: t above 127, n 0, or t + n above
   128)", without a sum that could wrap */
static int splice_in_range(uint64_t t, uint64_t n)
{
    return t < TERMINALS && n > 0 && n <= TERMINALS - t;
}

/* "Splices look for busy only among the blinds that would shift" */
static int busy_from(const struct panel *panel, uint64_t t)
{
    for (uint64_t tag = 0; tag < TAGS; tag++) {
        const struct blind *b = &panel->blinds[tag];
        if (b->present && b->terminal >= t && is_busy(b))
            return 1;
    }
    return 0;
}

/* "Splice in n terminals at t: each terminal from t on rises by n." */
struct answer splice_in(struct panel *panel, uint64_t t, uint64_t n)
{
    if (!is_sound(panel))
        return refused(NOT_A_SOUND_PANEL);
    if (!splice_in_range(t, n))
        return refused(OUTSIDE_ITS_RANGE);
    if (busy_from(panel, t))
        return refused(BUSY);
    /* "a terminal would pass 127": one above 127 - n, which is from t on */
    if (terminal_in_use(panel, TERMINALS - n, TERMINALS))
        return refused(WOULD_PASS_127);
    for (uint64_t tag = 0; tag < TAGS; tag++) {
        struct blind *b = &panel->blinds[tag];
        if (b->present && b->terminal >= t)
            b->terminal += n;
    }
    return done(0);
}

/* "Splice out: terminals from t + n on fall by n. Nothing else changes." */
struct answer splice_out(struct panel *panel, uint64_t t, uint64_t n)
{
    if (!is_sound(panel))
        return refused(NOT_A_SOUND_PANEL);
    if (!splice_in_range(t, n))
        return refused(OUTSIDE_ITS_RANGE);
    if (terminal_in_use(panel, t, t + n))
        return refused(TERMINAL_IN_USE);
    if (busy_from(panel, t + n))
        return refused(BUSY);
    for (uint64_t tag = 0; tag < TAGS; tag++) {
        struct blind *b = &panel->blinds[tag];
        if (b->present && b->terminal >= t + n)
            b->terminal -= n;
    }
    return done(0);
}

/* ---- Reports --------------------------------------------------------- */

static void note_who_moves(const struct panel *panel, uint8_t moved[TAGS])
{
    for (uint64_t tag = 0; tag < TAGS; tag++) {
        const struct blind *b = &panel->blinds[tag];
        moved[tag] = b->present && runs_or_waits(b);
    }
}

/* K2: "the nearest whole number to" n / d, "a half going up" */
static uint64_t nearest(uint64_t n, uint64_t d)
{
    uint64_t whole = n / d, left = n % d;
    return 2 * left >= d ? whole + 1 : whole;
}

/* K2: "0 means exactly at the top and 255 exactly at the bottom; between, it
   is the nearest whole number to position * 255 / MUDT, a half going up, kept
   within 1 to 254." */
uint64_t raw_report(uint64_t position, uint64_t mudt)
{
    if (position == 0)
        return 0;
    if (position == mudt)
        return 255;
    uint64_t raw = nearest(position * 255, mudt);
    if (raw < 1)
        return 1;
    if (raw > 254)
        return 254;
    return raw;
}

/* "If the blind was running or waiting before the call and is neither after
   it, the cell is" K2's number, "plus 256 if valid; else 512." */
static uint16_t report(const struct blind *b, int moved_before)
{
    if (!moved_before || runs_or_waits(b))
        return 512;
    uint64_t raw = raw_report(b->position, b->parameters.mudt);
    return (uint16_t)(b->valid ? raw + 256 : raw);
}

/* "Telegrams and time steps fill 64 lent cells, one for each tag." */
static void fill_reports(const struct panel *panel, const uint8_t moved[TAGS],
                         uint16_t *cells)
{
    for (uint64_t tag = 0; tag < TAGS; tag++)
        cells[tag] = report(&panel->blinds[tag], moved[tag]);
}

/* K2: "The wall display shows per cent from a table of 256 entries; each
   entry is the nearest whole number to raw * 100 / 255" */
struct answer percent(uint64_t raw)
{
    if (raw > 255)
        return refused(OUTSIDE_ITS_RANGE);
    return done(nearest(raw * 100, 255));
}

/* ---- Telegrams, time and readings ------------------------------------ */

/* "A telegram is (address, value 0 to 255). It is delivered to the links of
   its address in table order and answers how many there were." */
struct answer telegram(struct panel *panel, uint64_t address, uint64_t value,
                       uint16_t *cells, uint64_t lent)
{
    if (lent != TAGS)
        return refused(NOT_EXACTLY_THE_CELLS);
    if (!is_sound(panel))
        return refused(NOT_A_SOUND_PANEL);
    if (address < 1 || address > 65535 || value > 255)
        return refused(OUTSIDE_ITS_RANGE);
    uint64_t place = first_place(panel, address);
    if (place == panel->link_count)
        return refused(NO_SUCH_LINK);
    if (!is_of_class(value, class_of(panel->links[place].kind)))
        return refused(NOT_OF_THE_CLASS);
    uint8_t moved[TAGS];
    note_who_moves(panel, moved);
    uint64_t count = 0;
    while (place < panel->link_count && panel->links[place].address == address) {
        struct link link = panel->links[place];
        deliver(&panel->blinds[link.tag], link.kind, value);
        count += 1;
        place += 1;
    }
    fill_reports(panel, moved, cells);
    return done(count);
}

/* "A time step of dt, 0 to 60,000, is dt such milliseconds for every
   blind." */
struct answer time_step(struct panel *panel, uint64_t dt, uint16_t *cells,
                        uint64_t lent)
{
    if (lent != TAGS)
        return refused(NOT_EXACTLY_THE_CELLS);
    if (!is_sound(panel))
        return refused(NOT_A_SOUND_PANEL);
    if (dt > 60000)
        return refused(OUTSIDE_ITS_RANGE);
    uint8_t moved[TAGS];
    note_who_moves(panel, moved);
    for (uint64_t tag = 0; tag < TAGS; tag++) {
        if (!panel->blinds[tag].present)
            continue;
        for (uint64_t ms = 0; ms < dt; ms++)
            one_millisecond(&panel->blinds[tag]);
    }
    fill_reports(panel, moved, cells);
    return done(0);
}

/* "A strip reading fills 128 lent cells: 0 off, 1 up, 2 down; a terminal
   without a blind is 0." */
struct answer strip_reading(const struct panel *panel, uint16_t *cells,
                            uint64_t lent)
{
    if (lent != TERMINALS)
        return refused(NOT_EXACTLY_THE_CELLS);
    if (!is_sound(panel))
        return refused(NOT_A_SOUND_PANEL);
    for (uint64_t terminal = 0; terminal < TERMINALS; terminal++)
        cells[terminal] = NEITHER;
    for (uint64_t tag = 0; tag < TAGS; tag++) {
        const struct blind *b = &panel->blinds[tag];
        if (b->present && b->motion == RUNNING)
            cells[b->terminal] = b->direction;
    }
    return done(0);
}

/* "Inventory: the number of blinds and the lowest free tag, 64 if there is
   none." */
struct inventory inventory(const struct panel *panel)
{
    struct inventory answer = { DONE, 0, TAGS };
    if (!is_sound(panel)) {
        struct inventory no = { NOT_A_SOUND_PANEL, 0, 0 };
        return no;
    }
    for (uint64_t tag = TAGS; tag-- > 0;) {
        if (panel->blinds[tag].present)
            answer.blinds += 1;
        else
            answer.lowest_free_tag = tag;
    }
    return answer;
}
