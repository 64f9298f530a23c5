/* The numbered cases of document 01 by the peer's calls, W3 as K2 has it and
   W9 as K5 has it: one line for each, name, tab, `same` or `differs`. K1 is
   asked in R3. */

#include "why.h"

#include <stdio.h>

static struct panel panel;
static uint16_t reports[TAGS];
static int same;

static void expect(int holds)
{
    same = same && holds;
}

/* "each kind on its own address" */
static uint64_t address_of(uint64_t kind)
{
    return 1000 + kind;
}

static struct blind *blind(void)
{
    return &panel.blinds[5];
}

/* "Blind 5 at terminal 9, defaults, fresh, each kind on its own address" */
static void begin(void)
{
    same = 1;
    panel = empty_panel();
    expect(install(&panel, 5, 9, default_parameters).number == DONE);
    for (uint64_t kind = WA; kind <= SAPBP; kind++)
        expect(add_link(&panel, address_of(kind), 5, kind).number == DONE);
}

static void send(uint64_t kind, uint64_t value)
{
    struct answer answer = telegram(&panel, address_of(kind), value, reports, TAGS);
    expect(answer.number == DONE && answer.count == 1);
}

static void pass(uint64_t dt)
{
    struct answer answer = time_step(&panel, dt, reports, TAGS);
    expect(answer.number == DONE && answer.count == 0);
}

static uint64_t motor(uint64_t terminal)
{
    uint16_t cells[TERMINALS];
    struct answer answer = strip_reading(&panel, cells, TERMINALS);
    expect(answer.number == DONE && answer.count == 0);
    return cells[terminal];
}

static void expect_motor(uint64_t command)
{
    expect(motor(9) == command);
}

static void expect_report(uint64_t cell)
{
    for (uint64_t tag = 0; tag < TAGS; tag++)
        expect(reports[tag] == (tag == 5 ? cell : 512));
}

static void expect_waits(uint64_t direction)
{
    expect(blind()->motion == WAITING && blind()->direction == direction);
}

static void expect_at_rest(void)
{
    expect(blind()->motion == AT_REST);
}

static int same_blind(const struct blind *a, const struct blind *b)
{
    return a->present == b->present && a->valid == b->valid && a->wind == b->wind
        && a->rain == b->rain && a->frost == b->frost && a->forced == b->forced
        && a->last == b->last && a->motion == b->motion
        && a->direction == b->direction && a->sort == b->sort
        && a->length == b->length && a->rest == b->rest
        && a->position == b->position && a->terminal == b->terminal
        && a->parameters.mudt == b->parameters.mudt
        && a->parameters.sst == b->parameters.sst
        && a->parameters.rpt == b->parameters.rpt
        && a->parameters.rwa == b->parameters.rwa
        && a->parameters.rra == b->parameters.rra
        && a->parameters.rfa == b->parameters.rfa;
}

/* "MUD 0, then 499 ms: off. 1 ms more: up." */
static void w1(void)
{
    begin();
    send(MUD, 0);
    pass(499);
    expect_motor(NEITHER);
    pass(1);
    expect_motor(UP);
}

/* "from W1, 59,999 ms: up. 1 ms more: off, report 256." */
static void w2(void)
{
    w1();
    pass(59999);
    expect_motor(UP);
    pass(1);
    expect_motor(NEITHER);
    expect_report(256);
}

/* K2: "a finished run to v, with nothing in between, reports v for every v
   from 1 to 254." From where W3 ends, up to 1 and then down one by one. */
static void expect_each_v(void)
{
    for (uint64_t v = 1; v <= 254; v++) {
        send(SAPBP, v);
        pass(60000);
        expect_report(256 + v);
    }
}

/* K2: "0 means exactly at the top and 255 exactly at the bottom; between, it
   is the nearest whole number [...], a half going up, kept within 1 to 254."
   With MUDT 1,020 it is the nearest one to a quarter of the position. */
static void expect_raw_reports(void)
{
    static const uint64_t cases[][2] = {
        { 0, 0 }, { 1, 1 }, { 2, 1 }, { 5, 1 }, { 6, 2 }, { 509, 127 },
        { 510, 128 }, { 1013, 253 }, { 1014, 254 }, { 1018, 254 },
        { 1019, 254 }, { 1020, 255 }
    };
    for (size_t i = 0; i < sizeof cases / sizeof cases[0]; i++)
        expect(raw_report(cases[i][0], 1020) == cases[i][1]);
    expect(raw_report(1, 600000) == 1 && raw_report(599999, 600000) == 254);
}

static void expect_percent(uint64_t raw, uint64_t number, uint64_t count)
{
    struct answer answer = percent(raw);
    expect(answer.number == number && answer.count == count);
}

/* K2: "each entry is the nearest whole number to raw * 100 / 255, and it
   never falls." */
static void expect_percents(void)
{
    expect_percent(0, DONE, 0);
    expect_percent(1, DONE, 0);
    expect_percent(2, DONE, 1);
    expect_percent(127, DONE, 50);
    expect_percent(128, DONE, 50);
    expect_percent(253, DONE, 99);
    expect_percent(254, DONE, 100);
    expect_percent(255, DONE, 100);
    expect_percent(256, OUTSIDE_ITS_RANGE, 0);
    expect_percent(UINT64_MAX, OUTSIDE_ITS_RANGE, 0);
    for (uint64_t raw = 1; raw <= 255; raw++)
        expect(percent(raw - 1).count <= percent(raw).count);
}

/* "then SAPBP 128 at once: off; 500 ms: down; 30,117 ms: off, report" 384, as
   K2 has it: "W3 becomes 384." The rest of K2 is looked at here too. */
static void w3(void)
{
    w2();
    send(SAPBP, 128);
    expect_motor(NEITHER);
    pass(500);
    expect_motor(DOWN);
    pass(30116);
    expect_motor(DOWN);
    pass(1);
    expect_motor(NEITHER);
    expect_report(384);
    expect_each_v();
    expect_raw_reports();
    expect_percents();
}

/* "running up, MUD 1: off; 499 ms: off; 1 ms: down." */
static void w4(void)
{
    w1();
    send(MUD, 1);
    expect_motor(NEITHER);
    pass(499);
    expect_motor(NEITHER);
    pass(1);
    expect_motor(DOWN);
}

/* "full run down, SSUD 0: off, nothing waits." */
static void w5(void)
{
    begin();
    send(MUD, 1);
    pass(500);
    expect_motor(DOWN);
    send(SSUD, 0);
    expect_motor(NEITHER);
    expect_at_rest();
}

/* "last direction up, rest time 0, SSUD 0: up; 200 ms: off." */
static void w6(void)
{
    w1();
    send(STOP, 0);
    pass(500);
    expect(blind()->last == UP && blind()->rest == 0);
    send(SSUD, 0);
    expect_motor(UP);
    pass(199);
    expect_motor(UP);
    pass(1);
    expect_motor(NEITHER);
}

/* "fresh, SAPBP 100: answer 0, still at rest." */
static void w7(void)
{
    begin();
    send(SAPBP, 100);
    expect_motor(NEITHER);
    expect_at_rest();
}

/* "fresh, WA 1, MUD 1: an up run waits. WA 0: at rest, report 0." */
static void w8(void)
{
    begin();
    send(WA, 1);
    send(MUD, 1);
    expect_waits(UP);
    send(WA, 0);
    expect_at_rest();
    expect_report(0);
}

/* K5: "W9 now reads that FA 1 gives Hold." The flag is set and no other
   field changes; a MUD after it is dropped. */
static void w9(void)
{
    begin();
    struct blind held = *blind();
    held.frost = 1;
    send(FA, 1);
    expect(same_blind(blind(), &held));
    expect(duty(blind()) == DUTY_HOLD);
    expect_motor(NEITHER);
    expect_report(512);
    send(MUD, 1);
    expect(same_blind(blind(), &held));
    expect_report(512);
}

/* "running down under FO 3, WA 1: off, up waits. WA 0 in the same instant:
   down, full length." */
static void w10(void)
{
    begin();
    send(FO, 3);
    pass(500);
    pass(1234);
    expect_motor(DOWN);
    send(WA, 1);
    expect_motor(NEITHER);
    expect_waits(UP);
    send(WA, 0);
    expect_motor(DOWN);
    expect(blind()->sort == FULL_RUN && blind()->length == 60000);
}

/* "not busy, splice in 2 at 9: terminal 11; a blind at 8 stays." */
static void w11(void)
{
    begin();
    expect(install(&panel, 3, 8, default_parameters).number == DONE);
    pass(500);
    expect(splice_in(&panel, 9, 2).number == DONE);
    expect(blind()->terminal == 11);
    expect(panel.blinds[3].terminal == 8);
}

/* "not busy, splice in at 9: n = 118 gives terminal 127; instead, 119 is
   answered 9 and 120 is answered 1. A fresh blind, still in its first pause:
   119 is answered 3." */
static void w12(void)
{
    begin();
    expect(splice_in(&panel, 9, 119).number == BUSY);
    pass(500);
    expect(splice_in(&panel, 9, 119).number == WOULD_PASS_127);
    expect(splice_in(&panel, 9, 120).number == OUTSIDE_ITS_RANGE);
    expect(splice_in(&panel, 9, 118).number == DONE);
    expect(blind()->terminal == 127);
}

/* "link 512 is accepted, 513 answers 7, and after a removal one more is
   accepted." */
static void r1(void)
{
    same = 1;
    panel = empty_panel();
    expect(install(&panel, 5, 9, default_parameters).number == DONE);
    for (uint64_t address = 1; address <= 512; address++)
        expect(add_link(&panel, address, 5, MUD).number == DONE);
    expect(add_link(&panel, 513, 5, MUD).number == LINKS_ALREADY_512);
    struct answer answer = remove_link(&panel, 1, 5, MUD);
    expect(answer.number == DONE && answer.count == 511);
    expect(add_link(&panel, 513, 5, MUD).number == DONE);
    expect(add_link(&panel, 514, 5, MUD).number == LINKS_ALREADY_512);
}

/* "dt 60,000 answers 0 and 60,001 answers 1." */
static void r2(void)
{
    begin();
    expect(time_step(&panel, 60000, reports, TAGS).number == DONE);
    expect(time_step(&panel, 60001, reports, TAGS).number == OUTSIDE_ITS_RANGE);
}

static void expect_why(uint64_t address, uint64_t value, enum reason reason,
                       uint64_t left)
{
    struct explanation answer = why(&panel, 5, address, value);
    expect(answer.number == DONE && answer.reason == reason && answer.left == left);
}

/* K1: "dropped under wind, rain, frost or forced (the one that rules)", each
   on top of the one before. The flags themselves are never under anything. */
static void expect_rulers(void)
{
    send(FO, 2);
    expect_why(address_of(MUD), 1, UNDER_FORCED, 0);
    expect_why(address_of(FO), 2, ALREADY_SO, 0);
    send(FA, 1);
    expect_why(address_of(MUD), 1, UNDER_FROST, 0);
    expect_why(address_of(FO), 3, ACTS, 0);
    send(RA, 1);
    expect_why(address_of(STOP), 1, UNDER_RAIN, 0);
    send(WA, 1);
    expect_why(address_of(SSUD), 1, UNDER_WIND, 0);
    expect_why(address_of(SAPBP), 100, UNDER_WIND, 0);
    expect_why(address_of(MUD), 2, WRONG_CLASS, 0);
    expect_why(address_of(WA), 1, ALREADY_SO, 0);
    expect_why(address_of(WA), 0, ACTS, 0);
    send(RA, 0);
    expect_why(address_of(WA), 0, ACTS, 0);
    send(WA, 0);
    send(FA, 0);
    send(FO, 0);
}

/* K1 from where R3 ends: last direction up, rest time RPT, not valid. */
static void expect_reasons(void)
{
    expect_why(999, 0, NOT_LINKED, 0);
    expect_why(999, 255, NOT_LINKED, 0);
    expect_why(address_of(MUD), 2, WRONG_CLASS, 0);
    expect_why(address_of(FO), 4, WRONG_CLASS, 0);
    expect_why(address_of(SAPBP), 100, NO_POSITION, 0);
    expect_why(address_of(SAPBP), 0, ACTS, 0);
    expect_why(address_of(SAPBP), 255, WAITS_FOR_THE_PAUSE, 500);
    expect_why(address_of(STOP), 0, ALREADY_SO, 0);
    send(MUD, 1);
    pass(1);
    expect_why(address_of(MUD), 1, WAITS_FOR_THE_PAUSE, 499);
    expect_why(address_of(MUD), 0, ACTS, 0);
    pass(499);
    expect_why(address_of(MUD), 1, ALREADY_SO, 0);
    expect_why(address_of(MUD), 0, WAITS_FOR_THE_PAUSE, 500);
    pass(1);
    expect_why(address_of(MUD), 1, ACTS, 0);
    send(STOP, 0);
    pass(500);
    expect_rulers();
    expect(add_link(&panel, address_of(WA), 5, MUD).number == DONE);
    expect_why(address_of(WA), 1, UNDER_WIND, 0);
    expect_why(address_of(WA), 0, ACTS, 0);
}

/* "MUD and STOP on one address, blind not busy: no report, rest time RPT." K1:
   "With several links on the address it speaks of the last in table order,
   judged after the earlier ones are delivered." */
static void r3(void)
{
    begin();
    expect(add_link(&panel, 7, 5, MUD).number == DONE);
    expect(add_link(&panel, 7, 5, STOP).number == DONE);
    pass(500);
    expect_why(7, 0, ACTS, 0);
    struct answer answer = telegram(&panel, 7, 0, reports, TAGS);
    expect(answer.number == DONE && answer.count == 2);
    expect_report(512);
    expect_at_rest();
    expect(blind()->rest == 500);
    expect_reasons();
}

int main(void)
{
    static const struct {
        const char *name;
        void (*run)(void);
    } cases[] = {
        { "W1", w1 }, { "W2", w2 }, { "W3", w3 }, { "W4", w4 }, { "W5", w5 },
        { "W6", w6 }, { "W7", w7 }, { "W8", w8 }, { "W9", w9 },
        { "W10", w10 }, { "W11", w11 }, { "W12", w12 },
        { "R1", r1 }, { "R2", r2 }, { "R3", r3 },
    };
    for (size_t i = 0; i < sizeof cases / sizeof cases[0]; i++) {
        cases[i].run();
        printf("%s\t%s\n", cases[i].name, same ? "same" : "differs");
    }
    return 0;
}
