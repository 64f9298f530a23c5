/* The workloads of crates/workloads over the peer's panel: the same calls in
   the same order from the same panels, and the same lines. Arguments: call,
   case, blinds, links, turns, each a number. Without them each call makes two
   turns in each case. */

#include "peer.h"

int printf(const char *format, ...);
unsigned long long strtoull(const char *text, char **end, int base);

enum {
    CALLS = 22,
    CASES = 5,
    FIRST_EDIT = 6,
    STRIP = 5,
    FRONT_WIRING = 7,
    END_WIRING = 13,
    TOO_LONG = 60001,
    RUNNING_FOR = 540000
};

enum { FRONT = 1, SHARED = 1000, BEFORE = 100, AFTER = 2000, END = 65535, REST = 500 };

static const struct parameters asked = {
    .mudt = 600000, .sst = 200, .rpt = 500, .rwa = 1, .rra = 1, .rfa = 3
};

/* ---- The panels ------------------------------------------------------ */

static uint64_t shared(uint64_t blinds, uint64_t links)
{
    return blinds < links / 2 ? blinds : links / 2;
}

static uint64_t lone_before(uint64_t blinds, uint64_t links)
{
    return (links - shared(blinds, links)) / 2;
}

static uint64_t alone(uint64_t blinds, uint64_t links)
{
    uint64_t many = lone_before(blinds, links);
    return many == 0 ? BEFORE : BEFORE + many - 1;
}

static uint64_t address_of(uint64_t place, uint64_t blinds, uint64_t links)
{
    uint64_t together = shared(blinds, links);
    if (place < together)
        return SHARED;
    uint64_t lone = place - together;
    return (lone < lone_before(blinds, links) ? BEFORE : AFTER) + lone;
}

static void start_blind(struct panel *panel, uint64_t tag)
{
    uint16_t cells[TAGS];
    add_link(panel, FRONT, tag, MUD);
    telegram(panel, FRONT, 1, cells, TAGS);
    remove_link(panel, FRONT, tag, MUD);
}

static void fit(struct panel *panel, uint64_t blinds, uint64_t links, int run)
{
    uint16_t cells[TAGS];
    *panel = empty_panel();
    for (uint64_t tag = 0; tag < blinds; tag++)
        install(panel, tag, tag, asked);
    time_step(panel, REST, cells, TAGS);
    for (uint64_t tag = 0; run && tag < blinds; tag++)
        start_blind(panel, tag);
    for (uint64_t place = 0; place < links; place++)
        add_link(panel, address_of(place, blinds, links),
                 blinds == 0 ? 0 : place % blinds, MUD);
}

/* ---- The turns ------------------------------------------------------- */

void count(struct tally *tally, struct answer answer)
{
    tally->answer = answer.number;
    tally->sum += answer.number + answer.count;
}

static void count_panel(struct tally *tally, const struct panel *panel)
{
    tally->sum += panel->link_count;
    for (uint64_t tag = 0; tag < TAGS; tag++)
        if (panel->blinds[tag].present)
            tally->sum += panel->blinds[tag].terminal + panel->blinds[tag].position;
}

static void count_cells(struct tally *tally, const uint16_t *cells, uint64_t lent)
{
    for (uint64_t i = 0; i < lent; i++)
        tally->sum += cells[i];
}

static struct panel first;

static void time_steps(struct tally *tally, struct panel *panel, uint64_t dt,
                       uint64_t turns, uint64_t lent)
{
    uint16_t cells[TAGS] = { 0 };
    uint64_t period = RUNNING_FOR / dt;
    for (uint64_t turn = 0; turn < turns; turn++) {
        if (turn % period == 0)
            *panel = first;
        count(tally, time_step(panel, dt, cells, lent));
    }
    count_cells(tally, cells, lent);
}

static void telegrams(struct tally *tally, struct panel *panel, uint64_t address,
                      uint64_t turns, uint64_t lent)
{
    uint16_t cells[TAGS] = { 0 };
    for (uint64_t turn = 0; turn < turns; turn++)
        count(tally, telegram(panel, address, turn % 2, cells, lent));
    count_cells(tally, cells, lent);
}

static void strips(struct tally *tally, struct panel *panel, uint64_t turns,
                   uint64_t lent)
{
    uint16_t cells[TERMINALS] = { 0 };
    for (uint64_t turn = 0; turn < turns; turn++) {
        panel->blinds[0].position = turn % 2;
        count(tally, strip_reading(panel, cells, lent));
    }
    count_cells(tally, cells, lent);
}

static void inventories(struct tally *tally, struct panel *panel, uint64_t turns)
{
    for (uint64_t turn = 0; turn < turns; turn++) {
        panel->blinds[0].position = turn % 2;
        struct inventory stock = inventory(panel);
        struct answer answer = { stock.number, stock.blinds };
        count(tally, answer);
    }
}

static void wirings(struct tally *tally, struct panel *panel, uint64_t address,
                    uint64_t turns)
{
    for (uint64_t turn = 0; turn < turns; turn++) {
        count(tally, add_link(panel, address, 0, MUD));
        count(tally, remove_link(panel, address, 0, MUD));
    }
}

static void splicings(struct tally *tally, struct panel *panel, uint64_t t,
                      uint64_t turns)
{
    for (uint64_t turn = 0; turn < turns; turn++) {
        count(tally, splice_in(panel, t, 1));
        count(tally, splice_out(panel, t, 1));
    }
}

static void installs(struct tally *tally, struct panel *panel, uint64_t tag,
                     uint64_t turns)
{
    for (uint64_t turn = 0; turn < turns; turn++)
        count(tally, install(panel, tag, tag, asked));
}

static void removals(struct tally *tally, struct panel *panel, uint64_t tag,
                     uint64_t turns)
{
    for (uint64_t turn = 0; turn < turns; turn++)
        count(tally, remove_blind(panel, tag));
}

static void writes(struct tally *tally, struct panel *panel, uint64_t tag,
                   uint64_t turns)
{
    for (uint64_t turn = 0; turn < turns; turn++) {
        count(tally, write_parameters(panel, tag, asked));
        panel->blinds[0] = first.blinds[0];
    }
}

static void exchanges(struct tally *tally, struct panel *panel, uint64_t tag,
                      uint64_t turns)
{
    for (uint64_t turn = 0; turn < turns; turn++) {
        count(tally, remove_blind(panel, tag));
        count(tally, install(panel, tag, tag, asked));
        panel->blinds[0] = first.blinds[0];
    }
}

static void lookups(struct tally *tally, const struct panel *panel, struct workload w)
{
    uint64_t place = 0;
    for (uint64_t turn = 0; turn < w.turns; turn++) {
        place = w.links == 0 ? 0 : (place + w.links / 2 + 1) % w.links;
        struct link first = { (uint16_t)address_of(place, w.blinds, w.links), 0, 0 };
        struct answer found = { DONE, place_of(panel, first) };
        count(tally, found);
    }
}

/* ---- A workload ------------------------------------------------------ */

static void run_bus(struct tally *tally, struct panel *panel, struct workload w)
{
    uint64_t lent = w.kase == WRONG_CELLS ? TAGS - 1 : TAGS;
    int outside = w.kase == OUTSIDE;
    switch (w.call) {
    case 0: time_steps(tally, panel, outside ? TOO_LONG : 1, w.turns, lent); break;
    case 1: time_steps(tally, panel, outside ? TOO_LONG : 1000, w.turns, lent); break;
    case 2: time_steps(tally, panel, outside ? TOO_LONG : 60000, w.turns, lent); break;
    case 3: telegrams(tally, panel, outside ? 0 : alone(w.blinds, w.links), w.turns, lent); break;
    case 4: telegrams(tally, panel, outside ? 0 : SHARED, w.turns, lent); break;
    default: strips(tally, panel, w.turns, w.kase == WRONG_CELLS ? TERMINALS - 1 : TERMINALS);
    }
}

static void run_edits(struct tally *tally, struct panel *panel, struct workload w)
{
    int outside = w.kase == OUTSIDE;
    switch (w.call) {
    case 6: inventories(tally, panel, w.turns); break;
    case FRONT_WIRING: wirings(tally, panel, outside ? 0 : FRONT, w.turns); break;
    case 8: splicings(tally, panel, outside ? TERMINALS : 0, w.turns); break;
    case 9: installs(tally, panel, outside ? TAGS : 0, w.turns); break;
    case 10: removals(tally, panel, outside ? TAGS : 0, w.turns); break;
    case 11: writes(tally, panel, outside ? TAGS : 0, w.turns); break;
    case 12: exchanges(tally, panel, outside ? TAGS : 0, w.turns); break;
    case END_WIRING: wirings(tally, panel, outside ? 0 : END, w.turns); break;
    default: lookups(tally, panel, w);
    }
}

static void run(struct workload w)
{
    struct tally tally = { 0, 0 };
    int adds = w.call == FRONT_WIRING || w.call == END_WIRING;
    fit(&first, w.blinds, w.links - adds, w.call < FIRST_EDIT);
    if (w.kase == BAD_BLINDS)
        first.blinds[TAGS - 1].terminal = first.blinds[0].terminal;
    /* Both places are in use, with 511 links and with 512: a link stands twice. */
    if (w.kase == BAD_LINKS)
        first.links[LINKS - 2] = first.links[LINKS - 3];
    struct panel panel = first;
    if (w.call < FIRST_EDIT)
        run_bus(&tally, &panel, w);
    else if (w.call < FIRST_FILE)
        run_edits(&tally, &panel, w);
    else
        run_files(&tally, &panel, w);
    count_panel(&tally, &panel);
    printf("call %lu case %lu blinds %lu links %lu turns %lu answer %lu sum %lu\n",
           w.call, w.kase, w.blinds, w.links, w.turns, tally.answer, tally.sum);
}

int main(int argc, char **argv)
{
    if (argc >= 6) {
        struct workload w;
        w.call = strtoull(argv[1], 0, 10);
        w.kase = strtoull(argv[2], 0, 10);
        w.blinds = strtoull(argv[3], 0, 10);
        w.links = strtoull(argv[4], 0, 10);
        w.turns = strtoull(argv[5], 0, 10);
        run(w);
        return 0;
    }
    for (uint64_t call = 0; call < CALLS; call++)
        for (uint64_t kase = 0; kase < CASES; kase++) {
            struct workload w = { call, kase, 64, 512, 2 };
            run(w);
        }
    return 0;
}
