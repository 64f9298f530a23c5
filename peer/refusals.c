/* What a script cannot show: answer 11 for each wrong number of lent cells,
   and answer 12 for each clause of the paragraph "Sound" and for anything in
   an unused link place, by every call that takes a panel, in the order 11,
   12, 1, with panel and cells untouched; the same of `why`, in the order 12,
   1, 2, and of the plant file's writer, in the order 13, 12. Also: a removal
   leaves 0 in the places that it frees. plants.c has the rest of K3. */

#include "refusals.h"
#include "plant.h"
#include "why.h"

#include <stdio.h>
#include <string.h>

static int checks, wrong;

void expect(int holds, const char *what)
{
    checks += 1;
    if (!holds) {
        wrong += 1;
        printf("wrong: %s\n", what);
    }
}

/* ---- A sound panel with all sorts of blinds -------------------------- */

struct panel sound_panel(void)
{
    uint16_t cells[TAGS];
    struct parameters p = { 2000, 300, 400, 1, 2, 3 };
    struct panel panel = empty_panel();
    for (uint64_t tag = 1; tag <= 7; tag++) {
        install(&panel, tag, 10 * tag, p);
        add_link(&panel, 100, tag, MUD);
        add_link(&panel, 100 + tag, tag, MUD);
        add_link(&panel, 200 + tag, tag, SSUD);
        add_link(&panel, 300 + tag, tag, SAPBP);
        add_link(&panel, 400 + tag, tag, FO);
    }
    telegram(&panel, 100, 0, cells, TAGS);
    time_step(&panel, 400 + 2000, cells, TAGS);
    /* all at position 0, valid, last direction up, rest time RPT */
    telegram(&panel, 103, 1, cells, TAGS);
    telegram(&panel, 205, 1, cells, TAGS);
    telegram(&panel, 307, 100, cells, TAGS);
    time_step(&panel, 10, cells, TAGS);
    panel.blinds[1].rest = 0;
    telegram(&panel, 102, 0, cells, TAGS);
    telegram(&panel, 204, 0, cells, TAGS);
    panel.blinds[6].position = 1500;
    telegram(&panel, 306, 10, cells, TAGS);
    return panel;
}

/* ---- Every call that takes a panel ----------------------------------- */

static const uint64_t huge = UINT64_MAX;

static int refuses(struct explanation answer, uint64_t number)
{
    return answer.number == number && answer.reason == NO_REASON && answer.left == 0;
}

/* K1: "A bad panel, a bad argument and an absent blind are answered 12, 1 and
   2, in that order." */
static void expect_12_of_why(const struct panel *damaged, const char *what)
{
    static struct panel panel;
    memcpy(&panel, damaged, sizeof panel);
    for (uint64_t tag = 0; tag < TAGS; tag++)
        expect(refuses(why(&panel, tag, 100, 0), NOT_A_SOUND_PANEL), what);
    expect(refuses(why(&panel, 1, 9999, 0), NOT_A_SOUND_PANEL), what);
    expect(refuses(why(&panel, TAGS, 100, 0), NOT_A_SOUND_PANEL), what);
    expect(refuses(why(&panel, 1, 0, 0), NOT_A_SOUND_PANEL), what);
    expect(refuses(why(&panel, 1, 100, 256), NOT_A_SOUND_PANEL), what);
    expect(refuses(why(&panel, huge, huge, huge), NOT_A_SOUND_PANEL), what);
    expect(memcmp(&panel, damaged, sizeof panel) == 0, what);
}

/* K3: "a shorter buffer is answered 13 (new, checked with 11) and an unsound
   panel 12." */
static void expect_12_of_write(const struct panel *damaged, const char *what)
{
    static struct panel panel;
    static char file[PLANT_BYTES], kept[PLANT_BYTES];
    memcpy(&panel, damaged, sizeof panel);
    memset(file, 0xa5, sizeof file);
    memcpy(kept, file, sizeof kept);
    struct answer unsound = write_plant(&panel, file, PLANT_BYTES);
    struct answer too_short = write_plant(&panel, file, PLANT_BYTES - 1);
    expect(unsound.number == NOT_A_SOUND_PANEL && unsound.count == 0, what);
    expect(too_short.number == BUFFER_TOO_SHORT && too_short.count == 0, what);
    expect(memcmp(&panel, damaged, sizeof panel) == 0, what);
    expect(memcmp(file, kept, sizeof file) == 0, what);
}

/* Whether every call answers 12, counts 0, also with arguments that would
   be answered 1, and leaves the panel as it is. */
static void expect_12_everywhere(const struct panel *damaged, const char *what)
{
    static struct panel panel;
    uint16_t cells[TERMINALS], kept[TERMINALS];
    struct parameters none = { 0, 0, 0, 9, 9, 9 };
    struct answer answers[18];
    size_t n = 0;
    memcpy(&panel, damaged, sizeof panel);
    memset(cells, 0xa5, sizeof cells);
    memcpy(kept, cells, sizeof kept);
    answers[n++] = install(&panel, 20, 100, default_parameters);
    answers[n++] = install(&panel, huge, huge, none);
    answers[n++] = remove_blind(&panel, 1);
    answers[n++] = remove_blind(&panel, huge);
    answers[n++] = write_parameters(&panel, 1, default_parameters);
    answers[n++] = write_parameters(&panel, huge, none);
    answers[n++] = add_link(&panel, 500, 1, MUD);
    answers[n++] = add_link(&panel, huge, huge, huge);
    answers[n++] = remove_link(&panel, 100, 1, MUD);
    answers[n++] = remove_link(&panel, huge, huge, huge);
    answers[n++] = splice_in(&panel, 127, 1);
    answers[n++] = splice_in(&panel, huge, huge);
    answers[n++] = splice_out(&panel, 127, 1);
    answers[n++] = splice_out(&panel, huge, huge);
    answers[n++] = telegram(&panel, 100, 0, cells, TAGS);
    answers[n++] = telegram(&panel, huge, huge, cells, TAGS);
    answers[n++] = time_step(&panel, huge, cells, TAGS);
    answers[n++] = strip_reading(&panel, cells, TERMINALS);
    for (size_t i = 0; i < n; i++)
        expect(answers[i].number == NOT_A_SOUND_PANEL && answers[i].count == 0, what);
    struct inventory inv = inventory(&panel);
    expect(inv.number == NOT_A_SOUND_PANEL && inv.blinds == 0
           && inv.lowest_free_tag == 0, what);
    expect(memcmp(&panel, damaged, sizeof panel) == 0, what);
    expect(memcmp(cells, kept, sizeof cells) == 0, what);
    expect(telegram(&panel, huge, huge, cells, TERMINALS).number
           == NOT_EXACTLY_THE_CELLS, what);
    expect(time_step(&panel, huge, cells, 0).number == NOT_EXACTLY_THE_CELLS, what);
    expect(strip_reading(&panel, cells, TAGS).number == NOT_EXACTLY_THE_CELLS, what);
}

/* A sound panel with one thing changed is not sound. */
#define DAMAGE(what)                                                        \
    do {                                                                    \
        static struct panel p;                                              \
        p = sound_panel();                                                  \
        what;                                                               \
        expect(!is_sound(&p), #what);                                       \
        expect_12_everywhere(&p, #what);                                    \
        expect_12_of_why(&p, #what);                                        \
        expect_12_of_write(&p, #what);                                      \
    } while (0)

/* A sound panel with one thing changed is still sound. */
#define HARMLESS(what)                                                      \
    do {                                                                    \
        static struct panel p;                                              \
        p = sound_panel();                                                  \
        what;                                                               \
        expect(is_sound(&p), #what);                                        \
    } while (0)

static void links(void)
{
    DAMAGE(p.link_count = 513);
    DAMAGE(p.link_count = UINT64_MAX);
    DAMAGE(p.links[0].address = 0);
    DAMAGE(p.links[34].kind = 8);
    DAMAGE(p.links[34].kind = 255);
    DAMAGE(p.links[0].tag = 8);
    DAMAGE(p.links[34].tag = 64);
    DAMAGE(p.links[34].tag = 255);
    DAMAGE(p.links[1] = p.links[0]);
    DAMAGE(p.links[1].tag = 1; p.links[0].tag = 2);
    DAMAGE(p.links[33].address = 408);
    DAMAGE(p.links[1].kind = FO);
    DAMAGE(p.links[6].kind = SAPBP);
    DAMAGE(p.link_count = 36);
    DAMAGE(p.blinds[7].present = 0);
    HARMLESS(p.links[1].kind = STOP);
    HARMLESS(p.links[1].kind = WA);
}

/* ---- Unused link places ---------------------------------------------- */

/* Adds links of blind 1 behind the others until the table has this many. */
static void fill_up_to(struct panel *panel, uint64_t many)
{
    for (uint64_t place = panel->link_count; place < many; place++)
        add_link(panel, 1000 + place, 1, MUD);
}

/* K4: "Unused words are 0, and a panel that breaks this is answered 12." The
   sound panel has 35 links, so its unused places are 35 to 511. */
static void unused_places(void)
{
    DAMAGE(p.links[35].address = 1);
    DAMAGE(p.links[35].tag = 1);
    DAMAGE(p.links[35].kind = 1);
    DAMAGE(p.links[511].address = 1);
    DAMAGE(p.links[511].tag = 1);
    DAMAGE(p.links[511].kind = 1);
    DAMAGE(p.links[100].kind = 99);
    DAMAGE(p.links[35] = p.links[34]);
    DAMAGE(p.links[35] = p.links[34]; p.links[35].address = 500);
    DAMAGE(p.link_count = 34);
    DAMAGE(p.link_count = 0);
    DAMAGE(p = empty_panel(); p.links[0].kind = 1);
    DAMAGE(p = empty_panel(); p.links[511].kind = 1);
    DAMAGE(fill_up_to(&p, 511); p.links[511].kind = 1);
    DAMAGE(fill_up_to(&p, 512); p.link_count = 511);
    HARMLESS(p = empty_panel());
    HARMLESS(fill_up_to(&p, 511));
    HARMLESS(fill_up_to(&p, 512));
    HARMLESS(memset(p.links, 0, sizeof p.links); p.link_count = 0);
}

/* Compares the bytes: the peer's own test is what is tried here. */
static int is_0_from(const struct panel *panel, uint64_t place)
{
    static const struct link none[LINKS];
    return memcmp(panel->links + place, none, (LINKS - place) * sizeof none[0]) == 0;
}

/* After the removal `left` links are left, all places behind them are 0, and
   calls are accepted. */
static void expect_freed(struct panel *panel, struct answer removal, uint64_t left,
                         const char *what)
{
    uint16_t cells[TERMINALS];
    expect(removal.number == DONE && panel->link_count == left, what);
    expect(is_0_from(panel, left), what);
    expect(inventory(panel).number == DONE, what);
    expect(strip_reading(panel, cells, TERMINALS).number == DONE, what);
    expect(time_step(panel, 0, cells, TAGS).number == DONE, what);
    expect(add_link(panel, 65535, 2, MUD).number == DONE, what);
    expect(telegram(panel, 65535, 0, cells, TAGS).count == 1, what);
    expect(remove_link(panel, 65535, 2, MUD).number == DONE, what);
    expect(is_0_from(panel, left), what);
}

/* A removal from a sound panel with `many` links leaves `left` of them. */
#define FREED(many, removal, left)                                          \
    do {                                                                    \
        static struct panel p;                                              \
        p = sound_panel();                                                  \
        fill_up_to(&p, many);                                               \
        expect(p.link_count == many, #removal);                             \
        expect_freed(&p, removal, left, #removal);                          \
    } while (0)

static void freed_places(void)
{
    struct panel empty = empty_panel();
    expect(is_0_from(&empty, 0), "the empty panel");
    FREED(35, remove_link(&p, 100, 1, MUD), 34);
    FREED(35, remove_link(&p, 203, 3, SSUD), 34);
    FREED(35, remove_link(&p, 407, 7, FO), 34);
    FREED(35, remove_blind(&p, 1), 30);
    FREED(512, remove_link(&p, 100, 1, MUD), 511);
    FREED(512, remove_link(&p, 1511, 1, MUD), 511);
    FREED(512, remove_blind(&p, 1), 30);
}

/* ---- Blinds ---------------------------------------------------------- */

static void terminals_and_parameters(void)
{
    DAMAGE(p.blinds[1].terminal = 20);
    DAMAGE(p.blinds[1].terminal = 128);
    DAMAGE(p.blinds[1].terminal = UINT64_MAX);
    DAMAGE(p.blinds[1].parameters.mudt = 999; p.blinds[1].parameters.sst = 1);
    DAMAGE(p.blinds[1].parameters.mudt = 600001);
    DAMAGE(p.blinds[1].parameters.sst = 0);
    DAMAGE(p.blinds[1].parameters.sst = 2001);
    DAMAGE(p.blinds[1].parameters.mudt = 600000; p.blinds[1].parameters.sst = 10001);
    DAMAGE(p.blinds[1].parameters.rpt = 99);
    DAMAGE(p.blinds[1].parameters.rpt = 10001);
    DAMAGE(p.blinds[1].parameters.rwa = 4);
    DAMAGE(p.blinds[1].parameters.rra = 4);
    DAMAGE(p.blinds[1].parameters.rfa = 4);
    DAMAGE(p.blinds[1].position = 2001);
    HARMLESS(p.blinds[1].terminal = 127);
    HARMLESS(p.blinds[1].parameters.sst = 2000);
    HARMLESS(p.blinds[1].position = 2000);
    HARMLESS(p.blinds[40].terminal = 20);
    HARMLESS(p.blinds[40].parameters.rwa = 4);
}

static void runs_and_waits(void)
{
    DAMAGE(p.blinds[1].rest = 401);
    DAMAGE(p.blinds[3].rest = 401);
    DAMAGE(p.blinds[2].length = 0);
    DAMAGE(p.blinds[2].length = 2001);
    DAMAGE(p.blinds[2].rest = 1);
    DAMAGE(p.blinds[2].last = DOWN);
    DAMAGE(p.blinds[2].last = NEITHER);
    DAMAGE(p.blinds[3].length = 1999);
    DAMAGE(p.blinds[3].length = 0);
    DAMAGE(p.blinds[3].length = 2001);
    DAMAGE(p.blinds[3].rest = 0);
    DAMAGE(p.blinds[3].last = DOWN);
    DAMAGE(p.blinds[4].length = 301);
    DAMAGE(p.blinds[4].length = 0);
    DAMAGE(p.blinds[5].length = 299);
    DAMAGE(p.blinds[5].length = 301);
    DAMAGE(p.blinds[5].rest = 0);
    DAMAGE(p.blinds[6].length = 2001);
    DAMAGE(p.blinds[7].length = 0);
    DAMAGE(p.blinds[7].length = 2001);
    DAMAGE(p.blinds[7].last = DOWN);
    DAMAGE(p.blinds[1].present = 2);
    DAMAGE(p.blinds[1].valid = 2);
    DAMAGE(p.blinds[1].wind = 2);
    DAMAGE(p.blinds[1].rain = 2);
    DAMAGE(p.blinds[1].frost = 2);
    DAMAGE(p.blinds[1].forced = 3);
    DAMAGE(p.blinds[1].last = 3);
    DAMAGE(p.blinds[1].motion = 3);
    DAMAGE(p.blinds[2].direction = NEITHER; p.blinds[2].last = NEITHER);
    DAMAGE(p.blinds[3].direction = 3);
    DAMAGE(p.blinds[6].sort = 3);
    HARMLESS(p.blinds[1].rest = 400);
    HARMLESS(p.blinds[2].length = 1);
    HARMLESS(p.blinds[3].last = NEITHER);
    HARMLESS(p.blinds[4].length = 1);
    HARMLESS(p.blinds[6].length = 2000);
    HARMLESS(p.blinds[7].length = 2000);
    HARMLESS(p.blinds[2].length = 1; p.blinds[2].position = 1000);
}

static void cells_lent(void)
{
    static const uint64_t lent[] = { 0, 1, 63, 64, 65, 127, 128, 129, UINT64_MAX };
    static struct panel panel, before;
    uint16_t cells[TERMINALS];
    panel = before = sound_panel();
    for (size_t i = 0; i < sizeof lent / sizeof lent[0]; i++) {
        uint64_t for_tags = lent[i] == 64 ? OUTSIDE_ITS_RANGE : NOT_EXACTLY_THE_CELLS;
        uint64_t for_strip = lent[i] == 128 ? DONE : NOT_EXACTLY_THE_CELLS;
        expect(telegram(&panel, 0, 0, cells, lent[i]).number == for_tags, "tel cells");
        expect(time_step(&panel, 60001, cells, lent[i]).number == for_tags, "time cells");
        expect(strip_reading(&panel, cells, lent[i]).number == for_strip, "strip cells");
    }
    expect(memcmp(&panel, &before, sizeof panel) == 0, "panel after refusals");
}

/* ---- Why ------------------------------------------------------------- */

/* 1 before 2, and both before any reason. Tags 1 to 7 have blinds, and the
   address 100 has links. */
static void why_refused(void)
{
    static const uint64_t tags[] = { 1, 8, 63, 64, 257, 1ull << 32, UINT64_MAX };
    static const uint64_t addresses[] = { 100, 9999, 65535, 0, 65536, 65636, UINT64_MAX };
    static const uint64_t values[] = { 0, 2, 255, 256, 257, UINT64_MAX };
    static struct panel panel, before;
    panel = before = sound_panel();
    for (size_t t = 0; t < sizeof tags / sizeof tags[0]; t++)
        for (size_t a = 0; a < sizeof addresses / sizeof addresses[0]; a++)
            for (size_t v = 0; v < sizeof values / sizeof values[0]; v++) {
                struct explanation answer = why(&panel, tags[t], addresses[a], values[v]);
                if (t >= 3 || a >= 3 || v >= 3)
                    expect(refuses(answer, OUTSIDE_ITS_RANGE), "why 1");
                else if (t >= 1)
                    expect(refuses(answer, NO_BLIND_WITH_THIS_TAG), "why 2");
                else
                    expect(answer.number == DONE && answer.reason != NO_REASON, "why");
            }
    expect(memcmp(&panel, &before, sizeof panel) == 0, "panel after why");
}

/* At rest direction, sort and length carry nothing: a stop that sets them back
   changes no field. */
static void why_at_rest(void)
{
    static struct panel panel;
    panel = sound_panel();
    add_link(&panel, 501, 1, STOP);
    expect(why(&panel, 1, 501, 0).reason == ALREADY_SO, "stop at rest");
    panel.blinds[1].direction = DOWN;
    panel.blinds[1].sort = STEP;
    panel.blinds[1].length = 7;
    expect(is_sound(&panel), "leftovers at rest");
    expect(why(&panel, 1, 501, 0).reason == ALREADY_SO, "leftovers at rest");
}

int main(void)
{
    struct panel panel = sound_panel();
    expect(is_sound(&panel) && panel.link_count == 35, "the panel to damage");
    for (uint64_t tag = 1; tag <= 7; tag++)
        expect(panel.blinds[tag].motion == (tag == 1 ? AT_REST : tag % 2 ? WAITING : RUNNING)
               && panel.blinds[tag].sort == (tag < 4 ? FULL_RUN : tag < 6 ? STEP : TO_POSITION),
               "the panel to damage");
    links();
    unused_places();
    freed_places();
    terminals_and_parameters();
    runs_and_waits();
    cells_lent();
    why_refused();
    why_at_rest();
    plant_files();
    printf("%d checks, %d wrong\n", checks, wrong);
    return wrong != 0;
}
