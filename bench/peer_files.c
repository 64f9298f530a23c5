/* The workloads over plant files: the panel's file written and read, and
   rubbish read. */

#include "peer.h"
#include "plant.h"

#include <string.h>

static char file[PLANT_BYTES];

static void writings(struct tally *tally, struct panel *panel, uint64_t turns,
                     uint64_t lent)
{
    for (uint64_t turn = 0; turn < turns; turn++) {
        panel->blinds[0].position = turn % 2;
        count(tally, write_plant(panel, file, lent));
    }
    for (uint64_t i = 0; i < lent; i++)
        tally->sum += (uint8_t)file[i];
}

static void readings(struct tally *tally, struct panel *panel, uint64_t turns,
                     uint64_t length)
{
    *panel = empty_panel();
    for (uint64_t turn = 0; turn < turns; turn++) {
        struct answer answer = { DONE, read_plant(file, length, panel) };
        count(tally, answer);
    }
}

/* Two bytes in turn up to the end, which is a line feed. */
static void fill(char even, char odd)
{
    for (uint64_t i = 0; i < PLANT_BYTES; i++)
        file[i] = i % 2 == 0 ? even : odd;
    file[PLANT_BYTES - 1] = '\n';
}

static void rubbish(struct tally *tally, struct panel *panel, uint64_t turns,
                    char even, char odd)
{
    fill(even, odd);
    readings(tally, panel, turns, PLANT_BYTES);
}

void run_files(struct tally *tally, struct panel *panel, struct workload w)
{
    memset(file, 0, sizeof file);
    switch (w.call) {
    case FIRST_FILE:
        writings(tally, panel, w.turns, w.kase == WRONG_CELLS ? PLANT_BYTES - 1 : PLANT_BYTES);
        break;
    case 16:
        readings(tally, panel, w.turns, write_plant(panel, file, PLANT_BYTES).count);
        break;
    case 17:
        write_plant(panel, file, PLANT_BYTES);
        readings(tally, panel, w.turns, PLANT_BYTES);
        break;
    case 18: rubbish(tally, panel, w.turns, 'x', '\n'); break;
    case 19: rubbish(tally, panel, w.turns, 'x', 'x'); break;
    case 20: rubbish(tally, panel, w.turns, '\t', '\t'); break;
    default: rubbish(tally, panel, w.turns, '1', '\t');
    }
}
