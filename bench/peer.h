/* What the parts of the peer's workloads share. */

#ifndef BENCH_PEER_H
#define BENCH_PEER_H

#include "panel.h"

enum { AS_IT_IS, OUTSIDE, WRONG_CELLS, BAD_BLINDS, BAD_LINKS };

/* Calls from this one on write or read plant files. */
enum { FIRST_FILE = 15 };

struct workload {
    uint64_t call, kase, blinds, links, turns;
};

/* The last answer, and a sum over all answers, counts and what they left. */
struct tally {
    uint64_t answer, sum;
};

void count(struct tally *tally, struct answer answer);

/* Writes or reads files; the panel is the one that was read last. */
void run_files(struct tally *tally, struct panel *panel, struct workload w);

#endif
