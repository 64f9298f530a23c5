/* The chance that makes the scripts: the same seed gives the same numbers. */

#ifndef CHANCE_H
#define CHANCE_H

#include <stddef.h>
#include <stdint.h>

void begin_chance(uint64_t seed);

uint64_t below(uint64_t n);
uint64_t between(uint64_t least, uint64_t most);

/* In so many of a thousand cases. */
int chance(uint64_t of_a_thousand);

#define ONE_OF(list) ((list)[below(sizeof(list) / sizeof(list)[0])])

/* Which of the weights, each as often as it is heavy. */
size_t by_weight(const unsigned *weights, size_t count);

/* Far from the usual value, or near it once high bits are lost. */
uint64_t odd_number(uint64_t usual);

#endif
