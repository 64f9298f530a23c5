/* Chance, and numbers that are apt to be read wrongly. */

#include "chance.h"

static uint64_t state;

void begin_chance(uint64_t seed)
{
    state = seed;
}

/* splitmix64 */
static uint64_t next(void)
{
    uint64_t z = state += 0x9e3779b97f4a7c15u;
    z = (z ^ (z >> 30)) * 0xbf58476d1ce4e5b9u;
    z = (z ^ (z >> 27)) * 0x94d049bb133111ebu;
    return z ^ (z >> 31);
}

uint64_t below(uint64_t n)
{
    return next() % n;
}

uint64_t between(uint64_t least, uint64_t most)
{
    return least + below(most - least + 1);
}

int chance(uint64_t of_a_thousand)
{
    return below(1000) < of_a_thousand;
}

size_t by_weight(const unsigned *weights, size_t count)
{
    uint64_t sum = 0;
    for (size_t i = 0; i < count; i++)
        sum += weights[i];
    uint64_t left = below(sum);
    size_t i = 0;
    while (left >= weights[i])
        left -= weights[i++];
    return i;
}

static const uint64_t edges[] = {
    0, 1, 2, 3, 4, 7, 8, 9, 63, 64, 65, 99, 100, 101, 126, 127, 128, 129, 255,
    256, 257, 511, 512, 513, 999, 1000, 1001, 9999, 10000, 10001, 32767, 32768,
    59999, 60000, 60001, 65534, 65535, 65536, 65537, 599999, 600000, 600001,
    0x7fffffff, 0x80000000, 0xffffffff, 0x100000000, 0x100000001,
    0x7fffffffffffffff, 0x8000000000000000, 0xfffffffffffffffe,
    0xffffffffffffffff
};

uint64_t odd_number(uint64_t usual)
{
    switch (below(6)) {
    case 0: return usual + (1 + below(3)) * 0x100;
    case 1: return usual + (1 + below(3)) * 0x10000;
    case 2: return usual + (1 + below(3)) * 0x100000000;
    case 3: return usual + 0x8000000000000000;
    case 4: return chance(500) ? 0 - usual : 0 - 1 - below(200);
    default: return ONE_OF(edges);
    }
}
