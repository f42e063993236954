/* Chance for the tests: the same numbers for the same seed. */
#ifndef CHANCE_H
#define CHANCE_H

#include <stdint.h>

static uint64_t chance;

static inline void begin_chance(uint64_t seed) { chance = seed * 2654435761u + 88172645463325252u; }

/* A number below n (xorshift). */
static inline unsigned below(unsigned n) {
    chance ^= chance << 13;
    chance ^= chance >> 7;
    chance ^= chance << 17;
    return (unsigned)(chance >> 33) % n;
}

#define ONE_OF(table) ((table)[below(sizeof(table) / sizeof *(table))])

#endif
