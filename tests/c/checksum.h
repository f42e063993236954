/* The checksum by which saved bytes end. */
#ifndef CHECKSUM_H
#define CHECKSUM_H

#include <stddef.h>
#include <stdint.h>

enum { SUM = 8 };

/* XXH64 of the xxHash family, with the seed 0: a word after another, and a number of some bytes. */
static const uint64_t primes[] = {
    0x9e3779b185ebca87, 0xc2b2ae3d27d4eb4f, 0x165667b19e3779f9, 0x85ebca77c2b2ae63, 0x27d4eb2f165667c5
};

static inline uint64_t turned(uint64_t word, int by) { return word << by | word >> (64 - by); }

static inline uint64_t mixed(uint64_t lane, uint64_t word) { return turned(lane + word * primes[1], 31) * primes[0]; }

static inline uint64_t number(const unsigned char *at, size_t len) {
    uint64_t n = 0;
    while (len--) n = n << 8 | at[len];
    return n;
}

/* Makes the last of so many bytes the checksum of all before them. */
static inline void mend(unsigned char *at, size_t len) {
    static const int turns[] = {1, 7, 12, 18};
    uint64_t lanes[] = {primes[0] + primes[1], primes[1], 0, -primes[0]}, sum = 0;
    const unsigned char *const from = at;
    unsigned char *const to = at + len - SUM;
    for (; to - at >= 32; at += 32)
        for (int i = 0; i < 4; i++) lanes[i] = mixed(lanes[i], number(at + 8 * i, 8));
    for (int i = 0; i < 4; i++) sum += turned(lanes[i], turns[i]);
    for (int i = 0; i < 4; i++) sum = (sum ^ mixed(0, lanes[i])) * primes[0] + primes[3];
    sum = (to - from < 32 ? primes[4] : sum) + (uint64_t)(to - from);
    for (; to - at >= 8; at += 8) sum = turned(sum ^ mixed(0, number(at, 8)), 27) * primes[0] + primes[3];
    for (; to - at >= 4; at += 4) sum = turned(sum ^ number(at, 4) * primes[0], 23) * primes[1] + primes[2];
    for (; at < to; at++) sum = turned(sum ^ *at * primes[4], 11) * primes[0];
    sum = (sum ^ sum >> 33) * primes[1], sum = (sum ^ sum >> 29) * primes[2], sum ^= sum >> 32;
    for (; at < to + SUM; sum >>= 8) *at++ = (unsigned char)sum;
}

#endif
