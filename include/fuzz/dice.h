/* Chance with a seed, what is spoiled by it, and how a finding is printed: with the seed and the input that make it again. */
#ifndef DICE_H
#define DICE_H

#include <stdbool.h>
#include <stdint.h>
#include <stdio.h>
#include <stdlib.h>
#include <string.h>

static uint64_t dice, seed;
static unsigned long input; /* the number of this input */
static uint64_t digest = 14695981039346656037u;

static inline void mix(uint64_t value)
{
    digest = (digest ^ value) * 1099511628211u;
}

static inline uint64_t pick(uint64_t below)
{
    dice ^= dice << 13;
    dice ^= dice >> 7;
    dice ^= dice << 17;
    return (dice >> 16) % below;
}

static inline bool one_in(uint64_t many)
{
    return pick(many) == 0;
}

static inline void holds(bool it, const char *what, int line)
{
    if (it) return;
    fprintf(stderr, "FINDING: line %d: not so: %s (seed %llu, input %lu)\n", line, what, (unsigned long long)seed, input);
    abort();
}
#define HOLDS(it) holds(it, #it, __LINE__)

/* Begins with the words of a program: `PROGRAM SEED INPUTS`. */
static inline unsigned long begin_dice(int argc, char **argv)
{
    if (argc != 3) {
        fprintf(stderr, "usage: %s SEED INPUTS\n", argv[0]);
        exit(2);
    }
    seed = strtoull(argv[1], NULL, 10);
    dice = 88172645463325252u ^ (seed * 0x9e3779b97f4a7c15u);
    if (dice == 0) dice = 1;
    for (int warm = 0; warm < 8; warm++) pick(2);
    return strtoul(argv[2], NULL, 10);
}

/* A number that is often at an edge. */
static inline uint32_t edge(void)
{
    static const uint32_t edges[] = {0, 1, 2, 3, 8, 64, 71, 72, 127, 128, 255, 256, 8192, 8193, 32767, 32768, 65535, 65536, 0x7fffffff, 0x80000000u, 0xfffffffeu, 0xffffffffu};
    return one_in(4) ? (uint32_t)pick((uint64_t)1 << 32) : edges[pick(sizeof edges / sizeof *edges)];
}

/* Spoils bytes at some places, in their length too, which stays below `room`. */
static inline size_t spoil(uint8_t *bytes, size_t len, size_t room)
{
    for (uint64_t times = 1 + pick(3); times > 0; times--) {
        const uint64_t how = pick(7);
        const size_t at = len > 0 ? (size_t)pick(len) : 0, more = (size_t)pick(12);
        if (how < 2 && len > 0) {
            bytes[at] ^= (uint8_t)(1u << pick(8));
        } else if (how == 2 && len > 0) {
            bytes[at] = (uint8_t)edge();
        } else if (how == 3 && len >= 4) {
            const uint32_t number = edge();
            const size_t width = one_in(2) ? 4 : 2, from = (size_t)pick(len - 3);
            for (size_t place = 0; place < width; place++) bytes[from + place] = (uint8_t)(number >> 8 * (width - 1 - place));
        } else if (how == 4) {
            len = at;
        } else if (how == 5 && len + more <= room) {
            memmove(bytes + at + more, bytes + at, len - at);
            for (size_t place = 0; place < more; place++) bytes[at + place] = (uint8_t)pick(256);
            len += more;
        } else if (how == 6 && at + more <= len) {
            memmove(bytes + at, bytes + at + more, len - at - more);
            len -= more;
        }
    }
    return len;
}

#endif
