/* What the tests share: a check that tells where it failed, and random numbers that come out the same each time. */
#ifndef CHECK_H
#define CHECK_H

#include <abt.h>
#include <inttypes.h>
#include <stdio.h>
#include <stdlib.h>
#include <string.h>

/* Ends the test where two numbers differ. */
#define SAME(found, wanted) same((uint64_t)(found), (uint64_t)(wanted), #found, __FILE__, __LINE__)

static inline void same(uint64_t found, uint64_t wanted, const char *what, const char *file, int line)
{
    if (found != wanted) {
        fprintf(stderr, "%s:%d: %s is %" PRIu64 " and not %" PRIu64 "\n", file, line, what, found, wanted);
        exit(1);
    }
}

/* Ends the test where memory differs. */
#define SAME_MEMORY(found, wanted, size) SAME(memcmp((found), (wanted), (size)), 0)

/* A random number (xorshift64*). */
static inline uint64_t draw(uint64_t *seed)
{
    *seed ^= *seed >> 12;
    *seed ^= *seed << 25;
    *seed ^= *seed >> 27;
    return *seed * UINT64_C(2685821657736338717);
}

/* A random number below a bound. */
static inline uint64_t below(uint64_t *seed, uint64_t bound)
{
    return draw(seed) % bound;
}

#endif
