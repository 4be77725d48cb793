/* xorshift64*: numbers for the tests, the same in each run. */
#ifndef RANGEKEEPER_TESTS_RANDOM_H
#define RANGEKEEPER_TESTS_RANDOM_H

#include <stdint.h>

static uint64_t seed = UINT64_C(0x9e3779b97f4a7c15);

static uint64_t next(void)
{
    seed ^= seed >> 12;
    seed ^= seed << 25;
    seed ^= seed >> 27;
    return seed * UINT64_C(0x2545f4914f6cdd1d);
}

static uint64_t below(uint64_t n)
{
    return next() % n;
}

#endif
