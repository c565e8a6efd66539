/* Random numbers (splitmix64) for the tests of both libraries: the same for the same seed. */
#ifndef EXAMPLES_RANDOM_H
#define EXAMPLES_RANDOM_H

#include <stdbool.h>
#include <stdint.h>

static uint64_t random_state;

static uint64_t any(void)
{
    uint64_t z = random_state += UINT64_C(0x9E3779B97F4A7C15);
    z = (z ^ z >> 30) * UINT64_C(0xBF58476D1CE4E5B9);
    z = (z ^ z >> 27) * UINT64_C(0x94D049BB133111EB);
    return z ^ z >> 31;
}

static uint64_t below(uint64_t n)
{
    return any() % n;
}

static bool one_in(uint64_t n)
{
    return below(n) == 0;
}

#endif
