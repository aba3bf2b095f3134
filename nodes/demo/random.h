/* Numbers at random, the same for the same seed. */
#ifndef PALS_DEMO_RANDOM_H
#define PALS_DEMO_RANDOM_H
#include <stdint.h>

void random_begin(uint64_t seed);

/* A number from `low` to `high`, and now and then one of the two; `low` where `high` is not above it. */
int64_t random_in(int64_t low, int64_t high);

#endif
