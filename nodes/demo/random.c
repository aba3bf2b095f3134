#include "random.h"

static uint64_t state = 1;

void random_begin(uint64_t seed)
{
    state = (seed * 6364136223846793005U) + 1442695040888963407U;
    if (state == 0U) {
        state = 1;
    }
}

int64_t random_in(int64_t low, int64_t high)
{
    state ^= state << 13;
    state ^= state >> 7;
    state ^= state << 17;
    if (high <= low) {
        return low;
    }
    if ((state & 0x700U) == 0U) {
        return ((state & 0x800U) == 0U) ? low : high;
    }
    return low + (int64_t)((state >> 13) % (uint64_t)(high - low + 1));
}
