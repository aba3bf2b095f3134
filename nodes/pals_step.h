/* Values and arithmetic of step code: whole numbers of 64 bits. A result that does not fit is a trap, and so is a zero
   divisor. C11 without extensions; nothing is called and no memory is taken. */
#ifndef PALS_STEP_H
#define PALS_STEP_H
#include <stdbool.h>
#include <stdint.h>

/* An attribute of values: where a number of 64 bits is aligned, a value takes 16 bytes, and as
   -DPALS_PACKED=__attribute__((packed)) it takes 9. All sources have to be compiled with the same. */
#ifndef PALS_PACKED
#define PALS_PACKED
#endif

/* The value of a port in one step. The number is meaningless if the value is absent; for a Boolean it is 0 or 1. */
typedef struct PALS_PACKED {
    int64_t number;
    bool present;
} pals_value;

/* Nothing is present. */
#define PALS_ABSENT ((pals_value){0, false})

/* Why a component is halted. PALS_BAD_STATE marks a frame whose state is not the start of a step: the component's own
   calls did not make it. */
enum { PALS_GOES = 0, PALS_OVERFLOW = 1, PALS_ZERO_DIVISOR = 2, PALS_BAD_STATE = 3 };

/* Each call below gives PALS_GOES and the result in *to, or gives the trap. */

static inline int32_t pals_add(int64_t a, int64_t b, int64_t *to)
{
    if ((b > 0) ? (a > (INT64_MAX - b)) : (a < (INT64_MIN - b))) {
        return PALS_OVERFLOW;
    }
    *to = a + b;
    return PALS_GOES;
}

static inline int32_t pals_sub(int64_t a, int64_t b, int64_t *to)
{
    if ((b > 0) ? (a < (INT64_MIN + b)) : (a > (INT64_MAX + b))) {
        return PALS_OVERFLOW;
    }
    *to = a - b;
    return PALS_GOES;
}

static inline int32_t pals_mul(int64_t a, int64_t b, int64_t *to)
{
    bool overflows = false;
    if (a > 0) {
        overflows = (b > 0) ? (a > (INT64_MAX / b)) : (b < (INT64_MIN / a));
    } else if (a < 0) {
        overflows = (b > 0) ? (a < (INT64_MIN / b)) : (b < (INT64_MAX / a));
    } else {
        overflows = false;
    }
    if (overflows) {
        return PALS_OVERFLOW;
    }
    *to = a * b;
    return PALS_GOES;
}

/* The quotient, cut towards zero. */
static inline int32_t pals_quot(int64_t a, int64_t b, int64_t *to)
{
    if (b == 0) {
        return PALS_ZERO_DIVISOR;
    }
    if ((a == INT64_MIN) && (b == -1)) {
        return PALS_OVERFLOW;
    }
    *to = a / b;
    return PALS_GOES;
}

/* The remainder, with the sign of the dividend. */
static inline int32_t pals_rem(int64_t a, int64_t b, int64_t *to)
{
    if (b == 0) {
        return PALS_ZERO_DIVISOR;
    }
    *to = (b == -1) ? 0 : (a % b);
    return PALS_GOES;
}

/* The remainder, with the sign of the divisor. */
static inline int32_t pals_mod(int64_t a, int64_t b, int64_t *to)
{
    const int32_t trap = pals_rem(a, b, to);
    if ((trap == PALS_GOES) && (*to != 0) && ((*to < 0) != (b < 0))) {
        *to += b;
    }
    return trap;
}

static inline int32_t pals_neg(int64_t a, int64_t *to)
{
    if (a == INT64_MIN) {
        return PALS_OVERFLOW;
    }
    *to = -a;
    return PALS_GOES;
}

static inline int32_t pals_abs(int64_t a, int64_t *to)
{
    if (a < 0) {
        return pals_neg(a, to);
    }
    *to = a;
    return PALS_GOES;
}

#endif
