#include "pals_adaptor.h"

/* The exact sum of the present values, divided by their number and cut towards zero. Each value is n * q + r: neither
   the sum of all q nor that of all r leaves 64 bits. */
static pals_value average(const pals_value group[], uint32_t length)
{
    int64_t n = 0;
    int64_t whole = 0;
    int64_t rest = 0;
    for (uint32_t i = 0; i < length; i++) {
        n += group[i].present ? 1 : 0;
    }
    if (n == 0) {
        return PALS_ABSENT;
    }
    for (uint32_t i = 0; i < length; i++) {
        if (group[i].present) {
            whole += group[i].number / n;
            rest += group[i].number % n;
        }
    }
    whole += rest / n;
    rest %= n;
    if ((whole > 0) && (rest < 0)) {
        whole -= 1;
    } else if ((whole < 0) && (rest > 0)) {
        whole += 1;
    } else {
        /* the quotient is cut towards zero already */
    }
    return (pals_value){whole, true};
}

/* Whether a present value takes the place of the one that was chosen before it. */
static bool is_chosen(pals_adaptor adaptor, int64_t number, int64_t before)
{
    return (adaptor == PALS_LATEST) || ((adaptor == PALS_MAX) && (number > before)) ||
           ((adaptor == PALS_MIN) && (number < before));
}

/* One value of a group of values. */
static pals_value one_of(const pals_source *source, const pals_value group[], uint32_t length)
{
    pals_value chosen = PALS_ABSENT;
    if (source->adaptor == PALS_AT) {
        return group[source->place];
    }
    if (source->adaptor == PALS_AVERAGE) {
        return average(group, length);
    }
    for (uint32_t i = 0; i < length; i++) {
        if (group[i].present && (!chosen.present || is_chosen(source->adaptor, group[i].number, chosen.number))) {
            chosen = group[i];
        }
    }
    return chosen;
}

pals_value pals_read(const pals_source *source, uint32_t rate, uint32_t step, const pals_value message[])
{
    if (source->rate == rate) {
        return message[step];
    }
    if (source->rate > rate) {
        const uint32_t length = source->rate / rate;
        return one_of(source, &message[step * length], length);
    }
    const uint32_t length = rate / source->rate;
    const bool reads = (source->adaptor == PALS_REPEAT) || ((step % length) == source->place);
    return reads ? message[step / length] : PALS_ABSENT;
}
