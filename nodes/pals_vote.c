#include "pals_vote.h"

static void clear(pals_ballot *ballot, uint64_t round)
{
    ballot->round = round;
    for (uint32_t r = 0; r < (uint32_t)PALS_REPLICAS; r++) {
        ballot->came[r] = false;
    }
    for (uint32_t i = 0; i < ((uint32_t)PALS_REPLICAS * ballot->rate); i++) {
        ballot->values[i] = PALS_ABSENT;
    }
}

void pals_ballot_open(pals_ballot *ballot, pals_value values[], uint32_t rate)
{
    ballot->values = values;
    ballot->rate = rate;
    clear(ballot, 0);
}

bool pals_ballot_add(pals_ballot *ballot, uint32_t replica, uint64_t round, const pals_value values[], uint32_t count)
{
    const bool fits = (replica < (uint32_t)PALS_REPLICAS) && (count == ballot->rate) && (round >= ballot->round);
    if (fits && (round > ballot->round)) {
        clear(ballot, round);
    }
    if (fits && !ballot->came[replica]) {
        ballot->came[replica] = true;
        for (uint32_t i = 0; i < count; i++) {
            ballot->values[(replica * count) + i] = values[i];
        }
    }
    return ballot->came[0] && ballot->came[1] && ballot->came[2];
}

static bool agree(const pals_value *one, const pals_value *other)
{
    return (one->present == other->present) && (!one->present || (one->number == other->number));
}

void pals_ballot_vote(const pals_ballot *ballot, pals_value to[])
{
    for (uint32_t i = 0; i < ballot->rate; i++) {
        const pals_value *one = &ballot->values[i];
        const pals_value *two = &ballot->values[ballot->rate + i];
        const pals_value *three = &ballot->values[(2U * ballot->rate) + i];
        if (agree(one, two) || agree(one, three)) {
            to[i] = *one;
        } else {
            to[i] = agree(two, three) ? *two : PALS_ABSENT;
        }
    }
}
