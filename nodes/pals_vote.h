/* Votes among the messages of three replicas of a component, as `pals vote` has them. Nothing is called and no memory
   is allocated. */
#ifndef PALS_VOTE_H
#define PALS_VOTE_H
#include "pals_step.h"

enum { PALS_REPLICAS = 3 };

/* The messages of one link in one round, of `rate` values each. `values` has room for three of them. */
typedef struct {
    uint64_t round;
    uint32_t rate;
    bool came[PALS_REPLICAS];
    pals_value *values;
} pals_ballot;

void pals_ballot_open(pals_ballot *ballot, pals_value values[], uint32_t rate);

/* Takes the message of a replica, 0 to 2. One of an earlier round, a second one and one of another length are ignored;
   one of a later round begins a new ballot. Returns whether all three of the round have come. */
bool pals_ballot_add(pals_ballot *ballot, uint32_t replica, uint64_t round, const pals_value values[], uint32_t count);

/* Writes the vote, value by value: the one that two messages agree on, which may be absent, or an absent one. A message
   that has not come counts as absent values. */
void pals_ballot_vote(const pals_ballot *ballot, pals_value to[]);

#endif
