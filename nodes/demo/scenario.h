/* The scenario of a run on a host, as lines on standard input:
     rounds N    input NAME VALUE ..    delay LINK NS ..
   A value is a number, with 0 and 1 for Booleans, or _ for an absent one. Inputs are absent after their last value; a
   link has its last delay, in nanoseconds, from then on. */
#ifndef PALS_DEMO_SCENARIO_H
#define PALS_DEMO_SCENARIO_H
#include "pals_node.h"

/* Reads the lines; returns false if a line has another form, if there are too many values, or no rounds. */
bool scenario_read(void);

uint64_t scenario_rounds(void);

/* The value of an in port of the root in a round. It is a hook of nodes. */
pals_value scenario_input(void *user, uint32_t input, uint64_t round);

/* The delay of a message in nanoseconds; `least` if the scenario gives none. */
int64_t scenario_delay(uint32_t link, uint64_t round, int64_t least);

#endif
