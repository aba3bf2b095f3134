/* Messages that wait until they are sent: a node's message leaves after the minimum time of the network, so that a
   faster network meets this bound. */
#ifndef PALS_UDP_OUTGOING_H
#define PALS_UDP_OUTGOING_H
#include "pals_message.h"

/* Adds the bytes of a message that leaves at a time; false if there is no room. */
bool outgoing_add(int64_t leaves, uint32_t target, const uint8_t bytes[], uint32_t length);

/* The time at which the next message leaves, or PALS_NEVER. */
int64_t outgoing_next(void);

/* Passes each message that leaves at this time or before to `send`. */
void outgoing_flush(int64_t time, void (*send)(uint32_t target, const uint8_t bytes[], uint32_t length));

#endif
