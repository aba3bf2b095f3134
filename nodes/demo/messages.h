/* Messages that are on their way. */
#ifndef PALS_DEMO_MESSAGES_H
#define PALS_DEMO_MESSAGES_H
#include "pals_node.h"

enum { MOST_MESSAGES = 4096 };

/* A message: the time, or the reading, of its arrival, and its values. */
typedef struct {
    int64_t arrives;
    uint64_t round;
    uint32_t link;
    uint32_t count;
    pals_value values[PALS_MOST_RATE];
} message;

/* Messages in the order in which they were added. */
typedef struct {
    uint32_t count;
    message of[MOST_MESSAGES];
} messages;

message message_of(int64_t arrives, uint32_t link, uint64_t round, const pals_value values[], uint32_t count);

/* Adds a message. Where there is no room the program ends. */
void messages_add(messages *to, const message *added);

/* Takes the message at a place out. */
message messages_take(messages *from, uint32_t at);

#endif
