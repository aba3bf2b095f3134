#include "messages.h"
#include <stdio.h>
#include <stdlib.h>
#include <string.h>

message message_of(int64_t arrives, uint32_t link, uint64_t round, const pals_value values[], uint32_t count)
{
    message made = {arrives, round, link, count, {{0, false}}};
    (void)memcpy(made.values, values, count * sizeof *values);
    return made;
}

void messages_add(messages *to, const message *added)
{
    if (to->count == MOST_MESSAGES) {
        (void)fprintf(stderr, "more than %d messages are on their way\n", MOST_MESSAGES);
        exit(1);
    }
    to->of[to->count] = *added;
    to->count += 1U;
}

message messages_take(messages *from, uint32_t at)
{
    const message taken = from->of[at];
    from->count -= 1U;
    (void)memmove(&from->of[at], &from->of[at + 1U], (from->count - at) * sizeof(message));
    return taken;
}
