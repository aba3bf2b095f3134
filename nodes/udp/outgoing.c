#include "outgoing.h"
#include <string.h>

enum { MOST_WAITING = 1024 };

typedef struct {
    int64_t leaves;
    uint32_t target;
    uint32_t length;
    uint8_t bytes[PALS_MESSAGE_BYTES];
} waiting;

/* A ring in the order of the times: each message waits for the same time. */
static waiting ring[MOST_WAITING];
static uint32_t first, count;

bool outgoing_add(int64_t leaves, uint32_t target, const uint8_t bytes[], uint32_t length)
{
    if ((count == (uint32_t)MOST_WAITING) || (length > (uint32_t)PALS_MESSAGE_BYTES)) {
        return false;
    }
    waiting *added = &ring[(first + count) % (uint32_t)MOST_WAITING];
    added->leaves = leaves;
    added->target = target;
    added->length = length;
    (void)memcpy(added->bytes, bytes, length);
    count += 1U;
    return true;
}

int64_t outgoing_next(void)
{
    return (count == 0U) ? PALS_NEVER : ring[first].leaves;
}

void outgoing_flush(int64_t time, void (*send)(uint32_t target, const uint8_t bytes[], uint32_t length))
{
    while ((count > 0U) && (ring[first].leaves <= time)) {
        send(ring[first].target, ring[first].bytes, ring[first].length);
        first = (first + 1U) % (uint32_t)MOST_WAITING;
        count -= 1U;
    }
}
