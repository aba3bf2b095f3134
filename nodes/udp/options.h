/* The words of a node's command line:
     PATH PEERS START RECORD [clock monotonic|tai|realtime] [policy stop|hold] [wait NS] [ahead NS]
   START is the reading of the clock, in nanoseconds, that counts as the time 0: round 0 begins one period after it. */
#ifndef PALS_UDP_OPTIONS_H
#define PALS_UDP_OPTIONS_H
#include <time.h>
#include "pals_node.h"

typedef struct {
    const char *path;
    const char *peers;
    const char *record;
    int64_t start;
    clockid_t clock;
    pals_policy policy;
    int64_t wait;  /* how long a message waits before it leaves; the minimum time of the network */
    int64_t ahead; /* how far the clock is ahead, to try a wrong clock */
} options;

/* Reads the words; false if they are not of this form. */
bool options_read(options *to, int count, char **words);

#endif
