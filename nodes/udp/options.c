#include "options.h"
#include <errno.h>
#include <stdlib.h>
#include <string.h>
#include "design.h"

#ifndef CLOCK_TAI
#define CLOCK_TAI 11
#endif

static bool read_number(const char *word, int64_t *to)
{
    char *end = NULL;
    errno = 0;
    *to = strtoll(word, &end, 10);
    return (errno == 0) && (end != word) && (*end == '\0');
}

static bool read_clock(const char *word, clockid_t *to)
{
    const bool is_tai = strcmp(word, "tai") == 0;
    const bool is_real = strcmp(word, "realtime") == 0;
    *to = is_tai ? CLOCK_TAI : (is_real ? CLOCK_REALTIME : CLOCK_MONOTONIC);
    return is_tai || is_real || (strcmp(word, "monotonic") == 0);
}

static bool read_policy(const char *word, pals_policy *to)
{
    *to = (strcmp(word, "hold") == 0) ? PALS_HOLDS : PALS_STOPS;
    return (*to == PALS_HOLDS) || (strcmp(word, "stop") == 0);
}

static bool read_option(options *to, const char *name, const char *word)
{
    if (strcmp(name, "clock") == 0) {
        return read_clock(word, &to->clock);
    }
    if (strcmp(name, "policy") == 0) {
        return read_policy(word, &to->policy);
    }
    if (strcmp(name, "wait") == 0) {
        return read_number(word, &to->wait) && (to->wait >= 0);
    }
    return (strcmp(name, "ahead") == 0) && read_number(word, &to->ahead);
}

bool options_read(options *to, int count, char **words)
{
    if ((count < 4) || ((count % 2) != 0)) {
        return false;
    }
    *to = (options){.path = words[0], .peers = words[1], .record = words[3], .clock = CLOCK_MONOTONIC,
                    .policy = PALS_STOPS, .wait = pals_network_least};
    for (int at = 4; at < count; at += 2) {
        if (!read_option(to, words[at], words[at + 1])) {
            return false;
        }
    }
    return read_number(words[2], &to->start);
}
