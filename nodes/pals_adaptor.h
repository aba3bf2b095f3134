/* Adaptors: what the steps of a round read of a message. */
#ifndef PALS_ADAPTOR_H
#define PALS_ADAPTOR_H
#include "pals_step.h"

/* The adaptors `first`, `last` and `at N` are PALS_AT with the place that they name, from 0. */
typedef enum { PALS_SAME, PALS_REPEAT, PALS_AT, PALS_LATEST, PALS_MAX, PALS_MIN, PALS_AVERAGE } pals_adaptor;

/* What an in port reads: a link of the design, or an in port of the root. */
typedef struct {
    uint32_t number; /* of the link, or of the root's port */
    uint32_t port;   /* of the component */
    uint32_t rate;   /* how many values a message has; 1 of the root */
    uint32_t place;  /* of PALS_AT */
    pals_adaptor adaptor;
    bool boolean;
} pals_source;

/* The value that step `step` of `rate` steps reads of a message. */
pals_value pals_read(const pals_source *source, uint32_t rate, uint32_t step, const pals_value message[]);

#endif
