/* Records of a node as lines of a trace. Nothing is called and no memory is taken. A node that has no room for text may
   hand its records on as they are, and have lines made of them elsewhere. */
#ifndef PALS_LINES_H
#define PALS_LINES_H
#include "pals_node.h"

/* A variable, and a root out port with the out port that it shows; `number` counts the root's out ports. */
typedef struct {
    const char *name;
    bool boolean;
} pals_variable;

typedef struct {
    const char *name;
    uint32_t port;
    bool boolean;
    uint32_t number;
} pals_tap;

/* The data of a component that lines need in addition to its node's. */
typedef struct pals_names {
    const char *const *states;
    const pals_variable *variables;
    uint32_t taps;
    const pals_tap *tap;
    int32_t (*state)(const void *frame, int32_t *halt);
    int64_t (*value)(const void *frame, uint32_t variable);
} pals_names;

/* The maximum length of a line in bytes: a path, a state and 64 variables, each with a name of 64 bytes and 20 digits;
   and the terminating zero byte. */
enum { PALS_LINE = 8192 };

/* Each call writes a line to `to`, without a line end and with a terminating zero byte, and returns its length. */

/* The first line of a record: design PATH IDENTITY */
uint32_t pals_design_line(char to[PALS_LINE], const pals_node *node);

/* A record other than PALS_ROW; `link` is the name of its link, PATH.PORT of the in port that it goes to. The cause of
   a missed message is omitted, since no node knows it. */
uint32_t pals_line(char to[PALS_LINE], const pals_node *node, const pals_record *record, const char *link);

/* What a round has left: PATH STATE NAME=VALUE .. */
uint32_t pals_row(char to[PALS_LINE], const pals_node *node);

/* What a root out port shows of a round: out NAME (VALUE,..) */
uint32_t pals_out(char to[PALS_LINE], const pals_node *node, const pals_tap *tap);

#endif
