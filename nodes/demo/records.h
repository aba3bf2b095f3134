/* Records of nodes as text, in the form that tools/join reads: the lines of the journal, and after the last finish of a
   round `row ROUND PATH ..` and, for each root out port, `out ROUND NAME TUPLE`. */
#ifndef PALS_DEMO_RECORDS_H
#define PALS_DEMO_RECORDS_H
#include <stdio.h>
#include "pals_node.h"

/* Writes the first line, with the design of the node. */
void records_open(FILE *out, const char *prefix, const pals_node *node);

/* Writes the lines of a record, each with `prefix` before it. */
void records_write(FILE *out, const char *prefix, const pals_node *node, const pals_record *record);

#endif
