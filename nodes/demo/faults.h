/* Faults of a run on a host, as words of the command line:
     late LINK ROUND NS    this message takes NS more       lose LINK ROUND     it never comes
     twice LINK ROUND      it comes twice                   wrong LINK ROUND    its first value is another one
     ahead PATH NS         the clock of this node is ahead by NS more
     hasty PATH            this node sends as soon as its steps are done, and does not wait for the release */
#ifndef PALS_DEMO_FAULTS_H
#define PALS_DEMO_FAULTS_H
#include <stdbool.h>
#include <stdint.h>

/* Parses the arguments; returns false if they are not faults of this design. */
bool faults_read(int count, char **words);

/* The time of a fault of a message, or of a node with round 0; -1 if it has no such fault. */
int64_t fault_of(const char *kind, const char *name, uint64_t round);

#endif
