/* A design with replicas in one process, round by round: voted REPLICATED [FAULT ..] < SCENARIO. REPLICATED has a digit
   for each component, 3 if it is replicated and 1 if not. A fault is LINK:REPLICA:TARGET:ROUND:VALUE,.. by numbers from
   0: in this round this replica sends these values on the link to this replica of its target. It writes the rows, as
   `pals vote` does, without the lines of outputs. `replica_opened` is made for the design. */
#include <inttypes.h>
#include <stdio.h>
#include <stdlib.h>
#include <string.h>
#include "design.h"
#include "pals_vote.h"
#include "scenario.h"

enum { MOST_NODES = 16, MOST_LINKS = 64, MOST_FAULTS = 64 };

typedef struct {
    uint32_t link, replica, target;
    uint64_t round;
    uint32_t count;
    pals_value values[PALS_MOST_RATE];
} fault;

pals_node *replica_opened(uint32_t number, uint32_t replica, const pals_hooks *hooks, void *user, uint64_t rounds);

static const char *replicated;
static fault faults[MOST_FAULTS];
static uint32_t fault_count;
/* The messages that were sent, by link, replica of the target and replica of the source. */
static pals_value sent[MOST_LINKS][PALS_REPLICAS][PALS_REPLICAS][PALS_MOST_RATE];
static uint32_t replica_of[MOST_NODES][PALS_REPLICAS];

static uint32_t copies(uint32_t number)
{
    return (replicated[number] == '3') ? 3U : 1U;
}

static const pals_value *lie(uint32_t link, uint32_t replica, uint32_t target, uint64_t round)
{
    for (uint32_t i = 0; i < fault_count; i++) {
        const fault *f = &faults[i];
        if ((f->link == link) && (f->replica == replica) && (f->target == target) && (f->round == round)) {
            return f->values;
        }
    }
    return NULL;
}

static bool on_send(void *user, uint32_t link, uint64_t round, const pals_value values[], uint32_t count)
{
    const uint32_t replica = *(const uint32_t *)user;
    for (uint32_t t = 0; t < copies(pals_link_of[link].target); t++) {
        const pals_value *lied = lie(link, replica, t, round);
        (void)memcpy(sent[link][t][replica], (lied == NULL) ? values : lied, count * sizeof *values);
    }
    return true;
}

static void on_record(void *user, const pals_node *node, const pals_record *record)
{
    (void)user;
    (void)node;
    (void)record;
}

static const pals_hooks HOOKS = {.send = on_send, .read = scenario_input, .record = on_record};

/* Passes the messages of the round before to a replica, voted if their source is replicated. */
static void deliver(pals_node *node, uint32_t number, uint32_t replica, uint64_t round)
{
    for (uint32_t l = 0; l < pals_links; l++) {
        const uint32_t rate = pals_link_of[l].rate;
        pals_value room[PALS_REPLICAS * PALS_MOST_RATE];
        pals_value voted[PALS_MOST_RATE];
        pals_ballot ballot;
        if (pals_link_of[l].target != number) {
            continue;
        }
        (void)memcpy(voted, sent[l][replica][0], sizeof voted);
        if (copies(pals_link_of[l].source) == 3U) {
            pals_ballot_open(&ballot, room, rate);
            for (uint32_t r = 0; r < (uint32_t)PALS_REPLICAS; r++) {
                (void)pals_ballot_add(&ballot, r, round, sent[l][replica][r], rate);
            }
            pals_ballot_vote(&ballot, voted);
        }
        (void)pals_arrive(node, l, round, voted, rate, 0);
    }
}

static void write_row(const pals_node *node, uint32_t number, uint32_t replica)
{
    char line[PALS_LINE];
    const size_t path = strlen(node->of->path);
    (void)pals_row(line, node);
    if (copies(number) == 3U) {
        (void)printf("%.*s#%" PRIu32 "%s\n", (int)path, line, replica + 1U, &line[path]);
    } else {
        (void)printf("%s\n", line);
    }
}

static bool read_fault(const char *word)
{
    fault *f = &faults[fault_count];
    int read = 0;
    if ((fault_count == (uint32_t)MOST_FAULTS) ||
        (sscanf(word, "%" SCNu32 ":%" SCNu32 ":%" SCNu32 ":%" SCNu64 ":%n", &f->link, &f->replica, &f->target,
                &f->round, &read) != 4)) {
        return false;
    }
    for (const char *at = &word[read]; *at != '\0'; f->count++) {
        char *end = NULL;
        f->values[f->count].present = *at != '_';
        f->values[f->count].number = (*at == '_') ? 0 : (int64_t)strtoll(at, &end, 10);
        at = (*at == '_') ? &at[1] : end;
        at = (*at == ',') ? &at[1] : at;
    }
    fault_count++;
    return true;
}

int main(int argc, char **argv)
{
    static pals_node *nodes[MOST_NODES][PALS_REPLICAS];
    if ((argc < 2) || !scenario_read() || (pals_nodes > (uint32_t)MOST_NODES) || (pals_links > (uint32_t)MOST_LINKS)) {
        return 2;
    }
    replicated = argv[1];
    for (int i = 2; i < argc; i++) {
        if (!read_fault(argv[i])) {
            return 2;
        }
    }
    for (uint64_t round = 0; round < scenario_rounds(); round++) {
        (void)printf("round %" PRIu64 "\n", round);
        for (uint32_t j = 0; j < pals_nodes; j++) {
            for (uint32_t r = 0; r < copies(j); r++) {
                replica_of[j][r] = r;
                if (round == 0U) {
                    nodes[j][r] = replica_opened(j, r, &HOOKS, &replica_of[j][r], scenario_rounds());
                } else {
                    deliver(nodes[j][r], j, r, round - 1U);
                }
            }
        }
        for (uint32_t j = 0; j < pals_nodes; j++) {
            for (uint32_t r = 0; r < copies(j); r++) {
                (void)pals_poll(nodes[j][r], (nodes[j][r]->alarm + nodes[j][r]->of->period) - 1);
                write_row(nodes[j][r], j, r);
            }
        }
    }
    return 0;
}
