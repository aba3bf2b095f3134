/* All nodes of a design in one process, in virtual time: all clocks show the same reading, which advances from one
   target to the next. Messages take the delays of the scenario, and a node checks for them only before a start, as in
   `pals run` without `clocks`. It writes `PATH LINE` for each line that a node records, up to the first stop.

   With the arguments SAVE LOST AGAIN all nodes save the round SAVE, the message of the round LOST of link 0 is lost,
   and after the stop all nodes resume at the round AGAIN. */
#include <stdio.h>
#include <stdlib.h>
#include "design.h"
#include "messages.h"
#include "records.h"
#include "scenario.h"

enum { MOST_NODES = 256 };

static pals_node *nodes[MOST_NODES];
static messages flying;
static bool stopped;
static uint64_t lost = UINT64_MAX;

static bool on_send(void *user, uint32_t link, uint64_t round, const pals_value values[], uint32_t count)
{
    const pals_node *node = nodes[pals_link_of[link].source];
    const int64_t due = node->reading + scenario_delay(link, round, pals_network_least);
    const message sent = message_of(due, link, round, values, count);
    (void)user;
    if ((link != 0U) || (round != lost)) {
        messages_add(&flying, &sent);
    }
    return true;
}

static void on_record(void *user, const pals_node *node, const pals_record *record)
{
    char prefix[256];
    (void)user;
    (void)snprintf(prefix, sizeof prefix, "%s ", node->of->path);
    records_write(stdout, prefix, node, record);
    stopped = stopped || (record->event == PALS_STOP_EARLY) || (record->event == PALS_STOP_MISSED);
}

static const pals_hooks HOOKS = {.send = on_send, .read = scenario_input, .record = on_record};

/* Passes the messages of one link that are due to the node. */
static void take_link(pals_node *node, uint32_t link, int64_t reading)
{
    for (uint32_t i = 0; (i < flying.count) && !stopped;) {
        if ((flying.of[i].link == link) && (flying.of[i].arrives <= reading)) {
            const message m = messages_take(&flying, i);
            (void)pals_arrive(node, m.link, m.round, m.values, m.count, reading);
        } else {
            i++;
        }
    }
}

/* The least reading that a node waits for. */
static int64_t next_reading(void)
{
    int64_t least = PALS_NEVER;
    for (uint32_t j = 0; j < pals_nodes; j++) {
        int64_t from = PALS_NEVER;
        (void)pals_next(nodes[j], &from);
        least = (from < least) ? from : least;
    }
    return least;
}

/* One action of a node, if it has come. */
static void act(uint32_t number, int64_t reading)
{
    int64_t from = PALS_NEVER;
    const pals_action action = pals_next(nodes[number], &from);
    if ((action == PALS_NOTHING) || (from > reading)) {
        return;
    }
    for (uint32_t l = 0; (action == PALS_START) && (l < pals_links); l++) {
        if (pals_link_of[l].target == number) {
            take_link(nodes[number], l, reading);
        }
    }
    if (!stopped) {
        (void)pals_poll(nodes[number], reading);
    }
}

/* Runs up to a stop, or up to the end; returns the last reading. */
static int64_t run(void)
{
    int64_t last = 0;
    for (int64_t reading = next_reading(); (reading != PALS_NEVER) && !stopped; reading = next_reading()) {
        last = reading;
        for (uint32_t j = 0; (j < pals_nodes) && !stopped; j++) {
            act(j, reading);
        }
    }
    return last;
}

/* Lets all nodes save a round. */
static void save_all(uint64_t round)
{
    static pals_checkpoint saved[MOST_NODES];
    for (uint32_t j = 0; j < pals_nodes; j++) {
        uint32_t slots = 1;
        for (uint32_t l = 0; l < nodes[j]->of->links; l++) {
            slots += nodes[j]->of->link[l].rate;
        }
        saved[j].frame = malloc(nodes[j]->of->frame_size);
        saved[j].slots = malloc(slots * sizeof(pals_value));
        if ((saved[j].frame == NULL) || (saved[j].slots == NULL)) {
            abort();
        }
        pals_save_at(nodes[j], &saved[j], round);
    }
}

int main(int argc, char **argv)
{
    if (!scenario_read() || (pals_nodes > MOST_NODES)) {
        return 2;
    }
    for (uint32_t j = 0; j < pals_nodes; j++) {
        nodes[j] = pals_open_node(j, &HOOKS, NULL, scenario_rounds());
    }
    if (argc == 4) {
        save_all(strtoull(argv[1], NULL, 10));
        lost = strtoull(argv[2], NULL, 10);
    }
    const int64_t last = run();
    if (argc == 4) {
        stopped = false;
        for (uint32_t j = 0; j < pals_nodes; j++) {
            if (!pals_resume(nodes[j], strtoull(argv[3], NULL, 10), last)) {
                return 3;
            }
        }
        (void)run();
    }
    for (uint32_t j = 0; (argc == 4) && (j < pals_nodes); j++) {
        free(nodes[j]->checkpoint->frame);
        free(nodes[j]->checkpoint->slots);
    }
    return 0;
}
