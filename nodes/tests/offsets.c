/* All nodes of a design in one process, with clocks that differ from the time by a constant, and a constant delay for
   each link: offsets STEP OFFSET .. DELAY .. < SCENARIO. Time advances in steps of STEP nanoseconds; at each of them
   each node takes its messages and is polled. With `jump NODE TIME NS` after them the clock of the node with this
   number shows NS more at one time. It writes `PATH LINE` for each line that a node records. */
#include <stdio.h>
#include <stdlib.h>
#include <string.h>
#include "design.h"
#include "messages.h"
#include "records.h"
#include "scenario.h"

enum { MOST_NODES = 64 };

static pals_node *nodes[MOST_NODES];
static messages flying;
static int64_t now;
static const int64_t *delays;

static bool on_send(void *user, uint32_t link, uint64_t round, const pals_value values[], uint32_t count)
{
    const message sent = message_of(now + delays[link], link, round, values, count);
    (void)user;
    messages_add(&flying, &sent);
    return true;
}

static void on_record(void *user, const pals_node *node, const pals_record *record)
{
    char prefix[256];
    (void)user;
    (void)snprintf(prefix, sizeof prefix, "%s ", node->of->path);
    records_write(stdout, prefix, node, record);
}

static const pals_hooks HOOKS = {.send = on_send, .read = scenario_input, .record = on_record};

static void take_messages(uint32_t number, int64_t reading)
{
    for (uint32_t i = 0; i < flying.count;) {
        if ((flying.of[i].arrives <= now) && (pals_link_of[flying.of[i].link].target == number)) {
            const message m = messages_take(&flying, i);
            (void)pals_arrive(nodes[number], m.link, m.round, m.values, m.count, reading);
        } else {
            i++;
        }
    }
}

/* Polls a node until it waits for a later reading. */
static void poll_node(uint32_t number, int64_t reading)
{
    take_messages(number, reading);
    for (int64_t wake = pals_poll(nodes[number], reading); wake <= nodes[number]->reading;) {
        wake = pals_poll(nodes[number], reading);
    }
}

int main(int argc, char **argv)
{
    static int64_t numbers[1 + (2 * MOST_NODES) + 3];
    const uint32_t count = 1U + pals_nodes + pals_links;
    const bool jumps = (argc == ((int)count + 5)) && (strcmp(argv[count + 1U], "jump") == 0);
    if ((pals_nodes > MOST_NODES) || (!jumps && (argc != ((int)count + 1))) || !scenario_read()) {
        return 2;
    }
    for (uint32_t i = 0; i < count; i++) {
        numbers[i] = strtoll(argv[i + 1U], NULL, 10);
    }
    const int64_t jump_node = jumps ? strtoll(argv[count + 2U], NULL, 10) : -1;
    const int64_t jump_time = jumps ? strtoll(argv[count + 3U], NULL, 10) : -1;
    const int64_t jump = jumps ? strtoll(argv[count + 4U], NULL, 10) : 0;
    delays = &numbers[1U + pals_nodes];
    for (uint32_t j = 0; j < pals_nodes; j++) {
        nodes[j] = pals_open_node(j, &HOOKS, NULL, scenario_rounds());
    }
    const int64_t end = (int64_t)(scenario_rounds() + 3U) * nodes[0]->of->period;
    for (now = 0; now < end; now += numbers[0]) {
        for (uint32_t j = 0; j < pals_nodes; j++) {
            const bool here = ((int64_t)j == jump_node) && (now >= jump_time) && (now < (jump_time + numbers[0]));
            const int64_t reading = now + numbers[1U + j] + (here ? jump : 0);
            poll_node(j, (reading < 0) ? 0 : reading);
        }
    }
    return 0;
}
