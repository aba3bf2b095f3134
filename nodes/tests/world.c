/* All nodes of a design in one process, in a time that is made up: world SEED [WILD]. Each node has a clock that is
   off by less than the skew all along, wakes up as late as the bounds allow, and its steps and messages take random
   times within the bounds; messages are taken as they come, and a node may send while a later step is under way. With
   WILD above 0 some clocks and messages leave the bounds, by up to WILD times as much. It writes `PATH LINE` for each
   line that a node records. */
#include <stdio.h>
#include <stdlib.h>
#include "design.h"
#include "messages.h"
#include "random.h"
#include "records.h"
#include "scenario.h"

enum { MOST_NODES = 256 };

static pals_node *nodes[MOST_NODES];
/* Of each node how far its clock is ahead, when it wakes up and for what, and when the step that it has begun is
   done. */
static int64_t skew[MOST_NODES], wake[MOST_NODES], done[MOST_NODES];
static pals_action doing[MOST_NODES];
static messages flying;
static int64_t now, wild;

static int64_t later(int64_t one, int64_t other)
{
    return (one > other) ? one : other;
}

static int64_t clock_of(uint32_t number)
{
    return later(0, now + skew[number]);
}

static bool on_send(void *user, uint32_t link, uint64_t round, const pals_value values[], uint32_t count)
{
    const bool strays = (wild > 0) && (random_in(0, 9) == 0);
    const int64_t least = strays ? 0 : pals_network_least;
    const int64_t takes = random_in(least, pals_network_most * (strays ? (wild + 1) : 1));
    const message sent = message_of(now + takes, link, round, values, count);
    (void)user;
    messages_add(&flying, &sent);
    return true;
}

static void on_record(void *user, const pals_node *node, const pals_record *record)
{
    char prefix[256];
    (void)user;
    (void)snprintf(prefix, sizeof prefix, "%s ", node->of->path);
    records_write(stdout, prefix, node, record);
}

static const pals_hooks HOOKS = {.send = on_send, .read = scenario_input, .record = on_record};

/* A time from that at which the clock of a node reads a target to the last one that the bounds allow. */
static int64_t time_for(uint32_t number, int64_t target)
{
    const int64_t first = target - skew[number];
    return later(random_in(first, later(first, target + pals_skew - 1)), now);
}

/* Sets when a node does its next action, and which. A step that is begun ends when it is done, or a send comes
   first. */
static void set_wake(uint32_t number)
{
    int64_t target = PALS_NEVER;
    const pals_node *node = nodes[number];
    doing[number] = pals_next(node, &target);
    if (doing[number] == PALS_NOTHING) {
        wake[number] = PALS_NEVER;
    } else if (doing[number] == PALS_FINISH) {
        wake[number] = done[number];
        if (!node->sent && (node->steps >= node->of->sent)) {
            const int64_t send = time_for(number, (node->alarm - node->of->period) + node->of->release);
            doing[number] = (send < done[number]) ? PALS_SEND : PALS_FINISH;
            wake[number] = (send < done[number]) ? send : done[number];
        }
    } else {
        wake[number] = time_for(number, target);
    }
}

/* The place of the message that arrives first, or the number of messages. */
static uint32_t first_to_arrive(void)
{
    uint32_t first = flying.count;
    for (uint32_t i = 0; i < flying.count; i++) {
        if ((first == flying.count) || (flying.of[i].arrives < flying.of[first].arrives)) {
            first = i;
        }
    }
    return first;
}

static void deliver(uint32_t at)
{
    const message m = messages_take(&flying, at);
    const uint32_t to = pals_link_of[m.link].target;
    now = m.arrives;
    (void)pals_arrive(nodes[to], m.link, m.round, m.values, m.count, clock_of(to));
    if (nodes[to]->phase == PALS_STOPPED) {
        wake[to] = PALS_NEVER;
    }
}

/* The next action of a node, which has come. */
static void act(uint32_t number)
{
    pals_node *node = nodes[number];
    now = wake[number];
    switch (doing[number]) {
    case PALS_START:
        (void)pals_start(node, clock_of(number));
        done[number] = now + random_in(pals_execution_least, pals_execution_most);
        break;
    case PALS_STEP:
        (void)pals_step(node, clock_of(number));
        done[number] = now + random_in(pals_execution_least, pals_execution_most);
        break;
    case PALS_FINISH:
        (void)pals_finish(node);
        break;
    case PALS_SEND:
        (void)pals_send(node, clock_of(number));
        break;
    case PALS_NOTHING:
    default:
        break;
    }
    set_wake(number);
}

/* The node that wakes up first, or the number of nodes. */
static uint32_t first_awake(void)
{
    uint32_t first = pals_nodes;
    for (uint32_t j = 0; j < pals_nodes; j++) {
        if ((wake[j] != PALS_NEVER) && ((first == pals_nodes) || (wake[j] < wake[first]))) {
            first = j;
        }
    }
    return first;
}

static void open_nodes(void)
{
    for (uint32_t j = 0; j < pals_nodes; j++) {
        const int64_t most = (pals_skew - 1) + ((random_in(0, 3) == 0) ? (wild * pals_skew) : 0);
        skew[j] = random_in(-most, most);
        nodes[j] = pals_open_node(j, &HOOKS, NULL, scenario_rounds());
        set_wake(j);
    }
}

int main(int argc, char **argv)
{
    if ((argc < 2) || !scenario_read() || (pals_nodes > MOST_NODES)) {
        return 2;
    }
    random_begin(strtoull(argv[1], NULL, 10));
    wild = (argc > 2) ? (int64_t)strtoll(argv[2], NULL, 10) : 0;
    open_nodes();
    for (uint32_t first = first_awake(); first < pals_nodes; first = first_awake()) {
        const uint32_t next = first_to_arrive();
        const int64_t arrives = (next < flying.count) ? flying.of[next].arrives : PALS_NEVER;
        /* Of an action and an arrival at one time either may be the first. */
        if ((arrives < wake[first]) || ((arrives == wake[first]) && (random_in(0, 1) == 0))) {
            deliver(next);
        } else {
            act(first);
        }
    }
    return 0;
}
