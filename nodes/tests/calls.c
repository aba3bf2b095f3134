/* The calls of one node, one by one: p.a of the two counters, which reads link 0, from p.b, and sends on link 1. A
   round has 9 ms, and the release is 1 ms past the alarm. */
#include <assert.h>
#include <stdio.h>
#include <string.h>
#include "c_p_a_node.h"
#include "design.h"

#define MS INT64_C(1000000)

static char last[PALS_LINE];
static uint32_t records, sends, stops;
static bool accepts = true, synchronised = true;

static bool on_send(void *user, uint32_t link, uint64_t round, const pals_value values[], uint32_t count)
{
    assert((user == NULL) && (link == 1U) && (round < 6U) && (count == 1U) && values[0].present);
    sends++;
    return accepts;
}

static pals_value on_read(void *user, uint32_t input, uint64_t round)
{
    (void)user;
    (void)input;
    (void)round;
    assert(false);
    return (pals_value){0, false};
}

static void on_record(void *user, const pals_node *node, const pals_record *record)
{
    (void)user;
    if (record->event == PALS_ROW) {
        (void)pals_row(last, node);
    } else {
        (void)pals_line(last, node, record, pals_link_of[record->link].name);
    }
    records++;
}

static void on_stop(void *user, const pals_node *node, pals_event cause, uint32_t link, uint64_t round)
{
    (void)user;
    assert((node->phase == PALS_STOPPED) && (link == 0U) && (round < 6U) && (cause != PALS_HELD));
    stops++;
}

static bool is_trusted(void *user)
{
    (void)user;
    return synchronised;
}

static const pals_hooks HOOKS = {
    .send = on_send, .read = on_read, .record = on_record, .stop = on_stop, .trusted = is_trusted};

static pals_arrived arrive(pals_node *node, uint32_t link, uint64_t round, uint32_t count, int64_t reading)
{
    const pals_value values[2] = {{5, true}, {0, false}};
    return pals_arrive(node, link, round, values, count, reading);
}

static bool says(const char *line)
{
    return strcmp(last, line) == 0;
}

static bool waits(const pals_node *node, pals_action action, int64_t reading)
{
    int64_t from = 0;
    return (pals_next(node, &from) == action) && (from == reading);
}

/* A node of so many rounds, before its first. */
static pals_node *opened(uint64_t rounds)
{
    records = 0;
    sends = 0;
    stops = 0;
    return pals_open_node(0, &HOOKS, NULL, rounds);
}

static void a_round_call_by_call(void)
{
    pals_node *n = opened(1);
    assert(waits(n, PALS_START, 9 * MS));
    assert((pals_start(n, (9 * MS) - 1) == PALS_NOT_YET) && (pals_finish(n) == PALS_NOT_RUNNING));
    assert((pals_step(n, 9 * MS) == PALS_NOT_BETWEEN) && (pals_send(n, 90 * MS) == PALS_NOT_FINISHED));
    assert((records == 0U) && waits(n, PALS_START, 9 * MS));
    assert((pals_start(n, 9 * MS) == PALS_OK) && says("start p.a 0 9000000"));
    assert((pals_start(n, 90 * MS) == PALS_BUSY) && (pals_send(n, 90 * MS) == PALS_NOT_FINISHED));
    assert(waits(n, PALS_FINISH, 9 * MS) && (records == 1U));
    assert((pals_finish(n) == PALS_OK) && says("p.a s x=1") && (pals_finish(n) == PALS_NOT_RUNNING));
    assert((n->phase == PALS_HOLDING) && waits(n, PALS_SEND, 10 * MS));
    assert((pals_send(n, (10 * MS) - 1) == PALS_NOT_YET) && (sends == 0U));
    assert((pals_send(n, 10 * MS) == PALS_OK) && says("send p.a 0 10000000") && (sends == 1U));
    assert((pals_send(n, 10 * MS) == PALS_NOT_FINISHED) && (n->phase == PALS_DONE));
    assert(waits(n, PALS_NOTHING, PALS_NEVER) && (pals_start(n, 90 * MS) == PALS_OVER) && (sends == 1U));
}

static void messages(void)
{
    pals_node *n = opened(3);
    assert((arrive(n, 1, 0, 1, 0) == PALS_REFUSED) && (arrive(n, 7, 0, 1, 0) == PALS_REFUSED));
    assert((arrive(n, 0, 0, 2, 0) == PALS_REFUSED) && (arrive(n, 0, 0, 0, 0) == PALS_REFUSED) && (records == 0U));
    assert((pals_poll(n, (9 * MS) - 1) == 9 * MS) && (records == 0U));
    assert((pals_poll(n, 9 * MS) == 10 * MS) && (records == 3U));
    assert((pals_poll(n, 8 * MS) == 10 * MS) && (records == 3U));
    assert((pals_poll(n, 10 * MS) == 18 * MS) && (sends == 1U));
    assert((arrive(n, 0, 0, 1, 9 * MS) == PALS_KEPT) && says("arrive p.a.i 0 10000000 kept"));
    assert((arrive(n, 0, 0, 1, 11 * MS) == PALS_IGNORED) && says("arrive p.a.i 0 11000000 ignored"));
    assert((pals_poll(n, 30 * MS) == 27 * MS) && (sends == 2U) && says("send p.a 1 30000000"));
    assert((arrive(n, 0, 0, 1, 31 * MS) == PALS_IGNORED) && (arrive(n, 0, 1, 1, 31 * MS) == PALS_KEPT));
    assert((arrive(n, 0, 2, 1, 31 * MS) == PALS_EARLY) && says("stop early p.a.i 2 31000000"));
    records = 0;
    assert((arrive(n, 0, 1, 1, 31 * MS) == PALS_REFUSED) && (pals_poll(n, 90 * MS) == PALS_NEVER));
    assert((pals_start(n, 90 * MS) == PALS_OVER) && (records == 0U));
}

static void a_message_that_is_missed(void)
{
    pals_node *n = opened(0);
    assert((pals_poll(n, 17 * MS) == 18 * MS) && (pals_start(n, 18 * MS) == PALS_MISSED));
    assert(says("stop missed p.a.i 0 18000000") && (n->phase == PALS_STOPPED) && (stops == 1U));
    records = 0;
    assert((pals_poll(n, 40 * MS) == PALS_NEVER) && (arrive(n, 0, 0, 1, 40 * MS) == PALS_REFUSED) && (records == 0U));
}

/* A node that holds uses the last values of the link, and records this. */
static void a_value_that_is_held(void)
{
    pals_node *n = opened(0);
    n->policy = PALS_HOLDS;
    assert((pals_poll(n, 17 * MS) == 18 * MS) && (pals_start(n, 18 * MS) == PALS_OK) && n->degraded);
    assert(!n->memory.ins[0].present && (n->count == 2U) && (stops == 0U));
    assert((pals_poll(n, 19 * MS) == 27 * MS) && (arrive(n, 0, 1, 1, 20 * MS) == PALS_KEPT));
    assert((pals_poll(n, 28 * MS) == 36 * MS) && (n->memory.ins[0].number == 5));
    records = 0;
    assert((pals_start(n, 36 * MS) == PALS_OK) && (records == 2U) && (n->memory.ins[0].number == 5));
    assert(n->memory.ins[0].present && n->degraded);
}

/* A restart begins at a round with the initial frame, and needs no message of the round before. */
static void a_restart(void)
{
    pals_node *n = opened(0);
    assert((pals_poll(n, 17 * MS) == 18 * MS) && (pals_start(n, 18 * MS) == PALS_MISSED));
    pals_restart(n, 4, 20 * MS);
    assert(says("restart p.a 4 20000000") && waits(n, PALS_START, 45 * MS));
    assert((arrive(n, 0, 0, 1, 21 * MS) == PALS_IGNORED) && (pals_poll(n, 45 * MS) == 46 * MS));
    assert(says("p.a s x=1") && !n->degraded && (arrive(n, 0, 4, 1, 47 * MS) == PALS_KEPT));
    assert((arrive(n, 0, 5, 1, 48 * MS) == PALS_EARLY));
}

/* A node that resumes begins a round as it began the saved one: with its frame, and with its messages. */
static void a_saved_round(void)
{
    static c_p_a_saved saved;
    pals_node *n = opened(0);
    c_p_a_save_at((c_p_a_node *)n, &saved, 1);
    assert(!pals_resume(n, 4, 0) && (pals_poll(n, 9 * MS) == 10 * MS) && (pals_poll(n, 10 * MS) == 18 * MS));
    assert((arrive(n, 0, 0, 1, 11 * MS) == PALS_KEPT) && (pals_start(n, 18 * MS) == PALS_OK) && (records == 7U));
    assert((pals_finish(n) == PALS_OK) && says("p.a s x=7") && (pals_send(n, 19 * MS) == PALS_OK));
    assert((pals_start(n, 27 * MS) == PALS_MISSED) && pals_resume(n, 4, 30 * MS));
    assert(says("resume p.a 4 30000000") && waits(n, PALS_START, 45 * MS));
    assert((arrive(n, 0, 3, 1, 31 * MS) == PALS_IGNORED) && (pals_start(n, 45 * MS) == PALS_OK));
    assert((pals_finish(n) == PALS_OK) && says("p.a s x=7"));
}

static void a_message_that_is_not_accepted(void)
{
    pals_node *n = opened(1);
    accepts = false;
    assert((pals_poll(n, 9 * MS) == 10 * MS) && (pals_poll(n, 10 * MS) == PALS_NEVER) && (sends == 1U));
    assert(says("# unsent p.b.i 0 10000000") && (n->phase == PALS_DONE));
    accepts = true;
}

static void a_clock_that_is_not_trusted(void)
{
    pals_node *n = opened(2);
    synchronised = false;
    assert((pals_start(n, 9 * MS) == PALS_OVER) && (stops == 1U) && (n->phase == PALS_STOPPED));
    assert(says("# stop clock p.a 0 9000000") && (pals_poll(n, 40 * MS) == PALS_NEVER));
    synchronised = true;
}

static void links(void)
{
    uint32_t count = 0;
    const uint32_t *found = pals_links_of(0, &count);
    assert((count == 2U) && (found[0] == 0U) && (found[1] == 1U) && (pals_link_of[0].rate == 1U));
    assert((pals_links_of(7, &count) == NULL) && (count == 0U));
}

int main(void)
{
    a_value_that_is_held();
    a_restart();
    a_saved_round();
    a_message_that_is_not_accepted();
    a_clock_that_is_not_trusted();
    links();
    a_round_call_by_call();
    messages();
    a_message_that_is_missed();
    return 0;
}
