#include "pals_node.h"
#include <stddef.h>

/* ---------------------------------------------------------------------------------------------------- records */

static void record(const pals_node *node, pals_event event, uint32_t link, uint64_t round, pals_arrived arrived)
{
    const pals_record made = {event, link, round, node->steps, PALS_GOES, node->reading, arrived};
    node->hooks->record(node->user, node, &made);
}

/* A record on the round in hand. */
static void record_own(const pals_node *node, pals_event event)
{
    record(node, event, 0, node->count - 1U, PALS_KEPT);
}

static void stop(pals_node *node, pals_event event, uint32_t link, uint64_t round)
{
    node->phase = PALS_STOPPED;
    record(node, event, link, round, PALS_REFUSED);
    if (node->hooks->stop != NULL) {
        node->hooks->stop(node->user, node, event, link, round);
    }
}

/* The clock does not go back. */
static void set_reading(pals_node *node, int64_t reading)
{
    if (reading > node->reading) {
        node->reading = reading;
    }
}

static int64_t later(int64_t one, int64_t other)
{
    return (one > other) ? one : other;
}

/* ------------------------------------------------------------------------------------------------------ times */

/* The alarm of the round in hand. */
static int64_t begun(const pals_node *node)
{
    return node->alarm - node->of->period;
}

/* The reading from which on the next step is begun, and that from which on the round is sent. */
static int64_t step_alarm(const pals_node *node)
{
    return begun(node) + ((int64_t)node->steps * node->of->step_period);
}

static int64_t release(const pals_node *node)
{
    return begun(node) + node->of->release;
}

/* Whether the current round may be sent, once the clock reads its release. */
static bool may_send(const pals_node *node)
{
    const bool in_hand =
        (node->phase == PALS_RUNNING) || (node->phase == PALS_BETWEEN) || (node->phase == PALS_HOLDING);
    return in_hand && !node->sent && (node->steps >= node->of->sent);
}

static bool is_last_round(const pals_node *node)
{
    return ((node->rounds != 0U) && (node->count == node->rounds)) || (node->alarm > PALS_LAST_ALARM);
}

/* --------------------------------------------------------------------------------------------------- messages */

/* The number of slots of all links together. */
static uint32_t slots_of(const pals_component *of)
{
    uint32_t count = 0;
    for (uint32_t l = 0; l < of->links; l++) {
        count += of->link[l].rate;
    }
    return count;
}

/* Sets a node before a round, which is its first one; if it reads messages, they are in the slots. */
static void set_before(pals_node *node, uint64_t round, bool reads)
{
    for (uint32_t l = 0; l < node->of->links; l++) {
        node->memory.full[l] = reads;
    }
    node->reads = reads;
    node->count = round;
    node->steps = 0;
    node->sent = true;
    node->degraded = false;
    node->halted = false;
    node->alarm = ((int64_t)round + 1) * node->of->period;
    node->phase = is_last_round(node) ? PALS_DONE : PALS_WAITING;
}

/* Sets a node before a round with the initial frame and empty slots. */
static void begin_at(pals_node *node, uint64_t round)
{
    for (uint32_t i = 0; i < slots_of(node->of); i++) {
        node->memory.slots[i] = PALS_ABSENT;
    }
    node->of->init(node->memory.frame);
    set_before(node, round, false);
}

void pals_open(pals_node *node, const pals_component *of, const pals_memory *memory, const pals_hooks *hooks,
               void *user, uint64_t rounds)
{
    *node = (pals_node){.of = of, .hooks = hooks, .user = user, .memory = *memory, .rounds = rounds};
    begin_at(node, 0);
}

void pals_restart(pals_node *node, uint64_t round, int64_t reading)
{
    set_reading(node, reading);
    begin_at(node, round);
    record(node, PALS_RESTARTED, 0, round, PALS_KEPT);
}

/* Copies a frame and the slots. */
static void copy(const pals_component *of, void *frame, pals_value slots[], const void *from,
                 const pals_value of_from[])
{
    for (uint32_t i = 0; i < of->frame_size; i++) {
        ((uint8_t *)frame)[i] = ((const uint8_t *)from)[i];
    }
    for (uint32_t i = 0; i < slots_of(of); i++) {
        slots[i] = of_from[i];
    }
}

void pals_save_at(pals_node *node, pals_checkpoint *checkpoint, uint64_t round)
{
    checkpoint->round = round;
    checkpoint->saved = false;
    node->checkpoint = checkpoint;
}

/* Saves what the next round begins with, if the checkpoint is for it. */
static void save(const pals_node *node)
{
    pals_checkpoint *to = node->checkpoint;
    if ((to != NULL) && (to->round == node->count)) {
        copy(node->of, to->frame, to->slots, node->memory.frame, node->memory.slots);
        to->reads = node->reads;
        to->saved = true;
        record(node, PALS_SAVED, 0, node->count, PALS_KEPT);
    }
}

bool pals_resume(pals_node *node, uint64_t round, int64_t reading)
{
    const pals_checkpoint *from = node->checkpoint;
    if ((from == NULL) || !from->saved) {
        return false;
    }
    set_reading(node, reading);
    copy(node->of, node->memory.frame, node->memory.slots, from->frame, from->slots);
    set_before(node, round, from->reads);
    record(node, PALS_RESUMED, 0, round, PALS_KEPT);
    return true;
}

/* Whether these are values of a link. */
static bool are_values(const pals_source *source, const pals_value values[], uint32_t count)
{
    if (count != source->rate) {
        return false;
    }
    for (uint32_t i = 0; i < count; i++) {
        if (source->boolean && values[i].present && (values[i].number != 0) && (values[i].number != 1)) {
            return false;
        }
    }
    return true;
}

pals_arrived pals_arrive(pals_node *node, uint32_t link, uint64_t round, const pals_value values[], uint32_t count,
                         int64_t reading)
{
    pals_value *slot = node->memory.slots;
    pals_arrived arrived = PALS_IGNORED;
    uint32_t l = 0;
    while ((l < node->of->links) && (node->of->link[l].number != link)) {
        slot = &slot[node->of->link[l].rate];
        l++;
    }
    if ((node->phase == PALS_STOPPED) || (l == node->of->links) || !are_values(&node->of->link[l], values, count)) {
        return PALS_REFUSED;
    }
    set_reading(node, reading);
    if (round >= node->count) {
        arrived = PALS_EARLY;
    } else if ((round == (node->count - 1U)) && !node->memory.full[l]) {
        for (uint32_t i = 0; i < count; i++) {
            slot[i] = values[i];
        }
        node->memory.full[l] = true;
        arrived = PALS_KEPT;
    } else {
        arrived = PALS_IGNORED;
    }
    record(node, PALS_ARRIVED, link, round, arrived);
    if (arrived == PALS_EARLY) {
        stop(node, PALS_STOP_EARLY, link, round);
    }
    return arrived;
}

/* The first link whose message a start misses, or the number of links. */
static uint32_t missed(const pals_node *node)
{
    uint32_t l = 0;
    if (!node->reads) {
        return node->of->links;
    }
    while ((l < node->of->links) && node->memory.full[l]) {
        l++;
    }
    return l;
}

/* ----------------------------------------------------------------------------------------------------- rounds */

static void feed(pals_node *node, const pals_source *source, const pals_value message[])
{
    const pals_component *of = node->of;
    for (uint32_t step = 0; step < of->rate; step++) {
        node->memory.ins[(step * of->ins) + source->port] = pals_read(source, of->rate, step, message);
    }
}

/* Takes the messages of the round before out of their slots, and reads the inputs of the root. */
static void take_ins(pals_node *node)
{
    const pals_component *of = node->of;
    const pals_value *slot = node->memory.slots;
    for (uint32_t i = 0; i < (of->rate * of->ins); i++) {
        node->memory.ins[i] = PALS_ABSENT;
    }
    for (uint32_t l = 0; l < of->links; l++) {
        if (node->reads) {
            feed(node, &of->link[l], slot);
        }
        slot = &slot[of->link[l].rate];
        node->memory.full[l] = false;
    }
    for (uint32_t i = 0; i < of->inputs; i++) {
        const pals_value value = node->hooks->read(node->user, of->input[i].number, node->count);
        feed(node, &of->input[i], &value);
    }
}

/* Records each link whose message is missing. Its slot still has the values of the last message, or absent ones. */
static void hold(pals_node *node)
{
    for (uint32_t l = 0; l < node->of->links; l++) {
        if (!node->memory.full[l]) {
            record(node, PALS_HELD, node->of->link[l].number, node->count - 1U, PALS_KEPT);
        }
    }
    node->degraded = true;
}

pals_answer pals_start(pals_node *node, int64_t reading)
{
    const pals_component *of = node->of;
    if ((node->phase == PALS_DONE) || (node->phase == PALS_STOPPED)) {
        return PALS_OVER;
    }
    if (node->phase != PALS_WAITING) {
        return PALS_BUSY;
    }
    if (later(reading, node->reading) < node->alarm) {
        return PALS_NOT_YET;
    }
    set_reading(node, reading);
    if ((node->hooks->trusted != NULL) && !node->hooks->trusted(node->user)) {
        stop(node, PALS_STOP_CLOCK, 0, node->count);
        return PALS_OVER;
    }
    if (missed(node) < of->links) {
        if (node->policy == PALS_STOPS) {
            stop(node, PALS_STOP_MISSED, of->link[missed(node)].number, node->count - 1U);
            return PALS_MISSED;
        }
        hold(node);
    } else {
        save(node);
    }
    take_ins(node);
    for (uint32_t i = 0; i < (of->outs * of->rate); i++) {
        node->memory.outs[i] = PALS_ABSENT;
    }
    node->count += 1U;
    node->reads = true;
    node->alarm += of->period;
    node->steps = 0;
    node->sent = false;
    node->phase = PALS_RUNNING;
    record_own(node, PALS_STARTED);
    return PALS_OK;
}

pals_answer pals_step(pals_node *node, int64_t reading)
{
    if (node->phase != PALS_BETWEEN) {
        return PALS_NOT_BETWEEN;
    }
    if (later(reading, node->reading) < step_alarm(node)) {
        return PALS_NOT_YET;
    }
    set_reading(node, reading);
    node->phase = PALS_RUNNING;
    record_own(node, PALS_STEPPED);
    return PALS_OK;
}

static pals_phase behind_round(const pals_node *node)
{
    return is_last_round(node) ? PALS_DONE : PALS_WAITING;
}

/* Records a trap once. The trap stays in the frame: a halted component runs its rounds, and its outputs are absent. */
static void note_trap(pals_node *node, int32_t trap)
{
    if ((trap == PALS_GOES) || node->halted) {
        return;
    }
    const pals_record made = {PALS_TRAPPED, 0, node->count - 1U, node->steps, trap, node->reading, PALS_KEPT};
    node->halted = true;
    node->hooks->record(node->user, node, &made);
    if (node->hooks->trap != NULL) {
        node->hooks->trap(node->user, node, made.round, made.step, trap);
    }
}

/* Passes the values of the root's out ports on, once the round is sent and all its steps are finished. */
static void show_outputs(const pals_node *node)
{
    const pals_component *of = node->of;
    if ((node->hooks->output == NULL) || !node->sent || (node->steps < of->rate)) {
        return;
    }
    for (uint32_t o = 0; o < of->outputs; o++) {
        const pals_value *values = &node->memory.outs[of->output[o].port * of->rate];
        node->hooks->output(node->user, of->output[o].number, node->count - 1U, values, of->rate);
    }
}

pals_answer pals_finish(pals_node *node)
{
    const pals_component *of = node->of;
    pals_value *out = node->memory.values;
    if (node->phase != PALS_RUNNING) {
        return PALS_NOT_RUNNING;
    }
    const int32_t trap = of->step(node->memory.frame, &node->memory.ins[node->steps * of->ins], out);
    for (uint32_t o = 0; o < of->outs; o++) {
        node->memory.outs[(o * of->rate) + node->steps] = out[o];
    }
    note_trap(node, trap);
    node->steps += 1U;
    record_own(node, PALS_FINISHED);
    if (node->steps < of->rate) {
        node->phase = PALS_BETWEEN;
    } else {
        record_own(node, PALS_ROW);
        show_outputs(node);
        node->phase = node->sent ? behind_round(node) : PALS_HOLDING;
    }
    return PALS_OK;
}

/* Sends the messages of the round in hand. */
static void send_all(pals_node *node)
{
    const pals_component *of = node->of;
    pals_value *values = node->memory.values;
    for (uint32_t t = 0; t < of->targets; t++) {
        const pals_target *target = &of->target[t];
        for (uint32_t i = 0; i < of->rate; i++) {
            values[i] = (i < of->sent) ? node->memory.outs[(target->port * of->rate) + i] : PALS_ABSENT;
        }
        if (!node->hooks->send(node->user, target->number, node->count - 1U, values, of->rate)) {
            record(node, PALS_UNSENT, target->number, node->count - 1U, PALS_KEPT);
        }
    }
}

pals_answer pals_send(pals_node *node, int64_t reading)
{
    if (!may_send(node)) {
        return PALS_NOT_FINISHED;
    }
    if (later(reading, node->reading) < release(node)) {
        return PALS_NOT_YET;
    }
    set_reading(node, reading);
    node->sent = true;
    record_own(node, PALS_SENT);
    send_all(node);
    show_outputs(node);
    if (node->phase == PALS_HOLDING) {
        node->phase = behind_round(node);
    }
    return PALS_OK;
}

/* -------------------------------------------------------------------------------------------------- what next */

pals_action pals_next(const pals_node *node, int64_t *from)
{
    switch (node->phase) {
    case PALS_WAITING:
        *from = node->alarm;
        return PALS_START;
    case PALS_RUNNING:
        *from = node->reading;
        return PALS_FINISH;
    case PALS_BETWEEN:
        if (may_send(node) && (release(node) <= step_alarm(node))) {
            *from = release(node);
            return PALS_SEND;
        }
        *from = step_alarm(node);
        return PALS_STEP;
    case PALS_HOLDING:
        *from = release(node);
        return PALS_SEND;
    case PALS_DONE:
    case PALS_STOPPED:
    default:
        *from = PALS_NEVER;
        return PALS_NOTHING;
    }
}

/* Does an action that has come. */
static void act(pals_node *node, pals_action action)
{
    switch (action) {
    case PALS_START:
        (void)pals_start(node, node->reading);
        break;
    case PALS_STEP:
        (void)pals_step(node, node->reading);
        break;
    case PALS_FINISH:
        (void)pals_finish(node);
        break;
    case PALS_SEND:
        (void)pals_send(node, node->reading);
        break;
    case PALS_NOTHING:
    default:
        break;
    }
}

int64_t pals_poll(pals_node *node, int64_t reading)
{
    int64_t from = PALS_NEVER;
    bool acted = false;
    set_reading(node, reading);
    for (;;) {
        const pals_action action = pals_next(node, &from);
        if ((from > node->reading) || (action == PALS_NOTHING) || ((action == PALS_START) && acted)) {
            return from;
        }
        act(node, action);
        acted = true;
    }
}
