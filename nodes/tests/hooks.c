/* The hooks for outputs and traps, on p.add_ of the operators, which adds its inputs a and b: the sum is shown once a
   round, when it is sent, and the first sum that does not fit halts the component and is reported once. */
#include <assert.h>
#include <stdio.h>
#include <string.h>
#include "design.h"

static char last_trap[PALS_LINE];
static uint32_t shown, traps;
static uint64_t sent_round;
static pals_value sum;

static bool on_send(void *user, uint32_t link, uint64_t round, const pals_value values[], uint32_t count)
{
    (void)user;
    (void)link;
    (void)round;
    (void)values;
    return count > 0U;
}

/* 1 and 2, and in round 2 the maximum number and 2. */
static pals_value on_read(void *user, uint32_t input, uint64_t round)
{
    (void)user;
    return (pals_value){((input == 0U) && (round >= 2U)) ? INT64_MAX : ((int64_t)input + 1), true};
}

static void on_record(void *user, const pals_node *node, const pals_record *record)
{
    (void)user;
    if (record->event == PALS_SENT) {
        sent_round = record->round + 1U;
    }
    if (record->event == PALS_TRAPPED) {
        (void)pals_line(last_trap, node, record, "");
    }
}

static void on_output(void *user, uint32_t output, uint64_t round, const pals_value values[], uint32_t count)
{
    (void)user;
    assert((strcmp(pals_output_of[output], "o_add") == 0) && (count == 1U) && (sent_round == (round + 1U)));
    sum = values[0];
    shown++;
}

static void on_trap(void *user, const pals_node *node, uint64_t round, uint32_t step, int32_t trap)
{
    (void)user;
    assert((strcmp(node->of->path, "p.add_") == 0) && (round == 2U) && (step == 0U) && (trap == PALS_OVERFLOW));
    traps++;
}

static const pals_hooks HOOKS = {
    .send = on_send, .read = on_read, .record = on_record, .output = on_output, .trap = on_trap};

int main(void)
{
    pals_node *node = pals_open_node(0, &HOOKS, NULL, 4);
    const int64_t period = node->of->period;
    for (uint32_t round = 0; round < 4U; round++) {
        const int64_t alarm = ((int64_t)round + 1) * period;
        (void)pals_poll(node, alarm);
        assert(shown == round);
        (void)pals_poll(node, alarm + node->of->release);
        assert((shown == (round + 1U)) && (sum.present == (round < 2U)) && (!sum.present || (sum.number == 3)));
        assert(traps == ((round < 2U) ? 0U : 1U));
    }
    assert((strncmp(last_trap, "# trap p.add_ 2 0 ", 18) == 0) && (strstr(last_trap, " overflow") != NULL));
    assert(node->halted && (node->phase == PALS_DONE));
    return 0;
}
