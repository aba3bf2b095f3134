#include "pals_lines.h"

/* A line that is written. */
typedef struct {
    char *to;
    uint32_t length;
} text;

static void put(text *line, const char *words)
{
    for (uint32_t i = 0; (words[i] != '\0') && (line->length < (uint32_t)(PALS_LINE - 1)); i++) {
        line->to[line->length] = words[i];
        line->length += 1U;
    }
    line->to[line->length] = '\0';
}

static void put_number(text *line, uint64_t number)
{
    static const char DIGITS[] = "0123456789";
    char digits[21];
    uint32_t at = 20;
    uint64_t left = number;
    digits[at] = '\0';
    do {
        at -= 1U;
        digits[at] = DIGITS[left % 10U];
        left /= 10U;
    } while (left != 0U);
    put(line, &digits[at]);
}

static void put_value(text *line, int64_t number, bool boolean)
{
    if (boolean) {
        put(line, (number == 0) ? "false" : "true");
    } else if (number < 0) {
        put(line, "-");
        put_number(line, 0U - (uint64_t)number);
    } else {
        put_number(line, (uint64_t)number);
    }
}

static void put_field(text *line, uint64_t number)
{
    put(line, " ");
    put_number(line, number);
}

uint32_t pals_line(char to[PALS_LINE], const pals_node *node, const pals_record *record, const char *link)
{
    static const char *const EVENTS[] = {"start ",      "step ",        "finish ", "send ",    "arrive ",
                                         "",            "stop early ",  "stop missed ",        "hold ",
                                         "restart ",    "# trap ",      "# unsent ",           "# stop clock ",
                                         "save ",       "resume "};
    static const char *const ARRIVED[] = {" kept", " ignored", " early", ""};
    static const char *const TRAPS[] = {"", " overflow", " zero-divisor", " bad-state"};
    const bool of_link = (record->event == PALS_ARRIVED) || (record->event == PALS_STOP_EARLY) ||
                         (record->event == PALS_STOP_MISSED) || (record->event == PALS_HELD) ||
                         (record->event == PALS_UNSENT);
    text line = {to, 0};
    put(&line, EVENTS[record->event]);
    put(&line, of_link ? link : node->of->path);
    put_field(&line, record->round);
    if ((record->event == PALS_STEPPED) || (record->event == PALS_TRAPPED)) {
        put_field(&line, record->step);
    }
    if (record->event != PALS_FINISHED) {
        put_field(&line, (uint64_t)record->reading);
    }
    if (record->event == PALS_ARRIVED) {
        put(&line, ARRIVED[record->arrived]);
    }
    if (record->event == PALS_TRAPPED) {
        put(&line, TRAPS[record->trap]);
    }
    return line.length;
}

uint32_t pals_design_line(char to[PALS_LINE], const pals_node *node)
{
    static const char DIGITS[] = "0123456789abcdef";
    char digits[17];
    text line = {to, 0};
    for (uint32_t i = 0; i < 16U; i++) {
        digits[i] = DIGITS[(node->of->design >> (60U - (4U * i))) & 15U];
    }
    digits[16] = '\0';
    put(&line, "design ");
    put(&line, node->of->path);
    put(&line, " ");
    put(&line, digits);
    return line.length;
}

uint32_t pals_row(char to[PALS_LINE], const pals_node *node)
{
    static const char *const HALTED[] = {"", "halted(overflow)", "halted(zero-divisor)", "halted(bad-state)"};
    const pals_names *names = node->of->names;
    int32_t halt = PALS_GOES;
    const int32_t state = names->state(node->memory.frame, &halt);
    text line = {to, 0};
    put(&line, node->of->path);
    put(&line, " ");
    put(&line, (halt == PALS_GOES) ? names->states[state] : HALTED[halt]);
    for (uint32_t v = 0; v < node->of->vars; v++) {
        put(&line, " ");
        put(&line, names->variables[v].name);
        put(&line, "=");
        put_value(&line, names->value(node->memory.frame, v), names->variables[v].boolean);
    }
    return line.length;
}

uint32_t pals_out(char to[PALS_LINE], const pals_node *node, const pals_tap *tap)
{
    text line = {to, 0};
    put(&line, "out ");
    put(&line, tap->name);
    for (uint32_t i = 0; i < node->of->rate; i++) {
        const pals_value value = node->memory.outs[(tap->port * node->of->rate) + i];
        put(&line, (i == 0U) ? " (" : ",");
        if (value.present) {
            put_value(&line, value.number, tap->boolean);
        } else {
            put(&line, "_");
        }
    }
    put(&line, ")");
    return line.length;
}
