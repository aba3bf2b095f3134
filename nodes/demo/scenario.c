#include "scenario.h"
#include <stdio.h>
#include <stdlib.h>
#include <string.h>
#include "design.h"

enum { MOST_INPUTS = 4096, MOST_LINKS = 4096, MOST_VALUES = 65536, LONGEST_LINE = 1048576 };

/* The values of a line: a slice of all values that were read. */
typedef struct {
    const pals_value *of;
    uint64_t count;
} values;

static uint64_t rounds;
static values inputs[MOST_INPUTS];
static values delays[MOST_LINKS];
static pals_value all[MOST_VALUES];
static uint32_t all_count;

/* The next word of the current line; NULL after the last. */
static const char *word(char *line)
{
    return strtok(line, " \n");
}

static bool read_values(values *to)
{
    *to = (values){&all[all_count], 0};
    for (const char *w = word(NULL); w != NULL; w = word(NULL)) {
        if (all_count == MOST_VALUES) {
            return false;
        }
        all[all_count] = (pals_value){(w[0] == '_') ? 0 : (int64_t)strtoll(w, NULL, 10), w[0] != '_'};
        all_count += 1U;
        to->count += 1U;
    }
    return true;
}

/* The values of an input or of a link; NULL if the scenario does not name it. */
static values *values_of(const char *kind, const char *name)
{
    for (uint32_t k = 0; (strcmp(kind, "input") == 0) && (k < pals_inputs) && (k < MOST_INPUTS); k++) {
        if (strcmp(pals_input_of[k].name, name) == 0) {
            return &inputs[k];
        }
    }
    for (uint32_t k = 0; (strcmp(kind, "delay") == 0) && (k < pals_links) && (k < MOST_LINKS); k++) {
        if (strcmp(pals_link_of[k].name, name) == 0) {
            return &delays[k];
        }
    }
    return NULL;
}

static bool read_line(char *line)
{
    const char *kind = word(line);
    const char *name = word(NULL);
    if ((kind == NULL) || (name == NULL)) {
        return false;
    }
    if (strcmp(kind, "rounds") == 0) {
        rounds = strtoull(name, NULL, 10);
        return true;
    }
    values *to = values_of(kind, name);
    return (to != NULL) && read_values(to);
}

bool scenario_read(void)
{
    static char line[LONGEST_LINE];
    while (fgets(line, LONGEST_LINE, stdin) != NULL) {
        const bool whole = (strchr(line, '\n') != NULL) || (feof(stdin) != 0);
        if (!whole || !read_line(line)) {
            return false;
        }
    }
    return rounds > 0U;
}

uint64_t scenario_rounds(void)
{
    return rounds;
}

pals_value scenario_input(void *user, uint32_t input, uint64_t round)
{
    (void)user;
    return (round < inputs[input].count) ? inputs[input].of[round] : (pals_value){0, false};
}

int64_t scenario_delay(uint32_t link, uint64_t round, int64_t least)
{
    const values *of = &delays[link];
    return (of->count == 0U) ? least : of->of[(round < of->count) ? round : (of->count - 1U)].number;
}
