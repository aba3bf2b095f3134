#include "faults.h"
#include <stdlib.h>
#include <string.h>
#include "design.h"

enum { MOST_FAULTS = 16 };

/* A kind of faults: whether its name is a link's (else a node's), whether a round follows, and whether a time follows
   the round. */
typedef struct {
    const char *kind;
    bool of_link;
    bool has_time;
} form;

typedef struct {
    const char *kind;
    const char *name;
    uint64_t round;
    int64_t time;
} fault;

static const form FORMS[] = {{"late", true, true},   {"lose", true, false},  {"twice", true, false},
                             {"wrong", true, false}, {"ahead", false, true}, {"hasty", false, false}};
static fault faults[MOST_FAULTS];
static uint32_t fault_count;

static const form *form_of(const char *kind)
{
    for (uint32_t i = 0; i < (sizeof FORMS / sizeof FORMS[0]); i++) {
        if (strcmp(FORMS[i].kind, kind) == 0) {
            return &FORMS[i];
        }
    }
    return NULL;
}

static bool is_known(const form *of, const char *name)
{
    for (uint32_t l = 0; of->of_link && (l < pals_links); l++) {
        if (strcmp(pals_link_of[l].name, name) == 0) {
            return true;
        }
    }
    for (uint32_t j = 0; !of->of_link && (j < pals_nodes); j++) {
        if (strcmp(pals_component_of[j]->path, name) == 0) {
            return true;
        }
    }
    return false;
}

bool faults_read(int count, char **words)
{
    int at = 0;
    while (at < count) {
        const form *of = form_of(words[at]);
        if ((of == NULL) || (fault_count == MOST_FAULTS) ||
            ((at + 2 + (of->of_link ? 1 : 0) + (of->has_time ? 1 : 0)) > count) || !is_known(of, words[at + 1])) {
            return false;
        }
        fault *made = &faults[fault_count];
        *made = (fault){words[at], words[at + 1], 0, 0};
        at += 2;
        if (of->of_link) {
            made->round = strtoull(words[at], NULL, 10);
            at++;
        }
        if (of->has_time) {
            made->time = (int64_t)strtoll(words[at], NULL, 10);
            at++;
        }
        fault_count++;
    }
    return true;
}

int64_t fault_of(const char *kind, const char *name, uint64_t round)
{
    for (uint32_t i = 0; i < fault_count; i++) {
        if ((strcmp(faults[i].kind, kind) == 0) && (strcmp(faults[i].name, name) == 0) && (faults[i].round == round)) {
            return faults[i].time;
        }
    }
    return -1;
}
