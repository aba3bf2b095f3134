/* Adaptors: for lines `SOURCE-RATE RATE ADAPTOR PLACE VALUE ..`, the adaptor by its number, it writes the input of each
   of the RATE steps. */
#include <inttypes.h>
#include <stdio.h>
#include <stdlib.h>
#include <string.h>
#include "pals_node.h"

static uint32_t next_number(char *line)
{
    return (uint32_t)strtoul(strtok(line, " \n"), NULL, 10);
}

int main(void)
{
    static char line[8192];
    while (fgets(line, sizeof line, stdin) != NULL) {
        pals_value message[PALS_MOST_RATE];
        const uint32_t from = next_number(line);
        const uint32_t rate = next_number(NULL);
        const pals_adaptor adaptor = (pals_adaptor)next_number(NULL);
        const pals_source source = {0, 0, from, next_number(NULL), adaptor, false};
        for (uint32_t i = 0; i < from; i++) {
            const char *word = strtok(NULL, " \n");
            message[i] = (pals_value){(word[0] == '_') ? 99 : (int64_t)strtoll(word, NULL, 10), word[0] != '_'};
        }
        for (uint32_t step = 0; step < rate; step++) {
            const pals_value value = pals_read(&source, rate, step, message);
            if (value.present) {
                (void)printf("%" PRId64 "%s", value.number, (step + 1U < rate) ? " " : "\n");
            } else {
                (void)printf("_%s", (step + 1U < rate) ? " " : "\n");
            }
        }
    }
    return 0;
}
