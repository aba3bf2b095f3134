#include "records.h"
#include <inttypes.h>
#include "design.h"

static void write_row(FILE *out, const char *prefix, const pals_node *node, uint64_t round)
{
    char line[PALS_LINE];
    const pals_names *names = node->of->names;
    (void)pals_row(line, node);
    (void)fprintf(out, "%srow %" PRIu64 " %s\n", prefix, round, line);
    for (uint32_t t = 0; t < names->taps; t++) {
        (void)pals_out(line, node, &names->tap[t]);
        (void)fprintf(out, "%sout %" PRIu64 " %s\n", prefix, round, &line[4]);
    }
}

void records_open(FILE *out, const char *prefix, const pals_node *node)
{
    char line[PALS_LINE];
    (void)pals_design_line(line, node);
    (void)fprintf(out, "%s%s\n", prefix, line);
}

void records_write(FILE *out, const char *prefix, const pals_node *node, const pals_record *record)
{
    char line[PALS_LINE];
    if (record->event == PALS_ROW) {
        write_row(out, prefix, node, record->round);
        return;
    }
    const char *link = (record->link < pals_links) ? pals_link_of[record->link].name : "";
    (void)pals_line(line, node, record, link);
    (void)fprintf(out, "%s%s\n", prefix, line);
}
