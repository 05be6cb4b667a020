/* Few distinct scores: a table of them, proposed by the planner, and one that the writer rejects. */
#include <inttypes.h>
#include <stdio.h>

#include "signalfern.h"

enum { COUNT = 1000 };

static uint32_t ids[COUNT];
static int64_t values[COUNT];
static uint8_t bytes[1 << 14];

/* Writes by a plan, and tells what came of it. */
static void write_by(const char *name, const int64_t *table, size_t entries)
{
    signalfern_reply written = signalfern_write_planned(ids, COUNT, values, COUNT, table, entries,
                                                        SIGNALFERN_USUAL_POWER, bytes, sizeof bytes);
    if (written.refusal != 0) {
        printf("%s: refused, %s\n", name, signalfern_refusal_name(written.refusal));
        return;
    }
    signalfern_column column = signalfern_open(bytes, written.number);
    printf("%s: edition %" PRIu64 ", %" PRIu64 " bytes of values\n", name, column.edition, column.value_bytes);
    signalfern_answer answer = signalfern_look_up_in(column, bytes, written.number, 7);
    printf("  id 7: value %" PRId64 "\n", answer.value);
}

int main(void)
{
    /* 0 for most, and two others that lie far away. */
    for (uint32_t i = 0; i < COUNT; i++) {
        ids[i] = i;
        values[i] = i % 10 == 7 ? -1 : i % 100 == 5 ? 1000000007 : 0;
    }
    int64_t table[SIGNALFERN_MAX_TABLE];
    signalfern_reply planned = signalfern_plan(values, COUNT, table, SIGNALFERN_MAX_TABLE);
    if (planned.refusal != 0)
        return 1;
    for (uint64_t code = 0; code < planned.number; code++)
        printf("code %" PRIu64 ": %" PRId64 "\n", code, table[code]);
    write_by("by the plan", table, planned.number);
    write_by("plain", NULL, 0);
    /* Anybody may hand a table over: the last value is missing here. */
    write_by("by another", table, planned.number - 1);
    return 0;
}
