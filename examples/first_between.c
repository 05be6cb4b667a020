/* Scores in runs with a summary: the first one in a range is found by the directory. */
#include <inttypes.h>
#include <stdio.h>

#include "signalfern.h"

enum { COUNT = 40000 };

static void find(signalfern_column column, const uint8_t *bytes, size_t len, int64_t low, int64_t high)
{
    signalfern_between found = signalfern_first_between_in(column, bytes, len, low, high);
    if (found.kind == SIGNALFERN_FOUND)
        printf("from %" PRId64 " to %" PRId64 ": ordinal %" PRIu64 "\n", low, high, found.ordinal);
    else if (found.kind == SIGNALFERN_NONE)
        printf("from %" PRId64 " to %" PRId64 ": none\n", low, high);
    else
        printf("from %" PRId64 " to %" PRId64 ": refused, %s\n", low, high, signalfern_refusal_name(found.kind));
}

int main(void)
{
    static uint32_t ids[COUNT];
    static int64_t values[COUNT];
    static uint8_t bytes[1 << 18];
    /* Small scores, and one great one near the end. */
    for (uint32_t i = 0; i < COUNT; i++) {
        ids[i] = 2 * i;
        values[i] = i == 39000 ? 1000000 : i % 8;
    }
    signalfern_reply written = signalfern_write(ids, COUNT, values, COUNT, SIGNALFERN_RUNS, SIGNALFERN_USUAL_POWER, bytes,
                                                sizeof bytes);
    if (written.refusal != 0)
        return 1;
    signalfern_column column = signalfern_open(bytes, written.number);
    printf("%" PRIu64 " bytes of values\n", column.value_bytes);
    find(column, bytes, written.number, 5, 6);
    find(column, bytes, written.number, 8, 2000000);
    find(column, bytes, written.number, -9, -1);
    /* In a column of another edition there is no directory. */
    written = signalfern_write(ids, 3, values, 3, SIGNALFERN_PLAIN, SIGNALFERN_USUAL_POWER, bytes, sizeof bytes);
    find(signalfern_open(bytes, written.number), bytes, written.number, 0, 9);
    return 0;
}
