/* The pairs of a column from an id on, some with each call, and a pair by its ordinal. */
#include <inttypes.h>
#include <stdio.h>

#include "signalfern.h"

enum { COUNT = 1000, ROOM = 64 };

/* Adds up the scores of the ids from `from` to `to`, which may be the greatest id, in little memory. */
static int sum(signalfern_column column, const uint8_t *bytes, size_t len, uint32_t from, uint32_t to)
{
    uint32_t ids[ROOM];
    int64_t scores[ROOM], total = 0;
    uint64_t count = 0, calls = 0;
    signalfern_readout read;
    do {
        read = signalfern_read_from_in(column, bytes, len, from, ids, ROOM, scores, ROOM);
        if (read.kind != SIGNALFERN_MORE && read.kind != SIGNALFERN_ENDED) {
            printf("refused, %s\n", signalfern_refusal_name(read.kind));
            return 1;
        }
        calls++;
        uint64_t i = 0;
        for (; i < read.count && ids[i] <= to; i++)
            total += scores[i];
        count += i;
        if (i < read.count || read.kind == SIGNALFERN_ENDED)
            break;
        /* There is more, so the last id is not the greatest. */
        from = ids[read.count - 1] + 1;
    } while (from <= to);
    printf("%" PRIu64 " scores add up to %" PRId64 ", in %" PRIu64 " calls\n", count, total, calls);
    return 0;
}

int main(void)
{
    static uint32_t ids[COUNT];
    static int64_t values[COUNT];
    static uint8_t bytes[1 << 14];
    for (uint32_t i = 0; i < COUNT; i++) {
        ids[i] = 3 * i;
        values[i] = i % 10;
    }
    signalfern_reply written = signalfern_write(ids, COUNT, values, COUNT, SIGNALFERN_PLAIN, SIGNALFERN_USUAL_POWER, bytes,
                                                sizeof bytes);
    if (written.refusal != 0)
        return 1;
    signalfern_column column = signalfern_open(bytes, written.number);
    int failed = sum(column, bytes, written.number, 0, SIGNALFERN_MAX_ID);
    failed |= sum(column, bytes, written.number, 300, 599);
    signalfern_pair last = signalfern_pair_at_in(column, bytes, written.number, column.count - 1);
    if (last.kind == SIGNALFERN_FOUND)
        printf("the last is id %" PRIu64 " with %" PRId64 "\n", last.id, last.value);
    return failed;
}
