/* Writes a small column, checks it, reads it back, looks three ids up and walks over it. Each reply is
 * tested before anything in it is used. */
#include <inttypes.h>
#include <stdio.h>
#include <stdlib.h>

#include "signalfern.h"

/* Says what was refused, and ends the program. */
static void refuse(const char *call, uint64_t refusal, uint64_t number)
{
    fprintf(stderr, "%s: refusal %" PRIu64 ", %s (%" PRIu64 "): %s\n", call, refusal,
            signalfern_refusal_name(refusal), number, signalfern_refusal_text(refusal));
    exit(1);
}

/* The number of a reply that is no refusal. */
static uint64_t done(const char *call, signalfern_reply reply)
{
    if (reply.refusal != 0)
        refuse(call, reply.refusal, reply.number);
    return reply.number;
}

static void tell(uint32_t id, signalfern_answer answer)
{
    switch (answer.kind) {
    case SIGNALFERN_FOUND:
        printf("id %" PRIu32 ": value %" PRId64 ", ordinal %" PRIu64 ", probes %" PRIu64 "\n", id, answer.value,
               answer.ordinal, answer.probes);
        break;
    case SIGNALFERN_ABSENT:
        printf("id %" PRIu32 ": not listed, probes %" PRIu64 "\n", id, answer.probes);
        break;
    default:
        refuse("look up", answer.kind, answer.number);
    }
}

/* The pairs from a target on: each next target is the one after the id that was found. */
static void walk(signalfern_column opened, const uint8_t *column, size_t len, uint32_t target)
{
    signalfern_candidate next = {0};
    while (target <= SIGNALFERN_MAX_ID) {
        next = signalfern_next_in(opened, next.cursor, column, len, target);
        if (next.kind == SIGNALFERN_NONE)
            break;
        if (next.kind != SIGNALFERN_FOUND)
            refuse("next", next.kind, next.number);
        printf("next: id %" PRIu64 ", value %" PRId64 ", ordinal %" PRIu64 "\n", next.id, next.value, next.ordinal);
        target = (uint32_t)next.id + 1;
    }
}

int main(void)
{
    const uint32_t ids[] = {0, 2, 7};
    const int64_t values[] = {150, 140, 135};

    /* Asked with no room, the writer tells how much it needs. */
    signalfern_reply asked = signalfern_write(ids, 3, values, 3, SIGNALFERN_PLAIN, SIGNALFERN_USUAL_POWER, NULL, 0);
    if (asked.refusal != SIGNALFERN_ROOM)
        refuse("write", asked.refusal, asked.number);
    uint8_t *column = malloc(asked.number);
    if (column == NULL)
        return 1;
    uint64_t len = done("write", signalfern_write(ids, 3, values, 3, SIGNALFERN_PLAIN, SIGNALFERN_USUAL_POWER, column, asked.number));
    uint64_t count = done("check", signalfern_check(column, len));
    printf("%" PRIu64 " bytes, %" PRIu64 " pairs\n", len, count);

    /* A count that the check gave is safe to make room for. */
    uint32_t *read_ids = malloc(count * sizeof *read_ids);
    int64_t *read_values = malloc(count * sizeof *read_values);
    if (read_ids == NULL || read_values == NULL)
        return 1;
    done("read", signalfern_read(column, len, read_ids, count, read_values, count));
    for (uint64_t i = 0; i < count; i++)
        printf("%" PRIu32 " %" PRId64 "\n", read_ids[i], read_values[i]);

    tell(7, signalfern_look_up(column, len, 7));

    /* For many look-ups the header is read once. */
    signalfern_column opened = signalfern_open(column, len);
    if (opened.refusal != 0)
        refuse("open", opened.refusal, opened.number);
    printf("smallest value %" PRId64 "\n", signalfern_smallest(opened.smallest));
    tell(2, signalfern_look_up_in(opened, column, len, 2));
    tell(5, signalfern_look_up_in(opened, column, len, 5));
    walk(opened, column, len, 1);

    free(read_values);
    free(read_ids);
    free(column);
    return 0;
}
