/* A correction on top of a machine column: which of them holds an id, and the bytes that hold its value; many ids at once; and all
 * pairs in the order of ids. */
#include <inttypes.h>
#include <stdio.h>

#include "signalfern.h"

static const char *const names[] = {"machine", "correction"};

static void tell(const uint8_t *machine, size_t machine_len, const uint8_t *correction, size_t correction_len, uint32_t id)
{
    signalfern_layered answer = signalfern_look_up_layered(machine, machine_len, correction, correction_len, id);
    switch (answer.kind) {
    case SIGNALFERN_FOUND:
        printf("id %" PRIu32 ": value %" PRId64 ", ordinal %" PRIu64 " of the %s\n", id, answer.value, answer.ordinal,
               names[answer.column]);
        break;
    case SIGNALFERN_ABSENT:
        printf("id %" PRIu32 ": in neither\n", id);
        break;
    default:
        printf("id %" PRIu32 ": the %s is refused: %s\n", id, names[answer.column], signalfern_refusal_text(answer.kind));
    }
    /* Of an id that is not found, the part is empty. */
    signalfern_part part = signalfern_layered_values(machine, machine_len, correction, correction_len, id);
    const uint8_t *bytes = part.column == SIGNALFERN_CORRECTION ? correction : machine;
    for (uint64_t i = 0; i < part.len; i++)
        printf("  byte %" PRIu64 ": %02X\n", part.start + i, bytes[part.start + i]);
}

/* Each place is what the look-up of its id answers. */
static void tell_page(const uint8_t *machine, size_t machine_len, const uint8_t *correction, size_t correction_len)
{
    enum { IDS = 4 };
    const uint32_t ids[IDS] = {7, 2, 5, SIGNALFERN_MAX_ID + 1};
    uint64_t ordinals[IDS];
    int64_t values[IDS];
    uint8_t kinds[IDS], columns[IDS];
    signalfern_layered_page page = signalfern_look_up_layered_page(machine, machine_len, correction, correction_len, ids, IDS, ordinals, IDS,
                                                                   values, IDS, kinds, IDS, columns, IDS);
    for (uint64_t i = 0; page.refusal == 0 && i < page.number; i++) {
        if (kinds[i] == SIGNALFERN_FOUND)
            printf("page: id %" PRIu32 ": value %" PRId64 " by the %s\n", ids[i], values[i], names[columns[i]]);
        else if (kinds[i] == SIGNALFERN_ABSENT)
            printf("page: id %" PRIu32 ": in neither\n", ids[i]);
        else
            printf("page: id %" PRIu32 ": %s\n", ids[i], signalfern_refusal_name(kinds[i]));
    }
}

/* The pairs of both, two with each call. */
static int read_on(signalfern_column below, const uint8_t *machine, size_t machine_len, signalfern_column above, const uint8_t *correction,
                   size_t correction_len)
{
    enum { ROOM = 2 };
    uint32_t ids[ROOM], from = 0;
    int64_t values[ROOM];
    uint8_t columns[ROOM];
    for (;;) {
        signalfern_layered_readout readout;
        signalfern_read_layered_from_in_to(&below, machine, machine_len, &above, correction, correction_len, from, ids, ROOM, values, ROOM,
                                           columns, ROOM, &readout);
        if (readout.kind != SIGNALFERN_MORE && readout.kind != SIGNALFERN_ENDED) {
            printf("from %" PRIu32 ": the %s is refused: %s\n", from, names[readout.column], signalfern_refusal_text(readout.kind));
            return 1;
        }
        for (uint64_t i = 0; i < readout.count; i++)
            printf("pair: id %" PRIu32 ", value %" PRId64 " by the %s\n", ids[i], values[i], names[columns[i]]);
        if (readout.kind == SIGNALFERN_ENDED)
            return 0;
        from = ids[readout.count - 1] + 1;
    }
}

int main(void)
{
    const uint32_t ids[] = {0, 2, 7}, corrected[] = {2};
    const int64_t values[] = {150, 140, 135}, right[] = {-1};
    uint8_t machine[64], correction[64];
    signalfern_reply below = signalfern_write(ids, 3, values, 3, SIGNALFERN_PLAIN, SIGNALFERN_USUAL_POWER, machine, sizeof machine);
    signalfern_reply above = signalfern_write(corrected, 1, right, 1, SIGNALFERN_PLAIN, SIGNALFERN_USUAL_POWER, correction, sizeof correction);
    if (below.refusal != 0 || above.refusal != 0)
        return 1;
    tell(machine, below.number, correction, above.number, 7);
    tell(machine, below.number, correction, above.number, 2);
    tell(machine, below.number, correction, above.number, 5);
    /* One byte short: nothing is answered, since the correction might have known. */
    tell(machine, below.number, correction, above.number - 1, 7);
    tell_page(machine, below.number, correction, above.number);
    signalfern_column x = signalfern_open(machine, below.number), y = signalfern_open(correction, above.number);
    return read_on(x, machine, below.number, y, correction, above.number);
}
