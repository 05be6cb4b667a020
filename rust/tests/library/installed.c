/* A program against the installed library, as C and as C++: the version, every refusal's name and
 * sentence, the smallest value, and each proved call once. Ends with the line of the first promise
 * that is broken. */
#include <inttypes.h>
#include <signalfern.h>
#include <stdio.h>
#include <string.h>

#define PROMISE(holds)                           \
    do {                                         \
        if (!(holds)) {                          \
            printf("line %d: %s\n", __LINE__, #holds); \
            return 1;                            \
        }                                        \
    } while (0)

int main(void)
{
    char version[32];
    snprintf(version, sizeof version, "%d.%d.%d", SIGNALFERN_VERSION_MAJOR, SIGNALFERN_VERSION_MINOR,
             SIGNALFERN_VERSION_PATCH);
    PROMISE(strcmp(version, SIGNALFERN_VERSION) == 0);
    PROMISE(strcmp(version, signalfern_version()) == 0);
    PROMISE(strcmp(signalfern_refusal_name(0), "NONE") == 0);
    PROMISE(strcmp(signalfern_refusal_name(5), "UNKNOWN") == 0 && strlen(signalfern_refusal_text(5)) > 0);
    PROMISE(strcmp(signalfern_refusal_name(18), "UNKNOWN") == 0);
    PROMISE(strcmp(signalfern_refusal_name(UINT64_MAX), "UNKNOWN") == 0);
    PROMISE(strlen(signalfern_refusal_text(0)) > 0 && strlen(signalfern_refusal_text(18)) > 0);

    const struct {
        uint64_t least;
        int64_t value;
    } smallest[] = {{0, 0}, {1, -1}, {2, 1}, {270, 135}, {UINT64_MAX - 1, INT64_MAX}, {UINT64_MAX, INT64_MIN}};
    for (size_t i = 0; i < sizeof smallest / sizeof smallest[0]; i++)
        PROMISE(signalfern_smallest(smallest[i].least) == smallest[i].value);

    const uint32_t ids[] = {0, 2, 7};
    const int64_t values[] = {-150, 140, 135};
    uint8_t column[64];
    signalfern_reply reply =
        signalfern_write(ids, 3, values, 3, SIGNALFERN_LUCENE, SIGNALFERN_USUAL_POWER, column, sizeof column);
    PROMISE(reply.refusal == 0);
    size_t len = reply.number;
    reply = signalfern_check(column, len);
    PROMISE(reply.refusal == 0 && reply.number == 3);
    uint32_t read_ids[3];
    int64_t read_values[3];
    reply = signalfern_read(column, len, read_ids, 3, read_values, 3);
    PROMISE(reply.refusal == 0 && reply.number == 3);
    PROMISE(memcmp(ids, read_ids, sizeof ids) == 0 && memcmp(values, read_values, sizeof values) == 0);
    signalfern_answer answer = signalfern_look_up(column, len, 2);
    PROMISE(answer.kind == SIGNALFERN_FOUND && answer.value == 140 && answer.ordinal == 1);
    signalfern_column opened = signalfern_open(column, len);
    PROMISE(opened.refusal == 0 && opened.edition == SIGNALFERN_LUCENE && opened.power == 9 && signalfern_smallest(opened.smallest) == -150);
    PROMISE(signalfern_look_up_in(opened, column, len, 3).kind == SIGNALFERN_ABSENT);
    uint64_t ordinal;
    int64_t value;
    uint8_t kind;
    signalfern_page page = signalfern_look_up_page(column, len, ids + 2, 1, &ordinal, 1, &value, 1, &kind, 1);
    PROMISE(page.refusal == 0 && page.number == 1 && page.words == 0);
    PROMISE(kind == SIGNALFERN_FOUND && ordinal == 2 && value == 135);
    signalfern_cursor cursor = {0};
    signalfern_candidate next = signalfern_next(cursor, column, len, 1);
    PROMISE(next.kind == SIGNALFERN_FOUND && next.id == 2 && next.value == 140 && next.cursor.last == 1);
    PROMISE(signalfern_next_in(opened, next.cursor, column, len, 8).kind == SIGNALFERN_NONE);
    signalfern_layered layered = signalfern_look_up_layered(NULL, 0, column, len, 7);
    PROMISE(layered.kind == SIGNALFERN_FOUND && layered.column == SIGNALFERN_CORRECTION && layered.value == 135);
    layered = signalfern_look_up_layered_in(opened, column, len, opened, column, len, 3);
    PROMISE(layered.kind == SIGNALFERN_ABSENT);
    uint8_t by;
    signalfern_layered_page both = signalfern_look_up_layered_page(NULL, 0, column, len, ids + 2, 1, &ordinal, 1, &value, 1, &kind, 1, &by, 1);
    PROMISE(both.refusal == 0 && both.number == 1 && kind == SIGNALFERN_FOUND && value == 135 && by == SIGNALFERN_CORRECTION);
    both = signalfern_look_up_layered_page_in(opened, column, len, opened, column, len, ids, 3, &ordinal, 1, &value, 1, &kind, 1, &by, 1);
    PROMISE(both.refusal == SIGNALFERN_BUFFER && both.number == 3);
    uint32_t id;
    signalfern_layered_readout pairs = signalfern_read_layered_from(column, len, column, len, 3, &id, 1, &value, 1, &by, 1);
    PROMISE(pairs.kind == SIGNALFERN_ENDED && pairs.count == 1 && id == 7 && value == 135 && by == SIGNALFERN_CORRECTION);
    pairs = signalfern_read_layered_from_in(opened, column, len, opened, column, len, 1, &id, 1, &value, 1, &by, 1);
    PROMISE(pairs.kind == SIGNALFERN_MORE && pairs.count == 1 && id == 2);
    signalfern_part part = signalfern_layered_values(NULL, 0, column, len, 7);
    PROMISE(part.column == SIGNALFERN_CORRECTION && part.start + part.len == len && part.len == opened.value_bytes);

    signalfern_judgement judged = signalfern_judge_section(column + opened.start, opened.id_bytes, opened.jump_count,
                                                           opened.power, 0);
    PROMISE(judged.kind == 0 && judged.number == 3);
    PROMISE(strcmp(signalfern_reason_name(0), "NONE") == 0 && strcmp(signalfern_reason_name(9), "UNKNOWN") == 0);
    PROMISE(strlen(signalfern_reason_text(0)) > 0 && strlen(signalfern_reason_text(UINT64_MAX)) > 0);

    reply = signalfern_write(ids, 3, values, 3, SIGNALFERN_RUNS, SIGNALFERN_USUAL_POWER, column, sizeof column);
    PROMISE(reply.refusal == 0);
    len = reply.number;
    opened = signalfern_open(column, len);
    PROMISE(opened.refusal == 0 && opened.edition == SIGNALFERN_RUNS);
    signalfern_between between = signalfern_first_between(column, len, 0, 139);
    PROMISE(between.kind == SIGNALFERN_FOUND && between.ordinal == 2);
    PROMISE(signalfern_first_between_in(opened, column, len, 141, 999).kind == SIGNALFERN_NONE);

    const uint32_t more[] = {0, 2, 7, 9};
    const int64_t few[] = {1, INT64_MIN, 0, 1};
    int64_t table[SIGNALFERN_MAX_TABLE];
    reply = signalfern_plan(few, 4, table, SIGNALFERN_MAX_TABLE);
    PROMISE(reply.refusal == 0 && reply.number == 3 && table[0] == INT64_MIN && table[1] == 0 && table[2] == 1);
    reply = signalfern_write_planned(more, 4, few, 4, table, 3, SIGNALFERN_USUAL_POWER, column, sizeof column);
    PROMISE(reply.refusal == 0 && reply.number == 52);
    PROMISE(signalfern_open(column, 52).edition == SIGNALFERN_TABLE && signalfern_look_up(column, 52, 9).value == 1);

    reply = signalfern_set_write(ids, 3, column, sizeof column);
    PROMISE(reply.refusal == 0);
    len = reply.number;
    PROMISE(signalfern_set_check(column, len).number == 3);
    PROMISE(signalfern_set_find(column, len, 7).ordinal == 2);

    printf("%s\n", signalfern_version());
    for (uint64_t refusal = 1; refusal <= 17; refusal++) {
        if (refusal == 5) /* not used */
            continue;
        printf("%" PRIu64 " %s %s\n", refusal, signalfern_refusal_name(refusal), signalfern_refusal_text(refusal));
    }
    for (uint64_t reason = 1; reason <= 8; reason++)
        printf("reason %" PRIu64 " %s %s\n", reason, signalfern_reason_name(reason), signalfern_reason_text(reason));
    return 0;
}
