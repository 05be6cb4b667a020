/* What the header promises of the boundary itself: sizes, empty arrays, fields left free, and lent
 * bytes that a refusal does not change. Ends with the line of the first promise that is broken. */
#include <stdio.h>
#include <string.h>

#include "signalfern.h"

#define PROMISE(holds)                           \
    do {                                         \
        if (!(holds)) {                          \
            printf("line %d: %s\n", __LINE__, #holds); \
            return 1;                            \
        }                                        \
    } while (0)

static int same_answer(signalfern_answer a, uint64_t kind, uint64_t ordinal, int64_t value, uint64_t words, uint64_t probes)
{
    return a.kind == kind && a.number == 0 && a.ordinal == ordinal && a.value == value && a.words == words && a.probes == probes;
}

static int same_page(signalfern_page page, uint64_t refusal, uint64_t number, uint64_t words)
{
    return page.refusal == refusal && page.number == number && page.words == words;
}

/* Ids 0 to 5000 at rank power 9, each with 7: place 600 is in the second word of its stride. */
static int pages(void)
{
    PROMISE(sizeof(signalfern_page) == 24 && offsetof(signalfern_page, words) == 16);
    static uint32_t ids[5000];
    static int64_t values[5000];
    static uint8_t bytes[1 << 14];
    for (uint32_t i = 0; i < 5000; i++) {
        ids[i] = i;
        values[i] = 7;
    }
    size_t len = signalfern_write(ids, 5000, values, 5000, SIGNALFERN_PLAIN, 9, bytes, sizeof bytes).number;
    const uint32_t asked[] = {600, SIGNALFERN_MAX_ID + 1, 6000, 600};
    uint64_t ordinals[] = {1, 2, 3, 4, 5};
    int64_t scores[] = {1, 2, 3, 4, 5};
    uint8_t kinds[] = {91, 92, 93, 94, 95};
    /* A list that is too short: nothing is written, and no byte is read. */
    PROMISE(same_page(signalfern_look_up_page(bytes, len, asked, 4, ordinals, 3, scores, 5, kinds, 5), SIGNALFERN_BUFFER, 4, 0));
    PROMISE(same_page(signalfern_look_up_page(bytes, len, asked, 4, ordinals, 5, scores, 3, kinds, 5), SIGNALFERN_BUFFER, 4, 0));
    PROMISE(same_page(signalfern_look_up_page(NULL, 0, asked, 4, ordinals, 5, scores, 5, NULL, 0), SIGNALFERN_BUFFER, 4, 0));
    PROMISE(ordinals[0] == 1 && scores[0] == 1 && kinds[0] == 91);

    PROMISE(same_page(signalfern_look_up_page(bytes, len, asked, 4, ordinals, 5, scores, 4, kinds, 5), 0, 4, 2 + 1 + 2));
    const uint64_t ordinals_then[] = {600, 0, 0, 600, 5};
    const int64_t scores_then[] = {7, 0, 0, 7, 5};
    const uint8_t kinds_then[] = {SIGNALFERN_FOUND, SIGNALFERN_ID, SIGNALFERN_ABSENT, SIGNALFERN_FOUND, 95};
    PROMISE(memcmp(ordinals, ordinals_then, sizeof ordinals) == 0);
    PROMISE(memcmp(scores, scores_then, sizeof scores) == 0);
    PROMISE(memcmp(kinds, kinds_then, sizeof kinds) == 0);

    /* No header, and no ids. */
    PROMISE(same_page(signalfern_look_up_page(NULL, 0, asked, 2, ordinals, 2, scores, 2, kinds, 2), 0, 2, 0));
    PROMISE(kinds[0] == SIGNALFERN_SHORT && kinds[1] == SIGNALFERN_ID && ordinals[0] == 0 && scores[0] == 0);
    PROMISE(same_page(signalfern_look_up_page(NULL, 0, NULL, 0, NULL, 0, NULL, 0, NULL, 0), 0, 0, 0));
    return 0;
}

static int same_readout(signalfern_readout read, uint64_t kind, uint64_t number, uint64_t count)
{
    return read.kind == kind && read.number == number && read.count == count;
}

static int same_pair(signalfern_pair pair, uint64_t kind, uint64_t number, uint64_t id, uint64_t ordinal, int64_t value)
{
    return pair.kind == kind && pair.number == number && pair.id == id && pair.ordinal == ordinal && pair.value == value;
}

/* Pairs from an id on, and by their ordinals: lists of other lengths, of none, and what a refusal leaves. */
static int walks(void)
{
    PROMISE(sizeof(signalfern_readout) == 24 && offsetof(signalfern_readout, count) == 16);
    PROMISE(sizeof(signalfern_pair) == 40 && offsetof(signalfern_pair, id) == 16 && offsetof(signalfern_pair, value) == 32);
    PROMISE(SIGNALFERN_MORE == 0 && SIGNALFERN_ENDED == 1);
    const uint32_t ids[] = {0, 2, 7}, ids_then[] = {2, 7, 93};
    const int64_t values[] = {150, 140, 135}, values_then[] = {140, 135, 93, 94};
    uint8_t bytes[64];
    size_t len = signalfern_write(ids, 3, values, 3, SIGNALFERN_PLAIN, 9, bytes, sizeof bytes).number;
    signalfern_column column = signalfern_open(bytes, len);
    uint32_t some[] = {91, 92, 93};
    int64_t scores[] = {91, 92, 93, 94};
    /* Refused, of no bytes at all and of a column that does not fit: nothing is written. */
    PROMISE(same_readout(signalfern_read_from(NULL, 0, 0, some, 3, scores, 4), SIGNALFERN_SHORT, 0, 0));
    PROMISE(same_readout(signalfern_read_from(bytes, len, SIGNALFERN_MAX_ID + 1, some, 3, scores, 4), SIGNALFERN_ID, 0, 0));
    PROMISE(same_readout(signalfern_read_from_in(column, bytes, len - 1, 0, some, 3, scores, 4), SIGNALFERN_LENGTH, 0, 0));
    PROMISE(same_pair(signalfern_pair_at(bytes, 1, 0), SIGNALFERN_SHORT, 1, 0, 0, 0));
    PROMISE(same_pair(signalfern_pair_at_in(column, bytes, len - 1, 0), SIGNALFERN_LENGTH, 0, 0, 0, 0));
    PROMISE(some[0] == 91 && scores[0] == 91);
    /* No places: whether a listed id is left. */
    PROMISE(same_readout(signalfern_read_from(bytes, len, 7, NULL, 0, NULL, 0), SIGNALFERN_MORE, 0, 0));
    PROMISE(same_readout(signalfern_read_from_in(column, bytes, len, 8, NULL, 0, scores, 4), SIGNALFERN_ENDED, 0, 0));
    PROMISE(same_readout(signalfern_read_from(bytes, len, 1, some, 3, scores, 4), SIGNALFERN_ENDED, 0, 2));
    PROMISE(memcmp(some, ids_then, sizeof some) == 0 && memcmp(scores, values_then, sizeof scores) == 0);
    PROMISE(same_readout(signalfern_read_from_in(column, bytes, len, 0, some, 3, scores, 1), SIGNALFERN_MORE, 0, 1));
    PROMISE(some[0] == 0 && some[1] == 7 && scores[0] == 150 && scores[1] == 135);
    PROMISE(same_pair(signalfern_pair_at(bytes, len, 2), SIGNALFERN_FOUND, 0, 7, 2, 135));
    PROMISE(same_pair(signalfern_pair_at_in(column, bytes, len, 1), SIGNALFERN_FOUND, 0, 2, 1, 140));
    PROMISE(same_pair(signalfern_pair_at(bytes, len, UINT64_MAX), SIGNALFERN_NONE, 0, 0, 0, 0));

    len = signalfern_write(ids, 3, values, 3, SIGNALFERN_RUNS, 9, bytes, sizeof bytes).number;
    signalfern_between found = signalfern_first_between_from(bytes, len, 1, 130, 150);
    PROMISE(found.kind == SIGNALFERN_FOUND && found.number == 0 && found.ordinal == 1);
    found = signalfern_first_between_from_in(signalfern_open(bytes, len), bytes, len, 3, 130, 150);
    PROMISE(found.kind == SIGNALFERN_NONE && found.number == 0 && found.ordinal == 0);
    return 0;
}

/* The editions: what the writer is told, and what a column of each is. Stored are 3, 1 and 0. */
static int editions(void)
{
    PROMISE(SIGNALFERN_PLAIN == 1 && SIGNALFERN_LUCENE == 2 && SIGNALFERN_RUNS == 3 && SIGNALFERN_TABLE == 4);
    const uint32_t ids[] = {0, 2, 7}, twice[] = {4, 4};
    const int64_t values[] = {150, 140, 135};
    uint8_t out[64], before[64];
    memset(out, 0x5A, sizeof out);
    memcpy(before, out, sizeof out);
    /* Any other is refused with 9, after the lengths and before the power. */
    const uint32_t none[] = {0, 5, 6, 257, UINT32_MAX};
    for (size_t i = 0; i < sizeof none / sizeof none[0]; i++) {
        signalfern_reply reply = signalfern_write(twice, 2, values, 3, none[i], 6, out, sizeof out);
        PROMISE(reply.refusal == SIGNALFERN_LENGTHS && reply.number == 0);
        reply = signalfern_write(twice, 2, values, 2, none[i], 6, out, sizeof out);
        PROMISE(reply.refusal == SIGNALFERN_EDITION && reply.number == 0);
        reply = signalfern_write(NULL, 0, NULL, 0, none[i], 9, NULL, 0);
        PROMISE(reply.refusal == SIGNALFERN_EDITION && reply.number == 0);
    }
    signalfern_reply reply = signalfern_write(twice, 2, values, 2, SIGNALFERN_LUCENE, 6, out, sizeof out);
    PROMISE(reply.refusal == SIGNALFERN_POWER && memcmp(out, before, sizeof out) == 0);
    const uint8_t last[] = {0xD0, 0x07};
    for (uint32_t edition = SIGNALFERN_PLAIN; edition <= SIGNALFERN_LUCENE; edition++) {
        reply = signalfern_write(ids, 3, values, 3, edition, 9, out, sizeof out);
        PROMISE(reply.refusal == 0 && reply.number == 27 && out[0] == edition && out[26] == last[edition - 1]);
        signalfern_column column = signalfern_open(out, 27);
        PROMISE(column.refusal == 0 && column.edition == edition && column.width == 2);
        PROMISE(same_answer(signalfern_look_up_in(column, out, 27, 2), SIGNALFERN_FOUND, 1, 140, 0, 1));
        PROMISE(signalfern_check(out, 27).number == 3);
    }
    /* The same numbers after an entry of 25 bytes; the header has neither a width nor a smallest value. */
    reply = signalfern_write(ids, 3, values, 3, SIGNALFERN_RUNS, 9, out, sizeof out);
    PROMISE(reply.refusal == 0 && reply.number == 51 && out[0] == 3 && out[25] == 135 && out[49] == 2 && out[50] == 0xD0);
    signalfern_column column = signalfern_open(out, 51);
    PROMISE(column.refusal == 0 && column.edition == SIGNALFERN_RUNS && column.width == 0 && column.smallest == 0);
    PROMISE(column.divisor == 5 && column.value_bytes == 26);
    PROMISE(same_answer(signalfern_look_up_in(column, out, 51, 2), SIGNALFERN_FOUND, 1, 140, 0, 1));
    PROMISE(signalfern_check(out, 51).number == 3);
    /* No table makes these shorter: edition 1. */
    reply = signalfern_write(ids, 3, values, 3, SIGNALFERN_TABLE, 9, out, sizeof out);
    PROMISE(reply.refusal == 0 && reply.number == 27 && out[0] == 1 && out[26] == 0xD0);
    return 0;
}

/* Plans: the bytes of a column, plain, refusals in their order, out and table that a refusal does not change. */
static int plans(void)
{
    PROMISE(SIGNALFERN_MAX_TABLE == 256 && SIGNALFERN_PLAN == 17);
    const uint32_t ids[] = {0, 2, 7, 9}, order[] = {4, 9, 9, 10}, range[] = {4, 9, 10, SIGNALFERN_MAX_ID + 1};
    const int64_t values[] = {1, INT64_MIN, 0, 1}, table[] = {INT64_MIN, 0, 1}, turned[] = {1, 0, INT64_MIN};
    uint8_t out[80], before[80];
    memset(out, 0x5A, sizeof out);
    memcpy(before, out, sizeof out);
    const struct {
        const uint32_t *ids;
        size_t values_len;
        const int64_t *table;
        size_t table_len;
        uint32_t power;
        size_t room;
        uint64_t refusal, number;
    } refused[] = {
        {order, 3, turned, 3, 6, 0, SIGNALFERN_LENGTHS, 0},
        {order, 4, turned, 3, 6, 0, SIGNALFERN_POWER, 0},
        {order, 4, turned, 3, 9, 0, SIGNALFERN_ORDER, 2},
        {range, 4, turned, 3, 9, 0, SIGNALFERN_RANGE, 3},
        {ids, 4, turned, 3, 9, 0, SIGNALFERN_PLAN, 0},
        {ids, 4, turned, 1, 9, sizeof out, SIGNALFERN_PLAN, 0},
        {ids, 4, table, 2, 9, sizeof out, SIGNALFERN_PLAN, 0},
        {ids, 4, table, 3, 9, 51, SIGNALFERN_ROOM, 52},
        {ids, 4, NULL, 0, 9, 67, SIGNALFERN_ROOM, 68},
    };
    for (size_t i = 0; i < sizeof refused / sizeof refused[0]; i++) {
        signalfern_reply reply = signalfern_write_planned(refused[i].ids, 4, values, refused[i].values_len, refused[i].table,
                                                          refused[i].table_len, refused[i].power, out, refused[i].room);
        PROMISE(reply.refusal == refused[i].refusal && reply.number == refused[i].number);
        PROMISE(memcmp(out, before, sizeof out) == 0);
    }
    signalfern_reply reply = signalfern_write_planned(ids, 4, values, 4, table, 3, 9, out, sizeof out);
    PROMISE(reply.refusal == 0 && reply.number == 52 && memcmp(out + 52, before + 52, sizeof out - 52) == 0);
    const uint8_t head[] = {4, 4, 9, 18, 0, 2, 0, 3, 25};
    PROMISE(memcmp(out, head, sizeof head) == 0 && out[34] == 0x80 && out[43] == 1 && out[51] == 0x86);
    PROMISE(signalfern_check(out, 52).number == 4);
    signalfern_column column = signalfern_open(out, 52);
    PROMISE(column.edition == SIGNALFERN_TABLE && column.width == 2 && column.smallest == 0 && column.divisor == 3);
    PROMISE(same_answer(signalfern_look_up_in(column, out, 52, 2), SIGNALFERN_FOUND, 1, INT64_MIN, 0, 2));
    PROMISE(signalfern_first_between(out, 52, 0, 1).kind == SIGNALFERN_EDITION);
    /* The code of id 7 made 3, and the table has entries 0 to 2. */
    out[51] |= 0x0C;
    PROMISE(same_answer(signalfern_look_up(out, 52, 7), SIGNALFERN_BROKEN, 0, 0, 0, 0));
    PROMISE(signalfern_check(out, 52).refusal == SIGNALFERN_DAMAGED);
    reply = signalfern_write_planned(ids, 4, values, 4, NULL, 0, 9, out, sizeof out);
    PROMISE(reply.refusal == 0 && reply.number == 68 && out[0] == SIGNALFERN_PLAIN);

    int64_t plan[SIGNALFERN_MAX_TABLE + 1];
    for (size_t i = 0; i < sizeof plan / sizeof plan[0]; i++)
        plan[i] = 77;
    reply = signalfern_plan(values, 4, plan, SIGNALFERN_MAX_TABLE - 1);
    PROMISE(reply.refusal == SIGNALFERN_BUFFER && reply.number == SIGNALFERN_MAX_TABLE && plan[0] == 77);
    reply = signalfern_plan(NULL, 0, NULL, 0);
    PROMISE(reply.refusal == SIGNALFERN_BUFFER && reply.number == SIGNALFERN_MAX_TABLE);
    reply = signalfern_plan(values, 4, plan, SIGNALFERN_MAX_TABLE + 1);
    PROMISE(reply.refusal == 0 && reply.number == 3 && memcmp(plan, table, sizeof table) == 0 && plan[3] == 77);
    /* Plain writes no entry. */
    plan[0] = 77;
    reply = signalfern_plan(values, 1, plan, SIGNALFERN_MAX_TABLE);
    PROMISE(reply.refusal == 0 && reply.number == 0 && plan[0] == 77);
    return 0;
}

static int same_between(signalfern_between b, uint64_t kind, uint64_t number, uint64_t ordinal)
{
    return b.kind == kind && b.number == number && b.ordinal == ordinal;
}

/* The first value in a range: the range's ends, fields left free, refusals with their numbers, and any column. */
static int between(void)
{
    PROMISE(sizeof(signalfern_between) == 24 && offsetof(signalfern_between, ordinal) == 16);
    PROMISE(SIGNALFERN_RUN_LENGTH == 16384);
    static uint32_t ids[SIGNALFERN_RUN_LENGTH + 2];
    static int64_t values[SIGNALFERN_RUN_LENGTH + 2];
    static uint8_t bytes[1 << 16];
    const uint32_t count = SIGNALFERN_RUN_LENGTH + 2;
    /* A run of 7, and then the smallest and the greatest value there are. */
    for (uint32_t i = 0; i < count; i++) {
        ids[i] = i;
        values[i] = i < SIGNALFERN_RUN_LENGTH ? 7 : i == SIGNALFERN_RUN_LENGTH ? INT64_MIN : INT64_MAX;
    }
    size_t len = signalfern_write(ids, count, values, count, SIGNALFERN_RUNS, 9, bytes, sizeof bytes).number;
    signalfern_column column = signalfern_open(bytes, len);
    const struct {
        int64_t low, high;
        uint64_t kind, ordinal;
    } cases[] = {
        {7, 7, SIGNALFERN_FOUND, 0},
        {INT64_MIN, INT64_MAX, SIGNALFERN_FOUND, 0},
        {INT64_MIN, 6, SIGNALFERN_FOUND, SIGNALFERN_RUN_LENGTH},
        {8, INT64_MAX, SIGNALFERN_FOUND, SIGNALFERN_RUN_LENGTH + 1},
        {8, INT64_MAX - 1, SIGNALFERN_NONE, 0},
        {8, 6, SIGNALFERN_NONE, 0},
        {INT64_MAX, INT64_MIN, SIGNALFERN_NONE, 0},
    };
    for (size_t i = 0; i < sizeof cases / sizeof cases[0]; i++) {
        signalfern_between by_bytes = signalfern_first_between(bytes, len, cases[i].low, cases[i].high);
        signalfern_between by_column = signalfern_first_between_in(column, bytes, len, cases[i].low, cases[i].high);
        PROMISE(same_between(by_bytes, cases[i].kind, 0, cases[i].ordinal));
        PROMISE(memcmp(&by_bytes, &by_column, sizeof by_bytes) == 0);
    }
    /* Before a > b: the header, and an edition that has no directory by its first number alone. */
    const uint8_t bad[] = {0x03, 0x80, 0x00}, other[] = {0x02, 0x80, 0x00};
    PROMISE(same_between(signalfern_first_between(NULL, 0, 8, 6), SIGNALFERN_SHORT, 0, 0));
    PROMISE(same_between(signalfern_first_between(bad, 2, 8, 6), SIGNALFERN_SHORT, 2, 0));
    PROMISE(same_between(signalfern_first_between(bad, 3, 8, 6), SIGNALFERN_NUMBER, 2, 0));
    PROMISE(same_between(signalfern_first_between(other, 3, 8, 6), SIGNALFERN_EDITION, 0, 0));
    PROMISE(same_between(signalfern_first_between(other, 1, 6, 8), SIGNALFERN_EDITION, 0, 0));
    PROMISE(same_between(signalfern_first_between(bytes, len - 1, 8, 6), SIGNALFERN_LENGTH, 0, 0));
    /* Of any other column: the edition, the header rules, the length. */
    PROMISE(same_between(signalfern_first_between_in(column, bytes, len - 1, 7, 7), SIGNALFERN_LENGTH, 0, 0));
    column.refusal = 7;
    column.number = 8;
    PROMISE(same_between(signalfern_first_between_in(column, bytes, len, 7, 7), SIGNALFERN_FOUND, 0, 0));
    column.width = 1;
    PROMISE(same_between(signalfern_first_between_in(column, bytes, len - 1, 7, 7), SIGNALFERN_HEADER, 0, 0));
    const uint64_t none[] = {0, SIGNALFERN_PLAIN, SIGNALFERN_LUCENE, SIGNALFERN_TABLE, 5, UINT64_MAX};
    for (size_t i = 0; i < sizeof none / sizeof none[0]; i++) {
        column.edition = none[i];
        PROMISE(same_between(signalfern_first_between_in(column, bytes, len - 1, 7, 7), SIGNALFERN_EDITION, 0, 0));
    }
    /* The second run's width, the last byte of its entry, made 65: broken where the run is read. */
    bytes[len - column.value_bytes + 49] = 65;
    PROMISE(same_between(signalfern_first_between(bytes, len, 8, 9), SIGNALFERN_BROKEN, 0, 0));
    PROMISE(same_between(signalfern_first_between(bytes, len, 7, 9), SIGNALFERN_FOUND, 0, 0));
    PROMISE(same_answer(signalfern_look_up(bytes, len, SIGNALFERN_RUN_LENGTH), SIGNALFERN_BROKEN, 0, 0, 0, 0));
    PROMISE(signalfern_check(bytes, len).refusal == SIGNALFERN_DAMAGED);
    return 0;
}

static int same_next(signalfern_candidate c, uint64_t kind, uint64_t id, uint64_t ordinal, int64_t value, uint64_t last)
{
    return c.kind == kind && c.number == 0 && c.id == id && c.ordinal == ordinal && c.value == value && c.cursor.last == last;
}

/* Ids 4 and the last that there can be, with -1 and 9: the cursor, the target and each field of the answer. */
static const struct {
    uint32_t last, target;
    uint64_t kind, id, ordinal;
    int64_t value;
    uint32_t after;
} next_cases[] = {
    {0, 0, SIGNALFERN_FOUND, 4, 0, -1, 0},
    {0, 4, SIGNALFERN_FOUND, 4, 0, -1, 4},
    {4, 4, SIGNALFERN_FOUND, 4, 0, -1, 4},
    {4, 5, SIGNALFERN_FOUND, SIGNALFERN_MAX_ID, 1, 9, 5},
    {5, 4, SIGNALFERN_BACK, 0, 0, 0, 5},
    {5, SIGNALFERN_MAX_ID, SIGNALFERN_FOUND, SIGNALFERN_MAX_ID, 1, 9, SIGNALFERN_MAX_ID},
    {5, SIGNALFERN_MAX_ID + 1, SIGNALFERN_ID, 0, 0, 0, 5},
    {UINT32_MAX, SIGNALFERN_MAX_ID, SIGNALFERN_BACK, 0, 0, 0, UINT32_MAX},
    {UINT32_MAX, UINT32_MAX, SIGNALFERN_ID, 0, 0, 0, UINT32_MAX},
};

static int next_answers(signalfern_column column, const uint8_t *bytes, size_t len)
{
    for (size_t i = 0; i < sizeof next_cases / sizeof next_cases[0]; i++) {
        signalfern_cursor cursor = {next_cases[i].last};
        signalfern_candidate by_bytes = signalfern_next(cursor, bytes, len, next_cases[i].target);
        signalfern_candidate by_column = signalfern_next_in(column, cursor, bytes, len, next_cases[i].target);
        PROMISE(same_next(by_bytes, next_cases[i].kind, next_cases[i].id, next_cases[i].ordinal, next_cases[i].value,
                          next_cases[i].after));
        PROMISE(memcmp(&by_bytes, &by_column, offsetof(signalfern_candidate, cursor)) == 0);
        PROMISE(by_column.cursor.last == next_cases[i].after);
    }
    return 0;
}

/* A refusal keeps the cursor, and BACK comes before the bytes, which may be none. */
static int next_refusals(signalfern_column column, const uint8_t *bytes, size_t len)
{
    signalfern_cursor seven = {7};
    PROMISE(same_next(signalfern_next(seven, NULL, 0, 6), SIGNALFERN_BACK, 0, 0, 0, 7));
    PROMISE(same_next(signalfern_next(seven, NULL, 0, 7), SIGNALFERN_SHORT, 0, 0, 0, 7));
    signalfern_candidate cut = signalfern_next(seven, bytes, 1, 8);
    PROMISE(cut.kind == SIGNALFERN_SHORT && cut.number == 1 && cut.id == 0 && cut.cursor.last == 7);
    /* A cursor beyond all targets. */
    const signalfern_cursor beyond = {(UINT64_C(1) << 32) + 7};
    PROMISE(same_next(signalfern_next(beyond, bytes, len, 8), SIGNALFERN_BACK, 0, 0, 0, beyond.last));
    PROMISE(same_next(signalfern_next_in(column, beyond, bytes, len, 8), SIGNALFERN_BACK, 0, 0, 0, beyond.last));
    /* Of any other column: the header rules, an edition that is none among them, then the length. */
    PROMISE(same_next(signalfern_next_in(column, seven, bytes, len - 1, 8), SIGNALFERN_LENGTH, 0, 0, 0, 7));
    column.edition = 5;
    PROMISE(same_next(signalfern_next_in(column, seven, bytes, len - 1, 8), SIGNALFERN_HEADER, 0, 0, 0, 7));
    PROMISE(same_next(signalfern_next_in(column, seven, bytes, len, 6), SIGNALFERN_BACK, 0, 0, 0, 7));
    PROMISE(same_next(signalfern_next_in(column, seven, bytes, len, SIGNALFERN_MAX_ID + 1), SIGNALFERN_ID, 0, 0, 0, 7));
    return 0;
}

static int same_member(signalfern_member m, uint64_t kind, uint64_t number, uint64_t ordinal)
{
    return m.kind == kind && m.number == number && m.ordinal == ordinal;
}

/* Ids without values: exact bytes, refusals with their numbers, fields left free, and bytes that a refusal does not change. */
static int sets(void)
{
    PROMISE(sizeof(signalfern_member) == 24);
    const uint32_t ids[] = {4, 9, SIGNALFERN_MAX_ID, SIGNALFERN_MAX_ID + 1, 7};
    const uint8_t two[] = {1, 0, 0, 2, 4, 0, 9, 0};
    uint8_t out[16], before[16];
    memset(out, 0x5A, sizeof out);
    memcpy(before, out, sizeof out);
    signalfern_reply reply = signalfern_set_write(ids + 2, 3, out, sizeof out);
    PROMISE(reply.refusal == SIGNALFERN_ORDER && reply.number == 2);
    reply = signalfern_set_write(ids, 4, out, sizeof out);
    PROMISE(reply.refusal == SIGNALFERN_RANGE && reply.number == 3);
    reply = signalfern_set_write(ids, 2, out, sizeof two - 1);
    PROMISE(reply.refusal == SIGNALFERN_ROOM && reply.number == sizeof two);
    PROMISE(memcmp(out, before, sizeof out) == 0);
    reply = signalfern_set_write(ids, 2, out, sizeof out);
    PROMISE(reply.refusal == 0 && reply.number == sizeof two && memcmp(out, two, sizeof two) == 0);
    PROMISE(memcmp(out + sizeof two, before + sizeof two, sizeof out - sizeof two) == 0);
    reply = signalfern_set_check(out, sizeof two);
    PROMISE(reply.refusal == 0 && reply.number == 2);
    PROMISE(same_member(signalfern_set_find(out, sizeof two, 9), SIGNALFERN_FOUND, 0, 1));
    PROMISE(same_member(signalfern_set_find(out, sizeof two, 5), SIGNALFERN_ABSENT, 0, 0));
    PROMISE(same_member(signalfern_set_find(NULL, 0, SIGNALFERN_MAX_ID + 1), SIGNALFERN_ID, 0, 0));
    PROMISE(same_member(signalfern_set_find(NULL, 0, SIGNALFERN_MAX_ID), SIGNALFERN_SHORT, 0, 0));
    PROMISE(same_member(signalfern_set_find(out, 2, 9), SIGNALFERN_SHORT, 2, 0));
    PROMISE(same_member(signalfern_set_find(out, sizeof two + 1, 9), SIGNALFERN_DAMAGED, 0, 0));
    const uint8_t padded[] = {1, 0x80, 0};
    PROMISE(same_member(signalfern_set_find(padded, 3, 9), SIGNALFERN_NUMBER, 2, 0));
    reply = signalfern_set_write(NULL, 0, out, 1);
    PROMISE(reply.refusal == 0 && reply.number == 1 && out[0] == 0);
    return 0;
}

static int same_judgement(signalfern_judgement j, uint64_t kind, uint64_t number, uint64_t place, uint64_t reason)
{
    return j.kind == kind && j.number == number && j.place == place && j.reason == reason;
}

/* Bare id sections in both byte orders: every field in every case, and any number for jump_count, power and high_first. */
static int sections(void)
{
    PROMISE(sizeof(signalfern_judgement) == 32);
    const uint8_t low[] = {0, 0, 1, 0, 2, 0, 7, 0, 0xFF, 0x7F, 0, 0, 0xFF, 0xFF, 9};
    const uint8_t high[] = {0, 0, 0, 1, 0, 2, 0, 7, 0x7F, 0xFF, 0, 0, 0xFF, 0xFF};
    PROMISE(same_judgement(signalfern_judge_section(low, 14, 0, 9, 0), 0, 2, 0, 0));
    PROMISE(same_judgement(signalfern_judge_section(high, 14, 0, 9, 1), 0, 2, 0, 0));
    PROMISE(same_judgement(signalfern_judge_section(high, 14, 0, 0, UINT32_MAX), 0, 2, 0, 0));
    PROMISE(same_judgement(signalfern_judge_section(low, 15, 0, 9, 0), 1, 0, 14, SIGNALFERN_LEFT_OVER));
    PROMISE(same_judgement(signalfern_judge_section(low, 14, 3, 9, 0), 1, 0, 14, SIGNALFERN_JUMPS));
    PROMISE(same_judgement(signalfern_judge_section(low, 10, 0, 9, 0), 1, 0, 8, SIGNALFERN_CUT_OFF));
    PROMISE(same_judgement(signalfern_judge_section(NULL, 0, 0, 9, 0), 1, 0, 0, SIGNALFERN_CUT_OFF));
    PROMISE(same_judgement(signalfern_judge_section(low, 14, 32768, 9, 0), SIGNALFERN_HEADER, 0, 0, 0));
    PROMISE(same_judgement(signalfern_judge_section(low, 14, UINT64_MAX, 9, 0), SIGNALFERN_HEADER, 0, 0, 0));
    PROMISE(same_judgement(signalfern_judge_section(low, 14, 0, 6, 0), SIGNALFERN_HEADER, 0, 0, 0));
    PROMISE(same_judgement(signalfern_judge_section(low, 14, 0, UINT64_MAX, 0), SIGNALFERN_HEADER, 0, 0, 0));
    return 0;
}

static int next_candidates(void)
{
    PROMISE(sizeof(signalfern_cursor) == 8);
    PROMISE(sizeof(signalfern_candidate) == 48 && offsetof(signalfern_candidate, cursor) == 40);
    const uint32_t ids[] = {4, SIGNALFERN_MAX_ID};
    const int64_t values[] = {-1, 9};
    static uint8_t bytes[1 << 19];
    signalfern_reply reply = signalfern_write(ids, 2, values, 2, SIGNALFERN_PLAIN, 0, bytes, sizeof bytes);
    PROMISE(reply.refusal == 0);
    signalfern_column column = signalfern_open(bytes, reply.number);
    if (next_answers(column, bytes, reply.number) || next_refusals(column, bytes, reply.number))
        return 1;
    /* None is an answer. */
    reply = signalfern_write(ids, 1, values, 1, SIGNALFERN_PLAIN, 0, bytes, sizeof bytes);
    PROMISE(reply.refusal == 0);
    signalfern_cursor seven = {7};
    PROMISE(same_next(signalfern_next(seven, bytes, reply.number, 9), SIGNALFERN_NONE, 0, 0, 0, 9));
    return 0;
}

static int same_layered(signalfern_layered a, uint64_t kind, uint64_t column, uint64_t ordinal, int64_t value)
{
    return a.kind == kind && a.number == 0 && a.column == column && a.ordinal == ordinal && a.value == value &&
           a.machine_words == 0 && a.correction_words == 0;
}

static int same_part(signalfern_part part, uint64_t column, uint64_t start, uint64_t len)
{
    return part.column == column && part.start == start && part.len == len;
}

/* Each call writes its whole answer, whatever stood there: found, absent or none, and refused. */
#define WRITES(type, ...)                                    \
    do {                                                     \
        type one, other;                                     \
        type *answer = &one;                                 \
        memset(&one, 0x5A, sizeof one);                      \
        memset(&other, 0xA5, sizeof other);                  \
        __VA_ARGS__;                                         \
        answer = &other;                                     \
        __VA_ARGS__;                                         \
        PROMISE(memcmp(&one, &other, sizeof one) == 0);      \
    } while (0)

static int whole_answers(void)
{
    const uint32_t ids[] = {4, 6};
    const int64_t values[] = {10, 12};
    uint32_t read_ids[2];
    int64_t read_values[2], table[256];
    uint64_t ordinals[2];
    uint8_t kinds[2], bytes[64], set[16], out[64];
    const uint8_t section[] = {0, 0, 1, 0, 2, 0, 7, 0, 0xFF, 0x7F, 0, 0, 0xFF, 0xFF};
    size_t len = signalfern_write(ids, 2, values, 2, SIGNALFERN_RUNS, 9, bytes, sizeof bytes).number;
    size_t set_len = signalfern_set_write(ids, 2, set, sizeof set).number;
    signalfern_column column = signalfern_open(bytes, len);
    PROMISE(column.refusal == 0 && set_len < sizeof set);
    for (size_t n = 0; n < 2; n++) {
        /* With all the bytes or one less; the second id asked for is absent. */
        WRITES(signalfern_reply, signalfern_write_to(ids, 2, values, 2, SIGNALFERN_RUNS, 9, bytes, len - n, answer));
        WRITES(signalfern_reply, signalfern_write_planned_to(ids, 2, values, 2, NULL, 0, 9, out, n * sizeof out, answer));
        WRITES(signalfern_reply, signalfern_plan_to(values, 2, table, 256 - n, answer));
        WRITES(signalfern_reply, signalfern_check_to(bytes, len - n, answer));
        WRITES(signalfern_reply, signalfern_read_to(bytes, len, read_ids, 2 - n, read_values, 2, answer));
        WRITES(signalfern_column, signalfern_open_to(bytes, len - n, answer));
        WRITES(signalfern_page, signalfern_look_up_page_to(bytes, len, ids, 2, ordinals, 2 - n, table, 2, kinds, 2, answer));
        WRITES(signalfern_reply, signalfern_set_write_to(ids, 2, set, set_len - n, answer));
        WRITES(signalfern_reply, signalfern_set_check_to(set, set_len - n, answer));
        WRITES(signalfern_judgement, signalfern_judge_section_to(section, 14 - n, 0, 9, 0, answer));
        WRITES(signalfern_judgement, signalfern_judge_section_to(section, 14, 0, 6, 0, answer));
        for (uint32_t id = 6; id < 8; id++) {
            WRITES(signalfern_answer, signalfern_look_up_to(bytes, len - n, id, answer));
            WRITES(signalfern_answer, signalfern_look_up_in_to(&column, bytes, len - n, id, answer));
            WRITES(signalfern_candidate, signalfern_next_to(5, bytes, len - n, id, answer));
            WRITES(signalfern_candidate, signalfern_next_in_to(&column, 5, bytes, len - n, id, answer));
            WRITES(signalfern_between, signalfern_first_between_to(bytes, len - n, 2 * id, 99, answer));
            WRITES(signalfern_between, signalfern_first_between_in_to(&column, bytes, len - n, 2 * id, 99, answer));
            WRITES(signalfern_layered, signalfern_look_up_layered_to(bytes, len - n, bytes, len, id, answer));
            WRITES(signalfern_layered, signalfern_look_up_layered_in_to(&column, bytes, len, &column, bytes, len - n, id, answer));
            WRITES(signalfern_part, signalfern_layered_values_to(bytes, len - n, bytes, len, id, answer));
            uint32_t place;
            uint64_t ordinal;
            int64_t score;
            uint8_t kind, by;
            WRITES(signalfern_layered_page, signalfern_look_up_layered_page_to(bytes, len - n, bytes, len, &id, 1, &ordinal, 1, &score, 1,
                   &kind, n, &by, 1, answer));
            WRITES(signalfern_layered_page, signalfern_look_up_layered_page_in_to(&column, bytes, len, &column, bytes, len - n, &id, 1,
                   &ordinal, n, &score, 1, &kind, 1, &by, 1, answer));
            WRITES(signalfern_layered_readout, signalfern_read_layered_from_to(bytes, len - n, bytes, len, id, &place, 1, &score, n, &by, 1, answer));
            WRITES(signalfern_layered_readout, signalfern_read_layered_from_in_to(&column, bytes, len, &column, bytes, len - n, id, &place,
                   n, &score, 1, &by, 1, answer));
            WRITES(signalfern_member, signalfern_set_find_to(set, set_len - n, id, answer));
        }
    }
    return 0;
}

/* A machine column of (4, 10), (6, 12), and a correction of (6, -3), (8, 5) at another rank power. */
static size_t layers(uint8_t *machine, uint8_t *correction, size_t room, size_t *correction_len)
{
    const uint32_t ids[] = {4, 6, 8};
    const int64_t scores[] = {10, 12}, corrected[] = {-3, 5};
    *correction_len = signalfern_write(ids + 1, 2, corrected, 2, SIGNALFERN_PLAIN, 0, correction, room).number;
    return signalfern_write(ids, 2, scores, 2, SIGNALFERN_PLAIN, 9, machine, room).number;
}

static int corrections(void)
{
    PROMISE(sizeof(signalfern_layered) == 56 && offsetof(signalfern_layered, correction_words) == 48);
    PROMISE(sizeof(signalfern_part) == 24 && offsetof(signalfern_part, len) == 16);
    uint8_t m[64], c[64];
    size_t c_len, m_len = layers(m, c, sizeof m, &c_len);
    const struct {
        uint32_t id;
        uint64_t kind, column, ordinal;
        int64_t value;
    } cases[] = {
        {4, SIGNALFERN_FOUND, SIGNALFERN_MACHINE, 0, 10},
        {5, SIGNALFERN_ABSENT, 0, 0, 0},
        {6, SIGNALFERN_FOUND, SIGNALFERN_CORRECTION, 0, -3},
        {8, SIGNALFERN_FOUND, SIGNALFERN_CORRECTION, 1, 5},
        {SIGNALFERN_MAX_ID + 1, SIGNALFERN_ID, SIGNALFERN_CORRECTION, 0, 0},
    };
    signalfern_column x = signalfern_open(m, m_len), y = signalfern_open(c, c_len);
    for (size_t i = 0; i < sizeof cases / sizeof cases[0]; i++) {
        signalfern_layered answer = signalfern_look_up_layered(m, m_len, c, c_len, cases[i].id);
        PROMISE(same_layered(answer, cases[i].kind, cases[i].column, cases[i].ordinal, cases[i].value));
        signalfern_layered opened = signalfern_look_up_layered_in(x, m, m_len, y, c, c_len, cases[i].id);
        PROMISE(memcmp(&answer, &opened, sizeof answer) == 0);
    }
    /* The value sections are the last byte of each column: two numbers of one bit. */
    PROMISE(same_part(signalfern_layered_values(m, m_len, c, c_len, 4), SIGNALFERN_MACHINE, m_len - 1, 1));
    PROMISE(same_part(signalfern_layered_values(m, m_len, c, c_len, 6), SIGNALFERN_CORRECTION, c_len - 1, 1));
    PROMISE(same_part(signalfern_layered_values(m, m_len, c, c_len, 5), SIGNALFERN_MACHINE, 0, 0));
    return 0;
}

static int same_layered_page(signalfern_layered_page page, uint64_t refusal, uint64_t number)
{
    return page.refusal == refusal && page.number == number && page.machine_words == 0 && page.correction_words == 0;
}

static int same_layered_readout(signalfern_layered_readout r, uint64_t kind, uint64_t column, uint64_t count)
{
    return r.kind == kind && r.number == 0 && r.column == column && r.count == count;
}

/* Many ids at once, and pairs from an id on. */
static int corrections_at_once(void)
{
    PROMISE(sizeof(signalfern_layered_page) == 32 && offsetof(signalfern_layered_page, correction_words) == 24);
    PROMISE(sizeof(signalfern_layered_readout) == 32 && offsetof(signalfern_layered_readout, count) == 24);
    uint8_t m[64], c[64];
    size_t c_len, m_len = layers(m, c, sizeof m, &c_len);
    signalfern_column x = signalfern_open(m, m_len), y = signalfern_open(c, c_len);
    const uint32_t asked[] = {8, 5, 6, 4, SIGNALFERN_MAX_ID + 1};
    uint64_t ordinals[6] = {91, 91, 91, 91, 91, 91};
    int64_t scores[6] = {91, 91, 91, 91, 91, 91};
    uint8_t kinds[6] = {91, 91, 91, 91, 91, 91}, columns[6] = {91, 91, 91, 91, 91, 91};
    /* A list too short: nothing is written, and no byte read. */
    PROMISE(same_layered_page(signalfern_look_up_layered_page(NULL, 0, NULL, 0, asked, 5, ordinals, 6, scores, 6, kinds, 6, columns, 4), SIGNALFERN_BUFFER, 5));
    PROMISE(same_layered_page(signalfern_look_up_layered_page_in(x, m, m_len, y, c, c_len, asked, 5, ordinals, 4, scores, 6, kinds, 6,
            columns, 6), SIGNALFERN_BUFFER, 5));
    PROMISE(ordinals[0] == 91 && scores[0] == 91 && kinds[0] == 91 && columns[0] == 91);
    PROMISE(same_layered_page(signalfern_look_up_layered_page(NULL, 0, NULL, 0, NULL, 0, NULL, 0, NULL, 0, NULL, 0, NULL, 0), 0, 0));
    PROMISE(same_layered_page(signalfern_look_up_layered_page(m, m_len, c, c_len, asked, 5, ordinals, 6, scores, 6, kinds, 6, columns, 6), 0, 5));
    const uint64_t its_ordinals[] = {1, 0, 0, 0, 0, 91};
    const int64_t its_scores[] = {5, 0, -3, 10, 0, 91};
    const uint8_t its_kinds[] = {0, 1, 0, 0, 14, 91}, its_columns[] = {1, 0, 1, 0, 1, 91};
    PROMISE(memcmp(ordinals, its_ordinals, sizeof ordinals) == 0 && memcmp(scores, its_scores, sizeof scores) == 0);
    PROMISE(memcmp(kinds, its_kinds, sizeof kinds) == 0 && memcmp(columns, its_columns, sizeof columns) == 0);
    /* The machine column is not read where the correction holds each id. */
    PROMISE(same_layered_page(signalfern_look_up_layered_page_in(x, NULL, 0, y, c, c_len, asked + 2, 1, ordinals, 6, scores, 6, kinds, 6, columns, 6), 0, 1));
    PROMISE(kinds[0] == SIGNALFERN_FOUND && columns[0] == SIGNALFERN_CORRECTION && scores[0] == -3);

    uint32_t ids[4] = {91, 91, 91, 91};
    scores[0] = columns[0] = 91;
    PROMISE(same_layered_readout(signalfern_read_layered_from(m, m_len, c, c_len, SIGNALFERN_MAX_ID + 1, ids, 4, scores, 4, columns, 4),
            SIGNALFERN_ID, SIGNALFERN_CORRECTION, 0));
    PROMISE(same_layered_readout(signalfern_read_layered_from(NULL, 0, c, c_len, 6, ids, 4, scores, 4, columns, 4), SIGNALFERN_SHORT, SIGNALFERN_MACHINE, 0));
    PROMISE(same_layered_readout(signalfern_read_layered_from_in(x, m, m_len, y, c, c_len - 1, 4, ids, 4, scores, 4, columns, 4),
            SIGNALFERN_LENGTH, SIGNALFERN_CORRECTION, 0));
    PROMISE(ids[0] == 91 && scores[0] == 91 && columns[0] == 91);
    /* No places: whether a listed id is left. */
    PROMISE(same_layered_readout(signalfern_read_layered_from(m, m_len, c, c_len, 8, NULL, 0, NULL, 0, NULL, 0), SIGNALFERN_MORE, 0, 0));
    PROMISE(same_layered_readout(signalfern_read_layered_from_in(x, m, m_len, y, c, c_len, 9, ids, 4, scores, 4, NULL, 0), SIGNALFERN_ENDED, 0, 0));
    PROMISE(same_layered_readout(signalfern_read_layered_from(m, m_len, c, c_len, 0, ids, 4, scores, 4, columns, 2), SIGNALFERN_MORE, 0, 2));
    PROMISE(ids[0] == 4 && scores[0] == 10 && columns[0] == 0 && ids[1] == 6 && scores[1] == -3 && columns[1] == 1);
    PROMISE(ids[2] == 91 && columns[2] == its_columns[2]);
    PROMISE(same_layered_readout(signalfern_read_layered_from_in(x, m, m_len, y, c, c_len, 7, ids, 4, scores, 4, columns, 4), SIGNALFERN_ENDED, 0, 1));
    PROMISE(ids[0] == 8 && scores[0] == 5 && columns[0] == 1 && ids[1] == 6);
    return 0;
}

/* Which column refused; and a machine column that is not read. */
static int refused_columns(void)
{
    uint8_t m[64], c[64];
    size_t c_len, m_len = layers(m, c, sizeof m, &c_len);
    PROMISE(same_layered(signalfern_look_up_layered(NULL, 0, c, c_len, 6), SIGNALFERN_FOUND, SIGNALFERN_CORRECTION, 0, -3));
    PROMISE(same_layered(signalfern_look_up_layered(NULL, 0, c, c_len, 4), SIGNALFERN_SHORT, SIGNALFERN_MACHINE, 0, 0));
    PROMISE(same_layered(signalfern_look_up_layered(m, m_len, NULL, 0, 4), SIGNALFERN_SHORT, SIGNALFERN_CORRECTION, 0, 0));
    signalfern_layered cut = signalfern_look_up_layered(m, m_len, c, 2, 4);
    PROMISE(cut.kind == SIGNALFERN_SHORT && cut.number == 2 && cut.column == SIGNALFERN_CORRECTION);
    PROMISE(same_part(signalfern_layered_values(m, m_len, NULL, 0, 4), SIGNALFERN_MACHINE, 0, 0));
    PROMISE(same_part(signalfern_layered_values(NULL, 0, c, c_len, 4), SIGNALFERN_MACHINE, 0, 0));
    PROMISE(same_part(signalfern_layered_values(NULL, 0, c, c_len, 6), SIGNALFERN_CORRECTION, c_len - 1, 1));

    signalfern_column x = signalfern_open(m, m_len), y = signalfern_open(c, c_len);
    x.edition = 5;
    PROMISE(same_layered(signalfern_look_up_layered_in(x, m, 0, y, c, c_len, 6), SIGNALFERN_FOUND, SIGNALFERN_CORRECTION, 0, -3));
    PROMISE(same_layered(signalfern_look_up_layered_in(x, m, 0, y, c, c_len, 4), SIGNALFERN_HEADER, SIGNALFERN_MACHINE, 0, 0));
    y.edition = 0;
    PROMISE(same_layered(signalfern_look_up_layered_in(x, m, 0, y, c, 0, 6), SIGNALFERN_HEADER, SIGNALFERN_CORRECTION, 0, 0));
    y.edition = 1;
    PROMISE(same_layered(signalfern_look_up_layered_in(x, m, 0, y, c, 0, 6), SIGNALFERN_LENGTH, SIGNALFERN_CORRECTION, 0, 0));
    return 0;
}

int main(void)
{
    PROMISE(sizeof(signalfern_reply) == 16);
    PROMISE(sizeof(signalfern_answer) == 48 && offsetof(signalfern_answer, probes) == 40);
    PROMISE(sizeof(signalfern_column) == 96);

    /* Empty arrays may be NULL. */
    signalfern_reply reply = signalfern_write(NULL, 0, NULL, 0, SIGNALFERN_PLAIN, 9, NULL, 0);
    PROMISE(reply.refusal == SIGNALFERN_ROOM && reply.number == 23);
    uint8_t empty[24];
    memset(empty, 0xAA, sizeof empty);
    reply = signalfern_write(NULL, 0, NULL, 0, SIGNALFERN_PLAIN, 9, empty, sizeof empty);
    PROMISE(reply.refusal == 0 && reply.number == 23 && empty[23] == 0xAA);
    reply = signalfern_read(empty, 23, NULL, 0, NULL, 0);
    PROMISE(reply.refusal == 0 && reply.number == 0);
    reply = signalfern_check(NULL, 0);
    PROMISE(reply.refusal == SIGNALFERN_SHORT && reply.number == 0);
    PROMISE(same_answer(signalfern_look_up(NULL, 0, 0), SIGNALFERN_SHORT, 0, 0, 0, 0));

    /* Where the header broke: the byte count, or the place of the byte that decided it. Each call tells it. */
    const uint8_t bad[] = {0x01, 0x80, 0x00, 0x09};
    for (size_t i = 1; i <= sizeof bad; i++) {
        uint64_t refusal = i < 3 ? SIGNALFERN_SHORT : SIGNALFERN_NUMBER;
        uint64_t number = i < 3 ? i : 2;
        reply = signalfern_check(bad, i);
        PROMISE(reply.refusal == refusal && reply.number == number);
        reply = signalfern_read(bad, i, NULL, 0, NULL, 0);
        PROMISE(reply.refusal == refusal && reply.number == number);
        signalfern_column opened = signalfern_open(bad, i);
        PROMISE(opened.refusal == refusal && opened.number == number && opened.edition == 0);
        signalfern_answer answer = signalfern_look_up(bad, i, 7);
        PROMISE(answer.kind == refusal && answer.number == number);
        PROMISE(answer.ordinal == 0 && answer.value == 0 && answer.words == 0);
    }

    /* Refusals, with the number that comes with them. */
    const uint32_t ids[] = {4, 4, SIGNALFERN_MAX_ID + 1};
    const int64_t values[] = {-1, 5, 9};
    uint8_t out[64], before[64];
    memset(out, 0x5A, sizeof out);
    memcpy(before, out, sizeof out);
    reply = signalfern_write(ids, 2, values, 3, SIGNALFERN_PLAIN, 9, out, sizeof out);
    PROMISE(reply.refusal == SIGNALFERN_LENGTHS && reply.number == 0);
    reply = signalfern_write(ids, 2, values, 2, SIGNALFERN_PLAIN, 6, out, sizeof out);
    PROMISE(reply.refusal == SIGNALFERN_POWER && reply.number == 0);
    reply = signalfern_write(ids, 2, values, 2, SIGNALFERN_PLAIN, 9, out, sizeof out);
    PROMISE(reply.refusal == SIGNALFERN_ORDER && reply.number == 1);
    reply = signalfern_write(ids + 1, 2, values, 2, SIGNALFERN_PLAIN, 9, out, sizeof out);
    PROMISE(reply.refusal == SIGNALFERN_RANGE && reply.number == 1);
    PROMISE(memcmp(out, before, sizeof out) == 0);

    /* A column, opened and not. */
    reply = signalfern_write(ids, 1, values, 1, SIGNALFERN_PLAIN, 0, out, sizeof out);
    PROMISE(reply.refusal == 0);
    size_t len = reply.number;
    signalfern_column column = signalfern_open(out, len);
    PROMISE(column.refusal == 0 && column.number == 0);
    PROMISE(column.edition == 1 && column.count == 1 && column.power == 0);
    PROMISE(column.id_bytes == 12 && column.jump_count == 0 && column.width == 0 && column.smallest == 1);
    PROMISE(column.divisor == 1 && column.value_bytes == 0 && column.start == 9);
    PROMISE(same_answer(signalfern_look_up(out, len, 4), SIGNALFERN_FOUND, 0, -1, 0, 1));
    PROMISE(same_answer(signalfern_look_up_in(column, out, len, 4), SIGNALFERN_FOUND, 0, -1, 0, 1));
    PROMISE(same_answer(signalfern_look_up_in(column, out, len, 5), SIGNALFERN_ABSENT, 0, 0, 0, 1));
    PROMISE(same_answer(signalfern_look_up_in(column, out, len - 1, 5), SIGNALFERN_LENGTH, 0, 0, 0, 0));
    PROMISE(same_answer(signalfern_look_up(out, len, SIGNALFERN_MAX_ID + 1), SIGNALFERN_ID, 0, 0, 0, 0));
    column.refusal = 7;
    column.number = 8;
    PROMISE(same_answer(signalfern_look_up_in(column, out, len, 4), SIGNALFERN_FOUND, 0, -1, 0, 1));
    uint32_t read_id = 77;
    int64_t read_value = 78;
    reply = signalfern_read(out, len, &read_id, 1, &read_value, 0);
    PROMISE(reply.refusal == SIGNALFERN_BUFFER && reply.number == 1 && read_id == 77);

    /* A column opened from other bytes, or changed: after the id its numbers are held to the header rules and to these bytes. */
    column = signalfern_open(empty, 23);
    PROMISE(column.refusal == 0 && column.count == 0);
    PROMISE(same_answer(signalfern_look_up_in(column, out, len, 4), SIGNALFERN_LENGTH, 0, 0, 0, 0));
    PROMISE(same_answer(signalfern_look_up_in(column, out, len, SIGNALFERN_MAX_ID + 1), SIGNALFERN_ID, 0, 0, 0, 0));
    column = signalfern_open(out, len);
    column.power = 6;
    PROMISE(same_answer(signalfern_look_up_in(column, out, len, 4), SIGNALFERN_HEADER, 0, 0, 0, 0));
    PROMISE(same_answer(signalfern_look_up_in(column, out, len, SIGNALFERN_MAX_ID + 1), SIGNALFERN_ID, 0, 0, 0, 0));
    column.power = 7;
    PROMISE(same_answer(signalfern_look_up_in(column, out, len, 4), SIGNALFERN_FOUND, 0, -1, 0, 1));
    /* An edition that is none: a header rule, after the id and before the length. */
    const uint64_t none[] = {0, 5, 6, 257, UINT64_MAX};
    for (size_t i = 0; i < sizeof none / sizeof none[0]; i++) {
        column.edition = none[i];
        PROMISE(same_answer(signalfern_look_up_in(column, out, len, 4), SIGNALFERN_HEADER, 0, 0, 0, 0));
        PROMISE(same_answer(signalfern_look_up_in(column, out, len - 1, 4), SIGNALFERN_HEADER, 0, 0, 0, 0));
        PROMISE(same_answer(signalfern_look_up_in(column, out, len, SIGNALFERN_MAX_ID + 1), SIGNALFERN_ID, 0, 0, 0, 0));
    }

    /* A refused opening holds 0 in all fields of the column, and a look-up in it is refused. */
    column = signalfern_open(out, len - 1);
    signalfern_column refused;
    memset(&refused, 0, sizeof refused);
    refused.refusal = SIGNALFERN_LENGTH;
    PROMISE(memcmp(&column, &refused, sizeof column) == 0);
    PROMISE(same_answer(signalfern_look_up_in(column, out, len, 4), SIGNALFERN_HEADER, 0, 0, 0, 0));
    return editions() || plans() || pages() || walks() || next_candidates() || between() || corrections() || corrections_at_once() ||
           refused_columns() || sets() || sections() || whole_answers();
}
