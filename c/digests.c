/*
 * Digests of all answers, to hold two builds of the library against each other: the same library for
 * another processor prints the same lines. It writes columns of every edition and rank power, and asks
 * them everything, sound and damaged; a line has the edition, the rank power, how many calls were made
 * and a digest of all that they answered and wrote.
 *
 *     cc c/digests.c c/names.c libsignalfern_c.a -Iinclude -o digests && ./digests
 */
#include <inttypes.h>
#include <signalfern.h>
#include <stdio.h>
#include <stdlib.h>
#include <string.h>

enum { FULL = 65536, PAIRS = FULL + 14000, BYTES = 1000000, PAGE = 64, DAMAGED = 6, ROOM = 70 };

static uint32_t ids[PAIRS], back_ids[PAIRS], page_ids[PAGE];
static int64_t values[PAIRS], back_values[PAIRS], page_values[PAGE], table[SIGNALFERN_MAX_TABLE];
static uint64_t ordinals[PAGE];
static uint8_t column[BYTES], correction[BYTES], set[BYTES], kinds[PAGE], columns[PAIRS];

static uint64_t digest, calls, state = 20261117;

/* The digest is FNV-1a's, of 64 bits, over words. */
static void take(uint64_t word)
{
    digest = (digest ^ word) * 1099511628211u;
}

static void take_bytes(const uint8_t *bytes, size_t len)
{
    for (size_t i = 0; i < len; i++)
        take(bytes[i]);
}

/* Numbers that depend on nothing but how many were taken before: Marsaglia's xorshift. (One a statement: C does
 * not say in which order the parts of an expression are worked out.) */
static uint64_t any(uint64_t below)
{
    state ^= state << 13;
    state ^= state >> 7;
    state ^= state << 17;
    return state % below;
}

static signalfern_reply taken(signalfern_reply reply)
{
    calls++;
    take(reply.refusal);
    take(reply.number);
    return reply;
}

static void take_answer(signalfern_answer a)
{
    calls++;
    take(a.kind), take(a.number), take(a.ordinal), take((uint64_t)a.value), take(a.words), take(a.probes);
}

static void take_candidate(signalfern_candidate c)
{
    calls++;
    take(c.kind), take(c.number), take(c.id), take(c.ordinal), take((uint64_t)c.value), take(c.cursor.last);
}

/* The answer, and every place of both lists, written or not. */
static void take_readout(signalfern_readout r, size_t ids_len, size_t values_len)
{
    calls++;
    take(r.kind), take(r.number), take(r.count);
    for (size_t i = 0; i < ids_len; i++)
        take(back_ids[i]);
    for (size_t i = 0; i < values_len; i++)
        take((uint64_t)back_values[i]);
}

static void take_pair(signalfern_pair p)
{
    calls++;
    take(p.kind), take(p.number), take(p.id), take(p.ordinal), take((uint64_t)p.value);
}

static void take_between(signalfern_between b)
{
    calls++;
    take(b.kind), take(b.number), take(b.ordinal);
}

static void take_layered(signalfern_layered l)
{
    calls++;
    take(l.kind), take(l.number), take(l.column), take(l.ordinal), take((uint64_t)l.value);
    take(l.machine_words), take(l.correction_words);
}

static void take_judgement(signalfern_judgement j)
{
    calls++;
    take(j.kind), take(j.number), take(j.place), take(j.reason);
}

static signalfern_column opened(const uint8_t *bytes, size_t len)
{
    signalfern_column c = signalfern_open(bytes, len);
    calls++;
    take(c.refusal), take(c.number), take(c.edition), take(c.count), take(c.power), take(c.id_bytes);
    take(c.jump_count), take(c.width), take(c.smallest), take(c.divisor), take(c.value_bytes), take(c.start);
    return c;
}

/* Values near each other, any at all, or of a few. */
static int64_t make_value(uint64_t kind)
{
    switch (kind) {
    case 0: return (int64_t)(any(1000) * 7) - 3000;
    case 1: return (int64_t)any(UINT64_MAX);
    default: return (int64_t)any(5) << 40;
    }
}

/* Ids of a full block now and then, of dense blocks and of sparse ones. */
static size_t make_pairs(uint64_t kind)
{
    size_t n = 0, full = any(2) * FULL;
    for (uint64_t id = 0; n < full + PAIRS - FULL && id <= SIGNALFERN_MAX_ID; n++) {
        ids[n] = (uint32_t)id;
        values[n] = make_value(kind);
        id += n < full ? 1 : n < full + 9000 ? 1 + any(13) : 1 + any(200000);
    }
    return n;
}

static void ask_ids(const uint8_t *bytes, size_t len, signalfern_column c)
{
    for (size_t i = 0; i < PAGE; i++) {
        page_ids[i] = i % 3 ? ids[any(PAIRS)] : (uint32_t)any((uint64_t)SIGNALFERN_MAX_ID + 3);
        take_answer(signalfern_look_up(bytes, len, page_ids[i]));
        take_answer(signalfern_look_up_in(c, bytes, len, page_ids[i]));
    }
    signalfern_page page = signalfern_look_up_page(bytes, len, page_ids, PAGE, ordinals, PAGE, page_values, PAGE, kinds, PAGE);
    calls++;
    take(page.refusal), take(page.number), take(page.words);
    for (size_t i = 0; i < PAGE; i++)
        take(ordinals[i]), take((uint64_t)page_values[i]), take(kinds[i]);
}

static void walk(const uint8_t *bytes, size_t len, signalfern_column c)
{
    signalfern_cursor cursor = {0}, cursor_in = {0};
    for (uint32_t i = 0, target = 0; i < 24; i++, target += (uint32_t)any(90000)) {
        signalfern_candidate by_bytes = signalfern_next(cursor, bytes, len, target);
        signalfern_candidate by_column = signalfern_next_in(c, cursor_in, bytes, len, target / 2);
        take_candidate(by_bytes), take_candidate(by_column);
        cursor = by_bytes.cursor, cursor_in = by_column.cursor;
    }
    for (int i = 0; i < 4; i++) {
        int64_t low = values[any(PAIRS)], high = (int64_t)((uint64_t)low + any(99) - 9);
        take_between(signalfern_first_between(bytes, len, low, high));
        take_between(signalfern_first_between_in(c, bytes, len, low, high));
        uint64_t from = any(PAIRS + 9);
        take_between(signalfern_first_between_from(bytes, len, from, low, high));
        take_between(signalfern_first_between_from_in(c, bytes, len, from / 2, low, high));
    }
}

/* Pairs from an id on, into lists of any lengths, and pairs by their ordinals. */
static void read_on(const uint8_t *bytes, size_t len, signalfern_column c)
{
    for (int i = 0; i < 16; i++) {
        uint32_t id = i % 4 ? ids[any(PAIRS)] : (uint32_t)any((uint64_t)SIGNALFERN_MAX_ID + 3);
        size_t ids_len = any(ROOM), values_len = any(ROOM);
        take_readout(signalfern_read_from(bytes, len, id, back_ids, ids_len, back_values, values_len), ids_len, values_len);
        take_readout(signalfern_read_from_in(c, bytes, len, id / 2, back_ids, values_len, back_values, ids_len), values_len, ids_len);
        uint64_t ordinal = any(PAIRS + 9);
        take_pair(signalfern_pair_at(bytes, len, ordinal));
        take_pair(signalfern_pair_at_in(c, bytes, len, ordinal / 2));
    }
}

static void ask_layers(const uint8_t *bytes, size_t len, signalfern_column c, size_t top_len)
{
    signalfern_column top = opened(correction, top_len);
    for (size_t i = 0; i < PAGE; i++) {
        take_layered(signalfern_look_up_layered(bytes, len, correction, top_len, page_ids[i]));
        take_layered(signalfern_look_up_layered_in(c, bytes, len, top, correction, top_len, page_ids[i]));
        signalfern_part part = signalfern_layered_values(bytes, len, correction, top_len, page_ids[i]);
        calls++;
        take(part.column), take(part.start), take(part.len);
    }
}

static void take_layered_page(signalfern_layered_page page)
{
    calls++;
    take(page.refusal), take(page.number), take(page.machine_words), take(page.correction_words);
    for (size_t i = 0; i < PAGE; i++)
        take(ordinals[i]), take((uint64_t)page_values[i]), take(kinds[i]), take(columns[i]);
}

static void take_layered_readout(signalfern_layered_readout r, size_t room)
{
    calls++;
    take(r.kind), take(r.number), take(r.column), take(r.count);
    for (size_t i = 0; i < room; i++)
        take(back_ids[i]), take((uint64_t)back_values[i]), take(columns[i]);
}

/* A page and readings of both columns, into lists of any lengths; those of a reading that are longer than its buffers too. */
static void ask_layers_at_once(const uint8_t *bytes, size_t len, signalfern_column c, size_t top_len)
{
    signalfern_column top = opened(correction, top_len);
    take_layered_page(signalfern_look_up_layered_page(bytes, len, correction, top_len, page_ids, PAGE, ordinals, PAGE,
                                                      page_values, PAGE, kinds, PAGE, columns, PAGE));
    take_layered_page(signalfern_look_up_layered_page_in(c, bytes, len, top, correction, top_len, page_ids, PAGE / 2, ordinals,
                                                         PAGE, page_values, PAGE, kinds, PAGE, columns, any(PAGE)));
    for (int i = 0; i < 8; i++) {
        uint32_t id = i % 4 ? ids[any(PAIRS)] : (uint32_t)any((uint64_t)SIGNALFERN_MAX_ID + 3);
        size_t room = i % 4 == 1 ? 2000 : ROOM, ids_len = any(room), values_len = any(room), columns_len = any(room);
        take_layered_readout(signalfern_read_layered_from(bytes, len, correction, top_len, id, back_ids, ids_len, back_values,
                                                          values_len, columns, columns_len), room);
        take_layered_readout(signalfern_read_layered_from_in(c, bytes, len, top, correction, top_len, id / 2, back_ids,
                                                             columns_len, back_values, ids_len, columns, values_len), room);
    }
}

/* Everything that can be asked of a column, sound or not. */
static void ask(const uint8_t *bytes, size_t len, size_t top_len)
{
    signalfern_column c = opened(bytes, len);
    taken(signalfern_check(bytes, len));
    signalfern_reply read = taken(signalfern_read(bytes, len, back_ids, PAIRS, back_values, PAIRS));
    for (size_t i = 0; read.refusal == 0 && i < read.number; i++)
        take(back_ids[i]), take((uint64_t)back_values[i]);
    ask_ids(bytes, len, c);
    walk(bytes, len, c);
    read_on(bytes, len, c);
    ask_layers(bytes, len, c, top_len);
    ask_layers_at_once(bytes, len, c, top_len);
    size_t start = c.refusal ? 0 : c.start, section = c.refusal ? len : c.id_bytes;
    for (uint32_t order = 0; order < 2; order++)
        take_judgement(signalfern_judge_section(bytes + start, section, c.jump_count, c.power, order));
}

/* Turns one bit. */
static void damage(uint8_t *bytes, size_t len)
{
    uint64_t at = any(len);
    bytes[at] ^= (uint8_t)(1 << any(8));
}

static void ask_sets(size_t n)
{
    signalfern_reply wrote = taken(signalfern_set_write(ids, n, set, BYTES));
    for (int i = 0; i < DAMAGED; i++) {
        taken(signalfern_set_check(set, wrote.number));
        uint32_t id = ids[any(n)];
        signalfern_member m = signalfern_set_find(set, wrote.number, id + (uint32_t)any(2));
        calls++;
        take(m.kind), take(m.number), take(m.ordinal);
        damage(set, wrote.number);
    }
}

static size_t write_column(uint8_t *out, size_t n, uint32_t edition, uint32_t power)
{
    taken(signalfern_write(ids, n, values, n, edition, power, out, n));
    signalfern_reply planned = taken(signalfern_plan(values, n, table, SIGNALFERN_MAX_TABLE));
    taken(signalfern_write_planned(ids, n, values, n, table, planned.number, power, out, BYTES));
    signalfern_reply wrote = taken(signalfern_write(ids, n, values, n, edition, power, out, BYTES));
    take_bytes(out, wrote.number);
    return wrote.number;
}

int main(void)
{
    static const uint32_t powers[] = {0, 7, 8, 9, 10, 11, 12, 13, 14, 15};
    for (uint32_t edition = 1; edition <= 4; edition++)
        for (size_t p = 0; p < sizeof powers / sizeof powers[0]; p++) {
            digest = 14695981039346656037u, calls = 0;
            size_t top = make_pairs(any(3)) / 9;
            size_t top_len = write_column(correction, top, 1 + (uint32_t)any(4), powers[p]);
            size_t n = make_pairs((edition + p) % 3), len = write_column(column, n, edition, powers[p]);
            ask(column, len, top_len);
            for (int i = 0; i < DAMAGED; i++) {
                damage(column, i % 2 ? 16 : len);
                ask(column, i == 5 ? len - any(len) : len, top_len);
            }
            ask_sets(n);
            printf("edition %" PRIu32 " power %" PRIu32 ": %" PRIu64 " calls, %016" PRIx64 "\n", edition, powers[p], calls, digest);
        }
    return 0;
}
