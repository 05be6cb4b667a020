/* One call, N times, on one kind of column: for callgrind. NEW: calls by pointers. Otherwise main's, by value. */
#include <stdio.h>
#include <stdlib.h>
#include <string.h>
#ifdef NEW
#include "signalfern.h"
#else
#include "old.h"
#endif
static uint32_t ids[1 << 20], r_ids[1 << 20]; static int64_t values[1 << 20], r_values[1 << 20]; static uint8_t m[1 << 23], c[1 << 23], out[1 << 23], set[1 << 20]; static uint64_t ordinals[1000]; static uint8_t kinds[1000];
static size_t fill(int kind, uint32_t blocks, uint32_t shift) {
    size_t n = 0;
    for (uint32_t b = 0; b < blocks; b++)
        if (kind == 0) for (uint32_t i = 0; i < 1000; i++) ids[n++] = b * 65536 + i * 65 + shift;
        else if (kind == 1) for (uint32_t i = 0; i < 16000; i++) ids[n++] = b * 65536 + i * 4 + shift;
        else for (uint32_t i = 0; i < 65536; i++) ids[n++] = b * 65536 + i;
    uint64_t x = 12345;
    for (size_t i = 0; i < n; i++) { x = x * 6364136223846793005ull + 1; values[i] = (x >> 40) % 4096; }
    return n;
}
int main(int argc, char **argv) {
    const char *op = argv[1]; int kind = atoi(argv[2]); uint32_t edition = atoi(argv[3]); long N = atol(argv[4]);
    (void)argc;
    size_t cn = fill(kind == 2 ? 0 : kind, kind == 2 ? 1 : 2, 1);
    size_t clen = signalfern_write(ids, cn, values, cn, edition, 9, c, sizeof c).number;
    size_t n = fill(kind, 4, 0);
    size_t len = signalfern_write(ids, n, values, n, edition, 9, m, sizeof m).number;
    size_t sn = n < 3000 ? n : 3000; size_t slen = signalfern_set_write(ids, sn, set, sizeof set).number;
    signalfern_column x = signalfern_open(m, len), y = signalfern_open(c, clen);
    uint64_t sum = 0; uint64_t z = 99;
#define LOOP(body) for (long i = 0; i < N; i++) { z = z * 6364136223846793005ull + 1442695040888963407ull; uint32_t id = ids[(z >> 33) % n]; (void)id; body; }
#ifdef NEW
    signalfern_answer a; signalfern_layered l; signalfern_candidate k; signalfern_between f; signalfern_page p; signalfern_member b; signalfern_reply r; signalfern_column col; signalfern_judgement j;
    if (!strcmp(op, "none")) LOOP(sum += id)
    if (!strcmp(op, "look_up")) LOOP((signalfern_look_up_to(m, len, id, &a), sum += a.value))
    if (!strcmp(op, "look_up_in")) LOOP((signalfern_look_up_in_to(&x, m, len, id, &a), sum += a.value))
    if (!strcmp(op, "open")) LOOP((signalfern_open_to(m, len, &col), sum += col.count))
    if (!strcmp(op, "layered")) LOOP((signalfern_look_up_layered_to(m, len, c, clen, id, &l), sum += l.value))
    if (!strcmp(op, "layered_in")) LOOP((signalfern_look_up_layered_in_to(&x, m, len, &y, c, clen, id, &l), sum += l.value))
    if (!strcmp(op, "two_in")) LOOP((signalfern_look_up_in_to(&y, c, clen, id, &a), a.kind == 1 ? (signalfern_look_up_in_to(&x, m, len, id, &a), 0) : 0, sum += a.value))
    if (!strcmp(op, "two")) LOOP((signalfern_look_up_to(c, clen, id, &a), a.kind == 1 ? (signalfern_look_up_to(m, len, id, &a), 0) : 0, sum += a.value))
    if (!strcmp(op, "next")) LOOP((signalfern_next_to(0, m, len, id, &k), sum += k.value))
    if (!strcmp(op, "next_in")) LOOP((signalfern_next_in_to(&x, 0, m, len, id, &k), sum += k.value))
    if (!strcmp(op, "between")) LOOP((signalfern_first_between_to(m, len, 100, 110, &f), sum += f.ordinal))
    if (!strcmp(op, "between_in")) LOOP((signalfern_first_between_in_to(&x, m, len, 100, 110, &f), sum += f.ordinal))
    if (!strcmp(op, "set_find")) LOOP((signalfern_set_find_to(set, slen, id, &b), sum += b.ordinal))
    if (!strcmp(op, "page")) LOOP((signalfern_look_up_page_to(m, len, ids + (z >> 33) % (n - 1000), 1000, ordinals, 1000, r_values, 1000, kinds, 1000, &p), sum += p.words))
    if (!strcmp(op, "check")) LOOP((signalfern_check_to(m, len, &r), sum += r.number))
    if (!strcmp(op, "read")) LOOP((signalfern_read_to(m, len, r_ids, n, r_values, n, &r), sum += r.number))
    if (!strcmp(op, "write")) LOOP((signalfern_write_to(ids, n, values, n, edition, 9, out, sizeof out, &r), sum += r.number))
    if (!strcmp(op, "judge")) LOOP((signalfern_judge_section_to(m + x.start, x.id_bytes, x.jump_count, x.power, 0, &j), sum += j.number))
#else
    signalfern_answer a;
    if (!strcmp(op, "none")) LOOP(sum += id)
    if (!strcmp(op, "look_up")) LOOP((a = signalfern_look_up(m, len, id), sum += a.value))
    if (!strcmp(op, "look_up_in")) LOOP((a = signalfern_look_up_in(x, m, len, id), sum += a.value))
    if (!strcmp(op, "open")) LOOP((sum += signalfern_open(m, len).count))
    if (!strcmp(op, "layered")) LOOP((sum += signalfern_look_up_layered(m, len, c, clen, id).value))
    if (!strcmp(op, "layered_in")) LOOP((sum += signalfern_look_up_layered_in(x, m, len, y, c, clen, id).value))
    if (!strcmp(op, "two_in")) LOOP((a = signalfern_look_up_in(y, c, clen, id), a.kind == 1 ? (a = signalfern_look_up_in(x, m, len, id), 0) : 0, sum += a.value))
    if (!strcmp(op, "two")) LOOP((a = signalfern_look_up(c, clen, id), a.kind == 1 ? (a = signalfern_look_up(m, len, id), 0) : 0, sum += a.value))
    if (!strcmp(op, "next")) LOOP((sum += signalfern_next((signalfern_cursor){0}, m, len, id).value))
    if (!strcmp(op, "next_in")) LOOP((sum += signalfern_next_in(x, (signalfern_cursor){0}, m, len, id).value))
    if (!strcmp(op, "between")) LOOP((sum += signalfern_first_between(m, len, 100, 110).ordinal))
    if (!strcmp(op, "between_in")) LOOP((sum += signalfern_first_between_in(x, m, len, 100, 110).ordinal))
    if (!strcmp(op, "set_find")) LOOP((sum += signalfern_set_find(set, slen, id).ordinal))
    if (!strcmp(op, "page")) LOOP((sum += signalfern_look_up_page(m, len, ids + (z >> 33) % (n - 1000), 1000, ordinals, 1000, r_values, 1000, kinds, 1000).words))
    if (!strcmp(op, "check")) LOOP((sum += signalfern_check(m, len).number))
    if (!strcmp(op, "read")) LOOP((sum += signalfern_read(m, len, r_ids, n, r_values, n).number))
    if (!strcmp(op, "write")) LOOP((sum += signalfern_write(ids, n, values, n, edition, 9, out, sizeof out).number))
    if (!strcmp(op, "judge")) LOOP((sum += signalfern_judge_section(m + x.start, x.id_bytes, x.jump_count, x.power, 0).number))
#endif
    printf("%llu\n", (unsigned long long)sum);
    return 0;
}
