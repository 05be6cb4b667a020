/* The archive of main beside the new one: every call, on columns of every edition and power, whole and damaged. */
#include <stdio.h>
#include <stdlib.h>
#include <string.h>
#include "signalfern.h"
#include "old_calls.h"
static uint64_t state = 88172645463325252ull, told;
static uint64_t rnd(void) { state ^= state << 13; state ^= state >> 7; state ^= state << 17; return state; }
static uint64_t below(uint64_t n) { return rnd() % n; }
#define SAME(call, a, b) do { told++; if (memcmp(&(a), &(b), sizeof(a))) { printf("line %d: %s differs\n", __LINE__, call); const uint64_t *x = (void *)&(a), *y = (void *)&(b); for (size_t i = 0; i < sizeof(a) / 8; i++) printf("  %zu: %llu %llu\n", i, (unsigned long long)x[i], (unsigned long long)y[i]); exit(1); } } while (0)
enum { ROOM = 1 << 18, MOST = 200000 };
static uint32_t ids[MOST]; static int64_t values[MOST]; 
static size_t make(uint8_t *out, size_t room, uint32_t *edition) {
    size_t n = 0; uint32_t blocks = below(5), b = below(3);
    for (uint32_t k = 0; k < blocks; k++, b += 1 + (below(3) ? 0 : below(30))) {
        int kind = below(8);
        if (kind < 4) { uint32_t c = 1 + below(60); uint32_t at = below(100); for (uint32_t i = 0; i < c && at < 65536; i++, at += 1 + below(1000)) ids[n++] = b * 65536 + at; }
        else if (kind < 7 && n < 60000) { for (uint32_t at = 0; at < 65536; at++) if (below(7) == 0) ids[n++] = b * 65536 + at; }
        else if (n < 60000) for (uint32_t at = 0; at < 65536; at++) ids[n++] = b * 65536 + at;
    }
    int style = below(4); int64_t base = style == 3 ? (int64_t)rnd() : -1000;
    for (size_t i = 0; i < n; i++) values[i] = style == 0 ? 7 : style == 1 ? base + 3 * (int64_t)below(5) : style == 2 ? base + (int64_t)below(1000000) : (int64_t)rnd();
    static const uint32_t powers[] = {0, 7, 8, 9, 10, 12, 15};
    uint32_t p = powers[below(7)]; *edition = 1 + below(4);
    signalfern_reply r = signalfern_write(ids, n, values, n, *edition, p, out, room);
    old_signalfern_reply o = old_signalfern_write(ids, n, values, n, *edition, p, out, room);
    SAME("write", r, o);
    return r.refusal ? 0 : r.number;
}
static uint32_t an_id(void) {
    switch (below(12)) { case 0: return below(4) * 65536 + below(65536); case 1: return below(8) * 65536 + below(700); case 2: return 2147352575u - below(3) + below(3); case 3: return rnd();
    default: return below(3) ? below(200) : (uint32_t)(below(40) * 65536 + below(2000)); }
}
static void damage(uint8_t *s, size_t n) { if (n) for (int k = 1 + below(4); k; k--) { size_t at = below(3) ? below(n) : below(n < 24 ? n : 24); if (below(2)) s[at] ^= 1u << below(8); else s[at] = rnd(); } }
static void spoil(signalfern_column *c) { uint64_t *w = (uint64_t *)c; for (int k = below(3); k; k--) { int i = below(12); switch (below(4)) { case 0: w[i] = rnd(); break; case 1: w[i] = below(70); break; default: w[i] += below(3) - 1; } } }
int main(int argc, char **argv) {
    if (argc > 1) state ^= strtoull(argv[1], 0, 10) * 0x9E3779B97F4A7C15ull;
    uint64_t rounds = argc > 2 ? strtoull(argv[2], 0, 10) : 300;
    static uint8_t m[1 << 20], c[1 << 20]; static uint8_t set[1 << 18];
    static uint32_t asked[64], i1[MOST], i2[MOST]; static uint64_t o1[64], o2[64]; static int64_t v1[MOST], v2[MOST], t1[300], t2[300]; static uint8_t k1[64], k2[64];
    for (uint64_t round = 0; round < rounds; round++) {
        uint32_t em, ec;
        size_t ml = make(m, sizeof m, &em), cl = make(c, sizeof c, &ec);
        { size_t room = below(3) ? 300 : below(300); signalfern_reply a = signalfern_plan(values, 100, t1, room); old_signalfern_reply b = old_signalfern_plan(values, 100, t2, room); SAME("plan", a, b); { size_t pn = below(3) ? 100 : below(100), tn = a.refusal ? 0 : a.number; if (!below(3)) t1[below(4)] ^= below(4); if (!below(4)) tn += below(3); static uint8_t w1[1 << 16], w2[1 << 16]; memset(w1, 7, 4096); memset(w2, 7, 4096); size_t wr = below(3) ? sizeof w1 : below(300); uint32_t pw = below(4) ? 9 : below(20); signalfern_reply c1 = signalfern_write_planned(ids, 100, values, pn, t1, tn, pw, w1, wr); old_signalfern_reply c2 = old_signalfern_write_planned(ids, 100, values, pn, t1, tn, pw, w2, wr); SAME("write_planned", c1, c2); if (memcmp(w1, w2, 4096)) { printf("planned bytes differ\n"); exit(1); } }
          size_t sl = below(200); signalfern_reply d = signalfern_set_write(ids, sl, set, below(3) ? sizeof set : below(64)); (void)d;
          signalfern_reply x = signalfern_set_write(ids, sl, set, sizeof set); old_signalfern_reply y = old_signalfern_set_write(ids, sl, set, sizeof set); SAME("set_write", x, y);
          size_t len = x.refusal ? below(20) : x.number;
          for (int q = 0; q < 30; q++) { if (q == 10) damage(set, len); if (q == 20 && len) len--; uint32_t id = an_id();
            signalfern_member s1 = signalfern_set_find(set, len, id); old_signalfern_member s2 = old_signalfern_set_find(set, len, id); SAME("set_find", s1, s2);
            signalfern_reply r1 = signalfern_set_check(set, len); old_signalfern_reply r2 = old_signalfern_set_check(set, len); SAME("set_check", r1, r2); } }
        for (int state_of = 0; state_of < 4; state_of++) {
            if (state_of == 1) damage(m, ml); if (state_of == 2) damage(c, cl); if (state_of == 3) { if (ml) ml -= below(2); if (cl && !below(3)) cl -= 1; damage(m, ml); }
            signalfern_column x = signalfern_open(m, ml), y = signalfern_open(c, cl);
            old_signalfern_column ox = old_signalfern_open(m, ml), oy = old_signalfern_open(c, cl);
            SAME("open", x, ox); SAME("open", y, oy);
            { signalfern_reply r1 = signalfern_check(m, ml); old_signalfern_reply r2 = old_signalfern_check(m, ml); SAME("check", r1, r2);
              size_t room = below(4) ? MOST : below(100); signalfern_reply r3 = signalfern_read(m, ml, i1, room, v1, MOST); old_signalfern_reply r4 = old_signalfern_read(m, ml, i2, room, v2, MOST); SAME("read", r3, r4);
              if (!r3.refusal && (memcmp(i1, i2, 4 * r3.number) || memcmp(v1, v2, 8 * r3.number))) { printf("read lists differ\n"); return 1; } }
            for (int q = 0; q < 400; q++) {
                uint32_t id = an_id();
                if (q > 200 && below(2)) { spoil(&x); memcpy(&ox, &x, 96); }
                if (q > 200 && below(2)) { spoil(&y); memcpy(&oy, &y, 96); }
                if (q > 200 && below(4) == 0) { x = signalfern_open(m, ml); y = signalfern_open(c, cl); memcpy(&ox, &x, 96); memcpy(&oy, &y, 96); }
                signalfern_answer a = signalfern_look_up(m, ml, id); old_signalfern_answer b = old_signalfern_look_up(m, ml, id); SAME("look_up", a, b);
                a = signalfern_look_up_in(x, m, ml, id); b = old_signalfern_look_up_in(ox, m, ml, id); SAME("look_up_in", a, b);
                signalfern_layered l = signalfern_look_up_layered(m, ml, c, cl, id); old_signalfern_layered ol = old_signalfern_look_up_layered(m, ml, c, cl, id); SAME("layered", l, ol);
                l = signalfern_look_up_layered_in(x, m, ml, y, c, cl, id); ol = old_signalfern_look_up_layered_in(ox, m, ml, oy, c, cl, id); SAME("layered_in", l, ol);
                signalfern_part p = signalfern_layered_values(m, ml, c, cl, id); old_signalfern_part op = old_signalfern_layered_values(m, ml, c, cl, id); SAME("layered_values", p, op);
                signalfern_cursor cur = {below(3) ? 0 : (uint32_t)an_id()}; old_signalfern_cursor ocur = {(uint32_t)cur.last};
                signalfern_candidate n = signalfern_next(cur, m, ml, id); old_signalfern_candidate on; memset(&on, 0, sizeof on); on = old_signalfern_next(ocur, m, ml, id); uint32_t kept = on.cursor.last; ((uint64_t *)&on)[5] = kept; SAME("next", n, on);
                n = signalfern_next_in(x, cur, m, ml, id); on = old_signalfern_next_in(ox, ocur, m, ml, id); kept = on.cursor.last; ((uint64_t *)&on)[5] = kept; SAME("next_in", n, on);
                int64_t low = below(3) ? -1000 + (int64_t)below(1000) : (int64_t)rnd(), high = below(3) ? low + (int64_t)below(100) : (int64_t)rnd();
                if (q % 4 == 0) {
                signalfern_between f = signalfern_first_between(m, ml, low, high); old_signalfern_between of = old_signalfern_first_between(m, ml, low, high); SAME("between", f, of);
                f = signalfern_first_between_in(x, m, ml, low, high); of = old_signalfern_first_between_in(ox, m, ml, low, high); SAME("between_in", f, of);
                size_t nn = below(64); for (size_t i = 0; i < nn; i++) asked[i] = an_id(); size_t room = below(5) ? 64 : below(64);
                memset(o1, 9, sizeof o1); memset(o2, 9, sizeof o2); memset(v1, 9, 512); memset(v2, 9, 512); memset(k1, 9, sizeof k1); memset(k2, 9, sizeof k2);
                signalfern_page g = signalfern_look_up_page(m, ml, asked, nn, o1, room, v1, 64, k1, 64); old_signalfern_page og = old_signalfern_look_up_page(m, ml, asked, nn, o2, room, v2, 64, k2, 64); SAME("page", g, og);
                if (memcmp(o1, o2, sizeof o1) || memcmp(v1, v2, 512) || memcmp(k1, k2, sizeof k1)) { printf("page lists differ\n"); return 1; } 
                size_t at = x.start < ml ? x.start : 0, bl = below(2) && x.id_bytes <= ml - at ? x.id_bytes : ml - at; uint64_t j = below(2) ? x.jump_count : below(5), pw = below(3) ? x.power : below(20); uint32_t hf = below(3) == 0;
                signalfern_judgement jd = signalfern_judge_section(m + at, bl, j, pw, hf); old_signalfern_judgement oj = old_signalfern_judge_section(m + at, bl, j, pw, hf); SAME("judge", jd, oj);
                }
            }
        }
    }
    printf("%llu answers equal\n", (unsigned long long)told);
    return 0;
}
