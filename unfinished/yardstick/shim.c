/*
 * The project's C library under the peer's interface, whatever its own header looks like by now. `run` renames the archive's
 * calls to lib_* and says by WITH_EDITION, WITH_PAGE what the header has. OPENED: look-ups by an opened column. PAGE: in pages.
 */
#define signalfern_write lib_signalfern_write
#define signalfern_check lib_signalfern_check
#define signalfern_read lib_signalfern_read
#define signalfern_look_up lib_signalfern_look_up
#define signalfern_open lib_signalfern_open
#define signalfern_look_up_in lib_signalfern_look_up_in
#define signalfern_look_up_page lib_signalfern_look_up_page
#define signalfern_look_up_to lib_signalfern_look_up_to
#define signalfern_look_up_in_to lib_signalfern_look_up_in_to
#define signalfern_write_to lib_signalfern_write_to
#define signalfern_check_to lib_signalfern_check_to
#define signalfern_read_to lib_signalfern_read_to
#define signalfern_open_to lib_signalfern_open_to
#define signalfern_look_up_page_to lib_signalfern_look_up_page_to
#include "signalfern.h"
#ifdef BYREF
#define BY(c) &(c)
#else
#define BY(c) (c)
#endif

typedef struct { uint64_t kind, number, ordinal; int64_t value; uint64_t words; } answer;

signalfern_reply y_write(const uint32_t *ids, size_t n_ids, const int64_t *values, size_t n_values, uint32_t power, uint8_t *out,
                         size_t out_len) __asm__("signalfern_write");
signalfern_reply y_write(const uint32_t *ids, size_t n_ids, const int64_t *values, size_t n_values, uint32_t power, uint8_t *out,
                         size_t out_len)
{
#ifdef WITH_EDITION
    return lib_signalfern_write(ids, n_ids, values, n_values, 1, power, out, out_len);
#else
    return lib_signalfern_write(ids, n_ids, values, n_values, power, out, out_len);
#endif
}

signalfern_reply y_check(const uint8_t *bytes, size_t len) __asm__("signalfern_check");
signalfern_reply y_check(const uint8_t *bytes, size_t len) { return lib_signalfern_check(bytes, len); }

signalfern_reply y_read(const uint8_t *bytes, size_t len, uint32_t *ids, size_t ids_len, int64_t *values, size_t values_len)
    __asm__("signalfern_read");
signalfern_reply y_read(const uint8_t *bytes, size_t len, uint32_t *ids, size_t ids_len, int64_t *values, size_t values_len)
{
    return lib_signalfern_read(bytes, len, ids, ids_len, values, values_len);
}

answer y_look_up(const uint8_t *bytes, size_t len, uint32_t id) __asm__("signalfern_look_up");
answer y_look_up(const uint8_t *bytes, size_t len, uint32_t id)
{
#ifdef OPENED
    static signalfern_column column;
    static const uint8_t *from;
    if (__builtin_expect(bytes != from, 0)) { column = lib_signalfern_open(bytes, len); from = bytes; }
#ifdef WORDS
    signalfern_answer a;
    lib_signalfern_look_up_in_to(&column, bytes, len, id, &a);
#else
    signalfern_answer a = lib_signalfern_look_up_in(BY(column), bytes, len, id);
#endif
#else
    signalfern_answer a = lib_signalfern_look_up(bytes, len, id);
#endif
    return (answer){ a.kind, a.number, a.ordinal, a.value, a.words };
}

#if defined(PAGE) && defined(WITH_PAGE)
uint64_t yardstick_page(const uint8_t *bytes, size_t len, const uint32_t *ids, size_t n, uint64_t *ordinals, int64_t *values, uint8_t *kinds);
uint64_t yardstick_page(const uint8_t *bytes, size_t len, const uint32_t *ids, size_t n, uint64_t *ordinals, int64_t *values, uint8_t *kinds)
{
    return lib_signalfern_look_up_page(bytes, len, ids, n, ordinals, n, values, n, kinds, n).words;
}
#endif
