/* The C calls, timed as a C caller makes them: for bench.py. */
#define _POSIX_C_SOURCE 199309L
#include <stdlib.h>
#include <time.h>

#include "signalfern.h"

static double now(void)
{
    struct timespec t;
    clock_gettime(CLOCK_MONOTONIC, &t);
    return (double)t.tv_sec * 1e9 + (double)t.tv_nsec;
}

/* Nanoseconds of a page, the mean of so many. */
double bench_page(const uint8_t *bytes, size_t len, const uint32_t *ids, size_t count, uint64_t *ordinals, int64_t *values, uint8_t *kinds, int times)
{
    signalfern_page reply;
    double start = now();
    for (int i = 0; i < times; i++)
        signalfern_look_up_page_to(bytes, len, ids, count, ordinals, count, values, count, kinds, count, &reply);
    return (now() - start) / times;
}

/* Nanoseconds of a reading into lists that are allocated for it. */
double bench_read(const uint8_t *bytes, size_t len, size_t count)
{
    double start = now();
    uint32_t *ids = malloc(count * sizeof *ids);
    int64_t *values = malloc(count * sizeof *values);
    signalfern_reply reply;
    signalfern_read_to(bytes, len, ids, count, values, count, &reply);
    double end = now();
    free(ids);
    free(values);
    return reply.refusal || reply.number != count ? -1 : end - start;
}

/* Nanoseconds of a reading into lists that were written before. */
double bench_read_again(const uint8_t *bytes, size_t len, uint32_t *ids, int64_t *values, size_t count)
{
    signalfern_reply reply;
    double start = now();
    signalfern_read_to(bytes, len, ids, count, values, count, &reply);
    return now() - start;
}

/* Nanoseconds of a reading from an id on, the mean of so many, into lists that were written before. */
double bench_read_from(const uint8_t *bytes, size_t len, uint32_t id, uint32_t *ids, int64_t *values, size_t count, int times)
{
    signalfern_column column;
    signalfern_readout readout;
    signalfern_open_to(bytes, len, &column);
    double start = now();
    for (int i = 0; i < times; i++)
        signalfern_read_from_in_to(&column, bytes, len, id, ids, count, values, count, &readout);
    return readout.kind > SIGNALFERN_ENDED || readout.count != count ? -1 : (now() - start) / times;
}

/* Nanoseconds of a pair at an ordinal, the mean of so many. */
double bench_pair_at(const uint8_t *bytes, size_t len, uint64_t ordinal, int times)
{
    signalfern_column column;
    signalfern_pair pair;
    signalfern_open_to(bytes, len, &column);
    double start = now();
    for (int i = 0; i < times; i++)
        signalfern_pair_at_in_to(&column, bytes, len, ordinal, &pair);
    return (now() - start) / times;
}

/* Nanoseconds of a look-up, the mean of so many. */
double bench_look_up(const uint8_t *bytes, size_t len, uint32_t id, int times)
{
    signalfern_column column;
    signalfern_answer answer;
    signalfern_open_to(bytes, len, &column);
    double start = now();
    for (int i = 0; i < times; i++)
        signalfern_look_up_in_to(&column, bytes, len, id, &answer);
    return (now() - start) / times;
}
