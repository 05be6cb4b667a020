/*
 * Signalfern: score columns.
 *
 * A column is a byte string that holds n pairs: an id (0 to 2147352575, strictly ascending) and a
 * signed 64-bit value. It can be written, by a plan too, checked, read whole, asked for one id or for a
 * page of them, walked over from id to id, read from an id on, asked for an ordinal, searched for a value,
 * and overlaid with a correction. Linux on x86-64 and ARM64.
 *
 *     cc program.c $(pkg-config --cflags --libs signalfern)     after `make install`
 *
 * The calls are proved to do what is said here, on every input, and they alone are in
 * libsignalfern_c.a, which the Rattle kit makes. Those after the line "From here on plain C", for names,
 * sentences and the version, are tested and not proved (c/names.c). The installed libsignalfern.a and
 * libsignalfern.so have all of them.
 *
 * The proved calls are those whose names end in _to: each writes its whole answer, on every input, to the
 * struct that its last argument points to. Under the same name without _to stands a small inline function
 * that hands the struct back. Numbers and pointers alone cross the boundary: every struct here is so many
 * words of 64 bits with names. An opened column is lent by its pointer to a call that ends in _in_to, and
 * copied by the inline function: for many questions the former is the sooner way.
 *
 * For every proved call:
 *
 * - Every input is allowed, and every outcome is stated here. A call refuses with a number from
 *   the table below; it never stops the program.
 * - A refusal changes no lent byte but the answer's. A success changes exactly what the call names, and
 *   the answer.
 * - A length counts elements (ids, values or bytes), not bytes of memory. The pointer before it
 *   leads to that many elements, which the caller owns until the call returns. A pointer may be
 *   NULL only where its length is 0; it is then not followed. A pointer to a struct is never NULL.
 * - A pointer is aligned as its type asks: 4 bytes for uint32_t, 8 for int64_t, uint64_t and the structs,
 *   none for uint8_t. This holds where the length is 0 too (NULL is aligned).
 * - What a call writes to (out; ids, values and columns of a reading; ordinals, values, kinds and columns of a page; the
 *   planner's table; the answer) overlaps nothing else that is lent to the same call, and no other thread
 *   uses it during the call.
 *   What a call only reads may be read by others at the same time. No lent array takes up more than
 *   2^63 - 1 bytes.
 * - Nothing is allocated, nothing is kept between calls, and no call waits.
 *
 * Whoever keeps to the pointer rules above gets what is promised here. C cannot test them.
 */
#ifndef SIGNALFERN_H
#define SIGNALFERN_H

#include <stddef.h>
#include <stdint.h>

#ifdef __cplusplus
extern "C" {
#endif

/* The version of this header; signalfern_version() has that of the library. */
#define SIGNALFERN_VERSION_MAJOR 0
#define SIGNALFERN_VERSION_MINOR 2
#define SIGNALFERN_VERSION_PATCH 0
#define SIGNALFERN_VERSION "0.2.0"

/*
 * The boundary's version in a name: 100 times the major number and the minor one. Proved. c/names.c and the
 * Rust package ask for it, so that neither links with an archive of other structs or other signatures.
 */
uint64_t signalfern_abi_0_2(void);

/* Limits. */
#define SIGNALFERN_MAX_ID 2147352575u    /* greatest id */
#define SIGNALFERN_MAX_COUNT 2147352576u /* greatest count of pairs */

/* The rank power that fits most columns, and Lucene's. */
#define SIGNALFERN_USUAL_POWER 9u

/* The editions: how a column stores its values. Every call takes columns of each, but for
 * signalfern_first_between, which is for edition 3; the writer is told one. */
#define SIGNALFERN_PLAIN 1u  /* stored numbers of the least width from 0 to 64, high bit first */
#define SIGNALFERN_LUCENE 2u /* packed as Lucene 9 packs: low bit first, at the least of the widths 1, 2, 4,
                                8, 12, 16, 20, 24, 28, 32, 40, 48, 56 and 64 that suffices, or 0 */
#define SIGNALFERN_RUNS 3u   /* runs of SIGNALFERN_RUN_LENGTH values, the last maybe shorter, each with a
                                width and a smallest value of its own; a directory before them tells these
                                and the greatest value of each run. Packed as edition 1 */
#define SIGNALFERN_RUN_LENGTH 16384u
#define SIGNALFERN_TABLE 4u  /* a table of the distinct values, 2 to SIGNALFERN_MAX_TABLE of them, and for each
                                pair its value's place there, in the least width for the last place. Packed
                                as edition 1, and only where the column is then shorter than edition 1's */
#define SIGNALFERN_MAX_TABLE 256u

/*
 * Refusals. The number with a refusal is 0 where nothing else is said.
 */
enum {
    SIGNALFERN_LENGTHS = 1,  /* ids and values differ in count */
    SIGNALFERN_POWER = 2,    /* the rank power is not 0 and not 7 to 15 */
    SIGNALFERN_ORDER = 3,    /* an id is not above the one before; with the first such index */
    SIGNALFERN_RANGE = 4,    /* an id is above SIGNALFERN_MAX_ID; with the first such index */
    /* 5 is not used: it was OFFSET, which cannot happen (document 02, [7]) */
    SIGNALFERN_ROOM = 6,     /* the output is shorter than the column, or the set; with the bytes needed */
    SIGNALFERN_SHORT = 7,    /* the bytes end before the last byte of a header number, or of a number of a
                                set; with the byte count */
    SIGNALFERN_NUMBER = 8,   /* a header number, or a number of a set, is not minimal, or is 2^64 or more;
                                with the place, from 0, of the byte that decided it: the 0 that ends a
                                number of several bytes, or the tenth byte of one that is not 1 */
    SIGNALFERN_EDITION = 9,  /* the first header number, or what the writer was told, is no edition; or it
                                is not the one that signalfern_first_between is for */
    SIGNALFERN_HEADER = 10,  /* a header rule is broken; by the judge, the entry count or the power told is
                                not allowed */
    SIGNALFERN_LENGTH = 11,  /* header, id section and value section are not the byte count */
    SIGNALFERN_BUFFER = 12,  /* the ids or the values buffer is shorter than n, a list for a page's answers
                                shorter than its ids, or a table for the planner shorter than
                                SIGNALFERN_MAX_TABLE; with the places needed */
    SIGNALFERN_DAMAGED = 13, /* the bytes are no column of any pair list, or no set of any id list */
    SIGNALFERN_ID = 14,      /* the looked-up id, or the target, is above SIGNALFERN_MAX_ID */
    SIGNALFERN_BROKEN = 15,  /* a step of the look-up fails: the bytes are damaged. In edition 3 a run's
                                width above 64 and a stored number that reaches past the section are such
                                failures too, in edition 4 a place past the table's end */
    SIGNALFERN_BACK = 16,    /* the target is below the last one answered */
    SIGNALFERN_PLAN = 17     /* the plan is rejected: see signalfern_write_planned */
};

/* What signalfern_write, signalfern_check, signalfern_read and the calls on plans and sets answer. */
typedef struct {
    uint64_t refusal; /* 0: done. Otherwise the refusal. */
    uint64_t number;  /* Done: see the call. Otherwise the number with the refusal. */
} signalfern_reply;

/* The kinds of an answer that are no refusal: of a look-up the first two, of signalfern_next and
 * signalfern_first_between the first and the last. Refusal 1 is never given by these calls. */
enum { SIGNALFERN_FOUND = 0, SIGNALFERN_ABSENT = 1, SIGNALFERN_NONE = 1 };

/* What a look-up answers. Fields that a case does not name hold 0. */
typedef struct {
    uint64_t kind;    /* SIGNALFERN_FOUND, SIGNALFERN_ABSENT, or the refusal: 7 to 11, 14, 15. */
    uint64_t number;  /* Refused: the number with the refusal. */
    uint64_t ordinal; /* Found: the id's index in the list, from 0. */
    int64_t value;    /* Found: the id's value. */
    uint64_t words;   /* Found or absent: how many 64-bit words of a bitmap were looked at, 0 to 1024. */
    uint64_t probes;  /* Found or absent: how many entries of a sparse block were probed, 0 to 12. */
} signalfern_answer;

/* What signalfern_look_up_page answers beside the lists that it fills. */
typedef struct {
    uint64_t refusal; /* 0: done. Otherwise SIGNALFERN_BUFFER. */
    uint64_t number;  /* How many ids there are: done, the places filled; refused, those needed. */
    uint64_t words;   /* Done: the words of all its look-ups, summed modulo 2^64. Refused: 0. */
} signalfern_page;

/*
 * A column opened once, for many questions. It holds numbers alone and no pointer: it may be copied,
 * and the bytes are lent again with each call. Where `refusal` is not 0, all fields after
 * `number` hold 0.
 */
typedef struct {
    uint64_t refusal;     /* 0: opened. Otherwise the refusal: 7 to 11. */
    uint64_t number;      /* Opened: 0. Otherwise the number with the refusal. */
    uint64_t edition;     /* the edition: SIGNALFERN_PLAIN, _LUCENE, _RUNS or _TABLE */
    uint64_t count;       /* n, the count of pairs */
    uint64_t power;       /* p, the rank power: 0 or 7 to 15 */
    uint64_t id_bytes;    /* L, the bytes of the id section */
    uint64_t jump_count;  /* J, the count of jump entries */
    uint64_t width;       /* w, the bits of a stored number: 0 to 64, of which edition 2 has some only;
                             0 in edition 3, whose runs have their own; in edition 4 the bits of a code,
                             1 to 8 */
    uint64_t smallest;    /* the smallest value v as the header has it: 2v, or -2v-1 if v < 0;
                             signalfern_smallest gives v; 0 in edition 3, whose runs have their own, and
                             in edition 4, whose table has all values */
    uint64_t divisor;     /* g, the divisor of the values' differences: at least 1; in edition 4 the count
                             of the table's entries */
    uint64_t value_bytes; /* V, the bytes of the value section */
    uint64_t start;       /* the bytes of the header: where the id section starts */
} signalfern_column;

/*
 * How far the targets of signalfern_next went. A new cursor is {0}. Any value is allowed, and a cursor
 * is of no certain column.
 */
typedef struct {
    uint64_t last; /* the last target answered */
} signalfern_cursor;

/* What signalfern_next answers. Fields that a case does not name hold 0, but for the cursor. */
typedef struct {
    uint64_t kind;            /* SIGNALFERN_FOUND, SIGNALFERN_NONE, or the refusal: 7 to 11, 14 to 16. */
    uint64_t number;          /* Refused: the number with the refusal. */
    uint64_t id;              /* Found: the first listed id at or above the target. */
    uint64_t ordinal;         /* Found: its index in the list, from 0. */
    int64_t value;            /* Found: its value. */
    signalfern_cursor cursor; /* Found or none: the target is its last. Refused: the cursor as it was. */
} signalfern_candidate;

/* The kinds of a readout that are no refusal. Refusal 1 is never given by a reading. */
enum { SIGNALFERN_MORE = 0, SIGNALFERN_ENDED = 1 };

/* What signalfern_read_from answers beside the lists that it fills. */
typedef struct {
    uint64_t kind;   /* SIGNALFERN_MORE, SIGNALFERN_ENDED, or the refusal: 7 to 11, 14, 15. */
    uint64_t number; /* Refused: the number with the refusal. Otherwise 0. */
    uint64_t count;  /* More or ended: how many pairs were placed. Refused: 0. */
} signalfern_readout;

/* What signalfern_pair_at answers. Fields that a case does not name hold 0. */
typedef struct {
    uint64_t kind;    /* SIGNALFERN_FOUND, SIGNALFERN_NONE, or the refusal: 7 to 11, 15. */
    uint64_t number;  /* Refused: the number with the refusal. */
    uint64_t id;      /* Found: the id at this ordinal. */
    uint64_t ordinal; /* Found: the ordinal. */
    int64_t value;    /* Found: the id's value. */
} signalfern_pair;

/* What signalfern_first_between answers. Fields that a case does not name hold 0. */
typedef struct {
    uint64_t kind;    /* SIGNALFERN_FOUND, SIGNALFERN_NONE, or the refusal: 7 to 11, 15. */
    uint64_t number;  /* Refused: the number with the refusal. */
    uint64_t ordinal; /* Found: the first index in the list, from 0, whose value is in the range. */
} signalfern_between;

/* The two columns of a look-up with a correction on top. */
enum { SIGNALFERN_MACHINE = 0, SIGNALFERN_CORRECTION = 1 };

/* What signalfern_look_up_layered answers. Fields that a case does not name hold 0. */
typedef struct {
    uint64_t kind;             /* SIGNALFERN_FOUND, SIGNALFERN_ABSENT, or the refusal: 7 to 11, 14, 15. */
    uint64_t number;           /* Refused: the number with the refusal. */
    uint64_t column;           /* Found: the column that holds the id. Refused: the one that refused. */
    uint64_t ordinal;          /* Found: the id's index in that column's list, from 0. */
    int64_t value;             /* Found: the id's value there. */
    uint64_t machine_words;    /* Found or absent: how many 64-bit words of a bitmap were looked at in */
    uint64_t correction_words; /* each column, 0 to 1024; 0 for one that was not looked in. */
} signalfern_layered;

/* What signalfern_look_up_layered_page answers beside the lists that it fills. */
typedef struct {
    uint64_t refusal;          /* 0: done. Otherwise SIGNALFERN_BUFFER. */
    uint64_t number;           /* How many ids there are: done, the places filled; refused, those needed. */
    uint64_t machine_words;    /* Done: the words of all its look-ups in each column, each sum modulo 2^64. */
    uint64_t correction_words; /* Refused: 0. */
} signalfern_layered_page;

/* What signalfern_read_layered_from answers beside the lists that it fills. */
typedef struct {
    uint64_t kind;   /* SIGNALFERN_MORE, SIGNALFERN_ENDED, or the refusal: 7 to 11, 14, 15. */
    uint64_t number; /* Refused: the number with the refusal. Otherwise 0. */
    uint64_t column; /* Refused: the column that refused. Otherwise 0. */
    uint64_t count;  /* More or ended: how many pairs were placed. Refused: 0. */
} signalfern_layered_readout;

/* A part of one of two columns: len bytes from its byte start on. */
typedef struct {
    uint64_t column;
    uint64_t start;
    uint64_t len;
} signalfern_part;

/* What signalfern_set_find answers. Fields that a case does not name hold 0. */
typedef struct {
    uint64_t kind;    /* SIGNALFERN_FOUND, SIGNALFERN_ABSENT, or the refusal: 7, 8, 13, 14. */
    uint64_t number;  /* Refused: the number with the refusal. */
    uint64_t ordinal; /* Found: how many ids of the set lie below the id. */
} signalfern_member;

/* Why an id section is faulty, in the order in which it is tested. A block numbered 32767 is always taken for
 * the end block, six bytes whatever its count says: only the first test and SIGNALFERN_END_BLOCK are its. */
enum {
    SIGNALFERN_CUT_OFF = 1,     /* a block, its head or its data, ends after the bytes; the end block: fewer than
                                   six are left */
    SIGNALFERN_BLOCK_ORDER = 2, /* a block's number is not above the one before, or is 32766 or above 32767 */
    SIGNALFERN_PLACE_ORDER = 3, /* the places of a sparse block do not ascend */
    SIGNALFERN_ONES = 4,        /* the ones of a dense block are not as many as its ids */
    SIGNALFERN_RANK = 5,        /* a rank of a dense block is not the ones before its stride */
    SIGNALFERN_END_BLOCK = 6,   /* a block numbered 32767 is not FF 7F 00 00 FF FF (7F FF .. high byte first) */
    SIGNALFERN_JUMPS = 7,       /* their count is another, or one is wrong or cut off */
    SIGNALFERN_LEFT_OVER = 8    /* bytes follow the jump entries */
};

/* What signalfern_judge_section answers. Fields that a case does not name hold 0. */
typedef struct {
    uint64_t kind;   /* 0: accepted. 1: faulty. SIGNALFERN_HEADER: jump_count or power is not allowed. */
    uint64_t number; /* Accepted: how many ids the section holds. */
    uint64_t place;  /* Faulty: the start of the faulty block; of the first wrong or cut jump entry, or
                        of all where their count is wrong; of the bytes left over. From 0. */
    uint64_t reason; /* Faulty: 1 to 8, as above. */
} signalfern_judgement;

/*
 * Writes the column of the pairs (ids[i], values[i]) to the front of out.
 *
 * edition is SIGNALFERN_PLAIN, SIGNALFERN_LUCENE, SIGNALFERN_RUNS or SIGNALFERN_TABLE. power is the rank
 * power: 0 for none, or 7 to 15 for one rank to every 2^power places of a dense block
 * (SIGNALFERN_USUAL_POWER is a good choice).
 *
 * Told SIGNALFERN_TABLE, it writes by what signalfern_plan proposes: a column of edition 4, or of edition 1
 * where no table makes it shorter. signalfern_open tells which it is.
 *
 * Done: number is the column's byte count; exactly these bytes of out were written, and those after
 * them stay as they were. Refused: the first that applies of 1, 9, 2, 3, 4 and 6, and out stays as it
 * was. To learn how many bytes are needed, call with out_len 0: the refusal is SIGNALFERN_ROOM.
 */
void signalfern_write_to(const uint32_t *ids, size_t ids_len, const int64_t *values, size_t values_len,
                         uint32_t edition, uint32_t power, uint8_t *out, size_t out_len,
                         signalfern_reply *reply);

static inline signalfern_reply signalfern_write(const uint32_t *ids, size_t ids_len, const int64_t *values,
                                                size_t values_len, uint32_t edition, uint32_t power,
                                                uint8_t *out, size_t out_len)
{
    signalfern_reply reply;
    signalfern_write_to(ids, ids_len, values, values_len, edition, power, out, out_len, &reply);
    return reply;
}

/*
 * Writes the column of the pairs by a plan: a table of their distinct values gives edition 4, and an empty
 * one (table_len 0), which is plain, gives edition 1. Anybody may have made the plan: it is checked.
 *
 * Plain is always accepted; a table exactly if it has 2 to SIGNALFERN_MAX_TABLE entries, ascends strictly,
 * holds every value, has no entry that is no value, and the column is shorter than that of edition 1.
 *
 * Done: as signalfern_write. Refused: the first that applies of 1, 2, 3, 4, 17 and 6, and out stays as it
 * was.
 */
void signalfern_write_planned_to(const uint32_t *ids, size_t ids_len, const int64_t *values, size_t values_len,
                                 const int64_t *table, size_t table_len, uint32_t power, uint8_t *out,
                                 size_t out_len, signalfern_reply *reply);

static inline signalfern_reply signalfern_write_planned(const uint32_t *ids, size_t ids_len,
                                                        const int64_t *values, size_t values_len,
                                                        const int64_t *table, size_t table_len, uint32_t power,
                                                        uint8_t *out, size_t out_len)
{
    signalfern_reply reply;
    signalfern_write_planned_to(ids, ids_len, values, values_len, table, table_len, power, out, out_len, &reply);
    return reply;
}

/*
 * Proposes a plan for these values: a table wherever signalfern_write_planned accepts one, else plain.
 *
 * Done: number is how many entries the table has, 0 for plain; exactly so many first places of table were
 * written. Refused: 12 with SIGNALFERN_MAX_TABLE where table_len is less, and table stays as it was.
 */
void signalfern_plan_to(const int64_t *values, size_t values_len, int64_t *table, size_t table_len,
                        signalfern_reply *reply);

static inline signalfern_reply signalfern_plan(const int64_t *values, size_t values_len, int64_t *table,
                                               size_t table_len)
{
    signalfern_reply reply;
    signalfern_plan_to(values, values_len, table, table_len, &reply);
    return reply;
}

/*
 * Tells whether the bytes are a column, to the last bit.
 *
 * Done: number is n, and there is just one pair list with this column. Refused: 7 to 11, then 13.
 * The time grows with the bytes, not with n: a column of 393 KB may hold 2147352576 pairs.
 *
 * Accepted bytes are what signalfern_write gives for some list; so edition 4 is accepted only where its
 * table makes the column shorter. That it is the list that was meant no check can tell: the format has no
 * checksum, and a changed value can be another valid column's.
 */
void signalfern_check_to(const uint8_t *bytes, size_t len, signalfern_reply *reply);

static inline signalfern_reply signalfern_check(const uint8_t *bytes, size_t len)
{
    signalfern_reply reply;
    signalfern_check_to(bytes, len, &reply);
    return reply;
}

/*
 * Reads all pairs into ids and values. The bytes are checked in full first.
 *
 * Done: number is n; exactly the first n places of ids and of values were written, with the pairs
 * in order. Refused: 7 to 11, then 12, then 13; both buffers stay as they were. SIGNALFERN_BUFFER
 * brings n, but for bytes that no check has accepted n is only what the header claims.
 */
void signalfern_read_to(const uint8_t *bytes, size_t len, uint32_t *ids, size_t ids_len, int64_t *values,
                        size_t values_len, signalfern_reply *reply);

static inline signalfern_reply signalfern_read(const uint8_t *bytes, size_t len, uint32_t *ids, size_t ids_len,
                                               int64_t *values, size_t values_len)
{
    signalfern_reply reply;
    signalfern_read_to(bytes, len, ids, ids_len, values, values_len, &reply);
    return reply;
}

/*
 * Looks one id up, directly: the header, one jump entry, one block and one value are read.
 *
 * Found, absent or refused: 14, then 7 to 11, then 15. On bytes that signalfern_check accepts the
 * answer is that of the pair list. Other bytes are not checked in full: the answer is then the one
 * that the look-up's steps fix, and no byte outside the lent ones is read.
 */
void signalfern_look_up_to(const uint8_t *bytes, size_t len, uint32_t id, signalfern_answer *answer);

static inline signalfern_answer signalfern_look_up(const uint8_t *bytes, size_t len, uint32_t id)
{
    signalfern_answer answer;
    signalfern_look_up_to(bytes, len, id, &answer);
    return answer;
}

/*
 * Reads the header, for the calls in an opened column: those that end in _in. Refused: 7 to 11.
 */
void signalfern_open_to(const uint8_t *bytes, size_t len, signalfern_column *column);

static inline signalfern_column signalfern_open(const uint8_t *bytes, size_t len)
{
    signalfern_column column;
    signalfern_open_to(bytes, len, &column);
    return column;
}

/*
 * Looks one id up in a column opened before. With the column of signalfern_open(bytes, len), not
 * refused, and the same bytes, the answer is that of signalfern_look_up(bytes, len, id).
 *
 * Any other column is allowed too: its numbers from edition to start are taken for the header's.
 * Refused: 14; 10 where there is no such edition or these numbers break a header rule (as those of
 * a refused opening do); 11 where start + id_bytes + value_bytes is not len; 15. Its fields refusal
 * and number do not matter.
 */
void signalfern_look_up_in_to(const signalfern_column *column, const uint8_t *bytes, size_t len, uint32_t id,
                              signalfern_answer *answer);

static inline signalfern_answer signalfern_look_up_in(signalfern_column column, const uint8_t *bytes,
                                                      size_t len, uint32_t id)
{
    signalfern_answer answer;
    signalfern_look_up_in_to(&column, bytes, len, id, &answer);
    return answer;
}

/*
 * Looks a page of ids up in one call, which opens the header once: the sooner way for many ids. The ids
 * may repeat and stand in any order.
 *
 * Done: the first ids_len places of the three lists were written, and those after them stay as they
 * were. Place i holds what signalfern_look_up(bytes, len, ids[i]) answers: in kinds[i] SIGNALFERN_FOUND,
 * SIGNALFERN_ABSENT or the refusal (7 to 11, 14, 15), without the number that comes with it; in
 * ordinals[i] and values[i] the ordinal and the value, and 0 where the id is not found. Where the
 * header is refused, every place holds that refusal, but one whose id is above the limit holds 14. A
 * refused place counts no words. No ids: done, and no byte is read.
 *
 * Refused: 12 where a list is shorter than the ids, before any byte is read or written.
 */
void signalfern_look_up_page_to(const uint8_t *bytes, size_t len, const uint32_t *ids, size_t ids_len,
                                uint64_t *ordinals, size_t ordinals_len, int64_t *values, size_t values_len,
                                uint8_t *kinds, size_t kinds_len, signalfern_page *reply);

static inline signalfern_page signalfern_look_up_page(const uint8_t *bytes, size_t len, const uint32_t *ids,
                                                      size_t ids_len, uint64_t *ordinals, size_t ordinals_len,
                                                      int64_t *values, size_t values_len, uint8_t *kinds,
                                                      size_t kinds_len)
{
    signalfern_page reply;
    signalfern_look_up_page_to(bytes, len, ids, ids_len, ordinals, ordinals_len, values, values_len, kinds,
                               kinds_len, &reply);
    return reply;
}

/*
 * Finds the first listed id at or above the target, for a walk: the cursor that an answer brings is
 * the one for the next call. Targets stand still or grow. last is the cursor's number.
 *
 * Found, none or refused: 14; 16 where the target is below last; then 7 to 11; then 15. None is
 * an answer too, and a refusal keeps the cursor. On bytes that signalfern_check accepts the answer is
 * that of the pair list. On other bytes it is what the look-up's steps say for the target and each id
 * above it in turn: the first that is not absent decides, and where all are absent there is none. In a
 * sparse block such a step goes through the entries in order, to the first at or above the place, and
 * does not halve them.
 */
void signalfern_next_to(uint64_t last, const uint8_t *bytes, size_t len, uint32_t target,
                        signalfern_candidate *candidate);

static inline signalfern_candidate signalfern_next(signalfern_cursor cursor, const uint8_t *bytes, size_t len,
                                                   uint32_t target)
{
    signalfern_candidate candidate;
    signalfern_next_to(cursor.last, bytes, len, target, &candidate);
    return candidate;
}

/*
 * The same in a column opened before. With the column of signalfern_open(bytes, len), not refused, and
 * the same bytes, the answer is that of signalfern_next(cursor, bytes, len, target). Any other column
 * is allowed too, as for signalfern_look_up_in. Refused: 14, 16, 10, 11, 15.
 */
void signalfern_next_in_to(const signalfern_column *column, uint64_t last, const uint8_t *bytes, size_t len,
                           uint32_t target, signalfern_candidate *candidate);

static inline signalfern_candidate signalfern_next_in(signalfern_column column, signalfern_cursor cursor,
                                                      const uint8_t *bytes, size_t len, uint32_t target)
{
    signalfern_candidate candidate;
    signalfern_next_in_to(&column, cursor.last, bytes, len, target, &candidate);
    return candidate;
}

/*
 * Reads the pairs from an id on, as many as both lists have places: a walk in bulk.
 *
 * Place 0 holds what signalfern_next with a new cursor answers for the id, place 1 what it answers for the
 * id after that one, and so on, until no listed id is left, a list is full, or the next one would be
 * refused. More: count pairs were placed, and a call from the last id + 1 goes on. Ended: count pairs were
 * placed, and no listed id is left above them. The places after the pairs stay as they were.
 *
 * Refused only where the very first pair is, with room for it or not: 14, then 7 to 11, then 15; nothing is
 * written. A failed step after the first pair is more: the call that goes on is refused. With a list of no
 * places the answer tells whether a listed id is left. Reading on from the last id + 1 gives each pair once,
 * whatever the lists' lengths; on bytes that signalfern_check accepts, the whole pair list.
 */
void signalfern_read_from_to(const uint8_t *bytes, size_t len, uint32_t id, uint32_t *ids, size_t ids_len,
                             int64_t *values, size_t values_len, signalfern_readout *readout);

static inline signalfern_readout signalfern_read_from(const uint8_t *bytes, size_t len, uint32_t id,
                                                      uint32_t *ids, size_t ids_len, int64_t *values,
                                                      size_t values_len)
{
    signalfern_readout readout;
    signalfern_read_from_to(bytes, len, id, ids, ids_len, values, values_len, &readout);
    return readout;
}

/*
 * The same in a column opened before. With the column of signalfern_open(bytes, len), not refused, and the
 * same bytes, answer and lists are those of signalfern_read_from. Any other column is allowed too, as for
 * signalfern_look_up_in. Refused: 14, 10, 11, 15.
 */
void signalfern_read_from_in_to(const signalfern_column *column, const uint8_t *bytes, size_t len, uint32_t id,
                                uint32_t *ids, size_t ids_len, int64_t *values, size_t values_len,
                                signalfern_readout *readout);

static inline signalfern_readout signalfern_read_from_in(signalfern_column column, const uint8_t *bytes,
                                                         size_t len, uint32_t id, uint32_t *ids, size_t ids_len,
                                                         int64_t *values, size_t values_len)
{
    signalfern_readout readout;
    signalfern_read_from_in_to(&column, bytes, len, id, ids, ids_len, values, values_len, &readout);
    return readout;
}

/*
 * The pair with an ordinal: the look-up's steps the other way round. The jump entries are halved for the
 * block, a dense block's ranks for the stride.
 *
 * Found, none or refused: 7 to 11; none for an ordinal of n or more; then 15. On bytes that signalfern_check
 * accepts the answer is the pair list's.
 */
void signalfern_pair_at_to(const uint8_t *bytes, size_t len, uint64_t ordinal, signalfern_pair *pair);

static inline signalfern_pair signalfern_pair_at(const uint8_t *bytes, size_t len, uint64_t ordinal)
{
    signalfern_pair pair;
    signalfern_pair_at_to(bytes, len, ordinal, &pair);
    return pair;
}

/*
 * The same in a column opened before, any column, as for signalfern_look_up_in. Refused: 10, 11, 15.
 */
void signalfern_pair_at_in_to(const signalfern_column *column, const uint8_t *bytes, size_t len,
                              uint64_t ordinal, signalfern_pair *pair);

static inline signalfern_pair signalfern_pair_at_in(signalfern_column column, const uint8_t *bytes, size_t len,
                                                    uint64_t ordinal)
{
    signalfern_pair pair;
    signalfern_pair_at_in_to(&column, bytes, len, ordinal, &pair);
    return pair;
}

/*
 * Finds the first ordinal with a value from low to high, both included, in a column of edition 3. It goes
 * by the directory: a run whose smallest value is above high, or whose greatest is below low, is skipped
 * unread, and of any other the values are read in turn.
 *
 * Found, none or refused: 7 to 11, and 9 for any other edition, as soon as the first header number is read;
 * then, where low is above high, none; then 15 for a value that a look-up would call broken, in a run that
 * is not skipped and before the answer. On bytes that signalfern_check accepts the answer is that of a plain
 * scan of the values. On other bytes the directory is believed: what it says of a run decides whether the
 * run is read.
 */
void signalfern_first_between_to(const uint8_t *bytes, size_t len, int64_t low, int64_t high,
                                 signalfern_between *between);

static inline signalfern_between signalfern_first_between(const uint8_t *bytes, size_t len, int64_t low,
                                                          int64_t high)
{
    signalfern_between between;
    signalfern_first_between_to(bytes, len, low, high, &between);
    return between;
}

/*
 * The same in a column opened before. With the column of signalfern_open(bytes, len), not refused, and the
 * same bytes, the answer is that of signalfern_first_between(bytes, len, low, high). Any other column is
 * allowed too. Refused: 9 where its edition is not SIGNALFERN_RUNS, which comes first here too; then 10 and
 * 11 as by signalfern_look_up_in; then 15.
 */
void signalfern_first_between_in_to(const signalfern_column *column, const uint8_t *bytes, size_t len,
                                    int64_t low, int64_t high, signalfern_between *between);

static inline signalfern_between signalfern_first_between_in(signalfern_column column, const uint8_t *bytes,
                                                             size_t len, int64_t low, int64_t high)
{
    signalfern_between between;
    signalfern_first_between_in_to(&column, bytes, len, low, high, &between);
    return between;
}

/*
 * The same question above an answer: the first ordinal from `from` on with such a value. So the answer + 1,
 * handed in as the next `from`, lists them all. None for an ordinal of n or more; from 0 it is
 * signalfern_first_between. Refused as that is.
 */
void signalfern_first_between_from_to(const uint8_t *bytes, size_t len, uint64_t from, int64_t low,
                                      int64_t high, signalfern_between *between);

static inline signalfern_between signalfern_first_between_from(const uint8_t *bytes, size_t len, uint64_t from,
                                                               int64_t low, int64_t high)
{
    signalfern_between between;
    signalfern_first_between_from_to(bytes, len, from, low, high, &between);
    return between;
}

/*
 * The same in a column opened before, refused as signalfern_first_between_in.
 */
void signalfern_first_between_from_in_to(const signalfern_column *column, const uint8_t *bytes, size_t len,
                                         uint64_t from, int64_t low, int64_t high,
                                         signalfern_between *between);

static inline signalfern_between signalfern_first_between_from_in(signalfern_column column,
                                                                  const uint8_t *bytes, size_t len,
                                                                  uint64_t from, int64_t low, int64_t high)
{
    signalfern_between between;
    signalfern_first_between_from_in_to(&column, bytes, len, from, low, high, &between);
    return between;
}

/*
 * Looks one id up in a machine column with a correction on top.
 *
 * The correction is looked in first, as by signalfern_look_up. Where it holds the id or refuses, that
 * is the answer, and the machine column is not read, whatever its bytes are. Where the id is absent
 * there, the machine column's answer or refusal is the call's. An id above the limit is refused as the
 * correction's. Both may be the same bytes.
 */
void signalfern_look_up_layered_to(const uint8_t *machine, size_t machine_len, const uint8_t *correction,
                                   size_t correction_len, uint32_t id, signalfern_layered *answer);

static inline signalfern_layered signalfern_look_up_layered(const uint8_t *machine, size_t machine_len,
                                                            const uint8_t *correction, size_t correction_len,
                                                            uint32_t id)
{
    signalfern_layered answer;
    signalfern_look_up_layered_to(machine, machine_len, correction, correction_len, id, &answer);
    return answer;
}

/*
 * The same in two columns opened before, each with its own bytes. Any other columns are allowed too, as
 * for signalfern_look_up_in, by which each is looked in.
 */
void signalfern_look_up_layered_in_to(const signalfern_column *machine_column, const uint8_t *machine,
                                      size_t machine_len, const signalfern_column *correction_column,
                                      const uint8_t *correction, size_t correction_len, uint32_t id,
                                      signalfern_layered *answer);

static inline signalfern_layered signalfern_look_up_layered_in(signalfern_column machine_column,
                                                               const uint8_t *machine, size_t machine_len,
                                                               signalfern_column correction_column,
                                                               const uint8_t *correction, size_t correction_len,
                                                               uint32_t id)
{
    signalfern_layered answer;
    signalfern_look_up_layered_in_to(&machine_column, machine, machine_len, &correction_column, correction,
                                     correction_len, id, &answer);
    return answer;
}

/*
 * Tells where the bytes are that hold the id's value: the value section of the column that
 * signalfern_look_up_layered names, for the same inputs. Where that finds nothing or refuses, it is an
 * empty part of the machine column: 0, 0, 0.
 */
void signalfern_layered_values_to(const uint8_t *machine, size_t machine_len, const uint8_t *correction,
                                  size_t correction_len, uint32_t id, signalfern_part *part);

static inline signalfern_part signalfern_layered_values(const uint8_t *machine, size_t machine_len,
                                                        const uint8_t *correction, size_t correction_len,
                                                        uint32_t id)
{
    signalfern_part part;
    signalfern_layered_values_to(machine, machine_len, correction, correction_len, id, &part);
    return part;
}

/*
 * Looks a page of ids up in a machine column with a correction on top, both headers read once: into place i
 * of each list what signalfern_look_up_layered answers for ids[i], in any order and with repeats. kinds[i] is
 * SIGNALFERN_FOUND, SIGNALFERN_ABSENT, or the refusal's number; columns[i] is the column that holds the id or
 * refused it, and 0 where it is absent. Absent and refused places hold ordinal 0 and value 0. Places after the
 * ids stay as they were. The machine column is not read where no id is absent in the correction.
 *
 * Refused: 12 where a list is shorter than the ids, before any byte is read or written.
 */
void signalfern_look_up_layered_page_to(const uint8_t *machine, size_t machine_len, const uint8_t *correction,
                                        size_t correction_len, const uint32_t *ids, size_t ids_len,
                                        uint64_t *ordinals, size_t ordinals_len, int64_t *values,
                                        size_t values_len, uint8_t *kinds, size_t kinds_len, uint8_t *columns,
                                        size_t columns_len, signalfern_layered_page *reply);

static inline signalfern_layered_page
signalfern_look_up_layered_page(const uint8_t *machine, size_t machine_len, const uint8_t *correction,
                                size_t correction_len, const uint32_t *ids, size_t ids_len, uint64_t *ordinals,
                                size_t ordinals_len, int64_t *values, size_t values_len, uint8_t *kinds,
                                size_t kinds_len, uint8_t *columns, size_t columns_len)
{
    signalfern_layered_page reply;
    signalfern_look_up_layered_page_to(machine, machine_len, correction, correction_len, ids, ids_len, ordinals,
                                       ordinals_len, values, values_len, kinds, kinds_len, columns, columns_len,
                                       &reply);
    return reply;
}

/*
 * The same in two columns opened before, each with its own bytes. Any other columns are allowed too, as
 * for signalfern_look_up_in: 10 and 11 in the place of 7 to 11.
 */
void signalfern_look_up_layered_page_in_to(const signalfern_column *machine_column, const uint8_t *machine,
                                           size_t machine_len, const signalfern_column *correction_column,
                                           const uint8_t *correction, size_t correction_len, const uint32_t *ids,
                                           size_t ids_len, uint64_t *ordinals, size_t ordinals_len,
                                           int64_t *values, size_t values_len, uint8_t *kinds, size_t kinds_len,
                                           uint8_t *columns, size_t columns_len,
                                           signalfern_layered_page *reply);

static inline signalfern_layered_page
signalfern_look_up_layered_page_in(signalfern_column machine_column, const uint8_t *machine, size_t machine_len,
                                   signalfern_column correction_column, const uint8_t *correction,
                                   size_t correction_len, const uint32_t *ids, size_t ids_len,
                                   uint64_t *ordinals, size_t ordinals_len, int64_t *values, size_t values_len,
                                   uint8_t *kinds, size_t kinds_len, uint8_t *columns, size_t columns_len)
{
    signalfern_layered_page reply;
    signalfern_look_up_layered_page_in_to(&machine_column, machine, machine_len, &correction_column, correction,
                                          correction_len, ids, ids_len, ordinals, ordinals_len, values,
                                          values_len, kinds, kinds_len, columns, columns_len, &reply);
    return reply;
}

/*
 * Reads the pairs of a machine column with a correction on top from an id on, in the order of ids, as many
 * as all three lists have places; columns[i] is the column that pair i came from.
 *
 * Each place holds the smaller of the two columns' next pairs, as signalfern_next with a new cursor answers
 * for the id after the place before it; the correction's where both have the id. It ends as
 * signalfern_read_from does: where neither column has a pair left (ended), where a list is full, or where
 * the next pair of either column would be refused (more): a pair that cannot be read is not passed over,
 * though the other column's pair be smaller. The places after the pairs stay as they were.
 *
 * Refused only where the very first step is, and names its column: 14 by the correction; 7 to 11 and 15 by
 * the correction; then 7 to 11 and 15 by the machine column. Nothing is written. Reading on from the last
 * id + 1 gives each pair once, whatever the lists' lengths; on bytes that signalfern_check accepts, both
 * pair lists as one, in which the correction's pair stands in the place of the machine column's.
 */
void signalfern_read_layered_from_to(const uint8_t *machine, size_t machine_len, const uint8_t *correction,
                                     size_t correction_len, uint32_t id, uint32_t *ids, size_t ids_len,
                                     int64_t *values, size_t values_len, uint8_t *columns, size_t columns_len,
                                     signalfern_layered_readout *readout);

static inline signalfern_layered_readout
signalfern_read_layered_from(const uint8_t *machine, size_t machine_len, const uint8_t *correction,
                             size_t correction_len, uint32_t id, uint32_t *ids, size_t ids_len, int64_t *values,
                             size_t values_len, uint8_t *columns, size_t columns_len)
{
    signalfern_layered_readout readout;
    signalfern_read_layered_from_to(machine, machine_len, correction, correction_len, id, ids, ids_len, values,
                                    values_len, columns, columns_len, &readout);
    return readout;
}

/*
 * The same in two columns opened before, each with its own bytes. Any other columns are allowed too, as
 * for signalfern_look_up_in: 10 and 11 in the place of 7 to 11.
 */
void signalfern_read_layered_from_in_to(const signalfern_column *machine_column, const uint8_t *machine,
                                        size_t machine_len, const signalfern_column *correction_column,
                                        const uint8_t *correction, size_t correction_len, uint32_t id,
                                        uint32_t *ids, size_t ids_len, int64_t *values, size_t values_len,
                                        uint8_t *columns, size_t columns_len,
                                        signalfern_layered_readout *readout);

static inline signalfern_layered_readout
signalfern_read_layered_from_in(signalfern_column machine_column, const uint8_t *machine, size_t machine_len,
                                signalfern_column correction_column, const uint8_t *correction,
                                size_t correction_len, uint32_t id, uint32_t *ids, size_t ids_len,
                                int64_t *values, size_t values_len, uint8_t *columns, size_t columns_len)
{
    signalfern_layered_readout readout;
    signalfern_read_layered_from_in_to(&machine_column, machine, machine_len, &correction_column, correction,
                                       correction_len, id, ids, ids_len, values, values_len, columns,
                                       columns_len, &readout);
    return readout;
}

/*
 * Sets on disk: ids without values, and without a header. A set is the number of its blocks of 65536
 * ids and each block that has an id: its ids listed, its missing ids listed, or a bitmap, whichever the
 * count asks for.
 */

/*
 * Writes the set of the ids to the front of out.
 *
 * Done: number is the set's byte count; exactly these bytes of out were written. Refused: 3, 4 or 6, the
 * lowest that applies, and out stays as it was. To learn how many bytes are needed, call with out_len 0.
 */
void signalfern_set_write_to(const uint32_t *ids, size_t ids_len, uint8_t *out, size_t out_len,
                             signalfern_reply *reply);

static inline signalfern_reply signalfern_set_write(const uint32_t *ids, size_t ids_len, uint8_t *out,
                                                    size_t out_len)
{
    signalfern_reply reply;
    signalfern_set_write_to(ids, ids_len, out, out_len, &reply);
    return reply;
}

/*
 * Tells whether the bytes are a set, to the last bit.
 *
 * Done: number is the count of ids, and there is just one id list with this set. Refused: the first
 * fault in the order of the bytes decides, 7 or 8 for one of the set's numbers, with the numbers that a
 * header has with them, and 13 for all else. The time grows with the bytes, not with the ids.
 */
void signalfern_set_check_to(const uint8_t *bytes, size_t len, signalfern_reply *reply);

static inline signalfern_reply signalfern_set_check(const uint8_t *bytes, size_t len)
{
    signalfern_reply reply;
    signalfern_set_check_to(bytes, len, &reply);
    return reply;
}

/*
 * Tells whether the id is in the set, and its ordinal. Refused: 14, then as signalfern_set_check: the
 * bytes are checked in full on the way, and each question takes that long. It answers as
 * signalfern_look_up does in a column of the same ids.
 */
void signalfern_set_find_to(const uint8_t *bytes, size_t len, uint32_t id, signalfern_member *member);

static inline signalfern_member signalfern_set_find(const uint8_t *bytes, size_t len, uint32_t id)
{
    signalfern_member member;
    signalfern_set_find_to(bytes, len, id, &member);
    return member;
}

/*
 * Judges a bare id section, without a header of ours, as another maker sends it: its bytes, how many
 * jump entries it has, and its rank power.
 *
 * high_first 0: shorts, ints and longs are low byte first, as Lucene 9 writes them. Otherwise they are
 * high byte first, as Lucene 8 does. Ranks are high byte first in both.
 *
 * Accepted: some list of ids, and just one, has this section with so many jump entries at this power.
 * Faulty: the first fault, by the tests of the enum above, block by block.
 */
void signalfern_judge_section_to(const uint8_t *bytes, size_t len, uint64_t jump_count, uint64_t power,
                                 uint32_t high_first, signalfern_judgement *judgement);

static inline signalfern_judgement signalfern_judge_section(const uint8_t *bytes, size_t len,
                                                            uint64_t jump_count, uint64_t power,
                                                            uint32_t high_first)
{
    signalfern_judgement judgement;
    signalfern_judge_section_to(bytes, len, jump_count, power, high_first, &judgement);
    return judgement;
}

/*
 * From here on plain C, not proved (c/names.c). No text is to be freed, and none is NULL.
 */

/* The version of the library that is linked, as SIGNALFERN_VERSION. */
const char *signalfern_version(void);

/*
 * The name of a refusal, as "DAMAGED"; "NONE" for 0 and "UNKNOWN" for a number that no refusal has.
 * The kind of an answer is a refusal from 2 on.
 */
const char *signalfern_refusal_name(uint64_t refusal);

/* A sentence that says what is wrong, without its full stop. */
const char *signalfern_refusal_text(uint64_t refusal);

/* The name of a reason for which a section is faulty, as "RANK"; "NONE" for 0, and "UNKNOWN". */
const char *signalfern_reason_name(uint64_t reason);

/* A sentence that says what is wrong, without its full stop. */
const char *signalfern_reason_text(uint64_t reason);

/* The smallest value of a column, from its header number `smallest`. */
int64_t signalfern_smallest(uint64_t smallest);

#ifdef __cplusplus
}
#endif

#endif
