/*
 * Score columns as tables of SQLite: a loadable extension over the library.
 *
 *     .load signalfern
 *     CREATE VIRTUAL TABLE scores USING signalfern('machine.column', correction='correction.column');
 *     SELECT * FROM scores WHERE id = 7;
 *     SELECT * FROM signalfern('machine.column') WHERE id BETWEEN 100 AND 200;
 *
 * A row is a pair: id, value, ordinal (its index in its own column) and by, which column spoke. Every
 * score is the answer of a proved call; this file chooses the call and is tested, not proved.
 * docs/SQLITE.md has the rest.
 */
#define _POSIX_C_SOURCE 200809L

#include <errno.h>
#include <fcntl.h>
#include <signalfern.h>
#include <sqlite3ext.h>
#include <stdlib.h>
#include <string.h>
#include <sys/mman.h>
#include <sys/stat.h>
#include <unistd.h>

SQLITE_EXTENSION_INIT1

/* sqlite3_txn_state is of this version of SQLite, and sqlite3_vtab_in of the second: before it an IN comes id by id. */
#define OLDEST_SQLITE 3034000
#define PAGES_SQLITE 3038000

#if SQLITE_VERSION_NUMBER < PAGES_SQLITE
#undef sqlite3_vtab_in
#undef sqlite3_vtab_in_first
#undef sqlite3_vtab_in_next
#define sqlite3_vtab_in(info, constraint, handle) ((void)(info), (void)(constraint), 0)
#define sqlite3_vtab_in_first(list, value) ((void)(list), *(value) = NULL, SQLITE_DONE)
#define sqlite3_vtab_in_next(list, value) ((void)(list), *(value) = NULL, SQLITE_DONE)
#endif

/*
 * What is said. A refusal has its number, its name and its sentence, as the tool says it; 102 is the tool's own.
 */

enum { DIGEST = 102, DIGEST_BYTES = 32 };

static char *refusal_text(const char *what, uint64_t refusal, uint64_t number)
{
    char *about = number ? sqlite3_mprintf(" (%llu)", (unsigned long long)number) : NULL;
    char *text =
        sqlite3_mprintf("%s%srefusal %llu, %s: %s%s", what ? what : "", what ? ": " : "", (unsigned long long)refusal,
                        signalfern_refusal_name(refusal), signalfern_refusal_text(refusal), about ? about : "");
    sqlite3_free(about);
    return text;
}

static int cannot(const char *action, const char *path, const char *why, char **error)
{
    int wrong = errno;
    *error = sqlite3_mprintf("cannot %s %s: %s", action, path, why);
    errno = wrong;
    return SQLITE_CANTOPEN;
}

/*
 * Columns in files: mapped, never copied. A file that is replaced by rename keeps its old bytes here. One that is
 * changed or cut in place is found at the next statement; to touch a page that was cut away ends the program.
 */

typedef struct {
    char *path;
    int file;
    struct timespec changed;
    const uint8_t *bytes;
    size_t len;
    signalfern_column opened;
} mapped;

/* A machine column, maybe with a correction on top. Without a path it is not open. */
typedef struct {
    mapped machine, correction;
} scores;

static void close_column(mapped *c)
{
    if (!c->path)
        return;
    if (c->bytes)
        munmap((void *)c->bytes, c->len);
    if (c->file >= 0)
        close(c->file);
    sqlite3_free(c->path);
    memset(c, 0, sizeof *c);
}

static int map_file(mapped *c, char **error)
{
    struct stat about;
    c->file = open(c->path, O_RDONLY | O_CLOEXEC | O_NONBLOCK);
    if (c->file < 0 || fstat(c->file, &about) != 0)
        return cannot("read", c->path, strerror(errno), error);
    errno = 0;
    if (!S_ISREG(about.st_mode))
        return cannot("read", c->path, "it is no plain file", error);
    c->changed = about.st_mtim;
    c->len = (size_t)about.st_size;
    if (c->len == 0) /* (which has no pages; the check refuses it) */
        return SQLITE_OK;
    void *bytes = mmap(NULL, c->len, PROT_READ, MAP_PRIVATE, c->file, 0);
    if (bytes == MAP_FAILED)
        return cannot("map", c->path, strerror(errno), error);
    c->bytes = bytes;
    return SQLITE_OK;
}

/*
 * SHA-256 (FIPS 180-4).
 */

enum { HASHED = 64 };

static const uint32_t rounds[64] = {
    0x428a2f98, 0x71374491, 0xb5c0fbcf, 0xe9b5dba5, 0x3956c25b, 0x59f111f1, 0x923f82a4, 0xab1c5ed5,
    0xd807aa98, 0x12835b01, 0x243185be, 0x550c7dc3, 0x72be5d74, 0x80deb1fe, 0x9bdc06a7, 0xc19bf174,
    0xe49b69c1, 0xefbe4786, 0x0fc19dc6, 0x240ca1cc, 0x2de92c6f, 0x4a7484aa, 0x5cb0a9dc, 0x76f988da,
    0x983e5152, 0xa831c66d, 0xb00327c8, 0xbf597fc7, 0xc6e00bf3, 0xd5a79147, 0x06ca6351, 0x14292967,
    0x27b70a85, 0x2e1b2138, 0x4d2c6dfc, 0x53380d13, 0x650a7354, 0x766a0abb, 0x81c2c92e, 0x92722c85,
    0xa2bfe8a1, 0xa81a664b, 0xc24b8b70, 0xc76c51a3, 0xd192e819, 0xd6990624, 0xf40e3585, 0x106aa070,
    0x19a4c116, 0x1e376c08, 0x2748774c, 0x34b0bcb5, 0x391c0cb3, 0x4ed8aa4a, 0x5b9cca4f, 0x682e6ff3,
    0x748f82ee, 0x78a5636f, 0x84c87814, 0x8cc70208, 0x90befffa, 0xa4506ceb, 0xbef9a3f7, 0xc67178f2,
};

static uint32_t rotated(uint32_t word, int bits)
{
    return word >> bits | word << (32 - bits);
}

static void compress(uint32_t state[8], const uint8_t *bytes)
{
    uint32_t w[64], s[8];
    for (int i = 0; i < 16; i++)
        w[i] = (uint32_t)bytes[4 * i] << 24 | (uint32_t)bytes[4 * i + 1] << 16 | (uint32_t)bytes[4 * i + 2] << 8 |
               bytes[4 * i + 3];
    for (int i = 16; i < 64; i++) {
        uint32_t near = w[i - 15], far = w[i - 2];
        w[i] = w[i - 16] + w[i - 7] + (rotated(near, 7) ^ rotated(near, 18) ^ near >> 3) +
               (rotated(far, 17) ^ rotated(far, 19) ^ far >> 10);
    }
    memcpy(s, state, sizeof s);
    for (int i = 0; i < 64; i++) {
        uint32_t first = s[7] + (rotated(s[4], 6) ^ rotated(s[4], 11) ^ rotated(s[4], 25)) +
                         ((s[4] & s[5]) ^ (~s[4] & s[6])) + rounds[i] + w[i];
        uint32_t second = (rotated(s[0], 2) ^ rotated(s[0], 13) ^ rotated(s[0], 22)) +
                          ((s[0] & s[1]) ^ (s[0] & s[2]) ^ (s[1] & s[2]));
        memmove(s + 1, s, 7 * sizeof s[0]);
        s[4] += first;
        s[0] = first + second;
    }
    for (int i = 0; i < 8; i++)
        state[i] += s[i];
}

static void sha256(const uint8_t *bytes, size_t len, uint8_t digest[DIGEST_BYTES])
{
    uint32_t state[8] = {0x6a09e667, 0xbb67ae85, 0x3c6ef372, 0xa54ff53a,
                         0x510e527f, 0x9b05688c, 0x1f83d9ab, 0x5be0cd19};
    /* After the last whole block: the rest, a one bit, zeros, and the count of bits. */
    uint8_t last[2 * HASHED] = {0};
    size_t rest = len % HASHED, whole = len - rest, end = rest + 9 <= HASHED ? HASHED : 2 * HASHED;
    for (size_t at = 0; at < whole; at += HASHED)
        compress(state, bytes + at);
    if (rest)
        memcpy(last, bytes + whole, rest);
    last[rest] = 0x80;
    for (size_t i = 0; i < 8; i++)
        last[end - 1 - i] = (uint8_t)((uint64_t)len * 8 >> 8 * i);
    for (size_t at = 0; at < end; at += HASHED)
        compress(state, last + at);
    for (size_t i = 0; i < DIGEST_BYTES; i++)
        digest[i] = (uint8_t)(state[i / 4] >> (24 - 8 * (i % 4)));
}

/*
 * The sidecar: FILE.sha256 beside a file tells its digest, in the forms of sha256sum. Where it stands it is compared.
 */

static int hex_digit(char digit)
{
    const char *digits = "0123456789abcdef0123456789ABCDEF", *at = digit ? strchr(digits, digit) : NULL;
    return at ? (int)(at - digits) % 16 : -1;
}

static int parse_digest(const char *text, uint8_t digest[DIGEST_BYTES])
{
    for (int i = 0; i < DIGEST_BYTES; i++) {
        int high = hex_digit(text[2 * i]), low = high < 0 ? -1 : hex_digit(text[2 * i + 1]);
        if (low < 0)
            return 0;
        digest[i] = (uint8_t)(16 * high + low);
    }
    return 1;
}

/* Whether a line's name, maybe with a folder before it, is this one as sha256sum escapes it. */
static int is_named(const char *name, size_t len, const char *wanted)
{
    for (size_t i = 0; i < len; i++)
        if (name[i] == '/')
            return is_named(name + i + 1, len - i - 1, wanted);
    for (; *wanted; wanted++) {
        const char *as = *wanted == '\\' ? "\\\\" : *wanted == '\n' ? "\\n" : *wanted == '\r' ? "\\r" : NULL;
        size_t took = as ? 2 : 1;
        if (len < took || memcmp(name, as ? as : wanted, took) != 0)
            return 0;
        name += took;
        len -= took;
    }
    return len == 0;
}

/* The digest that a line tells of the file: `DIGEST  NAME`, or `SHA256 (NAME) = DIGEST`. */
static int digest_in_line(const char *line, size_t len, const char *wanted, uint8_t digest[DIGEST_BYTES])
{
    enum { DIGITS = 2 * DIGEST_BYTES, FRONT = 8, MIDDLE = 4 };
    if (len > 0 && line[len - 1] == '\r')
        len--;
    if (len > 0 && line[0] == '\\') {
        line++;
        len--;
    }
    if (len >= FRONT + MIDDLE + DIGITS && memcmp(line, "SHA256 (", FRONT) == 0 &&
        memcmp(line + len - DIGITS - MIDDLE, ") = ", MIDDLE) == 0 && parse_digest(line + len - DIGITS, digest))
        return is_named(line + FRONT, len - FRONT - MIDDLE - DIGITS, wanted);
    return len >= DIGITS + 2 && line[DIGITS] == ' ' && parse_digest(line, digest) &&
           is_named(line + DIGITS + 2, len - DIGITS - 2, wanted);
}

/* Compares the digest of a file's bytes with every one that the sidecar's text tells of it. */
static int compare_told(const mapped *c, const mapped *sidecar, char **error)
{
    const char *slash = strrchr(c->path, '/'), *name = slash ? slash + 1 : c->path;
    const char *line = sidecar->len ? (const char *)sidecar->bytes : "", *end = line + sidecar->len, *after;
    uint8_t digest[DIGEST_BYTES], told[DIGEST_BYTES];
    int lines = 0;
    sha256(c->bytes, c->len, digest);
    for (; line < end; line = after + 1) {
        after = memchr(line, '\n', (size_t)(end - line));
        after = after ? after : end;
        if (!digest_in_line(line, (size_t)(after - line), name, told))
            continue;
        lines++;
        if (memcmp(digest, told, DIGEST_BYTES) != 0) {
            *error = sqlite3_mprintf(
                "%s: refusal %d, DIGEST: a sound column, but not the one that the digest of %s was taken of", c->path,
                DIGEST, sidecar->path);
            return SQLITE_ERROR;
        }
    }
    return lines ? SQLITE_OK
                 : cannot("use", sidecar->path, "it has no line `DIGEST  NAME` as sha256sum writes it", error);
}

static int compare_sidecar(const mapped *c, char **error)
{
    mapped sidecar = {.path = sqlite3_mprintf("%s.sha256", c->path), .file = -1};
    if (!sidecar.path)
        return SQLITE_NOMEM;
    int status = map_file(&sidecar, error);
    if (status == SQLITE_OK) {
        status = compare_told(c, &sidecar, error);
    } else if (errno == ENOENT || errno == ENOTDIR || errno == ENAMETOOLONG) {
        sqlite3_free(*error);
        *error = NULL;
        status = SQLITE_OK;
    }
    close_column(&sidecar);
    return status;
}

/*
 * Columns opened: checked, and with the digest that they must have.
 */

/* SQLITE_ERROR is a refusal, by the library or by the digest; any other status is trouble with the file. */
static int check_file(mapped *c, char **error)
{
    signalfern_reply checked;
    int status = map_file(c, error);
    if (status != SQLITE_OK)
        return status;
    signalfern_check_to(c->bytes, c->len, &checked);
    if (checked.refusal) {
        *error = refusal_text(c->path, checked.refusal, checked.number);
        return SQLITE_ERROR;
    }
    signalfern_open_to(c->bytes, c->len, &c->opened);
    return compare_sidecar(c, error);
}

static int open_column(mapped *c, const char *path, char **error)
{
    *c = (mapped){.path = sqlite3_mprintf("%s", path), .file = -1};
    if (!c->path)
        return SQLITE_NOMEM;
    int status = check_file(c, error);
    if (status != SQLITE_OK)
        close_column(c);
    return status;
}

static void close_scores(scores *s)
{
    close_column(&s->machine);
    close_column(&s->correction);
}

static int open_scores(scores *s, const char *machine, const char *correction, char **error)
{
    int status = open_column(&s->machine, machine, error);
    if (status == SQLITE_OK && correction)
        status = open_column(&s->correction, correction, error);
    if (status != SQLITE_OK)
        close_scores(s);
    return status;
}

/* Whether the file is still as it was when it was checked. */
static int is_unchanged(const mapped *c, char **error)
{
    struct stat about;
    if (!c->path || (fstat(c->file, &about) == 0 && (size_t)about.st_size == c->len &&
                     about.st_mtim.tv_sec == c->changed.tv_sec && about.st_mtim.tv_nsec == c->changed.tv_nsec))
        return SQLITE_OK;
    return cannot("use", c->path, "it was changed in place after it was checked; open the database again", error);
}

/* One id in two columns: which of them spoke, and the ordinal there. */
static signalfern_layered layered_look_up(const scores *s, uint32_t id)
{
    signalfern_layered answer;
    signalfern_look_up_layered_in_to(&s->machine.opened, s->machine.bytes, s->machine.len, &s->correction.opened,
                                     s->correction.bytes, s->correction.len, id, &answer);
    return answer;
}

/*
 * Comparisons with values of SQL. The columns are INTEGERs: a text is taken for the number that it is, as SQLite
 * does it, numbers are compared exactly, and all other texts and all blobs are above every number.
 */

typedef struct {
    int64_t low, high; /* both included; none where low is above high */
} range;

static const range every_id = {0, SIGNALFERN_MAX_ID}, every_value = {INT64_MIN, INT64_MAX}, nothing = {1, 0};

static int is_within(const range *r, int64_t number)
{
    return number >= r->low && number <= r->high;
}

/* Keeps what compares so with floor, if it is whole, or with a number between floor and floor + 1. */
static void narrow_by(range *r, int op, int64_t floor, int is_whole)
{
    int is_upper = op == SQLITE_INDEX_CONSTRAINT_LT || op == SQLITE_INDEX_CONSTRAINT_LE;
    int is_equal = op == SQLITE_INDEX_CONSTRAINT_EQ;
    int is_past = op == SQLITE_INDEX_CONSTRAINT_GT || (op == SQLITE_INDEX_CONSTRAINT_GE && !is_whole);
    int is_before = op == SQLITE_INDEX_CONSTRAINT_LT && is_whole;
    if ((is_equal && !is_whole) || (is_past && floor == INT64_MAX) || (is_before && floor == INT64_MIN)) {
        *r = nothing;
        return;
    }
    if (!is_upper && floor + is_past > r->low)
        r->low = floor + is_past;
    if ((is_upper || is_equal) && floor - is_before < r->high)
        r->high = floor - is_before;
}

/* Keeps those of a range that compare so with the value. */
static void narrow(range *r, int op, sqlite3_value *value)
{
    const double beyond = 9223372036854775808.0;
    int type = sqlite3_value_numeric_type(value);
    int is_upper = op == SQLITE_INDEX_CONSTRAINT_LT || op == SQLITE_INDEX_CONSTRAINT_LE;
    int is_lower = op == SQLITE_INDEX_CONSTRAINT_GT || op == SQLITE_INDEX_CONSTRAINT_GE;
    double real = type == SQLITE_FLOAT ? sqlite3_value_double(value) : 0;
    if (type == SQLITE_INTEGER) {
        narrow_by(r, op, sqlite3_value_int64(value), 1);
    } else if (type == SQLITE_NULL) {
        *r = nothing;
    } else if (type != SQLITE_FLOAT || real >= beyond) {
        if (!is_upper)
            *r = nothing;
    } else if (real < -beyond) {
        if (!is_lower)
            *r = nothing;
    } else {
        int64_t floor = (int64_t)real; /* (towards 0) */
        floor -= (double)floor > real;
        narrow_by(r, op, floor, (double)floor == real);
    }
}

/*
 * The table, and the plan of a question to it. A plan's bits say which comparisons are handed over, in this order.
 */

enum { ID, VALUE, ORDINAL, BY, MACHINE_FILE, CORRECTION_FILE };

enum { IN_A_LIST = 1 }; /* (SQLite has no number for it) */

static const struct {
    int column, op;
    const char *text;
} uses[] = {
    {MACHINE_FILE, SQLITE_INDEX_CONSTRAINT_EQ, " file=?"},
    {CORRECTION_FILE, SQLITE_INDEX_CONSTRAINT_EQ, " correction=?"},
    {ID, SQLITE_INDEX_CONSTRAINT_EQ, " id=?"},
    {ID, IN_A_LIST, " id IN"},
    {ID, SQLITE_INDEX_CONSTRAINT_GE, " id>=?"},
    {ID, SQLITE_INDEX_CONSTRAINT_GT, " id>?"},
    {ID, SQLITE_INDEX_CONSTRAINT_LE, " id<=?"},
    {ID, SQLITE_INDEX_CONSTRAINT_LT, " id<?"},
    {VALUE, SQLITE_INDEX_CONSTRAINT_EQ, " value=?"},
    {VALUE, SQLITE_INDEX_CONSTRAINT_GE, " value>=?"},
    {VALUE, SQLITE_INDEX_CONSTRAINT_GT, " value>?"},
    {VALUE, SQLITE_INDEX_CONSTRAINT_LE, " value<=?"},
    {VALUE, SQLITE_INDEX_CONSTRAINT_LT, " value<?"},
};

enum { USES = sizeof uses / sizeof uses[0] };

enum {
    USES_FILE = 1 << 0,
    USES_CORRECTION = 1 << 1,
    USES_ID = 1 << 2,
    USES_LIST = 1 << 3,
    USES_VALUE = 31 << 8,
    COUNTS = 1 << USES /* neither ids nor values are asked for */
};

typedef struct {
    sqlite3_vtab base;
    char *machine, *correction; /* NULL: hidden columns name them */
    scores opened;
} table;

static void say(sqlite3_vtab *vtab, char *error)
{
    sqlite3_free(vtab->zErrMsg);
    vtab->zErrMsg = error;
}

/* The files that the table was made for, opened at its first use. */
static int open_table(table *t, char **error)
{
    if (t->opened.machine.path)
        return SQLITE_OK;
    return open_scores(&t->opened, t->machine, t->correction, error);
}

static int disconnect(sqlite3_vtab *vtab)
{
    table *t = (table *)vtab;
    close_scores(&t->opened);
    sqlite3_free(t->machine);
    sqlite3_free(t->correction);
    sqlite3_free(t);
    return SQLITE_OK;
}

/* A word of CREATE VIRTUAL TABLE without its quotes. */
static char *unquoted(const char *word)
{
    char quote = word[0];
    char *text = sqlite3_mprintf("%s", word);
    size_t len = 0;
    if (!text || (quote != '\'' && quote != '"'))
        return text;
    for (const char *at = word + 1; *at && (*at != quote || at[1] == quote); at++) {
        text[len++] = *at;
        at += *at == quote;
    }
    text[len] = 0;
    return text;
}

/* What follows `correction =`, or NULL. */
static const char *correction_of(const char *word)
{
    const char *name = "correction";
    if (sqlite3_strnicmp(word, name, (int)strlen(name)) != 0)
        return NULL;
    word += strlen(name);
    word += strspn(word, " \t\r\n");
    return *word == '=' ? word + 1 + strspn(word + 1, " \t\r\n") : NULL;
}

static int take_words(table *t, int count, const char *const *words, char **error)
{
    const char *correction = count > 1 ? correction_of(words[1]) : NULL;
    if (count > 2 || (count == 2 && !correction) || correction_of(words[0])) {
        *error = sqlite3_mprintf("signalfern takes a file and, if there is one, a correction: "
                                 "signalfern('machine.column', correction='correction.column')");
        return SQLITE_ERROR;
    }
    t->machine = unquoted(words[0]);
    t->correction = correction ? unquoted(correction) : NULL;
    return t->machine && (t->correction || !correction) ? SQLITE_OK : SQLITE_NOMEM;
}

/*
 * Also xCreate: a module is a function too only where both are the same. A CREATE, which is in a transaction that
 * writes, opens the files at once, so that it fails where they are refused. Otherwise the first question does: a table
 * whose file is gone can still be dropped.
 */
static int connect_table(sqlite3 *db, void *unused, int argc, const char *const *argv, sqlite3_vtab **vtab,
                         char **error)
{
    (void)unused;
    int status =
        sqlite3_declare_vtab(db, argc > 3 ? "CREATE TABLE x(id INTEGER, value INTEGER, ordinal INTEGER, by TEXT)"
                                          : "CREATE TABLE x(id INTEGER, value INTEGER, ordinal INTEGER, by TEXT, "
                                            "file HIDDEN, correction HIDDEN)");
    table *t = status == SQLITE_OK ? sqlite3_malloc(sizeof *t) : NULL;
    if (!t)
        return status == SQLITE_OK ? SQLITE_NOMEM : status;
    memset(t, 0, sizeof *t);
    /* Whoever made the database's schema is not to have files opened by views and triggers. */
    sqlite3_vtab_config(db, SQLITE_VTAB_DIRECTONLY);
    if (argc > 3)
        status = take_words(t, argc - 3, argv + 3, error);
    if (status == SQLITE_OK && t->machine && sqlite3_txn_state(db, argv[1]) == SQLITE_TXN_WRITE)
        status = open_table(t, error);
    if (status == SQLITE_OK)
        *vtab = &t->base;
    else
        disconnect(&t->base);
    return status;
}

/* Which comparison with a column can be used: its place in `uses`, or -1. */
static int use_of(int column, int op)
{
    for (int use = 0; use < USES; use++)
        if (uses[use].column == column && uses[use].op == op)
            return use;
    return -1;
}

/*
 * Finds the constraint, from 1 on, for each use. Every comparison with an id or a value is answered exactly, so
 * SQLite need not test it again; of two that are alike it tests the second.
 */
static int constraints_of(sqlite3_index_info *info, int by_use[USES])
{
    int named = 0;
    for (int i = 0; i < info->nConstraint; i++) {
        const struct sqlite3_index_constraint *c = &info->aConstraint[i];
        int use = use_of(c->iColumn < 0 ? ID : c->iColumn, c->op);
        if (use < 0)
            continue;
        named |= uses[use].column >= MACHINE_FILE ? 1 << use : 0;
        if (c->usable && !by_use[use])
            by_use[use] = i + 1;
    }
    int list = use_of(ID, IN_A_LIST), id = use_of(ID, SQLITE_INDEX_CONSTRAINT_EQ);
    if (by_use[id] && sqlite3_libversion_number() >= PAGES_SQLITE && sqlite3_vtab_in(info, by_use[id] - 1, 1)) {
        by_use[list] = by_use[id];
        by_use[id] = 0;
    }
    return named;
}

static int hand_over(sqlite3_index_info *info, const int by_use[USES])
{
    int plan = 0, arguments = 0;
    for (int use = 0; use < USES; use++)
        if (by_use[use]) {
            struct sqlite3_index_constraint_usage *usage = &info->aConstraintUsage[by_use[use] - 1];
            usage->argvIndex = ++arguments;
            usage->omit = 1;
            plan |= 1 << use;
        }
    return plan;
}

/* What EXPLAIN QUERY PLAN shows. */
static char *plan_text(int plan, int by_values)
{
    char *text = sqlite3_mprintf("%s", plan & USES_ID     ? "look-up"
                                       : plan & USES_LIST ? "page"
                                       : by_values        ? "range question"
                                       : plan & COUNTS    ? "count"
                                                          : "pairs");
    for (int use = 0; use < USES && text; use++)
        if (plan >> use & 1)
            text = sqlite3_mprintf("%z%s", text, uses[use].text);
    return text;
}

/* Of a comparison a quarter of the pairs is expected, as SQLite does; of a list 25. A pair read costs 1. */
static void estimate(sqlite3_index_info *info, int plan, double count, int by_values)
{
    double read = count, rows;
    for (int use = 0; use < USES; use++)
        if (plan >> use & 1 && uses[use].column == ID)
            read /= 4;
    if (plan & (USES_ID | USES_LIST))
        read = plan & USES_ID ? 1 : 25;
    rows = plan & USES_VALUE ? read / 4 : read;
    info->estimatedCost = by_values ? 4 + read / 2 : 4 + read;
    info->estimatedRows = rows < 1 ? 1 : (sqlite3_int64)rows;
}

static int best_index(sqlite3_vtab *vtab, sqlite3_index_info *info)
{
    table *t = (table *)vtab;
    int by_use[USES] = {0};
    int named = constraints_of(info, by_use), plan = hand_over(info, by_use);
    char *error = NULL;
    if (named & ~plan || !(t->machine || plan & USES_FILE))
        return SQLITE_CONSTRAINT; /* what names the files is not known yet */
    int status = t->machine ? open_table(t, &error) : SQLITE_OK;
    if (status != SQLITE_OK) {
        say(vtab, error);
        return status;
    }
    int corrected = t->correction || plan & USES_CORRECTION;
    int has_runs = t->machine && t->opened.machine.opened.edition == SIGNALFERN_RUNS;
    int by_values = has_runs && !corrected && plan & USES_VALUE && !(plan & (USES_ID | USES_LIST));
    if (!corrected && !(plan & ~USES_FILE) && !(info->colUsed & (1 << ID | 1 << VALUE)))
        plan |= COUNTS;
    /* Rows come by ascending id, and an id once. */
    if (plan & USES_ID || (info->nOrderBy > 0 && info->aOrderBy[0].iColumn <= ID && !info->aOrderBy[0].desc))
        info->orderByConsumed = 1;
    if (plan & USES_ID)
        info->idxFlags = SQLITE_INDEX_SCAN_UNIQUE;
    estimate(info, plan,
             t->machine ? (double)(t->opened.machine.opened.count + t->opened.correction.opened.count) : 1e6,
             by_values);
    info->idxNum = plan;
    info->idxStr = plan_text(plan, by_values);
    info->needToFreeIdxStr = 1;
    return info->idxStr ? SQLITE_OK : SQLITE_NOMEM;
}

/*
 * A question under way. Rows come in blocks: of one look-up, of a part of a page, or of pairs read from an id on.
 */

/* A block's rows, at most; of pairs the first number at first, and always where the range question finds its start. */
enum { FIRST_ROWS = 64, ROWS = 1024 };

typedef struct {
    sqlite3_vtab_cursor base;
    scores named;        /* what hidden columns name */
    const scores *asked; /* that, or the table's */
    range ids, values;
    enum { SINGLE, PAGE, PAIRS, COUNT } path;
    int by_values;    /* pairs are found by the range question */
    uint64_t ordinal; /* of the next pair, where they are read one after the other */
    uint32_t *page;   /* the ids of a list, ascending */
    size_t page_len, asked_of_page;
    size_t at, count, room; /* this row, the block's rows, and how many the next block may have */
    int has_ended;          /* there is no other block */
    uint8_t row_columns[ROWS];
    /* (from here on nothing is read before it is written) */
    uint8_t row_kinds[ROWS];
    uint32_t row_ids[ROWS];
    int64_t row_values[ROWS];
    uint64_t row_ordinals[ROWS];
} cursor;

static int open_cursor(sqlite3_vtab *vtab, sqlite3_vtab_cursor **base)
{
    table *t = (table *)vtab;
    char *error = NULL;
    int status = t->machine ? open_table(t, &error) : SQLITE_OK;
    if (status == SQLITE_OK)
        status = is_unchanged(&t->opened.machine, &error);
    if (status == SQLITE_OK)
        status = is_unchanged(&t->opened.correction, &error);
    cursor *c = status == SQLITE_OK ? sqlite3_malloc(sizeof *c) : NULL;
    if (!c) {
        say(vtab, error);
        return status == SQLITE_OK ? SQLITE_NOMEM : status;
    }
    memset(c, 0, offsetof(cursor, row_kinds));
    c->asked = t->machine ? &t->opened : &c->named;
    *base = &c->base;
    return SQLITE_OK;
}

static int close_cursor(sqlite3_vtab_cursor *base)
{
    cursor *c = (cursor *)base;
    close_scores(&c->named);
    sqlite3_free(c->page);
    sqlite3_free(c);
    return SQLITE_OK;
}

static int refused(const cursor *c, uint64_t column, uint64_t refusal, uint64_t number)
{
    const char *path = column == SIGNALFERN_MACHINE ? c->asked->machine.path : c->asked->correction.path;
    say(c->base.pVtab, refusal_text(path, refusal, number));
    return SQLITE_ERROR;
}

static int is_corrected(const cursor *c)
{
    return c->asked->correction.path != NULL;
}

/* Keeps the found ones of so many look-ups. */
static int keep_found(cursor *c, size_t len)
{
    c->count = 0;
    for (size_t i = 0; i < len; i++) {
        if (c->row_kinds[i] > SIGNALFERN_ABSENT)
            return refused(c, c->row_columns[i], c->row_kinds[i], 0);
        if (c->row_kinds[i] == SIGNALFERN_ABSENT)
            continue;
        c->row_ids[c->count] = c->row_ids[i];
        c->row_values[c->count] = c->row_values[i];
        c->row_ordinals[c->count] = c->row_ordinals[i];
        c->row_columns[c->count++] = c->row_columns[i];
    }
    return SQLITE_OK;
}

static int look_up_one(cursor *c)
{
    const mapped *m = &c->asked->machine;
    c->has_ended = 1;
    c->row_ids[0] = (uint32_t)c->ids.low;
    if (is_corrected(c)) {
        signalfern_layered answer = layered_look_up(c->asked, c->row_ids[0]);
        c->row_ordinals[0] = answer.ordinal;
        c->row_values[0] = answer.value;
        c->row_kinds[0] = (uint8_t)answer.kind;
        c->row_columns[0] = (uint8_t)answer.column;
    } else {
        signalfern_answer answer;
        signalfern_look_up_in_to(&m->opened, m->bytes, m->len, c->row_ids[0], &answer);
        c->row_ordinals[0] = answer.ordinal;
        c->row_values[0] = answer.value;
        c->row_kinds[0] = (uint8_t)answer.kind;
    }
    return keep_found(c, 1);
}

static int look_up_page(cursor *c)
{
    const mapped *m = &c->asked->machine, *top = &c->asked->correction;
    size_t left = c->page_len - c->asked_of_page, len = left < ROWS ? left : ROWS;
    memcpy(c->row_ids, c->page + c->asked_of_page, len * sizeof c->row_ids[0]);
    c->asked_of_page += len;
    c->has_ended = len == left;
    if (is_corrected(c)) {
        signalfern_layered_page reply;
        signalfern_look_up_layered_page_in_to(&m->opened, m->bytes, m->len, &top->opened, top->bytes, top->len,
                                              c->row_ids, len, c->row_ordinals, len, c->row_values, len, c->row_kinds,
                                              len, c->row_columns, len, &reply);
    } else {
        signalfern_page reply;
        signalfern_look_up_page_to(m->bytes, m->len, c->row_ids, len, c->row_ordinals, len, c->row_values, len,
                                   c->row_kinds, len, &reply);
    }
    return keep_found(c, len);
}

/* Moves the start of the next block to the next pair with a value in the range. */
static int find_value(cursor *c)
{
    const mapped *m = &c->asked->machine;
    signalfern_between between;
    signalfern_pair pair = {0};
    signalfern_first_between_from_in_to(&m->opened, m->bytes, m->len, c->ordinal, c->values.low, c->values.high,
                                        &between);
    if (between.kind == SIGNALFERN_FOUND)
        signalfern_pair_at_in_to(&m->opened, m->bytes, m->len, between.ordinal, &pair);
    if (between.kind > SIGNALFERN_NONE || pair.kind > SIGNALFERN_NONE)
        return refused(c, SIGNALFERN_MACHINE, between.kind ? between.kind : pair.kind, between.number + pair.number);
    c->ordinal = between.ordinal;
    if (between.kind == SIGNALFERN_FOUND)
        c->ids.low = (int64_t)pair.id;
    else
        c->ids = nothing;
    return SQLITE_OK;
}

/* Reads the pairs from the range's first id on. */
static int read_block(cursor *c)
{
    const mapped *m = &c->asked->machine, *top = &c->asked->correction;
    uint32_t id = (uint32_t)c->ids.low;
    signalfern_layered_readout all;
    if (is_corrected(c)) {
        signalfern_read_layered_from_in_to(&m->opened, m->bytes, m->len, &top->opened, top->bytes, top->len, id,
                                           c->row_ids, c->room, c->row_values, c->room, c->row_columns, c->room, &all);
    } else {
        signalfern_readout one;
        signalfern_read_from_in_to(&m->opened, m->bytes, m->len, id, c->row_ids, c->room, c->row_values, c->room, &one);
        all = (signalfern_layered_readout){one.kind, one.number, SIGNALFERN_MACHINE, one.count};
    }
    if (all.kind > SIGNALFERN_ENDED)
        return refused(c, all.column, all.kind, all.number);
    c->count = all.count;
    c->has_ended = all.kind == SIGNALFERN_ENDED || all.count == 0;
    return SQLITE_OK;
}

static int read_pairs(cursor *c)
{
    int status = c->by_values ? find_value(c) : SQLITE_OK;
    c->count = 0;
    c->has_ended = c->ids.low > c->ids.high;
    if (status != SQLITE_OK || c->has_ended)
        return status;
    status = read_block(c);
    for (size_t i = 0; i < c->count; i++)
        c->row_ordinals[i] = c->ordinal + i;
    c->ordinal += c->count;
    if (c->count > 0)
        c->ids.low = (int64_t)c->row_ids[c->count - 1] + 1;
    while (c->count > 0 && c->row_ids[c->count - 1] > c->ids.high)
        c->count--;
    c->room = c->by_values || c->room == ROWS ? c->room : 4 * c->room;
    return status;
}

/* Goes on to the next row, in this block or another. */
static int next_row(sqlite3_vtab_cursor *base)
{
    cursor *c = (cursor *)base;
    int status = SQLITE_OK;
    c->at++;
    while (c->path != COUNT && status == SQLITE_OK) {
        for (; c->at < c->count; c->at++)
            if (is_within(&c->values, c->row_values[c->at]))
                return SQLITE_OK;
        if (c->has_ended)
            return SQLITE_OK;
        status = c->path == PAIRS ? read_pairs(c) : c->path == PAGE ? look_up_page(c) : look_up_one(c);
        c->at = 0;
    }
    return status;
}

static int is_at_end(sqlite3_vtab_cursor *base)
{
    const cursor *c = (const cursor *)base;
    return c->at >= c->count;
}

/* The name of a file in a value of SQL, or NULL with an error. */
static const char *path_of(sqlite3_value *value, char **error)
{
    const char *path = sqlite3_value_type(value) == SQLITE_TEXT ? (const char *)sqlite3_value_text(value) : NULL;
    if (path && strlen(path) == (size_t)sqlite3_value_bytes(value))
        return path;
    *error = sqlite3_mprintf("the name of a file is to be a text without a zero byte");
    return NULL;
}

/* Opens what the hidden columns name, once for all questions that name the same. */
static int open_named(cursor *c, sqlite3_value *machine_value, sqlite3_value *correction_value, char **error)
{
    const char *machine = path_of(machine_value, error);
    const char *correction = machine && correction_value ? path_of(correction_value, error) : NULL;
    if (!machine || (correction_value && !correction))
        return SQLITE_ERROR;
    int is_same = c->named.machine.path && strcmp(c->named.machine.path, machine) == 0 &&
                  (!correction || strcmp(c->named.correction.path, correction) == 0);
    if (is_same)
        return SQLITE_OK;
    close_scores(&c->named);
    return open_scores(&c->named, machine, correction, error);
}

static int ascending(const void *a, const void *b)
{
    uint32_t left = *(const uint32_t *)a, right = *(const uint32_t *)b;
    return (left > right) - (left < right);
}

static int add_to_page(cursor *c, size_t *room, uint32_t id)
{
    if (c->page_len == *room) {
        uint32_t *page = sqlite3_realloc64(c->page, (*room ? 2 * *room : 64) * sizeof *page);
        if (!page)
            return SQLITE_NOMEM;
        c->page = page;
        *room = *room ? 2 * *room : 64;
    }
    c->page[c->page_len++] = id;
    return SQLITE_OK;
}

/* Takes the ids of a list that are in the range, ascending and each once. */
static int take_list(cursor *c, sqlite3_value *list)
{
    int status;
    size_t room = 0, kept = 0;
    sqlite3_value *value;
    sqlite3_free(c->page);
    c->page = NULL;
    c->page_len = c->asked_of_page = 0;
    for (status = sqlite3_vtab_in_first(list, &value); status == SQLITE_OK;
         status = sqlite3_vtab_in_next(list, &value)) {
        range id = c->ids;
        narrow(&id, SQLITE_INDEX_CONSTRAINT_EQ, value);
        if (id.low <= id.high && add_to_page(c, &room, (uint32_t)id.low) != SQLITE_OK)
            return SQLITE_NOMEM;
    }
    if (c->page_len > 0)
        qsort(c->page, c->page_len, sizeof c->page[0], ascending);
    for (size_t i = 0; i < c->page_len; i++)
        if (i == 0 || c->page[i] != c->page[i - 1])
            c->page[kept++] = c->page[i];
    c->page_len = kept;
    return status == SQLITE_DONE ? SQLITE_OK : status;
}

/* Pairs from the range's first id on: tells the ordinal of the first. */
static int start_pairs(cursor *c, int plan)
{
    const mapped *m = &c->asked->machine;
    c->by_values = plan & USES_VALUE && !is_corrected(c) && m->opened.edition == SIGNALFERN_RUNS;
    c->ordinal = 0;
    if (c->ids.low > 0 && c->ids.low <= c->ids.high && !is_corrected(c)) {
        signalfern_candidate first;
        signalfern_next_in_to(&m->opened, 0, m->bytes, m->len, (uint32_t)c->ids.low, &first);
        if (first.kind > SIGNALFERN_NONE)
            return refused(c, SIGNALFERN_MACHINE, first.kind, first.number);
        c->ordinal = first.kind == SIGNALFERN_FOUND ? first.ordinal : m->opened.count;
    }
    return SQLITE_OK;
}

/* Takes the arguments of a plan; a NULL among them leaves nothing. */
static int take_arguments(cursor *c, int plan, sqlite3_value **argv)
{
    sqlite3_value *files[] = {NULL, NULL}, *list = NULL;
    char *error = NULL;
    c->ids = every_id;
    c->values = every_value;
    for (int use = 0; use < USES && plan >> use; use++) {
        sqlite3_value *value = plan >> use & 1 ? *argv++ : NULL;
        if (!value)
            continue;
        if (uses[use].column >= MACHINE_FILE)
            files[uses[use].column - MACHINE_FILE] = value;
        else if (uses[use].op == IN_A_LIST)
            list = value;
        else
            narrow(uses[use].column == ID ? &c->ids : &c->values, uses[use].op, value);
        if (uses[use].column >= MACHINE_FILE && sqlite3_value_type(value) == SQLITE_NULL) {
            c->has_ended = 1;
            return SQLITE_OK;
        }
    }
    int status = files[0] ? open_named(c, files[0], files[1], &error) : SQLITE_OK;
    if (error)
        say(c->base.pVtab, error);
    return status == SQLITE_OK && list ? take_list(c, list) : status;
}

static int filter(sqlite3_vtab_cursor *base, int plan, const char *text, int argc, sqlite3_value **argv)
{
    cursor *c = (cursor *)base;
    (void)text, (void)argc;
    c->at = c->count = 0;
    c->has_ended = 0;
    c->room = FIRST_ROWS;
    c->path = plan & USES_ID ? SINGLE : plan & USES_LIST ? PAGE : plan & COUNTS ? COUNT : PAIRS;
    int status = take_arguments(c, plan, argv);
    if (status != SQLITE_OK || c->has_ended)
        return status;
    if (c->path == PAIRS)
        status = start_pairs(c, plan);
    c->has_ended = c->ids.low > c->ids.high || c->values.low > c->values.high || (c->path == PAGE && c->page_len == 0);
    if (c->path != COUNT && status == SQLITE_OK)
        return next_row(base);
    c->count = c->asked->machine.opened.count;
    return status;
}

/* The pair of this row; where rows are only counted, the one with this ordinal. */
static int row_pair(const cursor *c, signalfern_pair *pair)
{
    const mapped *m = &c->asked->machine;
    if (c->path != COUNT) {
        pair->id = c->row_ids[c->at];
        pair->value = c->row_values[c->at];
        return SQLITE_OK;
    }
    signalfern_pair_at_in_to(&m->opened, m->bytes, m->len, c->at, pair);
    return pair->kind == SIGNALFERN_FOUND ? SQLITE_OK : refused(c, SIGNALFERN_MACHINE, SIGNALFERN_BROKEN, 0);
}

static int row_number(sqlite3_vtab_cursor *base, sqlite3_int64 *number)
{
    signalfern_pair pair = {0};
    int status = row_pair((cursor *)base, &pair);
    *number = (sqlite3_int64)pair.id;
    return status;
}

/* Of two columns the reading tells no ordinals. */
static uint64_t row_ordinal(const cursor *c)
{
    if (c->path == COUNT)
        return c->at;
    return c->path == PAIRS && is_corrected(c) ? layered_look_up(c->asked, c->row_ids[c->at]).ordinal
                                               : c->row_ordinals[c->at];
}

static int give_column(sqlite3_vtab_cursor *base, sqlite3_context *context, int column)
{
    const cursor *c = (const cursor *)base;
    signalfern_pair pair = {0};
    int status = column <= VALUE ? row_pair(c, &pair) : SQLITE_OK;
    switch (column) {
    case ID:
        sqlite3_result_int64(context, (sqlite3_int64)pair.id);
        break;
    case VALUE:
        sqlite3_result_int64(context, pair.value);
        break;
    case ORDINAL:
        sqlite3_result_int64(context, (sqlite3_int64)row_ordinal(c));
        break;
    case BY:
        sqlite3_result_text(
            context, c->path != COUNT && c->row_columns[c->at] == SIGNALFERN_CORRECTION ? "correction" : "machine", -1,
            SQLITE_STATIC);
        break;
    case MACHINE_FILE:
        sqlite3_result_text(context, c->asked->machine.path, -1, SQLITE_TRANSIENT);
        break;
    default:
        sqlite3_result_text(context, c->asked->correction.path, -1, SQLITE_TRANSIENT);
    }
    return status;
}

static sqlite3_module module = {
    .xCreate = connect_table,
    .xConnect = connect_table,
    .xBestIndex = best_index,
    .xDisconnect = disconnect,
    .xDestroy = disconnect,
    .xOpen = open_cursor,
    .xClose = close_cursor,
    .xFilter = filter,
    .xNext = next_row,
    .xEof = is_at_end,
    .xColumn = give_column,
    .xRowid = row_number,
};

/*
 * Functions, for columns that are kept as blobs.
 */

static void give_error(sqlite3_context *context, int status, char *error)
{
    sqlite3_result_error(context, error ? error : "", -1);
    sqlite3_result_error_code(context, error ? status : SQLITE_NOMEM);
    sqlite3_free(error);
}

/* signalfern_check(blob or file): the count of pairs, or the refusal as a text. */
static void check_function(sqlite3_context *context, int argc, sqlite3_value **argv)
{
    int type = sqlite3_value_type(argv[0]);
    mapped c = {0};
    char *error = NULL;
    int status = SQLITE_OK;
    (void)argc;
    if (type == SQLITE_NULL)
        return;
    if (type == SQLITE_BLOB) {
        signalfern_reply checked;
        signalfern_check_to(sqlite3_value_blob(argv[0]), (size_t)sqlite3_value_bytes(argv[0]), &checked);
        c.opened.count = checked.number;
        if (checked.refusal) {
            status = SQLITE_ERROR;
            error = refusal_text(NULL, checked.refusal, checked.number);
        }
    } else {
        const char *path = path_of(argv[0], &error);
        status = path ? open_column(&c, path, &error) : SQLITE_MISUSE;
    }
    if (status == SQLITE_OK)
        sqlite3_result_int64(context, (sqlite3_int64)c.opened.count);
    else if (status == SQLITE_ERROR && error)
        sqlite3_result_text(context, error, -1, sqlite3_free);
    else
        give_error(context, status, error);
    close_column(&c);
}

/* Checks and opens the bytes; of a constant argument once for all rows. */
static int open_argument(sqlite3_context *context, const uint8_t *bytes, size_t len, signalfern_column *opened)
{
    signalfern_column *kept = sqlite3_get_auxdata(context, 0);
    signalfern_reply checked;
    if (kept) {
        *opened = *kept;
        return 1;
    }
    signalfern_check_to(bytes, len, &checked);
    if (checked.refusal) {
        give_error(context, SQLITE_ERROR, refusal_text(NULL, checked.refusal, checked.number));
        return 0;
    }
    signalfern_open_to(bytes, len, opened);
    kept = sqlite3_malloc(sizeof *kept);
    if (kept) {
        *kept = *opened;
        sqlite3_set_auxdata(context, 0, kept, sqlite3_free);
    }
    return 1;
}

/* signalfern_look_up(blob, id): the value, or NULL where the id has none. */
static void look_up_function(sqlite3_context *context, int argc, sqlite3_value **argv)
{
    int type = sqlite3_value_type(argv[0]);
    range id = every_id;
    signalfern_column opened;
    signalfern_answer answer;
    (void)argc;
    if (type == SQLITE_NULL)
        return;
    if (type != SQLITE_BLOB) {
        give_error(context, SQLITE_MISUSE,
                   sqlite3_mprintf("signalfern_look_up takes the bytes of a column, as a blob"));
        return;
    }
    const uint8_t *bytes = sqlite3_value_blob(argv[0]);
    size_t len = (size_t)sqlite3_value_bytes(argv[0]);
    narrow(&id, SQLITE_INDEX_CONSTRAINT_EQ, argv[1]);
    if (!open_argument(context, bytes, len, &opened) || id.low > id.high)
        return;
    signalfern_look_up_in_to(&opened, bytes, len, (uint32_t)id.low, &answer);
    if (answer.kind == SIGNALFERN_FOUND)
        sqlite3_result_int64(context, answer.value);
    else if (answer.kind != SIGNALFERN_ABSENT)
        give_error(context, SQLITE_ERROR, refusal_text(NULL, answer.kind, answer.number));
}

/* The pairs of signalfern_column(id, value, edition, power) so far. */
typedef struct {
    uint32_t *ids;
    int64_t *values;
    size_t count, room;
    int64_t edition, power;
    int has_failed;
} pairs;

static void free_pairs(pairs *p)
{
    sqlite3_free(p->ids);
    sqlite3_free(p->values);
    p->ids = NULL;
    p->values = NULL;
}

static int make_room(pairs *p)
{
    size_t room = p->room ? 2 * p->room : ROWS;
    uint32_t *ids = sqlite3_realloc64(p->ids, room * sizeof *ids);
    p->ids = ids ? ids : p->ids;
    int64_t *values = ids ? sqlite3_realloc64(p->values, room * sizeof *values) : NULL;
    p->values = values ? values : p->values;
    p->room = values ? room : p->room;
    return values != NULL;
}

/* What is wrong with a row, or NULL. No number is cut; ids of 32 bits that are too great are the writer's to refuse. */
static const char *wrong_row(const pairs *p, int argc, sqlite3_value **argv)
{
    const range lent = {0, UINT32_MAX};
    for (int i = 0; i < argc; i++)
        if (sqlite3_value_type(argv[i]) != SQLITE_INTEGER)
            return "takes integers alone";
    if (!is_within(&lent, sqlite3_value_int64(argv[0])))
        return "takes ids from 0 to 2147352575 alone";
    if (p->count > 0 && ((argc > 2 && sqlite3_value_int64(argv[2]) != p->edition) ||
                         (argc > 3 && sqlite3_value_int64(argv[3]) != p->power)))
        return "takes one edition and one rank power";
    return NULL;
}

static void column_step(sqlite3_context *context, int argc, sqlite3_value **argv)
{
    pairs *p = sqlite3_aggregate_context(context, sizeof *p);
    if (!p || p->has_failed)
        return;
    const char *wrong = wrong_row(p, argc, argv);
    if (wrong) {
        p->has_failed = 1;
        give_error(context, SQLITE_MISMATCH,
                   sqlite3_mprintf("signalfern_column %s: see pair %llu, from 0", wrong, (unsigned long long)p->count));
        return;
    }
    if (p->count == p->room && !make_room(p)) {
        p->has_failed = 1;
        sqlite3_result_error_nomem(context);
        return;
    }
    p->edition = argc > 2 ? sqlite3_value_int64(argv[2]) : SIGNALFERN_PLAIN;
    p->power = argc > 3 ? sqlite3_value_int64(argv[3]) : SIGNALFERN_USUAL_POWER;
    p->ids[p->count] = (uint32_t)sqlite3_value_int64(argv[0]);
    p->values[p->count++] = sqlite3_value_int64(argv[1]);
}

/* A number for the writer; one that is none of 32 bits becomes one that it refuses. */
static uint32_t as_u32(int64_t number)
{
    return number >= 0 && number <= UINT32_MAX ? (uint32_t)number : UINT32_MAX;
}

static void column_final(sqlite3_context *context)
{
    pairs none = {.edition = SIGNALFERN_PLAIN, .power = SIGNALFERN_USUAL_POWER};
    pairs *p = sqlite3_aggregate_context(context, 0);
    p = p ? p : &none;
    signalfern_reply reply = {0, 0};
    uint8_t *bytes = NULL;
    if (!p->has_failed) {
        signalfern_write_to(p->ids, p->count, p->values, p->count, as_u32(p->edition), as_u32(p->power), NULL, 0,
                            &reply);
        bytes = reply.refusal == SIGNALFERN_ROOM ? sqlite3_malloc64(reply.number) : NULL;
        if (bytes)
            signalfern_write_to(p->ids, p->count, p->values, p->count, as_u32(p->edition), as_u32(p->power), bytes,
                                (size_t)reply.number, &reply);
        if (bytes)
            sqlite3_result_blob64(context, bytes, reply.number, sqlite3_free);
        else if (reply.refusal == SIGNALFERN_ROOM)
            sqlite3_result_error_nomem(context);
        else
            give_error(context, SQLITE_ERROR, refusal_text("signalfern_column", reply.refusal, reply.number));
    }
    free_pairs(p);
}

/*
 * The way in. A function that opens files is for those who ask, and not for a database's schema.
 */

__attribute__((visibility("default"))) int sqlite3_signalfern_init(sqlite3 *db, char **error,
                                                                   const sqlite3_api_routines *routines)
{
    const int same = SQLITE_UTF8 | SQLITE_DETERMINISTIC | SQLITE_INNOCUOUS;
    SQLITE_EXTENSION_INIT2(routines)
    if (sqlite3_libversion_number() < OLDEST_SQLITE) {
        *error = sqlite3_mprintf("signalfern needs SQLite 3.34 or later, and this is %s", sqlite3_libversion());
        return SQLITE_ERROR;
    }
    int status = sqlite3_create_module_v2(db, "signalfern", &module, NULL, NULL);
    if (status == SQLITE_OK)
        status = sqlite3_create_function(db, "signalfern_check", 1, SQLITE_UTF8 | SQLITE_DIRECTONLY, NULL,
                                         check_function, NULL, NULL);
    if (status == SQLITE_OK)
        status = sqlite3_create_function(db, "signalfern_look_up", 2, same, NULL, look_up_function, NULL, NULL);
    for (int arguments = 2; arguments <= 4 && status == SQLITE_OK; arguments++)
        status =
            sqlite3_create_function(db, "signalfern_column", arguments, same, NULL, NULL, column_step, column_final);
    return status;
}
