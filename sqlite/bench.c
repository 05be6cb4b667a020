/*
 * How long questions take by the extension and by a plain table of the same pairs, and how many bytes each takes up.
 *
 *     cc -O2 sqlite/bench.c -lsqlite3 -o bench && ./bench ./signalfern.so FOLDER [ROUNDS]
 *
 * In FOLDER it makes a database and two columns of 3 million pairs. Both ways are asked in turns, so that other work
 * on the machine meets both, and the least processor time of all rounds is printed, in milliseconds. That both answer
 * alike is seen to.
 */
#define _XOPEN_SOURCE 700

#include <sqlite3.h>
#include <stdio.h>
#include <stdlib.h>
#include <string.h>
#include <sys/stat.h>
#include <time.h>
#include <unistd.h>

static sqlite3 *db;

static void fail(const char *what)
{
    fprintf(stderr, "bench: %s: %s\n", what, sqlite3_errmsg(db));
    exit(1);
}

static void run(const char *sql)
{
    if (sqlite3_exec(db, sql, NULL, NULL, NULL) != SQLITE_OK)
        fail(sql);
}

/* The numbers of the first row, and the time that all rows took. */
static double ask(const char *sql, char *answer, size_t room)
{
    sqlite3_stmt *statement;
    struct timespec start, end;
    size_t len = 0;
    if (sqlite3_prepare_v2(db, sql, -1, &statement, NULL) != SQLITE_OK)
        fail(sql);
    clock_gettime(CLOCK_PROCESS_CPUTIME_ID, &start);
    if (sqlite3_step(statement) != SQLITE_ROW)
        fail(sql);
    for (int i = 0; i < sqlite3_column_count(statement); i++)
        len += (size_t)snprintf(answer + len, room - len, " %s", (const char *)sqlite3_column_text(statement, i));
    if (sqlite3_step(statement) != SQLITE_DONE)
        fail(sql);
    clock_gettime(CLOCK_PROCESS_CPUTIME_ID, &end);
    sqlite3_finalize(statement);
    return 1e3 * (double)(end.tv_sec - start.tv_sec) + 1e-6 * (double)(end.tv_nsec - start.tv_nsec);
}

/* The bytes of a query, written to a file of the folder. */
static void write_column(const char *path, const char *sql)
{
    sqlite3_stmt *statement;
    FILE *file = fopen(path, "wb");
    if (!file || sqlite3_prepare_v2(db, sql, -1, &statement, NULL) != SQLITE_OK ||
        sqlite3_step(statement) != SQLITE_ROW)
        fail(path);
    size_t len = (size_t)sqlite3_column_bytes(statement, 0);
    if (fwrite(sqlite3_column_blob(statement, 0), 1, len, file) != len || fclose(file) != 0)
        fail(path);
    sqlite3_finalize(statement);
}

static void make_tables(void)
{
    run("CREATE TABLE plain(id INTEGER PRIMARY KEY, value INTEGER)");
    /* Ids with gaps of 1 to 5, and values of 16 bits. */
    run("WITH RECURSIVE n(i, id, x) AS (VALUES(0, 0, 12345) UNION ALL SELECT i + 1, id + 1 + (x >> 16) % 5,"
        " (x * 1103515245 + 12345) & 0x7fffffff FROM n WHERE i < 2999999)"
        " INSERT INTO plain SELECT id, (id * 2654435761 >> 7 & 0xffff) - 30000 FROM n");
    write_column("plain.column", "SELECT signalfern_column(id, value) FROM (SELECT * FROM plain ORDER BY id)");
    write_column("runs.column", "SELECT signalfern_column(id, value, 3) FROM (SELECT * FROM plain ORDER BY id)");
    write_column("correction.column",
                 "SELECT signalfern_column(id, value) FROM (SELECT id, value + 1000 AS value FROM plain WHERE"
                 " id % 100 = 0 ORDER BY id)");
    run("CREATE TABLE words(n INTEGER PRIMARY KEY, id INTEGER)");
    run("WITH RECURSIVE n(i) AS (VALUES(0) UNION ALL SELECT i + 1 FROM n WHERE i < 99999)"
        " INSERT INTO words SELECT i, i * 1037389 % (SELECT max(id) FROM plain) FROM n");
    run("CREATE TABLE ascending(n INTEGER PRIMARY KEY, id INTEGER)");
    run("INSERT INTO ascending(id) SELECT id FROM words ORDER BY id");
    run("CREATE TABLE corrected(id INTEGER PRIMARY KEY, value INTEGER)");
    run("INSERT INTO corrected SELECT id, iif(id % 100 = 0, value + 1000, value) FROM plain");
    run("CREATE VIRTUAL TABLE scores USING signalfern('plain.column')");
    run("CREATE VIRTUAL TABLE runs USING signalfern('runs.column')");
    run("CREATE VIRTUAL TABLE both USING signalfern('plain.column', correction='correction.column')");
}

/* Each question, with %s for the table. */
static const struct {
    const char *name, *plain, *ours, *sql;
} questions[] = {
    {"join of 100,000 words by id, any order", "plain", "scores",
     "SELECT count(*), sum(s.value) FROM words w JOIN %s s ON s.id = w.id"},
    {"the same, words by ascending id", "plain", "scores",
     "SELECT count(*), sum(s.value) FROM ascending w JOIN %s s ON s.id = w.id"},
    {"words without a score, NOT EXISTS", "plain", "scores",
     "SELECT count(*) FROM words w WHERE NOT EXISTS (SELECT 1 FROM %s s WHERE s.id = w.id)"},
    {"the same by LEFT JOIN", "plain", "scores",
     "SELECT count(*) FROM words w LEFT JOIN %s s ON s.id = w.id WHERE s.id IS NULL"},
    {"id IN 100,000 ids", "plain", "scores", "SELECT count(*), sum(value) FROM %s WHERE id IN (SELECT id FROM words)"},
    {"sum of all values", "plain", "scores", "SELECT sum(value) FROM %s"},
    {"sum of all values, edition 3", "plain", "runs", "SELECT sum(value) FROM %s"},
    {"count(*) of a range of 1,000,000 ids", "plain", "scores",
     "SELECT count(*) FROM %s WHERE id BETWEEN 3000000 AND 3999999"},
    {"count(*)", "plain", "scores", "SELECT count(*) FROM %s"},
    {"values of 10 in 65536, edition 1", "plain", "scores",
     "SELECT count(*), sum(id) FROM %s WHERE value BETWEEN 100 AND 109"},
    {"values of 10 in 65536, edition 3", "plain", "runs",
     "SELECT count(*), sum(id) FROM %s WHERE value BETWEEN 100 AND 109"},
    {"corrected: join of 100,000 words", "corrected", "both",
     "SELECT count(*), sum(s.value) FROM words w JOIN %s s ON s.id = w.id"},
    {"corrected: id IN 100,000 ids", "corrected", "both",
     "SELECT count(*), sum(value) FROM %s WHERE id IN (SELECT id FROM words)"},
    {"corrected: sum of all values", "corrected", "both", "SELECT sum(value) FROM %s"},
};

static void compare(size_t at, int rounds)
{
    double least[2] = {1e9, 1e9};
    char answer[2][200] = {"", ""};
    for (int round = 0; round < rounds; round++)
        for (int way = 0; way < 2; way++) {
            char *sql = sqlite3_mprintf(questions[at].sql, way ? questions[at].ours : questions[at].plain);
            double took = ask(sql, answer[way], sizeof answer[way]);
            least[way] = took < least[way] ? took : least[way];
            sqlite3_free(sql);
        }
    printf("%-42s %10.2f %10.2f %8.2f  %s\n", questions[at].name, least[0], least[1], least[1] / least[0],
           strcmp(answer[0], answer[1]) == 0 ? "alike" : "DIFFERENT");
}

int main(int argc, char **argv)
{
    char answer[200];
    struct stat about;
    char *extension = argc > 2 ? realpath(argv[1], NULL) : NULL;
    int rounds = argc > 3 ? atoi(argv[3]) : 20;
    if (!extension || chdir(argv[2]) != 0 || sqlite3_open("bench.db", &db) != SQLITE_OK) {
        fprintf(stderr, "usage: bench EXTENSION FOLDER [ROUNDS]\n");
        return 2;
    }
    sqlite3_enable_load_extension(db, 1);
    if (sqlite3_load_extension(db, extension, NULL, NULL) != SQLITE_OK)
        fail(extension);
    free(extension);
    run("PRAGMA synchronous = off; PRAGMA cache_size = -200000");
    if (sqlite3_table_column_metadata(db, NULL, "both", NULL, NULL, NULL, NULL, NULL, NULL) != SQLITE_OK)
        make_tables();
    ask("SELECT sum(pgsize) FROM dbstat WHERE name = 'plain'", answer, sizeof answer);
    printf("bytes: plain table%s", answer);
    for (int i = 0; i < 2; i++)
        printf(", %s %lld", i ? "edition 3" : "edition 1",
               stat(i ? "runs.column" : "plain.column", &about) == 0 ? (long long)about.st_size : -1);
    printf("\n%-42s %10s %10s %8s\n", "milliseconds", "plain", "extension", "ratio");
    for (size_t i = 0; i < sizeof questions / sizeof questions[0]; i++)
        compare(i, rounds);
    return sqlite3_close(db) != SQLITE_OK;
}
