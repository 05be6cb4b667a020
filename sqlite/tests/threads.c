/*
 * Four threads ask at once, each its own connection, then all of them one connection: answers must be those of a plain
 * table of the same pairs. (threads EXTENSION FOLDER [ROUNDS])
 */
#define _XOPEN_SOURCE 700

#include <pthread.h>
#include <sqlite3.h>
#include <stdio.h>
#include <stdlib.h>
#include <string.h>
#include <unistd.h>

enum { THREADS = 4, QUESTIONS = 6 };

static const char *extension;
static int rounds = 100;
static sqlite3 *shared;

static void fail(sqlite3 *db, const char *what)
{
    fprintf(stderr, "threads: %s: %s\n", what, sqlite3_errmsg(db));
    exit(1);
}

static sqlite3 *connect(void)
{
    sqlite3 *db;
    if (sqlite3_open("threads.db", &db) != SQLITE_OK || sqlite3_enable_load_extension(db, 1) != SQLITE_OK ||
        sqlite3_load_extension(db, extension, NULL, NULL) != SQLITE_OK)
        fail(db, "connecting");
    sqlite3_busy_timeout(db, 10000);
    return db;
}

/* Each question, with %s for the table and %d for a number. */
static const char *const questions[QUESTIONS] = {
    "SELECT value, ordinal, by FROM %s WHERE id = %d",
    "SELECT sum(value) FROM %s WHERE id IN (%d, 17, 400, 90001, 3)",
    "SELECT sum(value), sum(ordinal), count(*) FROM %s WHERE id > %d",
    "SELECT id, value FROM %s WHERE value BETWEEN %d AND 40000 ORDER BY id LIMIT 1",
    "SELECT count(*), max(id) FROM %s WHERE value > %d",
    "SELECT count(*) - %2$d FROM %1$s",
};

/* The first row as one text, or an empty one. */
static char *ask(sqlite3 *db, const char *table, int question, int number)
{
    char sql[200], *row = sqlite3_mprintf("");
    sqlite3_stmt *statement;
    snprintf(sql, sizeof sql, questions[question], table, number);
    if (sqlite3_prepare_v2(db, sql, -1, &statement, NULL) != SQLITE_OK)
        fail(db, sql);
    int status = sqlite3_step(statement);
    for (int i = 0; status == SQLITE_ROW && i < sqlite3_column_count(statement); i++)
        row = sqlite3_mprintf("%z|%s", row, sqlite3_column_text(statement, i));
    if (status != SQLITE_ROW && status != SQLITE_DONE)
        fail(db, sql);
    sqlite3_finalize(statement);
    return row;
}

/* Asks both tables, and gives how many answers differ. */
static void *compare(void *own)
{
    static const char *const pairs[][2] = {
        {"plain", "scores"}, {"corrected", "both"}, {"plain", "signalfern('m.column')"}};
    sqlite3 *db = shared ? shared : connect();
    long different = 0;
    for (int i = 0; i < rounds * QUESTIONS; i++) {
        const char *const *names = pairs[i / QUESTIONS % 3];
        int number = (i * 7919 + (int)(long)own * 31) % 100000;
        char *expected = ask(db, names[0], i % QUESTIONS, number), *got = ask(db, names[1], i % QUESTIONS, number);
        different += strcmp(expected, got) != 0;
        sqlite3_free(expected);
        sqlite3_free(got);
    }
    if (!shared)
        sqlite3_close(db);
    return (void *)different;
}

static int all_alike(void)
{
    pthread_t threads[THREADS];
    long different = 0;
    for (long i = 0; i < THREADS; i++)
        pthread_create(&threads[i], NULL, compare, (void *)i);
    for (int i = 0; i < THREADS; i++) {
        void *found;
        pthread_join(threads[i], &found);
        different += (long)found;
    }
    printf("%ld of %d answers differ\n", different, THREADS * rounds * QUESTIONS);
    return different == 0;
}

static void write_column(sqlite3 *db, const char *path, const char *sql)
{
    sqlite3_stmt *statement;
    FILE *file = fopen(path, "wb");
    if (!file || sqlite3_prepare_v2(db, sql, -1, &statement, NULL) != SQLITE_OK ||
        sqlite3_step(statement) != SQLITE_ROW)
        fail(db, sql);
    fwrite(sqlite3_column_blob(statement, 0), 1, (size_t)sqlite3_column_bytes(statement, 0), file);
    fclose(file);
    sqlite3_finalize(statement);
}

static void make_tables(sqlite3 *db)
{
    static const char *const tables =
        "CREATE TABLE plain(id INTEGER PRIMARY KEY, value INTEGER, ordinal INTEGER, by TEXT);"
        "WITH RECURSIVE n(i) AS (VALUES(0) UNION ALL SELECT i + 1 FROM n WHERE i < 29999)"
        " INSERT INTO plain SELECT 3 * i + i % 2, i * 7919 % 50021, i, 'machine' FROM n;"
        "CREATE TABLE corrected(id INTEGER PRIMARY KEY, value INTEGER, ordinal INTEGER, by TEXT);"
        "INSERT INTO corrected SELECT * FROM plain;"
        "INSERT OR REPLACE INTO corrected SELECT 4 * id, 7, row_number() OVER (ORDER BY id) - 1, 'correction' FROM "
        "plain WHERE id < 5000;";
    if (sqlite3_exec(db, tables, NULL, NULL, NULL) != SQLITE_OK)
        fail(db, "tables");
    write_column(db, "m.column", "SELECT signalfern_column(id, value, 3) FROM (SELECT * FROM plain ORDER BY id)");
    write_column(db, "c.column",
                 "SELECT signalfern_column(4 * id, 7) FROM (SELECT * FROM plain WHERE id < 5000 ORDER BY id)");
    if (sqlite3_exec(db,
                     "CREATE VIRTUAL TABLE scores USING signalfern('m.column');"
                     "CREATE VIRTUAL TABLE both USING signalfern('m.column', correction='c.column');",
                     NULL, NULL, NULL) != SQLITE_OK)
        fail(db, "virtual tables");
}

int main(int argc, char **argv)
{
    extension = argc > 2 ? realpath(argv[1], NULL) : NULL;
    rounds = argc > 3 ? atoi(argv[3]) : rounds;
    if (!extension || chdir(argv[2]) != 0) {
        fprintf(stderr, "usage: threads EXTENSION FOLDER [ROUNDS]\n");
        return 2;
    }
    remove("threads.db");
    sqlite3 *db = connect();
    make_tables(db);
    int alike = all_alike();
    shared = db;
    alike += all_alike();
    sqlite3_close(db);
    free((char *)extension);
    printf("%d passed, %d failed, 0 skipped\n", alike, 2 - alike);
    return alike != 2;
}
