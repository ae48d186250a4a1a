/*
 * A bank in SQLite, for the kills of clients/sqlite/compare and the faults of tests/cut_off. Each account has a page of
 * its own; a transfer moves money between 50 of them and adds a row to a log, in one transaction. The sum of all
 * accounts stays 0.
 *
 *   transfers format VOLUME RECORDS FILE=BYTES [LAYOUT] a volume, of layout 5 where it isn't said
 *   transfers make DATABASE JOURNAL ACCOUNTS          prints nothing
 *   transfers run DATABASE JOURNAL CACHE COUNT        prints `acknowledged N` after each, or `failed CODE`, and the
 *                                                     microseconds of one
 *   transfers large DATABASE JOURNAL CACHE PAGES      one transaction that stores to so many pages; prints how it ended
 *   transfers check DATABASE                          prints the integrity check, the sum and how many were logged
 *
 * EXTENSION in the environment is loaded before. JOURNAL is a mode, CACHE a number of pages. All is with
 * PRAGMA synchronous=FULL. The status is 3 where the database can't be opened, 4 where something else failed.
 */
#include "database.h"

#include <time.h>

static sqlite3 *database;

/* What can't be gone on without. */
static void need(const char *statements)
{
    int code = run(database, statements);
    if (code == SQLITE_OK)
        return;
    printf("failed %d\n", code);
    fprintf(stderr, "transfers: %s: %s\n", statements, sqlite3_errmsg(database));
    exit(4);
}

static void begin_with(const char *path, const char *journal, const char *cache)
{
    char statement[200], mode[300];
    const char *extension = getenv("EXTENSION");
    int code;
    if (extension)
        load_vfs(extension);
    code = open_database(path, &database);
    if (code != SQLITE_OK) {
        printf("failed %d\n", code);
        exit(3);
    }
    need("PRAGMA synchronous=FULL");
    if (journal) {
        snprintf(statement, sizeof statement, "PRAGMA journal_mode=%s", journal);
        need(statement);
        code = ask_for(database, "PRAGMA journal_mode", mode);
        if (code == SQLITE_OK && sqlite3_stricmp(mode, journal) != 0) {
            fprintf(stderr, "transfers: the journal's mode is %s\n", mode);
            exit(2);
        }
    }
    if (cache) {
        snprintf(statement, sizeof statement, "PRAGMA cache_size=%s", cache);
        need(statement);
    }
}

static void make(int accounts)
{
    char statement[300];
    need("CREATE TABLE account (id INTEGER PRIMARY KEY, balance INTEGER, note BLOB)");
    need("CREATE TABLE log (id INTEGER PRIMARY KEY)");
    /* few a transaction: each must fit into a commit */
    for (int first = 0; first < accounts; first += 20) {
        snprintf(statement, sizeof statement,
                 "WITH RECURSIVE number(n) AS (SELECT %d UNION ALL SELECT n + 1 FROM number WHERE n + 1 < %d) "
                 "INSERT INTO account SELECT n, 0, randomblob(3900) FROM number",
                 first, first + 20 < accounts ? first + 20 : accounts);
        need(statement);
    }
}

/* A number that a question is answered by. */
static int number_of(const char *question, int *number)
{
    char answer[300];
    int code = ask_for(database, question, answer);
    *number = atoi(answer);
    return code;
}

/* Answers SQLite's code; where it isn't SQLITE_OK, the transaction is over. */
static int transfer(void)
{
    char statement[200];
    int accounts = 1, number = 0;
    int code = number_of("SELECT count(*) FROM account", &accounts);
    if (code == SQLITE_OK)
        code = number_of("SELECT count(*) + 1 FROM log", &number);
    if (code == SQLITE_OK)
        code = run(database, "BEGIN");
    for (int i = 0; i < 50 && code == SQLITE_OK; i++) {
        snprintf(statement, sizeof statement, "UPDATE account SET balance = balance %c %d WHERE id = %d",
                 i % 2 ? '-' : '+', number + i / 2, (number * 31 + i * 7) % accounts);
        code = run(database, statement);
    }
    if (code == SQLITE_OK)
        code = run(database, "INSERT INTO log DEFAULT VALUES");
    if (code == SQLITE_OK)
        code = run(database, "COMMIT");
    if (!sqlite3_get_autocommit(database))
        (void)run(database, "ROLLBACK");
    if (code == SQLITE_OK)
        printf("acknowledged %d\n", number);
    return code;
}

static double now(void)
{
    struct timespec time;
    clock_gettime(CLOCK_MONOTONIC, &time);
    return (double)time.tv_sec * 1e6 + (double)time.tv_nsec / 1e3;
}

/* Makes so many transfers, whether they succeed or not; answers how many failed. */
static int make_transfers(int count)
{
    int failed = 0;
    double began = now();
    for (int i = 0; i < count; i++) {
        int code = transfer();
        if (code != SQLITE_OK)
            printf("failed %d\n", code);
        failed += code != SQLITE_OK;
        fflush(stdout);
    }
    printf("%.0f\n", (now() - began) / count);
    return failed;
}

static void check(void)
{
    char whole[300], sum[300], logged[300];
    if (ask_for(database, "PRAGMA integrity_check", whole) ||
        ask_for(database, "SELECT sum(balance) FROM account", sum) ||
        ask_for(database, "SELECT count(*) FROM log", logged)) {
        fprintf(stderr, "transfers: check: %s\n", sqlite3_errmsg(database));
        exit(4);
    }
    printf("%s %s %s\n", whole, sum, logged);
}

static void large(const char *pages)
{
    char statement[200];
    int code;
    need("BEGIN");
    need("INSERT INTO log DEFAULT VALUES");
    snprintf(statement, sizeof statement, "UPDATE account SET balance = balance + 1 WHERE id < %s", pages);
    code = run(database, statement);
    if (code == SQLITE_OK)
        code = run(database, "COMMIT");
    printf("%d %s\n", code, sqlite3_errmsg(database));
    if (!sqlite3_get_autocommit(database))
        need("ROLLBACK");
    check();
    WANT(transfer() == SQLITE_OK);
    check();
}

static void format(const char *path, const char *records, const char *files, const char *layout)
{
    strcpy(folder, ".");
    snprintf(volume, sizeof volume, "%s", path);
    make_volume_of((unsigned)atoi(layout), (unsigned)atoi(records), files);
}

int main(int count, char **words)
{
    const char *what = count > 2 ? words[1] : "";
    int failed = 0;
    if (strcmp(what, "format") == 0 && (count == 5 || count == 6)) {
        format(words[2], words[3], words[4], count == 6 ? words[5] : "5");
    } else if (strcmp(what, "make") == 0 && count == 5) {
        begin_with(words[2], words[3], NULL);
        make(atoi(words[4]));
    } else if (strcmp(what, "run") == 0 && count == 6) {
        begin_with(words[2], words[3], words[4]);
        failed = make_transfers(atoi(words[5]));
    } else if (strcmp(what, "large") == 0 && count == 6) {
        begin_with(words[2], words[3], words[4]);
        large(words[5]);
    } else if (strcmp(what, "check") == 0 && count == 3) {
        begin_with(words[2], NULL, NULL);
        check();
    } else {
        fprintf(stderr, "transfers: the words aren't those of a command\n");
        return 2;
    }
    return sqlite3_close(database) == SQLITE_OK && failed == 0 ? 0 : 4;
}
