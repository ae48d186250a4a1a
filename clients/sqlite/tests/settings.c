/*
 * With each journal_mode, locking_mode and synchronous, and with caches that hold a transaction or not: a transaction
 * that is rolled back, that is too large, that fails or that is killed changes nothing, and the connection goes on.
 *
 *   settings EXTENSION
 */
#include "database.h"

#define SLOTS 30

static const char *const journals[] = {"DELETE", "TRUNCATE", "PERSIST", "MEMORY", "OFF"};
static const char *const lockings[] = {"NORMAL", "EXCLUSIVE"};
static const char *const syncs[] = {"OFF", "FULL"};
static const unsigned caches[] = {5, 2000};

static char path[200], settings[200];
static bool without_journal;
static sqlite3 *database;

static void begin(void)
{
    WANT(open_database(path, &database) == SQLITE_OK);
    must(database, settings);
}

static void end(void)
{
    WANT(sqlite3_close(database) == SQLITE_OK);
}

/* There are 40 rows, so many of them changed, and the next connection finds the same. */
static void want_changed(int rows)
{
    char wanted[20];
    snprintf(wanted, sizeof wanted, "%d", rows);
    for (int i = 0; i < 2; i++) {
        WANT(answers(database, "SELECT count(*) FROM row WHERE bytes LIKE 'y%'", wanted));
        WANT(answers(database, "SELECT count(*) FROM row WHERE bytes GLOB '[xy]*'", "40"));
        WANT(answers(database, "PRAGMA integrity_check", "ok"));
        end();
        begin();
    }
}

static int change(const char *letter, int first, int last)
{
    char statement[200];
    snprintf(statement, sizeof statement, "UPDATE row SET bytes = '%s' || substr(bytes, 2) WHERE id BETWEEN %d AND %d",
             letter, first, last);
    return run(database, statement);
}

/* A small transaction has nothing of the one before it. */
static void goes_on(int row)
{
    WANT(sqlite3_get_autocommit(database) && change("y", row, row) == SQLITE_OK);
    want_changed(row);
}

static void rolls_back(void)
{
    must(database, "BEGIN");
    WANT(change("z", 20, 35) == SQLITE_OK);
    must(database, "INSERT INTO row SELECT id + 100, bytes FROM row WHERE id < 5; ROLLBACK");
    goes_on(1);
    must(database, "BEGIN");
    WANT(change("z", 20, 35) == SQLITE_OK);
    end(); /* in the midst of a transaction */
    begin();
    goes_on(2);
}

static void refuses_large_transactions(void)
{
    WANT(change("z", 3, 40) == SQLITE_FULL);
    goes_on(3);
    must(database, "BEGIN");
    WANT(change("z", 20, 25) == SQLITE_OK);
    WANT(change("z", 10, 40) == SQLITE_FULL || run(database, "COMMIT") == SQLITE_FULL);
    if (!sqlite3_get_autocommit(database))
        must(database, "ROLLBACK");
    goes_on(4);
}

/* A statement that fails is a transaction of its own here. Within a larger one it needs a journal. */
static void undoes_a_statement(void)
{
    WANT(run(database, "INSERT INTO row SELECT 60 - id, bytes FROM row WHERE id BETWEEN 5 AND 25") ==
         SQLITE_CONSTRAINT_PRIMARYKEY);
    goes_on(5);
    WANT(run(database, "CREATE UNIQUE INDEX one ON row (substr(bytes, 1, 2))") == SQLITE_CONSTRAINT_UNIQUE);
    goes_on(6);
    if (without_journal)
        return;
    must(database, "BEGIN; UPDATE row SET bytes = 'y' || substr(bytes, 2) WHERE id = 7");
    WANT(run(database, "INSERT INTO row SELECT 60 - id, bytes FROM row WHERE id BETWEEN 5 AND 25") ==
         SQLITE_CONSTRAINT_PRIMARYKEY);
    must(database, "SAVEPOINT here; DELETE FROM row WHERE id > 20; ROLLBACK TO here; COMMIT");
    want_changed(7);
}

static void survives_kills(void)
{
    int status;
    pid_t child;
    end();
    child = fork();
    if (child == 0) {
        begin();
        WANT(change("y", 1, 8) == SQLITE_OK);
        must(database, "BEGIN");
        WANT(change("z", 1, 20) == SQLITE_OK);
        raise(SIGKILL);
    }
    WANT(waitpid(child, &status, 0) == child && WIFSIGNALED(status) && WTERMSIG(status) == SIGKILL);
    begin();
    want_changed(8);
}

static void works(unsigned layout)
{
    make_volume_of(layout, SLOTS, "db=1638400");
    snprintf(path, sizeof path, "file:%s?vfs=famsync&file=db", volume);
    begin();
    must(database, "CREATE TABLE row (id INTEGER PRIMARY KEY, bytes BLOB)");
    for (int i = 0; i < 4; i++)
        must(database, "WITH RECURSIVE number(n) AS (SELECT 1 UNION ALL SELECT n + 1 FROM number WHERE n < 10) "
                       "INSERT INTO row SELECT NULL, 'x' || hex(randomblob(1500)) FROM number");
    rolls_back();
    refuses_large_transactions();
    undoes_a_statement();
    survives_kills();
    end();
}

/* With the settings of a number below 40, which are different for each. */
static void works_with(unsigned number)
{
    const char *locking = lockings[number % 2], *sync = syncs[number / 2 % 2];
    unsigned cache = caches[number / 4 % 2], journal = number / 8;
    without_journal = strcmp(journals[journal], "OFF") == 0;
    snprintf(settings, sizeof settings,
             "PRAGMA journal_mode=%s; PRAGMA locking_mode=%s; PRAGMA synchronous=%s; PRAGMA cache_size=%u",
             journals[journal], locking, sync, cache);
    works(LAYOUTS - number % (LAYOUTS - FIRST_LAYOUT + 1));
}

int main(int count, char **words)
{
    WANT(count == 2);
    load_vfs(words[1]);
    for (unsigned number = 0; number < 40; number++)
        works_with(number);
    printf("clients/sqlite: settings: as they should be\n");
    return 0;
}
