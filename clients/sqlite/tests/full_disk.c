/*
 * A full disk, with each journal_mode and locking_mode: a commit is refused with SQLITE_FULL, and SQLite rolls its
 * transaction back. The connection goes on, and commits once the disk has room.
 *
 *   full_disk EXTENSION
 */
#include "database.h"

static const char *const journals[] = {"DELETE", "PERSIST", "MEMORY", "OFF"};
static const char *const lockings[] = {"NORMAL", "EXCLUSIVE"};
static const char *const caches[] = {"2000", "5"};

static char path[200], settings[200];
static sqlite3 *database, *log_of;

/* Whether the disk has no room, and how often it was asked for some. The library calls this function of the program. */
static bool is_full;
static unsigned refusals;

int fallocate(int file, int mode, off_t offset, off_t length)
{
    if (!is_full)
        return (int)syscall(SYS_fallocate, file, mode, offset, length);
    refusals++;
    errno = ENOSPC;
    return -1;
}

static void begin(void)
{
    WANT(open_database(path, &database) == SQLITE_OK);
    must(database, settings);
}

static void end(void)
{
    WANT(sqlite3_close(database) == SQLITE_OK);
}

static int insert(const char *letter)
{
    char statement[300];
    snprintf(statement, sizeof statement,
             "WITH RECURSIVE number(n) AS (SELECT 1 UNION ALL SELECT n + 1 FROM number WHERE n < 10) INSERT INTO row "
             "SELECT NULL, '%s' || hex(randomblob(1500)) FROM number",
             letter);
    return run(database, statement);
}

static void want_rows(const char *count)
{
    WANT(answers(database, "PRAGMA integrity_check", "ok") && answers(database, "SELECT count(*) FROM row", count));
    WANT(answers(database, "SELECT count(*) FROM row WHERE bytes GLOB 'z*'", "0"));
}

static void refuses(void)
{
    WANT(insert("z") == SQLITE_FULL && sqlite3_get_autocommit(database) && refusals > 0);
    WANT(answers(log_of, "SELECT famsync_error() LIKE '%v.img\": a commit failed: the disk is full%No space left%'",
                 "1"));
    want_rows("10");
}

/* A transaction of several statements, and one that deletes, which may have room. */
static void refuses_more(void)
{
    must(database, "BEGIN; UPDATE row SET bytes = 'z' || bytes WHERE id < 5");
    WANT(insert("z") == SQLITE_OK && run(database, "COMMIT") == SQLITE_FULL);
    if (!sqlite3_get_autocommit(database))
        must(database, "ROLLBACK");
    want_rows("10");
    must(database, "BEGIN; UPDATE row SET bytes = 'z' || bytes; DELETE FROM row WHERE id = 1; ROLLBACK");
    want_rows("10");
}

static void dies(void)
{
    int status;
    pid_t child;
    end();
    child = fork();
    if (child == 0) {
        begin();
        WANT(insert("z") == SQLITE_FULL);
        raise(SIGKILL);
    }
    WANT(waitpid(child, &status, 0) == child && WIFSIGNALED(status) && WTERMSIG(status) == SIGKILL);
    begin();
    want_rows("10");
}

static void goes_on(unsigned layout)
{
    is_full = false;
    refusals = 0;
    make_hole_of(layout, 60, "db=1638400");
    snprintf(path, sizeof path, "file:%s?vfs=famsync&file=db", volume);
    begin();
    must(database, "CREATE TABLE row (id INTEGER PRIMARY KEY, bytes BLOB)");
    WANT(insert("x") == SQLITE_OK);
    is_full = true;
    refuses();
    refuses_more();
    dies();
    refuses();
    is_full = false;
    WANT(insert("y") == SQLITE_OK);
    want_rows("20");
    end();
    begin();
    want_rows("20");
    end();
}

/* With the settings of a number below 16, which are different for each. */
static void goes_on_with(unsigned number)
{
    snprintf(settings, sizeof settings, "PRAGMA journal_mode=%s; PRAGMA locking_mode=%s; PRAGMA cache_size=%s",
             journals[number / 4], lockings[number % 2], caches[number / 2 % 2]);
    goes_on(FIRST_LAYOUT + number % (LAYOUTS - FIRST_LAYOUT + 1));
}

int main(int count, char **words)
{
    WANT(count == 2);
    load_vfs(words[1]);
    WANT(sqlite3_open(":memory:", &log_of) == SQLITE_OK && sqlite3_enable_load_extension(log_of, 1) == SQLITE_OK);
    WANT(sqlite3_load_extension(log_of, words[1], NULL, NULL) == SQLITE_OK);
    for (unsigned number = 0; number < 16; number++)
        goes_on_with(number);
    sqlite3_close(log_of);
    printf("clients/sqlite: full_disk: as it should be\n");
    return 0;
}
