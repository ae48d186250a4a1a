/*
 * Databases that get smaller. A database in a volume has the size that the default VFS has for the same statements: at
 * once, after a kill, and when it is opened again.
 *
 *   sizes EXTENSION
 */
#include "database.h"

#define ROWS                                                                                                           \
    "CREATE TABLE row (id INTEGER PRIMARY KEY, bytes BLOB); WITH RECURSIVE number(n) AS (SELECT 1 UNION ALL SELECT "   \
    "n + 1 FROM number WHERE n < 60) INSERT INTO row SELECT n, replace(hex(zeroblob(1500)), '0', 'x') FROM number; "
#define HALF "DELETE FROM row WHERE id % 2; "
#define MOST "DELETE FROM row WHERE id > 10; "

static const struct shrinking {
    const char *before, *statements;
} shrinkings[] = {
    {ROWS HALF, "VACUUM"},
    {ROWS "DELETE FROM row", "VACUUM"},
    {ROWS "DROP TABLE row", "VACUUM"},
    {ROWS HALF, "PRAGMA page_size=1024; VACUUM"},
    {ROWS HALF, "PRAGMA page_size=65536; VACUUM"},
    {"PRAGMA page_size=512; " ROWS HALF, "VACUUM"},
    {ROWS HALF, "PRAGMA auto_vacuum=FULL; VACUUM; DELETE FROM row WHERE id > 20"},
    {ROWS, "DELETE FROM row"}, /* the pages stay */
    {"PRAGMA auto_vacuum=FULL; " ROWS, MOST},
    {"PRAGMA auto_vacuum=FULL; " ROWS, "DELETE FROM row"},
    {"PRAGMA auto_vacuum=FULL; " ROWS, "DROP TABLE row"},
    {"PRAGMA auto_vacuum=FULL; " ROWS, "BEGIN; " MOST "COMMIT; BEGIN; DELETE FROM row WHERE id > 5; ROLLBACK"},
    {"PRAGMA auto_vacuum=FULL; " ROWS MOST, "INSERT INTO row SELECT id + 10, bytes FROM row WHERE id < 6"},
    {"PRAGMA auto_vacuum=INCREMENTAL; " ROWS, MOST},
    {"PRAGMA auto_vacuum=INCREMENTAL; " ROWS MOST, "PRAGMA incremental_vacuum(7)"},
    {"PRAGMA auto_vacuum=INCREMENTAL; " ROWS MOST, "PRAGMA incremental_vacuum(7); PRAGMA incremental_vacuum(5)"},
    {"PRAGMA auto_vacuum=INCREMENTAL; " ROWS MOST, "PRAGMA incremental_vacuum"},
    {"PRAGMA auto_vacuum=INCREMENTAL; " ROWS MOST, "BEGIN; PRAGMA incremental_vacuum; ROLLBACK"},
    {"PRAGMA auto_vacuum=INCREMENTAL; " ROWS MOST, "PRAGMA incremental_vacuum; INSERT INTO row SELECT id + 99, bytes "
                                                   "FROM row"},
};

static char path[200], plain[100];

static sqlite3 *opened_at(const char *name, const char *mode)
{
    sqlite3 *database;
    char statement[100];
    WANT(open_database(name, &database) == SQLITE_OK);
    snprintf(statement, sizeof statement, "PRAGMA journal_mode=%s; PRAGMA cache_size=10", mode);
    must(database, statement);
    return database;
}

static void close_database(sqlite3 *database)
{
    WANT(sqlite3_close(database) == SQLITE_OK);
}

/* What the default VFS has for the same statements. */
struct wanted {
    sqlite3_int64 size;
    char rows[300];
};

static const char count_rows[] = "SELECT count(*) FROM row";

static struct wanted by_the_default(const struct shrinking *shrinking)
{
    struct wanted wanted = {0, ""};
    sqlite3 *database;
    unlink(plain);
    database = opened_at(plain, "DELETE");
    must(database, shrinking->before);
    must(database, shrinking->statements);
    ask_for(database, count_rows, wanted.rows);
    wanted.size = size_of(database, "main");
    close_database(database);
    return wanted;
}

static void want_like(sqlite3 *database, const struct wanted *wanted, const struct shrinking *shrinking)
{
    char rows[300];
    if (size_of(database, "main") != wanted->size)
        fprintf(stderr, "%s%s: %lld bytes, and should have %lld\n", shrinking->before, shrinking->statements,
                (long long)size_of(database, "main"), (long long)wanted->size);
    WANT(size_of(database, "main") == wanted->size && answers(database, "PRAGMA integrity_check", "ok"));
    ask_for(database, count_rows, rows);
    WANT(strcmp(rows, wanted->rows) == 0);
}

static void fresh(unsigned layout, const struct shrinking *shrinking, const char *mode)
{
    sqlite3 *database;
    make_volume_of(layout, 300, "other=4096 db=1638400");
    snprintf(path, sizeof path, "file:%s?vfs=famsync&file=db", volume);
    database = opened_at(path, mode);
    must(database, shrinking->before);
    close_database(database);
}

static void killed_after(const char *statements, const char *mode)
{
    int status;
    pid_t child = fork();
    if (child == 0) {
        must(opened_at(path, mode), statements);
        raise(SIGKILL);
    }
    WANT(waitpid(child, &status, 0) == child && WIFSIGNALED(status) && WTERMSIG(status) == SIGKILL);
}

static void want_reopened(const struct shrinking *shrinking, const struct wanted *wanted, const char *mode)
{
    sqlite3 *database = opened_at(path, mode);
    want_like(database, wanted, shrinking);
    close_database(database);
}

static void shrinks(unsigned layout, const struct shrinking *shrinking, const char *mode)
{
    struct wanted wanted = by_the_default(shrinking);
    sqlite3 *database;
    fresh(layout, shrinking, mode);
    database = opened_at(path, mode);
    must(database, shrinking->statements);
    want_like(database, &wanted, shrinking);
    close_database(database);
    want_reopened(shrinking, &wanted, mode);
    fresh(layout, shrinking, mode);
    killed_after(shrinking->statements, mode);
    want_reopened(shrinking, &wanted, mode);
}

/* A database whose end is no page of it, as earlier versions left it after VACUUM, has the right size after the next
   commit. */
static void mends_an_earlier_size(void)
{
    static const struct shrinking shrinking = {ROWS HALF, "VACUUM; DELETE FROM row WHERE id = 2"};
    struct wanted wanted = by_the_default(&shrinking);
    famsync *handle;
    sqlite3 *database;
    fresh(LAYOUTS, &shrinking, "MEMORY");
    database = opened_at(path, "MEMORY");
    must(database, "VACUUM");
    close_database(database);
    WANT_CODE(famsync_open(volume, NULL, &handle), FAMSYNC_OK);
    WANT_CODE(famsync_write(handle, 1, 21, "\4\0\0", 3, NULL), FAMSYNC_OK); /* 64 pages */
    WANT_CODE(famsync_msync(handle, NULL), FAMSYNC_OK);
    WANT_CODE(famsync_close(handle), FAMSYNC_OK);
    database = opened_at(path, "MEMORY");
    WANT(size_of(database, "main") == 64 * 4096 && wanted.size < 64 * 4096);
    must(database, "DELETE FROM row WHERE id = 2");
    close_database(database);
    want_reopened(&shrinking, &wanted, "MEMORY");
}

/* A database in a volume of its own, whose commits have few pages. */
static void attach_small(sqlite3 *database, unsigned layout, const char *mode)
{
    char statement[300], first[80], other[80];
    snprintf(first, sizeof first, "%s/first.img", folder);
    snprintf(other, sizeof other, "%s/other.img", folder);
    WANT(rename(volume, first) == 0);
    make_volume_of(layout, 20, "db=1638400");
    WANT(rename(volume, other) == 0 && rename(first, volume) == 0);
    snprintf(statement, sizeof statement,
             "ATTACH 'file:%s?vfs=famsync&file=db' AS other; PRAGMA other.journal_mode=%s; CREATE TABLE other.row (id "
             "INTEGER PRIMARY KEY, bytes BLOB)",
             other, mode);
    must(database, statement);
    for (int i = 0; i < 4; i++)
        must(database, "INSERT INTO other.row SELECT NULL, bytes FROM main.row LIMIT 10");
}

/* Of a transaction over two databases the first has been committed, and has become smaller, as the commit of the other
   one fails. Then SQLite rolls the first back, and finds the pages at its former end, which it has moved. */
static void rolls_back_a_commit(unsigned layout, const char *mode)
{
    static const struct shrinking shrinking = {"PRAGMA auto_vacuum=FULL; " ROWS, ""};
    struct wanted wanted = by_the_default(&shrinking);
    sqlite3 *database;
    fresh(layout, &shrinking, mode);
    database = opened_at(path, mode);
    attach_small(database, layout, mode);
    must(database, "BEGIN; DELETE FROM main.row WHERE id < 50; UPDATE other.row SET bytes = bytes || 'y'");
    WANT(run(database, "COMMIT") == SQLITE_FULL && sqlite3_get_autocommit(database));
    want_like(database, &wanted, &shrinking);
    WANT(answers(database, "SELECT count(*) FROM other.row WHERE bytes NOT LIKE '%y'", "40"));
    close_database(database);
    want_reopened(&shrinking, &wanted, mode);
}

int main(int count, char **words)
{
    static const char *const modes[] = {"DELETE", "MEMORY"};
    WANT(count == 2);
    load_vfs(words[1]);
    make_folder();
    snprintf(plain, sizeof plain, "%s/plain.db", folder);
    for (unsigned i = 0; i < sizeof shrinkings / sizeof shrinkings[0]; i++)
        shrinks(FIRST_LAYOUT + i % 2, &shrinkings[i], modes[i / 2 % 2]);
    for (unsigned layout = FIRST_LAYOUT; layout <= LAYOUTS; layout++)
        rolls_back_a_commit(layout, modes[layout % 2]);
    mends_an_earlier_size();
    printf("clients/sqlite: sizes: as they should be\n");
    return 0;
}
