/*
 * Databases that come into a volume from a plain file, plain files beside a volume, and what a failure says.
 *
 *   files EXTENSION
 */
#include "database.h"

#include <sys/resource.h>

static sqlite3 *database;
static char path[200];
static char plain[100];

static void begin(unsigned layout, unsigned slots)
{
    make_volume_of(layout, slots, "db=4096000 other=4096000");
    snprintf(path, sizeof path, "file:%s?vfs=famsync&file=db", volume);
    snprintf(plain, sizeof plain, "%s/plain.db", folder);
    unlink(plain);
    WANT(open_database(path, &database) == SQLITE_OK);
}

static void end(void)
{
    WANT(sqlite3_close(database) == SQLITE_OK);
}

static void reopen(void)
{
    end();
    WANT(open_database(path, &database) == SQLITE_OK);
}

/* Opens a database with parameters after those of its path. */
static int open_with(const char *parameters, sqlite3 **opened)
{
    char name[300];
    snprintf(name, sizeof name, "%s%s", path, parameters);
    return open_database(name, opened);
}

static void must_with(sqlite3 *in, const char *format, const char *name)
{
    char statement[300];
    snprintf(statement, sizeof statement, format, name);
    must(in, statement);
}

static const char rows[] = "CREATE TABLE row (id INTEGER PRIMARY KEY, bytes BLOB); WITH RECURSIVE number(n) AS (SELECT "
                           "1 UNION ALL SELECT n + 1 FROM number WHERE n < 40) INSERT INTO row SELECT n, "
                           "zeroblob(3000) FROM number";

static bool has_rows(sqlite3 *in, const char *count)
{
    return answers(in, "PRAGMA integrity_check", "ok") && answers(in, "SELECT count(*) FROM row", count);
}

/* A plain database in WAL mode, with pages of a size. */
static sqlite3 *plain_with_wal(const char *page_size)
{
    sqlite3 *opened;
    WANT(sqlite3_open(plain, &opened) == SQLITE_OK);
    must_with(opened, "PRAGMA page_size=%s", page_size);
    WANT(answers(opened, "PRAGMA journal_mode=WAL", "wal"));
    must(opened, rows);
    return opened;
}

static void copy(sqlite3 *to, sqlite3 *from)
{
    sqlite3_backup *backup = sqlite3_backup_init(to, "main", from, "main");
    WANT(backup && sqlite3_backup_step(backup, -1) == SQLITE_DONE && sqlite3_backup_finish(backup) == SQLITE_OK);
}

/* What `.restore` does. The connection goes on, and the database can be opened again. */
static void takes_a_database_in_wal_mode(const char *page_size)
{
    sqlite3 *from;
    begin(FIRST_LAYOUT, 200);
    from = plain_with_wal(page_size);
    must(database, "CREATE TABLE old (n); INSERT INTO old VALUES (1)");
    copy(database, from);
    WANT(sqlite3_close(from) == SQLITE_OK);
    WANT(has_rows(database, "40") && answers(database, "PRAGMA journal_mode", "delete"));
    must(database, "DELETE FROM row WHERE id = 7");
    reopen();
    WANT(has_rows(database, "39") && answers(database, "PRAGMA page_size", page_size));
    must(database, "DELETE FROM row WHERE id = 8");
    reopen();
    WANT(has_rows(database, "38"));
    end();
}

/* A restore is one transaction. One that is larger than a commit is refused, and the database is what it was. */
static void refuses_a_large_restore(void)
{
    sqlite3 *from;
    sqlite3_backup *backup;
    begin(FIRST_LAYOUT, 30);
    must(database, "CREATE TABLE old (n); INSERT INTO old VALUES (1)");
    from = plain_with_wal("4096");
    backup = sqlite3_backup_init(database, "main", from, "main");
    WANT(backup && sqlite3_backup_step(backup, -1) == SQLITE_FULL && sqlite3_backup_finish(backup) == SQLITE_FULL);
    WANT(sqlite3_close(from) == SQLITE_OK);
    WANT(answers(database, "SELECT n FROM old", "1") && answers(database, "PRAGMA integrity_check", "ok"));
    must(database, "INSERT INTO old VALUES (2)");
    reopen();
    WANT(answers(database, "SELECT count(*) FROM old", "2"));
    end();
}

/* An earlier version left it so. */
static void opens_what_says_wal(void)
{
    famsync *handle;
    begin(FIRST_LAYOUT, 200);
    must(database, rows);
    end();
    WANT_CODE(famsync_open(volume, NULL, &handle), FAMSYNC_OK);
    WANT_CODE(famsync_write(handle, 0, 4096 + 18, "\2\2", 2, NULL), FAMSYNC_OK);
    WANT_CODE(famsync_msync(handle, NULL), FAMSYNC_OK);
    WANT_CODE(famsync_close(handle), FAMSYNC_OK);
    WANT(open_database(path, &database) == SQLITE_OK && has_rows(database, "40"));
    must(database, "DELETE FROM row WHERE id = 7");
    reopen();
    WANT(has_rows(database, "39"));
    end();
}

/* `.backup`: a plain file gets the database as it is. */
static void goes_into_a_plain_file(void)
{
    sqlite3 *to;
    begin(FIRST_LAYOUT, 200);
    must(database, rows);
    WANT(sqlite3_open(plain, &to) == SQLITE_OK);
    copy(to, database);
    WANT(has_rows(to, "40") && sqlite3_close(to) == SQLITE_OK);
    end();
}

static bool is_there(const char *suffix)
{
    char name[120];
    snprintf(name, sizeof name, "%s%s", plain, suffix);
    return access(name, F_OK) == 0;
}

/* ATTACH and VACUUM INTO by a plain name. */
static void leaves_plain_files_to_the_default(void)
{
    sqlite3 *other;
    begin(FIRST_LAYOUT, 200);
    must(database, rows);
    must_with(database, "VACUUM INTO '%s'", plain);
    WANT(sqlite3_open(plain, &other) == SQLITE_OK && has_rows(other, "40") && sqlite3_close(other) == SQLITE_OK);
    must_with(database, "ATTACH '%s' AS plain", plain);
    must(database, "CREATE TABLE plain.copied AS SELECT * FROM main.row; PRAGMA plain.journal_mode=TRUNCATE");
    must(database, "DELETE FROM plain.row WHERE id = 7");
    WANT(is_there("-journal"));
    WANT(answers(database, "PRAGMA plain.journal_mode=WAL", "wal"));
    must(database, "BEGIN; DELETE FROM plain.row WHERE id = 8; DELETE FROM main.row WHERE id = 8; COMMIT");
    WANT(is_there("-wal"));
    must(database, "DETACH plain");
    WANT(sqlite3_open(plain, &other) == SQLITE_OK && has_rows(other, "38"));
    WANT(answers(other, "SELECT count(*) FROM copied", "40") && sqlite3_close(other) == SQLITE_OK);
    WANT(has_rows(database, "39"));
    must_with(database, "ATTACH '%s.new' AS fresh", plain);
    must(database, "CREATE TABLE fresh.first (n)");
    WANT(is_there(".new"));
    end();
}

/* The journal of a plain file that is attached is a file: a kill is rolled back by it. */
static void rolls_a_plain_file_back(void)
{
    sqlite3 *other;
    int status;
    pid_t child;
    begin(FIRST_LAYOUT, 200);
    must(database, rows);
    must_with(database, "VACUUM INTO '%s'", plain);
    end();
    child = fork();
    if (child == 0) {
        WANT(open_database(path, &database) == SQLITE_OK);
        must_with(database, "ATTACH '%s' AS plain", plain);
        must(database, "PRAGMA plain.cache_size=5; BEGIN; UPDATE plain.row SET bytes = 'changed'");
        raise(SIGKILL);
    }
    WANT(waitpid(child, &status, 0) == child && WIFSIGNALED(status));
    WANT(is_there("-journal"));
    WANT(open_database(path, &database) == SQLITE_OK && has_rows(database, "40"));
    end();
    WANT(sqlite3_open(plain, &other) == SQLITE_OK && has_rows(other, "40"));
    WANT(answers(other, "SELECT count(*) FROM row WHERE bytes = 'changed'", "0") && sqlite3_close(other) == SQLITE_OK);
}

/* A transaction over two volumes is one of each. SQLite's file for such transactions is gone afterwards. */
static void changes_two_volumes(sqlite3 *opened)
{
    char beside[200];
    must(opened, "BEGIN; DELETE FROM main.row WHERE id = 40; DELETE FROM saved.row WHERE id = 1; COMMIT");
    WANT(answers(opened, "SELECT count(*) FROM main.row", "39") &&
         answers(opened, "SELECT count(*) FROM saved.row", "4"));
    must(opened, "BEGIN; DELETE FROM main.row; DELETE FROM saved.row; ROLLBACK; INSERT INTO main.row VALUES (40, 'x')");
    WANT(answers(opened, "SELECT count(*) FROM main.row", "40") &&
         answers(opened, "SELECT count(*) FROM saved.row", "4"));
    snprintf(beside, sizeof beside, "ls %s | grep -q -e -mj -e -journal", folder);
    WANT(system(beside) != 0);
}

/* A volume is one by its bytes, too, and by a URI that names a file in it. */
static void finds_volumes(void)
{
    sqlite3 *opened;
    char saved[100], command[300];
    begin(FIRST_LAYOUT, 200);
    must(database, rows);
    snprintf(saved, sizeof saved, "%s/saved.img", folder);
    end();
    snprintf(command, sizeof command, "cp '%s' '%s'", volume, saved);
    WANT(system(command) == 0);
    WANT(sqlite3_open_v2(volume, &opened, SQLITE_OPEN_READWRITE, "famsync") == SQLITE_OK && has_rows(opened, "40"));
    must_with(opened, "ATTACH '%s' AS saved", saved);
    must(opened, "DELETE FROM saved.row WHERE id > 5");
    WANT(answers(opened, "SELECT count(*) FROM saved.row", "5"));
    changes_two_volumes(opened);
    WANT(sqlite3_close(opened) == SQLITE_OK);
    WANT(open_database(path, &database) == SQLITE_OK && has_rows(database, "40"));
    must_with(database, "VACUUM INTO 'file:%s?file=other'", saved);
    must_with(database, "ATTACH 'file:%s?file=other' AS saved", saved);
    WANT(answers(database, "SELECT count(*) FROM saved.row", "40"));
    end();
    unlink(saved);
}

/* Why the last call failed, by the SQL function and by xGetLastError. */
static void want_said(sqlite3 *in, const char *words, int error)
{
    char said[300], last[300];
    sqlite3_vfs *vfs = sqlite3_vfs_find("famsync");
    errno = error;
    WANT(ask_for(in, "SELECT famsync_error()", said) == SQLITE_OK);
    if (!strstr(said, words))
        fprintf(stderr, "\"%s\" should have \"%s\"\n", said, words);
    WANT(strstr(said, words));
    WANT(vfs->xGetLastError(vfs, sizeof last, last) == error && strcmp(last, said) == 0);
}

static void log_line(void *lines, int code, const char *line)
{
    (void)code;
    snprintf(lines, 300, "%s", line);
}

static void make_mark(void)
{
    char mark[100];
    snprintf(mark, sizeof mark, "%s.suspect", volume);
    WANT(close(open(mark, O_WRONLY | O_CREAT, 0600)) == 0);
}

static void says_why(const char *extension)
{
    sqlite3 *in, *none;
    char missing[200];
    begin(FIRST_LAYOUT, 200);
    WANT(sqlite3_open(":memory:", &in) == SQLITE_OK && sqlite3_enable_load_extension(in, 1) == SQLITE_OK);
    WANT(sqlite3_load_extension(in, extension, NULL, NULL) == SQLITE_OK);
    WANT(answers(in, "SELECT famsync_error()", "NULL"));
    WANT(open_database(path, &none) == SQLITE_BUSY);
    want_said(in, "v.img\": the volume is open already", 0);
    end();
    WANT(open_database(path, &database) == SQLITE_OK && answers(in, "SELECT famsync_error()", "NULL"));
    end();
    make_mark();
    WANT(open_database(path, &none) == SQLITE_IOERR);
    want_said(in, "v.img.suspect\" exists because a sync failed", 0);
    WANT(open_with("&trust=1", &database) == SQLITE_OK);
    end();
    WANT(open_database(path, &database) == SQLITE_OK);
    end();
    snprintf(missing, sizeof missing, "file:%s?vfs=famsync&file=none", volume);
    WANT(open_database(missing, &none) == SQLITE_CANTOPEN);
    want_said(in, "v.img\", file \"none\": the volume has no such file", 0);
    snprintf(missing, sizeof missing, "file:%s/none?vfs=famsync", folder);
    WANT(open_database(missing, &none) == SQLITE_CANTOPEN);
    want_said(in, "none\": No such file or directory", ENOENT);
    WANT(sqlite3_close(in) == SQLITE_OK);
}

/* Also about a transaction or a database that is too large, with each journal_mode. A rollback doesn't forget it. */
static void says_what_is_full(const char *extension, const char *mode)
{
    sqlite3 *in;
    begin(FIRST_LAYOUT, 30);
    WANT(sqlite3_open(":memory:", &in) == SQLITE_OK && sqlite3_enable_load_extension(in, 1) == SQLITE_OK);
    WANT(sqlite3_load_extension(in, extension, NULL, NULL) == SQLITE_OK);
    must_with(database, "PRAGMA journal_mode=%s", mode);
    WANT(run(database, rows) == SQLITE_FULL);
    want_said(in, "v.img\": a transaction can change at most 28 pages", 0);
    must_with(database, "ATTACH 'file:%s.new' AS plain; CREATE TABLE IF NOT EXISTS plain.t (n); CREATE TABLE t (n)",
              plain);
    WANT(answers(in, "SELECT famsync_error()", "NULL"));
    must(database, "BEGIN; INSERT INTO plain.t VALUES (1); INSERT INTO t VALUES (zeroblob(200000))");
    WANT(run(database, "COMMIT") == SQLITE_FULL);
    want_said(in, "v.img\": a transaction can change at most 28 pages", 0);
    end();
    make_volume_of(FIRST_LAYOUT, 30, "db=40960");
    WANT(open_database(path, &database) == SQLITE_OK);
    must_with(database, "PRAGMA journal_mode=%s", mode);
    WANT(run(database, "CREATE TABLE t AS SELECT zeroblob(50000)") == SQLITE_FULL);
    want_said(in, "v.img\", file \"db\": the database can have at most 36864 bytes", 0);
    WANT(answers(database, "SELECT count(*) FROM sqlite_schema", "0"));
    end();
    WANT(sqlite3_close(in) == SQLITE_OK);
}

/* A full disk is told from a broken one by errno, which SQLite asks for. */
static void keeps_errno(void)
{
    int status;
    pid_t child;
    struct rlimit limit = {4096, 4096};
    sqlite3_vfs *vfs = sqlite3_vfs_find("famsync");
    char said[300];
    begin(FIRST_LAYOUT, 200);
    must(database, rows);
    end();
    child = fork();
    if (child == 0) {
        signal(SIGXFSZ, SIG_IGN);
        WANT(open_with("&foreground=1", &database) == SQLITE_OK && setrlimit(RLIMIT_FSIZE, &limit) == 0);
        WANT(run(database, "DELETE FROM row WHERE id = 7") == SQLITE_IOERR_FSYNC);
        WANT(vfs->xGetLastError(vfs, sizeof said, said) == EFBIG && strstr(said, "File too large"));
        WANT(run(database, "DELETE FROM row WHERE id = 8") != SQLITE_OK && sqlite3_system_errno(database) == EFBIG);
        _exit(0);
    }
    WANT(waitpid(child, &status, 0) == child && status == 0);
}

int main(int count, char **words)
{
    static char last[300];
    WANT(count == 2);
    WANT(sqlite3_config(SQLITE_CONFIG_LOG, log_line, last) == SQLITE_OK);
    load_vfs(words[1]);
    takes_a_database_in_wal_mode("4096");
    takes_a_database_in_wal_mode("1024");
    takes_a_database_in_wal_mode("65536");
    refuses_a_large_restore();
    opens_what_says_wal();
    goes_into_a_plain_file();
    leaves_plain_files_to_the_default();
    rolls_a_plain_file_back();
    finds_volumes();
    says_why(words[1]);
    says_what_is_full(words[1], "DELETE");
    says_what_is_full(words[1], "MEMORY");
    says_what_is_full(words[1], "OFF");
    WANT(strncmp(last, "famsync: ", 9) == 0);
    keeps_errno();
    printf("clients/sqlite: files: as they should be\n");
    return 0;
}
