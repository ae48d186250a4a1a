/*
 * Random statements on a database in a volume, and the same on one in memory: both answer alike, but where a
 * transaction is larger than a commit, and have the same rows after each transaction, whether it was committed or
 * rolled back, and after the database was closed in its midst and opened again.
 *
 *   statements EXTENSION [DATABASES [SEED]]
 */
#include "database.h"

#define STATEMENTS 150

static unsigned long seed;
static uint64_t state;
static char path[200];
static sqlite3 *ours, *mirror;
static unsigned long made, full, refused, reopened, committed;

static unsigned below(unsigned count)
{
    state ^= state << 13;
    state ^= state >> 7;
    state ^= state << 17;
    return (unsigned)((state >> 11) % count);
}

static const char *one_of(const char *const *words, unsigned count)
{
    return words[below(count)];
}

#define ONE_OF(words) one_of(words, sizeof words / sizeof words[0])

/* Runs a statement, whose parameter, where it has one, is `count` bytes. */
static int step(sqlite3 *database, const char *text, const void *bytes, int count)
{
    sqlite3_stmt *statement;
    int code = sqlite3_prepare_v2(database, text, -1, &statement, NULL);
    if (code == SQLITE_OK) {
        sqlite3_bind_blob(statement, 1, bytes, count, SQLITE_STATIC);
        while (sqlite3_step(statement) == SQLITE_ROW)
            continue;
        code = sqlite3_finalize(statement);
    }
    return code;
}

static void stop(const char *what)
{
    fprintf(stderr, "statements: seed %lu: %s: here \"%s\", in memory \"%s\"\n", seed, what, sqlite3_errmsg(ours),
            sqlite3_errmsg(mirror));
    exit(1);
}

/* Ours ends with its last page, also where pages were given back. */
static void want_size(void)
{
    char text[100];
    snprintf(text, sizeof text, "SELECT page_count * page_size = %lld FROM pragma_page_count, pragma_page_size",
             (long long)size_of(ours, "main"));
    WANT(answers(ours, text, "1"));
}

/* Both have the same rows, and ours is whole. */
static void compare(void)
{
    static const char text[] = "SELECT id, number, bytes FROM row ORDER BY id";
    sqlite3_stmt *one = NULL, *other = NULL;
    int found;
    if (sqlite3_prepare_v2(ours, text, -1, &one, NULL) || sqlite3_prepare_v2(mirror, text, -1, &other, NULL))
        stop(text);
    do {
        found = sqlite3_step(one);
        if (found != sqlite3_step(other))
            stop("another number of rows");
        for (int i = 0; found == SQLITE_ROW && i < 3; i++) {
            int bytes = sqlite3_column_bytes(one, i);
            if (bytes != sqlite3_column_bytes(other, i) ||
                (bytes > 0 && memcmp(sqlite3_column_blob(one, i), sqlite3_column_blob(other, i), (size_t)bytes) != 0))
                stop("another row");
        }
    } while (found == SQLITE_ROW);
    if (found != SQLITE_DONE || sqlite3_finalize(one) || sqlite3_finalize(other))
        stop("no end of rows");
    WANT(answers(ours, "PRAGMA integrity_check", "ok"));
    want_size();
}

/* A transaction that is too large is over for both. */
static void give_up(void)
{
    full++;
    if (!sqlite3_get_autocommit(ours))
        must(ours, "ROLLBACK");
    if (!sqlite3_get_autocommit(mirror))
        must(mirror, "ROLLBACK");
    compare();
}

static void both(const char *text)
{
    static unsigned char bytes[20000];
    int count = 1 + (int)below(below(3) ? 3000 : sizeof bytes - 1);
    int code, other;
    for (int i = 0; i < count; i += 1 + (int)below(64))
        bytes[i] = (unsigned char)below(256);
    made++;
    code = step(ours, text, bytes, count);
    if (code == SQLITE_FULL) {
        give_up();
        return;
    }
    other = step(mirror, text, bytes, count);
    if (code != other || sqlite3_get_autocommit(ours) != sqlite3_get_autocommit(mirror))
        stop(text);
    refused += code != SQLITE_OK;
    if (sqlite3_get_autocommit(ours)) {
        committed++;
        compare();
    }
}

static void change_rows(void)
{
    static const char *const ways[] = {"", "OR IGNORE", "OR REPLACE", "OR FAIL", "OR ROLLBACK"};
    char text[300];
    unsigned first = below(40), last = first + below(below(3) ? 3 : 20);
    switch (below(5)) {
    case 0:
    case 1:
        snprintf(text, sizeof text,
                 "WITH RECURSIVE n(i) AS (SELECT %u UNION ALL SELECT i + 1 FROM n WHERE i < %u) "
                 "INSERT %s INTO row SELECT i, i * %u %% 40, ?1 FROM n",
                 first, last, ONE_OF(ways), 1 + below(39));
        break;
    case 2:
        snprintf(text, sizeof text, "UPDATE %s row SET bytes = ?1 WHERE id BETWEEN %u AND %u", ONE_OF(ways), first,
                 last);
        break;
    case 3:
        snprintf(text, sizeof text, "UPDATE %s row SET number = number + %u WHERE id >= %u", ONE_OF(ways), below(3),
                 first);
        break;
    default:
        snprintf(text, sizeof text, "DELETE FROM row WHERE id BETWEEN %u AND %u", first, last);
    }
    both(text);
}

/* Whatever wasn't committed is gone by a close. */
static void reopen(void)
{
    static const char *const journals[] = {"MEMORY", "MEMORY", "MEMORY", "DELETE", "TRUNCATE", "PERSIST"};
    static const char *const syncs[] = {"FULL", "NORMAL", "OFF"};
    char text[200];
    if (ours)
        WANT(sqlite3_close(ours) == SQLITE_OK);
    if (!sqlite3_get_autocommit(mirror))
        must(mirror, "ROLLBACK");
    WANT(open_database(path, &ours) == SQLITE_OK);
    snprintf(text, sizeof text,
             "PRAGMA journal_mode=%s; PRAGMA cache_size=%u; PRAGMA synchronous=%s; PRAGMA locking_mode=%s",
             ONE_OF(journals), below(3) ? 5 + below(20) : 2000, ONE_OF(syncs), below(3) ? "NORMAL" : "EXCLUSIVE");
    must(ours, text);
    reopened++;
}

static void one_statement(void)
{
    static const char *const others[] = {
        "BEGIN",           "BEGIN IMMEDIATE", "COMMIT",      "COMMIT",      "ROLLBACK",
        "SAVEPOINT one",   "SAVEPOINT two",   "RELEASE one", "RELEASE two", "ROLLBACK TO one",
        "ROLLBACK TO two", "REINDEX",         "VACUUM",
    };
    if (below(40) == 0) {
        reopen();
        compare();
    } else if (below(5) < 3) {
        change_rows();
    } else {
        both(ONE_OF(others));
    }
}

/* A volume of some layout, with a database of some page size, that is filled and emptied. */
static void one_database(void)
{
    static const char *const sizes[] = {"512", "1024", "4096", "4096", "4096", "8192", "65536"};
    static const char *const vacuums[] = {"NONE", "FULL", "INCREMENTAL"};
    static const char table[] = "CREATE TABLE row (id INTEGER PRIMARY KEY, number INTEGER UNIQUE, bytes BLOB)";
    char text[200];
    const char *size = ONE_OF(sizes);
    snprintf(text, sizeof text, "other=5000 db=%u", (100 + below(200)) * 4096);
    make_volume_of(FIRST_LAYOUT + below(LAYOUTS - FIRST_LAYOUT + 1), (size[0] == '6' ? 150 : 12) + below(40), text);
    snprintf(path, sizeof path, "file:%s?vfs=famsync&file=db&foreground=%u", volume, below(2));
    WANT(open_database(":memory:", &mirror) == SQLITE_OK);
    reopen();
    snprintf(text, sizeof text, "PRAGMA page_size=%s; PRAGMA auto_vacuum=%s", size, ONE_OF(vacuums));
    must(ours, text);
    both(table);
    for (int i = 0; i < STATEMENTS; i++)
        one_statement();
    reopen();
    compare();
    WANT(sqlite3_close(ours) == SQLITE_OK && sqlite3_close(mirror) == SQLITE_OK);
    ours = mirror = NULL;
}

int main(int count, char **words)
{
    WANT(count >= 2);
    unsigned long databases = count > 2 ? strtoul(words[2], NULL, 10) : 10;
    unsigned long first = count > 3 ? strtoul(words[3], NULL, 10) : (unsigned long)getpid();
    load_vfs(words[1]);
    for (seed = first; seed < first + databases; seed++) {
        state = seed * UINT64_C(0x9E3779B97F4A7C15) | 1;
        one_database();
    }
    printf(
        "clients/sqlite: statements: %lu databases from seed %lu: %lu statements, of which %lu were too large and %lu "
        "refused; %lu comparisons, %lu opened again\n",
        databases, first, made, full, refused, committed, reopened);
    return 0;
}
