/*
 * SQLite on famsync beside SQLite on plain files, for clients/sqlite/compare --times: transactions that change some
 * pages, each with PRAGMA synchronous=FULL. The ways take turns, each turn begins with another one, and of the turns of
 * a way the one in the middle counts.
 *
 *   times PAGES ROW TURNS     a turn has ROW transactions, one right after another; prints for each way the
 *                             microseconds of a transaction
 *
 * EXTENSION in the environment is loaded before. The databases are made in the folder from which it is called, and are
 * looked at in the end.
 */
#include "database.h"

#include <time.h>

#define ACCOUNTS 60
#define RECORDS 16367 /* in a log of 64 MB */
#define WAYS (sizeof ways / sizeof ways[0])

struct way {
    const char *name, *path, *journal;
    unsigned layout;    /* of its volume; or 0 */
    const char *volume; /* whose write-out is waited for between turns; or a null pointer */
    sqlite3 *database;
    sqlite3_stmt *update;
    double *turns; /* what a transaction took in each */
    int number;    /* of the last transaction */
};

static struct way ways[] = {
    {"famsync", "file:times.vol?vfs=famsync", "MEMORY", .layout = 5, .volume = "times.vol"},
    {"foreground", "file:foreground.vol?vfs=famsync&foreground=1", "MEMORY", .layout = 5},
    {.name = "wal", .path = "wal.db", .journal = "WAL"},
    {.name = "delete", .path = "delete.db", .journal = "DELETE"},
    {"digest", "file:digest.vol?vfs=famsync", "MEMORY", .layout = 6},
};

static void begin(struct way *way, int turns)
{
    static const char update[] = "UPDATE account SET balance = ?1 WHERE id < ?2";
    char text[400];
    if (way->layout > 0) {
        strcpy(folder, ".");
        sscanf(way->path, "file:%79[^?]", volume);
        make_volume_of(way->layout, RECORDS, "db=1048576");
    }
    WANT(open_database(way->path, &way->database) == SQLITE_OK);
    snprintf(text, sizeof text, "PRAGMA synchronous=FULL; PRAGMA journal_mode=%s", way->journal);
    must(way->database, text);
    WANT(sqlite3_stricmp(way->journal, "MEMORY") == 0 || answers(way->database, "PRAGMA synchronous", "2"));
    snprintf(text, sizeof text,
             "CREATE TABLE account (id INTEGER PRIMARY KEY, balance INTEGER, note BLOB);"
             "WITH RECURSIVE number(n) AS (SELECT 0 UNION ALL SELECT n + 1 FROM number WHERE n + 1 < %d) "
             "INSERT INTO account SELECT n, 0, randomblob(3900) FROM number",
             ACCOUNTS);
    must(way->database, text);
    WANT(sqlite3_prepare_v2(way->database, update, -1, &way->update, NULL) == SQLITE_OK);
    way->turns = calloc((size_t)turns, sizeof *way->turns);
    WANT(way->turns != NULL);
}

/* One statement is one transaction. */
static void transact(struct way *way, int pages)
{
    sqlite3_bind_int(way->update, 1, ++way->number);
    sqlite3_bind_int(way->update, 2, pages);
    WANT(sqlite3_step(way->update) == SQLITE_DONE && sqlite3_reset(way->update) == SQLITE_OK);
}

/* Waits until the pages of the last commit are written home, where the library's thread does that: the gate is closed
   then, and the sync after it waits for those before. */
static void wait_until_home(const struct way *way)
{
    unsigned char gate = 0;
    int file;
    if (!way->volume)
        return;
    file = open(way->volume, O_RDONLY | O_CLOEXEC);
    WANT(file >= 0);
    while (pread(file, &gate, 1, 4096) == 1 && gate == 0xa7)
        usleep(200);
    WANT(fdatasync(file) == 0 && close(file) == 0);
}

static double now(void)
{
    struct timespec time;
    clock_gettime(CLOCK_MONOTONIC, &time);
    return (double)time.tv_sec * 1e6 + (double)time.tv_nsec / 1e3;
}

static double one_turn(struct way *way, int pages, int row)
{
    double began = now(), ended;
    for (int i = 0; i < row; i++)
        transact(way, pages);
    ended = now();
    wait_until_home(way);
    return (ended - began) / row;
}

static int compare(const void *left, const void *right)
{
    double one = *(const double *)left, other = *(const double *)right;
    return (one > other) - (one < other);
}

/* What was stored is there, and the database is whole. */
static void end(struct way *way, int pages, int turns)
{
    char text[100];
    snprintf(text, sizeof text, "SELECT count(*) = %d FROM account WHERE balance = %d", pages, way->number);
    WANT(answers(way->database, text, "1") && answers(way->database, "PRAGMA integrity_check", "ok"));
    WANT(sqlite3_finalize(way->update) == SQLITE_OK && sqlite3_close(way->database) == SQLITE_OK);
    qsort(way->turns, (size_t)turns, sizeof *way->turns, compare);
    printf("%s %.0f\n", way->name, way->turns[turns / 2]);
    free(way->turns);
}

int main(int count, char **words)
{
    WANT(count == 4 && getenv("EXTENSION") != NULL);
    int pages = atoi(words[1]), row = atoi(words[2]), turns = atoi(words[3]);
    WANT(pages > 0 && pages <= ACCOUNTS && row > 0 && turns > 0);
    load_vfs(getenv("EXTENSION"));
    for (size_t i = 0; i < WAYS; i++)
        begin(&ways[i], turns);
    /* one turn comes before, and isn't counted */
    for (int turn = -1; turn < turns; turn++)
        for (size_t i = 0; i < WAYS; i++) {
            struct way *way = &ways[(i + (size_t)(turn + 1)) % WAYS];
            double time = one_turn(way, pages, row);
            if (turn >= 0)
                way->turns[turn] = time;
        }
    for (size_t i = 0; i < WAYS; i++)
        end(&ways[i], pages, turns);
    return 0;
}
