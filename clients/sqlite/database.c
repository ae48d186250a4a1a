/* A database in a volume: what SQLite reads, writes and syncs. */
#include "vfs.h"

#include <errno.h>
#include <limits.h>
#include <string.h>

#define MAGIC "famsync database"

/* The databases that are open; the mutex guards the list. */
static struct database *open_databases;

static void enlist(struct database *database)
{
    sqlite3_mutex *turn = take_turn();
    database->next = open_databases;
    open_databases = database;
    sqlite3_mutex_leave(turn);
}

static void strike_off(const struct database *database)
{
    sqlite3_mutex *turn = take_turn();
    struct database **place = &open_databases;
    while (*place && *place != database)
        place = &(*place)->next;
    if (*place)
        *place = database->next;
    sqlite3_mutex_leave(turn);
}

bool is_beside_a_database(const char *path, const char *suffix)
{
    sqlite3_mutex *turn = take_turn();
    const struct database *database = open_databases;
    size_t length = strlen(path) - strlen(suffix);
    bool ends = strlen(path) > strlen(suffix) && strcmp(path + length, suffix) == 0;
    while (ends && database && (strlen(database->path) != length || memcmp(database->path, path, length) != 0))
        database = database->next;
    sqlite3_mutex_leave(turn);
    return ends && database;
}

static void drop_waiting(struct database *database)
{
    while (database->waiting > 0)
        database->waits[database->order[--database->waiting]] = NULL;
}

/* A transaction has ended. What it wrote and didn't commit is no part of the database. */
static void end_transaction(struct database *database)
{
    drop_waiting(database);
    database->size = database->kept;
}

static int close_database(sqlite3_file *file)
{
    struct database *database = (struct database *)file;
    strike_off(database);
    sqlite3_free(database->waits);
    sqlite3_free(database->pages);
    sqlite3_free(database->order);
    return code_for(famsync_close(database->volume), SQLITE_IOERR_CLOSE);
}

/* A call of the library failed. */
static int failed(const struct database *database, const char *what, int code, int other)
{
    int error = error_of(code);
    return fail(code_for(code, other), error, "\"%s\": %s: %s%s%s", database->path, what, famsync_strerror(code),
                error ? ": " : "", error ? strerror(error) : "");
}

/* Fails as the commit did after which this connection can't be used. */
static int failed_again(const struct database *database, int code)
{
    errno = database->error;
    return code;
}

/*
 * A database in WAL mode says so by two bytes of its head. This VFS has no WAL, and SQLite wouldn't open it, though
 * all of its rows are there. So these bytes are changed to those of a rollback journal wherever they come by.
 */
#define HEAD 100
#define PAGE_SIZE 16 /* a number of 2 bytes, of which 1 means 65,536 */
#define WRITE_VERSION 18
#define READ_VERSION 19
#define CHANGES 24   /* a number of 4 bytes that each transaction adds 1 to */
#define PAGES 28     /* a number of 4 bytes: how many pages the database has */
#define VALID_FOR 92 /* the number of changes again; if it differs, the number of pages isn't known */
#define WITH_JOURNAL 1
#define WITH_WAL 2

static bool is_head(int count, sqlite3_int64 at)
{
    return at == 0 && count >= HEAD;
}

/* SQLite reads these 16 bytes before a transaction, if the last one didn't leave it a cache that it trusts. */
static bool is_before_a_transaction(int count, sqlite3_int64 at)
{
    return at == CHANGES && count == 16;
}

/* Returns whether it said WAL. */
static bool leave_wal(unsigned char *head)
{
    if (head[WRITE_VERSION] != WITH_WAL && head[READ_VERSION] != WITH_WAL)
        return false;
    head[WRITE_VERSION] = head[READ_VERSION] = WITH_JOURNAL;
    return true;
}

/* Adds 1 to the number of changes, so that SQLite drops from its cache the page that it wrote. */
static void count_change(unsigned char *head)
{
    for (int i = 3; i >= 0 && ++head[CHANGES + i] == 0; i--)
        continue;
    memcpy(head + VALID_FOR, head + CHANGES, 4);
}

/* How much of `count` bytes from `place` on lies in one page. */
static size_t part(uint64_t place, size_t count)
{
    size_t some = PAGE - place % PAGE;
    return some < count ? some : count;
}

/* Reads what lies in one page of the volume. */
static int read_part(const struct database *database, char *bytes, size_t count, uint64_t place)
{
    const unsigned char *waiting = database->waits[place / PAGE];
    if (!waiting)
        return famsync_read(database->volume, database->number, place, bytes, count, NULL);
    memcpy(bytes, waiting + place % PAGE, count);
    return FAMSYNC_OK;
}

static int read_parts(const struct database *database, char *bytes, size_t count, sqlite3_int64 at)
{
    int code = FAMSYNC_OK;
    size_t some;
    for (size_t done = 0; done < count && code == FAMSYNC_OK; done += some) {
        uint64_t place = PAGE + (uint64_t)at + done;
        some = part(place, count - done);
        code = read_part(database, bytes + done, some, place);
    }
    return code;
}

static int read_database(sqlite3_file *file, void *bytes, int count, sqlite3_int64 at)
{
    struct database *database = (struct database *)file;
    sqlite3_int64 left;
    size_t end;
    int code;
    if (database->torn)
        return failed_again(database, SQLITE_IOERR_READ);
    if (is_before_a_transaction(count, at))
        end_transaction(database);
    left = at < database->size ? database->size - at : 0;
    end = left < count ? (size_t)left : (size_t)count;
    code = read_parts(database, bytes, end, at);
    if (code != FAMSYNC_OK)
        return failed(database, "a read failed", code, SQLITE_IOERR_READ);
    if (is_head(count, at))
        leave_wal(bytes);
    memset((char *)bytes + end, 0, (size_t)count - end);
    return end < (size_t)count ? SQLITE_IOERR_SHORT_READ : SQLITE_OK;
}

/* Writes what lies in one page of the volume. A page that has these bytes doesn't begin to wait, so that a rollback can
   write back what wasn't changed where no more pages can wait. */
static int write_part(struct database *database, const char *bytes, size_t count, uint64_t place)
{
    size_t page = place / PAGE, within = place % PAGE;
    if (!database->waits[page]) {
        unsigned char *copy = database->pages + (size_t)database->waiting * PAGE;
        int code = famsync_read(database->volume, database->number, place - within, copy, PAGE, NULL);
        if (code != FAMSYNC_OK)
            return failed(database, "a read failed", code, SQLITE_IOERR_WRITE);
        if (memcmp(copy + within, bytes, count) == 0)
            return SQLITE_OK;
        if (database->waiting == database->limit)
            return fail(SQLITE_FULL, 0, "\"%s\": a transaction can change at most %u pages", database->path,
                        database->limit);
        database->waits[page] = copy;
        database->order[database->waiting++] = page;
    }
    memcpy(database->waits[page] + within, bytes, count);
    return SQLITE_OK;
}

static int write_parts(struct database *database, const char *bytes, size_t count, sqlite3_int64 at)
{
    int code = SQLITE_OK;
    size_t some;
    for (size_t done = 0; done < count && code == SQLITE_OK; done += some) {
        uint64_t place = PAGE + (uint64_t)at + done;
        some = part(place, count - done);
        code = write_part(database, bytes + done, some, place);
    }
    return code;
}

/* Writes the first page. A restore may bring one in that says WAL. */
static int write_head(struct database *database, const char *bytes, size_t count)
{
    unsigned char head[HEAD];
    int code;
    memcpy(head, bytes, HEAD);
    if (leave_wal(head))
        count_change(head);
    code = write_parts(database, (const char *)head, HEAD, 0);
    return code == SQLITE_OK ? write_parts(database, bytes + HEAD, count - HEAD, HEAD) : code;
}

static int refuse_size(const struct database *database)
{
    return fail(SQLITE_FULL, 0, "\"%s\", file \"%s\": the database can have at most %lld bytes", database->path,
                famsync_file_name(database->volume, database->number), (long long)database->room);
}

static int write_database(sqlite3_file *file, const void *bytes, int count, sqlite3_int64 at)
{
    struct database *database = (struct database *)file;
    int code;
    if (at > database->room - count)
        return refuse_size(database);
    if (database->torn)
        return failed_again(database, SQLITE_IOERR_WRITE);
    if (is_head(count, at))
        code = write_head(database, bytes, (size_t)count);
    else
        code = write_parts(database, bytes, (size_t)count, at);
    if (code == SQLITE_OK && at + count > database->size)
        database->size = at + count;
    return code;
}

static bool is_committed(const struct database *database)
{
    return database->waiting == 0 && database->size == database->kept;
}

/* SQLite truncates a database after its transaction was committed. So the end of this transaction has the new size. */
static int truncate_database(sqlite3_file *file, sqlite3_int64 size)
{
    struct database *database = (struct database *)file;
    if (size > database->room)
        return refuse_size(database);
    if (is_committed(database))
        database->kept = size;
    database->size = size;
    return SQLITE_OK;
}

/* The number in some bytes, of which the first counts most. */
static uint64_t number_in(const unsigned char *bytes, int count)
{
    uint64_t number = 0;
    for (int i = 0; i < count; i++)
        number = number << 8 | bytes[i];
    return number;
}

/*
 * The size that the database has after this commit. The first page has the number of pages to which SQLite truncates
 * the database after the commit. This size is a part of the commit, so that no kill comes in between. But the present
 * size stays: SQLite may still roll back the transaction, if another database of it fails, and then wants all pages.
 */
static sqlite3_int64 size_after(const struct database *database)
{
    const unsigned char *head = database->waits[1];
    uint64_t page_size, size;
    if (!head || memcmp(head + CHANGES, head + VALID_FOR, 4) != 0)
        return database->size;
    page_size = number_in(head + PAGE_SIZE, 2);
    size = number_in(head + PAGES, 4) * (page_size == 1 ? 65536 : page_size);
    return size > 0 && size < (uint64_t)database->size ? (sqlite3_int64)size : database->size;
}

static int store_size(struct database *database, sqlite3_int64 size)
{
    unsigned char head[24] = MAGIC;
    for (int i = 0; i < 8; i++)
        head[16 + i] = (unsigned char)((uint64_t)size >> (56 - 8 * i));
    return famsync_write(database->volume, database->number, 0, head, sizeof head, NULL);
}

static int store_waiting(struct database *database, sqlite3_int64 size)
{
    int code = FAMSYNC_OK;
    for (unsigned i = 0; i < database->waiting && code == FAMSYNC_OK; i++) {
        size_t page = database->order[i];
        code = famsync_write(database->volume, database->number, page * PAGE, database->waits[page], PAGE, NULL);
    }
    return code == FAMSYNC_OK && size != database->stored ? store_size(database, size) : code;
}

/* A commit failed. The session may have a part of it, which no later commit may have. */
static int tear(struct database *database, int code)
{
    database->torn = true;
    database->error = error_of(code);
    return failed(database, "a commit failed", code, SQLITE_IOERR_FSYNC);
}

/* The disk is full, which ends nothing. The session undoes its part of the commit. Then SQLite rolls the transaction
   back, and finds its pages as they were. */
static int refuse(struct database *database)
{
    int code = failed(database, "a commit failed", FAMSYNC_NOSPACE, SQLITE_FULL);
    int undone = famsync_rollback(database->volume);
    if (undone != FAMSYNC_OK)
        return tear(database, undone);
    end_transaction(database);
    return code;
}

static int sync_database(sqlite3_file *file, int flags)
{
    struct database *database = (struct database *)file;
    sqlite3_int64 size;
    int code;
    (void)flags;
    if (database->torn)
        return failed_again(database, SQLITE_IOERR_FSYNC);
    if (is_committed(database))
        return SQLITE_OK;
    size = size_after(database);
    code = store_waiting(database, size);
    if (code == FAMSYNC_OK)
        code = famsync_msync(database->volume, NULL);
    if (code != FAMSYNC_OK)
        return code == FAMSYNC_NOSPACE ? refuse(database) : tear(database, code);
    drop_waiting(database);
    database->kept = database->size;
    database->stored = size;
    return SQLITE_OK;
}

static int size_of_database(sqlite3_file *file, sqlite3_int64 *size)
{
    *size = ((struct database *)file)->size;
    return SQLITE_OK;
}

/* The library has locked the volume for this connection, as long as it is open. */
static int lock(sqlite3_file *file, int kind)
{
    (void)file, (void)kind;
    return SQLITE_OK;
}

/* With locking_mode=EXCLUSIVE SQLite doesn't call this at the end of a transaction (see is_before_a_transaction). */
static int unlock(sqlite3_file *file, int kind)
{
    if (kind <= SQLITE_LOCK_SHARED)
        end_transaction((struct database *)file);
    return SQLITE_OK;
}

static int is_reserved(sqlite3_file *file, int *found)
{
    (void)file;
    *found = 0;
    return SQLITE_OK;
}

static bool asks_for_wal(const char *name, const char *value)
{
    return sqlite3_stricmp(name, "journal_mode") == 0 && sqlite3_strnicmp(value, "wal", (int)strlen(value)) == 0;
}

/* SQLite requests SYNC before it calls xSync, and with synchronous=OFF instead. With locking_mode=EXCLUSIVE it would
   make a WAL beside the volume. So a PRAGMA that asks for one gets a value that is no mode, and answers the mode. */
static int control(sqlite3_file *file, int what, void *argument)
{
    char **words = argument;
    if (what == SQLITE_FCNTL_SYNC)
        return sync_database(file, 0);
    if (what == SQLITE_FCNTL_PRAGMA && words[2] && asks_for_wal(words[1], words[2]))
        memset(words[2], '?', strlen(words[2]));
    return SQLITE_NOTFOUND;
}

static int sector_size(sqlite3_file *file)
{
    (void)file;
    return PAGE;
}

static int characteristics(sqlite3_file *file)
{
    (void)file;
    return SQLITE_IOCAP_POWERSAFE_OVERWRITE;
}

static const sqlite3_io_methods methods = {
    .iVersion = 1,
    .xClose = close_database,
    .xRead = read_database,
    .xWrite = write_database,
    .xTruncate = truncate_database,
    .xSync = sync_database,
    .xFileSize = size_of_database,
    .xLock = lock,
    .xUnlock = unlock,
    .xCheckReservedLock = is_reserved,
    .xFileControl = control,
    .xSectorSize = sector_size,
    .xDeviceCharacteristics = characteristics,
};

/* The first page of the file says how many bytes the database has; one that is all zeros has none. */
static int read_size(struct database *database)
{
    static const unsigned char nothing[24];
    unsigned char head[24];
    uint64_t size;
    int code = famsync_read(database->volume, database->number, 0, head, sizeof head, NULL);
    if (code != FAMSYNC_OK)
        return failed(database, "a read failed", code, SQLITE_IOERR_READ);
    if (memcmp(head, nothing, sizeof head) == 0)
        return SQLITE_OK;
    size = number_in(head + 16, 8);
    if (memcmp(head, MAGIC, 16) != 0 || size > (uint64_t)database->room)
        return fail(SQLITE_NOTADB, 0, "\"%s\": its file has other bytes than a database of this VFS", database->path);
    database->size = database->kept = database->stored = (sqlite3_int64)size;
    return SQLITE_OK;
}

/* Zeroed memory. */
static void *memory_for(size_t count, size_t size)
{
    void *memory = sqlite3_malloc64(count * size);
    return memory ? memset(memory, 0, count * size) : NULL;
}

/* The parameter `wait` of the URI, in milliseconds. */
static unsigned wait_of(const char *path)
{
    sqlite3_int64 wait = sqlite3_uri_int64(path, "wait", 0);
    return wait < 0 ? 0 : wait > UINT_MAX ? UINT_MAX : (unsigned)wait;
}

static int open_volume(struct database *database, int flags)
{
    char message[FAMSYNC_MESSAGE_SIZE] = "";
    struct famsync_options options = {.size = sizeof options, .message = message, .message_size = sizeof message};
    int code;
    options.foreground = sqlite3_uri_boolean(database->path, "foreground", 0);
    options.trust = sqlite3_uri_boolean(database->path, "trust", 0);
    options.wait_ms = wait_of(database->path);
    options.readonly = (flags & SQLITE_OPEN_READONLY) != 0;
    code = famsync_open(database->path, &options, &database->volume);
    if (code == FAMSYNC_OK)
        return SQLITE_OK;
    return fail(code_for_open(code), error_of(code), "%s", message[0] ? message : famsync_strerror(code));
}

/* The number of the volume's file with this name, or with none the first; that of all files where there is none. */
static unsigned number_of(famsync *volume, const char *name)
{
    unsigned number = 0;
    while (name && number < famsync_files(volume) && strcmp(name, famsync_file_name(volume, number)) != 0)
        number++;
    return number;
}

/* Finds the file of the database, and how much there is room for. One page of the file has the size, and so one of a
   commit is left for it. */
static int find_database(struct database *database, const char *name)
{
    uint64_t length;
    database->number = number_of(database->volume, name);
    if (database->number == famsync_files(database->volume))
        return fail(SQLITE_CANTOPEN, 0, "\"%s\", file \"%s\": %s", database->path, name,
                    famsync_strerror(FAMSYNC_NOFILE));
    name = famsync_file_name(database->volume, database->number);
    length = famsync_file_length(database->volume, database->number);
    if (length / PAGE < 2 || famsync_frames(database->volume) < 2)
        return fail(SQLITE_CANTOPEN, 0, "\"%s\", file \"%s\": a database needs two pages, and a commit two",
                    database->path, name);
    database->room = (sqlite3_int64)(length / PAGE * PAGE) - PAGE;
    database->limit = famsync_frames(database->volume) - 1;
    database->waits = memory_for(length / PAGE, sizeof *database->waits);
    database->order = memory_for(database->limit, sizeof *database->order);
    database->pages = sqlite3_malloc64(((sqlite3_uint64)database->limit + 1) * PAGE);
    if (!database->waits || !database->order || !database->pages)
        return SQLITE_NOMEM;
    return read_size(database);
}

int open_database(const char *path, sqlite3_file *file, int flags, int *found)
{
    struct database *database = (struct database *)file;
    const char *name = sqlite3_uri_parameter(path, "file");
    int code;
    memset(database, 0, sizeof *database);
    database->path = path;
    code = open_volume(database, flags);
    if (code != SQLITE_OK)
        return code;
    enlist(database);
    code = find_database(database, name);
    if (code != SQLITE_OK) {
        close_database(file);
        return code;
    }
    if (found)
        *found = flags;
    database->base.pMethods = &methods;
    return SQLITE_OK;
}
