/*
 * A default VFS for SQLite's own test scripts (own_scripts): each database is made in a volume of its own, by the path
 * that the script names. The SQL function volume_size answers the size of the database in such a volume.
 *
 * VOLUME_BYTES and VOLUME_LOG in the environment say how large the volume's file and its log are.
 */
#include <sqlite3ext.h>
SQLITE_EXTENSION_INIT1

#include <famsync.h>

#include <stdio.h>
#include <stdlib.h>
#include <string.h>
#include <sys/stat.h>
#include <unistd.h>

#define MOST 100

static sqlite3_vfs *under, volumes;
static sqlite3_io_methods methods;
static int (*close_under)(sqlite3_file *);

/* The databases in volumes that are open. */
static struct {
    char path[600];
    sqlite3_file *file;
} files[MOST];

static int close_file(sqlite3_file *file)
{
    for (int i = 0; i < MOST; i++)
        if (files[i].file == file)
            files[i].file = NULL;
    return close_under(file);
}

/* Notes a database that was opened, and that it will be closed. The methods of the VFS for volumes have version 1. */
static void note_file(const char *path, sqlite3_file *file)
{
    int i = 0;
    if (file->pMethods->iVersion != 1)
        return;
    while (i < MOST && files[i].file)
        i++;
    if (i == MOST)
        abort();
    close_under = file->pMethods->xClose;
    methods = *file->pMethods;
    methods.xClose = close_file;
    file->pMethods = &methods;
    files[i].file = file;
    snprintf(files[i].path, sizeof files[i].path, "%s", path);
}

/* Makes a volume where there is no file, or an empty one. */
static void make_volume(const char *path)
{
    struct famsync_new_file file = {"db", strtoull(getenv("VOLUME_BYTES"), NULL, 10), 0};
    struct famsync_plan plan = {.size = sizeof plan, .layout = 5, .files = 1, .file = &file};
    struct stat found;
    plan.log = (unsigned)strtoul(getenv("VOLUME_LOG"), NULL, 10);
    if (stat(path, &found) == 0 && (found.st_size > 0 || unlink(path) != 0))
        return;
    if (famsync_format(path, &plan) != FAMSYNC_OK)
        fprintf(stderr, "%s: %s\n", path, famsync_error(NULL));
}

static int open_file(sqlite3_vfs *vfs, const char *path, sqlite3_file *file, int flags, int *found)
{
    int code;
    (void)vfs;
    if (flags & SQLITE_OPEN_MAIN_DB && flags & SQLITE_OPEN_CREATE && path)
        make_volume(path);
    code = under->xOpen(under, path, file, flags, found);
    if (code == SQLITE_OK && flags & SQLITE_OPEN_MAIN_DB)
        note_file(path, file);
    return code;
}

/* The size of a database that is closed: it is in the first page of the file. */
static sqlite3_int64 size_in(const char *path)
{
    unsigned char head[24] = {0};
    sqlite3_int64 size = 0;
    famsync *handle;
    if (famsync_open(path, NULL, &handle) != FAMSYNC_OK)
        return -1;
    famsync_read(handle, 0, 0, head, sizeof head, NULL);
    famsync_close(handle);
    for (int i = 16; i < 24; i++)
        size = size << 8 | head[i];
    return size;
}

static void answer_size(sqlite3_context *context, int count, sqlite3_value **values)
{
    const char *path = (const char *)sqlite3_value_text(values[0]);
    sqlite3_int64 size = -1;
    (void)count;
    for (int i = 0; i < MOST; i++)
        if (files[i].file && strcmp(files[i].path, path) == 0)
            files[i].file->pMethods->xFileSize(files[i].file, &size);
    sqlite3_result_int64(context, size >= 0 ? size : size_in(path));
}

int sqlite3_volumes_init(sqlite3 *connection, char **message, const sqlite3_api_routines *routines)
{
    SQLITE_EXTENSION_INIT2(routines);
    (void)message;
    under = sqlite3_vfs_find("famsync");
    if (!under)
        return SQLITE_ERROR;
    if (!volumes.xOpen) {
        volumes = *under;
        volumes.pNext = NULL;
        volumes.zName = "volumes";
        volumes.xOpen = open_file;
    }
    sqlite3_vfs_register(&volumes, 1);
    sqlite3_create_function(connection, "volume_size", 1, SQLITE_UTF8, NULL, answer_size, NULL, NULL);
    return SQLITE_OK_LOAD_PERMANENTLY;
}
