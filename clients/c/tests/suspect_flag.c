/* The suspect flag of a failed sync lies beside the volume's file, whatever became of the folder's name and of the
   process's current folder, and where no descriptor is left; where none can be made, the caller learns it. */
#include "test.h"

#include <limits.h>
#include <sys/resource.h>
#include <sys/syscall.h>

/* Syncs of files that fail, and of folders; folders that can't be read; and why a flag can't be made, where it can't.
 */
static bool syncs_fail, folder_syncs_fail, folders_unreadable;
static int flags_fail;

int fdatasync(int file)
{
    if (syncs_fail) {
        errno = EIO;
        return -1;
    }
    return (int)syscall(SYS_fdatasync, file);
}

int fsync(int file)
{
    struct stat found;
    WANT(fstat(file, &found) == 0);
    if (S_ISDIR(found.st_mode) ? folder_syncs_fail : syncs_fail && found.st_size > 4096) {
        errno = EIO;
        return -1;
    }
    return (int)syscall(SYS_fsync, file);
}

int openat(int at, const char *path, int flags, ...)
{
    bool reads_folder = flags & O_DIRECTORY && !(flags & O_PATH);
    if ((flags & O_CREAT && flags_fail) || (reads_folder && folders_unreadable)) {
        errno = reads_folder ? EACCES : flags_fail;
        return -1;
    }
    return (int)syscall(SYS_openat, at, path, flags, 0666);
}

static bool is_there(const char *in, const char *name)
{
    char path[PATH_MAX];
    snprintf(path, sizeof path, "%s/%s", in, name);
    return access(path, F_OK) == 0;
}

static famsync *stored_to(const char *path)
{
    famsync *handle;
    WANT_CODE(famsync_open(path, &(struct famsync_options){.trust = 1, .foreground = 1}, &handle), FAMSYNC_OK);
    WANT_CODE(famsync_write(handle, 0, 0, "x", 1, NULL), FAMSYNC_OK);
    return handle;
}

/* A commit whose sync fails: the code that it answers, and with which the close ends. */
static void sync_fails(famsync *handle, int code)
{
    syncs_fail = true;
    errno = 0;
    WANT_CODE(famsync_msync(handle, NULL), code);
    WANT(errno == EIO);
    WANT_CODE(famsync_msync(handle, NULL), FAMSYNC_BROKEN);
    errno = 0;
    WANT_CODE(famsync_close(handle), code);
    WANT(errno == EIO);
    syncs_fail = folder_syncs_fail = false;
    flags_fail = 0;
}

static void opens_suspect(const char *path)
{
    famsync *handle;
    WANT_CODE(famsync_open(path, NULL, &handle), FAMSYNC_SUSPECT);
}

static void elsewhere(void)
{
    famsync *handle;
    WANT(chdir(folder) == 0);
    handle = stored_to("v.img");
    WANT(chdir("/") == 0);
    sync_fails(handle, FAMSYNC_DEVICE);
    WANT(is_there(folder, "v.img.suspect") && !is_there("/", "v.img.suspect"));
    opens_suspect(volume);
}

static void renamed_folder(void)
{
    char inner[100], moved[100], path[120], after[120];
    famsync *handle;
    snprintf(inner, sizeof inner, "%s/inner", folder);
    snprintf(moved, sizeof moved, "%s/moved", folder);
    snprintf(path, sizeof path, "%s/v.img", inner);
    snprintf(after, sizeof after, "%s/v.img", moved);
    WANT(mkdir(inner, 0700) == 0 && rename(volume, path) == 0);
    handle = stored_to(path);
    WANT(rename(inner, moved) == 0 && mkdir(inner, 0700) == 0);
    sync_fails(handle, FAMSYNC_DEVICE);
    WANT(is_there(moved, "v.img.suspect") && !is_there(inner, "v.img.suspect"));
    opens_suspect(after);
    WANT(rename(after, volume) == 0);
}

/* A file that has another name by now isn't flagged: its old name may be that of another volume. */
static void renamed_file(void)
{
    char moved[100];
    famsync *handle = stored_to(volume); /* which removes the flag */
    snprintf(moved, sizeof moved, "%s/w.img", folder);
    WANT(rename(volume, moved) == 0);
    sync_fails(handle, FAMSYNC_UNMARKED);
    WANT(!is_there(folder, "v.img.suspect") && !is_there(folder, "w.img.suspect"));
    WANT(rename(moved, volume) == 0);
}

static void no_descriptors(void)
{
    struct rlimit before, few;
    famsync *handle = stored_to(volume);
    WANT(getrlimit(RLIMIT_NOFILE, &before) == 0);
    few = before;
    few.rlim_cur = 3;
    WANT(setrlimit(RLIMIT_NOFILE, &few) == 0);
    sync_fails(handle, FAMSYNC_DEVICE);
    WANT(setrlimit(RLIMIT_NOFILE, &before) == 0);
    opens_suspect(volume);
}

static void no_flag(void)
{
    static const int errors[] = {EACCES, EROFS, ENOSPC};
    for (unsigned i = 0; i < sizeof errors / sizeof *errors; i++) {
        famsync *handle = stored_to(volume);
        flags_fail = errors[i];
        sync_fails(handle, FAMSYNC_UNMARKED);
        WANT(!is_there(folder, "v.img.suspect"));
    }
    famsync *handle = stored_to(volume);
    folder_syncs_fail = true;
    sync_fails(handle, FAMSYNC_UNMARKED);
}

/* In a folder that may be searched and not read a flag can be made, and nothing says that it stays. */
static void unreadable_folder(void)
{
    famsync *handle;
    WANT_CODE(famsync_close(stored_to(volume)), FAMSYNC_OK);
    folders_unreadable = true;
    WANT_CODE(famsync_open(volume, &(struct famsync_options){.foreground = 1}, &handle), FAMSYNC_OK);
    WANT_CODE(famsync_close(handle), FAMSYNC_OK);
    handle = stored_to(volume);
    sync_fails(handle, FAMSYNC_UNMARKED);
    WANT(is_there(folder, "v.img.suspect"));
    WANT_CODE(famsync_open(volume, &(struct famsync_options){.trust = 1}, &handle), FAMSYNC_SYSTEM);
    WANT(errno == EACCES);
    folders_unreadable = false;
    WANT_CODE(famsync_close(stored_to(volume)), FAMSYNC_OK);
}

/* The file can't be synced as it is opened. */
static void at_the_opening(void)
{
    char message[FAMSYNC_MESSAGE_SIZE] = "";
    struct famsync_options options = {.trust = 1, .message = message, .message_size = sizeof message};
    famsync *handle;
    syncs_fail = true;
    WANT_CODE(famsync_open(volume, &options, &handle), FAMSYNC_DEVICE);
    WANT(errno == EIO && strstr(message, "flags it as suspect") != NULL);
    flags_fail = EROFS;
    WANT_CODE(famsync_open(volume, &options, &handle), FAMSYNC_UNMARKED);
    WANT(errno == EIO && strstr(message, "can't be made: Read-only file system") != NULL);
    syncs_fail = false;
    flags_fail = 0;
}

/* The longest message, of a path as long as the system takes one, goes into FAMSYNC_MESSAGE_SIZE. */
static void longest_message(void)
{
    char path[PATH_MAX], message[FAMSYNC_MESSAGE_SIZE];
    struct famsync_options options = {.trust = 1, .message = message, .message_size = sizeof message};
    const char *why = strerror(EROFS);
    size_t length = strlen(folder);
    famsync *handle;
    strcpy(path, folder);
    while (length < sizeof path - sizeof "/v.img")
        path[length++] = '/';
    strcpy(path + length, "/v.img");
    syncs_fail = true;
    flags_fail = EROFS;
    WANT_CODE(famsync_open(path, &options, &handle), FAMSYNC_UNMARKED);
    syncs_fail = false;
    flags_fail = 0;
    WANT(strlen(path) == PATH_MAX - 1 && strlen(message) > 2 * strlen(path));
    WANT(strcmp(message + strlen(message) - strlen(why), why) == 0);
}

/* A volume whose flag would have too long a name isn't opened, and isn't said to be flagged. */
static void long_names(void)
{
    char name[256], path[400], message[FAMSYNC_MESSAGE_SIZE] = "";
    struct famsync_options options = {.message = message, .message_size = sizeof message};
    famsync *handle;
    for (size_t length = 240; length <= 255; length++) {
        memset(name, 'n', length);
        name[length] = 0;
        snprintf(path, sizeof path, "%s/%s", folder, name);
        WANT(rename(volume, path) == 0);
        if (length <= 247) {
            WANT_CODE(famsync_open(path, &options, &handle), FAMSYNC_OK);
            WANT_CODE(famsync_close(handle), FAMSYNC_OK);
        } else {
            WANT_CODE(famsync_open(path, &options, &handle), FAMSYNC_SYSTEM);
            WANT(errno == ENAMETOOLONG && strstr(message, ".suspect\": File name too long") != NULL);
        }
        WANT(rename(path, volume) == 0);
    }
}

int main(void)
{
    make_volume(16, "a=65536");
    elsewhere();
    renamed_folder();
    renamed_file();
    no_descriptors();
    no_flag();
    unreadable_folder();
    at_the_opening();
    longest_message();
    WANT_CODE(famsync_close(stored_to(volume)), FAMSYNC_OK);
    long_names();
    printf("clients/c: suspect_flag: as it should be\n");
    return 0;
}
