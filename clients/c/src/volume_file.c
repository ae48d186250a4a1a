/* The file of a volume: found by its path, opened, locked and judged by the rules of the program `famsync`, so that the
   two keep out of each other's way; and the suspect flag, a file beside a volume of which a sync failed. */
#include "inside.h"

#include <errno.h>
#include <fcntl.h>
#include <stdio.h>
#include <stdlib.h>
#include <string.h>
#include <sys/file.h>
#include <sys/stat.h>
#include <time.h>
#include <unistd.h>

/* How often a file is opened that is another when it is locked. */
#define TRIES 64

/* The longest pause between two tries to lock a file that is in use, in milliseconds. */
#define LONGEST_PAUSE 16u

static const char FLAG_TEXT[] =
    "A sync of the volume beside this file failed. What the system gives of it may not be on the disk.\n";

int above_streams(int file)
{
    int above, error;
    if (file < 0 || file > 2)
        return file;
    above = fcntl(file, F_DUPFD_CLOEXEC, 3);
    error = errno;
    close(file);
    errno = error;
    return above;
}

int open_above_streams(int folder, const char *name, int flags)
{
    int file;
    do
        file = openat(folder, name, flags | O_CLOEXEC, 0666);
    while (file < 0 && errno == EINTR);
    return above_streams(file);
}

int sync_file(int file)
{
    int synced;
    do
        synced = fsync(file);
    while (synced < 0 && errno == EINTR);
    return synced;
}

int sync_folder(const struct volume *volume)
{
    int synced = sync_file(volume->folder);
    if (synced != 0 && errno == EBADF)
        errno = EACCES;
    return synced;
}

/* Writes the text of a suspect flag. Its name alone is the flag: a disk that has no room for the text doesn't matter.
 */
static int write_text(int file)
{
    size_t done = 0;
    while (done < sizeof FLAG_TEXT - 1) {
        ssize_t written = write(file, FLAG_TEXT + done, sizeof FLAG_TEXT - 1 - done);
        if (written < 0 && errno != EINTR)
            break;
        done += written > 0 ? (size_t)written : 0;
    }
    return sync_file(file);
}

/* Makes the suspect flag, an empty one if no descriptor is left to write to it. */
static int make_flag(const struct volume *volume)
{
    int file = open_above_streams(volume->folder, volume->flag, O_WRONLY | O_CREAT | O_TRUNC), made, error;
    if (file < 0 && (errno == EMFILE || errno == ENFILE))
        return mknodat(volume->folder, volume->flag, S_IFREG | 0666, 0) == 0 || errno == EEXIST ? 0 : -1;
    if (file < 0)
        return -1;
    made = write_text(file);
    error = errno;
    close(file);
    errno = error;
    return made;
}

/* Whether the file that is open is the one that has its name. */
static bool has_its_name(const struct volume *volume, const struct stat *found)
{
    struct stat named;
    return fstatat(volume->folder, volume->name, &named, 0) == 0 && named.st_dev == found->st_dev &&
           named.st_ino == found->st_ino;
}

/* A file that was renamed meanwhile isn't flagged: the flag would be that of another file, if any. */
int flag_suspect(const struct volume *volume)
{
    struct stat found;
    if (fstat(volume->file, &found) != 0)
        return FAMSYNC_SYSTEM;
    if (!has_its_name(volume, &found)) {
        errno = ENOENT;
        return FAMSYNC_SYSTEM;
    }
    return make_flag(volume) == 0 && sync_folder(volume) == 0 ? FAMSYNC_OK : FAMSYNC_SYSTEM;
}

/* Whether a volume has a suspect flag; FAMSYNC_SYSTEM if that can't be seen, as when the flag's name is too long. */
static int look_for_flag(const struct volume *volume, bool *flagged)
{
    struct stat found;
    *flagged = fstatat(volume->folder, volume->flag, &found, AT_SYMLINK_NOFOLLOW) == 0;
    return *flagged || errno == ENOENT ? FAMSYNC_OK : FAMSYNC_SYSTEM;
}

int remove_flag(const struct volume *volume)
{
    if (unlinkat(volume->folder, volume->flag, 0) == 0)
        return sync_folder(volume) == 0 ? FAMSYNC_OK : FAMSYNC_SYSTEM;
    return errno == ENOENT ? FAMSYNC_OK : FAMSYNC_SYSTEM;
}

/* Opens the folder of a file. One that this process may not read can be looked into all the same. */
static int open_folder(const char *folder)
{
    int file = open_above_streams(AT_FDCWD, folder, O_RDONLY | O_DIRECTORY);
    if (file < 0 && errno == EACCES)
        file = open_above_streams(AT_FDCWD, folder, O_PATH | O_DIRECTORY);
    return file;
}

/* The name of the file at a place; the folder itself where the place ends with a slash. */
static const char *name_at(const char *place)
{
    const char *slash = strrchr(place, '/'), *name = slash ? slash + 1 : place;
    return *name ? name : ".";
}

/* Opens the folder in which the place is, once for the whole session: a folder may get another name, and the process
   another current one. */
static int enter_folder(struct volume *volume)
{
    char *folder = strdup(volume->place), *slash;
    int error;
    if (!folder)
        return FAMSYNC_NOMEMORY;
    slash = strrchr(folder, '/');
    if (slash)
        slash[slash == folder ? 1 : 0] = 0;
    volume->folder = open_folder(slash ? folder : ".");
    error = errno;
    free(folder);
    errno = error;
    return volume->folder >= 0 ? FAMSYNC_OK : FAMSYNC_SYSTEM;
}

int find_places(const char *path, struct volume *volume)
{
    struct stat found;
    size_t room;
    if (lstat(path, &found) == 0 && S_ISLNK(found.st_mode))
        volume->place = realpath(path, NULL);
    else
        volume->place = strdup(path);
    if (!volume->place)
        return errno == ENOMEM ? FAMSYNC_NOMEMORY : FAMSYNC_SYSTEM;
    volume->name = name_at(volume->place);
    room = strlen(volume->name) + sizeof ".suspect";
    volume->flag = malloc(room);
    if (!volume->flag)
        return FAMSYNC_NOMEMORY;
    snprintf(volume->flag, room, "%s.suspect", volume->name);
    return enter_folder(volume);
}

/* A session that writes has the file alone; those that read share it. */
static int lock_file(const struct volume *volume)
{
    int locked;
    do
        locked = flock(volume->file, (volume->readonly ? LOCK_SH : LOCK_EX) | LOCK_NB);
    while (locked != 0 && errno == EINTR);
    return locked == 0 ? FAMSYNC_OK : errno == EWOULDBLOCK ? FAMSYNC_INUSE : FAMSYNC_SYSTEM;
}

/* Opens what has the name, if that is a regular file (opening a pipe would wait for its other end), and locks it.
   `*right` is whether that is the file which has the name once it is locked. */
static int open_once(struct volume *volume, struct stat *found, bool *right)
{
    int code;
    if (fstatat(volume->folder, volume->name, found, 0) != 0)
        return FAMSYNC_SYSTEM;
    if (!S_ISREG(found->st_mode))
        return FAMSYNC_NOTREGULAR;
    volume->file = open_above_streams(volume->folder, volume->name, (volume->readonly ? O_RDONLY : O_RDWR) | O_NOCTTY);
    if (volume->file < 0)
        return FAMSYNC_SYSTEM;
    code = lock_file(volume);
    if (code != FAMSYNC_OK)
        return code;
    if (fstat(volume->file, found) != 0)
        return FAMSYNC_SYSTEM;
    *right = has_its_name(volume, found);
    return FAMSYNC_OK;
}

void close_descriptor(int *descriptor)
{
    int error = errno;
    if (*descriptor >= 0)
        close(*descriptor);
    *descriptor = -1;
    errno = error;
}

void let_volume_go(struct volume *volume)
{
    close_descriptor(&volume->file);
    close_descriptor(&volume->unlocked);
    close_descriptor(&volume->folder);
}

/* Where unlocking fails, closing the file does the same a moment later. */
static void unlock_file(struct volume *volume)
{
    int error = errno;
    if (volume->file >= 0)
        (void)flock(volume->file, LOCK_UN);
    errno = error;
    close_descriptor(&volume->file);
}

void unlock_volume(struct volume *volume)
{
    unlock_file(volume);
    let_volume_go(volume);
}

static int open_locked(struct volume *volume)
{
    struct stat found;
    for (unsigned tries = 0; tries < TRIES; tries++) {
        bool right = false;
        int code = open_once(volume, &found, &right);
        if (code != FAMSYNC_OK)
            return code;
        if (right) {
            volume->bytes = (uint64_t)found.st_size;
            volume->on_disk = (uint64_t)found.st_blocks * 512;
            return !S_ISREG(found.st_mode) ? FAMSYNC_NOTREGULAR : found.st_nlink > 1 ? FAMSYNC_NAMES : FAMSYNC_OK;
        }
        unlock_file(volume);
    }
    return FAMSYNC_REPLACED;
}

/* Opens the file once more. */
static int open_unlocked(struct volume *volume)
{
    struct stat found, again;
    volume->unlocked = open_above_streams(volume->folder, volume->name, O_RDONLY | O_NONBLOCK | O_NOCTTY);
    if (volume->unlocked < 0 || fstat(volume->file, &found) != 0 || fstat(volume->unlocked, &again) != 0)
        return FAMSYNC_SYSTEM;
    return found.st_dev == again.st_dev && found.st_ino == again.st_ino ? FAMSYNC_OK : FAMSYNC_REPLACED;
}

static uint64_t milliseconds(void)
{
    struct timespec now;
    clock_gettime(CLOCK_MONOTONIC, &now);
    return (uint64_t)now.tv_sec * 1000 + (uint64_t)now.tv_nsec / 1000000;
}

/* The same, and waits for one that is in use: no call waits for a lock up to some time, so it is asked for again and
   again. The name may be that of another file meanwhile. */
static int open_within(struct volume *volume, unsigned wait_ms)
{
    uint64_t end = milliseconds() + wait_ms;
    unsigned pause = 1;
    for (;;) {
        int code = open_locked(volume);
        uint64_t now = milliseconds();
        if (code != FAMSYNC_INUSE || now >= end)
            return code;
        close_descriptor(&volume->file);
        if (pause > end - now)
            pause = (unsigned)(end - now);
        nanosleep(&(struct timespec){0, (long)pause * 1000000}, NULL);
        pause = pause < LONGEST_PAUSE ? 2 * pause : LONGEST_PAUSE;
    }
}

/* Flags a volume as suspect whose file can't be synced. */
static int flag_opened(const struct volume *volume, struct message *message)
{
    const char *error = strerror(errno);
    if (flag_suspect(volume) == FAMSYNC_OK) {
        say(message, "\"%s\" can't be synced: %s; \"%s.suspect\" flags it as suspect", volume->place, error,
            volume->place);
        return FAMSYNC_DEVICE;
    }
    say(message, "\"%s\" can't be synced: %s; \"%s.suspect\", its suspect flag, can't be made: %s", volume->place,
        error, volume->place, strerror(errno));
    return FAMSYNC_UNMARKED;
}

/* Syncs a file that was opened: what is read of it then is on the disk. */
static int sync_opened(const struct volume *volume, struct message *message)
{
    int error, code;
    if (sync_file(volume->file) == 0)
        return FAMSYNC_OK;
    error = errno;
    code = flag_opened(volume, message);
    errno = error;
    return code;
}

/* A reader can't sync the file: the error of a write that failed would be told to it alone, and no writer would hear of
   it. It needs no sync, as all that is written home was synced before its gate was closed, or before the start of a log
   moved behind it. */
static int judge_flag(const struct volume *volume, bool trust, struct message *message)
{
    bool flagged;
    int code = look_for_flag(volume, &flagged);
    if (code != FAMSYNC_OK) {
        say(message, "can't tell whether the volume has the suspect flag \"%s.suspect\": %s", volume->place,
            strerror(errno));
        return code;
    }
    if (!flagged || (trust && !volume->readonly))
        return FAMSYNC_OK;
    say(message, "\"%s.suspect\" exists because a sync failed, so the disk may lack data that can be read%s",
        volume->place, volume->readonly ? "; open it once for writing, with trust" : "");
    return volume->readonly ? FAMSYNC_NEEDSOPENING : FAMSYNC_SUSPECT;
}

int judge_volume_file(const struct volume *volume, bool trust, struct message *message)
{
    int code = judge_flag(volume, trust, message);
    if (code != FAMSYNC_OK || volume->readonly)
        return code;
    code = sync_opened(volume, message);
    if (code != FAMSYNC_OK || !trust)
        return code;
    code = remove_flag(volume);
    if (code != FAMSYNC_OK)
        say(message, "\"%s.suspect\" can't be removed: %s", volume->place, strerror(errno));
    return code;
}

int open_volume_file(const char *path, const struct famsync_options *options, struct volume *volume,
                     struct message *message)
{
    int code, error;
    *volume = (struct volume){.file = -1, .unlocked = -1, .folder = -1, .readonly = options->readonly != 0};
    code = find_places(path, volume);
    if (code == FAMSYNC_OK)
        code = open_within(volume, options->wait_ms);
    if (code == FAMSYNC_OK)
        code = open_unlocked(volume);
    error = errno;
    if (code != FAMSYNC_OK) {
        say_why(message, path, code);
        close_volume_file(volume);
    }
    errno = error;
    return code;
}

void close_volume_file(struct volume *volume)
{
    unlock_volume(volume);
    free(volume->place);
    free(volume->flag);
    volume->place = volume->flag = NULL;
}
