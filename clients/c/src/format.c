/* Makes volumes. The bytes are laid out here, by the rules of docs/FORMATS.md: all but the super block, the lengths
   block and the start of a log are zeros, and a new file is that by its length. A volume has one spelling, and the core
   knows it: before the file gets its name, the core opens it, and finds what was asked for. */
#include "inside.h"

#include <errno.h>
#include <fcntl.h>
#include <stdio.h>
#include <stdlib.h>
#include <string.h>
#include <sys/random.h>
#include <sys/stat.h>
#include <sys/syscall.h>
#include <unistd.h>

#define DEFAULT_LAYOUT 5u
#define DEFAULT_LOG 16384u

/* The last layout, which has a key. */
#define LAST_LAYOUT 6u

/* Where the super block has the layout's digit, and the key. */
#define LAYOUT_AT 7u
#define KEY_AT 24u
#define KEY_BYTES 8

/* The most blocks of a log, and the most records of a commit in it. */
#define MOST_LOG (1u << 24)
#define MOST_RECORDS 65535u

/* The most bytes of the name of a volume's file: `.suspect` fits behind it. */
#define LONGEST_NAME 247u

#ifndef RENAME_NOREPLACE
#define RENAME_NOREPLACE 1u
#endif

/* How large the structure was when it was new. */
#define FIRST_SIZE (offsetof(struct famsync_plan, message_size) + sizeof(size_t))

/* A volume that is to be made. */
struct made {
    struct famsync_plan plan;
    uint32_t records;      /* the most records of a commit */
    uint64_t head, blocks; /* the blocks before those of the first file, and all */
    unsigned char super[PAGE], lengths_block[PAGE];
};

static void put_number(unsigned char *bytes, unsigned count, uint64_t number)
{
    for (unsigned i = count; i > 0; i--, number >>= 8)
        bytes[i - 1] = (unsigned char)number;
}

static uint64_t pages_of(uint64_t bytes)
{
    return bytes / PAGE + (bytes % PAGE != 0);
}

static bool is_name(const char *name)
{
    size_t length = name ? strnlen(name, MOST_NAME + 1) : 0;
    for (size_t i = 0; i < length; i++)
        if (name[i] < '!' || name[i] > '~')
            return false;
    return length > 0 && length <= MOST_NAME;
}

static uint64_t capacity_of(const struct famsync_new_file *file)
{
    return file->capacity > 0 ? file->capacity : file->length;
}

/* What a file of the plan breaks; a null pointer if it breaks no rule. */
static const char *judge_file(const struct made *made, const struct famsync_new_file *file)
{
    if (!is_name(file->name))
        return "a file's name must have 1 to 32 characters from '!' to '~'";
    for (const struct famsync_new_file *other = made->plan.file; other < file; other++)
        if (strcmp(other->name, file->name) == 0)
            return "two files have the same name";
    if (capacity_of(file) == 0)
        return "a file's capacity must be at least 1";
    if (file->length > capacity_of(file))
        return "a file's length exceeds its capacity";
    return NULL;
}

/* The most records that a commit has in a log, with its descriptor. One block of the log stays free. */
static uint32_t most_records(uint64_t log)
{
    uint32_t records = log < MOST_RECORDS ? (uint32_t)log : MOST_RECORDS;
    while (pages_of(32 + 4 * (uint64_t)records) + records > log - 1)
        records--;
    return records;
}

uint64_t most_pages(const famsync *handle)
{
    return most_records(handle->log.blocks) - 1; /* one is for the lengths */
}

static const char *judge_log(struct made *made)
{
    const struct famsync_plan *plan = &made->plan;
    if (plan->key != 0 && plan->layout != LAST_LAYOUT)
        return "only layout 6 has a key";
    if (plan->log < FIRST_OF_LOG || plan->log > MOST_LOG)
        return "a log must have 4 to 16,777,216 blocks";
    made->records = most_records(plan->log);
    made->head = FIRST_OF_LOG + plan->log + 1;
    return NULL;
}

static const char *judge_plan(struct made *made)
{
    const struct famsync_plan *plan = &made->plan;
    const char *fault;
    if (plan->layout < FIRST_LAYOUT || plan->layout > LAST_LAYOUT)
        return "the layout must be 5 or 6";
    if (plan->files < 1 || plan->files > MOST_FILES || !plan->file)
        return "a volume must have 1 to 64 files";
    fault = judge_log(made);
    made->blocks = made->head;
    for (unsigned i = 0; i < plan->files && !fault; i++) {
        fault = judge_file(made, &plan->file[i]);
        made->blocks += pages_of(capacity_of(&plan->file[i]));
        if (!fault && made->blocks > UINT32_MAX)
            fault = "a volume must have less than 2^32 blocks";
    }
    return fault;
}

static void lay_out(struct made *made)
{
    const struct famsync_plan *plan = &made->plan;
    /* The table has the blocks of a volume that has one slot in place of the log (docs/FORMATS.md). */
    uint64_t home = FIRST_OF_LOG;
    memcpy(made->super, "FAMSYNC", 7);
    made->super[LAYOUT_AT] = (unsigned char)('0' + plan->layout);
    put_number(made->super + 8, 4, plan->files);
    put_number(made->super + 12, 4, plan->log);
    put_number(made->super + 16, 4, made->blocks);
    put_number(made->super + 20, 4, FIRST_OF_LOG);
    put_number(made->super + KEY_AT, KEY_BYTES, plan->key);
    for (unsigned i = 0; i < plan->files; i++) {
        const struct famsync_new_file *file = &plan->file[i];
        unsigned char *row = made->super + 32 + 48 * (size_t)i;
        memcpy(row, file->name, strlen(file->name));
        put_number(row + 32, 8, capacity_of(file));
        put_number(row + 40, 4, home);
        put_number(row + 44, 4, pages_of(capacity_of(file)));
        put_number(made->lengths_block + 8 * (size_t)i, 8, file->length);
        home += pages_of(capacity_of(file));
    }
}

static int set_size(const struct made *made, int file)
{
    off_t bytes = (off_t)(made->blocks * PAGE);
    if (ftruncate(file, bytes) != 0)
        return FAMSYNC_SYSTEM;
    errno = made->plan.preallocate ? posix_fallocate(file, 0, bytes) : 0;
    return errno == 0 ? FAMSYNC_OK : FAMSYNC_SYSTEM;
}

/* Commit 1 comes at position 0 of the log, in epoch 1. This is the first start, in block 2. The selector before it and
   the other start behind it are zeros. They are written all the same, so that an opening needs no block of the disk. */
int write_first_start(int file)
{
    unsigned char blocks[3 * PAGE] = {0};
    put_number(blocks + PAGE, 8, 1);
    put_number(blocks + PAGE + 8, 8, 1);
    return write_whole(file, blocks, sizeof blocks, PAGE);
}

/* The super block comes last, after a sync. */
static int write_volume(const struct made *made, int file)
{
    int code = set_size(made, file);
    if (code == FAMSYNC_OK)
        code = write_first_start(file);
    if (code == FAMSYNC_OK)
        code = write_whole(file, made->lengths_block, PAGE, (made->head - 1) * PAGE);
    if (code == FAMSYNC_OK && sync_file(file) != 0)
        code = FAMSYNC_SYSTEM;
    if (code == FAMSYNC_OK)
        code = write_whole(file, made->super, PAGE, 0);
    return code == FAMSYNC_OK && sync_file(file) != 0 ? FAMSYNC_SYSTEM : code;
}

/* Whether the core has found what was asked for. */
static bool is_as_asked(famsync *handle, const struct made *made)
{
    const struct famsync_plan *plan = &made->plan;
    uint64_t home = made->head;
    bool same = handle->files == plan->files && handle->head == made->head && handle->frames == made->records - 1 &&
                handle->log.blocks == plan->log && !carries_out_commits(handle);
    for (unsigned i = 0; i < plan->files && same; i++) {
        const struct file *file = &handle->file[i];
        same = strcmp(file->name, plan->file[i].name) == 0 && file->length == plan->file[i].length &&
               file->home == home && file->pages == pages_of(capacity_of(&plan->file[i]));
        home += file->pages;
    }
    return same && home == made->blocks;
}

/* Has the core open the volume, in a handle that is no session's. */
static int judge_volume(const struct made *made, int file)
{
    famsync *handle = calloc(1, sizeof *handle);
    int code = FAMSYNC_NOMEMORY;
    if (!handle)
        return code;
    handle->volume.file = file;
    handle->blocks = (uint32_t)made->blocks;
    handle->read = malloc((size_t)MOST_READ * PAGE);
    if (handle->read)
        code = begin_core(handle, 0);
    if (code == FAMSYNC_NOTAVOLUME || code == FAMSYNC_DAMAGED || (code == FAMSYNC_OK && !is_as_asked(handle, made))) {
        code = FAMSYNC_SYSTEM;
        errno = EPROTO;
    }
    if (code == FAMSYNC_DEVICE)
        code = FAMSYNC_SYSTEM;
    if (handle->core.at)
        famsync_core_close(handle->core);
    free(handle->read);
    free(handle);
    return code;
}

/* A file that gets its name once it is whole. It has none before; or where the system has no such files, it has this
   one. */
struct unnamed {
    int file;
    char *name;
};

static bool has_unnamed_files(const struct volume *volume, struct unnamed *new)
{
    if (access("/proc/self/fd", X_OK) != 0)
        return false;
    new->file = open_above_streams(volume->folder, ".", O_RDWR | O_TMPFILE);
    return new->file >= 0 || (errno != EOPNOTSUPP && errno != EISDIR && errno != ENOENT && errno != EINVAL);
}

static int open_unnamed(const struct volume *volume, struct unnamed *new)
{
    size_t room = strlen(volume->name) + sizeof ".new";
    char *name;
    if (has_unnamed_files(volume, new))
        return new->file >= 0 ? FAMSYNC_OK : FAMSYNC_SYSTEM;
    name = malloc(room);
    if (!name)
        return FAMSYNC_NOMEMORY;
    snprintf(name, room, "%s.new", volume->name);
    new->file = open_above_streams(volume->folder, name, O_RDWR | O_CREAT | O_EXCL | O_NOCTTY);
    if (new->file >= 0)
        new->name = name;
    else
        free(name);
    return new->file >= 0 ? FAMSYNC_OK : FAMSYNC_SYSTEM;
}

static void close_unnamed(const struct volume *volume, struct unnamed *new)
{
    int error = errno;
    if (new->name)
        (void)unlinkat(volume->folder, new->name, 0);
    free(new->name);
    close_descriptor(&new->file);
    errno = error;
}

/* Gives it its name, unless another file has that. Then nothing of it has the name before: that may be of another one.
 */
static int name_file(const struct volume *volume, struct unnamed *new)
{
    char path[64];
    int named;
    if (!new->name) {
        snprintf(path, sizeof path, "/proc/self/fd/%d", new->file);
        return linkat(AT_FDCWD, path, volume->folder, volume->name, AT_SYMLINK_FOLLOW);
    }
    named = (int)syscall(SYS_renameat2, volume->folder, new->name, volume->folder, volume->name, RENAME_NOREPLACE);
    if (named == 0) {
        free(new->name);
        new->name = NULL;
    }
    return named;
}

static int write_and_name(const struct made *made, const struct volume *volume, struct unnamed *new)
{
    int code = write_volume(made, new->file);
    if (code == FAMSYNC_OK)
        code = judge_volume(made, new->file);
    if (code == FAMSYNC_OK && name_file(volume, new) != 0)
        code = FAMSYNC_SYSTEM;
    return code;
}

/* What has the name already stays, whatever it is. A flag that an earlier volume left isn't that of the new one. */
static int make_volume(const struct made *made, const struct volume *volume)
{
    struct unnamed new = {.file = -1};
    struct stat found;
    int code;
    if (fstatat(volume->folder, volume->name, &found, AT_SYMLINK_NOFOLLOW) == 0)
        errno = EEXIST;
    if (errno != ENOENT)
        return FAMSYNC_SYSTEM;
    code = open_unnamed(volume, &new);
    if (code == FAMSYNC_OK)
        code = write_and_name(made, volume, &new);
    close_unnamed(volume, &new);
    if (code == FAMSYNC_OK)
        code = remove_flag(volume);
    return code == FAMSYNC_OK && sync_folder(volume) != 0 ? FAMSYNC_SYSTEM : code;
}

static int make_volume_at(const char *path, const struct made *made, struct message *message)
{
    struct volume volume = {.file = -1, .unlocked = -1, .folder = -1};
    int code = find_places(path, &volume), error;
    if (code == FAMSYNC_OK && strlen(volume.name) > LONGEST_NAME) {
        errno = ENAMETOOLONG;
        code = FAMSYNC_SYSTEM;
    }
    if (code == FAMSYNC_OK)
        code = make_volume(made, &volume);
    error = errno;
    if (code != FAMSYNC_OK)
        say_why(message, path, code);
    close_volume_file(&volume);
    errno = error;
    return code;
}

/* A program may have more fields than this version knows, if it sets none of them. */
static bool take_plan(const struct famsync_plan *given, struct famsync_plan *plan)
{
    const unsigned char *bytes = (const unsigned char *)given;
    if (!given || given->size < FIRST_SIZE)
        return false;
    for (size_t at = sizeof *plan; at < given->size; at++)
        if (bytes[at] != 0)
            return false;
    memcpy(plan, given, given->size < sizeof *plan ? given->size : sizeof *plan);
    if (plan->layout == 0)
        plan->layout = DEFAULT_LAYOUT;
    if (plan->log == 0)
        plan->log = DEFAULT_LOG;
    return true;
}

static int draw_key(void *key)
{
    ssize_t drawn;
    do
        drawn = getrandom(key, KEY_BYTES, 0);
    while (drawn < 0 && errno == EINTR);
    return drawn == KEY_BYTES ? FAMSYNC_OK : FAMSYNC_SYSTEM;
}

/* A copy has its volume's epochs and numbers. So a commit in the log of one could be taken for one of the other. */
int change_key(unsigned char *super)
{
    return super[LAYOUT_AT] == '0' + LAST_LAYOUT ? draw_key(super + KEY_AT) : FAMSYNC_OK;
}

/* Draws the key of a volume of layout 6, if none is given. */
static int choose_key(struct famsync_plan *plan)
{
    return plan->layout == LAST_LAYOUT && plan->key == 0 ? draw_key(&plan->key) : FAMSYNC_OK;
}

static int format(const char *path, const struct famsync_plan *plan, struct made *made)
{
    struct message message;
    const char *fault;
    if (!path || !*path)
        return explain(FAMSYNC_ARGUMENT, "the path is %s", path ? "empty" : "a null pointer");
    if (!take_plan(plan, &made->plan))
        return explain(FAMSYNC_ARGUMENT, "`size` of the plan is invalid, or this version of the library doesn't know "
                                         "all of the plan");
    message = (struct message){made->plan.message, made->plan.message_size};
    fault = judge_plan(made);
    if (fault) {
        explain(FAMSYNC_ARGUMENT, "%s", fault);
        say_why(&message, path, FAMSYNC_ARGUMENT);
        return FAMSYNC_ARGUMENT;
    }
    if (choose_key(&made->plan) != FAMSYNC_OK) {
        say(&message, "\"%s\": can't draw a key: %s", path, strerror(errno));
        return FAMSYNC_SYSTEM;
    }
    lay_out(made);
    return make_volume_at(path, made, &message);
}

int famsync_format(const char *volume, const struct famsync_plan *plan)
{
    struct made *made = calloc(1, sizeof *made);
    int cancel, code;
    if (!made)
        return answer(NULL, __func__, FAMSYNC_NOMEMORY);
    cancel = hold_off_cancel();
    code = format(volume, plan, made);
    allow_cancel(cancel);
    free(made);
    return answer(NULL, __func__, code);
}
