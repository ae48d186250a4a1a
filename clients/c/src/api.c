/* Handles: how a session begins and ends, what it says of the volume, and whose turn it is. */
#include "core.h"
#include "inside.h"

#include <errno.h>
#include <stdlib.h>
#include <string.h>

/* How large the options were when they got a size. */
#define FIRST_SIZE (offsetof(struct famsync_options, readonly) + sizeof(int))

/* How many bytes of committed pages plain memory keeps. */
#define DEFAULT_BUDGET (64u << 20)

/* A session that is over: the call that meets it first answers why, unless one has already. */
static int why_over(famsync *handle)
{
    bool reported = handle->reported;
    handle->reported = true;
    errno = handle->error;
    return reported ? FAMSYNC_BROKEN : handle->ended;
}

int enter_unless(famsync *handle, const char *fault)
{
    int cancel;
    if (is_forked(handle))
        return FAMSYNC_FORKED;
    if (!handle || fault)
        return explain(FAMSYNC_ARGUMENT, "%s", handle ? fault : "the handle is a null pointer");
    cancel = hold_off_cancel();
    atomic_fetch_add(&handle->callers, 1);
    pthread_mutex_lock(&handle->turn);
    handle->cancel = cancel;
    return stay(handle);
}

int stay(famsync *handle)
{
    return handle->ended == FAMSYNC_OK ? FAMSYNC_OK : leave(handle, why_over(handle));
}

int leave(famsync *handle, int code)
{
    int cancel = handle->cancel;
    if (handle->ended != FAMSYNC_OK)
        handle->reported = true;
    if (atomic_fetch_sub(&handle->callers, 1) == 1 && handle->left && handle->threaded && !handle->pausing)
        pthread_cond_signal(&handle->work);
    pthread_mutex_unlock(&handle->turn);
    allow_cancel(cancel);
    return code;
}

unsigned number_of(const famsync *handle, const char *name)
{
    unsigned file = 0;
    while (file < handle->files && strcmp(handle->file[file].name, name) != 0)
        file++;
    return file;
}

static uint64_t number_in(const unsigned char *bytes, unsigned count)
{
    uint64_t number = 0;
    for (unsigned i = 0; i < count; i++)
        number = number << 8 | bytes[i];
    return number;
}

/* The layout with journals that a first block has; otherwise 0. The library opens none of them. */
static unsigned layout_with_journals(const unsigned char *head)
{
    bool has_journals = memcmp(head, "FAMSYNC", 7) == 0 && '1' <= head[7] && head[7] < '0' + FIRST_LAYOUT;
    return has_journals ? head[7] - (unsigned)'0' : 0;
}

/* What the super block says: how many blocks the core is to know of, which are no more than the file has. A file that
   doesn't begin as a volume is judged by its first block. What the core doesn't answer later is noted, and is right
   once the core has opened the volume. */
static int read_super(famsync *handle)
{
    uint64_t blocks = handle->volume.bytes / PAGE, said;
    const unsigned char *head = handle->read;
    int code = blocks == 0 ? FAMSYNC_NOTAVOLUME : read_blocks(handle, 0, 1, handle->read);
    if (code != FAMSYNC_OK)
        return code;
    if (layout_with_journals(head) > 0)
        return explain(FAMSYNC_LAYOUT, "this volume has layout %u; copy it with `famsync migrate --layout 5 OLD NEW`",
                       layout_with_journals(head));
    handle->layout = head[7] - (unsigned)'0';
    for (unsigned i = 0; i < MOST_FILES; i++)
        handle->file[i].capacity = number_in(head + 64 + 48 * (size_t)i, 8);
    said = number_in(head + 16, 4);
    if (memcmp(head, "FAMSYNC", 7) != 0 || said == 0)
        said = 1;
    handle->blocks = (uint32_t)(said < blocks ? said : blocks);
    return FAMSYNC_OK;
}

/* Files lie one after the other. */
static int read_files(famsync *handle)
{
    uint64_t home = handle->head;
    for (unsigned i = 0; i < handle->files; i++) {
        struct file *file = &handle->file[i];
        uint64_t length, pages;
        int64_t name = famsync_core_file_name(handle->core, i, (uint8_t *)file->name, MOST_NAME, &handle->core.at);
        if (name < 0 || famsync_core_file(handle->core, i, &length, &pages, &handle->core.at) != FAMSYNC_CORE_OK)
            return FAMSYNC_DAMAGED;
        atomic_store(&file->length, length);
        file->pages = pages;
        file->home = home;
        home += pages;
    }
    return home <= handle->blocks ? FAMSYNC_OK : FAMSYNC_DAMAGED;
}

/* The number of blocks of the log; 0 if the core knows none. */
static uint64_t blocks_of_log(famsync *handle)
{
    uint64_t blocks = 0, used, commits;
    int32_t answer = famsync_core_log(handle->core, &blocks, &used, &commits, &handle->core.at);
    return answer == FAMSYNC_CORE_OK ? blocks : 0;
}

/* What the core says of a volume that it has opened. It takes a number of pages that a commit can't have for the most
   that it can have. */
static int read_volume(famsync *handle, unsigned wanted)
{
    int64_t files = famsync_core_files(handle->core, &handle->core.at);
    int64_t frames = famsync_core_frames(handle->core, &handle->core.at);
    int64_t head = famsync_core_head(handle->core, &handle->core.at);
    if (files < 0 || files > MOST_FILES || frames < 0 || head < 1 || head > handle->blocks)
        return FAMSYNC_DAMAGED;
    if (wanted > frames)
        return explain(FAMSYNC_SHAPE, "the option `frames` is %u; a commit of this volume can have at most %lld pages",
                       wanted, (long long)frames);
    handle->files = (unsigned)files;
    handle->frames = (unsigned)frames;
    handle->head = (uint32_t)head;
    handle->log.blocks = blocks_of_log(handle);
    return handle->log.blocks > 0 ? read_files(handle) : FAMSYNC_DAMAGED;
}

/* What opening recorded, in a session that only reads: if commits are carried out, a crash left them, and this session
   can't write. Otherwise the calls count as made: syncs, and a new start behind no commit. */
static int judge_recovery(famsync *handle)
{
    int64_t waiting = famsync_core_waiting(handle->core, &handle->core.at);
    if (carries_out_commits(handle))
        return FAMSYNC_NEEDSOPENING;
    return code_of(famsync_core_carried_out(handle->core, (uint32_t)waiting, &handle->core.at));
}

/* Has the core open the volume, with the blocks that it wants. */
static int open_with_blocks(famsync *handle, unsigned frames, struct opening *opening)
{
    for (;;) {
        uint32_t wanted = 0;
        int32_t answer = famsync_core_open(handle->core, frames, &wanted, &handle->core.at);
        int code = answer == FAMSYNC_CORE_WANTED ? supply_to_open(handle, wanted, opening) : code_of(answer);
        if (answer == FAMSYNC_CORE_WANTED && code == FAMSYNC_OK)
            continue;
        if (answer == FAMSYNC_CORE_DEVICE) /* there was no memory for a call that it would record */
            code = FAMSYNC_NOMEMORY;
        if (code == FAMSYNC_BUSY)
            explain(code, "no number is left for another opening");
        if (code == FAMSYNC_OK && handle->head == 0)
            code = read_volume(handle, frames);
        return code;
    }
}

/* Begins a core, and leaves it to the caller to have it forget the supplied blocks. */
static int begin_with_blocks(famsync *handle, unsigned frames, struct opening *opening)
{
    int code = code_of(famsync_core_begin(handle->blocks, &handle->core.at));
    return code == FAMSYNC_OK ? open_with_blocks(handle, frames, opening) : code;
}

int begin_core(famsync *handle, unsigned frames)
{
    struct opening opening = {0};
    int code = begin_with_blocks(handle, frames, &opening);
    if (code == FAMSYNC_OK)
        forget_supplied(handle, &opening);
    return code;
}

/* Makes what the opening has recorded. */
static int make_opening_calls(famsync *handle)
{
    int code = begin_space(handle);
    note_position(handle);
    return code == FAMSYNC_OK ? drain_opening(handle) : code;
}

/* Opens the volume in the core, and makes what that records: what a crash left of a commit is carried out. The supplied
   blocks are forgotten when no call waits, as the core compares a block that it forgets with each waiting write. */
static int open_core(famsync *handle, const struct famsync_options *options)
{
    struct opening opening = {0};
    int code = begin_with_blocks(handle, options->frames, &opening);
    if (code == FAMSYNC_OK)
        code = begin_gathering(&handle->gathered, MOST_WAITING);
    if (code == FAMSYNC_OK)
        code = handle->volume.readonly ? judge_recovery(handle) : make_opening_calls(handle);
    if (code == FAMSYNC_OK)
        forget_supplied(handle, &opening);
    return code;
}

int open_other_core(famsync *handle, famsync_core *other)
{
    famsync_core own = handle->core;
    int code;
    handle->core = (famsync_core){0};
    code = begin_core(handle, handle->frames);
    *other = handle->core;
    handle->core = own;
    return code;
}

static int read_first(famsync *handle)
{
    handle->read = malloc((size_t)MOST_READ * PAGE);
    return handle->read ? read_super(handle) : FAMSYNC_NOMEMORY;
}

static int open_session(famsync *handle, const char *path, const struct famsync_options *options)
{
    struct message message = {options->message, options->message_size};
    int code = open_volume_file(path, options, &handle->volume, &message);
    if (code != FAMSYNC_OK)
        return code;
    code = read_first(handle);
    if (code == FAMSYNC_OK) {
        code = judge_volume_file(&handle->volume, options->trust != 0, &message);
        if (code != FAMSYNC_OK)
            return code;
        code = open_core(handle, options);
    }
    handle->resident = options->resident != 0;
    handle->fixed = options->fixed != 0;
    handle->is_tracked = options->tracking == FAMSYNC_TRACK_KERNEL && !options->readonly;
    handle->budget = options->budget > 0 ? options->budget : DEFAULT_BUDGET;
    if (code == FAMSYNC_OK && handle->is_tracked)
        code = begin_tracking(&handle->tracker);
    if (code == FAMSYNC_OK && !options->foreground && !options->readonly)
        begin_background(handle);
    if (code != FAMSYNC_OK)
        say_why(&message, path, code);
    return code;
}

/* Frees what a handle has that isn't among those of this process. */
static void free_handle(famsync *handle)
{
    if (handle->core.at)
        famsync_core_close(handle->core);
    end_gathering(&handle->gathered);
    end_space(&handle->space);
    free(handle->read);
    pthread_cond_destroy(&handle->work);
    pthread_cond_destroy(&handle->answered);
    pthread_mutex_destroy(&handle->queue);
    pthread_cond_destroy(&handle->groups.changed);
    pthread_mutex_destroy(&handle->groups.lock);
    pthread_mutex_destroy(&handle->turn);
    free(handle);
}

/* Ends what a handle has, and frees it. */
static void drop(famsync *handle)
{
    int error = errno;
    leave_handle(handle);
    end_tracking(&handle->tracker);
    close_volume_file(&handle->volume);
    free_handle(handle);
    errno = error;
}

/* Its clock is the one that no one sets. */
static void begin_condition(pthread_cond_t *condition)
{
    pthread_condattr_t attributes;
    pthread_condattr_init(&attributes);
    pthread_condattr_setclock(&attributes, CLOCK_MONOTONIC);
    pthread_cond_init(condition, &attributes);
    pthread_condattr_destroy(&attributes);
}

static famsync *new_handle(void)
{
    famsync *handle = calloc(1, sizeof *handle);
    if (!handle)
        return NULL;
    pthread_mutex_init(&handle->turn, NULL);
    pthread_mutex_init(&handle->queue, NULL);
    pthread_mutex_init(&handle->groups.lock, NULL);
    begin_condition(&handle->groups.changed);
    begin_condition(&handle->answered);
    begin_condition(&handle->work);
    handle->tracker.faults = handle->tracker.pages = -1;
    handle->volume.file = handle->volume.unlocked = handle->volume.folder = -1;
    if (enter_handle(handle) == FAMSYNC_OK)
        return handle;
    free_handle(handle);
    return NULL;
}

/* The options that a program gives, which may have more fields or fewer than those of this version. */
static int take_options(const struct famsync_options *given, struct famsync_options *options)
{
    size_t size = given && given->size > 0 ? given->size : FIRST_SIZE;
    *options = (struct famsync_options){0};
    if (!given)
        return FAMSYNC_OK;
    if (size < FIRST_SIZE)
        return explain(FAMSYNC_ARGUMENT, "`size` of the options is %zu, which is too small", size);
    for (size_t i = sizeof *options; i < size; i++)
        if (((const unsigned char *)given)[i] != 0)
            return explain(FAMSYNC_ARGUMENT, "this version of the library doesn't know all of the options");
    memcpy(options, given, size < sizeof *options ? size : sizeof *options);
    if (options->tracking != FAMSYNC_TRACK_SIGNALS && options->tracking != FAMSYNC_TRACK_KERNEL)
        return explain(FAMSYNC_ARGUMENT, "the option `tracking` is %d", options->tracking);
    if (options->tracking == FAMSYNC_TRACK_KERNEL && options->resident)
        return explain(FAMSYNC_ARGUMENT, "the options have both FAMSYNC_TRACK_KERNEL and `resident`");
    return FAMSYNC_OK;
}

/* Begins a session by options that were taken. */
static int begin_session(const char *volume, const struct famsync_options *options, famsync **opened)
{
    famsync *handle;
    int code;
    if (options->message && options->message_size > 0)
        options->message[0] = 0;
    handle = new_handle();
    if (!handle)
        return FAMSYNC_NOMEMORY;
    code = open_session(handle, volume, options);
    if (code != FAMSYNC_OK) {
        drop(handle);
        return code;
    }
    forget_failure(handle);
    *opened = handle;
    return code;
}

static int open_handle(const char *volume, const struct famsync_options *given, famsync **opened)
{
    struct famsync_options options;
    int code, cancel;
    if (!volume || !*volume)
        return explain(FAMSYNC_ARGUMENT, "the path is %s", volume ? "empty" : "a null pointer");
    if (!opened)
        return explain(FAMSYNC_ARGUMENT, "`handle` is a null pointer");
    code = take_options(given, &options);
    if (code != FAMSYNC_OK) {
        say_why(&(struct message){options.message, options.message_size}, volume, code);
        return code;
    }
    cancel = hold_off_cancel();
    code = begin_session(volume, &options, opened);
    allow_cancel(cancel);
    return code;
}

int famsync_open(const char *volume, const struct famsync_options *given, famsync **opened)
{
    if (opened)
        *opened = NULL;
    return answer(NULL, __func__, open_handle(volume, given, opened));
}

/* Ends a session, unless plain memory or a group is open. What is left of commits is written, so that the next session
   has nothing to carry out. */
static int end_session(famsync *handle)
{
    bool in_use;
    int code;
    pthread_mutex_lock(&handle->turn);
    in_use = handle->memories != NULL;
    pthread_mutex_unlock(&handle->turn);
    if (in_use)
        return explain(FAMSYNC_ARGUMENT, "plain memory of the handle is still open");
    if (has_groups(handle))
        return explain(FAMSYNC_BUSY, "a group is open");
    end_background(handle);
    code = handle->ended == FAMSYNC_OK ? write_all_out(handle) : handle->ended;
    if (handle->ended != FAMSYNC_OK)
        errno = handle->error;
    drop(handle);
    return code;
}

int famsync_close(famsync *handle)
{
    uintptr_t closed = (uintptr_t)handle;
    int code, cancel;
    /* The other process's thread may have been anywhere in the core, and had the locks: they are left as they are. */
    if (!handle || is_forked(handle))
        return FAMSYNC_OK;
    cancel = hold_off_cancel();
    code = end_session(handle);
    allow_cancel(cancel);
    return code == FAMSYNC_OK ? code : note_failure(closed, __func__, code);
}

const char *famsync_version(void)
{
    return FAMSYNC_VERSION CORE_NOTE;
}

unsigned famsync_files(const famsync *handle)
{
    return handle ? handle->files : 0;
}

const char *famsync_file_name(const famsync *handle, unsigned file)
{
    return handle && file < handle->files ? handle->file[file].name : NULL;
}

uint64_t famsync_file_length(const famsync *handle, unsigned file)
{
    return handle && file < handle->files ? atomic_load(&handle->file[file].length) : 0;
}

uint64_t famsync_capacity(const famsync *handle, unsigned file)
{
    return handle && file < handle->files ? handle->file[file].capacity : 0;
}

unsigned famsync_frames(const famsync *handle)
{
    return handle ? handle->frames : 0;
}

uint64_t famsync_acknowledged(famsync *handle)
{
    return handle ? atomic_load(&handle->acknowledged) : 0;
}
