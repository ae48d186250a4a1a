/* Groups of stores. A commit and a rollback take their moment when no group is open: they hold off new groups, wait for
   the open ones, and let groups begin again after the moment. While they wait, others have the turn, since a thread
   within a group may make calls. Groups that were held off count as open from the moment's end on. So the next commit
   can't get ahead of them. */
#include "inside.h"

#include <stdlib.h>

/* The flags in `state`, which counts the open groups: new groups are held off; a thread has ended within a group. */
#define HELD_OFF 0x80000000u
#define ABANDONED 0x40000000u

static unsigned open_in(unsigned state)
{
    return state & ~(HELD_OFF | ABANDONED);
}

/* A volume of which a thread holds a group. */
struct held {
    struct held *next;
    famsync *handle; /* null if this entry is free */
    uint64_t depth;  /* how many begins wait for their end */
};

/* Each thread has a list of these: the first entry, and more if it has held groups of several volumes at once. */
PER_THREAD struct held first;

/* The value of this key tells when a thread ends that has begun a group. */
static pthread_key_t key;
static atomic_bool has_key;

/* This thread's entry of a volume; a null pointer if it holds no group of that. */
static struct held *entry_of(const famsync *handle)
{
    struct held *entry = &first;
    while (entry && entry->handle != handle)
        entry = entry->next;
    return entry;
}

/* What the thread has stored since it began the group must not be committed. The handle may be freed once the group
   isn't open any more, and the lock isn't held. */
static void abandon(famsync *handle)
{
    pthread_mutex_lock(&handle->groups.lock);
    atomic_fetch_or(&handle->groups.state, ABANDONED);
    atomic_fetch_sub(&handle->groups.state, 1);
    pthread_cond_broadcast(&handle->groups.changed);
    pthread_mutex_unlock(&handle->groups.lock);
}

/* A thread ends. In a forked process its list has groups of the other process, too. */
static void end_thread(void *list)
{
    for (struct held *entry = list, *next; entry; entry = next) {
        next = entry->next;
        if (entry->handle && !is_forked(entry->handle))
            abandon(entry->handle);
        if (entry != &first)
            free(entry);
    }
    first = (struct held){0};
}

/* A process that was forked meanwhile finds the lock of the table free. */
static bool make_key(void)
{
    lock_table();
    if (!atomic_load(&has_key))
        atomic_store(&has_key, pthread_key_create(&key, end_thread) == 0);
    unlock_table();
    return atomic_load(&has_key);
}

/* Whether the library learns when this thread ends. */
static bool is_noted(void)
{
    if (!atomic_load(&has_key) && !make_key())
        return false;
    return pthread_getspecific(key) || pthread_setspecific(key, &first) == 0;
}

/* A free entry of this thread; a null pointer if the system refuses memory, or another key. */
static struct held *free_entry(void)
{
    struct held *entry;
    if (!is_noted())
        return NULL;
    entry = entry_of(NULL);
    if (entry)
        return entry;
    entry = calloc(1, sizeof *entry);
    if (!entry)
        return NULL;
    entry->next = first.next;
    first.next = entry;
    return entry;
}

/* Counts another open group, unless new ones are held off. */
static bool try_to_open(struct groups *groups)
{
    unsigned state = atomic_load(&groups->state);
    while (!(state & HELD_OFF))
        if (atomic_compare_exchange_weak(&groups->state, &state, state + 1))
            return true;
    return false;
}

/* Waits until the moment is taken. Whoever took it has counted this group then. */
static void await_moment(struct groups *groups)
{
    pthread_mutex_lock(&groups->lock);
    if (!try_to_open(groups)) {
        uint64_t moment = groups->moments;
        groups->waiting++;
        while (groups->moments == moment)
            pthread_cond_wait(&groups->changed, &groups->lock);
    }
    pthread_mutex_unlock(&groups->lock);
}

/* If somebody waits for the last group, the lock is held until that group isn't looked at any more. */
static void end_group(struct groups *groups)
{
    unsigned state = atomic_load(&groups->state);
    while (!(state & HELD_OFF))
        if (atomic_compare_exchange_weak(&groups->state, &state, state - 1))
            return;
    pthread_mutex_lock(&groups->lock);
    if (open_in(atomic_fetch_sub(&groups->state, 1)) == 1)
        pthread_cond_broadcast(&groups->changed);
    pthread_mutex_unlock(&groups->lock);
}

static int begin_group(famsync *handle)
{
    struct held *entry = entry_of(handle);
    if (!entry) {
        entry = free_entry();
        if (!entry)
            return FAMSYNC_NOMEMORY;
        if (!try_to_open(&handle->groups))
            await_moment(&handle->groups);
        entry->handle = handle;
    }
    entry->depth++;
    return FAMSYNC_OK;
}

static int begin(famsync *handle)
{
    int code, cancel;
    if (!handle)
        return explain(FAMSYNC_ARGUMENT, "the handle is a null pointer");
    if (is_forked(handle))
        return FAMSYNC_FORKED;
    if (handle->volume.readonly)
        return FAMSYNC_READONLY;
    cancel = hold_off_cancel();
    code = begin_group(handle);
    allow_cancel(cancel);
    return code;
}

static int end(famsync *handle)
{
    struct held *entry;
    int cancel;
    if (!handle)
        return explain(FAMSYNC_ARGUMENT, "the handle is a null pointer");
    if (is_forked(handle))
        return FAMSYNC_FORKED;
    entry = entry_of(handle);
    if (!entry)
        return explain(FAMSYNC_ARGUMENT, "this thread holds no group");
    if (--entry->depth > 0)
        return FAMSYNC_OK;
    cancel = hold_off_cancel();
    entry->handle = NULL;
    end_group(&handle->groups);
    allow_cancel(cancel);
    return FAMSYNC_OK;
}

int famsync_begin(famsync *handle)
{
    return answer(handle, __func__, begin(handle));
}

int famsync_end(famsync *handle)
{
    return answer(handle, __func__, end(handle));
}

bool has_groups(famsync *handle)
{
    bool open;
    pthread_mutex_lock(&handle->groups.lock);
    open = open_in(atomic_load(&handle->groups.state)) > 0;
    pthread_mutex_unlock(&handle->groups.lock);
    return open;
}

int check_no_group(famsync *handle)
{
    bool open = handle && open_in(atomic_load(&handle->groups.state)) > 0;
    if (open && !is_forked(handle) && entry_of(handle))
        return explain(FAMSYNC_BUSY, "this thread holds a group");
    return FAMSYNC_OK;
}

/* Waits until no group is open, or another commit or rollback has let new ones begin. */
static void await_groups(struct groups *groups)
{
    unsigned state;
    pthread_mutex_lock(&groups->lock);
    while (state = atomic_load(&groups->state), state & HELD_OFF && open_in(state) > 0)
        pthread_cond_wait(&groups->changed, &groups->lock);
    pthread_mutex_unlock(&groups->lock);
}

/* Holds off new groups until none is open; the caller has the turn, now and afterwards. */
static void hold_off_groups(famsync *handle)
{
    int cancel = handle->cancel;
    while (open_in(atomic_fetch_or(&handle->groups.state, HELD_OFF)) > 0) {
        pthread_mutex_unlock(&handle->turn);
        await_groups(&handle->groups);
        pthread_mutex_lock(&handle->turn);
    }
    handle->cancel = cancel;
    if (atomic_load(&handle->groups.state) & ABANDONED) {
        atomic_fetch_and(&handle->groups.state, ~ABANDONED);
        handle->torn = true;
    }
}

void resume_groups(famsync *handle)
{
    struct groups *groups = &handle->groups;
    if (!(atomic_load(&groups->state) & HELD_OFF))
        return;
    pthread_mutex_lock(&groups->lock);
    atomic_store(&groups->state, groups->waiting);
    if (groups->waiting > 0)
        pthread_cond_broadcast(&groups->changed);
    groups->waiting = 0;
    groups->moments++;
    pthread_mutex_unlock(&groups->lock);
}

int enter_between_groups(famsync *handle)
{
    int code = enter(handle, true);
    if (code != FAMSYNC_OK)
        return code;
    hold_off_groups(handle);
    if (handle->ended != FAMSYNC_OK)
        resume_groups(handle);
    return stay(handle);
}

int leave_between_groups(famsync *handle, int code)
{
    resume_groups(handle);
    return leave(handle, code);
}
