/* Commits: one that is asked for while another is being made waits for the next, which it shares with all that came
   meanwhile. */
#include "inside.h"

#include <errno.h>

/* Has the core make a commit, with the blocks that it wants. It may first write earlier commits home: then calls are
   made when there are many, since they take memory. */
static int make_commit(famsync *handle, uint32_t *number)
{
    for (;;) {
        uint32_t wanted = 0;
        int32_t answer = famsync_core_commit(handle->core, number, &wanted, &handle->core.at);
        int code = answer == FAMSYNC_CORE_WANTED ? supply(handle, wanted, 1) : answer_of(handle, answer);
        if (code == FAMSYNC_BUSY)
            return explain(code, "no number is left for another commit");
        if (answer != FAMSYNC_CORE_WANTED || code != FAMSYNC_OK)
            return code;
        code = drain_many(handle);
        if (code != FAMSYNC_OK)
            return code;
    }
}

void forget_staged(famsync *handle)
{
    for (unsigned i = 0; i < handle->files; i++)
        handle->file[i].staged = (struct span){0, 0};
    handle->resized = false;
    forget_claims(handle);
}

/* Makes a commit in the core, and what it records; it is acknowledged once all that was made. Writes of earlier commits
   need no sync of their own. */
static int commit(famsync *handle, uint64_t *mark)
{
    uint32_t number = 0;
    int64_t pages = famsync_core_staged(handle->core, &handle->core.at);
    int code = reserve_space(handle), drained;
    bool counts;
    int error;
    if (code == FAMSYNC_OK)
        code = write_some_out(handle, (uint64_t)pages);
    if (code != FAMSYNC_OK)
        return code;
    code = make_commit(handle, &number);
    counts = ends_with_sync(handle); /* before, none waited */
    error = errno;
    drained = drain(handle);
    if (drained != FAMSYNC_OK)
        return drained;
    errno = error;
    if (code == FAMSYNC_OK && famsync_core_waiting(handle->core, &handle->core.at) > 0)
        code = drain_all(handle);
    if (code != FAMSYNC_OK)
        return code;
    int64_t acknowledged = famsync_core_acknowledged(handle->core, &handle->core.at);
    if (acknowledged < 0 || (uint64_t)acknowledged < number)
        return FAMSYNC_BROKEN;
    *mark = handle->earlier + number;
    atomic_store(&handle->acknowledged, *mark);
    forget_staged(handle);
    handle->numbered += counts;
    handle->left = true;
    note_log(handle);
    return FAMSYNC_OK;
}

int commit_stores(famsync *handle, uint64_t *mark)
{
    int code;
    if (handle->torn)
        return FAMSYNC_TORN;
    code = take_stores(handle);
    if (code == FAMSYNC_OK)
        code = commit(handle, mark);
    if (code == FAMSYNC_OK)
        stores_are_committed(handle);
    else
        put_stores_back(handle);
    return code;
}

/* Makes a commit for all that wait for one. They came before its turn begins, and so did what they stored. */
static void commit_for_waiters(famsync *handle)
{
    struct waiter *waiters, *next;
    uint64_t mark = 0;
    int code = enter_between_groups(handle), error;
    pthread_mutex_lock(&handle->queue);
    waiters = handle->waiters;
    handle->waiters = NULL;
    pthread_mutex_unlock(&handle->queue);
    if (code == FAMSYNC_OK)
        code = leave_between_groups(handle,
                                    handle->transaction > 0 ? FAMSYNC_TRANSACTION : commit_stores(handle, &mark));
    error = errno;
    pthread_mutex_lock(&handle->queue);
    for (struct waiter *waiter = waiters; waiter; waiter = next) {
        next = waiter->next;
        share_explanation(waiter->failure, code);
        waiter->code = code;
        waiter->error = error;
        waiter->mark = mark;
        waiter->done = true;
    }
    handle->committing = false;
    pthread_cond_broadcast(&handle->answered);
    pthread_mutex_unlock(&handle->queue);
}

/* Waits until a commit was made for this thread, by another thread or by itself. */
static void await_commit(famsync *handle, struct waiter *mine)
{
    pthread_mutex_lock(&handle->queue);
    mine->next = handle->waiters;
    handle->waiters = mine;
    while (!mine->done) {
        if (handle->committing) {
            pthread_cond_wait(&handle->answered, &handle->queue);
            continue;
        }
        handle->committing = true;
        pthread_mutex_unlock(&handle->queue);
        commit_for_waiters(handle);
        pthread_mutex_lock(&handle->queue);
    }
    pthread_mutex_unlock(&handle->queue);
}

static int commit_now(famsync *handle, uint64_t *mark)
{
    struct waiter mine = {.failure = own_failure()};
    int cancel, code;
    if (!handle)
        return explain(FAMSYNC_ARGUMENT, "the handle is a null pointer");
    if (is_forked(handle))
        return FAMSYNC_FORKED;
    if (handle->volume.readonly)
        return FAMSYNC_READONLY;
    code = check_no_group(handle);
    if (code != FAMSYNC_OK)
        return code;
    cancel = hold_off_cancel();
    await_commit(handle, &mine);
    allow_cancel(cancel);
    if (mine.code == FAMSYNC_OK && mark)
        *mark = mine.mark;
    if (mine.code != FAMSYNC_OK)
        errno = mine.error;
    return mine.code;
}

int famsync_msync(famsync *handle, uint64_t *mark)
{
    return answer(handle, __func__, commit_now(handle, mark));
}
