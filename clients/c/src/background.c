/* What a commit writes after its acknowledgement: its pages to their places, while nobody calls. */
#include "inside.h"

#include <errno.h>
#include <time.h>

/* How long the thread waits for another commit, in nanoseconds. */
#define PAUSE 10000000l

/* A commit is home once a start behind it counts. Until the calls of that are made, what was home before is answered.
 */
void note_log(famsync *handle)
{
    uint64_t commits = 0;
    uint32_t home;
    if (famsync_core_log(handle->core, &handle->log.blocks, &handle->log.used, &commits, &handle->core.at) !=
        FAMSYNC_CORE_OK)
        return;
    if (famsync_core_waiting(handle->core, &handle->core.at) > 0)
        return;
    home = commits < handle->numbered ? handle->numbered - (uint32_t)commits : 0;
    if (home > handle->log.home || commits == 0)
        handle->log.start_written = false;
    handle->log.home = home;
}

/* Whether to write home although commits go on: once half of the log is in use, so that what many commits have of a
   page is written once. Then the start behind them is written, and the next commits make it count by their own syncs.
 */
static bool is_due(const famsync *handle)
{
    return handle->log.used * 2 >= handle->log.blocks && !handle->log.start_written;
}

/* Makes one step, with the blocks that it wants. If it isn't refused, `left` becomes whether another one is to come. */
static int step(famsync *handle)
{
    for (;;) {
        uint32_t wanted = 0;
        int32_t answer = famsync_core_write_out(handle->core, 1, &wanted, &handle->core.at);
        int code = answer == FAMSYNC_CORE_WANTED ? supply(handle, wanted, 1) : answer_of(handle, answer);
        if (answer == FAMSYNC_CORE_WANTED && code == FAMSYNC_OK)
            continue;
        if (code == FAMSYNC_OK)
            handle->left = answer == FAMSYNC_CORE_OK;
        if (code == FAMSYNC_OK && ends_with_start(handle))
            handle->log.start_written = true;
        return code;
    }
}

/* The same; the steps may come to many writes before a sync. */
static int step_of_log(famsync *handle)
{
    int code = step(handle);
    return code == FAMSYNC_OK ? drain_many(handle) : code;
}

/* By twice as many steps as the commit has pages, the start is written before the log is full. A step whose read fails
   isn't needed for the commit, so it is left. */
int write_some_out(famsync *handle, uint64_t pages)
{
    uint64_t steps = 2 * (pages + 2);
    int code = FAMSYNC_OK;
    for (; steps > 0 && code == FAMSYNC_OK && is_due(handle); steps--)
        code = step_of_log(handle);
    return drain(handle);
}

/* Neighbours are one system call where they are gathered together, so nothing is written before the steps ask for a
   sync. Between two steps the thread gives way: a call waits for one of them, which copies a page; or where they ask
   for a sync, for the pages of one commit and for that sync, as it waits for a commit, which has two. */
int write_out(famsync *handle, bool gives_way)
{
    int code, drained;
    do {
        if (gives_way && atomic_load(&handle->callers) > 0)
            return FAMSYNC_OK;
        code = step_of_log(handle);
    } while (code == FAMSYNC_OK && handle->left && !ends_with_sync(handle) && !ends_with_start(handle));
    drained = ends_with_start(handle) ? drain_all(handle) : drain(handle);
    if (drained == FAMSYNC_OK)
        note_log(handle);
    else
        handle->left = false;
    keep_to_budget(handle);
    return drained != FAMSYNC_OK ? drained : code;
}

int write_all_out(famsync *handle)
{
    int code = FAMSYNC_OK;
    while (handle->left && code == FAMSYNC_OK)
        code = write_out(handle, false);
    return code;
}

static bool has_work(const famsync *handle)
{
    return handle->left && handle->ended == FAMSYNC_OK && atomic_load(&handle->callers) == 0;
}

static struct timespec end_of_pause(void)
{
    struct timespec end;
    clock_gettime(CLOCK_MONOTONIC, &end);
    end.tv_nsec += PAUSE;
    if (end.tv_nsec >= 1000000000l) {
        end.tv_nsec -= 1000000000l;
        end.tv_sec++;
    }
    return end;
}

/* What is left of a commit shares its syncs with the next one, if that comes soon: so the thread waits for it. Whether
   one came, or nothing is to be done any more. With a log, more commits are then written home together, too. */
static bool another_comes(famsync *handle)
{
    uint64_t before = atomic_load(&handle->acknowledged);
    struct timespec end = end_of_pause();
    handle->pausing = true;
    while (!handle->stopping && pthread_cond_timedwait(&handle->work, &handle->turn, &end) != ETIMEDOUT)
        continue;
    handle->pausing = false;
    return handle->stopping || !has_work(handle) || atomic_load(&handle->acknowledged) != before;
}

/* Waits for work, or does a part of it. A step that is refused is made again after a pause. */
static void work_once(famsync *handle)
{
    if (!has_work(handle))
        pthread_cond_wait(&handle->work, &handle->turn);
    else if ((is_due(handle) || !another_comes(handle)) && write_out(handle, true) != FAMSYNC_OK && has_work(handle))
        (void)another_comes(handle);
}

/* The thread. An error of it is reported by the next call, as the session is over then. */
static void *work(void *argument)
{
    famsync *handle = argument;
    pthread_mutex_lock(&handle->turn);
    while (!handle->stopping) {
        work_once(handle);
        /* whoever came meanwhile goes first */
        pthread_mutex_unlock(&handle->turn);
        pthread_mutex_lock(&handle->turn);
    }
    pthread_mutex_unlock(&handle->turn);
    return NULL;
}

/* Where no thread can be made, calls write what is left. */
void begin_background(famsync *handle)
{
    sigset_t all, blocked;
    sigfillset(&all);
    pthread_sigmask(SIG_SETMASK, &all, &blocked);
    handle->threaded = pthread_create(&handle->thread, NULL, work, handle) == 0;
    pthread_sigmask(SIG_SETMASK, &blocked, NULL);
}

void end_background(famsync *handle)
{
    if (!handle->threaded)
        return;
    pthread_mutex_lock(&handle->turn);
    handle->stopping = true;
    pthread_cond_signal(&handle->work);
    pthread_mutex_unlock(&handle->turn);
    pthread_join(handle->thread, NULL);
    handle->threaded = false;
}
