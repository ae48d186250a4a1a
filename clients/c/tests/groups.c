/* Groups: each commit has all of a group or nothing of it, whatever threads do meanwhile; and what is refused. The
   first test is a bank with money that moves in two threads while a third commits without their lock. */
#include "test.h"

#include <semaphore.h>
#include <stdatomic.h>

#define ACCOUNTS 4096u
#define TOGGLE(words, i) ((words)[512 * (i)])

static famsync *handle;
static famsync_memory *memory;
static int64_t *words; /* of the file "a" */
static char other[100], copy[100];

/* The next sync of a volume waits while syncs are held, or fails. */
static atomic_bool held, syncing, failing;

int fdatasync(int file)
{
    while (atomic_load(&held)) {
        atomic_store(&syncing, true);
        usleep(1000);
    }
    if (!atomic_load(&failing))
        return (int)syscall(SYS_fdatasync, file);
    errno = EIO;
    return -1;
}

static void begin_session(struct famsync_options options)
{
    handle = opened_with(options);
    WANT_CODE(famsync_memory_open(handle, "a", &memory), FAMSYNC_OK);
    words = famsync_memory_at(memory);
}

static void begin_new(unsigned layout, struct famsync_options options)
{
    make_volume_of(layout, 100, "a=32768 b=4096");
    begin_session(options);
}

static void end_session(void)
{
    WANT_CODE(famsync_memory_close(memory), FAMSYNC_OK);
    WANT_CODE(famsync_close(handle), FAMSYNC_OK);
}

/* What is committed: the words of "a", and those of "b" behind them. */
static const int64_t *committed(void)
{
    static int64_t found[ACCOUNTS + 512];
    famsync *backup;
    int file = open(copy, O_RDWR | O_CREAT | O_CLOEXEC, 0600);
    WANT(file >= 0);
    WANT_CODE(famsync_backup(handle, file), FAMSYNC_OK);
    WANT(close(file) == 0);
    WANT_CODE(
        famsync_open(copy, &(struct famsync_options){.size = sizeof(struct famsync_options), .readonly = 1}, &backup),
        FAMSYNC_OK);
    WANT_CODE(famsync_read(backup, 0, 0, found, 8 * ACCOUNTS, NULL), FAMSYNC_OK);
    WANT_CODE(famsync_read(backup, 1, 0, found + ACCOUNTS, 4096, NULL), FAMSYNC_OK);
    WANT_CODE(famsync_close(backup), FAMSYNC_OK);
    return found;
}

static pthread_t begun(void *(*work)(void *), void *argument)
{
    pthread_t thread;
    WANT(pthread_create(&thread, NULL, work, argument) == 0);
    return thread;
}

static int ended(pthread_t thread)
{
    void *code;
    WANT(pthread_join(thread, &code) == 0);
    return (int)(intptr_t)code;
}

/* Transfers of two threads, each in a group; some also count in "b", by calls. */
#define COMMITS 60

static pthread_mutex_t bank = PTHREAD_MUTEX_INITIALIZER;
static atomic_bool stopped;
static atomic_uint transfers;

static void transfer(unsigned thread, uint64_t i)
{
    uint64_t count = i / 8;
    WANT_CODE(famsync_begin(handle), FAMSYNC_OK);
    pthread_mutex_lock(&bank);
    words[2 + i * 513 % (ACCOUNTS - 2)] -= 7;
    words[2 + (i * 517 + 9) % (ACCOUNTS - 2)] += 7;
    pthread_mutex_unlock(&bank);
    if (i % 8 == 0) {
        words[thread] = (int64_t)count;
        WANT_CODE(famsync_write(handle, 1, 8 * thread, &count, 8, NULL), FAMSYNC_OK);
    }
    WANT_CODE(famsync_end(handle), FAMSYNC_OK);
    atomic_fetch_add(&transfers, 1);
}

static void *move(void *argument)
{
    for (uint64_t i = 1; !atomic_load(&stopped); i++)
        transfer((unsigned)(uintptr_t)argument, i);
    return NULL;
}

static void judge(const int64_t *found)
{
    int64_t sum = 0;
    for (unsigned i = 2; i < ACCOUNTS; i++)
        sum += found[i];
    WANT(sum == 0);
    WANT(found[0] == found[ACCOUNTS] && found[1] == found[ACCOUNTS + 1]);
}

static void transfers_between_commits(unsigned layout, struct famsync_options options)
{
    pthread_t thread[2];
    begin_new(layout, options);
    atomic_store(&stopped, false);
    atomic_store(&transfers, 0);
    for (uintptr_t i = 0; i < 2; i++)
        thread[i] = begun(move, (void *)i);
    while (atomic_load(&transfers) < 100)
        usleep(100);
    for (unsigned number = 0; number < COMMITS; number++) {
        WANT_CODE(famsync_msync(handle, NULL), FAMSYNC_OK);
        judge(committed());
        usleep(500);
    }
    atomic_store(&stopped, true);
    for (unsigned i = 0; i < 2; i++)
        ended(thread[i]);
    judge(committed());
    end_session();
}

/* A thread that stores a half, and the other half when it may. */
static sem_t halfway, go;

static void *store_both(void *number)
{
    WANT_CODE(famsync_begin(handle), FAMSYNC_OK);
    TOGGLE(words, 0) = (intptr_t)number;
    sem_post(&halfway);
    sem_wait(&go);
    WANT_CODE(famsync_begin(handle), FAMSYNC_OK); /* within the group nothing waits */
    TOGGLE(words, 1) = (intptr_t)number;
    WANT_CODE(famsync_write(handle, 1, 8, &number, 8, NULL), FAMSYNC_OK);
    WANT_CODE(famsync_msync(handle, NULL), FAMSYNC_BUSY);
    WANT_CODE(famsync_end(handle), FAMSYNC_OK);
    WANT_CODE(famsync_msync(handle, NULL), FAMSYNC_BUSY);
    return (void *)(intptr_t)famsync_end(handle);
}

static pthread_t begun_half(intptr_t number)
{
    pthread_t thread = begun(store_both, (void *)number);
    sem_wait(&halfway);
    return thread;
}

static atomic_bool done;

static void *commit(void *mark)
{
    int code = famsync_msync(handle, mark);
    atomic_store(&done, true);
    return (void *)(intptr_t)code;
}

static void *roll_back(void *argument)
{
    (void)argument;
    int code = famsync_rollback(handle);
    atomic_store(&done, true);
    return (void *)(intptr_t)code;
}

/* Begins what waits for the open group. */
static pthread_t begun_waiting(void *(*work)(void *))
{
    atomic_store(&done, false);
    pthread_t thread = begun(work, NULL);
    usleep(30000);
    WANT(!atomic_load(&done));
    return thread;
}

static bool has_both(const int64_t *found, int64_t number)
{
    return TOGGLE(found, 0) == number && TOGGLE(found, 1) == number && found[ACCOUNTS + 1] == number;
}

/* A commit waits for the open group, and a group that comes meanwhile waits for the commit. */
static void commit_waits(void)
{
    begin_new(FIRST_LAYOUT, (struct famsync_options){0});
    pthread_t first = begun_half(1), next, commits = begun_waiting(commit);
    next = begun(store_both, (void *)2);
    usleep(30000);
    WANT(sem_trywait(&halfway) != 0 && !atomic_load(&done));
    sem_post(&go);
    WANT_CODE(ended(first), FAMSYNC_OK);
    WANT_CODE(ended(commits), FAMSYNC_OK);
    sem_wait(&halfway);
    WANT(TOGGLE(words, 0) == 2 && has_both(committed(), 1));
    commits = begun_waiting(commit);
    sem_post(&go);
    WANT_CODE(ended(next), FAMSYNC_OK);
    WANT_CODE(ended(commits), FAMSYNC_OK);
    WANT(has_both(committed(), 2));
    end_session();
}

/* A group waits for the moment, and not for what the commit writes. */
static void begin_during_syncs(void)
{
    begin_new(FIRST_LAYOUT, (struct famsync_options){.foreground = 1});
    TOGGLE(words, 0) = TOGGLE(words, 1) = 1;
    atomic_store(&held, true);
    pthread_t commits = begun(commit, NULL);
    while (!atomic_load(&syncing))
        usleep(1000);
    WANT_CODE(famsync_begin(handle), FAMSYNC_OK);
    TOGGLE(words, 0) = 2;
    atomic_store(&held, false);
    WANT_CODE(ended(commits), FAMSYNC_OK);
    WANT(TOGGLE(committed(), 0) == 1);
    WANT_CODE(famsync_end(handle), FAMSYNC_OK);
    end_session();
}

/* A rollback undoes all of a group, too; commits and rollbacks wait for the same group. */
static void rollback_waits(void)
{
    begin_new(FIRST_LAYOUT, (struct famsync_options){0});
    pthread_t first = begun_half(1), rolls = begun_waiting(roll_back);
    sem_post(&go);
    WANT_CODE(ended(first), FAMSYNC_OK);
    WANT_CODE(ended(rolls), FAMSYNC_OK);
    words = famsync_memory_at(memory);
    WANT(TOGGLE(words, 0) == 0 && TOGGLE(words, 1) == 0);
    first = begun_half(3);
    rolls = begun_waiting(roll_back);
    pthread_t commits = begun_waiting(commit);
    sem_post(&go);
    WANT_CODE(ended(first), FAMSYNC_OK);
    WANT_CODE(ended(rolls), FAMSYNC_OK);
    WANT_CODE(ended(commits), FAMSYNC_OK);
    WANT_CODE(famsync_msync(handle, NULL), FAMSYNC_OK);
    WANT(has_both(committed(), 0) || has_both(committed(), 3));
    WANT(has_both(committed(), TOGGLE(words, 0)));
    end_session();
}

/* Groups that always overlap don't keep a commit waiting, nor do commits in a row a group. */
static void *overlap(void *argument)
{
    (void)argument;
    while (!atomic_load(&stopped)) {
        WANT_CODE(famsync_begin(handle), FAMSYNC_OK);
        usleep(300);
        WANT_CODE(famsync_end(handle), FAMSYNC_OK);
    }
    return NULL;
}

static void *commit_in_a_row(void *argument)
{
    (void)argument;
    while (!atomic_load(&stopped))
        WANT_CODE(famsync_msync(handle, NULL), FAMSYNC_OK);
    return NULL;
}

static void nobody_starves(void)
{
    pthread_t thread[4];
    begin_new(FIRST_LAYOUT, (struct famsync_options){0});
    atomic_store(&stopped, false);
    for (unsigned i = 0; i < 4; i++)
        thread[i] = begun(overlap, NULL);
    for (unsigned i = 0; i < 20; i++)
        WANT_CODE(famsync_msync(handle, NULL), FAMSYNC_OK);
    atomic_store(&stopped, true);
    for (unsigned i = 0; i < 4; i++)
        ended(thread[i]);
    atomic_store(&stopped, false);
    for (unsigned i = 0; i < 2; i++)
        thread[i] = begun(commit_in_a_row, NULL);
    for (unsigned i = 0; i < 200; i++) {
        WANT_CODE(famsync_begin(handle), FAMSYNC_OK);
        TOGGLE(words, 0)++;
        WANT_CODE(famsync_end(handle), FAMSYNC_OK);
    }
    atomic_store(&stopped, true);
    for (unsigned i = 0; i < 2; i++)
        ended(thread[i]);
    end_session();
}

/* What a thread may not do that holds no group, or holds one. */
static void *end_in_thread(void *argument)
{
    (void)argument;
    return (void *)(intptr_t)famsync_end(handle);
}

static uint64_t staged(void)
{
    struct famsync_stat stat = {.size = sizeof stat};
    WANT_CODE(famsync_stat(handle, &stat), FAMSYNC_OK);
    return stat.staged;
}

static void refused(void)
{
    begin_new(FIRST_LAYOUT, (struct famsync_options){0});
    WANT_CODE(famsync_begin(NULL), FAMSYNC_ARGUMENT);
    WANT_CODE(famsync_end(NULL), FAMSYNC_ARGUMENT);
    WANT_CODE(famsync_end(handle), FAMSYNC_ARGUMENT);
    WANT_CODE(famsync_begin(handle), FAMSYNC_OK);
    TOGGLE(words, 0) = 5;
    WANT_CODE(famsync_write(handle, 1, 0, "b", 1, NULL), FAMSYNC_OK);
    WANT_CODE(famsync_msync(handle, NULL), FAMSYNC_BUSY);
    WANT(strcmp(famsync_error(handle), "famsync_msync: this thread holds a group") == 0);
    WANT_CODE(famsync_rollback(handle), FAMSYNC_BUSY);
    WANT(staged() == 2 && TOGGLE(words, 0) == 5 && famsync_acknowledged(handle) == 0);
    WANT_CODE(ended(begun(end_in_thread, NULL)), FAMSYNC_ARGUMENT);
    WANT_CODE(famsync_memory_close(memory), FAMSYNC_OK);
    WANT_CODE(famsync_close(handle), FAMSYNC_BUSY);
    WANT_CODE(famsync_memory_open(handle, "a", &memory), FAMSYNC_OK);
    words = famsync_memory_at(memory);
    WANT_CODE(famsync_end(handle), FAMSYNC_OK);
    WANT_CODE(famsync_end(handle), FAMSYNC_ARGUMENT);
    pthread_t first = begun_half(1);
    WANT_CODE(famsync_memory_close(memory), FAMSYNC_OK);
    WANT_CODE(famsync_close(handle), FAMSYNC_BUSY);
    WANT_CODE(famsync_memory_open(handle, "a", &memory), FAMSYNC_OK);
    words = famsync_memory_at(memory);
    sem_post(&go);
    WANT_CODE(ended(first), FAMSYNC_OK);
    WANT_CODE(famsync_msync(handle, NULL), FAMSYNC_OK);
    end_session();
    struct famsync_options reader = {.readonly = 1};
    handle = opened_with(reader);
    WANT_CODE(famsync_begin(handle), FAMSYNC_READONLY);
    WANT_CODE(famsync_end(handle), FAMSYNC_ARGUMENT);
    WANT_CODE(famsync_close(handle), FAMSYNC_OK);
}

static famsync *second;

static void *begin_both(void *argument)
{
    (void)argument;
    WANT_CODE(famsync_begin(handle), FAMSYNC_OK);
    return (void *)(intptr_t)famsync_begin(second);
}

static void several_volumes(void)
{
    make_volume_of(FIRST_LAYOUT, 20, "a=32768 b=4096");
    WANT(rename(volume, other) == 0);
    begin_new(FIRST_LAYOUT, (struct famsync_options){0});
    WANT_CODE(famsync_open(other, NULL, &second), FAMSYNC_OK);
    for (unsigned round = 0; round < 2; round++) {
        famsync *one = round ? handle : second, *two = round ? second : handle;
        WANT_CODE(famsync_begin(one), FAMSYNC_OK);
        WANT_CODE(famsync_msync(two, NULL), FAMSYNC_OK);
        WANT_CODE(famsync_msync(one, NULL), FAMSYNC_BUSY);
        WANT_CODE(famsync_end(two), FAMSYNC_ARGUMENT);
        WANT_CODE(famsync_begin(two), FAMSYNC_OK);
        WANT_CODE(famsync_msync(two, NULL), FAMSYNC_BUSY);
        WANT_CODE(famsync_end(one), FAMSYNC_OK);
        WANT_CODE(famsync_msync(one, NULL), FAMSYNC_OK);
        WANT_CODE(famsync_msync(two, NULL), FAMSYNC_BUSY);
        WANT_CODE(famsync_end(two), FAMSYNC_OK);
        WANT_CODE(famsync_msync(two, NULL), FAMSYNC_OK);
    }
    WANT_CODE(ended(begun(begin_both, NULL)), FAMSYNC_OK);
    WANT_CODE(famsync_msync(handle, NULL), FAMSYNC_TORN);
    WANT_CODE(famsync_msync(second, NULL), FAMSYNC_TORN);
    WANT_CODE(famsync_close(second), FAMSYNC_OK);
    end_session();
}

/* A failure ends the session while a commit waits for a group: groups still begin and end. */
static void over_meanwhile(void)
{
    begin_new(FIRST_LAYOUT, (struct famsync_options){.foreground = 1});
    WANT_CODE(famsync_write(handle, 1, 0, "b", 1, NULL), FAMSYNC_OK);
    WANT_CODE(famsync_msync(handle, NULL), FAMSYNC_OK);
    WANT_CODE(famsync_begin(handle), FAMSYNC_OK);
    pthread_t commits = begun_waiting(commit);
    int file = open(copy, O_RDWR | O_CREAT | O_CLOEXEC, 0600);
    atomic_store(&failing, true);
    WANT_CODE(famsync_backup(handle, file), FAMSYNC_DEVICE);
    atomic_store(&failing, false);
    WANT(close(file) == 0);
    WANT_CODE(famsync_end(handle), FAMSYNC_OK);
    WANT_CODE(ended(commits), FAMSYNC_BROKEN);
    WANT_CODE(famsync_begin(handle), FAMSYNC_OK);
    WANT_CODE(famsync_end(handle), FAMSYNC_OK);
    WANT_CODE(famsync_memory_close(memory), FAMSYNC_OK);
    WANT_CODE(famsync_close(handle), FAMSYNC_DEVICE);
    make_volume_of(FIRST_LAYOUT, 100, "a=32768 b=4096");
    handle = opened_with((struct famsync_options){.trust = 1});
    WANT_CODE(famsync_close(handle), FAMSYNC_OK);
}

/* Threads that end within a group, one of them cancelled as it waits for its group. */
static void *end_halfway(void *argument)
{
    (void)argument;
    WANT_CODE(famsync_begin(handle), FAMSYNC_OK);
    WANT_CODE(famsync_begin(handle), FAMSYNC_OK);
    TOGGLE(words, 0) = 7;
    sem_post(&halfway);
    sem_wait(&go);
    return NULL;
}

static void *begin_cancelled(void *code)
{
    *(int *)code = famsync_begin(handle);
    pthread_testcancel();
    return NULL;
}

static void is_torn(void)
{
    WANT_CODE(famsync_msync(handle, NULL), FAMSYNC_TORN);
    WANT_CODE(famsync_msync(handle, NULL), FAMSYNC_TORN);
    WANT_CODE(famsync_rollback(handle), FAMSYNC_OK);
    WANT(TOGGLE(words, 0) == 0);
    WANT_CODE(famsync_msync(handle, NULL), FAMSYNC_OK);
}

static void thread_ends(void)
{
    int code = -1;
    begin_new(FIRST_LAYOUT, (struct famsync_options){0});
    pthread_t first = begun(end_halfway, NULL), waits;
    sem_post(&go);
    WANT(ended(first) == 0);
    sem_wait(&halfway);
    is_torn();
    first = begun(end_halfway, NULL);
    sem_wait(&halfway);
    pthread_t commits = begun_waiting(commit);
    waits = begun(begin_cancelled, &code);
    usleep(30000);
    WANT(pthread_cancel(waits) == 0);
    sem_post(&go);
    ended(first);
    WANT_CODE(ended(commits), FAMSYNC_TORN);
    WANT(ended(waits) == (int)(intptr_t)PTHREAD_CANCELED && code == FAMSYNC_OK);
    is_torn();
    WANT_CODE(famsync_begin(handle), FAMSYNC_OK);
    WANT_CODE(famsync_end(handle), FAMSYNC_OK);
    end_session();
}

/* A forked process has no group of its parent's, and ends none. */
static void in_child(void)
{
    famsync *own;
    alarm(60);
    WANT_CODE(famsync_begin(handle), FAMSYNC_FORKED);
    WANT_CODE(famsync_end(handle), FAMSYNC_FORKED);
    WANT_CODE(famsync_msync(handle, NULL), FAMSYNC_FORKED);
    WANT_CODE(famsync_rollback(handle), FAMSYNC_FORKED);
    WANT_CODE(famsync_open(other, &(struct famsync_options){.foreground = 1}, &own), FAMSYNC_OK);
    WANT_CODE(famsync_end(own), FAMSYNC_ARGUMENT);
    WANT_CODE(famsync_msync(own, NULL), FAMSYNC_OK);
    WANT_CODE(famsync_begin(own), FAMSYNC_OK);
    WANT_CODE(famsync_msync(own, NULL), FAMSYNC_BUSY);
    WANT_CODE(famsync_end(own), FAMSYNC_OK);
    WANT_CODE(famsync_msync(own, NULL), FAMSYNC_OK);
    WANT_CODE(famsync_close(own), FAMSYNC_OK);
    _exit(0);
}

static void fork_within(void)
{
    int status;
    begin_new(FIRST_LAYOUT, (struct famsync_options){0});
    pthread_t first = begun_half(1);
    WANT_CODE(famsync_begin(handle), FAMSYNC_OK);
    pid_t child = fork();
    if (child == 0)
        in_child();
    WANT(waitpid(child, &status, 0) == child && status == 0);
    WANT_CODE(famsync_msync(handle, NULL), FAMSYNC_BUSY);
    sem_post(&go);
    WANT_CODE(ended(first), FAMSYNC_OK);
    WANT_CODE(famsync_msync(handle, NULL), FAMSYNC_BUSY);
    WANT_CODE(famsync_end(handle), FAMSYNC_OK);
    WANT_CODE(famsync_msync(handle, NULL), FAMSYNC_OK);
    WANT(has_both(committed(), 1));
    end_session();
}

/* A program that has used up the system's keys of threads begins no group, until it frees one. */
static void without_keys(void)
{
    pthread_key_t key, last = 0;
    int status;
    pid_t child = fork();
    if (child == 0) {
        make_volume_of(FIRST_LAYOUT, 20, "a=32768 b=4096");
        handle = opened_with((struct famsync_options){.foreground = 1});
        while (pthread_key_create(&key, NULL) == 0)
            last = key;
        WANT_CODE(famsync_end(handle), FAMSYNC_ARGUMENT);
        WANT_CODE(famsync_begin(handle), FAMSYNC_NOMEMORY);
        WANT_CODE(famsync_msync(handle, NULL), FAMSYNC_OK);
        WANT(pthread_key_delete(last) == 0);
        WANT_CODE(famsync_begin(handle), FAMSYNC_OK);
        WANT_CODE(famsync_msync(handle, NULL), FAMSYNC_BUSY);
        WANT_CODE(famsync_end(handle), FAMSYNC_OK);
        _exit(famsync_close(handle));
    }
    WANT(waitpid(child, &status, 0) == child && status == 0);
}

static bool can_track(void)
{
    struct famsync_options options = {.size = sizeof options, .tracking = FAMSYNC_TRACK_KERNEL};
    int code;
    make_volume_of(FIRST_LAYOUT, 100, "a=32768 b=4096");
    code = famsync_open(volume, &options, &handle);
    return code == FAMSYNC_OK && famsync_close(handle) == FAMSYNC_OK;
}

int main(void)
{
    struct famsync_options tracked = {.size = sizeof tracked, .tracking = FAMSYNC_TRACK_KERNEL};
    alarm(500);
    make_folder();
    snprintf(other, sizeof other, "%s/other.img", folder);
    snprintf(copy, sizeof copy, "%s/copy.img", folder);
    WANT(sem_init(&halfway, 0, 0) == 0 && sem_init(&go, 0, 0) == 0);
    without_keys();
    transfers_between_commits(FIRST_LAYOUT, (struct famsync_options){0});
    transfers_between_commits(LAYOUTS, (struct famsync_options){.foreground = 1});
    if (can_track())
        transfers_between_commits(LAYOUTS, tracked);
    commit_waits();
    begin_during_syncs();
    rollback_waits();
    nobody_starves();
    refused();
    several_volumes();
    over_meanwhile();
    thread_ends();
    fork_within();
    printf("clients/c: groups: as it should be\n");
    return 0;
}
