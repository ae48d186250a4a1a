/* Several threads store to plain memory while others commit: each commit has what was stored up to one moment. Handlers
   of signals store meanwhile, too; but none comes where the environment has WITHOUT_SIGNALS. So it is under the
   sanitizer of threads, which keeps a signal until its thread makes a call of the system, and under valgrind, which
   runs a thread at a time: both change when handlers run, and may never run one. */
#include "test.h"

#include <stdatomic.h>
#include <stdlib.h>
#include <sys/time.h>

#define SLOTS 24
#define WORKERS 3
#define STEPS 6
#define COMMITS 25u
#define SIGNALS 10u /* the most that come between two commits */

static famsync *handle;
static unsigned char *at;
static atomic_bool stopped, quiet;
static atomic_uint commits, alarms, interrupts;

/* Counts in one page after the other, the last one first and then back: at each moment the counts fall by at most one
   from a page that is counted earlier to one that is counted later. */
static volatile uint64_t *count_of(unsigned worker, unsigned step)
{
    return (volatile uint64_t *)(at + ((size_t)(step * 5 % STEPS) * WORKERS + worker) * 4096 + 8 * worker);
}

static void *work(void *argument)
{
    unsigned worker = (unsigned)(uintptr_t)argument;
    for (uint64_t round = 1; !atomic_load(&stopped); round++)
        for (unsigned step = 0; step < STEPS; step++)
            *count_of(worker, step) = round;
    return NULL;
}

/* Of the file whose memory isn't open. */
static void *others_read(void *argument)
{
    unsigned char bytes[5000];
    (void)argument;
    while (!atomic_load(&stopped)) {
        WANT_CODE(famsync_read(handle, 1, 4000, bytes, sizeof bytes, NULL), FAMSYNC_OK);
        usleep(5000);
    }
    return NULL;
}

#define SIGNALS_AT ((size_t)WORKERS * STEPS * 4096)

/* A signal handler that stores, too: it may come while pages are closed. */
static void on_signal(int number)
{
    atomic_fetch_add((atomic_uint *)(void *)(at + SIGNALS_AT), 1);
    atomic_fetch_add(number == SIGALRM ? &alarms : &interrupts, 1);
}

/* The thread that commits, the workers, and the one that reads; and the one that interrupts these. */
struct threads {
    pthread_t thread[WORKERS + 2], interrupter;
};

static bool has_signals(void)
{
    return getenv("WITHOUT_SIGNALS") == NULL;
}

/* Interrupts the others in turn, at any moment; but never before the signal before was handled, and only some times a
   commit. So signals don't pile up, and all others go on, however slow the machine is. */
static void *interrupt(void *argument)
{
    const struct threads *threads = argument;
    unsigned sent = 0, seed = 1;
    while (!atomic_load(&quiet) || atomic_load(&interrupts) < sent) {
        if (atomic_load(&interrupts) == sent && sent < SIGNALS * (atomic_load(&commits) + 1) && !atomic_load(&quiet))
            WANT(pthread_kill(threads->thread[sent++ % (WORKERS + 2)], SIGUSR1) == 0);
        usleep((useconds_t)(rand_r(&seed) % 500));
    }
    return NULL;
}

/* One signal comes soon, as the pages are closed and copied or a little later. */
static void alarm_soon(void)
{
    static unsigned seed = 1;
    struct itimerval once = {.it_value = {0, 1 + rand_r(&seed) % 300}};
    WANT(setitimer(ITIMER_REAL, &once, NULL) == 0);
}

/* What was committed is of one moment: answers how many workers were within a round then. */
static unsigned judge(const unsigned char *committed)
{
    unsigned between = 0;
    for (unsigned worker = 0; worker < WORKERS; worker++) {
        uint64_t first = 0, last = 0, count;
        for (unsigned step = 0; step < STEPS; step++) {
            size_t place = (size_t)((unsigned char *)(uintptr_t)count_of(worker, step) - at);
            memcpy(&count, committed + place, sizeof count);
            if (step == 0)
                first = last = count;
            WANT(count <= last && count + 1 >= first);
            last = count;
        }
        between += last != first;
    }
    return between;
}

/* What a backup has is what was committed, whatever is stored meanwhile. */
static void commit(unsigned char *committed, size_t count)
{
    char path[100];
    snprintf(path, sizeof path, "%s/backup.img", folder);
    int file = open(path, O_RDWR | O_CREAT | O_CLOEXEC, 0600);
    WANT_CODE(famsync_msync(handle, NULL), FAMSYNC_OK);
    WANT_CODE(famsync_backup(handle, file), FAMSYNC_OK);
    WANT(pread(file, committed, count, (off_t)(first_home(SLOTS + 1) + 1) * 4096) == (ssize_t)count &&
         close(file) == 0);
}

static void begin(struct threads *threads)
{
    struct sigaction action = {.sa_handler = on_signal, .sa_flags = SA_RESTART};
    sigemptyset(&action.sa_mask);
    WANT(sigaction(SIGALRM, &action, NULL) == 0 && sigaction(SIGUSR1, &action, NULL) == 0);
    threads->thread[0] = pthread_self();
    for (uintptr_t i = 0; i < WORKERS; i++)
        WANT(pthread_create(&threads->thread[1 + i], NULL, work, (void *)i) == 0);
    WANT(pthread_create(&threads->thread[1 + WORKERS], NULL, others_read, NULL) == 0);
    if (has_signals())
        WANT(pthread_create(&threads->interrupter, NULL, interrupt, threads) == 0);
}

static void await_signals(unsigned commit)
{
    while (atomic_load(&alarms) < commit || atomic_load(&interrupts) < commit)
        usleep(100);
}

/* Signals of both kinds come with each commit, where there are any. */
static unsigned commit_all(unsigned char *committed, size_t count)
{
    unsigned between = 0;
    for (unsigned number = 1; number <= COMMITS; number++) {
        usleep(1000); /* so that the others store, too, where there are few processors */
        if (has_signals())
            alarm_soon();
        commit(committed, count);
        between += judge(committed);
        if (has_signals())
            await_signals(number);
        atomic_fetch_add(&commits, 1);
    }
    return between;
}

static void end(const struct threads *threads)
{
    atomic_store(&quiet, true);
    if (has_signals())
        pthread_join(threads->interrupter, NULL);
    atomic_store(&stopped, true);
    for (unsigned i = 1; i < WORKERS + 2; i++)
        pthread_join(threads->thread[i], NULL);
}

int main(void)
{
    static unsigned char committed[SIGNALS_AT + 4096];
    struct threads threads;
    famsync_memory *memory;
    unsigned between, counted;
    make_volume(SLOTS, "a=77824 b=20000");
    handle = opened();
    WANT_CODE(famsync_memory_open(handle, "a", &memory), FAMSYNC_OK);
    at = famsync_memory_at(memory);
    begin(&threads);
    between = commit_all(committed, sizeof committed);
    end(&threads);
    commit(committed, sizeof committed);
    memcpy(&counted, committed + SIGNALS_AT, sizeof counted);
    WANT(counted == alarms + interrupts);
    WANT(has_signals() ? alarms == COMMITS && interrupts >= COMMITS : counted == 0);
    WANT(famsync_acknowledged(handle) == COMMITS + 1);
    WANT_CODE(famsync_memory_close(memory), FAMSYNC_OK);
    WANT_CODE(famsync_close(handle), FAMSYNC_OK);
    printf("clients/c: threads: as it should be (%u of %u cuts fell within a round, %u signals)\n", between,
           COMMITS * WORKERS, counted);
    return 0;
}
