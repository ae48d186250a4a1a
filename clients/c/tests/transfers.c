/*
 * A bank whose threads transfer money in groups while another thread commits, until it is killed.
 *
 *   transfers VOLUME run LAYOUT     makes the volume if it is missing. After each commit it prints a number of
 * transfers that had ended before the commit began transfers VOLUME check          prints the sum of all accounts and
 * the number of transfers. It fails if the volume has a part of a transfer
 *
 * A transfer changes two accounts, and counts: in plain memory, and by famsync_write in another file.
 */
#include "test.h"

#include <inttypes.h>
#include <stdatomic.h>

#define THREADS 2u
#define WORDS 4096u
#define BANK (8u * WORDS)

static famsync *handle;
static int64_t *words; /* the count of each thread, then the accounts */
static pthread_mutex_t bank = PTHREAD_MUTEX_INITIALIZER;
static _Atomic uint64_t transfers;

static int64_t *account(uint64_t number)
{
    return &words[THREADS + number % (WORDS - THREADS)];
}

static void *transfer(void *argument)
{
    unsigned thread = (unsigned)(uintptr_t)argument;
    for (uint64_t i = thread;; i++) {
        WANT_CODE(famsync_begin(handle), FAMSYNC_OK);
        pthread_mutex_lock(&bank);
        *account(i * 513) -= 7;
        *account(i * 517 + 9) += 7;
        pthread_mutex_unlock(&bank);
        words[thread]++;
        WANT_CODE(famsync_write(handle, 1, 8 * thread, &words[thread], 8, NULL), FAMSYNC_OK);
        WANT_CODE(famsync_end(handle), FAMSYNC_OK);
        atomic_fetch_add(&transfers, 1);
    }
    return NULL;
}

static void run(void)
{
    pthread_t thread;
    for (unsigned i = 0; i < THREADS; i++)
        atomic_fetch_add(&transfers, (uint64_t)words[i]);
    for (uintptr_t i = 0; i < THREADS; i++)
        WANT(pthread_create(&thread, NULL, transfer, (void *)i) == 0);
    for (;;) {
        uint64_t ended = atomic_load(&transfers);
        WANT_CODE(famsync_msync(handle, NULL), FAMSYNC_OK);
        printf("%" PRIu64 "\n", ended);
        fflush(stdout);
    }
}

static void check(void)
{
    int64_t sum = 0, counts[THREADS];
    for (unsigned i = THREADS; i < WORDS; i++)
        sum += words[i];
    WANT_CODE(famsync_read(handle, 1, 0, counts, sizeof counts, NULL), FAMSYNC_OK);
    WANT(sum == 0 && memcmp(counts, words, sizeof counts) == 0);
    printf("%" PRId64 " %" PRId64 "\n", sum, words[0] + words[1]);
}

int main(int count, char **given)
{
    struct famsync_new_file files[] = {{"bank", BANK, 0}, {"counts", 4096, 0}};
    struct famsync_plan plan = {.size = sizeof plan, .files = 2, .file = files};
    famsync_memory *memory;
    WANT(count == 3 || count == 4);
    snprintf(volume, sizeof volume, "%s", given[1]);
    plan.layout = count == 4 ? (unsigned)atoi(given[3]) : 0;
    if (count == 4 && access(volume, F_OK) != 0)
        WANT_CODE(famsync_format(volume, &plan), FAMSYNC_OK);
    handle = opened();
    WANT_CODE(famsync_memory_open(handle, "bank", &memory), FAMSYNC_OK);
    words = famsync_memory_at(memory);
    if (count == 4)
        run();
    check();
    WANT_CODE(famsync_memory_close(memory), FAMSYNC_OK);
    WANT_CODE(famsync_close(handle), FAMSYNC_OK);
    return 0;
}
