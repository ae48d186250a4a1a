/* Threads store to some plain memory while other memory is opened and closed, of the same volume and of another one: no
   store is lost or ends the process. A store to memory that was closed is the program's own fault. */
#include "test.h"

#include <setjmp.h>
#include <stdatomic.h>
#include <sys/mman.h>

#define WORKERS 3u
#define PAGES 16u

static struct famsync_options options;
static unsigned char *shared;
static atomic_bool stopped;

static famsync_memory *memory_of(famsync *handle, const char *file)
{
    famsync_memory *memory;
    WANT_CODE(famsync_memory_open(handle, file, &memory), FAMSYNC_OK);
    return memory;
}

/* Counts in pages of its own, one after the other. */
static void *count_up(void *argument)
{
    unsigned worker = (unsigned)(uintptr_t)argument;
    uint64_t number = 0;
    for (; !atomic_load(&stopped); number++)
        *(volatile uint64_t *)(void *)(shared + ((number % PAGES) * WORKERS + worker) * 4096) = number;
    return (void *)(uintptr_t)number;
}

/* The last numbers of a worker are there, and nothing else. */
static void judge(const unsigned char *at, unsigned worker, uint64_t end)
{
    for (uint64_t page = 0; page < PAGES; page++) {
        uint64_t found, last = end > page ? (end - 1 - page) / PAGES * PAGES + page : 0;
        memcpy(&found, at + (page * WORKERS + worker) * 4096, sizeof found);
        WANT(found == last);
    }
}

/* Opens, stores to, commits and closes other memory. */
static void others(famsync *first, famsync *second)
{
    for (unsigned round = 0; round < 60; round++) {
        famsync *handle = round % 2 == 0 ? first : second;
        famsync_memory *memory = memory_of(handle, "b");
        unsigned char *at = famsync_memory_at(memory);
        at[round] = at[4096 + round] = (unsigned char)round;
        if (round % 3 > 0)
            WANT_CODE(famsync_msync(handle, NULL), FAMSYNC_OK);
        WANT_CODE(famsync_memory_close(memory), FAMSYNC_OK);
        memory = memory_of(handle, "b");
        at = famsync_memory_at(memory);
        WANT(at[round] == (round % 3 > 0 ? round : 0) && at[4096 + round] == at[round]);
        WANT_CODE(famsync_memory_close(memory), FAMSYNC_OK);
    }
}

static void close_all(famsync *handle, famsync_memory *memory)
{
    WANT_CODE(famsync_memory_close(memory), FAMSYNC_OK);
    WANT_CODE(famsync_close(handle), FAMSYNC_OK);
}

static void while_others_store(void)
{
    char other[100];
    pthread_t thread[WORKERS];
    famsync *second;
    void *ends[WORKERS];
    make_volume_of(FIRST_LAYOUT, 200, "a=196608 b=8192");
    snprintf(other, sizeof other, "%s/other.img", folder);
    WANT(rename(volume, other) == 0);
    make_volume_of(FIRST_LAYOUT, 200, "a=196608 b=8192");
    famsync *first = opened_with(options);
    WANT_CODE(famsync_open(other, &options, &second), FAMSYNC_OK);
    famsync_memory *memory = memory_of(first, "a");
    shared = famsync_memory_at(memory);
    atomic_store(&stopped, false);
    for (uintptr_t i = 0; i < WORKERS; i++)
        WANT(pthread_create(&thread[i], NULL, count_up, (void *)i) == 0);
    others(first, second);
    atomic_store(&stopped, true);
    for (unsigned i = 0; i < WORKERS; i++)
        WANT(pthread_join(thread[i], &ends[i]) == 0);
    WANT_CODE(famsync_msync(first, NULL), FAMSYNC_OK);
    close_all(first, memory);
    WANT_CODE(famsync_close(second), FAMSYNC_OK);
    first = opened();
    memory = memory_of(first, "a");
    for (unsigned i = 0; i < WORKERS; i++)
        judge(famsync_memory_at(memory), i, (uintptr_t)ends[i]);
    close_all(first, memory);
}

static sigjmp_buf back;
static volatile sig_atomic_t faults;

static void jump_back(int number)
{
    (void)number;
    faults = faults + 1;
    siglongjmp(back, 1);
}

/* Where it was is other memory of the program then, which can't be stored to: the library isn't asked. */
static void after_the_close(void)
{
    int status;
    make_volume_of(FIRST_LAYOUT, 20, "a=65536 b=8192");
    pid_t child = fork();
    if (child == 0) {
        struct sigaction action = {.sa_handler = jump_back};
        alarm(60);
        WANT(sigaction(SIGSEGV, &action, NULL) == 0);
        famsync *handle = opened_with(options);
        famsync_memory *memory = memory_of(handle, "a"), *other = memory_of(handle, "b");
        unsigned char *volatile at = famsync_memory_at(memory);
        at[0] = 1;
        WANT_CODE(famsync_memory_close(memory), FAMSYNC_OK);
        WANT(mmap(at, 65536, PROT_READ, MAP_PRIVATE | MAP_ANONYMOUS | MAP_FIXED_NOREPLACE, -1, 0) == at);
        for (volatile size_t page = 0; page < 16; page++)
            if (sigsetjmp(back, 1) == 0)
                at[page * 4096] = 2;
        WANT(faults == 16 && at[0] == 0);
        ((unsigned char *)famsync_memory_at(other))[0] = 3;
        WANT(faults == 16);
        WANT_CODE(famsync_msync(handle, NULL), FAMSYNC_OK);
        memory = memory_of(handle, "a");
        WANT(((unsigned char *)famsync_memory_at(memory))[0] == 0);
        raise(SIGKILL); /* so that nothing that watches says how it ends */
    }
    WANT(waitpid(child, &status, 0) == child && WIFSIGNALED(status) && WTERMSIG(status) == SIGKILL);
}

int main(void)
{
    for (int way = 0; way < 3; way++) {
        options = (struct famsync_options){
            .size = sizeof options, .resident = way == 1, .foreground = way == 2, .budget = way == 2 ? 1 : 0};
        while_others_store();
        after_the_close();
    }
    printf("clients/c: closing: as it should be\n");
    return 0;
}
