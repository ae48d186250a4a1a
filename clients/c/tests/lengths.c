/* Lengths that are set: what a file has after it, in this session and the next one, and what is refused; also while
   plain memory of the file is open. */
#include "test.h"

#include <setjmp.h>
#include <stdatomic.h>

#define CAPACITY 40000

/* That of the volumes that are made. */
static unsigned layout;

static unsigned char bytes[CAPACITY], found[CAPACITY], none[CAPACITY];

static void grows(void)
{
    make_volume_of(layout, 12, "a=5000/40000 b=0/4096");
    famsync *handle = opened();
    WANT(famsync_frames(handle) == 11 && famsync_file_length(handle, 0) == 5000 && famsync_file_length(handle, 1) == 0);
    memset(bytes, 7, sizeof bytes);
    WANT_CODE(famsync_write(handle, 0, 0, bytes, 5000, NULL), FAMSYNC_OK);
    WANT_CODE(famsync_write(handle, 0, 8192, bytes, 1, NULL), FAMSYNC_EINVAL);
    WANT_CODE(famsync_msync(handle, NULL), FAMSYNC_OK);
    /* what it grows by is zeros, which can be stored to; nothing of it is durable yet */
    WANT_CODE(famsync_setlength(handle, "a", 20000), FAMSYNC_OK);
    WANT(famsync_file_length(handle, 0) == 20000);
    WANT_CODE(famsync_read(handle, 0, 0, found, 20000, NULL), FAMSYNC_OK);
    WANT(memcmp(found, bytes, 5000) == 0 && memcmp(found + 5000, none, 15000) == 0);
    WANT_CODE(famsync_write(handle, 0, 19999, bytes, 1, NULL), FAMSYNC_OK);
    WANT_CODE(famsync_close(handle), FAMSYNC_OK);
    handle = opened();
    WANT(famsync_file_length(handle, 0) == 5000);
    /* the page in which it ends isn't in memory yet, and is brought there */
    WANT_CODE(famsync_setlength(handle, "a", 20000), FAMSYNC_OK);
    WANT_CODE(famsync_write(handle, 0, 19999, bytes, 1, NULL), FAMSYNC_OK);
    WANT_CODE(famsync_setlength(handle, "a", 20000), FAMSYNC_OK);
    WANT_CODE(famsync_msync(handle, NULL), FAMSYNC_OK);
    WANT_CODE(famsync_close(handle), FAMSYNC_OK);
}

/* The next session finds it, and makes it shorter. */
static void shrinks(void)
{
    famsync *handle = opened();
    size_t done;
    WANT(famsync_file_length(handle, 0) == 20000);
    WANT_CODE(famsync_read(handle, 0, 0, found, 20000, NULL), FAMSYNC_OK);
    WANT(memcmp(found, bytes, 5000) == 0 && memcmp(found + 5000, none, 14999) == 0 && found[19999] == 7);
    /* what is cut off is gone, also where it grows again */
    WANT_CODE(famsync_setlength(handle, "a", 100), FAMSYNC_OK);
    WANT_CODE(famsync_read(handle, 0, 90, found, 20, &done), FAMSYNC_OK);
    WANT(done == 10);
    WANT_CODE(famsync_read(handle, 0, 100, found, 20, &done), FAMSYNC_OK);
    WANT(done == 0);
    WANT_CODE(famsync_setlength(handle, "a", CAPACITY), FAMSYNC_OK);
    WANT_CODE(famsync_read(handle, 0, 0, found, CAPACITY, NULL), FAMSYNC_OK);
    WANT(memcmp(found, bytes, 100) == 0 && memcmp(found + 100, none, CAPACITY - 100) == 0);
    WANT_CODE(famsync_msync(handle, NULL), FAMSYNC_OK);
    WANT_CODE(famsync_setlength(handle, "a", 0), FAMSYNC_OK);
    WANT_CODE(famsync_msync(handle, NULL), FAMSYNC_OK);
    WANT_CODE(famsync_close(handle), FAMSYNC_OK);
    handle = opened();
    WANT(famsync_file_length(handle, 0) == 0);
    WANT_CODE(famsync_close(handle), FAMSYNC_OK);
}

/* Plain memory of a file grows and shrinks in place, whether it is read in or mapped. */
static void plain_memory(int resident)
{
    famsync_memory *memory;
    make_volume_of(layout, 12, "a=5000/40000 b=0/4096");
    famsync *handle = opened_with(
        (struct famsync_options){.size = sizeof(struct famsync_options), .resident = resident});
    WANT_CODE(famsync_memory_open(handle, "b", &memory), FAMSYNC_ARGUMENT);
    WANT_CODE(famsync_memory_open(handle, "a", &memory), FAMSYNC_OK);
    unsigned char *at = famsync_memory_at(memory);
    at[4999] = 5;
    at[5000] = at[8191] = 7; /* past the end: memory that isn't kept */
    WANT_CODE(famsync_setlength(handle, "a", 20000), FAMSYNC_OK);
    WANT_CODE(famsync_setlength(handle, "b", 4096), FAMSYNC_OK);
    WANT(famsync_memory_at(memory) == at && famsync_memory_length(memory) == 20000);
    WANT(famsync_file_length(handle, 0) == 20000 && famsync_memory_dirty(memory) == 1);
    WANT(at[4999] == 5 && memcmp(at + 5000, none, 15000) == 0);
    at[19999] = 6;
    WANT_CODE(famsync_msync(handle, NULL), FAMSYNC_OK);
    /* what is cut off is gone, also where it grows again */
    WANT_CODE(famsync_setlength(handle, "a", 4990), FAMSYNC_OK);
    WANT(famsync_memory_length(memory) == 4990 && at[4989] == 0 && memcmp(at + 4990, none, 3202) == 0);
    WANT_CODE(famsync_setlength(handle, "a", 20000), FAMSYNC_OK);
    WANT(memcmp(at, none, 20000) == 0);
    WANT_CODE(famsync_setlength(handle, "a", 0), FAMSYNC_OK);
    WANT(famsync_memory_length(memory) == 0 && famsync_memory_dirty(memory) == 0);
    WANT_CODE(famsync_msync(handle, NULL), FAMSYNC_OK);
    WANT_CODE(famsync_setlength(handle, "a", 9000), FAMSYNC_OK);
    at[8999] = 8;
    WANT_CODE(famsync_msync(handle, NULL), FAMSYNC_OK);
    WANT_CODE(famsync_memory_close(memory), FAMSYNC_OK);
    WANT_CODE(famsync_close(handle), FAMSYNC_OK);
    handle = opened();
    WANT(famsync_file_length(handle, 0) == 9000 && famsync_file_length(handle, 1) == 4096);
    WANT_CODE(famsync_memory_open(handle, "a", &memory), FAMSYNC_OK);
    at = famsync_memory_at(memory);
    WANT(at[4999] == 0 && at[8998] == 0 && at[8999] == 8);
    WANT_CODE(famsync_memory_close(memory), FAMSYNC_OK);
    WANT_CODE(famsync_close(handle), FAMSYNC_OK);
}

/* A length that is refused changes nothing of plain memory. */
static void refused_with_memory(int resident)
{
    famsync_memory *memory;
    make_volume_of(layout, 6, "a=5000/40000 b=16384");
    famsync *handle = opened_with(
        (struct famsync_options){.size = sizeof(struct famsync_options), .resident = resident});
    WANT_CODE(famsync_memory_open(handle, "a", &memory), FAMSYNC_OK);
    unsigned char *at = famsync_memory_at(memory);
    at[4999] = 5;
    WANT_CODE(famsync_msync(handle, NULL), FAMSYNC_OK);
    WANT_CODE(famsync_setlength(handle, "a", CAPACITY), FAMSYNC_NOFRAME);
    WANT_CODE(famsync_setlength(handle, "a", CAPACITY + 1), FAMSYNC_EINVAL);
    WANT_CODE(famsync_setlength(handle, "a", 40960), FAMSYNC_EINVAL); /* the last page has more bytes */
    WANT_CODE(famsync_setlength(handle, "a", UINT64_MAX), FAMSYNC_EINVAL);
    WANT(famsync_memory_length(memory) == 5000 && famsync_memory_dirty(memory) == 0 && at[4999] == 5);
    WANT_CODE(famsync_setlength(handle, "a", 12000), FAMSYNC_OK);
    at[11999] = 6;
    WANT_CODE(famsync_msync(handle, NULL), FAMSYNC_OK);
    WANT(at[4999] == 5 && at[5000] == 0 && at[11999] == 6);
    WANT_CODE(famsync_memory_close(memory), FAMSYNC_OK);
    WANT_CODE(famsync_close(handle), FAMSYNC_OK);
}

/* With `fixed`, the length of open memory stays, whoever would change it; that of a file without memory may change. */
static void fixed_lengths(int resident)
{
    famsync_memory *memory;
    make_volume_of(layout, 12, "a=5000/40000 b=0/4096");
    famsync *handle = opened_with(
        (struct famsync_options){.size = sizeof(struct famsync_options), .resident = resident, .fixed = 1});
    WANT_CODE(famsync_setlength(handle, "a", 20000), FAMSYNC_OK);
    WANT_CODE(famsync_memory_open(handle, "a", &memory), FAMSYNC_OK);
    unsigned char *at = famsync_memory_at(memory);
    at[19999] = 6;
    WANT_CODE(famsync_setlength(handle, "b", 4096), FAMSYNC_OK);
    WANT_CODE(famsync_setlength(handle, "a", 100), FAMSYNC_OVERLAP);
    WANT_CODE(famsync_rollback(handle), FAMSYNC_OVERLAP);
    WANT(famsync_memory_length(memory) == 20000 && at[19999] == 6 && famsync_file_length(handle, 1) == 4096);
    WANT_CODE(famsync_msync(handle, NULL), FAMSYNC_OK);
    at[19999] = 7;
    WANT_CODE(famsync_setlength(handle, "b", 1), FAMSYNC_OK);
    WANT_CODE(famsync_rollback(handle), FAMSYNC_OK);
    WANT(famsync_memory_length(memory) == 20000 && at[19999] == 6 && famsync_file_length(handle, 1) == 4096);
    WANT_CODE(famsync_memory_close(memory), FAMSYNC_OK);
    WANT_CODE(famsync_setlength(handle, "a", 100), FAMSYNC_OK);
    WANT_CODE(famsync_rollback(handle), FAMSYNC_OK);
    WANT(famsync_file_length(handle, 0) == 20000);
    WANT_CODE(famsync_close(handle), FAMSYNC_OK);
}

static sigjmp_buf back;
static volatile unsigned char loaded; /* a load whose byte nobody uses may be left out */

static void jump_back(int number)
{
    (void)number;
    siglongjmp(back, 1);
}

/* Whether a byte can be stored to, or loaded. */
static bool reaches(volatile unsigned char *at, bool stores)
{
    if (sigsetjmp(back, 1) != 0)
        return false;
    if (stores)
        *at = 1;
    else
        loaded = *at;
    return true;
}

/* Nobody may use pages past the end, whichever that is. */
static void past_the_end(int resident)
{
    int status;
    pid_t child = fork();
    if (child == 0) {
        struct sigaction action = {.sa_handler = jump_back};
        famsync_memory *memory;
        alarm(60);
        WANT(sigaction(SIGSEGV, &action, NULL) == 0);
        make_volume_of(layout, 12, "a=5000/40000");
        famsync *handle = opened_with(
            (struct famsync_options){.size = sizeof(struct famsync_options), .foreground = 1, .resident = resident});
        WANT_CODE(famsync_memory_open(handle, "a", &memory), FAMSYNC_OK);
        unsigned char *at = famsync_memory_at(memory);
        for (unsigned round = 0; round < 3; round++) {
            WANT(reaches(at + 8191, true) && !reaches(at + 8192, false) && !reaches(at + 8192, true));
            WANT_CODE(famsync_setlength(handle, "a", 40000), FAMSYNC_OK);
            WANT(reaches(at + 8192, false) && reaches(at + 39999, true) && !reaches(at + 40960, true));
            WANT_CODE(famsync_msync(handle, NULL), FAMSYNC_OK);
            WANT_CODE(famsync_setlength(handle, "a", 5000), FAMSYNC_OK);
        }
        WANT(!reaches(at - 1, true));
        raise(SIGKILL); /* so that valgrind, which has its own word on these stores, doesn't say how it ends */
    }
    WANT(waitpid(child, &status, 0) == child && WIFSIGNALED(status) && WTERMSIG(status) == SIGKILL);
}

static void refusals(void)
{
    make_volume_of(layout, 6, "a=5000/40000 b=16384");
    famsync *handle = opened();
    WANT_CODE(famsync_setlength(handle, "a", CAPACITY + 1), FAMSYNC_EINVAL);
    WANT_CODE(famsync_setlength(handle, "a", UINT64_MAX), FAMSYNC_EINVAL);
    WANT_CODE(famsync_setlength(handle, "c", 1), FAMSYNC_NOFILE);
    WANT_CODE(famsync_setlength(handle, NULL, 1), FAMSYNC_ARGUMENT);
    WANT_CODE(famsync_setlength(NULL, "a", 1), FAMSYNC_ARGUMENT);
    /* more pages than one commit can have: it grows in parts */
    WANT_CODE(famsync_setlength(handle, "a", CAPACITY), FAMSYNC_NOFRAME);
    WANT(famsync_file_length(handle, 0) == 5000 && famsync_frames(handle) == 5);
    WANT_CODE(famsync_setlength(handle, "a", 20000), FAMSYNC_OK);
    WANT_CODE(famsync_msync(handle, NULL), FAMSYNC_OK);
    WANT_CODE(famsync_setlength(handle, "a", 32000), FAMSYNC_OK);
    WANT_CODE(famsync_msync(handle, NULL), FAMSYNC_OK);
    WANT_CODE(famsync_setlength(handle, "a", CAPACITY), FAMSYNC_OK);
    WANT_CODE(famsync_msync(handle, NULL), FAMSYNC_OK);
    /* pages that were read leave room for those that a file grows by, and those that were written don't */
    WANT_CODE(famsync_setlength(handle, "a", 4096), FAMSYNC_OK);
    WANT_CODE(famsync_msync(handle, NULL), FAMSYNC_OK);
    WANT_CODE(famsync_read(handle, 1, 0, bytes, 16384, NULL), FAMSYNC_OK);
    WANT_CODE(famsync_setlength(handle, "a", 16384), FAMSYNC_OK);
    WANT_CODE(famsync_msync(handle, NULL), FAMSYNC_OK);
    WANT_CODE(famsync_setlength(handle, "a", 4096), FAMSYNC_OK);
    WANT_CODE(famsync_msync(handle, NULL), FAMSYNC_OK);
    WANT_CODE(famsync_write(handle, 1, 0, bytes, 16384, NULL), FAMSYNC_OK);
    WANT_CODE(famsync_setlength(handle, "a", 16384), FAMSYNC_NOFRAME);
    WANT_CODE(famsync_msync(handle, NULL), FAMSYNC_OK);
    WANT_CODE(famsync_setlength(handle, "a", 16384), FAMSYNC_OK);
    WANT_CODE(famsync_close(handle), FAMSYNC_OK);
}

static void *stores(void *argument)
{
    famsync *handle = argument;
    for (unsigned round = 0; round < 50; round++) {
        unsigned char byte = (unsigned char)round;
        WANT_CODE(famsync_write(handle, 0, 0, &byte, 1, NULL), FAMSYNC_OK);
        WANT_CODE(famsync_msync(handle, NULL), FAMSYNC_OK);
        WANT(famsync_file_length(handle, 0) >= 4096);
    }
    return NULL;
}

/* One thread sets lengths, and others store and commit meanwhile. */
static void threads(void)
{
    pthread_t thread[2];
    make_volume_of(layout, 12, "a=4096/40000");
    famsync *handle = opened();
    for (unsigned i = 0; i < 2; i++)
        WANT(pthread_create(&thread[i], NULL, stores, handle) == 0);
    for (unsigned round = 0; round < 50; round++)
        WANT_CODE(famsync_setlength(handle, "a", round % 2 == 0 ? 20000 : 4096), FAMSYNC_OK);
    for (unsigned i = 0; i < 2; i++)
        WANT(pthread_join(thread[i], NULL) == 0);
    WANT(famsync_file_length(handle, 0) == 4096);
    WANT_CODE(famsync_close(handle), FAMSYNC_OK);
}

static unsigned char *plain;
static atomic_bool stopped;

/* Stores to the pages that the file always has. */
static void *stores_plain(void *argument)
{
    volatile unsigned char *own = plain + 4096 * (uintptr_t)argument;
    uint32_t number = 0;
    for (; !atomic_load(&stopped); number++)
        own[number % 4096] = (unsigned char)(number / 4096);
    return (void *)(uintptr_t)number;
}

/* Of threads that store while the file grows and shrinks no store is lost. */
static void threads_with_memory(int resident)
{
    pthread_t thread[2];
    famsync_memory *memory;
    uint64_t length = 20000;
    make_volume_of(layout, 12, "a=20000/40000");
    famsync *handle = opened_with(
        (struct famsync_options){.size = sizeof(struct famsync_options), .resident = resident, .budget = 1});
    WANT_CODE(famsync_memory_open(handle, "a", &memory), FAMSYNC_OK);
    plain = famsync_memory_at(memory);
    atomic_store(&stopped, false);
    for (uintptr_t i = 0; i < 2; i++)
        WANT(pthread_create(&thread[i], NULL, stores_plain, (void *)i) == 0);
    for (unsigned round = 0; round < 200; round++) {
        length = round % 3 == 0 ? 40000 : round % 3 == 1 ? 8192 : 8193;
        WANT_CODE(famsync_setlength(handle, "a", length), FAMSYNC_OK);
        if (length == 40000) {
            WANT(memcmp(plain + 20000, none, 20000) == 0);
            plain[39999] = plain[30000] = 1;
        }
        WANT_CODE(famsync_msync(handle, NULL), FAMSYNC_OK);
    }
    atomic_store(&stopped, true);
    for (unsigned i = 0; i < 2; i++) {
        void *made;
        WANT(pthread_join(thread[i], &made) == 0);
        for (uintptr_t number = (uintptr_t)made < 4096 ? 0 : (uintptr_t)made - 4096; number < (uintptr_t)made; number++)
            WANT(plain[4096 * i + number % 4096] == (unsigned char)(number / 4096));
    }
    memcpy(bytes, plain, length);
    WANT_CODE(famsync_msync(handle, NULL), FAMSYNC_OK);
    WANT_CODE(famsync_memory_close(memory), FAMSYNC_OK);
    WANT_CODE(famsync_close(handle), FAMSYNC_OK);
    handle = opened();
    WANT(famsync_file_length(handle, 0) == length);
    WANT_CODE(famsync_read(handle, 0, 0, found, length, NULL), FAMSYNC_OK);
    WANT(memcmp(found, bytes, length) == 0);
    WANT_CODE(famsync_close(handle), FAMSYNC_OK);
}

static void forked(void)
{
    int status;
    make_volume_of(layout, 12, "a=5000/40000");
    famsync *handle = opened();
    pid_t child = fork();
    if (child == 0)
        _exit(famsync_setlength(handle, "a", 1) == FAMSYNC_FORKED ? 0 : 1);
    WANT(waitpid(child, &status, 0) == child && status == 0);
    WANT(famsync_file_length(handle, 0) == 5000);
    WANT_CODE(famsync_close(handle), FAMSYNC_OK);
}

int main(void)
{
    for (layout = FIRST_LAYOUT; layout <= LAYOUTS; layout++) {
        grows();
        shrinks();
        refusals();
        threads();
        for (int resident = 0; resident < 2; resident++) {
            plain_memory(resident);
            refused_with_memory(resident);
            fixed_lengths(resident);
            past_the_end(resident);
            threads_with_memory(resident);
        }
        forked();
    }
    printf("clients/c: lengths: as it should be\n");
    return 0;
}
