/* Memory is refused: each request of each call in turn, for memory and for a mapping; and the system allows no further
   mapping. Whichever call lacks it answers so, and can be made again. Nothing that was committed is lost. */
#include "test.h"

#include <dlfcn.h>
#include <stdatomic.h>
#include <sys/mman.h>

#define LENGTH 65536u

/* Which request is refused, counted from 1; 0: none. */
static atomic_long refused, requests;

BEFORE_SANITIZERS static bool refuses(void)
{
    if (refused == 0 || atomic_fetch_add(&requests, 1) + 1 != refused)
        return false;
    errno = ENOMEM;
    return true;
}

BEFORE_SANITIZERS void *mmap(void *at, size_t length, int protection, int flags, int file, off_t offset)
{
    return refuses() ? MAP_FAILED : other_mmap(at, length, protection, flags, file, offset);
}

#if defined(__GLIBC__) && !defined(__SANITIZE_ADDRESS__) && !defined(__SANITIZE_THREAD__) && !defined(__clang__)
extern void *__libc_malloc(size_t size);
extern void *__libc_calloc(size_t count, size_t size);
extern void *__libc_realloc(void *block, size_t size);

void *malloc(size_t size)
{
    return refuses() ? NULL : __libc_malloc(size);
}

void *calloc(size_t count, size_t size)
{
    return refuses() ? NULL : __libc_calloc(count, size);
}

void *realloc(void *block, size_t size)
{
    return refuses() ? NULL : __libc_realloc(block, size);
}
#endif

/* No power is cut here. */
int fdatasync(int file)
{
    (void)file;
    return 0;
}

int fsync(int file)
{
    (void)file;
    return 0;
}

static struct famsync_options options;
static famsync *handle;
static famsync_memory *memory;
static int copy;
static unsigned char *at;
static bool is_over; /* the session is */

/* What a call is answered that lacks memory. */
static bool lacks_memory(int code)
{
    return code == FAMSYNC_NOMEMORY || ((code == FAMSYNC_SYSTEM || code == FAMSYNC_DEVICE) && errno == ENOMEM);
}

static int open_session(void)
{
    return famsync_open(volume, &options, &handle);
}

static int open_memory(void)
{
    return famsync_memory_open(handle, "a", &memory);
}

static int open_memory_again(void)
{
    return famsync_memory_open_at(handle, "a", at, &memory);
}

static int touch(void)
{
    return famsync_memory_touch(memory, 20000, 9000);
}

static int commit(void)
{
    return famsync_msync(handle, NULL);
}

static int roll_back(void)
{
    return famsync_rollback(handle);
}

static int grow(void)
{
    return famsync_setlength(handle, "b", 9000);
}

static int write_other(void)
{
    return famsync_write(handle, 1, 8000, "other", 5, NULL);
}

static int read_other(void)
{
    char found[5] = "";
    int code = famsync_read(handle, 1, 8000, found, 5, NULL);
    WANT(code != FAMSYNC_OK || memcmp(found, "other", 5) == 0);
    return code;
}

static int back_up(void)
{
    return famsync_backup(handle, copy);
}

/* Makes a call, and once more if it lacked memory. If one mapping alone is refused, and others aren't, that may be for
   its address. */
static bool made(int (*call)(void))
{
    int code = is_over ? FAMSYNC_BROKEN : call();
    if (code == FAMSYNC_OK)
        return true;
    if (!is_over && !lacks_memory(code) && !(call == open_memory_again && code == FAMSYNC_ADDRESS))
        WANT_CODE(code, FAMSYNC_NOMEMORY);
    WANT(is_over || strlen(famsync_error(call == open_session ? NULL : handle)) > 0);
    if (code == FAMSYNC_DEVICE)
        is_over = call() == FAMSYNC_BROKEN;
    else if (!is_over)
        WANT_CODE(call(), FAMSYNC_OK);
    return !is_over;
}

static void close_memory(void)
{
    WANT_CODE(famsync_memory_close(memory), FAMSYNC_OK);
}

/* All calls; answers how many commits were acknowledged. */
static unsigned make_calls(void)
{
    unsigned commits = 0;
    is_over = false;
    made(open_session);
    made(open_memory);
    at = famsync_memory_at(memory);
    WANT(at[0] == 0 && at[LENGTH - 1] == 0);
    made(touch);
    at[0] = at[20000] = at[LENGTH - 1] = 1;
    commits += made(commit);
    at[0] = at[40000] = 99;
    if (made(roll_back))
        WANT(at[0] == 1 && at[40000] == 0);
    else
        at[0] = 1, at[40000] = 0;
    made(grow);
    if (made(write_other))
        made(read_other);
    at[0] = 2;
    commits += made(commit);
    made(back_up);
    close_memory();
    if (!is_over && made(open_memory_again)) {
        at[4096] = 3;
        commits += made(commit);
        close_memory();
    }
    int code = famsync_close(handle);
    WANT(code == FAMSYNC_OK || (is_over && code == FAMSYNC_DEVICE) || lacks_memory(code));
    return commits;
}

static void judge(unsigned commits)
{
    unsigned char byte[4];
    refused = 0;
    struct famsync_options trusting = {.trust = 1};
    handle = opened_with(trusting);
    WANT_CODE(famsync_read(handle, 0, 0, &byte[0], 1, NULL), FAMSYNC_OK);
    WANT_CODE(famsync_read(handle, 0, 4096, &byte[1], 1, NULL), FAMSYNC_OK);
    WANT_CODE(famsync_read(handle, 0, 20000, &byte[2], 1, NULL), FAMSYNC_OK);
    WANT_CODE(famsync_read(handle, 0, 40000, &byte[3], 1, NULL), FAMSYNC_OK);
    unsigned found = byte[1] == 3 ? 3 : byte[0];
    WANT(byte[0] == (found < 2 ? found : 2) && byte[2] == (found > 0) && byte[3] == 0);
    WANT(found == commits || (is_over && found == commits + 1));
    WANT(famsync_file_length(handle, 1) == (found < 2 ? 0 : 9000));
    WANT_CODE(famsync_close(handle), FAMSYNC_OK);
}

/* Each request in turn, until none is refused any more. */
static void each_request(void)
{
    char path[100];
    long number = 0;
    do {
        make_volume_of(FIRST_LAYOUT, 20, "a=65536 b=0/20000");
        snprintf(path, sizeof path, "%s/copy.img", folder);
        copy = open(path, O_RDWR | O_CREAT | O_CLOEXEC, 0600);
        requests = 0;
        refused = ++number;
        judge(make_calls());
        WANT(close(copy) == 0);
    } while (requests >= number);
    printf("clients/c: no_memory: %ld requests\n", number - 1);
    fflush(stdout);
}

/* Takes all mappings that the process may have. */
static unsigned char *take_mappings(size_t pages)
{
    unsigned char *taken = mmap(NULL, pages * 4096, PROT_NONE, MAP_PRIVATE | MAP_ANONYMOUS | MAP_NORESERVE, -1, 0);
    size_t page = 1;
    WANT(taken != MAP_FAILED);
    while (mprotect(taken + page * 4096, 4096, PROT_READ) == 0)
        WANT((page += 2) < pages);
    WANT(errno == ENOMEM);
    return taken;
}

static void store_apart(unsigned char round)
{
    for (unsigned page = 0; page < 16; page += 2)
        at[page * 4096 + round] = round;
}

/* Stores, commits and rolls back; answers whether that was done. Memory that was read in can't be rolled back without a
   mapping, and the session commits no more then. */
static bool made_round(unsigned char round)
{
    store_apart(round);
    WANT_CODE(commit(), FAMSYNC_OK);
    at[round] = at[4096] = at[12288] = 99;
    int code = roll_back();
    if (code == FAMSYNC_OK) {
        WANT(at[round] == round && at[4096] == 0 && at[12288] == 0);
        return true;
    }
    WANT(options.resident && lacks_memory(code));
    WANT_CODE(commit(), FAMSYNC_TORN);
    return false;
}

/* All calls of a session whose memory is open are made without a further mapping, and none loses a store. */
static void no_mapping(void)
{
    const size_t pages = 1000000;
    famsync_memory *other;
    unsigned char rounds = 0;
    make_volume_of(FIRST_LAYOUT, 40, "a=65536 b=0/20000 c=4096");
    WANT_CODE(open_session(), FAMSYNC_OK);
    WANT_CODE(open_memory(), FAMSYNC_OK);
    at = famsync_memory_at(memory);
    unsigned char *taken = take_mappings(pages);
    WANT(lacks_memory(famsync_memory_open(handle, "c", &other)) && other == NULL);
    WANT_CODE(grow(), FAMSYNC_OK);
    while (rounds < 3 && made_round(++rounds))
        continue;
    WANT(munmap(taken, pages * 4096) == 0);
    WANT_CODE(famsync_memory_open(handle, "c", &other), FAMSYNC_OK);
    WANT_CODE(famsync_memory_close(other), FAMSYNC_OK);
    close_memory();
    WANT_CODE(famsync_close(handle), FAMSYNC_OK);
    handle = opened();
    WANT(famsync_file_length(handle, 1) == 9000);
    WANT_CODE(open_memory(), FAMSYNC_OK);
    at = famsync_memory_at(memory);
    for (unsigned page = 0; page < 16; page++)
        for (unsigned char round = 1; round < 4; round++)
            WANT(at[page * 4096 + round] == (page % 2 == 0 && round <= rounds ? round : 0));
    close_memory();
    WANT_CODE(famsync_close(handle), FAMSYNC_OK);
}

static int (*touch_loaded)(famsync_memory *memory, size_t offset, size_t count);
static const char *(*error_loaded)(const famsync *handle);

/* A thread's first failed call requests no memory, not even for the thread's text. */
static void *fail_first(void *unused)
{
    refused = -1;
    requests = 0;
    WANT_CODE(touch_loaded(NULL, 0, 1), FAMSYNC_ARGUMENT);
    WANT(strstr(error_loaded(NULL), "famsync_memory_touch: ") && requests == 0);
    refused = 0;
    return unused;
}

/* The shared library is loaded after the process has begun, as Python does. */
static void in_a_loaded_library(const char *program)
{
    const char *slash = strrchr(program, '/');
    char path[400];
    pthread_t thread;
    WANT(slash != NULL);
    snprintf(path, sizeof path, "%.*s/libfamsync.so", (int)(slash - program), program);
    void *library = dlopen(path, RTLD_NOW | RTLD_LOCAL);
    WANT(library != NULL);
    *(void **)&touch_loaded = dlsym(library, "famsync_memory_touch");
    *(void **)&error_loaded = dlsym(library, "famsync_error");
    WANT(touch_loaded && error_loaded && pthread_create(&thread, NULL, fail_first, NULL) == 0);
    WANT(pthread_join(thread, NULL) == 0);
}

/* Whether the system can track stores. */
static bool tracks(void)
{
    make_volume(4, "a=4096");
    return open_session() == FAMSYNC_OK && famsync_close(handle) == FAMSYNC_OK;
}

int main(int count, char **words)
{
    WANT(count > 0);
    in_a_loaded_library(words[0]);
    for (int way = 0; way < 3; way++) {
        options = (struct famsync_options){.size = sizeof options,
                                           .foreground = 1,
                                           .resident = way == 1,
                                           .tracking = way == 2 ? FAMSYNC_TRACK_KERNEL : FAMSYNC_TRACK_SIGNALS};
        if (way == 2 && !tracks())
            continue;
        each_request();
        if (goes_on_without_mappings())
            no_mapping();
    }
    printf("clients/c: no_memory: as it should be\n");
    return 0;
}
