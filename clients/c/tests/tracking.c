/* Plain memory whose stores the kernel tracks: no handler is installed, the kernel can store to it, and a thread that
   stores during a commit is noticed. Where the system can't track stores, the answer says so. */
#include "test.h"

#include <linux/filter.h>
#include <linux/seccomp.h>
#include <stdatomic.h>
#include <stddef.h>
#include <sys/prctl.h>

static struct famsync_options options = {.size = sizeof options, .tracking = FAMSYNC_TRACK_KERNEL};

static famsync_memory *memory_of(famsync *handle, const char *file)
{
    famsync_memory *memory;
    WANT_CODE(famsync_memory_open(handle, file, &memory), FAMSYNC_OK);
    return memory;
}

static bool is_all(const unsigned char *at, size_t count, unsigned char value)
{
    for (size_t i = 0; i < count; i++)
        if (at[i] != value)
            return false;
    return true;
}

/* Whether the system can; if it can't, it is the code of the opening that says so, and nothing is left open. */
static bool is_supported(void)
{
    famsync *handle;
    make_volume(16, "a=65536");
    int code = famsync_open(volume, &options, &handle);
    if (code == FAMSYNC_OK)
        return famsync_close(handle) == FAMSYNC_OK;
    WANT_CODE(code, FAMSYNC_TRACKING);
    WANT(handle == NULL);
    WANT_CODE(famsync_close(opened()), FAMSYNC_OK);
    return false;
}

/* A process that may not make a userfaultfd. */
static void forbidden(void)
{
    struct sock_filter filter[] = {
        BPF_STMT(BPF_LD | BPF_W | BPF_ABS, offsetof(struct seccomp_data, nr)),
        BPF_JUMP(BPF_JMP | BPF_JEQ | BPF_K, SYS_userfaultfd, 0, 1),
        BPF_STMT(BPF_RET | BPF_K, SECCOMP_RET_ERRNO | EPERM),
        BPF_STMT(BPF_RET | BPF_K, SECCOMP_RET_ALLOW),
    };
    struct sock_fprog program = {sizeof filter / sizeof *filter, filter};
    int status;
    pid_t child = fork();
    if (child == 0) {
        WANT(prctl(PR_SET_NO_NEW_PRIVS, 1, 0, 0, 0) == 0 && prctl(PR_SET_SECCOMP, SECCOMP_MODE_FILTER, &program) == 0);
        WANT(!is_supported());
        _exit(0);
    }
    WANT(waitpid(child, &status, 0) == child && status == 0);
}

static void arguments(void)
{
    famsync *handle;
    struct famsync_options other = options;
    other.tracking = 2;
    WANT_CODE(famsync_open(volume, &other, &handle), FAMSYNC_ARGUMENT);
    other = options;
    other.resident = 1;
    WANT_CODE(famsync_open(volume, &other, &handle), FAMSYNC_ARGUMENT);
    other = options;
    other.readonly = 1;
    WANT_CODE(famsync_open(volume, &other, &handle), FAMSYNC_OK);
    WANT_CODE(famsync_close(handle), FAMSYNC_OK);
}

static void stores(unsigned layout)
{
    struct sigaction before, after;
    make_volume_of(layout, 20, "a=60000 b=20000");
    WANT(sigaction(SIGSEGV, NULL, &before) == 0);
    famsync *handle = opened_with(options);
    famsync_memory *a = memory_of(handle, "a"), *b = memory_of(handle, "b");
    unsigned char *at = famsync_memory_at(a), *other = famsync_memory_at(b);
    WANT(sigaction(SIGSEGV, NULL, &after) == 0 && before.sa_handler == after.sa_handler);
    WANT(is_all(at, 60000, 0) && famsync_memory_dirty(a) == 0);
    int zeros = open("/dev/zero", O_RDONLY | O_CLOEXEC);
    for (unsigned char round = 1; round < 9; round++) {
        memset(at + 4000, round, 10000); /* pages 0 to 3 */
        other[19999] = round;
        WANT(famsync_memory_dirty(a) == 4 && famsync_memory_dirty(b) == 1);
        WANT(read(zeros, at + 40960, 100) == 100 && famsync_memory_dirty(a) == 5);
        WANT_CODE(famsync_msync(handle, NULL), FAMSYNC_OK);
        WANT(famsync_memory_dirty(a) == 0 && is_all(at + 4000, 10000, round));
        /* these are undone, and what was loaded since isn't stored */
        at[0] = at[59999] = other[0] = 9;
        WANT(famsync_memory_dirty(a) == 2);
        WANT_CODE(famsync_rollback(handle), FAMSYNC_OK);
        WANT(at[0] == 0 && at[59999] == 0 && other[0] == 0 && other[19999] == round && at[50000] == 0);
        WANT(is_all(at + 4000, 10000, round) && famsync_memory_dirty(a) == 0 && famsync_memory_dirty(b) == 0);
    }
    WANT(close(zeros) == 0);
    WANT_CODE(famsync_memory_touch(a, 0, 60000), FAMSYNC_OK);
    WANT(famsync_memory_dirty(a) == 0);
    memset(at, 1, 60000);
    memset(other, 1, 20000);
    WANT_CODE(famsync_msync(handle, NULL), FAMSYNC_NOFRAME);
    WANT_CODE(famsync_rollback(handle), FAMSYNC_OK);
    WANT_CODE(famsync_memory_close(a), FAMSYNC_OK);
    WANT_CODE(famsync_memory_close(b), FAMSYNC_OK);
    WANT_CODE(famsync_close(handle), FAMSYNC_OK);
    handle = opened();
    at = famsync_memory_at(a = memory_of(handle, "a"));
    WANT(at[0] == 0 && is_all(at + 4000, 10000, 8));
    WANT_CODE(famsync_memory_close(a), FAMSYNC_OK);
    WANT_CODE(famsync_close(handle), FAMSYNC_OK);
}

/* Beside another volume whose stores are noticed by signals. */
static void two_volumes(void)
{
    char moved[100];
    famsync *handle[2];
    famsync_memory *memory[2];
    unsigned char *at[2];
    make_volume(16, "a=65536");
    snprintf(moved, sizeof moved, "%s/other.img", folder);
    WANT(rename(volume, moved) == 0);
    make_volume(16, "a=65536");
    handle[0] = opened_with(options);
    WANT_CODE(famsync_open(moved, NULL, &handle[1]), FAMSYNC_OK);
    for (unsigned i = 0; i < 2; i++)
        at[i] = famsync_memory_at(memory[i] = memory_of(handle[i], "a"));
    for (unsigned char round = 1; round < 5; round++)
        for (unsigned i = 0; i < 2; i++) {
            at[i][4096 * round] = at[i][0] = round;
            WANT(famsync_memory_dirty(memory[i]) == 2);
            WANT_CODE(famsync_msync(handle[i], NULL), FAMSYNC_OK);
        }
    for (unsigned i = 0; i < 2; i++) {
        WANT_CODE(famsync_memory_close(memory[i]), FAMSYNC_OK);
        WANT_CODE(famsync_close(handle[i]), FAMSYNC_OK);
    }
}

/* A child's stores reach nothing, and those of its parent afterwards are noticed. */
static void forked(void)
{
    int status;
    make_volume(16, "a=65536");
    famsync *handle = opened_with(options);
    famsync_memory *memory = memory_of(handle, "a");
    unsigned char *at = famsync_memory_at(memory);
    for (unsigned char round = 1; round < 4; round++) {
        at[0] = round;
        pid_t child = fork();
        if (child == 0) {
            at[0] = at[8192] = 99;
            _exit(famsync_msync(handle, NULL) == FAMSYNC_FORKED && famsync_memory_dirty(memory) == 0 ? 0 : 1);
        }
        WANT(waitpid(child, &status, 0) == child && status == 0);
        at[4096] = round;
        WANT(famsync_memory_dirty(memory) == 2 && at[8192] == 0);
        WANT_CODE(famsync_msync(handle, NULL), FAMSYNC_OK);
    }
    WANT_CODE(famsync_memory_close(memory), FAMSYNC_OK);
    WANT_CODE(famsync_close(handle), FAMSYNC_OK);
}

static unsigned char *shared;
static atomic_bool stopped;
static atomic_uint stored;

static void *keep_storing(void *argument)
{
    (void)argument;
    while (!atomic_load(&stopped)) {
        shared[8] = shared[4096] = shared[8192] = (unsigned char)(shared[8] + 1);
        atomic_fetch_add(&stored, 1);
    }
    return NULL;
}

/* A thread that doesn't pause is noticed as pages are copied, and nothing is committed then; once it has ended,
 * everything is. */
static void disturbed(void)
{
    pthread_t thread;
    unsigned busy = 0;
    make_volume(1000, "a=4096000");
    famsync *handle = opened_with(options);
    famsync_memory *memory = memory_of(handle, "a");
    shared = famsync_memory_at(memory);
    WANT(pthread_create(&thread, NULL, keep_storing, NULL) == 0);
    while (atomic_load(&stored) == 0)
        usleep(100);
    for (unsigned i = 0; i < 20 || busy == 0; i++) {
        WANT(i < 5000);
        uint64_t before = famsync_acknowledged(handle);
        memset(shared + 12288, (int)i + 1, 4096000 - 12288); /* so that the copying takes some time */
        int code = famsync_msync(handle, NULL);
        WANT(code == FAMSYNC_OK || code == FAMSYNC_BUSY);
        WANT(famsync_acknowledged(handle) == before + (code == FAMSYNC_OK));
        busy += code == FAMSYNC_BUSY;
    }
    atomic_store(&stopped, true);
    WANT(pthread_join(thread, NULL) == 0 && busy > 0);
    unsigned char last = shared[8];
    WANT_CODE(famsync_msync(handle, NULL), FAMSYNC_OK);
    WANT_CODE(famsync_memory_close(memory), FAMSYNC_OK);
    WANT_CODE(famsync_close(handle), FAMSYNC_OK);
    handle = opened();
    shared = famsync_memory_at(memory = memory_of(handle, "a"));
    WANT(shared[8] == last && shared[4096] == last && shared[8192] == last);
    WANT_CODE(famsync_memory_close(memory), FAMSYNC_OK);
    WANT_CODE(famsync_close(handle), FAMSYNC_OK);
}

static void lengths(void)
{
    make_volume_of(FIRST_LAYOUT, 20, "a=5000/60000");
    famsync *handle = opened_with(options);
    famsync_memory *memory = memory_of(handle, "a");
    unsigned char *at = famsync_memory_at(memory);
    memset(at, 1, 5000);
    WANT_CODE(famsync_setlength(handle, "a", 40000), FAMSYNC_OK);
    WANT(is_all(at, 5000, 1) && is_all(at + 5000, 35000, 0) && famsync_memory_dirty(memory) == 2);
    at[39999] = 2;
    WANT(famsync_memory_dirty(memory) == 3);
    WANT_CODE(famsync_msync(handle, NULL), FAMSYNC_OK);
    WANT(famsync_memory_dirty(memory) == 0);
    at[30000] = 3;
    WANT_CODE(famsync_setlength(handle, "a", 4999), FAMSYNC_OK);
    WANT_CODE(famsync_setlength(handle, "a", 30001), FAMSYNC_OK);
    WANT(is_all(at, 4999, 1) && is_all(at + 4999, 25002, 0));
    at[30000] = 4;
    WANT_CODE(famsync_msync(handle, NULL), FAMSYNC_OK);
    WANT_CODE(famsync_memory_close(memory), FAMSYNC_OK);
    WANT_CODE(famsync_close(handle), FAMSYNC_OK);
    handle = opened();
    at = famsync_memory_at(memory = memory_of(handle, "a"));
    WANT(famsync_memory_length(memory) == 30001 && is_all(at, 4999, 1) && is_all(at + 4999, 25001, 0) &&
         at[30000] == 4);
    WANT_CODE(famsync_memory_close(memory), FAMSYNC_OK);
    WANT_CODE(famsync_close(handle), FAMSYNC_OK);
}

static volatile unsigned char loaded; /* a load whose byte nobody uses may be left out */

/* Loads of all pages aren't stores; and then one page can be stored to for each frame, and committed. */
static void want_unstored(famsync *handle, famsync_memory *memory)
{
    volatile unsigned char *at = famsync_memory_at(memory);
    unsigned frames = famsync_frames(handle);
    size_t pages = (famsync_memory_length(memory) + 4095) / 4096;
    for (size_t page = 0; page < pages; page++)
        loaded = at[page * 4096];
    WANT(famsync_memory_dirty(memory) == 0);
    for (size_t page = 0; page < frames && page < pages; page++)
        at[page * 4096]++;
    WANT(famsync_memory_dirty(memory) == (frames < pages ? frames : pages));
    WANT_CODE(famsync_msync(handle, NULL), FAMSYNC_OK);
}

/* What a rollback stores itself doesn't count: neither where it gives pages back to a file of many, nor where it clears
   the end of the last page. */
static void rolled_back(unsigned layout)
{
    make_volume_of(layout, 16, "a=10000000 b=4096");
    famsync *handle = opened_with(options);
    WANT_CODE(famsync_write(handle, 0, 5000000, "a", 1, NULL), FAMSYNC_OK);
    WANT_CODE(famsync_setlength(handle, "a", 5000), FAMSYNC_OK);
    famsync_memory *memory = memory_of(handle, "a");
    unsigned char *at = famsync_memory_at(memory);
    for (unsigned round = 0; round < 3; round++) {
        WANT_CODE(famsync_rollback(handle), FAMSYNC_OK);
        WANT(famsync_memory_length(memory) == 10000000 && at[5000000] == 0);
        want_unstored(handle, memory);
        at[9999999] = at[5000000] = at[4096] = 9;
        if (round == 1)
            WANT_CODE(famsync_write(handle, 1, 0, "b", 1, NULL), FAMSYNC_OK);
        if (round == 1)
            WANT_CODE(famsync_setlength(handle, "a", 5000), FAMSYNC_OK);
    }
    WANT_CODE(famsync_memory_close(memory), FAMSYNC_OK);
    WANT_CODE(famsync_close(handle), FAMSYNC_OK);
}

/* The same for a file whose last page has other bytes past the end, in its home block. */
static void rolled_back_at_end(unsigned layout)
{
    unsigned char page[4096];
    memset(page, 'x', sizeof page);
    make_volume_of(layout, 2, "a=8192 b=4096");
    famsync *handle = opened_with(options);
    WANT(famsync_frames(handle) == 1);
    WANT_CODE(famsync_write(handle, 1, 0, page, sizeof page, NULL), FAMSYNC_OK);
    WANT_CODE(famsync_msync(handle, NULL), FAMSYNC_OK);
    famsync_memory *memory = memory_of(handle, "b");
    unsigned char *at = famsync_memory_at(memory);
    for (size_t length = 99; length > 95; length--) {
        WANT_CODE(famsync_setlength(handle, "b", length), FAMSYNC_OK);
        WANT(famsync_memory_dirty(memory) == 0 && is_all(at, length, 'x') && is_all(at + length, 4096 - length, 0));
        WANT_CODE(famsync_write(handle, 0, 0, page, 1, NULL), FAMSYNC_OK);
        WANT_CODE(famsync_msync(handle, NULL), FAMSYNC_OK);
        if (length % 2 == 0)
            at[5] = 'y';
        else
            WANT_CODE(famsync_write(handle, 0, 0, "y", 1, NULL), FAMSYNC_OK);
        WANT_CODE(famsync_rollback(handle), FAMSYNC_OK);
        WANT(is_all(at, length, 'x') && is_all(at + length, 4096 - length, 0));
        WANT(famsync_memory_dirty(memory) == 0);
        WANT_CODE(famsync_write(handle, 0, 4096, page, 1, NULL), FAMSYNC_OK);
        WANT_CODE(famsync_msync(handle, NULL), FAMSYNC_OK);
    }
    WANT_CODE(famsync_memory_close(memory), FAMSYNC_OK);
    WANT_CODE(famsync_close(handle), FAMSYNC_OK);
}

int main(void)
{
    if (!is_supported()) {
        printf("clients/c: tracking: the system can't, and says so\n");
        return 0;
    }
    forbidden();
    arguments();
    for (unsigned layout = FIRST_LAYOUT; layout <= LAYOUTS; layout++) {
        stores(layout);
        rolled_back(layout);
        rolled_back_at_end(layout);
    }
    two_volumes();
    forked();
    disturbed();
    lengths();
    printf("clients/c: tracking: as it should be\n");
    return 0;
}
