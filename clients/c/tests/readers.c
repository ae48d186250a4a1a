/* Sessions that only read share a volume, write nothing, and want one that no crash has left; sessions wait for a
   volume that is in use; and options of other sizes. */
#include "test.h"

#include <setjmp.h>
#include <sys/file.h>
#include <time.h>

static uint64_t milliseconds(void)
{
    struct timespec now;
    clock_gettime(CLOCK_MONOTONIC, &now);
    return (uint64_t)now.tv_sec * 1000 + (uint64_t)now.tv_nsec / 1000000;
}

static int code_with(struct famsync_options options, famsync **handle)
{
    static char message[FAMSYNC_MESSAGE_SIZE];
    options.size = sizeof options;
    options.message = message;
    options.message_size = sizeof message;
    int code = famsync_open(volume, &options, handle);
    WANT((code == FAMSYNC_OK) == (*handle != NULL) && (code == FAMSYNC_OK) == (message[0] == 0));
    WANT(code != FAMSYNC_NEEDSOPENING || strstr(message, "open") != NULL);
    return code;
}

static famsync *reader(void)
{
    famsync *handle;
    WANT_CODE(code_with((struct famsync_options){.readonly = 1}, &handle), FAMSYNC_OK);
    return handle;
}

/* Makes a volume in which page I of `a` has the number I. */
static void make_numbers(unsigned layout)
{
    make_volume_of(layout, 16, "a=65536 b=5000");
    famsync *handle = opened();
    for (unsigned char page = 1; page < 16; page++)
        WANT_CODE(famsync_write(handle, 0, page * 4096u, &page, 1, NULL), FAMSYNC_OK);
    WANT_CODE(famsync_msync(handle, NULL), FAMSYNC_OK);
    WANT_CODE(famsync_close(handle), FAMSYNC_OK);
}

/* The volume's bytes, and when they were written last. */
static struct stat state_of_volume(unsigned char *bytes, size_t count)
{
    struct stat found = {0};
    int file = open(volume, O_RDONLY | O_CLOEXEC);
    WANT(file >= 0 && read(file, bytes, count) > 0 && fstat(file, &found) == 0 && close(file) == 0);
    return found;
}

static void reads(famsync *handle)
{
    unsigned char byte;
    famsync_memory *memory;
    WANT_CODE(famsync_memory_open(handle, "a", &memory), FAMSYNC_OK);
    for (unsigned page = 0; page < 16; page++) {
        WANT_CODE(famsync_read(handle, 0, page * 4096u, &byte, 1, NULL), FAMSYNC_OK);
        WANT(byte == page && ((unsigned char *)famsync_memory_at(memory))[page * 4096u] == page);
    }
    WANT_CODE(famsync_memory_touch(memory, 0, 1), FAMSYNC_READONLY);
    WANT(famsync_memory_dirty(memory) == 0);
    WANT_CODE(famsync_memory_close(memory), FAMSYNC_OK);
}

static void refusals(famsync *handle)
{
    WANT_CODE(famsync_setlength(handle, "a", 100), FAMSYNC_READONLY);
    WANT_CODE(famsync_msync(handle, NULL), FAMSYNC_READONLY);
    WANT_CODE(famsync_write(handle, 0, 0, "x", 1, NULL), FAMSYNC_READONLY);
    WANT_CODE(famsync_write(handle, 2, 0, "x", 1, NULL), FAMSYNC_NOFILE);
}

/* Two readers of this process and one of another; a writer comes in once all have gone. */
static void shared(unsigned layout)
{
    static unsigned char before[1 << 20], after[1 << 20];
    famsync *first, *second, *writer;
    int status;
    make_numbers(layout);
    WANT(chmod(volume, 0400) == 0);
    struct stat then = state_of_volume(before, sizeof before), now;
    first = reader();
    second = reader();
    pid_t child = fork();
    if (child == 0) {
        famsync *third = reader();
        reads(third);
        _exit(famsync_close(third));
    }
    reads(first);
    reads(second);
    refusals(first);
    WANT(waitpid(child, &status, 0) == child && status == 0);
    WANT(chmod(volume, 0600) == 0);
    WANT_CODE(code_with((struct famsync_options){0}, &writer), FAMSYNC_INUSE);
    WANT_CODE(famsync_close(first), FAMSYNC_OK);
    WANT_CODE(code_with((struct famsync_options){.wait_ms = 20}, &writer), FAMSYNC_INUSE);
    WANT_CODE(famsync_close(second), FAMSYNC_OK);
    now = state_of_volume(after, sizeof after);
    WANT(memcmp(before, after, sizeof after) == 0 && then.st_mtim.tv_sec == now.st_mtim.tv_sec &&
         then.st_mtim.tv_nsec == now.st_mtim.tv_nsec);
    WANT_CODE(code_with((struct famsync_options){0}, &writer), FAMSYNC_OK);
    WANT_CODE(code_with((struct famsync_options){.readonly = 1}, &first), FAMSYNC_INUSE);
    WANT_CODE(famsync_close(writer), FAMSYNC_OK);
}

static sigjmp_buf back;

static void jump_back(int number)
{
    (void)number;
    siglongjmp(back, 1);
}

/* A store to plain memory of a reader is the program's fault. */
static void stores_fault(void)
{
    int status;
    make_numbers(FIRST_LAYOUT);
    pid_t child = fork();
    if (child == 0) {
        struct sigaction action = {.sa_handler = jump_back};
        famsync_memory *memory;
        alarm(20);
        WANT(sigaction(SIGSEGV, &action, NULL) == 0);
        WANT_CODE(famsync_memory_open(reader(), "a", &memory), FAMSYNC_OK);
        if (sigsetjmp(back, 1) != 0)
            raise(SIGKILL);
        *(volatile unsigned char *)famsync_memory_at(memory) = 1;
        _exit(1);
    }
    WANT(waitpid(child, &status, 0) == child && WIFSIGNALED(status) && WTERMSIG(status) == SIGKILL);
}

/* What a kill left of a commit isn't a reader's to carry out; nor is a suspect flag a reader's to remove. */
static void left_by_a_crash(unsigned layout)
{
    static unsigned char before[1 << 20], after[1 << 20];
    famsync *handle;
    int status;
    make_volume_of(layout, 16, "a=65536");
    pid_t child = fork();
    if (child == 0) {
        handle = opened_with((struct famsync_options){.foreground = 1});
        WANT_CODE(famsync_write(handle, 0, 0, "x", 1, NULL), FAMSYNC_OK);
        WANT_CODE(famsync_msync(handle, NULL), FAMSYNC_OK);
        raise(SIGKILL);
    }
    WANT(waitpid(child, &status, 0) == child && WIFSIGNALED(status) && commits_left() == 1);
    state_of_volume(before, sizeof before);
    WANT_CODE(code_with((struct famsync_options){.readonly = 1}, &handle), FAMSYNC_NEEDSOPENING);
    state_of_volume(after, sizeof after);
    WANT(memcmp(before, after, sizeof after) == 0);
    WANT_CODE(famsync_close(opened()), FAMSYNC_OK);
    handle = reader();
    unsigned char byte;
    WANT_CODE(famsync_read(handle, 0, 0, &byte, 1, NULL), FAMSYNC_OK);
    WANT(byte == 'x');
    WANT_CODE(famsync_close(handle), FAMSYNC_OK);
}

static void flagged(void)
{
    char flag[100];
    famsync *handle;
    snprintf(flag, sizeof flag, "%s.suspect", volume);
    int file = open(flag, O_WRONLY | O_CREAT | O_CLOEXEC, 0600);
    WANT(file >= 0 && close(file) == 0);
    WANT_CODE(code_with((struct famsync_options){.readonly = 1}, &handle), FAMSYNC_NEEDSOPENING);
    WANT_CODE(code_with((struct famsync_options){.readonly = 1, .trust = 1}, &handle), FAMSYNC_NEEDSOPENING);
    WANT(access(flag, F_OK) == 0);
    WANT_CODE(famsync_close(opened_with((struct famsync_options){.trust = 1})), FAMSYNC_OK);
    WANT_CODE(famsync_close(reader()), FAMSYNC_OK);
}

/* A process that has the volume for some time. */
static pid_t in_use_for(useconds_t time, int how)
{
    int ready[2];
    char byte;
    WANT(pipe(ready) == 0);
    pid_t child = fork();
    if (child == 0) {
        int file = open(volume, O_RDONLY | O_CLOEXEC);
        WANT(file >= 0 && flock(file, how) == 0 && write(ready[1], "r", 1) == 1);
        usleep(time);
        _exit(0);
    }
    WANT(read(ready[0], &byte, 1) == 1 && close(ready[0]) == 0 && close(ready[1]) == 0);
    return child;
}

static void waits(void)
{
    famsync *handle;
    for (int readonly = 0; readonly < 2; readonly++) {
        struct famsync_options options = {.readonly = readonly, .wait_ms = 60};
        pid_t child = in_use_for(400000, LOCK_EX);
        uint64_t begin = milliseconds();
        WANT_CODE(code_with(options, &handle), FAMSYNC_INUSE);
        WANT(milliseconds() >= begin + 60);
        options.wait_ms = 60000;
        WANT_CODE(code_with(options, &handle), FAMSYNC_OK);
        WANT(milliseconds() < begin + 30000);
        WANT_CODE(famsync_close(handle), FAMSYNC_OK);
        WANT(waitpid(child, NULL, 0) == child);
    }
    /* one that reads is in the way of a writer alone */
    pid_t child = in_use_for(300000, LOCK_SH);
    WANT_CODE(famsync_close(reader()), FAMSYNC_OK);
    WANT_CODE(code_with((struct famsync_options){.wait_ms = 60000}, &handle), FAMSYNC_OK);
    WANT_CODE(famsync_close(handle), FAMSYNC_OK);
    WANT(waitpid(child, NULL, 0) == child);
}

/* A later version's options, which has fields behind those of this one. */
static void sizes(void)
{
    struct {
        struct famsync_options options;
        unsigned char more[24];
    } later = {.options = {.readonly = 1}};
    famsync *handle;
    later.options.size = sizeof later;
    WANT_CODE(famsync_open(volume, &later.options, &handle), FAMSYNC_OK);
    WANT_CODE(famsync_msync(handle, NULL), FAMSYNC_READONLY);
    WANT_CODE(famsync_close(handle), FAMSYNC_OK);
    later.more[23] = 1;
    WANT_CODE(famsync_open(volume, &later.options, &handle), FAMSYNC_ARGUMENT);
    WANT(handle == NULL);
    later.options.size = 0;
    WANT_CODE(famsync_open(volume, &later.options, &handle), FAMSYNC_OK);
    WANT_CODE(famsync_msync(handle, NULL), FAMSYNC_READONLY);
    WANT_CODE(famsync_close(handle), FAMSYNC_OK);
    size_t first = offsetof(struct famsync_options, readonly) + sizeof(int); /* what the first version had */
    for (size_t size = 1; size < first; size++) {
        later.options.size = size;
        WANT_CODE(famsync_open(volume, &later.options, &handle), FAMSYNC_ARGUMENT);
    }
    later.options.size = first;
    WANT_CODE(famsync_open(volume, &later.options, &handle), FAMSYNC_OK);
    WANT_CODE(famsync_msync(handle, NULL), FAMSYNC_READONLY);
    WANT_CODE(famsync_close(handle), FAMSYNC_OK);
    WANT(strcmp(famsync_version(), FAMSYNC_VERSION) == 0 ||
         strcmp(famsync_version(), FAMSYNC_VERSION " (core not proved)") == 0);
}

int main(void)
{
    for (unsigned layout = FIRST_LAYOUT; layout <= LAYOUTS; layout++) {
        shared(layout);
        left_by_a_crash(layout);
    }
    stores_fault();
    flagged();
    waits();
    sizes();
    printf("clients/c: readers: as it should be\n");
    return 0;
}
