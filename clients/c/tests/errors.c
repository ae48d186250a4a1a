/* Why a call failed, in words: which argument was wrong, which file, and how many pages; to the thread that called. */
#include "test.h"

#include <stdatomic.h>
#include <sys/ioctl.h>
#include <sys/uio.h>

#define SLOTS 8u
#define FRAMES "7" /* how many pages a commit has, as the lengths take a record */

/* Whether reads and writes of a volume fail. */
static atomic_bool reads_fail, writes_fail;

ssize_t pread(int file, void *bytes, size_t count, off_t offset)
{
    if (reads_fail) {
        errno = EIO;
        return -1;
    }
    return syscall(SYS_pread64, file, bytes, count, offset);
}

ssize_t pwritev(int file, const struct iovec *range, int count, off_t offset)
{
    if (writes_fail) {
        errno = ENOSPC;
        return -1;
    }
    return syscall(SYS_pwritev, file, range, count, offset, 0);
}

/* The system tracks no stores. */
int ioctl(int file, unsigned long request, ...)
{
    (void)file;
    (void)request;
    errno = ENOTTY;
    return -1;
}

static famsync *handle;

/* Whether the text begins with a call, and ends with errno's text. */
static bool names(const famsync *of, const char *call, int error)
{
    const char *text = famsync_error(of), *words = strerror(error);
    return strncmp(text, call, strlen(call)) == 0 && strlen(text) > strlen(words) &&
           strcmp(text + strlen(text) - strlen(words), words) == 0;
}

static void want_text(const famsync *of, const char *text, int line)
{
    if (strcmp(famsync_error(of), text) == 0)
        return;
    fprintf(stderr, "%s:%d: the text is '%s', and should be '%s'\n", __FILE__, line, famsync_error(of), text);
    exit(1);
}

/* A call fails with a code, and the text about it is this one. */
#define WANT_TEXT(call, code, text) (WANT_CODE(call, code), want_text(handle, text, __LINE__))

static void open_arguments(void)
{
    famsync *second = NULL;
    struct famsync_options small = {.size = sizeof(size_t)}, both = {.resident = 1, .tracking = FAMSYNC_TRACK_KERNEL};
    struct {
        struct famsync_options options;
        size_t unknown;
    } later = {{.size = sizeof later}, 1};
    char message[FAMSYNC_MESSAGE_SIZE], text[200];
    both.size = sizeof both;
    both.message = message;
    both.message_size = sizeof message;
    WANT_TEXT(famsync_open(NULL, NULL, &second), FAMSYNC_ARGUMENT, "famsync_open: the path is a null pointer");
    WANT_TEXT(famsync_open("", NULL, &second), FAMSYNC_ARGUMENT, "famsync_open: the path is empty");
    WANT_TEXT(famsync_open(volume, NULL, NULL), FAMSYNC_ARGUMENT, "famsync_open: `handle` is a null pointer");
    WANT_TEXT(famsync_open(volume, &small, &second), FAMSYNC_ARGUMENT,
              "famsync_open: `size` of the options is 8, which is too small");
    WANT_TEXT(famsync_open(volume, &later.options, &second), FAMSYNC_ARGUMENT,
              "famsync_open: this version of the library doesn't know all of the options");
    WANT_TEXT(famsync_open(volume, &both, &second), FAMSYNC_ARGUMENT,
              "famsync_open: the options have both FAMSYNC_TRACK_KERNEL and `resident`");
    snprintf(text, sizeof text, "\"%s\": the options have both FAMSYNC_TRACK_KERNEL and `resident`", volume);
    WANT(strcmp(message, text) == 0);
    both.tracking = 2;
    WANT_TEXT(famsync_open(volume, &both, &second), FAMSYNC_ARGUMENT, "famsync_open: the option `tracking` is 2");
}

/* The message of an opening has errno's text, too. */
static void openings(void)
{
    char message[FAMSYNC_MESSAGE_SIZE], path[100];
    struct famsync_options options = {.message = message, .message_size = sizeof message};
    famsync *second = NULL;
    snprintf(path, sizeof path, "%s/nowhere", folder);
    WANT_TEXT(famsync_open(path, &options, &second), FAMSYNC_SYSTEM, "famsync_open: No such file or directory");
    WANT(strcmp(message + strlen(message) - 27, ": No such file or directory") == 0);
    reads_fail = true;
    WANT_CODE(famsync_open(volume, &options, &second), FAMSYNC_DEVICE);
    WANT(errno == EIO && strstr(message, ": Input/output error") && strstr(message, volume));
    WANT(strstr(famsync_error(NULL), ": Input/output error"));
    reads_fail = false;
    options.tracking = FAMSYNC_TRACK_KERNEL;
    options.size = sizeof options;
    WANT_CODE(famsync_open(volume, &options, &second), FAMSYNC_TRACKING);
    WANT(errno != 0 && names(NULL, "famsync_open: the system can't track stores", errno));
    WANT(strstr(message, strerror(errno)) && strstr(message, "can't track stores"));
    options.tracking = FAMSYNC_TRACK_SIGNALS;
    options.frames = 100;
    WANT_TEXT(famsync_open(volume, &options, &second), FAMSYNC_SHAPE,
              "famsync_open: the option `frames` is 100; a commit of this volume can have at most " FRAMES " pages");
    WANT(strstr(message, "at most " FRAMES " pages"));
}

static void formats(void)
{
    struct famsync_new_file file = {"", 4096, 0};
    struct famsync_plan plan = {.size = sizeof plan, .files = 1, .file = &file};
    WANT_TEXT(famsync_format("", &plan), FAMSYNC_ARGUMENT, "famsync_format: the path is empty");
    WANT_TEXT(famsync_format(volume, &plan), FAMSYNC_ARGUMENT,
              "famsync_format: a file's name must have 1 to 32 characters from '!' to '~'");
    file.name = "a";
    WANT_TEXT(famsync_format(volume, &plan), FAMSYNC_SYSTEM, "famsync_format: File exists");
    plan.size = 1;
    WANT_CODE(famsync_format(volume, &plan), FAMSYNC_ARGUMENT);
    WANT(strstr(famsync_error(NULL), "`size` of the plan"));
}

static void null_handles(void)
{
    struct famsync_stat stat = {.size = sizeof stat};
    famsync_memory *memory;
    WANT_TEXT(famsync_read(NULL, 0, 0, &stat, 1, NULL), FAMSYNC_ARGUMENT, "famsync_read: the handle is a null pointer");
    WANT_TEXT(famsync_msync(NULL, NULL), FAMSYNC_ARGUMENT, "famsync_msync: the handle is a null pointer");
    WANT_TEXT(famsync_rollback(NULL), FAMSYNC_ARGUMENT, "famsync_rollback: the handle is a null pointer");
    WANT_TEXT(famsync_stat(NULL, &stat), FAMSYNC_ARGUMENT, "famsync_stat: the handle is a null pointer");
    WANT_TEXT(famsync_setlength(NULL, "a", 1), FAMSYNC_ARGUMENT, "famsync_setlength: the handle is a null pointer");
    WANT_TEXT(famsync_memory_open(NULL, "a", &memory), FAMSYNC_ARGUMENT,
              "famsync_memory_open: the handle is a null pointer");
    WANT_TEXT(famsync_memory_touch(NULL, 0, 1), FAMSYNC_ARGUMENT, "famsync_memory_touch: `memory` is a null pointer");
}

static void arguments(void)
{
    struct famsync_stat stat = {0};
    famsync_memory *memory;
    char path[100];
    snprintf(path, sizeof path, "%s/copy", folder);
    int copy = open(path, O_WRONLY | O_CREAT | O_CLOEXEC, 0600), own = open(volume, O_RDWR | O_CLOEXEC);
    WANT_TEXT(famsync_read(handle, 0, 0, NULL, 1, NULL), FAMSYNC_ARGUMENT, "famsync_read: `bytes` is a null pointer");
    WANT_TEXT(famsync_write(handle, 0, 0, NULL, 1, NULL), FAMSYNC_ARGUMENT, "famsync_write: `bytes` is a null pointer");
    WANT_TEXT(famsync_setlength(handle, NULL, 1), FAMSYNC_ARGUMENT, "famsync_setlength: `file` is a null pointer");
    WANT_TEXT(famsync_stat(handle, NULL), FAMSYNC_ARGUMENT, "famsync_stat: `stat` is a null pointer");
    WANT_TEXT(famsync_stat(handle, &stat), FAMSYNC_ARGUMENT, "famsync_stat: `size` is too small");
    WANT_TEXT(famsync_memory_open(handle, NULL, &memory), FAMSYNC_ARGUMENT,
              "famsync_memory_open: `file` is a null pointer");
    WANT_TEXT(famsync_memory_open_at(handle, "a", NULL, NULL), FAMSYNC_ARGUMENT,
              "famsync_memory_open_at: `memory` is a null pointer");
    WANT_TEXT(famsync_memory_open(handle, "empty", &memory), FAMSYNC_ARGUMENT,
              "famsync_memory_open: the file \"empty\" is empty");
    WANT_TEXT(famsync_backup(handle, -1), FAMSYNC_ARGUMENT, "famsync_backup: `descriptor` is negative");
    WANT_TEXT(famsync_backup(handle, copy), FAMSYNC_ARGUMENT,
              "famsync_backup: `descriptor` isn't open for reading and writing, or has O_APPEND");
    WANT_TEXT(famsync_backup(handle, own), FAMSYNC_ARGUMENT, "famsync_backup: the backup's file is the volume's file");
    WANT(close(copy) == 0 && close(own) == 0);
}

static void files(void)
{
    famsync_memory *memory, *again;
    WANT_TEXT(famsync_read(handle, 7, 0, NULL, 0, NULL), FAMSYNC_NOFILE,
              "famsync_read: the volume has no file 7; its files are numbered from 0 to 2");
    WANT_TEXT(famsync_write(handle, 3, 0, "x", 1, NULL), FAMSYNC_NOFILE,
              "famsync_write: the volume has no file 3; its files are numbered from 0 to 2");
    WANT_TEXT(famsync_setlength(handle, "c", 1), FAMSYNC_NOFILE, "famsync_setlength: the volume has no file \"c\"");
    WANT_TEXT(famsync_memory_open(handle, "c", &memory), FAMSYNC_NOFILE,
              "famsync_memory_open: the volume has no file \"c\"");
    WANT_TEXT(famsync_write(handle, 1, 8100, "0123456789", 10, NULL), FAMSYNC_OK,
              "famsync_memory_open: the volume "
              "has no file \"c\"");
    WANT_TEXT(famsync_write(handle, 1, 9000, "x", 1, NULL), FAMSYNC_EINVAL,
              "famsync_write: offset 9000 with 1 bytes ends past the 8192 bytes of \"b\"");
    WANT_TEXT(famsync_setlength(handle, "b", 40001), FAMSYNC_EINVAL,
              "famsync_setlength: the length 40001 exceeds the capacity of \"b\", 40000");
    WANT_CODE(famsync_memory_open(handle, "b", &memory), FAMSYNC_OK);
    WANT_TEXT(famsync_memory_open(handle, "b", &again), FAMSYNC_OVERLAP,
              "famsync_memory_open: plain memory of \"b\" is already open");
    WANT_TEXT(famsync_memory_touch(memory, 8000, 193), FAMSYNC_ARGUMENT,
              "famsync_memory_touch: offset 8000 with 193 bytes ends past the 8192 bytes of \"b\"");
    WANT_TEXT(famsync_close(handle), FAMSYNC_ARGUMENT, "famsync_close: plain memory of the handle is still open");
    WANT_CODE(famsync_memory_close(memory), FAMSYNC_OK);
    WANT_CODE(famsync_rollback(handle), FAMSYNC_OK);
}

/* A name that is too long for any file is cut off. */
static void long_name(void)
{
    static char name[5000];
    memset(name, 'x', sizeof name - 1);
    WANT_CODE(famsync_setlength(handle, name, 1), FAMSYNC_NOFILE);
    WANT(strstr(famsync_error(handle), "famsync_setlength: the volume has no file \"xxx") &&
         strlen(famsync_error(handle)) < 200);
}

static unsigned char bytes[131072];

/* More pages than a commit has: both numbers are in the text. */
static void pages(void)
{
    famsync_memory *memory;
    WANT_TEXT(famsync_write(handle, 0, 1, bytes, 7 * 4096, NULL), FAMSYNC_NOFRAME,
              "famsync_write: the range has 8 pages; one commit can have at most " FRAMES);
    WANT_CODE(famsync_write(handle, 0, 0, bytes, 4 * 4096, NULL), FAMSYNC_OK);
    WANT_TEXT(famsync_write(handle, 0, 3 * 4096, bytes, 5 * 4096, NULL), FAMSYNC_NOFRAME,
              "famsync_write: the next commit would have 8 pages; one commit can have at most " FRAMES);
    WANT_TEXT(famsync_setlength(handle, "b", 8 * 4096), FAMSYNC_NOFRAME,
              "famsync_setlength: 6 pages for \"b\" and 4 waiting pages; one commit can have at most " FRAMES);
    WANT_CODE(famsync_memory_open(handle, "a", &memory), FAMSYNC_OK);
    WANT_TEXT(famsync_memory_touch(memory, 4096, 10 * 4096), FAMSYNC_NOFRAME,
              "famsync_memory_touch: the range has 10 pages; one commit can have at most " FRAMES);
    for (unsigned page = 2; page < 12; page++)
        ((unsigned char *)famsync_memory_at(memory))[page * 4096] = 1;
    WANT_TEXT(famsync_msync(handle, NULL), FAMSYNC_NOFRAME,
              "famsync_msync: this commit has 12 pages; one commit can have at most " FRAMES);
    WANT_CODE(famsync_memory_close(memory), FAMSYNC_OK);
    WANT_CODE(famsync_rollback(handle), FAMSYNC_OK);
}

/* The text of another handle isn't this one's. */
static void handles(void)
{
    famsync *first = handle;
    char path[100];
    struct famsync_new_file file = {"a", 4096, 0};
    snprintf(path, sizeof path, "%s/second", folder);
    WANT_CODE(
        famsync_format(path, &(struct famsync_plan){.size = sizeof(struct famsync_plan), .files = 1, .file = &file}),
        FAMSYNC_OK);
    WANT_CODE(famsync_open(path, NULL, &handle), FAMSYNC_OK);
    want_text(handle, "", __LINE__);
    WANT_TEXT(famsync_setlength(handle, "x", 1), FAMSYNC_NOFILE, "famsync_setlength: the volume has no file \"x\"");
    want_text(first, "", __LINE__);
    want_text(NULL, "famsync_setlength: the volume has no file \"x\"", __LINE__);
    WANT_CODE(famsync_close(handle), FAMSYNC_OK);
    WANT_CODE(famsync_open(path, NULL, &handle), FAMSYNC_OK);
    want_text(handle, "", __LINE__); /* it may have the same address */
    WANT_CODE(famsync_close(handle), FAMSYNC_OK);
    handle = first;
}

static pthread_barrier_t together;

/* Another thread has texts of its own. Threads that share a commit learn all why it failed. */
static void *in_a_thread(void *unused)
{
    want_text(NULL, "", __LINE__);
    pthread_barrier_wait(&together);
    for (unsigned round = 0; round < 50; round++) {
        WANT_TEXT(famsync_msync(handle, NULL), FAMSYNC_NOFRAME,
                  "famsync_msync: this commit has 12 pages; one commit can have at most " FRAMES);
        WANT_TEXT(famsync_read(handle, 9, 0, NULL, 0, NULL), FAMSYNC_NOFILE,
                  "famsync_read: the volume has no file 9; its files are numbered from 0 to 2");
    }
    return unused;
}

static void threads(void)
{
    enum { THREADS = 8 };
    pthread_t thread[THREADS];
    famsync_memory *memory;
    WANT_CODE(famsync_memory_open(handle, "a", &memory), FAMSYNC_OK);
    memset(famsync_memory_at(memory), 1, 12 * 4096);
    WANT(pthread_barrier_init(&together, NULL, THREADS) == 0);
    WANT_TEXT(famsync_setlength(handle, "x", 1), FAMSYNC_NOFILE, "famsync_setlength: the volume has no file \"x\"");
    for (unsigned i = 0; i < THREADS; i++)
        WANT(pthread_create(&thread[i], NULL, in_a_thread, NULL) == 0);
    for (unsigned i = 0; i < THREADS; i++)
        WANT(pthread_join(thread[i], NULL) == 0);
    want_text(handle, "famsync_setlength: the volume has no file \"x\"", __LINE__);
    WANT_CODE(famsync_memory_close(memory), FAMSYNC_OK);
}

/* The session goes on after a failed read, and is over after a failed write. Then the handle is freed, and the text
   remains. */
static void device(void)
{
    reads_fail = true;
    WANT_CODE(famsync_read(handle, 0, 70000, bytes, 1, NULL), FAMSYNC_DEVICE);
    WANT(errno == EIO && names(handle, "famsync_read: ", EIO));
    reads_fail = false;
    WANT_CODE(famsync_write(handle, 0, 0, "x", 1, NULL), FAMSYNC_OK);
    writes_fail = true;
    WANT_CODE(famsync_msync(handle, NULL), FAMSYNC_DEVICE);
    WANT(errno == ENOSPC && names(handle, "famsync_msync: ", ENOSPC));
    WANT_CODE(famsync_read(handle, 0, 0, bytes, 1, NULL), FAMSYNC_BROKEN);
    WANT(errno == ENOSPC && names(handle, "famsync_read: ", ENOSPC));
    WANT_CODE(famsync_close(handle), FAMSYNC_DEVICE);
    WANT(errno == ENOSPC && names(handle, "famsync_close: ", ENOSPC) && names(NULL, "famsync_close: ", ENOSPC));
}

static void forked(void)
{
    int status;
    pid_t child = fork();
    WANT(child >= 0);
    if (child == 0) {
        WANT_TEXT(famsync_msync(handle, NULL), FAMSYNC_FORKED,
                  "famsync_msync: the session belongs to the parent process");
        _exit(0);
    }
    WANT(waitpid(child, &status, 0) == child && WIFEXITED(status) && WEXITSTATUS(status) == 0);
}

int main(void)
{
    want_text(NULL, "", __LINE__);
    make_volume_of(FIRST_LAYOUT, SLOTS, "a=131072 b=8192/40000 empty=0/4096");
    open_arguments();
    openings();
    formats();
    null_handles();
    handle = opened();
    want_text(handle, "", __LINE__);
    arguments();
    files();
    long_name();
    pages();
    handles();
    threads();
    forked();
    device();
    printf("clients/c: errors: as it should be\n");
    return 0;
}
