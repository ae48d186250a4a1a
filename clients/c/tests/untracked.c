/* A system that cannot track stores, like an old kernel or a sandbox: whichever call of it is refused,
   the answer is a code of its own, nothing is left open, and plain memory works without tracking. */
#include "test.h"

#include <dirent.h>
#include <linux/filter.h>
#include <linux/seccomp.h>
#include <linux/userfaultfd.h>
#include <stdarg.h>
#include <stddef.h>
#include <sys/ioctl.h>
#include <sys/prctl.h>

/* Of linux/fs.h, which may be older than the system: PAGEMAP_SCAN, whose argument has 96 bytes. */
#define SCAN _IOC(_IOC_READ | _IOC_WRITE, 'f', 16, 96)

static const struct famsync_options tracked = {.size = sizeof tracked, .tracking = FAMSYNC_TRACK_KERNEL};

/* Whether the pages of this process can't be looked at. */
static bool has_no_pagemap;

BEFORE_SANITIZERS int openat(int from, const char *path, int flags, ...)
{
    va_list more;
    va_start(more, flags);
    mode_t mode = flags & O_CREAT ? va_arg(more, mode_t) : 0;
    va_end(more);
    if (has_no_pagemap && strcmp(path, "/proc/self/pagemap") == 0) {
        errno = EACCES;
        return -1;
    }
    return (int)syscall(SYS_openat, from, path, flags, mode);
}

/* From now on this call fails by an errno; of an ioctl those alone whose second argument is `request`, if that isn't 0.
 */
static void refuse(long call, unsigned long request, int error)
{
    struct sock_filter filter[] = {
        BPF_STMT(BPF_LD | BPF_W | BPF_ABS, offsetof(struct seccomp_data, nr)),
        BPF_JUMP(BPF_JMP | BPF_JEQ | BPF_K, (unsigned)call, 0, 3),
        BPF_STMT(BPF_LD | BPF_W | BPF_ABS, offsetof(struct seccomp_data, args[1])),
        BPF_JUMP(BPF_JMP | BPF_JEQ | BPF_K, (unsigned)request, 0, request ? 1 : 0),
        BPF_STMT(BPF_RET | BPF_K, SECCOMP_RET_ERRNO | (unsigned)error),
        BPF_STMT(BPF_RET | BPF_K, SECCOMP_RET_ALLOW),
    };
    struct sock_fprog program = {sizeof filter / sizeof *filter, filter};
    WANT(prctl(PR_SET_NO_NEW_PRIVS, 1, 0, 0, 0) == 0 && prctl(PR_SET_SECCOMP, SECCOMP_MODE_FILTER, &program) == 0);
}

static unsigned descriptors(void)
{
    unsigned count = 0;
    DIR *files = opendir("/proc/self/fd");
    WANT(files != NULL);
    while (readdir(files))
        count++;
    WANT(closedir(files) == 0);
    return count;
}

/* The opening of the volume is refused, or that of plain memory. */
static void want_refused(void)
{
    famsync *handle = (famsync *)1;
    famsync_memory *memory = (famsync_memory *)1;
    int code = famsync_open(volume, &tracked, &handle);
    if (code == FAMSYNC_OK) {
        WANT_CODE(famsync_memory_open(handle, "a", &memory), FAMSYNC_TRACKING);
        WANT(memory == NULL);
        WANT_CODE(famsync_memory_open_at(handle, "a", NULL, &memory), FAMSYNC_TRACKING);
        WANT_CODE(famsync_write(handle, 0, 0, "without memory", 14, NULL), FAMSYNC_OK);
        WANT_CODE(famsync_msync(handle, NULL), FAMSYNC_OK);
        WANT_CODE(famsync_close(handle), FAMSYNC_OK);
    } else {
        WANT_CODE(code, FAMSYNC_TRACKING);
        WANT(handle == NULL);
    }
}

/* Plain memory whose stores are noticed by signals. */
static void want_signals(void)
{
    famsync_memory *memory;
    famsync *handle = opened_with((struct famsync_options){.foreground = 1});
    WANT_CODE(famsync_memory_open(handle, "a", &memory), FAMSYNC_OK);
    unsigned char *at = famsync_memory_at(memory);
    at[9000]++;
    WANT(famsync_memory_dirty(memory) == 1);
    WANT_CODE(famsync_msync(handle, NULL), FAMSYNC_OK);
    WANT_CODE(famsync_memory_close(memory), FAMSYNC_OK);
    WANT_CODE(famsync_close(handle), FAMSYNC_OK);
}

static void refused(long call, unsigned long request, int error)
{
    int status;
    make_volume(16, "a=65536");
    pid_t child = fork();
    if (child == 0) {
        alarm(60);
        if (call)
            refuse(call, request, error);
        else
            has_no_pagemap = true;
        unsigned before = descriptors();
        for (unsigned times = 0; times < 3; times++)
            want_refused();
        WANT(descriptors() == before);
        want_signals();
        _exit(0);
    }
    WANT(waitpid(child, &status, 0) == child && status == 0);
}

int main(void)
{
    refused(SYS_userfaultfd, 0, EPERM);
    refused(SYS_userfaultfd, 0, ENOSYS);
    refused(SYS_ioctl, UFFDIO_API, EINVAL);
    refused(SYS_ioctl, UFFDIO_REGISTER, EINVAL);
    refused(SYS_ioctl, SCAN, ENOTTY);
    refused(SYS_ioctl, SCAN, EINVAL);
    refused(0, 0, 0);
    printf("clients/c: untracked: as it should be\n");
    return 0;
}
