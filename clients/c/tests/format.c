/* Volumes that are made: their bytes, in each layout; which are refused; and that a file of this name is such a volume,
   whole, or isn't there. */
#include "test.h"

#include <dlfcn.h>
#include <stdarg.h>
#include <sys/resource.h>
#include <time.h>

static char message[FAMSYNC_MESSAGE_SIZE];
static struct famsync_new_file files[65];

/* The log is as long as `make_volume_of` makes it. */
static struct famsync_plan plan_of(unsigned layout, unsigned records, unsigned count)
{
    return (struct famsync_plan){.size = sizeof(struct famsync_plan),
                                 .layout = layout,
                                 .log = log_blocks(records),
                                 .key = layout == 6 ? LOG_KEY : 0,
                                 .files = count,
                                 .file = files,
                                 .message = message,
                                 .message_size = sizeof message};
}

/* Unnamed files, where the system has them. */
static bool all_are_named;

BEFORE_SANITIZERS int openat(int in, const char *path, int flags, ...)
{
    va_list more;
    va_start(more, flags);
    int mode = flags & (O_CREAT | O_TMPFILE) ? va_arg(more, int) : 0;
    va_end(more);
    if (all_are_named && (flags & O_TMPFILE) == O_TMPFILE) {
        errno = EOPNOTSUPP;
        return -1;
    }
    return (int)syscall(SYS_openat, in, path, flags, mode);
}

static bool is_there(const char *path)
{
    struct stat found;
    return lstat(path, &found) == 0;
}

static char *beside(const char *end)
{
    static char path[300];
    snprintf(path, sizeof path, "%s%s", volume, end);
    return path;
}

static void remove_volume(void)
{
    WANT(unlink(volume) == 0 || errno == ENOENT);
    WANT(!is_there(beside(".new")));
}

/* The bytes of the volume's file. */
static unsigned char *bytes_of(size_t *count)
{
    struct stat found;
    int file = open(volume, O_RDONLY | O_CLOEXEC);
    WANT(file >= 0 && fstat(file, &found) == 0);
    *count = (size_t)found.st_size;
    unsigned char *bytes = malloc(*count);
    WANT(bytes && pread(file, bytes, *count, 0) == (ssize_t)*count && close(file) == 0);
    return bytes;
}

/* The same as a volume that is written byte by byte. */
static void same_bytes(unsigned layout, unsigned records, unsigned count)
{
    char text[4096] = "";
    size_t ours, theirs;
    struct famsync_plan plan = plan_of(layout, records, count);
    for (unsigned i = 0; i < count; i++) {
        size_t at = strlen(text);
        unsigned long long capacity = files[i].capacity ? files[i].capacity : files[i].length;
        snprintf(text + at, sizeof text - at, "%s=%llu/%llu ", files[i].name, (unsigned long long)files[i].length,
                 capacity);
    }
    make_volume_of(layout, records, text);
    unsigned char *written = bytes_of(&theirs);
    remove_volume();
    WANT_CODE(famsync_format(volume, &plan), FAMSYNC_OK);
    unsigned char *made = bytes_of(&ours);
    WANT(ours == theirs && memcmp(made, written, ours) == 0);
    free(made);
    free(written);
}

static void each_layout(void)
{
    static char names[64][33];
    for (unsigned layout = FIRST_LAYOUT; layout <= LAYOUTS; layout++) {
        files[0] = (struct famsync_new_file){"a", 1, 0};
        same_bytes(layout, 1, 1);
        same_bytes(layout, 5000, 1);
        files[0] = (struct famsync_new_file){"!~names_of-32.characters,at+most", 8192, 8192};
        files[1] = (struct famsync_new_file){"b", 4097, 20000};
        files[2] = (struct famsync_new_file){"c", 0, 4096};
        same_bytes(layout, 20, 3);
        for (unsigned i = 0; i < 64; i++) {
            snprintf(names[i], sizeof names[i], "file-%u", i);
            files[i] = (struct famsync_new_file){names[i], 100 * i + 1, 0};
        }
        same_bytes(layout, 30, 64);
    }
}

/* What is made is used; by default it has layout 5. */
static void is_used(void)
{
    files[0] = (struct famsync_new_file){"a", 5000, 100000};
    struct famsync_plan plan = plan_of(0, 1000, 1);
    struct famsync_volume_info info = {.size = sizeof info};
    char found[5];
    remove_volume();
    WANT_CODE(famsync_format(volume, &plan), FAMSYNC_OK);
    famsync *handle = opened();
    WANT_CODE(famsync_volume_info(handle, &info), FAMSYNC_OK);
    WANT(info.layout == 5 && info.log == log_blocks(1000));
    WANT(famsync_frames(handle) == 999 && famsync_files(handle) == 1 && famsync_file_length(handle, 0) == 5000);
    WANT_CODE(famsync_setlength(handle, "a", 100000), FAMSYNC_OK);
    WANT_CODE(famsync_setlength(handle, "a", 100001), FAMSYNC_EINVAL);
    WANT_CODE(famsync_write(handle, 0, 99995, "hello", 5, NULL), FAMSYNC_OK);
    WANT_CODE(famsync_msync(handle, NULL), FAMSYNC_OK);
    WANT_CODE(famsync_close(handle), FAMSYNC_OK);
    handle = opened();
    WANT_CODE(famsync_read(handle, 0, 99995, found, 5, NULL), FAMSYNC_OK);
    WANT(memcmp(found, "hello", 5) == 0 && famsync_file_length(handle, 0) == 100000);
    WANT_CODE(famsync_close(handle), FAMSYNC_OK);
}

/* By default it has a log of 64 MB, and in layout 6 a key that is drawn. */
static void has_default_log(unsigned layout)
{
    unsigned char key[2][8];
    files[0] = (struct famsync_new_file){"a", 5000, 100000};
    struct famsync_plan plan = plan_of(layout, 1, 1);
    plan.log = 0;
    plan.key = 0;
    for (unsigned i = 0; i < 2; i++) {
        remove_volume();
        WANT_CODE(famsync_format(volume, &plan), FAMSYNC_OK);
        int file = open(volume, O_RDONLY | O_CLOEXEC);
        WANT(file >= 0 && number_at(file, 12, 4) == 16384 && pread(file, key[i], 8, 24) == 8 && close(file) == 0);
        famsync *handle = opened();
        WANT(famsync_frames(handle) == 16366);
        WANT_CODE(famsync_write(handle, 0, 0, "hello", 5, NULL), FAMSYNC_OK);
        WANT_CODE(famsync_msync(handle, NULL), FAMSYNC_OK);
        WANT_CODE(famsync_close(handle), FAMSYNC_OK);
    }
    WANT((memcmp(key[0], key[1], 8) != 0) == (layout == 6));
}

static void is_refused(const struct famsync_plan *plan, const char *why)
{
    message[0] = 0;
    WANT_CODE(famsync_format(volume, plan), FAMSYNC_ARGUMENT);
    WANT(strstr(message, why) != NULL && !is_there(volume) && !is_there(beside(".new")));
}

static void bad_files(unsigned layout, struct famsync_new_file file, const char *why)
{
    struct famsync_plan plan = plan_of(layout, 20, 1);
    files[0] = file;
    is_refused(&plan, why);
    files[1] = file;
    files[0] = (struct famsync_new_file){"other", 1, 0};
    plan.files = 2;
    is_refused(&plan, why);
}

/* A log that is too short or too long, and a key in the layout without one. */
static void bad_logs(unsigned layout)
{
    struct famsync_plan plan = plan_of(layout, 20, 1);
    plan.log = 3;
    is_refused(&plan, "4 to");
    plan.log = (1u << 24) + 1;
    is_refused(&plan, "4 to");
    if (layout != 6) {
        plan = plan_of(layout, 20, 1);
        plan.key = 1;
        is_refused(&plan, "key");
    }
}

static void refusals(void)
{
    struct famsync_plan plan = plan_of(FIRST_LAYOUT, 20, 1);
    struct {
        struct famsync_plan plan;
        char more;
    } longer = {.plan = plan};
    remove_volume();
    files[0] = (struct famsync_new_file){"a", 1, 0};
    WANT_CODE(famsync_format(NULL, &plan), FAMSYNC_ARGUMENT);
    WANT_CODE(famsync_format("", &plan), FAMSYNC_ARGUMENT);
    WANT_CODE(famsync_format(volume, NULL), FAMSYNC_ARGUMENT);
    plan.size = 0;
    WANT_CODE(famsync_format(volume, &plan), FAMSYNC_ARGUMENT);
    longer.plan.size = sizeof longer;
    longer.more = 1;
    WANT_CODE(famsync_format(volume, &longer.plan), FAMSYNC_ARGUMENT);
    for (unsigned layout = FIRST_LAYOUT; layout <= LAYOUTS; layout++) {
        bad_logs(layout);
        plan = plan_of(layout, 20, 0);
        is_refused(&plan, "files");
        plan = plan_of(layout, 20, 65);
        is_refused(&plan, "files");
        plan = plan_of(layout, 20, 1);
        plan.file = NULL;
        is_refused(&plan, "files");
        bad_files(layout, (struct famsync_new_file){NULL, 1, 0}, "name");
        bad_files(layout, (struct famsync_new_file){"", 1, 0}, "name");
        bad_files(layout, (struct famsync_new_file){"two words", 1, 0}, "name");
        bad_files(layout, (struct famsync_new_file){"caf\xc3\xa9", 1, 0}, "name");
        bad_files(layout, (struct famsync_new_file){"123456789012345678901234567890123", 1, 0}, "name");
        bad_files(layout, (struct famsync_new_file){"a", 0, 0}, "at least 1");
        bad_files(layout, (struct famsync_new_file){"a", 2, 1}, "capacity");
        bad_files(layout, (struct famsync_new_file){"a", UINT64_MAX, 0}, "blocks");
        bad_files(layout, (struct famsync_new_file){"a", (uint64_t)UINT32_MAX * 4096, 0}, "blocks");
        files[0] = files[1] = (struct famsync_new_file){"a", 1, 0};
        plan = plan_of(layout, 20, 2);
        is_refused(&plan, "same name");
    }
    for (unsigned layout = 1; layout <= LAYOUTS + 1; layout += layout == FIRST_LAYOUT - 1 ? 3 : 1) {
        plan = plan_of(layout, 20, 1);
        is_refused(&plan, "layout must be 5 or 6");
    }
    plan = plan_of(FIRST_LAYOUT, 20, 1);
    plan.size = offsetof(struct famsync_plan, log); /* as an older program has it, whose bytes behind are others */
    plan.log = 5;
    WANT_CODE(famsync_format(volume, &plan), FAMSYNC_OK);
    remove_volume();
    longer.plan = plan_of(FIRST_LAYOUT, 1, 1);
    longer.plan.size = sizeof longer;
    longer.more = 0;
    WANT_CODE(famsync_format(volume, &longer.plan), FAMSYNC_OK);
    remove_volume();
}

static void fails_with(const char *path, const struct famsync_plan *plan, int error)
{
    message[0] = 0;
    WANT_CODE(famsync_format(path, plan), FAMSYNC_SYSTEM);
    WANT(errno == error && strstr(message, strerror(error)) != NULL);
}

/* What has the name stays. */
static void names(void)
{
    static char path[400];
    size_t before, after;
    struct famsync_plan plan = plan_of(FIRST_LAYOUT, 20, 1);
    files[0] = (struct famsync_new_file){"a", 4096, 0};
    make_volume_of(FIRST_LAYOUT, 20, "other=5000");
    unsigned char *was = bytes_of(&before);
    fails_with(volume, &plan, EEXIST);
    unsigned char *is = bytes_of(&after);
    WANT(before == after && memcmp(was, is, before) == 0);
    free(was);
    free(is);
    remove_volume();
    fails_with(folder, &plan, EEXIST);
    snprintf(path, sizeof path, "%s/", folder);
    fails_with(path, &plan, EEXIST);
    snprintf(path, sizeof path, "%s/no/v.img", folder);
    fails_with(path, &plan, ENOENT);
    WANT(symlink("nowhere", volume) == 0);
    fails_with(volume, &plan, ENOENT);
    WANT(unlink(volume) == 0);
    snprintf(path, sizeof path, "%s/%0248d", folder, 0);
    fails_with(path, &plan, ENAMETOOLONG);
    snprintf(path, sizeof path, "%s/%0247d", folder, 0);
    WANT_CODE(famsync_format(path, &plan), FAMSYNC_OK);
    famsync *handle;
    WANT_CODE(famsync_open(path, NULL, &handle), FAMSYNC_OK);
    WANT_CODE(famsync_close(handle), FAMSYNC_OK);
    WANT(unlink(path) == 0);
    /* a flag that an earlier volume of this name left */
    int file = open(beside(".suspect"), O_WRONLY | O_CREAT | O_CLOEXEC, 0600);
    WANT(file >= 0 && close(file) == 0);
    WANT_CODE(famsync_format(volume, &plan), FAMSYNC_OK);
    WANT(!is_there(beside(".suspect")));
    handle = opened();
    WANT_CODE(famsync_close(handle), FAMSYNC_OK);
    remove_volume();
    /* a file that another one makes */
    if (!all_are_named)
        return;
    file = open(beside(".new"), O_WRONLY | O_CREAT | O_CLOEXEC, 0600);
    WANT(file >= 0 && close(file) == 0);
    fails_with(volume, &plan, EEXIST);
    WANT(is_there(beside(".new")) && unlink(beside(".new")) == 0);
}

/* One of several that make a volume of one name does. */
static void *make_it(void *argument)
{
    struct famsync_new_file file = {"a", 100000, 0};
    struct famsync_plan plan = {.size = sizeof plan, .files = 1, .file = &file};
    int code = famsync_format(volume, &plan);
    (void)argument;
    WANT(code == FAMSYNC_OK || (code == FAMSYNC_SYSTEM && errno == EEXIST));
    return (void *)(uintptr_t)(code == FAMSYNC_OK);
}

static void at_once(void)
{
    pthread_t thread[4];
    for (unsigned round = 0; round < 10; round++) {
        uintptr_t made = 0;
        remove_volume();
        for (unsigned i = 0; i < 4; i++)
            WANT(pthread_create(&thread[i], NULL, make_it, NULL) == 0);
        for (unsigned i = 0; i < 4; i++) {
            void *one;
            WANT(pthread_join(thread[i], &one) == 0);
            made += (uintptr_t)one;
        }
        WANT(made == 1);
        famsync *handle = opened();
        WANT_CODE(famsync_close(handle), FAMSYNC_OK);
    }
    remove_volume();
}

/* A large file takes no blocks of the disk; or all, if it is asked for. */
static void large(void)
{
    struct stat found;
    struct famsync_plan plan = plan_of(FIRST_LAYOUT, 20, 1);
    files[0] = (struct famsync_new_file){"a", (uint64_t)8 << 30, (uint64_t)16 << 30};
    WANT_CODE(famsync_format(volume, &plan), FAMSYNC_OK);
    WANT(stat(volume, &found) == 0 && found.st_size > (off_t)16 << 30 && found.st_blocks < 2048);
    famsync *handle = opened();
    WANT(famsync_file_length(handle, 0) == (uint64_t)8 << 30);
    WANT_CODE(famsync_write(handle, 0, ((uint64_t)8 << 30) - 1, "x", 1, NULL), FAMSYNC_OK);
    WANT_CODE(famsync_msync(handle, NULL), FAMSYNC_OK);
    WANT_CODE(famsync_close(handle), FAMSYNC_OK);
    WANT(stat(volume, &found) == 0 && found.st_blocks < 2048);
    remove_volume();
    files[0] = (struct famsync_new_file){"a", 1000000, 0};
    plan = plan_of(FIRST_LAYOUT, 20, 1);
    plan.preallocate = 1;
    WANT_CODE(famsync_format(volume, &plan), FAMSYNC_OK);
    WANT(stat(volume, &found) == 0 && found.st_blocks * 512 >= found.st_size);
    remove_volume();
}

/* A file that may not be so long. */
static void limited(void)
{
    struct famsync_plan plan = plan_of(FIRST_LAYOUT, 20, 1);
    files[0] = (struct famsync_new_file){"a", 1000000, 0};
    int status;
    pid_t child = fork();
    if (child == 0) {
        struct rlimit limit = {100000, 100000};
        signal(SIGXFSZ, SIG_IGN);
        WANT(setrlimit(RLIMIT_FSIZE, &limit) == 0);
        fails_with(volume, &plan, EFBIG);
        _exit(0);
    }
    WANT(waitpid(child, &status, 0) == child && status == 0);
    WANT(!is_there(volume) && !is_there(beside(".new")));
}

int main(void)
{
    make_folder();
    for (int way = 0; way < 2; way++) {
        all_are_named = way == 1;
        each_layout();
        is_used();
        for (unsigned layout = FIRST_LAYOUT; layout <= LAYOUTS; layout++)
            has_default_log(layout);
        refusals();
        names();
        at_once();
        large();
        limited();
    }
    printf("clients/c: format: as it should be\n");
    return 0;
}
