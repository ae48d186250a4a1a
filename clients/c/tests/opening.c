/* What is no volume isn't opened, by its own code, and isn't changed; nor is one that somebody has, by whatever name.
 */
#include "test.h"

#include <sys/file.h>
#include <sys/resource.h>
#include <sys/syscall.h>

static char other[100], flag[100];

/* How often the volume's name is given to another file just before a file is locked: to `other`, which is made where it
   isn't there. */
static unsigned replacing;

int flock(int file, int operation)
{
    if (replacing > 0 && operation & LOCK_EX) {
        int made = open(other, O_WRONLY | O_CREAT | O_CLOEXEC, 0600);
        WANT(made >= 0 && close(made) == 0 && rename(other, volume) == 0);
        replacing--;
    }
    return (int)syscall(SYS_flock, file, operation);
}

/* How many descriptors this process has. */
static unsigned descriptors(void)
{
    unsigned count = 0;
    for (int file = 0; file < 64; file++)
        count += fcntl(file, F_GETFD) != -1;
    return count;
}

/* The bytes of the volume's file, as one number. */
static uint64_t sum_of_volume(void)
{
    unsigned char bytes[4096];
    uint64_t sum = 14695981039346656037u;
    ssize_t got;
    int file = open(volume, O_RDONLY | O_CLOEXEC);
    while (file >= 0 && (got = read(file, bytes, sizeof bytes)) > 0)
        for (ssize_t i = 0; i < got; i++)
            sum = (sum ^ bytes[i]) * 1099511628211u;
    WANT(file < 0 || close(file) == 0);
    return sum;
}

/* What an open answers; where it is refused, the volume's file is as before. */
static int code_of(const char *path)
{
    famsync *handle = (famsync *)1;
    char message[FAMSYNC_MESSAGE_SIZE] = "";
    struct famsync_options options = {.message = message, .message_size = sizeof message};
    unsigned before = descriptors();
    uint64_t sum = sum_of_volume();
    int code = famsync_open(path, &options, &handle), error = errno;
    WANT(code == FAMSYNC_OK ? famsync_close(handle) == FAMSYNC_OK : handle == NULL && strlen(message) > 0);
    WANT(code == FAMSYNC_OK || replacing > 0 || sum_of_volume() == sum);
    WANT(descriptors() == before);
    errno = error;
    return code;
}

static void arguments(void)
{
    famsync *handle = (famsync *)1;
    unsigned char byte = 0;
    WANT_CODE(famsync_open(NULL, NULL, &handle), FAMSYNC_ARGUMENT);
    WANT_CODE(famsync_open("", NULL, &handle), FAMSYNC_ARGUMENT);
    WANT_CODE(famsync_open(volume, NULL, NULL), FAMSYNC_ARGUMENT);
    WANT(handle == NULL);
    WANT_CODE(famsync_msync(NULL, NULL), FAMSYNC_ARGUMENT);
    WANT_CODE(famsync_read(NULL, 0, 0, &byte, 1, NULL), FAMSYNC_ARGUMENT);
    WANT_CODE(famsync_write(NULL, 0, 0, &byte, 1, NULL), FAMSYNC_ARGUMENT);
    WANT_CODE(famsync_stat(NULL, &(struct famsync_stat){.size = sizeof(struct famsync_stat)}), FAMSYNC_ARGUMENT);
    WANT_CODE(famsync_backup(NULL, 1), FAMSYNC_ARGUMENT);
    WANT_CODE(famsync_close(NULL), FAMSYNC_OK);
    WANT_CODE(famsync_memory_close(NULL), FAMSYNC_OK);
    WANT(famsync_files(NULL) == 0 && famsync_frames(NULL) == 0 && famsync_acknowledged(NULL) == 0);
    for (int code = -50; code < 2; code++)
        WANT(strlen(famsync_strerror(code)) > 0);
    handle = opened();
    WANT_CODE(famsync_read(handle, 0, 0, NULL, 1, NULL), FAMSYNC_ARGUMENT);
    WANT_CODE(famsync_write(handle, 0, 0, NULL, 1, NULL), FAMSYNC_ARGUMENT);
    WANT_CODE(famsync_setlength(handle, NULL, 1), FAMSYNC_ARGUMENT);
    WANT_CODE(famsync_memory_open(handle, "a", NULL), FAMSYNC_ARGUMENT);
    WANT_CODE(famsync_close(handle), FAMSYNC_OK);
}

static void other_files(void)
{
    snprintf(other, sizeof other, "%s/other", folder);
    WANT_CODE(code_of("/nowhere/v.img"), FAMSYNC_SYSTEM);
    WANT(errno == ENOENT);
    WANT_CODE(code_of("/dev/null"), FAMSYNC_NOTREGULAR);
    WANT_CODE(code_of(folder), FAMSYNC_NOTREGULAR);
    WANT(mkfifo(other, 0600) == 0);
    WANT_CODE(code_of(other), FAMSYNC_NOTREGULAR);
    WANT(unlink(other) == 0);
    WANT(symlink("nowhere", other) == 0);
    WANT_CODE(code_of(other), FAMSYNC_SYSTEM);
    WANT(unlink(other) == 0);
}

static void set_bytes(off_t at, const char *bytes, size_t count)
{
    int file = open(volume, O_WRONLY | O_CLOEXEC);
    WANT(file >= 0 && pwrite(file, bytes, count, at) == (ssize_t)count && close(file) == 0);
}

static void spoilt_volumes(void)
{
    WANT(truncate(volume, 0) == 0);
    WANT_CODE(code_of(volume), FAMSYNC_NOTAVOLUME);
    WANT(truncate(volume, 4095) == 0);
    WANT_CODE(code_of(volume), FAMSYNC_NOTAVOLUME);
    WANT(truncate(volume, 1 << 20) == 0);
    WANT_CODE(code_of(volume), FAMSYNC_NOTAVOLUME);
    make_volume(16, "a=65536");
    set_bytes(0, "FAMSYNC9", 8);
    WANT_CODE(code_of(volume), FAMSYNC_NOTAVOLUME);
    make_volume(16, "a=65536");
    set_bytes(8, "\377\377\377\377", 4); /* files */
    WANT_CODE(code_of(volume), FAMSYNC_DAMAGED);
    make_volume(16, "a=65536");
    set_bytes(12, "\377\377\377\377", 4); /* blocks of the log */
    WANT_CODE(code_of(volume), FAMSYNC_DAMAGED);
    make_volume(16, "a=65536");
    set_bytes(16, "\377\377\377\377", 4); /* blocks */
    WANT_CODE(code_of(volume), FAMSYNC_DAMAGED);
    make_volume(16, "a=65536");
    set_bytes(64, "\377\377\377\377\377\377\377\377", 8); /* a capacity */
    WANT_CODE(code_of(volume), FAMSYNC_DAMAGED);
}

/* A file that begins as a volume with journals, and zeros. */
static void make_journals(unsigned layout)
{
    char magic[20];
    int file = open(volume, O_WRONLY | O_CREAT | O_TRUNC | O_CLOEXEC, 0600);
    WANT(file >= 0 && ftruncate(file, 40960) == 0 && close(file) == 0);
    snprintf(magic, sizeof magic, "FAMSYNC%u", layout);
    set_bytes(0, magic, 8);
}

/* Whether it is refused by its own code, and both texts have the layout and the command that copies the volume. */
static void want_copied(unsigned layout, struct famsync_options options)
{
    char message[FAMSYNC_MESSAGE_SIZE] = "", wanted[200];
    famsync *handle = (famsync *)1;
    uint64_t sum = sum_of_volume();
    snprintf(wanted, sizeof wanted, ": this volume has layout %u; copy it with `famsync migrate --layout 5 OLD NEW`",
             layout);
    options.message = message;
    options.message_size = sizeof message;
    WANT_CODE(famsync_open(volume, &options, &handle), FAMSYNC_LAYOUT);
    WANT(handle == NULL && strstr(message, wanted) && strstr(famsync_error(NULL), wanted + 1));
    WANT(strstr(message, volume) && sum_of_volume() == sum);
}

/* Volumes with journals, also with a suspect flag, which stays. */
static void other_layouts(void)
{
    snprintf(flag, sizeof flag, "%s/v.img.suspect", folder);
    for (unsigned layout = 0; layout < 10; layout++) {
        make_journals(layout);
        if (layout < 1 || layout >= FIRST_LAYOUT) {
            WANT_CODE(code_of(volume), layout < 1 || layout > LAYOUTS ? FAMSYNC_NOTAVOLUME : FAMSYNC_DAMAGED);
            continue;
        }
        want_copied(layout, (struct famsync_options){0});
        want_copied(layout, (struct famsync_options){.readonly = 1});
        int file = open(flag, O_WRONLY | O_CREAT | O_CLOEXEC, 0600);
        WANT(file >= 0 && close(file) == 0);
        want_copied(layout, (struct famsync_options){.trust = 1});
        want_copied(layout, (struct famsync_options){.readonly = 1});
        WANT(access(flag, F_OK) == 0 && unlink(flag) == 0);
    }
    make_volume(16, "a=65536");
}

/* A volume with a log of 20 blocks in which these bytes are other ones. */
static int code_of_log(unsigned layout, off_t at, const char *bytes, size_t count)
{
    make_volume_of(layout, 18, "a=65536");
    set_bytes(at, bytes, count);
    return code_of(volume);
}

/* The super block of a volume with a log, and its starts. Behind the start that counts there may be anything in layout
   6, whose digest tells it from a commit; in layout 5 a seal has to be a commit's. */
static void spoilt_logs(void)
{
    for (unsigned layout = FIRST_LAYOUT; layout <= LAYOUTS; layout++) {
        WANT_CODE(code_of_log(layout, 12, "\0\0\0\24", 4), FAMSYNC_OK);
        WANT_CODE(code_of_log(layout, 12, "\0\0\0\3", 4), FAMSYNC_DAMAGED); /* blocks of the log */
        WANT_CODE(code_of_log(layout, 12, "\1\0\0\1", 4), FAMSYNC_DAMAGED);
        WANT_CODE(code_of_log(layout, 12, "\0\0\0\25", 4), FAMSYNC_DAMAGED);
        WANT_CODE(code_of_log(layout, 20, "\0\0\0\5", 4), FAMSYNC_DAMAGED);                      /* where it begins */
        WANT_CODE(code_of_log(layout, 24, "\1", 1), layout == 6 ? FAMSYNC_OK : FAMSYNC_DAMAGED); /* the key */
        WANT_CODE(code_of_log(layout, 8192, "\0\0\0\0\0\0\0\0", 8), FAMSYNC_DAMAGED); /* the number of a commit */
        WANT_CODE(code_of_log(layout, 8200, "\0\0\0\0\0\0\0\0", 8), FAMSYNC_DAMAGED); /* the epoch */
        WANT_CODE(code_of_log(layout, 8208, "\0\0\0\23", 4), FAMSYNC_OK);             /* the position */
        WANT_CODE(code_of_log(layout, 8208, "\0\0\0\24", 4), FAMSYNC_DAMAGED);
        WANT_CODE(code_of_log(layout, 8292, "\1", 1), FAMSYNC_DAMAGED);   /* behind it */
        WANT_CODE(code_of_log(layout, 4096, "\247", 1), FAMSYNC_DAMAGED); /* the other start, which is none */
        WANT_CODE(code_of_log(layout, 4096, "\1", 1), FAMSYNC_OK);
        WANT_CODE(code_of_log(layout, 16384, "\247", 1), layout == 6 ? FAMSYNC_OK : FAMSYNC_DAMAGED); /* a seal */
        WANT_CODE(code_of_log(layout, 16385, "\247", 1), FAMSYNC_OK);
    }
}

static void other_lengths(void)
{
    struct stat found;
    make_volume(16, "a=65536");
    WANT(stat(volume, &found) == 0);
    WANT(truncate(volume, found.st_size - 1) == 0);
    WANT_CODE(code_of(volume), FAMSYNC_DAMAGED);
    for (off_t blocks = 1; blocks < found.st_size / 4096; blocks++) {
        WANT(truncate(volume, blocks * 4096) == 0);
        make_volume(16, "a=65536");
        WANT(truncate(volume, blocks * 4096) == 0);
        WANT_CODE(code_of(volume), FAMSYNC_DAMAGED);
    }
    make_volume(16, "a=65536");
    WANT(truncate(volume, found.st_size + 5000) == 0);
    WANT_CODE(code_of(volume), FAMSYNC_OK);
    make_volume(16, "a=65536");
}

static void other_names(void)
{
    WANT(symlink("v.img", other) == 0);
    WANT_CODE(code_of(other), FAMSYNC_OK);
    /* the suspect flag of what a link leads to is beside that */
    snprintf(flag, sizeof flag, "%s/v.img.suspect", folder);
    int file = open(flag, O_WRONLY | O_CREAT | O_CLOEXEC, 0600);
    WANT(file >= 0 && close(file) == 0);
    WANT_CODE(code_of(other), FAMSYNC_SUSPECT);
    WANT(unlink(flag) == 0 && unlink(other) == 0);
    WANT(link(volume, other) == 0);
    WANT_CODE(code_of(volume), FAMSYNC_NAMES);
    WANT_CODE(code_of(other), FAMSYNC_NAMES);
    WANT(unlink(other) == 0);
    WANT_CODE(code_of(volume), FAMSYNC_OK);
}

static void flagged(void)
{
    famsync *handle;
    int file = open(flag, O_WRONLY | O_CREAT | O_CLOEXEC, 0600);
    WANT(file >= 0 && close(file) == 0);
    WANT_CODE(code_of(volume), FAMSYNC_SUSPECT);
    WANT(access(flag, F_OK) == 0);
    handle = opened_with((struct famsync_options){.trust = 1});
    WANT(access(flag, F_OK) != 0);
    WANT_CODE(famsync_close(handle), FAMSYNC_OK);
    WANT_CODE(code_of(volume), FAMSYNC_OK);
}

static void in_use(void)
{
    famsync *handle = opened(), *same;
    int status;
    WANT_CODE(famsync_open(volume, NULL, &same), FAMSYNC_INUSE);
    pid_t child = fork();
    if (child == 0)
        _exit(famsync_open(volume, NULL, &same) == FAMSYNC_INUSE ? 0 : 1);
    WANT(waitpid(child, &status, 0) == child && status == 0);
    WANT_CODE(famsync_close(handle), FAMSYNC_OK);
    /* one who reads it is in the way, too */
    int file = open(volume, O_RDONLY | O_CLOEXEC);
    WANT(file >= 0 && flock(file, LOCK_SH | LOCK_NB) == 0);
    WANT_CODE(code_of(volume), FAMSYNC_INUSE);
    WANT(close(file) == 0);
    WANT_CODE(code_of(volume), FAMSYNC_OK);
}

/* Another descriptor of the volume that is open: as one that a process has which was forked and isn't another program
   yet. */
static int other_descriptor(void)
{
    struct stat wanted, found;
    int file = 3;
    WANT(stat(volume, &wanted) == 0);
    while (fstat(file, &found) != 0 || found.st_dev != wanted.st_dev || found.st_ino != wanted.st_ino)
        WANT(++file < 64);
    return dup(file);
}

/* What was closed isn't in use, whoever has a descriptor of it. */
static void unlocked(void)
{
    famsync *handle = opened();
    int file = other_descriptor();
    WANT_CODE(famsync_close(handle), FAMSYNC_OK);
    WANT_CODE(code_of(volume), FAMSYNC_OK);
    WANT(close(file) == 0);
}

/* The file that is opened is the one that has the name when it is locked. */
static void replaced(void)
{
    famsync *handle;
    unsigned char byte = 0;
    make_volume(16, "b=4096");
    WANT(rename(volume, other) == 0);
    make_volume(16, "a=65536");
    replacing = 1;
    handle = opened();
    WANT(strcmp(famsync_file_name(handle, 0), "b") == 0 && famsync_files(handle) == 1);
    WANT_CODE(famsync_read(handle, 0, 0, &byte, 1, NULL), FAMSYNC_OK);
    WANT_CODE(famsync_close(handle), FAMSYNC_OK);
    replacing = 1000;
    WANT_CODE(code_of(volume), FAMSYNC_REPLACED);
    replacing = 0;
    make_volume(16, "a=65536");
}

static void shapes(void)
{
    famsync *handle;
    struct famsync_options options = {.frames = 17};
    WANT_CODE(famsync_open(volume, &options, &handle), FAMSYNC_SHAPE);
    for (unsigned copies = 0; copies < 80; copies += 65) { /* no number of copies matters */
        handle = opened_with((struct famsync_options){.frames = 3, .copies = copies});
        WANT(famsync_frames(handle) == 3);
        WANT_CODE(famsync_close(handle), FAMSYNC_OK);
    }
    handle = opened_with((struct famsync_options){.frames = 16});
    WANT(famsync_frames(handle) == 16);
    WANT_CODE(famsync_close(handle), FAMSYNC_OK);
}

static void closed_descriptors(void)
{
    pid_t child = fork();
    int status;
    if (child == 0) {
        for (int file = 0; file < 3; file++)
            close(file);
        famsync *handle = opened();
        for (int file = 0; file < 3; file++)
            WANT(fcntl(file, F_GETFD) == -1);
        WANT_CODE(famsync_close(handle), FAMSYNC_OK);
        _exit(0);
    }
    WANT(waitpid(child, &status, 0) == child && WIFEXITED(status) && WEXITSTATUS(status) == 0);
    /* and where there is no descriptor left */
    struct rlimit before, few;
    WANT(getrlimit(RLIMIT_NOFILE, &before) == 0);
    for (rlim_t limit = 3; limit < 9; limit++) {
        famsync *handle;
        few = before;
        few.rlim_cur = limit;
        WANT(setrlimit(RLIMIT_NOFILE, &few) == 0);
        int code = famsync_open(volume, NULL, &handle);
        WANT(setrlimit(RLIMIT_NOFILE, &before) == 0);
        WANT(code == FAMSYNC_OK ? famsync_close(handle) == FAMSYNC_OK : code == FAMSYNC_SYSTEM && handle == NULL);
    }
}

int main(void)
{
    make_volume(16, "a=65536");
    arguments();
    other_files();
    spoilt_volumes();
    other_layouts();
    spoilt_logs();
    other_lengths();
    other_names();
    flagged();
    in_use();
    unlocked();
    replaced();
    shapes();
    closed_descriptors();
    printf("clients/c: opening: as it should be\n");
    return 0;
}
