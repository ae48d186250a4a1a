/* Backups: a volume of its own, with the files of the last acknowledged commit, also beside commits of other threads;
   and what is refused.

   usage: backup [PATH]     with a path, the last backup is left there */
#include "test.h"

#include <stdatomic.h>
#include <sys/file.h>
#include <sys/syscall.h>
#include <sys/uio.h>

#define SLOTS 40u

static char path[100];

/* Writes and reads of the backup or the volume fail by this errno from a moment on, where it isn't 0: writes to the
   backup once so many were made, and reads of the volume. */
static atomic_int write_error, read_error;
static atomic_int writes_left;
/* What is done as a write to the backup is made, once. */
static _Atomic(void (*)(void)) meanwhile;

ssize_t pwrite(int file, const void *bytes, size_t count, off_t offset)
{
    void (*now)(void) = atomic_exchange(&meanwhile, NULL);
    if (now)
        now();
    if (atomic_load(&write_error) != 0 && atomic_fetch_sub(&writes_left, 1) <= 0) {
        errno = atomic_load(&write_error);
        return -1;
    }
    return syscall(SYS_pwrite64, file, bytes, count, offset);
}

ssize_t pread(int file, void *bytes, size_t count, off_t offset)
{
    if (atomic_load(&read_error) != 0) {
        errno = atomic_load(&read_error);
        return -1;
    }
    return syscall(SYS_pread64, file, bytes, count, offset);
}

static int new_file(void)
{
    int file = open(path, O_RDWR | O_CREAT | O_CLOEXEC, 0600);
    WANT(file >= 0);
    return file;
}

static famsync *opened_backup(int readonly)
{
    char message[FAMSYNC_MESSAGE_SIZE] = "";
    struct famsync_options options = {.readonly = readonly, .message = message, .message_size = sizeof message};
    famsync *backup;
    int code = famsync_open(path, &options, &backup);
    if (code != FAMSYNC_OK)
        fprintf(stderr, "it said: %s\n", message);
    WANT_CODE(code, FAMSYNC_OK);
    return backup;
}

/* Nothing of it is left to a writer: a reader opens it, which writes nothing. */
static void want_file(unsigned number, const unsigned char *bytes, size_t count)
{
    unsigned char *found = malloc(count + 1);
    size_t done;
    famsync *backup = opened_backup(1);
    WANT(found && famsync_file_length(backup, number) == count);
    WANT_CODE(famsync_read(backup, number, 0, found, count + 1, &done), FAMSYNC_OK);
    WANT(done == count && memcmp(found, bytes, count) == 0);
    WANT_CODE(famsync_close(backup), FAMSYNC_OK);
    free(found);
}

/* The files as they were committed; what waits for a commit isn't in it. The file had other bytes, and more. */
static void holds_what_was_committed(unsigned layout)
{
    static unsigned char bytes[100000], other[300000];
    int file = new_file();
    memset(other, 0xEE, sizeof other);
    WANT(write(file, other, sizeof other) == (ssize_t)sizeof other);
    make_volume_of(layout, SLOTS, "a=100000 b=5000/9000");
    famsync *handle = opened_with((struct famsync_options){.foreground = 1});
    for (size_t i = 0; i < sizeof bytes; i++)
        bytes[i] = (unsigned char)(i * 7 + i / 4096 * 13 + 1);
    memset(bytes + 40000, 0, 20000);
    WANT_CODE(famsync_write(handle, 0, 0, bytes, sizeof bytes, NULL), FAMSYNC_OK);
    WANT_CODE(famsync_setlength(handle, "b", 8999), FAMSYNC_OK);
    WANT_CODE(famsync_msync(handle, NULL), FAMSYNC_OK);
    WANT_CODE(famsync_write(handle, 0, 0, other, 5000, NULL), FAMSYNC_OK);
    WANT_CODE(famsync_write(handle, 1, 0, other, 10, NULL), FAMSYNC_OK);
    WANT_CODE(famsync_backup(handle, file), FAMSYNC_OK);
    WANT(close(file) == 0);
    want_file(0, bytes, sizeof bytes);
    memset(other, 0, sizeof other);
    want_file(1, other, 8999);
    WANT_CODE(famsync_msync(handle, NULL), FAMSYNC_OK);
    WANT_CODE(famsync_close(handle), FAMSYNC_OK);
}

/* Opens a volume, commits a byte if it isn't 0, and leaves the volume as a crash would. */
static void leave(const char *name, char byte)
{
    const struct famsync_options options = {.foreground = 1};
    int status;
    pid_t child = fork();
    if (child == 0) {
        famsync *handle;
        WANT_CODE(famsync_open(name, &options, &handle), FAMSYNC_OK);
        if (byte != 0)
            WANT_CODE(famsync_write(handle, 0, 0, &byte, 1, NULL), FAMSYNC_OK);
        WANT_CODE(famsync_msync(handle, NULL), FAMSYNC_OK);
        _exit(0);
    }
    WANT(waitpid(child, &status, 0) == child && status == 0);
}

static char first_byte(const char *name)
{
    famsync *handle;
    char byte;
    WANT_CODE(famsync_open(name, NULL, &handle), FAMSYNC_OK);
    WANT_CODE(famsync_read(handle, 0, 0, &byte, 1, NULL), FAMSYNC_OK);
    WANT_CODE(famsync_close(handle), FAMSYNC_OK);
    return byte;
}

static uint64_t key_of(const char *name)
{
    int file = open(name, O_RDONLY | O_CLOEXEC);
    uint64_t key = number_at(file, 24, 8);
    WANT(close(file) == 0);
    return key;
}

/* Copies blocks from one file to the other. */
static void copy_blocks(const char *from, const char *to, uint32_t first, uint32_t count)
{
    unsigned char block[4096];
    int source = open(from, O_RDONLY | O_CLOEXEC), target = open(to, O_RDWR | O_CREAT | O_CLOEXEC, 0600);
    for (uint32_t i = first; i < first + count; i++)
        WANT(pread(source, block, 4096, (off_t)i * 4096) == 4096 &&
             pwrite(target, block, 4096, (off_t)i * 4096) == 4096);
    WANT(close(source) == 0 && close(target) == 0);
}

/* Two backups of a volume have keys of their own, so no commit in the log of one is found in the other's. It would be
   found there if the keys were the same, as it is in a mere copy of the file. */
static void has_own_key(void)
{
    char name[3][120];
    make_volume_of(6, SLOTS, "a=8192");
    famsync *handle = opened();
    WANT_CODE(famsync_write(handle, 0, 0, "v", 1, NULL), FAMSYNC_OK);
    WANT_CODE(famsync_msync(handle, NULL), FAMSYNC_OK);
    for (unsigned i = 0; i < 3; i++)
        snprintf(name[i], sizeof name[i], "%s/own%u.img", folder, i);
    for (unsigned i = 0; i < 2; i++) {
        int file = open(name[i], O_RDWR | O_CREAT | O_CLOEXEC, 0600);
        WANT_CODE(famsync_backup(handle, file), FAMSYNC_OK);
        WANT(close(file) == 0);
    }
    WANT_CODE(famsync_close(handle), FAMSYNC_OK);
    copy_blocks(name[0], name[2], 0, first_home(SLOTS) + 3);
    WANT(key_of(volume) == LOG_KEY && key_of(name[0]) != LOG_KEY && key_of(name[1]) != LOG_KEY);
    WANT(key_of(name[0]) != key_of(name[1]) && key_of(name[0]) == key_of(name[2]));
    for (unsigned i = 0; i < 3; i++)
        leave(name[i], i == 0 ? 'w' : 0);
    for (unsigned i = 1; i < 3; i++)
        copy_blocks(name[0], name[i], 4, log_blocks(SLOTS));
    WANT(first_byte(name[0]) == 'w' && first_byte(name[1]) == 'v' && first_byte(name[2]) == 'w');
}

/* Journals and other zeros are holes. */
static void has_holes(void)
{
    struct stat found;
    int file = new_file();
    make_volume_of(FIRST_LAYOUT, 1020, "a=40960000");
    famsync *handle = opened();
    WANT_CODE(famsync_write(handle, 0, 20000000, "x", 1, NULL), FAMSYNC_OK);
    WANT_CODE(famsync_msync(handle, NULL), FAMSYNC_OK);
    WANT_CODE(famsync_backup(handle, file), FAMSYNC_OK);
    WANT(fstat(file, &found) == 0 && found.st_blocks * 512 < 200000 && close(file) == 0);
    WANT(found.st_size == (off_t)(first_home(1020) + 1 + 10000) * 4096);
    WANT_CODE(famsync_close(handle), FAMSYNC_OK);
    famsync *backup = opened_backup(0);
    unsigned char byte;
    WANT_CODE(famsync_read(backup, 0, 20000000, &byte, 1, NULL), FAMSYNC_OK);
    WANT(byte == 'x');
    WANT_CODE(famsync_close(backup), FAMSYNC_OK);
}

static famsync *session;

static void want_refused(int file, int code)
{
    struct stat before = {0}, after = {0};
    fstat(file, &before);
    WANT_CODE(famsync_backup(session, file), code);
    fstat(file, &after);
    WANT(before.st_size == after.st_size);
}

static void refusals(void)
{
    char other[120];
    int file = new_file(), pipes[2], again;
    make_volume_of(FIRST_LAYOUT, SLOTS, "a=100000");
    session = opened();
    want_refused(-1, FAMSYNC_ARGUMENT);
    errno = 0;
    want_refused(1000, FAMSYNC_SYSTEM);
    WANT(errno == EBADF && pipe(pipes) == 0);
    want_refused(pipes[1], FAMSYNC_ARGUMENT);
    again = open(path, O_RDONLY | O_CLOEXEC);
    want_refused(again, FAMSYNC_ARGUMENT);
    WANT(close(again) == 0 && (again = open(path, O_WRONLY | O_CLOEXEC)) >= 0);
    want_refused(again, FAMSYNC_ARGUMENT);
    WANT(close(again) == 0 && (again = open(path, O_RDWR | O_APPEND | O_CLOEXEC)) >= 0);
    want_refused(again, FAMSYNC_ARGUMENT);
    WANT(close(again) == 0 && (again = open(folder, O_RDONLY | O_CLOEXEC)) >= 0);
    want_refused(again, FAMSYNC_ARGUMENT);
    WANT(close(again) == 0 && (again = open(volume, O_RDWR | O_CLOEXEC)) >= 0);
    want_refused(again, FAMSYNC_ARGUMENT); /* the volume itself */
    WANT(close(again) == 0);
    snprintf(other, sizeof other, "%s/link.img", folder);
    WANT(link(volume, other) == 0 && (again = open(other, O_RDWR | O_CLOEXEC)) >= 0);
    want_refused(again, FAMSYNC_ARGUMENT); /* by another name */
    WANT(close(again) == 0 && unlink(other) == 0 && close(pipes[0]) == 0 && close(pipes[1]) == 0);
    WANT_CODE(famsync_backup(session, file), FAMSYNC_OK);
    famsync *backup = opened_backup(0);
    want_refused(file, FAMSYNC_INUSE); /* a volume that is in use */
    WANT_CODE(famsync_close(backup), FAMSYNC_OK);
    WANT_CODE(famsync_backup(session, file), FAMSYNC_OK);
    WANT_CODE(famsync_close(session), FAMSYNC_OK);
    WANT(close(file) == 0);
}

static void in_between(void)
{
    int file = open(volume, O_RDWR | O_CREAT | O_CLOEXEC, 0600);
    WANT_CODE(famsync_backup(session, file), FAMSYNC_BUSY);
    WANT(close(file) == 0);
    WANT_CODE(famsync_write(session, 0, 50000, "later", 5, NULL), FAMSYNC_OK);
    WANT_CODE(famsync_msync(session, NULL), FAMSYNC_OK);
    WANT_CODE(famsync_msync(session, NULL), FAMSYNC_OK);
}

/* Another backup is refused meanwhile; and a commit isn't, and overwrites what isn't copied yet. */
static void one_at_a_time(unsigned layout)
{
    static unsigned char bytes[2000000];
    int file = new_file();
    make_volume_of(layout, 1020, "a=2000000");
    session = opened_with((struct famsync_options){.foreground = 1});
    memset(bytes, 3, sizeof bytes);
    WANT_CODE(famsync_write(session, 0, 0, bytes, sizeof bytes, NULL), FAMSYNC_OK);
    WANT_CODE(famsync_msync(session, NULL), FAMSYNC_OK);
    atomic_store(&meanwhile, in_between);
    WANT_CODE(famsync_backup(session, file), FAMSYNC_OK);
    WANT(atomic_load(&meanwhile) == NULL);
    want_file(0, bytes, sizeof bytes);
    memcpy(bytes + 50000, "later", 5);
    WANT_CODE(famsync_backup(session, file), FAMSYNC_OK);
    want_file(0, bytes, sizeof bytes);
    WANT_CODE(famsync_close(session), FAMSYNC_OK);
    WANT(close(file) == 0);
}

static void write_all(void)
{
    static unsigned char bytes[2000000];
    memset(bytes, 7, sizeof bytes);
    WANT_CODE(famsync_write(session, 0, 0, bytes, sizeof bytes, NULL), FAMSYNC_OK);
    WANT_CODE(famsync_msync(session, NULL), FAMSYNC_OK);
    WANT_CODE(famsync_msync(session, NULL), FAMSYNC_OK);
}

/* A disk without room ends a backup, and no commit that meets it. What is left of the file is no volume. */
static void without_room(void)
{
    static unsigned char bytes[2000000];
    int file = new_file();
    famsync *backup;
    make_volume_of(FIRST_LAYOUT, 1020, "a=2000000");
    session = opened_with((struct famsync_options){.foreground = 1});
    memset(bytes, 3, sizeof bytes);
    WANT_CODE(famsync_write(session, 0, 0, bytes, sizeof bytes, NULL), FAMSYNC_OK);
    WANT_CODE(famsync_msync(session, NULL), FAMSYNC_OK);
    atomic_store(&write_error, ENOSPC);
    for (int writes = 0; writes < 12;
         writes++) { /* of the first of eight pieces, or of blocks that a commit overwrites */
        atomic_store(&writes_left, writes);
        atomic_store(&meanwhile, writes % 2 ? write_all : NULL);
        errno = 0;
        int code = famsync_backup(session, file);
        WANT(code == FAMSYNC_SYSTEM ? errno == ENOSPC : code == FAMSYNC_OK && writes > 8);
        atomic_store(&meanwhile, NULL);
        if (code != FAMSYNC_OK)
            WANT_CODE(famsync_open(path, NULL, &backup), FAMSYNC_NOTAVOLUME);
    }
    atomic_store(&write_error, 0);
    WANT_CODE(famsync_backup(session, file), FAMSYNC_OK);
    atomic_store(&read_error, EIO);
    WANT_CODE(famsync_backup(session, file), FAMSYNC_DEVICE);
    WANT(errno == EIO);
    atomic_store(&read_error, 0);
    WANT_CODE(famsync_backup(session, file), FAMSYNC_OK);
    WANT_CODE(famsync_msync(session, NULL), FAMSYNC_OK);
    WANT_CODE(famsync_close(session), FAMSYNC_OK);
    WANT(close(file) == 0);
}

/* A session that only reads makes one, too. */
static void by_a_reader(void)
{
    static unsigned char bytes[100000];
    int file = new_file();
    make_volume_of(FIRST_LAYOUT, SLOTS, "a=100000");
    session = opened();
    memset(bytes, 9, sizeof bytes);
    WANT_CODE(famsync_write(session, 0, 0, bytes, sizeof bytes, NULL), FAMSYNC_OK);
    WANT_CODE(famsync_msync(session, NULL), FAMSYNC_OK);
    WANT_CODE(famsync_close(session), FAMSYNC_OK);
    session = opened_with((struct famsync_options){.readonly = 1});
    WANT_CODE(famsync_backup(session, file), FAMSYNC_OK);
    want_file(0, bytes, sizeof bytes);
    WANT_CODE(famsync_close(session), FAMSYNC_OK);
    WANT(close(file) == 0);
}

/* Commits without end: the one of number N has N in each of some pages, all over the file, and its length. */
#define FILE_PAGES 2000u
#define EACH 97u

static atomic_bool stopped;

static void *commits(void *argument)
{
    famsync *handle = argument;
    for (uint64_t number = 1; !atomic_load(&stopped); number++) {
        uint64_t mark;
        for (uint64_t page = number % 7; page < FILE_PAGES; page += EACH)
            WANT_CODE(famsync_write(handle, 0, page * 4096, &number, sizeof number, NULL), FAMSYNC_OK);
        for (uint64_t page = 10; page < FILE_PAGES; page += EACH)
            WANT_CODE(famsync_write(handle, 0, page * 4096 + 8, &number, sizeof number, NULL), FAMSYNC_OK);
        WANT_CODE(famsync_setlength(handle, "b", 1 + number % 9000), FAMSYNC_OK);
        WANT_CODE(famsync_msync(handle, &mark), FAMSYNC_OK);
        WANT(mark == number);
    }
    return NULL;
}

/* Which commit a backup has; it has each page of it. */
static uint64_t number_in_backup(void)
{
    uint64_t number = 0, found;
    famsync *backup = opened_backup(1);
    for (uint64_t page = 10; page < FILE_PAGES; page += EACH) {
        WANT_CODE(famsync_read(backup, 0, page * 4096 + 8, &found, sizeof found, NULL), FAMSYNC_OK);
        number = page == 10 ? found : number;
        WANT(found == number);
    }
    for (uint64_t back = 0; back < 7 && back < number; back++)
        for (uint64_t page = (number - back) % 7; page < FILE_PAGES; page += EACH) {
            WANT_CODE(famsync_read(backup, 0, page * 4096, &found, sizeof found, NULL), FAMSYNC_OK);
            WANT(found == number - back);
        }
    WANT(famsync_file_length(backup, 1) == (number == 0 ? 5000 : 1 + number % 9000));
    WANT_CODE(famsync_close(backup), FAMSYNC_OK);
    return number;
}

static void beside_commits(unsigned layout, int foreground)
{
    pthread_t thread;
    uint64_t last = 0, first = 0;
    make_volume_of(layout, 64, "a=8192000 b=5000/9000");
    session = opened_with((struct famsync_options){.foreground = foreground});
    atomic_store(&stopped, false);
    WANT(pthread_create(&thread, NULL, commits, session) == 0);
    for (unsigned round = 0; round < 4; round++) {
        int file = new_file();
        uint64_t before = famsync_acknowledged(session);
        WANT_CODE(famsync_backup(session, file), FAMSYNC_OK);
        uint64_t after = famsync_acknowledged(session), number = number_in_backup();
        WANT(before <= number && number <= after && last <= number && close(file) == 0);
        first = round == 0 ? number : first;
        last = number;
        usleep(3000);
    }
    atomic_store(&stopped, true);
    WANT(pthread_join(thread, NULL) == 0);
    printf("clients/c: backup: layout %u, beside %u commits\n", layout, (unsigned)famsync_acknowledged(session));
    WANT_CODE(famsync_close(session), FAMSYNC_OK);
}

int main(int count, char **words)
{
    make_folder();
    snprintf(path, sizeof path, "%s/backup.img", folder);
    for (unsigned layout = FIRST_LAYOUT; layout <= LAYOUTS; layout++) {
        holds_what_was_committed(layout);
        one_at_a_time(layout);
    }
    has_own_key();
    has_holes();
    refusals();
    without_room();
    by_a_reader();
    for (unsigned layout = FIRST_LAYOUT; layout <= LAYOUTS; layout++)
        for (int foreground = 0; foreground < 2; foreground++)
            beside_commits(layout, foreground);
    if (count > 1)
        WANT(rename(path, words[1]) == 0);
    printf("clients/c: backup: as it should be\n");
    return 0;
}
