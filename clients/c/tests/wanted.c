/* Opening a volume reads what it needs, and takes memory for that: the super block, the
   starts, the lengths and the first block of the log, if no commit is in it. The records of a commit are read in runs.
   An open volume keeps the blocks of four reads of its files, each of up to 64 blocks. */
#include "test.h"

#include <sys/syscall.h>

#define MB 1048576

static unsigned reads;
static size_t longest;

ssize_t pread(int file, void *bytes, size_t count, off_t offset)
{
    reads++;
    longest = count > longest ? count : longest;
    return syscall(SYS_pread64, file, bytes, count, offset);
}

/* How much of this process is in memory, in bytes. */
static uint64_t resident(void)
{
    unsigned long long all = 0, here = 0;
    FILE *file = fopen("/proc/self/statm", "r");
    WANT(file && fscanf(file, "%llu %llu", &all, &here) == 2 && fclose(file) == 0);
    return here * 4096;
}

/* Opens a volume and closes it: at most 20 reads, and 16 MB. */
static void opens_by_few_reads(void)
{
    uint64_t before = resident();
    famsync *handle;
    reads = 0;
    handle = opened_with((struct famsync_options){.foreground = 1, .frames = 64});
    printf("clients/c: wanted: %u reads and %.1f MB to open\n", reads, (double)(resident() - before) / MB);
    WANT(reads <= 20);
    /* the tools under which this is set take memory of their own */
    WANT(getenv("WITHOUT_SIGNALS") || resident() < before + 16 * MB);
    WANT_CODE(famsync_close(handle), FAMSYNC_OK);
}

/* A commit of so many pages that isn't written home, since its process ends. */
static void leave_a_commit(unsigned pages)
{
    pid_t child = fork();
    int status;
    if (child == 0) {
        famsync *handle = opened_with((struct famsync_options){.foreground = 1});
        for (unsigned page = 0; page < pages; page++)
            WANT_CODE(famsync_write(handle, 0, 4096 * page, &page, sizeof page, NULL), FAMSYNC_OK);
        WANT_CODE(famsync_msync(handle, NULL), FAMSYNC_OK);
        _exit(0);
    }
    WANT(child > 0 && waitpid(child, &status, 0) == child && WIFEXITED(status) && WEXITSTATUS(status) == 0);
}

/* Its records are found, by few reads: some for the volume, and one for each time that the core lacks a block. */
static void recovers_by_few_reads(unsigned layout, unsigned pages)
{
    famsync *handle;
    make_volume_of(layout, 1020, "a=4177920");
    leave_a_commit(pages);
    WANT(commits_left() == 1);
    reads = 0;
    handle = opened();
    WANT(reads <= 50);
    for (unsigned page = 0; page < pages; page++) {
        unsigned found = pages;
        WANT_CODE(famsync_read(handle, 0, 4096 * page, &found, sizeof found, NULL), FAMSYNC_OK);
        WANT(found == page);
    }
    WANT_CODE(famsync_close(handle), FAMSYNC_OK);
}

/* How many reads it takes to read so many pages of the first file from this one on. */
static unsigned reads_of(famsync *handle, unsigned page, unsigned pages)
{
    static unsigned char bytes[4096 * 200];
    unsigned before = reads;
    WANT_CODE(famsync_read(handle, 0, 4096ull * page, bytes, 4096ull * pages, NULL), FAMSYNC_OK);
    return reads - before;
}

/* At most 4 * 64 blocks of files are kept, those of the last four reads. Others are read again. */
static void keeps_four_reads(void)
{
    famsync *handle;
    make_hole_of(FIRST_LAYOUT, 65, "a=16777216");
    handle = opened_with((struct famsync_options){.foreground = 1});
    longest = 0;
    for (unsigned i = 0; i < 5; i++)
        WANT(reads_of(handle, 500 * i, 1) == 1);
    for (unsigned i = 1; i < 5; i++)
        WANT(reads_of(handle, 500 * i, 1) == 0);
    WANT(reads_of(handle, 0, 1) == 1 && longest == 4096);
    /* 64, 64, 64 and 8 pages */
    WANT(reads_of(handle, 3000, 200) == 4 && longest == 64 * 4096);
    WANT(reads_of(handle, 3000, 200) == 0);
    WANT(reads_of(handle, 2500, 1) == 1 && reads_of(handle, 3000, 200) > 0);
    WANT_CODE(famsync_close(handle), FAMSYNC_OK);
}

int main(void)
{
    make_hole_of(FIRST_LAYOUT, 65535, "a=4096");
    opens_by_few_reads();
    make_hole_of(FIRST_LAYOUT, 65, "a=1073741824");
    opens_by_few_reads();
    make_hole_of(FIRST_LAYOUT, 1020, "a=1073741824/2147483648 b=1/4096");
    opens_by_few_reads();
    for (unsigned layout = FIRST_LAYOUT; layout <= LAYOUTS; layout++) {
        recovers_by_few_reads(layout, 1);
        recovers_by_few_reads(layout, 900);
    }
    keeps_four_reads();
    printf("clients/c: wanted: as it should be\n");
    return 0;
}
