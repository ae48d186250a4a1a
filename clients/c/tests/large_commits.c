/* Opening a volume after a crash takes time in proportion to the pages of the commit that is left, not to their square.
 */
#include "test.h"

#include <time.h>

/* The pages of two commits. The time for the larger one is at most MOST times that for the other, which is three times
   the proportion; in proportion to the square it is 64 times that. The least times of some openings are compared. */
#define SMALL 2000u
#define LARGE 16000u
#define MOST 24
#define OPENINGS 4

/* No power is cut here. */
int fdatasync(int file)
{
    (void)file;
    return 0;
}

int fsync(int file)
{
    (void)file;
    return 0;
}

static const struct famsync_options options = {.foreground = 1};

static uint64_t number_of(unsigned pages, unsigned page)
{
    return (uint64_t)pages << 32 | (page + 1);
}

/* A process commits pages, and ends before it writes them to their places. */
static void leave_commit(unsigned layout, unsigned pages)
{
    uint64_t bytes[512] = {0};
    char files[32];
    int status;
    snprintf(files, sizeof files, "a=%u", pages * 4096);
    make_folder();
    unlink(volume);
    make_hole_of(layout, pages + 1, files);
    pid_t child = fork();
    if (child == 0) {
        famsync *handle = opened_with(options);
        for (unsigned page = 0; page < pages; page++) {
            bytes[0] = number_of(pages, page);
            WANT_CODE(famsync_write(handle, 0, (uint64_t)page * 4096, bytes, 4096, NULL), FAMSYNC_OK);
        }
        WANT_CODE(famsync_msync(handle, NULL), FAMSYNC_OK);
        _exit(0);
    }
    WANT(waitpid(child, &status, 0) == child && status == 0);
    WANT(commits_left() == 1);
}

static void judge(famsync *handle, unsigned pages)
{
    for (unsigned page = 0; page < pages; page++) {
        uint64_t number;
        WANT_CODE(famsync_read(handle, 0, (uint64_t)page * 4096, &number, sizeof number, NULL), FAMSYNC_OK);
        WANT(number == number_of(pages, page));
    }
    WANT_CODE(famsync_write(handle, 0, 0, "x", 1, NULL), FAMSYNC_OK);
    WANT_CODE(famsync_msync(handle, NULL), FAMSYNC_OK);
}

/* The processor time that the opening takes, if it is less. */
static void time_opening(unsigned layout, unsigned pages, clock_t *least)
{
    leave_commit(layout, pages);
    clock_t begin = clock();
    famsync *handle = opened_with(options);
    clock_t taken = clock() - begin;
    if (*least == 0 || taken < *least)
        *least = taken;
    judge(handle, pages);
    WANT_CODE(famsync_close(handle), FAMSYNC_OK);
}

static void in_layout(unsigned layout)
{
    clock_t small = 0, large = 0;
    for (unsigned i = 0; i < OPENINGS && (large == 0 || large > MOST * small); i++) {
        time_opening(layout, SMALL, &small);
        time_opening(layout, LARGE, &large);
    }
    printf("clients/c: large_commits: in layout %u, %u pages took %.3f s, and %u pages %.3f s\n", layout, SMALL,
           (double)small / CLOCKS_PER_SEC, LARGE, (double)large / CLOCKS_PER_SEC);
    WANT(large <= MOST * small);
}

int main(void)
{
    for (unsigned layout = FIRST_LAYOUT; layout <= LAYOUTS; layout++)
        in_layout(layout);
    return 0;
}
