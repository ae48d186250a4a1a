/* Tracking by the kernel: it notes by itself which pages were stored to (userfaultfd with asynchronous write
   protection), and one call lists them and protects them again (PAGEMAP_SCAN). */
#include "memory.h"

#include <errno.h>
#include <fcntl.h>
#include <linux/userfaultfd.h>
#include <string.h>
#include <sys/ioctl.h>
#include <sys/syscall.h>
#include <unistd.h>

/* Of linux/userfaultfd.h and linux/fs.h, which may be older than the system. */
#define USER_FAULTS 1
#define WRITE_PROTECTION (1ull << 0)
#define UNPOPULATED (1ull << 13)
#define ASYNCHRONOUS (1ull << 15)
#define WRITTEN (1ull << 1)
#define PROTECT_MATCHING (1ull << 0)
#define CHECK_PROTECTED (1ull << 1)

struct region {
    uint64_t begin, end, categories;
};

struct scan {
    uint64_t size, flags, begin, end, walk_end, regions, most_regions, most_pages, inverted, mask, any_of, answered;
};

#define SCAN _IOWR('f', 16, struct scan)

/* How many regions one call lists. */
#define REGIONS 256u

static int open_faults(void)
{
    struct uffdio_api api = {.api = UFFD_API, .features = WRITE_PROTECTION | UNPOPULATED | ASYNCHRONOUS};
    int file = above_streams((int)syscall(SYS_userfaultfd, O_CLOEXEC | O_NONBLOCK | USER_FAULTS));
    if (file >= 0 && ioctl(file, UFFDIO_API, &api) == 0)
        return file;
    close_descriptor(&file);
    return -1;
}

int begin_tracking(struct tracker *tracker)
{
    tracker->faults = open_faults();
    tracker->pages = tracker->faults < 0 ? -1 : open_above_streams(AT_FDCWD, "/proc/self/pagemap", O_RDONLY);
    return tracker->pages >= 0
               ? FAMSYNC_OK
               : explain(FAMSYNC_TRACKING, "%s: %s", famsync_strerror(FAMSYNC_TRACKING), strerror(errno));
}

void end_tracking(struct tracker *tracker)
{
    close_descriptor(&tracker->faults);
    close_descriptor(&tracker->pages);
}

/* Lists and protects what was stored to in a part of a memory, and notes it; `*begin` is where the next part begins.
   All pages are protected from the opening on, also those that aren't in memory, so nothing else is asked of a page:
   the kernel looks at the entries of its tables alone then, and at 1 GB that is loaded 30 times as fast. */
static int collect_part(famsync_memory *memory, uint64_t *begin, uint64_t end, bool notes)
{
    struct region region[REGIONS];
    struct scan scan = {.size = sizeof scan,
                        .flags = PROTECT_MATCHING | CHECK_PROTECTED,
                        .begin = *begin,
                        .end = end,
                        .regions = (uintptr_t)region,
                        .most_regions = REGIONS,
                        .mask = WRITTEN,
                        .answered = WRITTEN};
    int count = ioctl(memory->handle->tracker.pages, SCAN, &scan);
    if (count < 0)
        return FAMSYNC_SYSTEM;
    for (int i = 0; i < count && notes; i++) {
        size_t first = (size_t)(region[i].begin - (uintptr_t)memory->at) / memory->grain;
        size_t stop = (size_t)(region[i].end - (uintptr_t)memory->at) / memory->grain;
        note_pages(memory, first, stop, STORED);
    }
    *begin = scan.walk_end;
    return FAMSYNC_OK;
}

static int collect_span(famsync_memory *memory, size_t first, size_t stop, bool notes)
{
    uint64_t begin = (uintptr_t)memory->at + first * memory->grain, end = (uintptr_t)memory->at + stop * memory->grain;
    int code = FAMSYNC_OK;
    while (begin < end && code == FAMSYNC_OK)
        code = collect_part(memory, &begin, end, notes);
    return code;
}

int collect(famsync_memory *memory)
{
    return collect_span(memory, 0, memory->pages, true);
}

int collect_among(famsync_memory *memory, size_t first, size_t end)
{
    return collect_span(memory, first, end, true);
}

int ignore_stores(famsync_memory *memory, size_t first, size_t end)
{
    return collect_span(memory, first, end, false);
}

/* What the library stored to the memory before doesn't count. */
int track(famsync_memory *memory)
{
    struct uffdio_register range = {.range = {(uintptr_t)memory->at, memory->room}, .mode = UFFDIO_REGISTER_MODE_WP};
    if (ioctl(memory->handle->tracker.faults, UFFDIO_REGISTER, &range) != 0)
        return FAMSYNC_TRACKING;
    return ignore_stores(memory, 0, memory->pages) == FAMSYNC_OK ? FAMSYNC_OK : FAMSYNC_TRACKING;
}
