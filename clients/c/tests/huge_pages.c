/* Where the system makes huge pages of what it can, plain memory still has only the pages that were stored to: of a
   large file, pages far apart are committed, and the process's own memory stays small. The system does so with all
   mappings if it is set to `always`; here each mapping of memory without a file is asked for it. */
#include "test.h"

#include <stdarg.h>
#include <sys/mman.h>

#define MB (1024 * 1024)
#define LENGTH (400 * (size_t)MB)
#define APART (2 * (size_t)MB)

BEFORE_SANITIZERS void *mmap(void *at, size_t length, int protection, int flags, int file, off_t offset)
{
    void *got = other_mmap(at, length, protection, flags, file, offset);
    if (got != MAP_FAILED && flags & MAP_ANONYMOUS && length >= APART)
        (void)syscall(SYS_madvise, got, length, MADV_HUGEPAGE);
    return got;
}

/* Memory of this process that has no file, in bytes. */
static size_t own(void)
{
    char line[200];
    size_t found = 0;
    FILE *file = fopen("/proc/self/status", "r");
    WANT(file != NULL);
    while (fgets(line, sizeof line, file))
        if (sscanf(line, "RssAnon: %zu kB", &found) == 1)
            break;
    WANT(fclose(file) == 0);
    return found * 1024;
}

/* Whether the system makes a huge page of memory that asks for it. */
static bool has_huge_pages(void)
{
    size_t before = own();
    unsigned char *at = mmap(NULL, 4 * APART, PROT_READ | PROT_WRITE, MAP_PRIVATE | MAP_ANONYMOUS, -1, 0);
    WANT(at != MAP_FAILED);
    at[2 * APART] = 1;
    bool has = own() >= before + APART;
    WANT(munmap(at, 4 * APART) == 0);
    return has;
}

static void session(int tracking)
{
    struct famsync_options options = {.size = sizeof options, .foreground = 1, .tracking = tracking};
    famsync *handle;
    famsync_memory *memory;
    char file[40];
    snprintf(file, sizeof file, "a=%zu", LENGTH);
    make_hole_of(FIRST_LAYOUT, 60, file);
    int code = famsync_open(volume, &options, &handle);
    if (code == FAMSYNC_TRACKING)
        return;
    WANT_CODE(code, FAMSYNC_OK);
    WANT_CODE(famsync_memory_open(handle, "a", &memory), FAMSYNC_OK);
    unsigned char *at = famsync_memory_at(memory);
    size_t before = own();
    for (size_t place = 0; place < LENGTH; place += APART) {
        at[place] = 1;
        if (place / APART % 50 == 49)
            WANT_CODE(famsync_msync(handle, NULL), FAMSYNC_OK);
    }
    WANT_CODE(famsync_msync(handle, NULL), FAMSYNC_OK);
    WANT(own() < before + 16 * MB);
    WANT_CODE(famsync_memory_close(memory), FAMSYNC_OK);
    WANT_CODE(famsync_close(handle), FAMSYNC_OK);
}

/* The sanitizer of threads and valgrind have memory of their own for what is stored to. */
static bool is_watched(void)
{
#ifdef __SANITIZE_THREAD__
    return true;
#else
    return getenv("WITHOUT_MAPPINGS") != NULL;
#endif
}

int main(void)
{
    if (is_watched() || !has_huge_pages()) {
        printf("clients/c: huge_pages: not tried here\n");
        return 0;
    }
    session(FAMSYNC_TRACK_SIGNALS);
    session(FAMSYNC_TRACK_KERNEL);
    printf("clients/c: huge_pages: as it should be\n");
    return 0;
}
