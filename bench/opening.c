/* How long it takes to open a volume and plain memory of its first file, and how much memory the process has then.

   usage: opening VOLUME [resident]
          opening VOLUME format BYTES     makes a volume with a file of so many bytes, if HAVE_FORMAT is defined, and
                                          prints the microseconds

   It prints one line: the microseconds of famsync_open and of famsync_memory_open, and the kilobytes that the process's
   memory grew by and had at most; then the microseconds of 16 stores apart and a commit of them. */
#include "famsync.h"

#include "opening.h"

static void want(int code, const char *what)
{
    if (code == FAMSYNC_OK)
        return;
    fprintf(stderr, "%s: %s\n", what, famsync_strerror(code));
    exit(1);
}

#ifdef HAVE_FORMAT
static int format(const char *volume, uint64_t bytes)
{
    struct famsync_new_file file = {.name = "a", .length = bytes};
    struct famsync_plan plan = {.size = sizeof plan, .layout = 5, .files = 1, .file = &file};
    double began = now();
    want(famsync_format(volume, &plan), "famsync_format");
    printf("%.0f\n", now() - began);
    return 0;
}
#endif

int main(int count, char **words)
{
#ifdef HAVE_FORMAT
    if (count == 4)
        return format(words[1], strtoull(words[3], NULL, 10));
#endif
    struct famsync_options options = {.size = sizeof options, .foreground = 1, .resident = count > 2};
    famsync *handle;
    famsync_memory *memory;
    if (count < 2)
        return 2;
    long before = kilobytes("VmRSS");
    double began = now();
    want(famsync_open(words[1], &options, &handle), "famsync_open");
    double opened = now();
    want(famsync_memory_open(handle, famsync_file_name(handle, 0), &memory), "famsync_memory_open");
    double mapped = now();
    long grown = kilobytes("VmRSS") - before, most = kilobytes("VmHWM");
    unsigned char *at = famsync_memory_at(memory);
    size_t length = famsync_memory_length(memory);
    double begins = now();
    for (size_t i = 0; i < 16; i++)
        at[length / 16 * i]++;
    want(famsync_msync(handle, NULL), "famsync_msync");
    printf("%.0f %.0f %ld %ld %.0f\n", opened - began, mapped - opened, grown, most, now() - begins);
    want(famsync_memory_close(memory), "famsync_memory_close");
    want(famsync_close(handle), "famsync_close");
    return 0;
}
