/* One thread touches the end of a file while another sets the file's length and commits: pages past the end are never
   touched, and so no commit fails. */
#include "test.h"

#include <stdatomic.h>

#define LONG (12 * 4096)

/* No power is cut here. */
int fdatasync(int file)
{
    (void)file;
    return 0;
}

int fsync(int file)
{
    (void)file;
    return 0;
}

static famsync *handle;
static famsync_memory *memory;
static atomic_bool stopped;
static atomic_uint touched;
static unsigned rounds; /* in a tool that is slow, less is tried */

static void *touch(void *argument)
{
    while (!atomic_load(&stopped)) {
        int code = famsync_memory_touch(memory, 10 * 4096, 2 * 4096);
        WANT(code == FAMSYNC_OK || code == FAMSYNC_ARGUMENT);
        atomic_fetch_add(&touched, code == FAMSYNC_OK);
    }
    return argument;
}

static void change_lengths(void)
{
    for (unsigned round = 0; round < rounds || (atomic_load(&touched) == 0 && round < 100 * rounds); round++) {
        WANT_CODE(famsync_setlength(handle, "a", round % 2 == 0 ? 4096 : LONG), FAMSYNC_OK);
        WANT(famsync_memory_dirty(memory) <= 12);
        WANT_CODE(famsync_msync(handle, NULL), FAMSYNC_OK);
    }
    WANT(atomic_load(&touched) > 0);
}

/* Whether the system can track stores in this way. */
static bool is_opened(struct famsync_options options)
{
    int code = famsync_open(volume, &options, &handle);
    WANT(code == FAMSYNC_OK || (code == FAMSYNC_TRACKING && options.tracking == FAMSYNC_TRACK_KERNEL));
    return code == FAMSYNC_OK;
}

static void beside(unsigned layout, struct famsync_options options)
{
    pthread_t thread;
    make_volume_of(layout, 40, "a=49152");
    if (!is_opened(options))
        return;
    WANT_CODE(famsync_memory_open(handle, "a", &memory), FAMSYNC_OK);
    atomic_store(&stopped, false);
    atomic_store(&touched, 0);
    WANT(pthread_create(&thread, NULL, touch, NULL) == 0);
    change_lengths();
    atomic_store(&stopped, true);
    WANT(pthread_join(thread, NULL) == 0);
    WANT_CODE(famsync_setlength(handle, "a", LONG), FAMSYNC_OK);
    ((unsigned char *)famsync_memory_at(memory))[LONG - 1] = 7;
    WANT_CODE(famsync_msync(handle, NULL), FAMSYNC_OK);
    WANT_CODE(famsync_memory_close(memory), FAMSYNC_OK);
    WANT_CODE(famsync_close(handle), FAMSYNC_OK);
}

int main(void)
{
    const struct famsync_options none = {.size = sizeof none};
    struct famsync_options resident = none, tracked = none;
    resident.resident = 1;
    tracked.tracking = FAMSYNC_TRACK_KERNEL;
    rounds = getenv("WITHOUT_SIGNALS") ? 60 : 2000;
    for (unsigned layout = FIRST_LAYOUT; layout <= LAYOUTS; layout++) {
        beside(layout, none);
        beside(layout, resident);
        beside(layout, tracked);
    }
    printf("clients/c: touching: as it should be\n");
    return 0;
}
