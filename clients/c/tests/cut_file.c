/* Somebody cuts the volume's file off while its plain memory is open: a load of what is gone raises SIGBUS, which is
   the program's own. The rest can be used and closed, and the next session is refused. With `resident` there is no
   SIGBUS. */
#include "test.h"

#include <setjmp.h>

#define LEFT 8u /* pages of the file that are left */

static struct famsync_options options;
static sigjmp_buf back;
static volatile unsigned char loaded; /* a load whose byte nobody uses may be left out */

static void jump_back(int number)
{
    (void)number;
    siglongjmp(back, 1);
}

/* Whether a byte can be loaded. */
static bool is_there(const volatile unsigned char *at)
{
    if (sigsetjmp(back, 1) != 0)
        return false;
    loaded = *at;
    return true;
}

static void want_damaged(void)
{
    char message[FAMSYNC_MESSAGE_SIZE] = "";
    famsync *handle = (famsync *)1;
    struct famsync_options telling = {.message = message, .message_size = sizeof message};
    for (telling.readonly = 0; telling.readonly < 2; telling.readonly++) {
        WANT_CODE(famsync_open(volume, &telling, &handle), FAMSYNC_DAMAGED);
        WANT(handle == NULL && strstr(message, volume) != NULL);
    }
}

static void in_child(void)
{
    struct sigaction action = {.sa_handler = jump_back};
    famsync_memory *memory;
    alarm(60);
    WANT(sigaction(SIGBUS, &action, NULL) == 0);
    famsync *handle = opened_with(options);
    WANT_CODE(famsync_memory_open(handle, "a", &memory), FAMSYNC_OK);
    unsigned char *at = famsync_memory_at(memory);
    at[0] = at[15 * 4096] = 1;
    WANT_CODE(famsync_msync(handle, NULL), FAMSYNC_OK);
    WANT(truncate(volume, (off_t)(first_home(21) + 1 + LEFT) * 4096) == 0);
    for (unsigned page = 0; page < 16; page++) /* also one that was stored to */
        WANT(is_there(at + page * 4096) == (page < LEFT || options.resident));
    if (options.tracking == FAMSYNC_TRACK_SIGNALS) { /* the kernel notes what is gone as stored, which a commit loads */
        at[1] = 2;
        WANT_CODE(famsync_msync(handle, NULL), FAMSYNC_OK);
        WANT(at[0] == 1 && at[1] == 2);
    }
    WANT_CODE(famsync_memory_close(memory), FAMSYNC_OK);
    WANT_CODE(famsync_close(handle), FAMSYNC_OK);
    WANT(truncate(volume, (off_t)(first_home(21) + 1 + LEFT) * 4096) == 0);
    want_damaged();
    raise(SIGKILL); /* so that nothing that watches says how it ends */
}

static void cut_off(void)
{
    int status;
    make_volume_of(FIRST_LAYOUT, 21, "a=65536");
    pid_t child = fork();
    if (child == 0)
        in_child();
    WANT(waitpid(child, &status, 0) == child && WIFSIGNALED(status) && WTERMSIG(status) == SIGKILL);
}

/* Whether the system can track stores. */
static bool tracks(void)
{
    famsync *handle;
    make_volume(4, "a=4096");
    int code = famsync_open(volume, &(struct famsync_options){.size = sizeof options, .tracking = 1}, &handle);
    return code == FAMSYNC_OK && famsync_close(handle) == FAMSYNC_OK;
}

int main(void)
{
    for (int way = 0; way < 3; way++) {
        options = (struct famsync_options){.size = sizeof options,
                                           .foreground = 1,
                                           .resident = way == 1,
                                           .tracking = way == 2 ? FAMSYNC_TRACK_KERNEL : FAMSYNC_TRACK_SIGNALS};
        if (way < 2 || tracks())
            cut_off();
    }
    printf("clients/c: cut_file: as it should be\n");
    return 0;
}
