/* How a session ends: by a close, which leaves nothing to be carried out; in a process that was forked, which leaves it
   to the other; and what the thread in the background does of that meanwhile. */
#include "test.h"

#include <stdatomic.h>

static void in_the_background(void)
{
    for (unsigned layout = FIRST_LAYOUT; layout <= LAYOUTS; layout++) {
        make_volume_of(layout, 16, "a=65536");
        famsync *handle = opened();
        uint64_t mark;
        for (uint64_t round = 1; round <= 20; round++) {
            unsigned waited = 0;
            WANT_CODE(famsync_write(handle, 0, round * 512, &round, 8, NULL), FAMSYNC_OK);
            WANT_CODE(famsync_msync(handle, &mark), FAMSYNC_OK);
            WANT(mark == round);
            for (; commits_left() > 0; waited++) {
                WANT(waited < 20000);
                usleep(1000);
            }
        }
        WANT_CODE(famsync_close(handle), FAMSYNC_OK);
    }
}

static void in_the_foreground(unsigned layout)
{
    uint64_t value = 0;
    make_volume_of(layout, 16, "a=65536");
    famsync *handle = opened_with((struct famsync_options){.foreground = 1});
    for (uint64_t round = 1; round <= 5; round++) {
        WANT_CODE(famsync_write(handle, 0, round * 4096, &round, 8, NULL), FAMSYNC_OK);
        WANT_CODE(famsync_msync(handle, NULL), FAMSYNC_OK);
        usleep(2000);
        WANT(may_be_left(16, (unsigned)round, commits_left()));
    }
    WANT_CODE(famsync_close(handle), FAMSYNC_OK);
    WANT(commits_left() == 0);
    handle = opened();
    for (uint64_t round = 1; round <= 5; round++) {
        WANT_CODE(famsync_read(handle, 0, round * 4096, &value, 8, NULL), FAMSYNC_OK);
        WANT(value == round);
    }
    WANT_CODE(famsync_close(handle), FAMSYNC_OK);
}

/* A session that is cut off after its commits: the next one carries out what is left of them, in each layout and from
   any place of the log on. */
static void cut_off(void)
{
    for (unsigned layout = FIRST_LAYOUT; layout <= LAYOUTS; layout++)
        for (uint64_t rounds = 1; rounds <= 9; rounds++) {
            int status;
            make_volume_of(layout, 16, "a=65536");
            pid_t child = fork();
            if (child == 0) {
                famsync *handle = opened_with((struct famsync_options){.foreground = 1});
                for (uint64_t round = 1; round <= rounds; round++) {
                    WANT_CODE(famsync_write(handle, 0, round * 4096, &round, 8, NULL), FAMSYNC_OK);
                    WANT_CODE(famsync_write(handle, 0, 0, &round, 8, NULL), FAMSYNC_OK);
                    WANT_CODE(famsync_msync(handle, NULL), FAMSYNC_OK);
                }
                kill(getpid(), SIGKILL);
            }
            WANT(waitpid(child, &status, 0) == child && WIFSIGNALED(status));
            WANT(may_be_left(16, (unsigned)rounds, commits_left()));
            famsync *handle = opened();
            WANT(commits_left() == 0);
            uint64_t value;
            for (uint64_t round = 0; round <= rounds; round++) {
                WANT_CODE(famsync_read(handle, 0, round * 4096, &value, 8, NULL), FAMSYNC_OK);
                WANT(value == (round == 0 ? rounds : round));
            }
            WANT_CODE(famsync_close(handle), FAMSYNC_OK);
        }
}

/* Commits of 1,500 pages, whose descriptors have two blocks; each page has its number and that of the
   commit. Three of them were acknowledged when the session is cut off, and the next session has them. */
#define LARGE 1500u

static void store_large(famsync *handle, uint64_t round)
{
    for (uint64_t page = 0; page < LARGE; page++) {
        uint64_t words[2] = {page, round};
        WANT_CODE(famsync_write(handle, 0, page * 4096 + 8 * (page % 500), words, 16, NULL), FAMSYNC_OK);
    }
}

static void large_commits(void)
{
    unsigned char byte = 1;
    int status;
    make_volume_of(FIRST_LAYOUT, LARGE + 1, "a=6160384 b=5000/9000"); /* `a` has 1,504 pages */
    pid_t child = fork();
    if (child == 0) {
        famsync *handle = opened_with((struct famsync_options){.foreground = 1});
        for (uint64_t round = 1; round <= 3; round++) {
            store_large(handle, round);
            if (round == 2)
                WANT_CODE(famsync_setlength(handle, "b", 4997), FAMSYNC_OK);
            WANT_CODE(famsync_msync(handle, NULL), FAMSYNC_OK);
        }
        kill(getpid(), SIGKILL);
    }
    WANT(waitpid(child, &status, 0) == child && WIFSIGNALED(status));
    WANT(may_be_left(LARGE + 1, 3, commits_left()));
    famsync *handle = opened();
    WANT(commits_left() == 0);
    WANT(famsync_frames(handle) == LARGE && famsync_file_length(handle, 1) == 4997);
    uint64_t words[2];
    for (uint64_t page = 0; page < LARGE; page++) {
        WANT_CODE(famsync_read(handle, 0, page * 4096 + 8 * (page % 500), words, 16, NULL), FAMSYNC_OK);
        WANT(words[0] == page && words[1] == 3);
    }
    store_large(handle, 4);
    WANT_CODE(famsync_write(handle, 0, LARGE * 4096, &byte, 1, NULL), FAMSYNC_NOFRAME);
    WANT_CODE(famsync_msync(handle, NULL), FAMSYNC_OK);
    WANT_CODE(famsync_write(handle, 0, LARGE * 4096, &byte, 1, NULL), FAMSYNC_OK);
    WANT_CODE(famsync_close(handle), FAMSYNC_OK);
    WANT(commits_left() == 0);
}

static void in_child(famsync *handle, famsync_memory *memory)
{
    int *at = famsync_memory_at(memory);
    unsigned char byte = 0;
    at[0] = 77;
    at[1500] = 78;
    bool right = at[0] == 77 && famsync_msync(handle, NULL) == FAMSYNC_FORKED;
    right &= famsync_read(handle, 0, 0, &byte, 1, NULL) == FAMSYNC_FORKED;
    right &= famsync_write(handle, 0, 0, &byte, 1, NULL) == FAMSYNC_FORKED;
    right &= famsync_memory_dirty(memory) == 0;
    right &= famsync_memory_close(memory) == FAMSYNC_OK && famsync_close(handle) == FAMSYNC_OK;
    _exit(right ? 0 : 1);
}

static void forked(void)
{
    famsync_memory *memory;
    int status;
    make_volume(16, "a=65536");
    famsync *handle = opened();
    WANT_CODE(famsync_memory_open(handle, "a", &memory), FAMSYNC_OK);
    int *at = famsync_memory_at(memory);
    at[3000] = 5;
    pid_t child = fork();
    if (child == 0)
        in_child(handle, memory);
    WANT(waitpid(child, &status, 0) == child && WIFEXITED(status) && WEXITSTATUS(status) == 0);
    WANT(at[0] == 0 && at[3000] == 5);
    WANT_CODE(famsync_msync(handle, NULL), FAMSYNC_OK);
    /* it has let the volume go: whoever is forked doesn't keep it in use */
    child = fork();
    if (child == 0) {
        alarm(60);
        pause();
        _exit(0);
    }
    WANT_CODE(famsync_memory_close(memory), FAMSYNC_OK);
    WANT_CODE(famsync_close(handle), FAMSYNC_OK);
    for (unsigned waited = 0; famsync_open(volume, NULL, &handle) == FAMSYNC_INUSE; waited++) {
        WANT(waited < 20000); /* until the child has begun */
        usleep(1000);
    }
    WANT(handle != NULL && waitpid(child, &status, WNOHANG) == 0);
    WANT_CODE(famsync_close(handle), FAMSYNC_OK);
    WANT(kill(child, SIGKILL) == 0 && waitpid(child, &status, 0) == child);
}

/* A process forks while another of its threads commits. What that thread had in hand is lost in the child, and isn't
   the child's fault: so a child that is right ends by a signal, at which nothing looks for lost memory. */
static void *commits(void *argument)
{
    famsync *handle = argument;
    for (uint64_t round = 1; round <= 300; round++) {
        WANT_CODE(famsync_write(handle, 0, round * 8, &round, 8, NULL), FAMSYNC_OK);
        WANT_CODE(famsync_msync(handle, NULL), FAMSYNC_OK);
    }
    return NULL;
}

static void in_child_meanwhile(famsync *handle)
{
    if (famsync_msync(handle, NULL) == FAMSYNC_FORKED && famsync_close(handle) == FAMSYNC_OK)
        kill(getpid(), SIGKILL);
    _exit(1);
}

static void forked_meanwhile(void)
{
    pthread_t thread;
    int status;
    make_volume_of(FIRST_LAYOUT, 16, "a=65536");
    famsync *handle = opened();
    WANT(pthread_create(&thread, NULL, commits, handle) == 0);
    for (unsigned i = 0; i < 30; i++) {
        pid_t child = fork();
        if (child == 0)
            in_child_meanwhile(handle);
        WANT(waitpid(child, &status, 0) == child && WIFSIGNALED(status) && WTERMSIG(status) == SIGKILL);
    }
    WANT(pthread_join(thread, NULL) == 0);
    WANT(famsync_acknowledged(handle) == 300);
    WANT_CODE(famsync_close(handle), FAMSYNC_OK);
}

/* Threads that commit at once: each answer is a mark that has this thread's store. */
static void *shares(void *argument)
{
    famsync *handle = argument;
    static atomic_uint number;
    uint64_t at = 4096 * (uint64_t)atomic_fetch_add(&number, 1), last = 0, mark;
    for (uint64_t round = 1; round <= 100; round++) {
        WANT_CODE(famsync_write(handle, 0, at, &round, 8, NULL), FAMSYNC_OK);
        WANT_CODE(famsync_msync(handle, &mark), FAMSYNC_OK);
        WANT(mark > last && famsync_acknowledged(handle) >= mark);
        last = mark;
    }
    return NULL;
}

static void shared_commits(void)
{
    pthread_t thread[4];
    make_volume_of(FIRST_LAYOUT, 16, "a=65536");
    famsync *handle = opened();
    for (unsigned i = 0; i < 4; i++)
        WANT(pthread_create(&thread[i], NULL, shares, handle) == 0);
    for (unsigned i = 0; i < 4; i++)
        WANT(pthread_join(thread[i], NULL) == 0);
    WANT(famsync_acknowledged(handle) >= 100 && famsync_acknowledged(handle) <= 400);
    printf("clients/c: ending: 400 msyncs of 4 threads were %u commits\n", (unsigned)famsync_acknowledged(handle));
    WANT_CODE(famsync_close(handle), FAMSYNC_OK);
}

static void two_volumes(void)
{
    famsync *first, *second;
    char moved[100];
    make_volume(16, "a=65536");
    snprintf(moved, sizeof moved, "%s/w.img", folder);
    WANT(rename(volume, moved) == 0);
    make_volume_of(FIRST_LAYOUT, 16, "b=5000/9000");
    first = opened();
    WANT_CODE(famsync_open(moved, NULL, &second), FAMSYNC_OK);
    for (unsigned char i = 1; i < 20; i++) {
        WANT_CODE(famsync_write(first, 0, i, &i, 1, NULL), FAMSYNC_OK);
        WANT_CODE(famsync_write(second, 0, i * 3000u, &i, 1, NULL), FAMSYNC_OK);
        WANT_CODE(famsync_msync(i % 2 ? first : second, NULL), FAMSYNC_OK);
    }
    WANT(famsync_acknowledged(first) == 10 && famsync_acknowledged(second) == 9);
    WANT_CODE(famsync_close(first), FAMSYNC_OK);
    WANT_CODE(famsync_close(second), FAMSYNC_OK);
}

int main(void)
{
    in_the_background();
    for (unsigned layout = FIRST_LAYOUT; layout <= LAYOUTS; layout++)
        in_the_foreground(layout);
    cut_off();
    large_commits();
    forked();
    forked_meanwhile();
    shared_commits();
    two_volumes();
    printf("clients/c: ending: as it should be\n");
    return 0;
}
