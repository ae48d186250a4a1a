/*
 * A session whose stores are made in groups, by two threads, while a third commits and sometimes rolls back. As that of
 * session.c, `tests/faults/power_cut` records its system calls.
 *
 *   groups VOLUME work SEED COMMITS    begins groups at random, in a volume with the files "a" and "b" of GROUPS
 *   groups VOLUME find                 reads paths of volumes, a line each, and prints how many groups of each thread
 *                                      a volume has. If it has more or less than these groups, `part` comes before
 *
 * The bytes that a thread stores depend on SEED, on the thread, and on the group's number. They are in pages of the
 * thread's own, so the numbers of both threads' groups say which bytes the volume has. Each group has its number in
 * plain memory of "a", and by famsync_write in "b". `work` appends to the file that LOG names `C NUMBER GROUPS` before
 * a commit, with groups that had begun before, and `A NUMBER` after its acknowledgement. With WITHOUT_GROUPS in the
 * environment it begins none.
 */
#include "test.h"

#include <inttypes.h>
#include <stdatomic.h>

#define THREADS 2u
#define PAGES 24u  /* of "a" */
#define WORDS 512u /* of a page */
#define SEED_AT (2 * WORDS)
#define MOST (1u << 24) /* groups of a thread, which no session makes */

struct files {
    uint64_t a[PAGES * WORDS], b[THREADS * WORDS];
};

static famsync *handle;
static uint64_t *memory; /* of "a" */
static uint64_t seed;
static atomic_bool stopped;

static uint64_t mixed(uint64_t z)
{
    z = (z ^ (z >> 30)) * 0xbf58476d1ce4e5b9u;
    z = (z ^ (z >> 27)) * 0x94d049bb133111ebu;
    return z ^ (z >> 31);
}

/* A random number below `bound`, of a state (splitmix64). */
static uint64_t below(uint64_t *state, uint64_t bound)
{
    return mixed(*state += 0x9e3779b97f4a7c15u) % bound;
}

/* A place in a page of a thread's own, other than those of the numbers and the seed. */
static uint64_t place(uint64_t *state, unsigned thread, uint64_t pages)
{
    return (below(state, pages / THREADS) * THREADS + thread) * WORDS + 1 + below(state, WORDS - 1);
}

/* What a group stores: to plain memory, or to a copy of the files. */
static void store(unsigned thread, uint64_t number, uint64_t *a, uint64_t *b)
{
    uint64_t state = mixed(seed + THREADS * number + thread), count = 1 + below(&state, 6), at, word;
    __atomic_store_n(&a[thread * WORDS], number, __ATOMIC_RELAXED);
    for (uint64_t i = 0; i < count; i++) {
        at = place(&state, thread, PAGES);
        a[at] = below(&state, UINT64_MAX);
    }
    at = place(&state, thread, THREADS);
    word = below(&state, UINT64_MAX);
    if (b) {
        b[thread * WORDS] = number;
        b[at] = word;
        return;
    }
    WANT_CODE(famsync_write(handle, 1, 8 * at, &word, 8, NULL), FAMSYNC_OK);
    WANT_CODE(famsync_write(handle, 1, 8 * thread * WORDS, &number, 8, NULL), FAMSYNC_OK);
}

static uint64_t number_of(unsigned thread)
{
    return __atomic_load_n(&memory[thread * WORDS], __ATOMIC_RELAXED);
}

/* After a rollback a thread goes on behind the last commit's groups. */
static void *make_groups(void *argument)
{
    unsigned thread = (unsigned)(uintptr_t)argument;
    bool in_groups = getenv("WITHOUT_GROUPS") == NULL;
    while (!atomic_load(&stopped)) {
        if (in_groups)
            WANT_CODE(famsync_begin(handle), FAMSYNC_OK);
        store(thread, number_of(thread) + 1, memory, NULL);
        if (in_groups)
            WANT_CODE(famsync_end(handle), FAMSYNC_OK);
    }
    return NULL;
}

static void append(const char *format, uint64_t number, uint64_t first, uint64_t second)
{
    static int file = -1;
    char line[100];
    if (file < 0)
        file = open(getenv("LOG"), O_WRONLY | O_APPEND | O_CLOEXEC);
    snprintf(line, sizeof line, format, number, first, second);
    WANT(write(file, line, strlen(line)) == (ssize_t)strlen(line));
}

static void commit(uint64_t number)
{
    append("C %" PRIu64 " %" PRIu64 ":%" PRIu64 "\n", number, number_of(0), number_of(1));
    WANT_CODE(famsync_msync(handle, NULL), FAMSYNC_OK);
    append("A %" PRIu64 "\n", number, 0, 0);
}

static void work(uint64_t commits)
{
    uint64_t state = seed;
    pthread_t thread[THREADS];
    famsync_memory *opened_memory;
    handle = opened_with((struct famsync_options){.foreground = (int)below(&state, 2)});
    WANT_CODE(famsync_memory_open(handle, "a", &opened_memory), FAMSYNC_OK);
    memory = famsync_memory_at(opened_memory);
    memory[SEED_AT] = seed;
    commit(0);
    for (uintptr_t i = 0; i < THREADS; i++)
        WANT(pthread_create(&thread[i], NULL, make_groups, (void *)i) == 0);
    for (uint64_t number = 1; number <= commits; number++) {
        usleep((useconds_t)(below(&state, 8) ? below(&state, 1000) : 15000)); /* the library's thread may write out */
        if (below(&state, 10) == 0)
            WANT_CODE(famsync_rollback(handle), FAMSYNC_OK);
        commit(number);
    }
    atomic_store(&stopped, true);
    for (unsigned i = 0; i < THREADS; i++)
        WANT(pthread_join(thread[i], NULL) == 0);
    WANT_CODE(famsync_memory_close(opened_memory), FAMSYNC_OK);
    WANT_CODE(famsync_close(handle), FAMSYNC_OK);
}

/* Reads both files of a volume. */
static int read_files(const char *path, struct files *found)
{
    int code = famsync_open(path, NULL, &handle);
    if (code != FAMSYNC_OK)
        return code;
    WANT_CODE(famsync_read(handle, 0, 0, found->a, sizeof found->a, NULL), FAMSYNC_OK);
    WANT_CODE(famsync_read(handle, 1, 0, found->b, sizeof found->b, NULL), FAMSYNC_OK);
    WANT_CODE(famsync_close(handle), FAMSYNC_OK);
    return FAMSYNC_OK;
}

static void find(const char *path)
{
    static struct files found, wanted;
    int code = read_files(path, &found);
    if (code != FAMSYNC_OK) {
        printf("refused %d\n", code);
        return;
    }
    memset(&wanted, 0, sizeof wanted);
    wanted.a[SEED_AT] = seed = found.a[SEED_AT];
    for (unsigned thread = 0; thread < THREADS; thread++)
        for (uint64_t number = 1; number <= found.a[thread * WORDS] && number < MOST; number++)
            store(thread, number, wanted.a, wanted.b);
    printf("%s%" PRIu64 ":%" PRIu64 "\n", memcmp(&found, &wanted, sizeof found) ? "part " : "", found.a[0],
           found.a[WORDS]);
}

int main(int count, char **words)
{
    char line[300];
    if (count == 5 && strcmp(words[2], "work") == 0) {
        snprintf(volume, sizeof volume, "%s", words[1]);
        seed = strtoull(words[3], NULL, 10);
        work(strtoull(words[4], NULL, 10));
        return 0;
    }
    while (fgets(line, sizeof line, stdin)) {
        line[strcspn(line, "\n")] = 0;
        find(line);
        fflush(stdout);
    }
    return 0;
}
