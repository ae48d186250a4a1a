/* A bank in plain memory whose four threads make transfers and commit, killed again and again at random moments, in
   each way of tracking and each layout. After each kill all accounts have exactly what some number of each thread's
   transfers leaves, and no transfer is missing that an msync acknowledged. Each session goes on with what the one
   before left.

   With signals no thread pauses for a commit, so the last transfer of a thread may be half there: then it is undone, by
   what the thread noted before it. Where the kernel tracks stores, threads pause for a commit, and none is half there;
   and in a bank whose threads don't pause an msync is answered FAMSYNC_BUSY, and loses nothing.

   usage: bank [KILLS [SEED]]     the number of kills in each way */
#include "test.h"

#include <stdatomic.h>
#include <sys/mman.h>
#include <time.h>

#define THREADS 4u
#define PAGES 40u
#define ACCOUNTS (PAGES - 2) /* of each thread: one in each page but the two of the notes */
#define SLOTS 60u
#define COUNT (LAYOUTS - FIRST_LAYOUT + 1)

/* What the process that was killed knew: of each thread, how many of its transfers were acknowledged. */
static struct {
    _Atomic uint64_t acknowledged[THREADS], commits, busy;
} * known;

static struct famsync_options options;
static bool pauses; /* whether threads pause for a commit */
static pthread_rwlock_t stores = PTHREAD_RWLOCK_INITIALIZER;
static famsync *handle;
static famsync_memory *memory;
static _Atomic int64_t *cells;
static unsigned seed, kills, halves;

/* A cell of a thread in a page. */
static _Atomic int64_t *cell(size_t page, unsigned thread)
{
    return &cells[page * 4096 / sizeof *cells + 64 * thread];
}

/* The transfers that a thread has begun and ended, in different pages. */
static _Atomic int64_t *begun(unsigned thread)
{
    return cell(PAGES - 1, thread);
}

static _Atomic int64_t *ended(unsigned thread)
{
    return cell(0, thread);
}

static _Atomic int64_t *account(unsigned thread, size_t number)
{
    return cell(1 + number, thread);
}

/* A transfer: from one account to another, by its number. */
struct transfer {
    size_t from, to;
    int64_t amount;
};

static struct transfer transfer_of(unsigned thread, uint64_t number)
{
    uint64_t mixed = (number * THREADS + thread + 1) * 0x9e3779b97f4a7c15u;
    mixed ^= mixed >> 29;
    size_t from = mixed % ACCOUNTS;
    return (struct transfer){from, (from + 1 + (mixed >> 16) % (ACCOUNTS - 1)) % ACCOUNTS, 1 + (int64_t)(mixed >> 40)};
}

/* Stores in this order, each seen by whoever sees a later one. */
static void make_transfer(unsigned thread, uint64_t number)
{
    struct transfer it = transfer_of(thread, number);
    atomic_store(begun(thread), (int64_t)number);
    atomic_fetch_sub(account(thread, it.from), it.amount);
    atomic_fetch_add(account(thread, it.to), it.amount);
    atomic_store(ended(thread), (int64_t)number);
}

/* The accounts of a thread after its first transfers. */
static void accounts_after(unsigned thread, uint64_t transfers, int64_t balance[ACCOUNTS])
{
    memset(balance, 0, ACCOUNTS * sizeof *balance);
    for (uint64_t number = 1; number <= transfers; number++) {
        struct transfer it = transfer_of(thread, number);
        balance[it.from] -= it.amount;
        balance[it.to] += it.amount;
    }
}

static bool are_accounts(unsigned thread, const int64_t balance[ACCOUNTS])
{
    for (size_t number = 0; number < ACCOUNTS; number++)
        if (atomic_load(account(thread, number)) != balance[number])
            return false;
    return true;
}

/* Whether threads store during a commit that has to notice it. */
static bool may_be_busy(void)
{
    return options.tracking == FAMSYNC_TRACK_KERNEL && !pauses;
}

static uint64_t calls(void)
{
    return atomic_load(&known->commits) + atomic_load(&known->busy);
}

static void begin(void)
{
    handle = opened_with(options);
    WANT_CODE(famsync_memory_open(handle, "bank", &memory), FAMSYNC_OK);
    cells = famsync_memory_at(memory);
}

static void end(void)
{
    WANT_CODE(famsync_memory_close(memory), FAMSYNC_OK);
    WANT_CODE(famsync_close(handle), FAMSYNC_OK);
}

/* The accounts of a thread are of a moment at which it had ended so many transfers, or was within the next one, which
   is undone then. */
static void judge(unsigned thread)
{
    uint64_t last = (uint64_t)atomic_load(ended(thread)), first = (uint64_t)atomic_load(begun(thread));
    int64_t balance[ACCOUNTS];
    accounts_after(thread, last, balance);
    WANT(last >= atomic_load(&known->acknowledged[thread]));
    WANT(first == last || (first == last + 1 && !pauses));
    if (first > last) {
        struct transfer it = transfer_of(thread, first);
        bool is_right = are_accounts(thread, balance);
        balance[it.from] -= it.amount;
        is_right |= are_accounts(thread, balance);
        balance[it.to] += it.amount;
        is_right |= are_accounts(thread, balance);
        WANT(is_right);
        accounts_after(thread, last, balance);
        for (size_t number = 0; number < ACCOUNTS; number++)
            atomic_store(account(thread, number), balance[number]);
        atomic_store(begun(thread), (int64_t)last);
        halves++;
    }
    WANT(are_accounts(thread, balance));
    atomic_store(&known->acknowledged[thread], last);
}

static void judge_all(void)
{
    begin();
    for (unsigned thread = 0; thread < THREADS; thread++)
        judge(thread);
    WANT_CODE(famsync_msync(handle, NULL), FAMSYNC_OK);
    end();
}

/* Notes that these transfers were acknowledged, unless later ones were. */
static void acknowledge(const uint64_t number[THREADS])
{
    for (unsigned thread = 0; thread < THREADS; thread++) {
        uint64_t before = atomic_load(&known->acknowledged[thread]);
        while (before < number[thread] &&
               !atomic_compare_exchange_weak(&known->acknowledged[thread], &before, number[thread]))
            continue;
    }
}

/* An msync has all transfers that had ended before it. If it is answered BUSY, it has none. */
static void commit(void)
{
    uint64_t number[THREADS];
    int code;
    if (pauses)
        pthread_rwlock_wrlock(&stores);
    for (unsigned thread = 0; thread < THREADS; thread++)
        number[thread] = (uint64_t)atomic_load(ended(thread));
    code = famsync_msync(handle, NULL);
    if (pauses)
        pthread_rwlock_unlock(&stores);
    if (code == FAMSYNC_OK)
        acknowledge(number);
    else
        WANT(code == FAMSYNC_BUSY && may_be_busy());
    atomic_fetch_add(code == FAMSYNC_OK ? &known->commits : &known->busy, 1);
}

static void transfer_once(unsigned thread, uint64_t number)
{
    if (pauses)
        pthread_rwlock_rdlock(&stores);
    make_transfer(thread, number);
    if (pauses)
        pthread_rwlock_unlock(&stores);
}

/* Transfers for ever: a few of two threads and many of the others, and then a commit; or a break, where the others
   disturb the first one's commits. */
static void *work(void *argument)
{
    unsigned thread = (unsigned)(uintptr_t)argument, chance = seed + thread;
    int most = thread < 2 || may_be_busy() ? 20 : 3000;
    for (uint64_t number = (uint64_t)atomic_load(ended(thread));;) {
        for (int left = 1 + rand_r(&chance) % most; left > 0; left--)
            transfer_once(thread, ++number);
        if (thread == 0 || !may_be_busy())
            commit();
        else if (rand_r(&chance) % 20 == 0)
            usleep((useconds_t)(rand_r(&chance) % 400));
    }
    return NULL;
}

static void run_bank(void)
{
    pthread_t thread[THREADS];
    begin();
    for (unsigned i = 0; i < THREADS; i++)
        WANT(pthread_create(&thread[i], NULL, work, (void *)(uintptr_t)i) == 0);
    for (unsigned i = 0; i < THREADS; i++)
        WANT(pthread_join(thread[i], NULL) == 0);
}

/* Kills a bank once it has called msync some times, at once or a little later. It ends by itself if it is never killed.
 */
static void kill_one(void)
{
    uint64_t until = calls() + (uint64_t)(rand() % 12);
    int status;
    pid_t child = fork();
    WANT(child >= 0);
    if (child == 0) {
        alarm(100);
        run_bank();
        _exit(1);
    }
    while (calls() < until && waitpid(child, &status, WNOHANG) == 0)
        usleep(200);
    usleep((useconds_t)(rand() % 5000));
    WANT(kill(child, SIGKILL) == 0);
    WANT(waitpid(child, &status, 0) == child && WIFSIGNALED(status) && WTERMSIG(status) == SIGKILL);
    kills++;
}

/* Banks in volumes of each layout, in turns. */
static void kill_banks(unsigned times, int tracking, bool with_pauses)
{
    uint64_t before[COUNT][THREADS] = {0};
    options = (struct famsync_options){.size = sizeof options, .tracking = tracking};
    pauses = with_pauses;
    memset(known, 0, sizeof *known);
    kills = halves = 0;
    make_folder();
    for (unsigned turn = 0; turn < times; turn++) {
        unsigned layout = FIRST_LAYOUT + turn % COUNT;
        snprintf(volume, sizeof volume, "%s/v%u.img", folder, layout);
        if (turn < COUNT)
            make_volume_of(layout, SLOTS, "bank=163840");
        for (unsigned thread = 0; thread < THREADS; thread++)
            atomic_store(&known->acknowledged[thread], before[layout - FIRST_LAYOUT][thread]);
        seed++;
        options.foreground = rand() % 2;
        kill_one();
        judge_all();
        for (unsigned thread = 0; thread < THREADS; thread++)
            before[layout - FIRST_LAYOUT][thread] = atomic_load(&known->acknowledged[thread]);
    }
}

static bool is_supported(void)
{
    famsync *tried;
    make_volume(16, "a=4096");
    int code = famsync_open(volume, &(struct famsync_options){.size = sizeof options, .tracking = FAMSYNC_TRACK_KERNEL},
                            &tried);
    WANT(code == FAMSYNC_OK || code == FAMSYNC_TRACKING);
    return code == FAMSYNC_OK && famsync_close(tried) == FAMSYNC_OK;
}

static void print_kills(const char *way)
{
    printf("clients/c: bank, %s: killed %u times after %llu commits, as it should be; %llu were BUSY, and %u transfers "
           "half there\n",
           way, kills, (unsigned long long)atomic_load(&known->commits), (unsigned long long)atomic_load(&known->busy),
           halves);
    fflush(stdout);
}

int main(int count, char **words)
{
    unsigned times = count > 1 ? (unsigned)atoi(words[1]) : 24;
    seed = count > 2 ? (unsigned)atoi(words[2]) : 1;
    srand(seed);
    known = mmap(NULL, sizeof *known, PROT_READ | PROT_WRITE, MAP_SHARED | MAP_ANONYMOUS, -1, 0);
    WANT(known != MAP_FAILED);
    kill_banks(times, FAMSYNC_TRACK_SIGNALS, false);
    print_kills("signals");
    if (!is_supported()) {
        printf("clients/c: bank, kernel: the system can't, and says so\n");
        return 0;
    }
    kill_banks(times, FAMSYNC_TRACK_KERNEL, true);
    print_kills("kernel");
    kill_banks(times / 3, FAMSYNC_TRACK_KERNEL, false);
    print_kills("kernel, without pauses");
    return 0;
}
