/* Transactions: no other call commits a part of one, and one whose commit or rollback failed stays open. */
#include "test.h"

#include <stdatomic.h>

#define ROUNDS 20u
#define TURNS 40u

static unsigned layout;

static void write_byte(famsync *handle, unsigned file, uint64_t offset, unsigned char byte)
{
    WANT_CODE(famsync_write(handle, file, offset, &byte, 1, NULL), FAMSYNC_OK);
}

static unsigned char byte_of(famsync *handle, unsigned file, uint64_t offset)
{
    unsigned char byte = 255;
    WANT_CODE(famsync_read(handle, file, offset, &byte, 1, NULL), FAMSYNC_OK);
    return byte;
}

static uint64_t begun(famsync *handle)
{
    uint64_t transaction = 0;
    WANT_CODE(famsync_transaction_begin(handle, &transaction), FAMSYNC_OK);
    WANT(transaction > 0);
    return transaction;
}

/* What the next session finds in two places. */
static bool finds(unsigned char a, unsigned char b)
{
    famsync *handle = opened();
    bool found = byte_of(handle, 0, 0) == a && byte_of(handle, 1, 0) == b;
    WANT_CODE(famsync_close(handle), FAMSYNC_OK);
    return found;
}

static void *refused(void *argument)
{
    famsync *handle = argument;
    uint64_t number = 77;
    WANT_CODE(famsync_msync(handle, &number), FAMSYNC_TRANSACTION);
    WANT_CODE(famsync_rollback(handle), FAMSYNC_TRANSACTION);
    WANT_CODE(famsync_transaction_begin(handle, &number), FAMSYNC_TRANSACTION);
    WANT(number == 77);
    return NULL;
}

/* While it is open no other call commits or undoes, in this thread or another one. */
static void whole(void)
{
    pthread_t thread;
    uint64_t mark = 0, transaction;
    make_volume_of(layout, 12, "a=8192 b=8192");
    famsync *handle = opened();
    write_byte(handle, 0, 0, 1); /* a change before it belongs to it */
    transaction = begun(handle);
    refused(handle);
    WANT(pthread_create(&thread, NULL, refused, handle) == 0 && pthread_join(thread, NULL) == 0);
    write_byte(handle, 1, 0, 1);
    WANT_CODE(famsync_transaction_commit(handle, transaction, &mark), FAMSYNC_OK);
    WANT(mark == 1 && famsync_acknowledged(handle) == 1);
    transaction = begun(handle);
    write_byte(handle, 0, 0, 2);
    refused(handle);
    WANT_CODE(famsync_transaction_rollback(handle, transaction), FAMSYNC_OK);
    WANT(byte_of(handle, 0, 0) == 1);
    WANT_CODE(famsync_msync(handle, NULL), FAMSYNC_OK);
    begun(handle);
    write_byte(handle, 0, 0, 3); /* the session ends within one */
    WANT_CODE(famsync_close(handle), FAMSYNC_OK);
    WANT(finds(1, 1));
}

/* One whose commit fails stays open, and so does one whose rollback fails. */
static void failed(void)
{
    famsync_memory *memory;
    make_volume_of(layout, 4, "a=8192/40000 b=8192 c=40000");
    famsync *handle = opened_with((struct famsync_options){.size = sizeof(struct famsync_options), .fixed = 1});
    uint64_t transaction = begun(handle), mark = 77;
    WANT_CODE(famsync_memory_open(handle, "c", &memory), FAMSYNC_OK);
    write_byte(handle, 0, 0, 1);
    memset(famsync_memory_at(memory), 1, 40000);
    WANT_CODE(famsync_transaction_commit(handle, transaction, &mark), FAMSYNC_NOFRAME);
    WANT(mark == 77);
    WANT_CODE(famsync_memory_close(memory), FAMSYNC_OK);
    refused(handle);
    WANT_CODE(famsync_transaction_rollback(handle, transaction), FAMSYNC_OK);
    transaction = begun(handle);
    write_byte(handle, 0, 0, 1);
    WANT_CODE(famsync_setlength(handle, "a", 9000), FAMSYNC_OK);
    WANT_CODE(famsync_memory_open(handle, "a", &memory), FAMSYNC_OK);
    WANT_CODE(famsync_transaction_rollback(handle, transaction), FAMSYNC_OVERLAP);
    WANT_CODE(famsync_memory_close(memory), FAMSYNC_OK);
    refused(handle);
    WANT_CODE(famsync_transaction_rollback(handle, transaction), FAMSYNC_OK);
    WANT(byte_of(handle, 0, 0) == 0);
    write_byte(handle, 1, 0, 1);
    WANT_CODE(famsync_msync(handle, NULL), FAMSYNC_OK);
    WANT_CODE(famsync_close(handle), FAMSYNC_OK);
    WANT(finds(0, 1));
}

/* The number of one that a rollback ended. */
static void used_again(void)
{
    famsync_memory *memory;
    uint64_t first, second, mark = 77;
    make_volume_of(layout, 12, "a=8192 b=8192");
    famsync *handle = opened();
    WANT_CODE(famsync_memory_open(handle, "a", &memory), FAMSYNC_OK);
    unsigned char *at = famsync_memory_at(memory);
    first = begun(handle);
    at[0] = 1;
    WANT_CODE(famsync_transaction_rollback(handle, first), FAMSYNC_OK);
    WANT_CODE(famsync_transaction_commit(handle, first, &mark), FAMSYNC_OK);
    WANT(mark == 0);
    at[0] = 2;
    WANT_CODE(famsync_transaction_commit(handle, first, &mark), FAMSYNC_TORN);
    WANT_CODE(famsync_transaction_rollback(handle, first), FAMSYNC_OK);
    WANT(at[0] == 0);
    second = begun(handle);
    write_byte(handle, 1, 0, 3);
    WANT_CODE(famsync_transaction_commit(handle, first, &mark), FAMSYNC_TRANSACTION);
    WANT_CODE(famsync_transaction_rollback(handle, first), FAMSYNC_TRANSACTION);
    WANT_CODE(famsync_transaction_commit(handle, second + 1, &mark), FAMSYNC_ARGUMENT);
    WANT_CODE(famsync_transaction_rollback(handle, 0), FAMSYNC_ARGUMENT);
    WANT_CODE(famsync_transaction_commit(handle, second, NULL), FAMSYNC_OK);
    WANT_CODE(famsync_memory_close(memory), FAMSYNC_OK);
    WANT_CODE(famsync_close(handle), FAMSYNC_OK);
    WANT(finds(0, 3));
}

/* A thread that holds a group can't end one. */
static void beside_groups(void)
{
    uint64_t transaction;
    make_volume_of(layout, 12, "a=8192 b=8192");
    famsync *handle = opened();
    transaction = begun(handle);
    WANT_CODE(famsync_begin(handle), FAMSYNC_OK);
    write_byte(handle, 0, 0, 1);
    WANT_CODE(famsync_transaction_commit(handle, transaction, NULL), FAMSYNC_BUSY);
    WANT_CODE(famsync_transaction_rollback(handle, transaction), FAMSYNC_BUSY);
    WANT_CODE(famsync_msync(handle, NULL), FAMSYNC_BUSY);
    WANT_CODE(famsync_end(handle), FAMSYNC_OK);
    refused(handle);
    write_byte(handle, 1, 0, 1);
    WANT_CODE(famsync_transaction_commit(handle, transaction, NULL), FAMSYNC_OK);
    WANT_CODE(famsync_close(handle), FAMSYNC_OK);
    WANT(finds(1, 1));
}

static void refusals(void)
{
    uint64_t transaction = 1;
    int status;
    make_volume_of(layout, 12, "a=8192 b=8192");
    famsync *handle = opened();
    WANT_CODE(famsync_transaction_begin(NULL, &transaction), FAMSYNC_ARGUMENT);
    WANT_CODE(famsync_transaction_begin(handle, NULL), FAMSYNC_ARGUMENT);
    WANT_CODE(famsync_transaction_commit(NULL, 1, NULL), FAMSYNC_ARGUMENT);
    WANT_CODE(famsync_transaction_rollback(NULL, 1), FAMSYNC_ARGUMENT);
    transaction = begun(handle);
    pid_t child = fork();
    if (child == 0)
        _exit(famsync_transaction_begin(handle, &transaction) == FAMSYNC_FORKED &&
                      famsync_transaction_commit(handle, transaction, NULL) == FAMSYNC_FORKED &&
                      famsync_transaction_rollback(handle, transaction) == FAMSYNC_FORKED
                  ? 0
                  : 1);
    WANT(waitpid(child, &status, 0) == child && status == 0);
    WANT_CODE(famsync_close(handle), FAMSYNC_OK);
    handle = opened_with((struct famsync_options){.readonly = 1});
    WANT_CODE(famsync_transaction_begin(handle, &transaction), FAMSYNC_READONLY);
    WANT_CODE(famsync_transaction_commit(handle, 1, NULL), FAMSYNC_READONLY);
    WANT_CODE(famsync_transaction_rollback(handle, 1), FAMSYNC_READONLY);
    WANT_CODE(famsync_close(handle), FAMSYNC_OK);
}

static atomic_bool stopped;

/* Makes transactions, of which every third fails; while another thread's is open, it waits. */
static void *work(void *argument)
{
    famsync *handle = argument;
    for (unsigned turn = 0; turn < TURNS;) {
        uint64_t transaction;
        int code = famsync_transaction_begin(handle, &transaction);
        if (code == FAMSYNC_OK) {
            unsigned char next = (unsigned char)(byte_of(handle, 0, 0) + 1);
            write_byte(handle, 0, 0, next);
            sched_yield();
            write_byte(handle, 1, 0, next);
            if (turn++ % 3 == 0)
                WANT_CODE(famsync_transaction_rollback(handle, transaction), FAMSYNC_OK);
            else
                WANT_CODE(famsync_transaction_commit(handle, transaction, NULL), FAMSYNC_OK);
            continue;
        }
        WANT_CODE(code, FAMSYNC_TRANSACTION);
        sched_yield();
    }
    return NULL;
}

/* Commits and undoes at any time. */
static void *disturb(void *argument)
{
    famsync *handle = argument;
    while (!atomic_load(&stopped)) {
        int code = famsync_msync(handle, NULL);
        WANT(code == FAMSYNC_OK || code == FAMSYNC_TRANSACTION);
        code = famsync_rollback(handle);
        WANT(code == FAMSYNC_OK || code == FAMSYNC_TRANSACTION);
    }
    return NULL;
}

/* Whatever other threads call, each commit has whole transactions. */
static void threads(void)
{
    pthread_t worker[2], other;
    char path[96];
    make_volume_of(layout, 12, "a=8192 b=8192");
    famsync *handle = opened();
    atomic_store(&stopped, false);
    for (unsigned i = 0; i < 2; i++)
        WANT(pthread_create(&worker[i], NULL, work, handle) == 0);
    WANT(pthread_create(&other, NULL, disturb, handle) == 0);
    snprintf(path, sizeof path, "%s/copy.img", folder);
    for (unsigned round = 0; round < ROUNDS; round++) {
        int file = open(path, O_RDWR | O_CREAT | O_CLOEXEC, 0600);
        famsync *copy;
        WANT(file >= 0);
        WANT_CODE(famsync_backup(handle, file), FAMSYNC_OK);
        WANT(close(file) == 0);
        WANT_CODE(famsync_open(path, &(struct famsync_options){.readonly = 1}, &copy), FAMSYNC_OK);
        WANT(byte_of(copy, 0, 0) == byte_of(copy, 1, 0));
        WANT_CODE(famsync_close(copy), FAMSYNC_OK);
    }
    for (unsigned i = 0; i < 2; i++)
        WANT(pthread_join(worker[i], NULL) == 0);
    atomic_store(&stopped, true);
    WANT(pthread_join(other, NULL) == 0);
    WANT(byte_of(handle, 0, 0) == 2 * (TURNS - (TURNS + 2) / 3));
    WANT_CODE(famsync_close(handle), FAMSYNC_OK);
}

int main(void)
{
    for (layout = FIRST_LAYOUT; layout <= LAYOUTS; layout++) {
        whole();
        failed();
        used_again();
        beside_groups();
        refusals();
        threads();
    }
    printf("clients/c: transactions: as it should be\n");
    return 0;
}
