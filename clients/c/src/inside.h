/* Declarations that the files of the library share. */
#ifndef FAMSYNC_INSIDE_H
#define FAMSYNC_INSIDE_H

#define _GNU_SOURCE
#include "famsync.h"
#include "famsync_core.h"

#include <pthread.h>
#include <signal.h>
#include <stdatomic.h>
#include <stdbool.h>
#include <sys/types.h>
#include <sys/uio.h>

#define PAGE 4096u
#define MOST_FILES 64u
#define MOST_NAME 32u
/* The most blocks that the library reads from the volume at once. */
#define MOST_READ 64u
/* The blocks of the last READS_KEPT reads stay in the core. A further read makes the core forget
   the blocks of the oldest one. */
#define READS_KEPT 4u
/* The library makes the waiting calls once there are MOST_WAITING, even if the newest one isn't a
   sync. */
#define MOST_WAITING 1024u
/* The first block of a log. The blocks before it are the super block, the selector, and the two
   starts of the log. */
#define FIRST_OF_LOG 4u
/* The first layout with a log. Those before it have journals. */
#define FIRST_LAYOUT 5u

/* Begins the definition of a variable that each thread has. With glibc each thread has its memory
   from its beginning. In a library that was loaded by dlopen it would else be allocated at its
   first use, and a process that has no memory then would end. Other C libraries never do that. */
#ifdef __GLIBC__
#define PER_THREAD static _Thread_local __attribute__((tls_model("initial-exec")))
#else
#define PER_THREAD static _Thread_local
#endif

/* A buffer for a line about a fault; `text` may be a null pointer. */
struct message {
    char *text;
    size_t room;
};

__attribute__((format(printf, 2, 3))) void say(struct message *message, const char *format, ...);

/* The file of a volume, open and locked. */
struct volume {
    int file;         /* the file's descriptor; -1 if it isn't open */
    int unlocked;     /* another descriptor of the file, for mappings: a mapping of `file` would
                         keep its lock */
    int folder;       /* the descriptor of the folder; -1 if the folder isn't open */
    const char *name; /* the file's name in the folder: the end of `place` */
    char *flag;       /* the suspect flag's name in the folder */
    char *place;      /* the file's path, for messages; if it is a link, the path of its target */
    bool readonly;    /* the file is open only for reading, and other sessions may read it, too */
    uint64_t bytes;   /* the file's length */
    uint64_t on_disk; /* how many bytes are allocated for it on the disk */
};

/* The pages from `begin` on, up to but not including `end`. */
struct span {
    size_t begin, end;
};

/* Widens a span, so that it contains these pages, too. */
static inline void widen(struct span *span, size_t begin, size_t end)
{
    if (span->begin == span->end)
        *span = (struct span){begin, end};
    span->begin = begin < span->begin ? begin : span->begin;
    span->end = end > span->end ? end : span->end;
}

/* The descriptors for tracking by the kernel: a userfaultfd, and the page map of this process. */
struct tracker {
    int faults, pages;
};

struct file {
    char name[MOST_NAME + 1];
    _Atomic uint64_t length; /* in bytes; set with `turn` held, read by any thread */
    uint64_t pages;          /* the most pages that the file can have */
    uint64_t capacity;       /* the most bytes that the file can have */
    uint64_t home;           /* the home block of the file's first page */
    struct span staged;      /* contains each page that waits in the core for a commit */
};

/* One of several writes that are made together. They are ordered by offset, and don't overlap. The
   bytes belong to the core. They are valid until a function of the core other than
   famsync_core_call is called. */
struct piece {
    uint64_t offset; /* in the volume's file */
    size_t length;
    const unsigned char *bytes;
};

/* Blocks that were supplied or written together. */
struct reading {
    uint32_t first, count;
};

struct gathered {
    struct piece *piece;
    unsigned pieces, most;
    struct iovec *range;  /* room for the ranges that one system call writes */
    struct reading *late; /* written blocks that the core forgets once no call waits */
    unsigned lates, room; /* their number, and the number for which `late` has room */
};

/* The blocks that were supplied to open a volume. `last` are the blocks of the last read. `end` is
   the end of all supplied blocks. `hops` counts how often in a row the core wanted a block a little
   behind `last`. */
struct opening {
    struct reading last;
    uint32_t end;
    unsigned hops;
};

/* The system calls on the volume's file since the session began, and the bytes that they wrote. */
struct counts {
    uint64_t reads, writes, syncs, bytes_written;
};

/* The log of a volume of layout 5 or 6. If a commit isn't home, its pages are read from the log,
   and its blocks of the log are in use. */
struct log {
    uint64_t blocks;    /* the number of its blocks */
    uint64_t used;      /* the number of blocks in use */
    uint32_t home;      /* the newest commit that is home together with all earlier ones, counted
                           like `numbered` */
    bool start_written; /* a start behind commits that are home is written, but not selected yet */
};

/* Pages of a file that the next commit writes, by their home blocks from `begin` on, up to but not including `end`. */
struct claim {
    unsigned file;
    uint64_t begin, end;
};

enum seen { UNKNOWN, YES, NO };

/* The blocks of the volume that are allocated on the disk (space.c). Positions in a log go on counting where the log
   begins again. */
struct space {
    uint64_t *known;     /* a bit for each block: it is allocated, or claimed for the next commit */
    size_t room;         /* the size of `known` in bytes */
    struct claim *claim; /* claimed pages, whose home blocks the next commit allocates */
    size_t claims, most; /* the number of claims, and of those that `claim` has room for */
    enum seen sees;      /* whether the system tells holes of the volume's file from data */
    bool cannot;         /* the file system can't allocate blocks ahead of writes */
    struct span hole;    /* blocks of the last hole that was found; none once blocks are written */
    uint64_t first;      /* the position of this session's first commit */
    uint64_t next, end;  /* the next commit's position; the end of the blocks of the log that are allocated */
};

/* A backup that is being made (backup.c). */
struct backup;

/* Why a thread's last failed call failed (errors.c). */
struct failure;

/* A thread that waits for a commit. The structure is on the stack of this thread. */
struct waiter {
    struct waiter *next;
    struct failure *failure; /* the thread's own */
    bool done;
    int code, error; /* the code and errno of the thread's call */
    uint64_t mark;
};

/* The groups of stores of a session (groups.c). A commit or a rollback holds off new groups with
   `turn` held. */
struct groups {
    atomic_uint state; /* the number of open groups, with two flags */
    pthread_mutex_t lock;
    pthread_cond_t changed; /* groups may begin again, or nobody needs to wait for groups */
    unsigned waiting;       /* the number of groups that are held off; `lock` */
    uint64_t moments;       /* how often groups that were held off could begin; `lock` */
};

struct famsync {
    pthread_mutex_t turn; /* its holder may call the core. `turn` guards each field that names no
                             other lock */
    uint64_t process;     /* the library's number for the process that began the session; `pid` is
                             the system's number */
    pid_t pid;
    int cancel;          /* the earlier cancel state of the thread that has the turn */
    _Atomic int callers; /* the number of calls that have the turn or wait for it */
    famsync_core core;   /* the core's handle; it never leaves the library */
    struct volume volume;
    int ended;     /* FAMSYNC_DEVICE or FAMSYNC_UNMARKED once a write or a sync has failed */
    int error;     /* errno of that failure */
    bool reported; /* a call has returned that failure */
    bool torn;     /* plain memory was closed after a failed msync, a rollback failed halfway, or a
                      thread ended within a group: a rollback has to come first */
    unsigned files;
    struct file file[MOST_FILES];
    unsigned frames;
    unsigned layout; /* the volume's layout */
    uint32_t blocks; /* the number of blocks of the volume */
    uint32_t head;   /* the first block of the first file; 0 until the core has opened the
                        volume */
    struct log log;
    struct gathered gathered;
    struct counts counts;
    struct space space;
    struct backup *backup; /* the backup that is being made; null if there is none */
    unsigned char *read;   /* room for MOST_READ blocks */
    struct reading reading[READS_KEPT];
    unsigned readings; /* the number of readings so far */
    _Atomic uint64_t acknowledged;
    uint64_t earlier;  /* the number of commits acknowledged before this core began; a rollback
                          begins another core */
    bool resized;      /* a new length waits for a commit */
    uint32_t numbered; /* the number of commits that recorded calls */
    bool is_tracked;   /* the kernel tracks stores to plain memory, not the handler of SIGSEGV */
    struct tracker tracker;
    uint64_t transaction;     /* the number of the open transaction; 0 if none is open */
    uint64_t transactions;    /* the number of transactions that were begun */
    bool fixed;               /* the length of open plain memory never changes */
    bool resident;            /* whole files are read into plain memory, instead of mapping the
                                 volume's file */
    uint64_t budget;          /* the most bytes that plain memory keeps for committed pages and
                                 their copies */
    uint32_t given_up_to;     /* the value of `log.home` when pages were last
                                 returned to the system */
    famsync_memory *memories; /* the open plain memories, linked by `next_one` */
    atomic_uint closing;      /* the lock to open and close pages of plain memory; the handler of
                                 SIGSEGV takes it, too */
    /* commits: the waiting threads, and whether a commit is being made; guarded by `queue` */
    pthread_mutex_t queue;
    pthread_cond_t answered;
    struct waiter *waiters;
    bool committing;
    struct groups groups;
    /* the background thread */
    pthread_t thread;
    pthread_cond_t work;
    bool threaded, stopping;
    bool pausing;          /* the thread waits for another commit; calls don't wake it */
    bool left;             /* a part of a commit is still to be written */
    famsync *next, **link; /* in the list of this process's handles */
};

/* codes.c: the library's code for a code of the core. `answer_of` is for the core's answers in a
   session. If the core had no memory to record a call, now or earlier, `answer_of` ends the session
   with errno ENOMEM. */
int code_of(int64_t core_code);
int answer_of(famsync *handle, int64_t core_code);

/* errors.c: texts about failed calls. `explain` keeps a text until the call ends, and returns the
   code; without it the code's own words are said. A call that explains a code has to fail with
   it. */
__attribute__((format(printf, 2, 3))) int explain(int code, const char *format, ...);
int note_failure(uintptr_t handle, const char *call, int code);
/* Returns the code of a call that ends. If the call failed, notes why, for famsync_error. */
static inline int answer(const famsync *handle, const char *call, int code)
{
    return code == FAMSYNC_OK ? code : note_failure((uintptr_t)handle, call, code);
}
/* Writes the path of a volume, and why its opening or making failed. */
void say_why(struct message *message, const char *path, int code);
/* `own_failure` is the structure of this thread. `share_explanation` copies the explanation of a
   code to another thread, whose call fails with the same code, and which waits meanwhile. */
struct failure *own_failure(void);
void share_explanation(struct failure *failure, int code);
/* A new handle has had no failed call, even if an earlier one had the same address. */
void forget_failure(const famsync *handle);

/* No thread is cancelled within a call, since a cancelled thread would leave locks held. */
static inline int hold_off_cancel(void)
{
    int before;
    pthread_setcancelstate(PTHREAD_CANCEL_DISABLE, &before);
    return before;
}

static inline void allow_cancel(int before)
{
    int now;
    pthread_setcancelstate(before, &now);
}

/* api.c: turns. If `enter` returns FAMSYNC_OK, the caller has the turn until `leave`. In a forked
   process `enter` returns FAMSYNC_FORKED, even if `has_arguments` is false. Otherwise it returns
   FAMSYNC_ARGUMENT if `has_arguments` is false. `enter_unless` does the same, and explains the
   fault of the arguments; a null pointer means that they have none. */
int enter_unless(famsync *handle, const char *fault);
static inline int enter(famsync *handle, bool has_arguments)
{
    return enter_unless(handle, has_arguments ? NULL : famsync_strerror(FAMSYNC_ARGUMENT));
}
int leave(famsync *handle, int code);
/* For a caller that has the turn: leaves if the session is over, and returns why it is. */
int stay(famsync *handle);
/* The number of the file with this name; the number of files if there is none. */
unsigned number_of(const famsync *handle, const char *name);
/* Begins a core, and opens the volume of a handle in this core. The first time, it also copies the
   volume's files and limits from the core to the handle. */
int begin_core(famsync *handle, unsigned frames);
/* Opens the volume in another core. Before the call all commits have to be home, so that this core
   has the last commit. The handle keeps its own core. The calls that the opening has recorded are
   made only when the other core has replaced the handle's core. These calls move the start of a
   log, and then the old core can't continue. */
int open_other_core(famsync *handle, famsync_core *other);

/* volume_file.c: `above_streams` moves an open file to a descriptor above 2. `open_above_streams`
   opens a file with such a descriptor. The descriptor is close-on-exec. If a program has closed a
   standard stream, the next opened file gets the stream's descriptor. Then output to the stream
   would go into this file. */
int above_streams(int file);
int open_above_streams(int folder, const char *name, int flags);
/* Closes a descriptor if it is open, and sets it to -1. errno stays unchanged. */
void close_descriptor(int *descriptor);
/* Finds and opens the folder of a volume, and finds the name of the suspect flag. */
int find_places(const char *path, struct volume *volume);
int sync_file(int file);
/* Makes the names in the volume's folder durable. This fails if the process may not read the
   folder. */
int sync_folder(const struct volume *volume);
/* Removes the suspect flag, if there is one. */
int remove_flag(const struct volume *volume);
/* Opens and locks the file of a volume, and checks its kind. If the call fails, nothing stays
   open. */
int open_volume_file(const char *path, const struct famsync_options *options, struct volume *volume,
                     struct message *message);
/* Checks the suspect flag. Syncs the file, unless the session only reads, and removes the flag if
   the volume is trusted. */
int judge_volume_file(const struct volume *volume, bool trust, struct message *message);
void close_volume_file(struct volume *volume);
/* Closes the descriptors in a forked process. The file stays locked. */
void let_volume_go(struct volume *volume);
/* Unlocks the file and closes it. Closing isn't enough: a forked process may still have the file
   open until it starts another program. */
void unlock_volume(struct volume *volume);
/* Flags a volume as suspect, and makes the flag durable. FAMSYNC_SYSTEM: one of the two failed. */
int flag_suspect(const struct volume *volume);

/* drain.c: makes the calls that the core has recorded. If the newest call is a write, `drain` makes
   none of them: writes wait for their sync. An error ends the session. */
int drain(famsync *handle);
/* The same for the calls of an opening. FAMSYNC_NOSPACE: a write found the disk full. */
int drain_opening(famsync *handle);
/* `drain_all` makes all waiting calls. `drain_many` does so only if there are MOST_WAITING or more.
   Once the session is over, no calls are made. */
int drain_all(famsync *handle);
int drain_many(famsync *handle);
/* `ends_with_sync`: whether the newest waiting call is a sync. `ends_with_start`: whether it writes
   a start of the log. */
bool ends_with_sync(famsync *handle);
bool ends_with_start(famsync *handle);
/* With a log: notes the position at which the next commit begins. The caller has just opened the volume, and the calls
   of that still wait. */
void note_position(famsync *handle);
/* Whether the opening of a volume has recorded writes of commits to their home blocks. With a log
   every opening also writes a start, which doesn't count here. */
bool carries_out_commits(famsync *handle);
int begin_gathering(struct gathered *gathered, unsigned pieces);
void end_gathering(struct gathered *gathered);

/* supply.c: reads blocks of the volume, and supplies them to the core. `supply_to_open` supplies
   the block that the core wants for the opening of the volume. If this block follows the last
   supplied blocks, the call also supplies blocks after this block. Before the first call `*opening`
   is all zeros. Once the volume is open, `forget_supplied` makes the core forget the supplied
   blocks of the files and of a log. It takes long if many calls wait. */
int supply_to_open(famsync *handle, uint32_t block, struct opening *opening);
void forget_supplied(famsync *handle, const struct opening *opening);
/* Reads whole blocks of the volume into `bytes`. */
int read_blocks(famsync *handle, uint32_t block, uint32_t count, unsigned char *bytes);
/* Supplies the block that the core wants, and the blocks after it: `pages` blocks in all, but at
   most MOST_READ. */
int supply(famsync *handle, uint32_t block, uint64_t pages);

/* space.c: allocates blocks on the disk, so that no later write finds the disk full. */
int begin_space(famsync *handle);
void end_space(struct space *space);
/* `claim_pages` notes that the next commit writes these pages of a file. `forget_claims` forgets that: nothing waits
   for a commit any more. */
int claim_pages(famsync *handle, unsigned file, uint64_t page, uint64_t pages);
void forget_claims(famsync *handle);
/* Allocates all blocks that the next commit will write. FAMSYNC_NOSPACE: the disk is full; errno has the cause. */
int reserve_space(famsync *handle);
/* With a log: the next commit begins at this position. `follow_log` finds it out from each write that is made. */
void begin_log(famsync *handle, uint32_t position);
void follow_log(famsync *handle, uint64_t offset, uint64_t length);

/* ranges.c: read and write a range of a file through the core's pages. The caller has the turn, and
   the range is within the file. `*done` is the number of bytes that were read or written, even
   after a failure. */
int read_range(famsync *handle, unsigned file, uint64_t offset, unsigned char *bytes, size_t count, size_t *done);
int write_range(famsync *handle, unsigned file, uint64_t offset, const unsigned char *bytes, size_t count,
                size_t *done);
/* Sets a file's length, up to its capacity. */
int set_length(famsync *handle, unsigned file, uint64_t length);
/* Explain codes: these pages are too many for one commit; the volume has no file of this name; plain
   memory of this file is open (memory.c). */
int explain_no_frame(const famsync *handle, const char *what, uint64_t pages);
int no_such_name(const char *file);
int memory_is_open(const char *file);
/* The number of these pages that already wait in the core for the next commit. */
uint64_t staged_among(famsync *handle, unsigned file, uint64_t first, uint64_t count);

/* stores.c: takes the stores to plain memory for a commit, puts them back if the commit fails, and
   notes that they are committed. The caller has the turn. */
int take_stores(famsync *handle);
void put_stores_back(famsync *handle);
void stores_are_committed(famsync *handle);
/* Returns committed pages to the system if plain memory keeps more of them than its budget allows.
   This may be called at any time. If the kernel tracks stores, the call does nothing: pages are
   then returned only within a commit, when no thread stores. */
void keep_to_budget(famsync *handle);
/* The number of pages of plain memory that were stored to and don't wait in the core yet. */
uint64_t stored_pages(famsync *handle);
/* Judges whether the next commit has room for a write to a range, besides all that waits for it in
   the core and in plain memory. The range isn't empty, and is within the file. */
int judge_range(famsync *handle, unsigned file, uint64_t offset, size_t count);
/* memory.c: the open plain memory of a file; a null pointer if there is none. */
famsync_memory *memory_of_file(const famsync *handle, unsigned file);
/* mapping.c: sets the length of a file whose plain memory is open. */
int resize_memory(famsync_memory *memory, uint64_t length);
/* memory.c: read and write a range of a file whose plain memory is open. */
void read_memory(const famsync_memory *memory, uint64_t offset, unsigned char *bytes, size_t count);
int write_memory(famsync_memory *memory, uint64_t offset, const unsigned char *bytes, size_t count);

/* tracking.c: begins and ends tracking by the kernel. FAMSYNC_TRACKING: the system can't track
   stores. */
int begin_tracking(struct tracker *tracker);
void end_tracking(struct tracker *tracker);

/* format.c: writes the first start of a log to the file of a new volume. This log has no
   commits. */
int write_first_start(int file);
/* Draws a new key for a copy of a volume with this super block, if its layout has one. */
int change_key(unsigned char *super);
/* The most pages that a commit of a volume can have. */
uint64_t most_pages(const famsync *handle);

/* backup.c: writes all `count` bytes to a file. */
int write_whole(int file, const unsigned char *bytes, size_t count, uint64_t offset);
/* If a backup is being made, copies the blocks to it that the gathered writes will overwrite. */
void save_for_backup(famsync *handle);

/* heap.c: the number of bytes of memory that the cores of all sessions of this process use. */
uint64_t memory_in_use(void);

/* groups.c: `enter_between_groups` enters when no group is open, and holds off new groups until
   `resume_groups`, or until `leave_between_groups`. If a thread has ended within a group, the
   session is `torn` then. */
int enter_between_groups(famsync *handle);
void resume_groups(famsync *handle);
int leave_between_groups(famsync *handle, int code);
/* Whether a group is open. */
bool has_groups(famsync *handle);
/* FAMSYNC_BUSY: this thread holds a group. */
int check_no_group(famsync *handle);

/* commit.c: takes all stores to plain memory, and commits all changes. `*mark` is set to the
   commit's number. The caller has the turn. */
int commit_stores(famsync *handle, uint64_t *mark);
/* rollback.c: undoes all changes since the last commit. The caller has the turn. */
int roll_back(famsync *handle);

/* commit.c: notes that nothing in the core waits for a commit any more. */
void forget_staged(famsync *handle);

/* background.c: begins and ends the thread that makes the remaining writes of commits. */
void begin_background(famsync *handle);
void end_background(famsync *handle);
/* Makes the remaining writes of a commit, up to the next sync. With a log it also ends after the
   write of a start. With `gives_way` it ends early if another call comes. The caller has the
   turn. */
int write_out(famsync *handle, bool gives_way);
/* With a log: writes a part of earlier commits home before a commit of `pages` pages, if half of
   the log is in use. Returns only failures that end the session. */
int write_some_out(famsync *handle, uint64_t pages);
/* With a log: finds out which commits are home. Call this when the waiting calls are made. */
void note_log(famsync *handle);
/* Makes all remaining writes of all commits. */
int write_all_out(famsync *handle);

/* forks.c: the list of this process's handles. A forked process closes their volumes. */
int enter_handle(famsync *handle);
void leave_handle(famsync *handle);
/* Whether this process is a copy of the process that began the session. A process that shares the
   memory of that process isn't a copy. */
bool is_forked(const famsync *handle);

/* faults.c: the lock of the table by which the handler of SIGSEGV finds plain memory. */
void lock_table(void);
void unlock_table(void);

#endif
