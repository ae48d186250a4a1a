/* Declarations that the files for plain memory share. */
#ifndef FAMSYNC_MEMORY_H
#define FAMSYNC_MEMORY_H

#include "inside.h"

/* A file's bytes as plain memory. "Page" means a page of the system, which may contain several
   pages of the volume. If a comment ends with the name of a lock, that lock guards the field. The
   memory has room for the file's capacity. Bytes past the file's length can't be used.

   If a page is kept, its committed bytes are in `copy`. Otherwise they are in its home block.
   Without a mapping of the home blocks, `copy` has all pages. */
struct famsync_memory {
    famsync *handle;
    famsync_memory *next_one;  /* the handle's next memory */
    unsigned char *at;         /* the address of the memory */
    _Atomic size_t length;     /* the file's length in bytes; set with `turn` and `closing` held */
    size_t room;               /* the size of the memory: the capacity in whole pages */
    size_t grain;              /* the size of a page */
    size_t most;               /* the number of pages of the memory */
    size_t pages;              /* the number of pages of the file; set with `turn` and `closing`
                                  held */
    unsigned file;             /* the file's number */
    struct entry *entry;       /* the memory's entry in the handler's table; null if it has none */
    bool stored;               /* the core has uncommitted stores of this memory; `turn` */
    unsigned char *dirty;      /* for each page, CLOSED, STORED or OPENED; `closing` */
    unsigned char *taken;      /* for each page, whether the current commit has taken it; `turn` */
    unsigned char *copy;       /* the bytes of pages as the last commit took them; `closing` */
    const unsigned char *home; /* a mapping of the file's home blocks; null if the file was read
                                  whole */
    uint32_t *since;           /* for each kept page, the number of its last commit; 0 for other
                                  pages; `closing` */
    size_t kept;               /* the number of kept pages; `closing` */
    struct span keeps;         /* contains each kept page; `closing` */
    struct span open;          /* contains each page that isn't CLOSED; `closing` */
    size_t noted;              /* the number of pages that aren't CLOSED; `closing` */
    struct span takes;         /* contains each taken page; `turn` */
    unsigned char *fresh;      /* replaces the memory in a rollback, if the file was read whole;
                                  `turn` */
    unsigned char *spare;      /* replaces `copy` in a rollback; `turn` */
    size_t next, ahead;        /* the page after the pages that were opened last, and the number of
                                  those pages; `closing` */
};

/* A page is CLOSED (read-only), STORED (opened by a store to it), or OPENED (opened without a store
   to it). A comparison with its committed bytes shows whether an OPENED page was stored to
   later. */
enum { CLOSED, STORED, OPENED };

/* The number of bytes of the file in this page, and the number of the volume's pages that contain
   them. */
static inline size_t bytes_in(const famsync_memory *memory, size_t page)
{
    size_t left = memory->length - page * memory->grain;
    return left < memory->grain ? left : memory->grain;
}

static inline size_t pages_in(const famsync_memory *memory, size_t page)
{
    return (bytes_in(memory, page) + PAGE - 1) / PAGE;
}

/* mapping.c: maps and unmaps a memory. FAMSYNC_ADDRESS: the memory can't begin at `address`. If
   `address` is a null pointer, the system chooses the address. */
int map_memory(famsync_memory *memory, void *address);
void unmap_memory(famsync_memory *memory);
/* Grows or shrinks the memory. */
int resize_memory(famsync_memory *memory, uint64_t length);
/* Sets the memory to the bytes of the last commit, and the file to this length. The bytes are those
   of the home blocks, of `fresh`, or of `copy`. Afterwards all pages are closed. The caller holds
   `closing`. */
int begin_memory_again(famsync_memory *memory, size_t length);
/* Anonymous memory of this size; a null pointer if the system refuses it. */
void *anonymous(size_t room);
/* The bytes past the file's end in its last page. In the home block of this page they may be other
   than zeros. `is_end_clear` returns whether they are zeros in the memory. `clear_end` sets them to
   zeros; the page has to be open. */
bool is_end_clear(const famsync_memory *memory);
void clear_end(famsync_memory *memory);
/* Sets the same bytes to zeros if the page is closed. That doesn't count as a store. The caller
   holds `closing`. */
int clear_closed_end(famsync_memory *memory);

/* stores.c: `lock_pages` blocks all signals and takes `closing`. `unlock_pages` releases `closing`
   and restores the blocked signals. */
void lock_pages(famsync *handle, sigset_t *blocked);
void unlock_pages(famsync *handle, const sigset_t *blocked);
/* If the kernel tracks stores, notes the stores that it has tracked. The caller holds `closing`. */
void note_tracked(famsync_memory *memory);
/* Notes pages as CLOSED, STORED or OPENED. The caller holds `closing`. */
void note_pages(famsync_memory *memory, size_t first, size_t end, unsigned char note);
/* The number of pages of the volume that were stored to since the last commit. The caller holds
   `closing`. */
size_t dirty_in(const famsync_memory *memory);
/* Calls `each` for each run of pages in a span that have the note STORED. It stops when `each`
   returns another code than FAMSYNC_OK. */
int for_runs(famsync_memory *memory, const unsigned char *notes, struct span span,
             int (*each)(famsync_memory *memory, size_t first, size_t end));
/* Closes all pages of all memories. Afterwards the pages that were stored to are STORED, and
   `*pages` is their number. The caller holds `closing`. */
int close_stores(famsync *handle, uint64_t *pages);
/* After `keep` the pages are kept: their committed bytes are those in `copy`, and belong to the
   next commit. After `keep_no_more` their committed bytes are those of their home blocks. */
void keep(famsync_memory *memory, size_t first, size_t end);
void keep_no_more(famsync_memory *memory, size_t first, size_t end);

/* tracking.c: `track` makes the kernel track stores to a memory. `collect` notes the stores since
   its last call. */
int track(famsync_memory *memory);
int collect(famsync_memory *memory);
/* Does the same as `collect` for some pages. After `ignore_stores` the earlier stores to some pages
   don't count: the library made them. */
int collect_among(famsync_memory *memory, size_t first, size_t end);
int ignore_stores(famsync_memory *memory, size_t first, size_t end);

/* faults.c: takes and releases the lock `closing`, which guards the opening and closing of pages.
   Its holder blocks all signals and never waits. So the handler of SIGSEGV may wait for this
   lock. */
void take(famsync *handle);
void give(famsync *handle);

/* Opens pages for writing. All of them count as stored to. The caller holds `closing`. */
bool open_pages(famsync_memory *memory, size_t first, size_t end);
/* Opens a page for writing. If the page didn't count as stored to before, it counts once its bytes
   differ from the committed bytes. */
bool open_unstored(famsync_memory *memory, size_t page);

/* Enters a memory in the table of the handler of SIGSEGV. Installs the handler if it isn't
   installed. */
int enter_table(famsync_memory *memory);
void leave_table(famsync_memory *memory);

#endif
