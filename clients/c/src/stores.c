/* What is stored to plain memory: which pages were stored to since the last commit, what the next commit takes of them,
   and which committed pages are given back to the system. */
#include "memory.h"

#include <string.h>
#include <sys/mman.h>

void lock_pages(famsync *handle, sigset_t *blocked)
{
    sigset_t all;
    sigfillset(&all);
    pthread_sigmask(SIG_SETMASK, &all, blocked);
    take(handle);
}

void unlock_pages(famsync *handle, const sigset_t *blocked)
{
    give(handle);
    pthread_sigmask(SIG_SETMASK, blocked, NULL);
}

/* How many notes are looked at together, and whether none of so many is one. */
#define TOGETHER 64u

static bool are_blank(const unsigned char *notes)
{
    uint64_t words[TOGETHER / sizeof(uint64_t)], all = 0;
    memcpy(words, notes, sizeof words);
    for (size_t i = 0; i < sizeof words / sizeof *words; i++)
        all |= words[i];
    return all == 0;
}

/* The first page of a span, from one on, that has a note; the end of the span if none has. */
static size_t first_noted(const unsigned char *notes, size_t page, size_t end)
{
    while (page < end && notes[page] == CLOSED)
        page += end - page >= TOGETHER && are_blank(notes + page) ? TOGETHER : 1;
    return page;
}

int for_runs(famsync_memory *memory, const unsigned char *notes, struct span span,
             int (*each)(famsync_memory *memory, size_t first, size_t end))
{
    int code = FAMSYNC_OK;
    for (size_t page = span.begin; page < span.end && code == FAMSYNC_OK;) {
        const unsigned char *found = memchr(notes + page, STORED, span.end - page);
        size_t first;
        if (!found)
            break;
        first = page = (size_t)(found - notes);
        while (page < span.end && notes[page] == STORED)
            page++;
        code = each(memory, first, page);
    }
    return code;
}

void note_pages(famsync_memory *memory, size_t first, size_t end, unsigned char note)
{
    size_t before = 0;
    for (size_t page = first; page < end; page++)
        before += memory->dirty[page] != CLOSED;
    memory->noted -= before;
    memset(memory->dirty + first, note, end - first);
    if (note == CLOSED)
        return;
    memory->noted += end - first;
    widen(&memory->open, first, end);
}

/* The committed bytes of a page. */
static const unsigned char *committed(const famsync_memory *memory, size_t page)
{
    bool at_home = memory->home && memory->since[page] == 0;
    return (at_home ? memory->home : memory->copy) + page * memory->grain;
}

/* Whether a page was stored to since the last msync, as far as its bytes show it where it was opened with others. */
static bool is_stored(const famsync_memory *memory, size_t page)
{
    return memory->dirty[page] == STORED ||
           (memory->dirty[page] == OPENED &&
            memcmp(memory->at + page * memory->grain, committed(memory, page), bytes_in(memory, page)) != 0);
}

size_t dirty_in(const famsync_memory *memory)
{
    size_t count = 0, end = memory->open.end;
    for (size_t page = first_noted(memory->dirty, memory->open.begin, end); page < end;
         page = first_noted(memory->dirty, page + 1, end))
        if (is_stored(memory, page))
            count += pages_in(memory, page);
    return count;
}

/* Of those pages, how many the core has for the next commit already. */
static uint64_t staged_in(const famsync_memory *memory)
{
    uint64_t count = 0, end = memory->open.end;
    for (size_t page = first_noted(memory->dirty, memory->open.begin, end); page < end;
         page = first_noted(memory->dirty, page + 1, end))
        if (is_stored(memory, page))
            count += staged_among(memory->handle, memory->file, page * (memory->grain / PAGE), pages_in(memory, page));
    return count;
}

void note_tracked(famsync_memory *memory)
{
    if (memory->handle->is_tracked)
        (void)collect(memory);
}

/* Notes the stores that the kernel has tracked, unless a commit has room for all pages that can be stored to. That
   takes long if many pages are in memory. */
static void note_all_tracked(famsync *handle, uint64_t others)
{
    for (const famsync_memory *memory = handle->memories; memory; memory = memory->next_one)
        others += memory->pages * (memory->grain / PAGE);
    for (famsync_memory *memory = handle->memories; memory && others > handle->frames; memory = memory->next_one)
        note_tracked(memory);
}

/* How many pages of a span don't wait for the next commit yet, neither in the core nor in plain memory. */
static uint64_t new_among(famsync *handle, unsigned file, struct span span)
{
    const famsync_memory *memory = memory_of_file(handle, file);
    uint64_t count = 0;
    for (size_t page = span.begin; page < span.end; page++)
        if (!memory || !is_stored(memory, page / (memory->grain / PAGE)))
            count += staged_among(handle, file, page, 1) == 0;
    return count;
}

/* The pages that wait are counted only if there may be too many of them. A page of plain memory that has no note
   doesn't wait. */
static int judge_span(famsync *handle, unsigned file, struct span span)
{
    uint64_t staged = (uint64_t)famsync_core_staged(handle->core, &handle->core.at), added = span.end - span.begin;
    uint64_t most = staged + added, count = staged;
    if (handle->is_tracked && new_among(handle, file, span) > 0)
        note_all_tracked(handle, most);
    for (const famsync_memory *memory = handle->memories; memory; memory = memory->next_one)
        most += memory->noted * (memory->grain / PAGE);
    if (most <= handle->frames)
        return FAMSYNC_OK;
    added = new_among(handle, file, span);
    for (const famsync_memory *memory = handle->memories; memory; memory = memory->next_one)
        count += dirty_in(memory) - staged_in(memory);
    return added == 0 || count + added <= handle->frames
               ? FAMSYNC_OK
               : explain_no_frame(handle, "the next commit would have", count + added);
}

/* The pages of the volume that a write to a range stores to: all of those in the pages of plain memory. */
static struct span span_of(const famsync *handle, unsigned file, uint64_t offset, size_t count)
{
    const famsync_memory *memory = memory_of_file(handle, file);
    uint64_t grain = memory ? memory->grain : PAGE, length = handle->file[file].length;
    uint64_t end = (offset + count - 1) / grain * grain + grain;
    end = end < length ? end : length;
    return (struct span){(size_t)(offset / grain * (grain / PAGE)), (size_t)((end + PAGE - 1) / PAGE)};
}

int judge_range(famsync *handle, unsigned file, uint64_t offset, size_t count)
{
    struct span span = span_of(handle, file, offset, count);
    sigset_t blocked;
    int code;
    if (span.end - span.begin > handle->frames)
        return explain_no_frame(handle, "the range has", span.end - span.begin);
    if (!handle->memories)
        return judge_span(handle, file, span);
    lock_pages(handle, &blocked);
    code = judge_span(handle, file, span);
    unlock_pages(handle, &blocked);
    return code;
}

uint64_t stored_pages(famsync *handle)
{
    uint64_t count = 0;
    sigset_t blocked;
    lock_pages(handle, &blocked);
    for (famsync_memory *memory = handle->memories; memory; memory = memory->next_one) {
        note_tracked(memory);
        count += dirty_in(memory) - staged_in(memory);
    }
    unlock_pages(handle, &blocked);
    return count;
}

/* Without a mapping of the home blocks all pages are kept, and nothing is noted of that. */
void keep(famsync_memory *memory, size_t first, size_t end)
{
    if (!memory->home || first == end)
        return;
    for (size_t page = first; page < end; page++) {
        memory->kept += memory->since[page] == 0;
        memory->since[page] = memory->handle->numbered + 1;
    }
    widen(&memory->keeps, first, end);
}

void keep_no_more(famsync_memory *memory, size_t first, size_t end)
{
    if (!memory->home)
        return;
    for (size_t page = first; page < end; page++) {
        memory->kept -= memory->since[page] != 0;
        memory->since[page] = 0;
    }
    (void)madvise(memory->copy + first * memory->grain, (end - first) * memory->grain, MADV_DONTNEED);
}

/* Whether a page that is kept may be given back: its home block has the same bytes. Of the last page the bytes past the
   file's end are memory, which no block has. */
static bool is_spare(const famsync_memory *memory, size_t page, uint32_t newest)
{
    return memory->since[page] != 0 && memory->since[page] <= newest && memory->dirty[page] == CLOSED &&
           (page + 1) * memory->grain <= memory->length;
}

/* The most pages that are given back at once. */
#define MOST_GIVEN 512u

/* Whether nobody has stored to pages that are closed, as far as is noted. Of those that the kernel tracks it notes it
   now: in a commit no thread stores, and so none does between this and the giving back. */
static bool are_unstored(famsync_memory *memory, size_t first, size_t end)
{
    if (!memory->handle->is_tracked)
        return true;
    return collect_among(memory, first, end) == FAMSYNC_OK && first_noted(memory->dirty, first, end) == end;
}

/* Gives a run of pages back: what is loaded from there is the home blocks again. */
static bool give_back(famsync_memory *memory, size_t first, size_t end)
{
    if (!are_unstored(memory, first, end))
        return false;
    (void)madvise(memory->at + first * memory->grain, (end - first) * memory->grain, MADV_DONTNEED);
    keep_no_more(memory, first, end);
    return true;
}

/* The first page of a span, from one on, that is kept; the end of the span if none is. */
static size_t first_kept(const famsync_memory *memory, size_t page, size_t end)
{
    const size_t size = sizeof *memory->since;
    return first_noted((const unsigned char *)memory->since, page * size, end * size) / size;
}

/* Gives all pages back that may be. */
static void give_back_spare(famsync_memory *memory, uint32_t newest)
{
    size_t end = memory->keeps.end, page = first_kept(memory, memory->keeps.begin, end);
    memory->keeps = (struct span){0, 0};
    for (size_t first; page < end; page = first_kept(memory, page, end)) {
        for (first = page; page < end && page - first < MOST_GIVEN && is_spare(memory, page, newest); page++)
            continue;
        if (first < page && give_back(memory, first, page))
            continue;
        page += first == page;
        widen(&memory->keeps, first, page);
    }
}

/* Whether it is worth looking for pages to give back: many commits become home at once. */
static bool is_more_home(famsync *handle)
{
    bool more = handle->log.home != handle->given_up_to;
    handle->given_up_to = handle->log.home;
    return more;
}

/* A page that is kept is there twice: as the program has it, and as it was committed. */
static void give_back_above_budget(famsync *handle)
{
    famsync_memory *memory;
    sigset_t blocked;
    uint64_t bytes = 0;
    for (memory = handle->memories; memory; memory = memory->next_one)
        bytes += 2 * memory->kept * memory->grain;
    if (bytes <= handle->budget || !is_more_home(handle))
        return;
    for (memory = handle->memories; memory; memory = memory->next_one) {
        lock_pages(handle, &blocked);
        give_back_spare(memory, handle->log.home);
        unlock_pages(handle, &blocked);
    }
}

void keep_to_budget(famsync *handle)
{
    if (!handle->is_tracked) /* nothing keeps a thread from storing to a page as it is given back */
        give_back_above_budget(handle);
}

/* Closes all pages that are open, by one call from the first to the last of them: those between are closed. Then those
   that were opened with others, and weren't stored to, are found. `*pages` becomes greater by the pages that were. */
static int close_pages(famsync_memory *memory, uint64_t *pages)
{
    size_t begin = memory->open.begin, end = memory->open.end;
    if (begin == end)
        return FAMSYNC_OK;
    if (mprotect(memory->at + begin * memory->grain, (end - begin) * memory->grain, PROT_READ) != 0)
        return FAMSYNC_SYSTEM;
    for (size_t page = first_noted(memory->dirty, begin, end); page < end;
         page = first_noted(memory->dirty, page + 1, end)) {
        note_pages(memory, page, page + 1, is_stored(memory, page) ? STORED : CLOSED);
        *pages += memory->dirty[page] == STORED ? pages_in(memory, page) : 0;
    }
    return FAMSYNC_OK;
}

/* Pages that the kernel tracks stay open. */
static int collect_pages(famsync_memory *memory, uint64_t *pages)
{
    int code = collect(memory);
    *pages += dirty_in(memory);
    return code;
}

static int forget_run(famsync_memory *memory, size_t first, size_t end)
{
    memset(memory->taken + first, CLOSED, end - first);
    return FAMSYNC_OK;
}

/* Forgets which pages a commit has. */
static void end_taking(famsync_memory *memory)
{
    for_runs(memory, memory->taken, memory->takes, forget_run);
    memory->takes = (struct span){0, 0};
}

/* Copies pages that were stored to, and were closed, and moves what is noted of them to the commit that is made. */
static int copy_run(famsync_memory *memory, size_t first, size_t end)
{
    memcpy(memory->copy + first * memory->grain, memory->at + first * memory->grain, (end - first) * memory->grain);
    memset(memory->taken + first, STORED, end - first);
    note_pages(memory, first, end, CLOSED);
    keep(memory, first, end);
    return FAMSYNC_OK;
}

static int store_run(famsync_memory *memory, size_t first, size_t end)
{
    size_t begin = first * memory->grain, stop = (end - 1) * memory->grain + bytes_in(memory, end - 1), done;
    memory->stored = true;
    return write_range(memory->handle, memory->file, begin, memory->copy + begin, stop - begin, &done);
}

/* Judges whether the next commit has room for these pages of plain memory, which are closed, and for those of the core.
 */
static int judge_room(famsync *handle, uint64_t pages)
{
    uint64_t count = pages + (uint64_t)famsync_core_staged(handle->core, &handle->core.at);
    for (famsync_memory *memory = handle->memories; memory && count > handle->frames; memory = memory->next_one)
        count -= staged_in(memory);
    return count <= handle->frames ? FAMSYNC_OK : explain_no_frame(handle, "this commit has", count);
}

int close_stores(famsync *handle, uint64_t *pages)
{
    int code = FAMSYNC_OK;
    *pages = 0;
    for (famsync_memory *memory = handle->memories; memory && code == FAMSYNC_OK; memory = memory->next_one)
        code = handle->is_tracked ? collect_pages(memory, pages) : close_pages(memory, pages);
    return code;
}

/* Closes all pages, and copies then those that were stored to; in between no page of this handle can be opened. Whether
   all go into one commit is judged before any is stored. */
static int close_and_copy(famsync *handle)
{
    uint64_t pages;
    int code = close_stores(handle, &pages);
    if (code == FAMSYNC_OK)
        code = judge_room(handle, pages);
    for (famsync_memory *memory = handle->memories; memory && code == FAMSYNC_OK; memory = memory->next_one) {
        end_taking(memory);
        memory->takes = memory->open;
        for_runs(memory, memory->dirty, memory->open, copy_run);
        memory->open = (struct span){0, 0};
    }
    return code;
}

static int put_run_back(famsync_memory *memory, size_t first, size_t end)
{
    note_pages(memory, first, end, STORED);
    return FAMSYNC_OK;
}

/* Gives back what a commit has taken, and hasn't made. The caller has the lock. */
static void put_back(famsync *handle)
{
    for (famsync_memory *memory = handle->memories; memory; memory = memory->next_one) {
        for_runs(memory, memory->taken, memory->takes, put_run_back);
        end_taking(memory);
    }
}

/* Whether nobody has stored to a page since it was copied. Where the kernel tracks stores, nothing keeps threads from
   that. If none has, the copies are of the moment at which the first memory is looked at. */
static int judge_copies(famsync *handle)
{
    uint64_t pages = 0;
    int code = handle->is_tracked ? close_stores(handle, &pages) : FAMSYNC_OK;
    return code == FAMSYNC_OK && pages > 0 ? FAMSYNC_BUSY : code;
}

/* How often pages are copied again that a thread stores to meanwhile. */
#define TRIES 4

static int take_pages(famsync *handle)
{
    sigset_t blocked;
    int code = FAMSYNC_BUSY;
    lock_pages(handle, &blocked);
    for (unsigned tries = 0; tries < TRIES && code == FAMSYNC_BUSY; tries++) {
        code = close_and_copy(handle);
        if (code == FAMSYNC_OK)
            code = judge_copies(handle);
        if (code != FAMSYNC_OK)
            put_back(handle);
    }
    unlock_pages(handle, &blocked);
    return code == FAMSYNC_BUSY ? explain(code, "a thread stored to plain memory during the commit") : code;
}

int take_stores(famsync *handle)
{
    int code = take_pages(handle);
    if (code == FAMSYNC_OK && !handle->is_tracked) /* stores that the kernel tracks wait for the commit's end */
        resume_groups(handle);
    for (famsync_memory *memory = handle->memories; memory && code == FAMSYNC_OK; memory = memory->next_one)
        code = for_runs(memory, memory->taken, memory->takes, store_run);
    return code;
}

void put_stores_back(famsync *handle)
{
    sigset_t blocked;
    lock_pages(handle, &blocked);
    put_back(handle);
    unlock_pages(handle, &blocked);
}

void stores_are_committed(famsync *handle)
{
    for (famsync_memory *memory = handle->memories; memory; memory = memory->next_one) {
        memory->stored = false;
        end_taking(memory);
    }
    give_back_above_budget(handle);
}
