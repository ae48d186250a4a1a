/* A heap in a file, and a list in it. Its pointers stay valid, since each session maps the file at the same address.
   Kill it at any moment: the next session finds heap and list as one commit left them, and goes on.
   usage: heap VOLUME [STEPS]      a volume made by: famsync format VOLUME heap=65536/16777216 */
#include <famsync.h>
#include <stdbool.h>
#include <stdio.h>
#include <stdlib.h>
#include <string.h>

#define ADDRESS ((void *)0x200000000000) /* the system places nothing here by itself */
#define SMALLEST 64u                     /* a block has 64 bytes, or 128, or 256, and so on */
#define SIZES 6u                         /* the number of sizes */
#define HEAD 128u                        /* bytes before the first block */
#define GROWTH 16384u                    /* how many bytes the file grows by */
#define MOST 400                         /* the most nodes of the list */

struct block {
    struct block *next;
};

struct node {
    struct node *next, *previous;
    long number;
    size_t length; /* bytes of `text` */
    char text[];
};

/* The beginning of the file. */
struct heap {
    void *address;              /* where the memory begins, in each session */
    char *unused;               /* from here on no block was ever allocated */
    struct block *freed[SIZES]; /* a list of freed blocks for each size */
    struct node *first, *last;
    long nodes, steps;
};

_Static_assert(sizeof(struct heap) <= HEAD, "the head has room before the first block");

static famsync *volume;
static famsync_memory *memory;
static struct heap *heap;

static void must(int code)
{
    if (code != FAMSYNC_OK) {
        fprintf(stderr, "heap: %s\n", famsync_error(NULL));
        exit(1);
    }
}

/* The file itself says where its memory has to begin. */
static void begin(const char *path)
{
    void *address;
    must(famsync_open(path, NULL, &volume));
    must(famsync_read(volume, 0, 0, &address, sizeof address, NULL));
    must(famsync_memory_open_at(volume, "heap", address ? address : ADDRESS, &memory));
    heap = famsync_memory_at(memory);
    if (!address) {
        heap->address = heap;
        heap->unused = (char *)heap + HEAD;
    }
}

/* Which size a block for this many bytes has. */
static unsigned size_of(size_t bytes)
{
    unsigned size = 0;
    while ((size_t)SMALLEST << size < bytes)
        size++;
    return size;
}

/* Whether the heap has this many unused bytes. The file grows for them, up to its capacity; pointers stay good. */
static bool has_unused(size_t bytes)
{
    size_t length = famsync_memory_length(memory);
    int code = FAMSYNC_OK;
    if (heap->unused + bytes > (char *)heap + length)
        code = famsync_setlength(volume, "heap", length + GROWTH);
    if (code != FAMSYNC_EINVAL)
        must(code);
    return code == FAMSYNC_OK;
}

/* A null pointer if the heap is full, or has no blocks as large as that. */
static void *allocate(size_t bytes)
{
    unsigned size = size_of(bytes);
    struct block *block = size < SIZES ? heap->freed[size] : NULL;
    if (size >= SIZES)
        return NULL;
    if (block) {
        heap->freed[size] = block->next;
    } else if (has_unused((size_t)SMALLEST << size)) {
        block = (struct block *)(void *)heap->unused;
        heap->unused += (size_t)SMALLEST << size;
    }
    return block;
}

static void release(void *at, size_t bytes)
{
    unsigned size = size_of(bytes);
    struct block *block = at;
    block->next = heap->freed[size];
    heap->freed[size] = block;
}

static char letter_of(const struct node *node)
{
    return (char)('a' + node->number % 26);
}

/* Whether there was room for one more node. */
static bool append(size_t length)
{
    struct node *node = allocate(sizeof *node + length);
    if (!node)
        return false;
    *node = (struct node){.previous = heap->last, .number = heap->steps, .length = length};
    memset(node->text, letter_of(node), length);
    *(heap->last ? &heap->last->next : &heap->first) = node;
    heap->last = node;
    heap->nodes++;
    return true;
}

static void drop(struct node *node)
{
    *(node->previous ? &node->previous->next : &heap->first) = node->next;
    *(node->next ? &node->next->previous : &heap->last) = node->previous;
    heap->nodes--;
    release(node, sizeof *node + node->length);
}

static struct node *any_node(void)
{
    struct node *node = heap->first;
    for (long left = rand() % heap->nodes; left > 0; left--)
        node = node->next;
    return node;
}

/* Adds a node or drops one. Both change several places, which belong together. */
static void make_step(void)
{
    bool adds = heap->nodes == 0 || (heap->nodes < MOST && rand() % 3 > 0);
    heap->steps++;
    if (!adds || !append((size_t)rand() % 2000))
        drop(any_node());
    must(famsync_msync(volume, NULL)); /* the whole step, or nothing of it */
    printf("acknowledged %ld\n", heap->steps);
    fflush(stdout);
}

static bool is_whole_node(const struct node *node, const struct node *previous)
{
    for (size_t i = 0; i < node->length; i++)
        if (node->text[i] != letter_of(node))
            return false;
    return node->previous == previous && (!previous || previous->number < node->number);
}

/* Whether each pointer and each text is right, and each block is a node's or a freed one. */
static bool is_whole(void)
{
    const struct node *previous = NULL;
    size_t bytes = HEAD;
    long nodes = 0;
    for (const struct node *node = heap->first; node; previous = node, node = node->next, nodes++) {
        if (!is_whole_node(node, previous))
            return false;
        bytes += (size_t)SMALLEST << size_of(sizeof *node + node->length);
    }
    for (unsigned size = 0; size < SIZES; size++)
        for (const struct block *block = heap->freed[size]; block; block = block->next)
            bytes += (size_t)SMALLEST << size;
    return previous == heap->last && nodes == heap->nodes && (char *)heap + bytes == heap->unused;
}

int main(int count, char **words)
{
    begin(count > 1 ? words[1] : "heap.vol");
    srand((unsigned)heap->steps);
    bool whole = is_whole();
    for (long left = count > 2 && whole ? atol(words[2]) : 0; left > 0; left--)
        make_step();
    whole = whole && is_whole();
    printf("%ld nodes, %ld steps: %s\n", heap->nodes, heap->steps, whole ? "whole" : "broken");
    must(famsync_memory_close(memory));
    must(famsync_close(volume));
    return whole ? 0 : 1;
}
