/* The three functions by which the core asks for memory. It asks for alignments up to 16, which malloc has. */
#include "inside.h"

#include <malloc.h>
#include <stdlib.h>

/* What the cores have, as malloc counts it. */
static _Atomic uint64_t in_use;

uint64_t memory_in_use(void)
{
    return atomic_load_explicit(&in_use, memory_order_relaxed);
}

static void count(size_t more, size_t less)
{
    atomic_fetch_add_explicit(&in_use, (uint64_t)more - less, memory_order_relaxed);
}

/* What is answered where there is memory, and where there is none: then a byte of the library's, which nobody uses. */
static struct rattle_tried tried(void *at, size_t before)
{
    static uint8_t none;
    if (at)
        count(malloc_usable_size(at), before);
    return (struct rattle_tried){at != NULL, at ? at : &none};
}

struct rattle_tried rattle_alloc(size_t size, size_t align)
{
    (void)align;
    return tried(malloc(size > 0 ? size : 1), 0);
}

struct rattle_tried rattle_realloc(uint8_t *old, size_t kept, size_t size, size_t align)
{
    size_t before = malloc_usable_size(old);
    (void)kept;
    (void)align;
    return tried(realloc(old, size > 0 ? size : 1), before);
}

void rattle_dealloc(uint8_t *old)
{
    count(0, malloc_usable_size(old));
    free(old);
}
