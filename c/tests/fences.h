/* Memory that ends at a page without access, so that a library without instrumentation stops at the first byte that it reads or writes
 * past an end: for fuzz.c.
 *
 * c/run fuzz links fenced_malloc, fenced_realloc and fenced_free into the library in place of malloc, realloc and free. A freed block is
 * filled, and its bytes are compared when it is used again. fenced_realloc always moves a block. */
#ifndef FENCES_H
#define FENCES_H

#include <stdbool.h>
#include <stdint.h>
#include <stdio.h>
#include <stdlib.h>
#include <string.h>
#include <sys/mman.h>

enum {
    PAGE = 4096,
    CLASSES = 512, /* a block has at most as many pages */
    WAITING = 64,  /* pages of freed blocks of a size that wait before one is used again */
    FRESH = 0xaa,  /* what a block is filled with when it is new, after its end, and when it was freed */
    SLACK = 0xfd,
    FREED = 0xdd
};

void *fenced_malloc(size_t size);
void *fenced_realloc(void *at, size_t size);
void fenced_free(void *at);

/* In the last bytes before a block. */
struct fence {
    struct fence *next;
    size_t pages, size;
    uint64_t mark;
};

static const uint64_t in_use = UINT64_C(0x1ce1ce1ce1ce1ce1), is_freed = UINT64_C(0xdeadf4eedeadf4ee);
static struct fence *first[CLASSES], *last[CLASSES];
static size_t waiting[CLASSES];

static long asked, live;   /* allocations so far, and blocks that were not freed */
static long left = -1;     /* allocations before the one that fails; below 0: none fails */
static bool has_refused;   /* one failed */

static inline void stop(const char *what)
{
    fprintf(stderr, "fuzz: %s\n", what);
    abort();
}

/* Pages that end at one without access. */
static inline uint8_t *fenced_pages(size_t pages)
{
    uint8_t *at = mmap(NULL, (pages + 1) * PAGE, PROT_READ | PROT_WRITE, MAP_PRIVATE | MAP_ANONYMOUS, -1, 0);
    if (at == MAP_FAILED || mprotect(at + pages * PAGE, PAGE, PROT_NONE) != 0) stop("no memory for fences");
    return at;
}

static inline size_t rounded(size_t size)
{
    return (size + 15) / 16 * 16;
}

static inline void all_are(const uint8_t *bytes, size_t length, uint8_t wanted, const char *what)
{
    const uint64_t all = wanted * UINT64_C(0x0101010101010101);
    size_t i = 0;
    for (uint64_t word; i + sizeof word <= length; i += sizeof word) {
        memcpy(&word, bytes + i, sizeof word);
        if (word != all) stop(what);
    }
    for (; i < length; i++)
        if (bytes[i] != wanted) stop(what);
}

/* A block that waits to be used again, or a new one. */
static inline struct fence *block_of(size_t pages, size_t size)
{
    struct fence *fence = first[pages];
    if (waiting[pages] * pages <= WAITING) return (struct fence *)(void *)(fenced_pages(pages) + pages * PAGE - rounded(size)) - 1;
    first[pages] = fence->next;
    waiting[pages]--;
    if (fence->mark != is_freed) stop("the library wrote before a block that it freed");
    all_are((uint8_t *)(fence + 1), rounded(fence->size), FREED, "the library wrote to a block that it freed");
    uint8_t *end = (uint8_t *)(fence + 1) + rounded(fence->size);
    return (struct fence *)(void *)(end - rounded(size)) - 1;
}

void *fenced_malloc(size_t size)
{
    asked++;
    if (left >= 0 && left-- == 0) {
        has_refused = true;
        return NULL;
    }
    size_t pages = (sizeof(struct fence) + rounded(size) + PAGE - 1) / PAGE;
    if (pages >= CLASSES) stop("the library asks for more than two megabytes");
    struct fence *fence = block_of(pages, size);
    fence->next = NULL, fence->pages = pages, fence->size = size, fence->mark = in_use;
    memset(fence + 1, FRESH, size);
    memset((uint8_t *)(fence + 1) + size, SLACK, rounded(size) - size);
    live++;
    return fence + 1;
}

void fenced_free(void *at)
{
    if (!at) return;
    struct fence *fence = (struct fence *)at - 1;
    if (fence->mark != in_use) stop("the library freed what is no block, or wrote before one");
    all_are((uint8_t *)at + fence->size, rounded(fence->size) - fence->size, SLACK, "the library wrote past a block");
    memset(at, FREED, rounded(fence->size));
    fence->mark = is_freed, fence->next = NULL;
    if (waiting[fence->pages] == 0) first[fence->pages] = fence;
    else last[fence->pages]->next = fence;
    last[fence->pages] = fence;
    waiting[fence->pages]++;
    live--;
}

void *fenced_realloc(void *at, size_t size)
{
    void *to = fenced_malloc(size);
    if (!to || !at) return to;
    size_t kept = ((struct fence *)at - 1)->size;
    memcpy(to, at, kept < size ? kept : size);
    fenced_free(at);
    return to;
}

/* ---- arguments of a call: each in pages of its own */

enum { ARGUMENTS = 16, ARGUMENT_PAGES = 20, MARGIN = 32 };

static uint8_t *ends[ARGUMENTS];
static size_t used[ARGUMENTS];
static int next_argument;

/* An argument of this length, filled with FRESH; the bytes before it too. */
static inline void *argument(size_t length)
{
    int n = next_argument++;
    if (n >= ARGUMENTS || length > ARGUMENT_PAGES * PAGE - MARGIN) stop("too many arguments, or one is too long");
    if (!ends[n]) ends[n] = fenced_pages(ARGUMENT_PAGES) + ARGUMENT_PAGES * PAGE;
    used[n] = length;
    memset(ends[n] - length - MARGIN, FRESH, length + MARGIN);
    return ends[n] - length;
}

/* The call has ended: it wrote nothing before an argument. */
static inline void end_arguments(void)
{
    for (int n = 0; n < next_argument; n++) all_are(ends[n] - used[n] - MARGIN, MARGIN, FRESH, "the library wrote before an argument");
}

#endif
