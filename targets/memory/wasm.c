/* malloc, realloc and free of a module of WebAssembly, which has no C library: a buddy allocator. Nothing proves it.
 *
 * A block has 2^class bytes, 32 or more, begins at a multiple of its size from the start of the heap, and has a header of 16 bytes. A
 * block that is too large is split into halves, its buddies; buddies that are both free are joined again. The memory grows by a quarter
 * of itself, so that the engine seldom moves it, or by what is needed if there is no more. A failed growth answers -1, or 2^32 - 1 in a
 * module that was lowered to 32 bits: both are above MOST_PAGES, which are 16 GiB. */
typedef __SIZE_TYPE__ size_t;

enum { CLASSES = 40, HEADER = 16, SMALLEST = 5, PAGE = 65536, MOST_PAGES = 1 << 18 };

typedef struct block {
    size_t class, is_free;
    struct block *next, *previous; /* of the free blocks of the class */
} block;

void *malloc(size_t bytes);
void *realloc(void *old, size_t bytes);
void free(void *at);
size_t is_ice_heap_used(void);

extern char __heap_base; /* where the linker's own data ends */
static block *lists[CLASSES];
static size_t first, top, used; /* the heap begins and ends at these addresses; the bytes of blocks that are not free */

static void link(block *it, size_t class)
{
    it->class = class, it->is_free = 1, it->previous = 0, it->next = lists[class];
    if (it->next)
        it->next->previous = it;
    lists[class] = it;
}

static void unlink(block *it)
{
    if (it->next)
        it->next->previous = it->previous;
    if (it->previous)
        it->previous->next = it->next;
    else
        lists[it->class] = it->next;
    it->is_free = 0;
}

/* Frees a block, joined with its buddy as long as that is free too. */
static void give_back(block *it, size_t class)
{
    for (; class < CLASSES - 1; class++) {
        size_t size = (size_t)1 << class, offset = (size_t)it - first;
        block *buddy = (block *)(first + (offset ^ size));
        if ((size_t)buddy + size > top || !buddy->is_free || buddy->class != class)
            break;
        unlink(buddy);
        it = buddy < it ? buddy : it;
    }
    link(it, class);
}

/* Whether the memory reaches this address, after it has grown if necessary. */
static int reaches(size_t end)
{
    size_t bytes = (size_t)__builtin_wasm_memory_size(0) * PAGE, need, more = bytes / PAGE / 4;
    if (end <= bytes)
        return 1;
    need = (end - bytes + PAGE - 1) / PAGE;
    return __builtin_wasm_memory_grow(0, need > more ? need : more) <= MOST_PAGES || __builtin_wasm_memory_grow(0, need) <= MOST_PAGES;
}

/* A new block at the end of the heap, or null. What lies between, up to a multiple of its size, becomes free blocks. */
static block *appended(size_t class)
{
    size_t size = (size_t)1 << class, begin;
    if (first == 0)
        first = top = ((size_t)&__heap_base + HEADER - 1) & ~(size_t)(HEADER - 1);
    begin = first + ((top - first + size - 1) & ~(size - 1));
    if (!reaches(begin + size))
        return 0;
    while (top < begin) {
        size_t gap = (size_t)__builtin_ctzll(top - first);
        block *it = (block *)top;
        top += (size_t)1 << gap;
        give_back(it, gap);
    }
    top = begin + size;
    return (block *)begin;
}

/* The smallest free block of this class or above, split down to it, or null. */
static block *taken(size_t class)
{
    size_t from = class;
    block *it;
    while (from < CLASSES && !lists[from])
        from++;
    if (from == CLASSES)
        return 0;
    it = lists[from];
    unlink(it);
    while (from > class) {
        from--;
        link((block *)((size_t)it + ((size_t)1 << from)), from);
    }
    return it;
}

void *malloc(size_t bytes)
{
    size_t class = SMALLEST;
    block *found;
    if (bytes > (size_t)1 << (CLASSES - 2))
        return 0;
    while ((size_t)1 << class < bytes + HEADER)
        class++;
    found = taken(class);
    if (!found)
        found = appended(class);
    if (!found)
        return 0;
    found->class = class, found->is_free = 0;
    used += (size_t)1 << class;
    return (char *)found + HEADER;
}

void free(void *at)
{
    block *it;
    if (!at)
        return;
    it = (block *)((char *)at - HEADER);
    used -= (size_t)1 << it->class;
    give_back(it, it->class);
}

void *realloc(void *old, size_t bytes)
{
    size_t had;
    void *made;
    if (!old)
        return malloc(bytes);
    had = ((size_t)1 << ((block *)((char *)old - HEADER))->class) - HEADER;
    if (bytes <= had)
        return old;
    made = malloc(bytes);
    if (made) {
        __builtin_memcpy(made, old, had);
        free(old);
    }
    return made;
}

/* How many bytes are in blocks that are not free: for tests. */
size_t is_ice_heap_used(void)
{
    return used;
}
