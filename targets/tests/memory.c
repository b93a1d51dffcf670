/* Tests here what memory/ has for WebAssembly: the functions of 128 bits against the compiler's own, and that blocks of memory keep their
 * contents, do not overlap, and are used again, while a memory of pages grows up to its limit. */
#include <stdint.h>
#include <stdio.h>
#include <stdlib.h>
#include <string.h>

enum { PAGES = 100, FIRST = 3, BLOCKS = 1500, STEPS = 300000 };

static uint64_t state = 1;

static uint64_t drawn(void) /* SplitMix64 */
{
    uint64_t z = state += 0x9E3779B97F4A7C15;
    z = (z ^ z >> 30) * 0xBF58476D1CE4E5B9;
    z = (z ^ z >> 27) * 0x94D049BB133111EB;
    return z ^ z >> 31;
}

static void expect(int holds, const char *what)
{
    if (holds)
        return;
    printf("not so: %s\n", what);
    exit(1);
}

/* ---- 128 bits */

#define __multi3 our_multi3
#define __ashlti3 our_ashlti3
#define __lshrti3 our_lshrti3
#include "../memory/int128.c"

/* A number of 64 bits, often near 0, 2^32 or 2^64. */
static u64 number(void)
{
    u64 some = drawn();
    return some & 1 ? drawn() : ((some >> 8 & 3) << (some & 32)) - (some >> 16 & 3);
}

static void test_128_bits(void)
{
    for (int i = 0; i < STEPS; i++) {
        u128 a = of_halves(number(), number()), b = of_halves(number(), number());
        int n = (int)(drawn() % 128);
        expect(our_multi3(a, b) == a * b, "a product");
        expect(our_ashlti3(a, n) == a << n && our_lshrti3(a, n) == a >> n, "a shift");
    }
}

/* ---- blocks */

static char pages[PAGES][65536] __attribute__((aligned(65536)));
extern char __heap_base __attribute__((alias("pages")));
static uint64_t present = FIRST;

static uint64_t more_pages(uint64_t more)
{
    if (more > PAGES - present)
        return UINT64_MAX;
    present += more;
    return present - more;
}

#define __builtin_wasm_memory_size(index) ((uintptr_t)pages / 65536 + present)
#define __builtin_wasm_memory_grow(index, more) more_pages(more)
#define malloc our_malloc
#define realloc our_realloc
#define free our_free
#define link our_link
#define unlink our_unlink
#include "../memory/wasm.c"

static struct {
    unsigned char *at, filled;
    size_t bytes;
} blocks[BLOCKS];

static void check(int n)
{
    for (size_t i = 0; i < blocks[n].bytes; i++)
        expect(blocks[n].at[i] == blocks[n].filled, "a block keeps its bytes");
}

/* Makes, resizes or frees a block, and returns whether there was memory. */
static int step(int n)
{
    size_t bytes = drawn() % (drawn() % 16 ? 200 : 60000);
    unsigned char *at;
    check(n);
    if (blocks[n].at && drawn() % 2) {
        our_free(blocks[n].at);
        blocks[n].at = 0, blocks[n].bytes = 0;
        return 1;
    }
    at = our_realloc(blocks[n].at, bytes);
    if (!at)
        return 0;
    expect((uintptr_t)at % 16 == 0, "a block is aligned");
    expect((char *)at >= pages[0] && (char *)at + bytes <= pages[present], "a block is in the memory");
    for (size_t i = 0; i < bytes && i < blocks[n].bytes; i++)
        expect(at[i] == blocks[n].filled, "a resized block keeps its bytes");
    blocks[n].at = at, blocks[n].bytes = bytes, blocks[n].filled = (unsigned char)drawn();
    memset(at, blocks[n].filled, bytes);
    return 1;
}

static void test_blocks(void)
{
    uint64_t refused = 0, after;
    for (int i = 0; i < STEPS; i++)
        refused += !step((int)(drawn() % BLOCKS));
    for (int n = 0; n < BLOCKS; n++)
        check(n), our_free(blocks[n].at), blocks[n].at = 0, blocks[n].bytes = 0;
    expect(is_ice_heap_used() == 0, "all blocks are freed");
    after = present;
    for (int round = 0; round < 1000; round++) {
        void *at[50];
        for (int n = 0; n < 50; n++)
            expect((at[n] = our_malloc(1000)) != 0, "there is memory again");
        for (int n = 0; n < 50; n++)
            our_free(at[n]);
    }
    expect(present == after, "what was freed is used again");
    expect(!our_malloc((size_t)1 << 39) && !our_malloc((size_t)PAGES * 65536) && is_ice_heap_used() == 0, "too much is refused");
    printf("%d steps, %llu pages, %llu refused\n", STEPS, (unsigned long long)present, (unsigned long long)refused);
}

int main(void)
{
    test_128_bits();
    test_blocks();
    return 0;
}
