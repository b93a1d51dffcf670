/* The processor's time, the bytes of the heap, and the end of a program when a call fails. Define _GNU_SOURCE before it. */
#include "is_ice.h"
#include <errno.h>
#include <malloc.h>
#include <stdio.h>
#include <stdlib.h>
#include <time.h>

static void fail(const char *what, int32_t code)
{
    fprintf(stderr, "%s: %s: %s\n", program_invocation_short_name, what, is_ice_code_text(code));
    exit(1);
}

static void must(const char *what, int32_t code)
{
    if (code != IS_ICE_OK) fail(what, code);
}

/* in microseconds */
static double cpu(void)
{
    struct timespec t;
    clock_gettime(CLOCK_PROCESS_CPUTIME_ID, &t);
    return (double)t.tv_sec * 1e6 + (double)t.tv_nsec / 1e3;
}

static double heap_bytes(void)
{
    struct mallinfo2 info = mallinfo2();
    return (double)(info.uordblks + info.hblkhd);
}
