/* The marks of all objects of a process: see mark.h. */
#include "mark.h"
#include <stdatomic.h>
#include <time.h>

/* The last mark that was given; 0 before the first one. */
static atomic_uint_least64_t last;

/* The clock of the processor, which goes on faster than marks are given; else that of the C library. */
static uint64_t clock_now(void)
{
#if defined __x86_64__
    return __builtin_ia32_rdtsc();
#else
    struct timespec now = {0, 0};
    (void)timespec_get(&now, TIME_UTC);
    return (uint64_t)now.tv_sec * 1000000000u + (uint64_t)now.tv_nsec;
#endif
}

/* What the first mark comes after: not 0, and half of the numbers are left. */
static uint64_t first_mark(void)
{
    const uint64_t spread = 0x9e3779b97f4a7c15u;
    return (((uint64_t)(uintptr_t)&last * spread + clock_now()) & INT64_MAX) | 1;
}

uint64_t synth_next_mark(void)
{
    uint64_t none = 0;
    if (atomic_load(&last) == 0) {
        (void)atomic_compare_exchange_strong(&last, &none, first_mark());
    }
    return atomic_fetch_add(&last, 1) + 1;
}
