/* What the programs of this folder share: an end with status 1, clocks, and waits that leave the core to nobody. */
#ifndef BASICS_H
#define BASICS_H
#ifndef _GNU_SOURCE
#define _GNU_SOURCE
#endif
#include <stdbool.h>
#include <stdint.h>
#include <stdio.h>
#include <stdlib.h>
#include <time.h>

/* A variable that is in a cache line of its own, and in the neighbour that is fetched with it. */
#define APART __attribute__((aligned(128)))

static void must(bool good, const char *what)
{
    if (!good) {
        fprintf(stderr, "%s\n", what);
        exit(1);
    }
}

static void pause_once(void)
{
#if defined __x86_64__ || defined __i386__
    __builtin_ia32_pause();
#elif defined __aarch64__
    __asm__ volatile("yield");
#endif
}

static uint64_t told_by(clockid_t clock)
{
    struct timespec time;
    must(clock_gettime(clock, &time) == 0, "no clock");
    return (uint64_t)time.tv_sec * 1000000000u + (uint64_t)time.tv_nsec;
}

static uint64_t elapsed(void)
{
    return told_by(CLOCK_MONOTONIC);
}

static void wait_till(uint64_t time)
{
    while (elapsed() < time) {
        pause_once();
    }
}
#endif
