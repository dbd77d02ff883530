/*
 * Two threads take a million marks at the same time. No mark is 0, each thread's marks ascend, and no mark is given
 * twice. It is built with library/mark.c itself, so that ThreadSanitizer sees whether its steps race. Prints one line.
 * Status 1: a mark was 0, didn't ascend or was given twice.
 */
#include "mark.h"
#include <pthread.h>
#include <stdatomic.h>
#include <stdio.h>

enum { TAKERS = 2, MARKS = 500000 };

static uint64_t marks[TAKERS][MARKS];
static atomic_int started;

static void *take_all(void *taken)
{
    uint64_t *mine = taken;
    atomic_fetch_add(&started, 1);
    while (atomic_load(&started) < TAKERS) {
    }
    for (int i = 0; i < MARKS; i++) {
        mine[i] = synth_next_mark();
    }
    return NULL;
}

/* How many of a thread's marks are not above all that the thread had before. A mark of 0 is above none. */
static unsigned long descents(const uint64_t *of)
{
    unsigned long count = 0;
    uint64_t most = 0;
    for (int i = 0; i < MARKS; i++) {
        count += of[i] <= most;
        most = of[i] > most ? of[i] : most;
    }
    return count;
}

/* How many marks two ascending rows share. */
static unsigned long shared(const uint64_t *one, const uint64_t *other)
{
    unsigned long count = 0;
    for (int i = 0, j = 0; i < MARKS && j < MARKS;) {
        count += one[i] == other[j];
        if (one[i] < other[j]) {
            i++;
        } else {
            j++;
        }
    }
    return count;
}

int main(void)
{
    pthread_t takers[TAKERS];
    for (int i = 0; i < TAKERS; i++) {
        if (pthread_create(&takers[i], NULL, take_all, marks[i]) != 0) {
            fputs("marks: a thread can't be started\n", stderr);
            return 1;
        }
    }
    for (int i = 0; i < TAKERS; i++) {
        pthread_join(takers[i], NULL);
    }
    unsigned long faults = descents(marks[0]) + descents(marks[1]);
    if (faults == 0) {
        faults = shared(marks[0], marks[1]);
    }
    printf("marks: %d by %d threads, %lu at fault\n", TAKERS * MARKS, TAKERS, faults);
    return faults != 0;
}
