/*
 * Three producers put lines of text into one queue, and two takers take them, each in a thread of its own. Each line
 * is put by one call and taken by one, so no line has a piece of another in it, and each comes once. Prints how many
 * were put and taken, and the sums of their bytes. Status 1: they are not the same.
 */
#include "synthesis.h"
#include <pthread.h>
#include <sched.h>
#include <stdio.h>
#include <stdlib.h>

enum { PRODUCERS = 3, TAKERS = 2, LINES = 10000, PLACES = 256 };

/* What a thread works with, and what it did. */
struct job {
    struct synth_queue end;
    int number;
    unsigned long lines;
    unsigned long sum;
};

/* Ends the program where a call that has to succeed did not. */
static void must(synth_code code, const char *what)
{
    if (code != SYNTH_OK) {
        fprintf(stderr, "lines: %s: code %d\n", what, (int)code);
        exit(1);
    }
}

/* Puts one line, trying again while the queue is full or another end is first. */
static void put_line(struct job *job, const uint64_t *line, size_t length)
{
    for (;;) {
        synth_code code = synth_queue_try_put(&job->end, line, length, NULL);
        if (code == SYNTH_OK) {
            return;
        }
        if (code != SYNTH_LOST && code != SYNTH_FULL) {
            must(code, "put");
        }
        sched_yield();
    }
}

/* A producer: writes each of its lines byte by byte into items of the queue. */
static void *put_lines(void *given)
{
    struct job *job = (struct job *)given;
    for (int i = 0; i < LINES; i++) {
        char text[64];
        uint64_t line[64];
        int length = snprintf(text, sizeof text, "line %d of producer %d\n", i, job->number);
        for (int k = 0; k < length; k++) {
            line[k] = (unsigned char)text[k];
            job->sum += line[k];
        }
        put_line(job, line, (size_t)length);
        job->lines++;
    }
    return NULL;
}

/* A taker: takes lines until a take reports that none will ever come. */
static void *take_lines(void *given)
{
    struct job *job = (struct job *)given;
    for (;;) {
        uint64_t line[PLACES];
        size_t length = 0;
        synth_code code = synth_queue_try_take_line(&job->end, line, PLACES, &length, NULL);
        if (code == SYNTH_CLOSED) {
            return NULL;
        }
        if (code == SYNTH_OK) {
            for (size_t k = 0; k < length; k++) {
                job->sum += line[k];
            }
            job->lines++;
        } else {
            sched_yield();
        }
    }
}

/* The job of each thread; all zeros, so each handle is empty. */
static struct job jobs[PRODUCERS + TAKERS];

int main(void)
{
    struct synth_queue last = SYNTH_QUEUE_INIT;
    pthread_t threads[PRODUCERS + TAKERS];
    must(synth_queue_new(PLACES, 0, &last), "new");
    for (int i = 0; i < PRODUCERS + TAKERS; i++) {
        jobs[i].number = i;
        must(synth_queue_split(&last, &jobs[i].end), "split");
    }
    for (int i = 0; i < PRODUCERS + TAKERS; i++) {
        must(pthread_create(&threads[i], NULL, i < PRODUCERS ? put_lines : take_lines, &jobs[i]), "a thread");
    }

    /* Once all is put the queue is shut, so that a take reports when all is taken. */
    for (int i = 0; i < PRODUCERS; i++) {
        must(pthread_join(threads[i], NULL), "the end of a producer");
    }
    must(synth_queue_shut(&last), "shut");
    for (int i = PRODUCERS; i < PRODUCERS + TAKERS; i++) {
        must(pthread_join(threads[i], NULL), "the end of a taker");
    }

    /* The last handle ends the queue, once all others are joined to it. */
    unsigned long lines[2] = {0, 0}, sums[2] = {0, 0};
    for (int i = 0; i < PRODUCERS + TAKERS; i++) {
        lines[i < PRODUCERS ? 0 : 1] += jobs[i].lines;
        sums[i < PRODUCERS ? 0 : 1] += jobs[i].sum;
        must(synth_queue_join(&last, &jobs[i].end), "join");
    }
    uint64_t left[PLACES];
    struct synth_queue_totals totals;
    must(synth_queue_finish(&last, left, PLACES, &totals), "finish");

    printf("put %lu lines, sum %lu\n", lines[0], sums[0]);
    printf("taken %lu lines, sum %lu\n", lines[1], sums[1]);
    printf("closed: put %u items, taken %u, left %zu\n", totals.put, totals.taken, totals.left);
    return lines[0] != lines[1] || sums[0] != sums[1] || totals.put != totals.taken || totals.left != 0;
}
