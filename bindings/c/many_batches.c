/*
 * Four producers and four takers, each in a thread of its own, pass items through one batch queue: `many_batches
 * [ITEMS]`, 10,000,000 where no number is given. Half of the producers put single items and half bursts of up to 16, as
 * many as there is room for; half of the takers take whole batches, and half up to 5 items, which parts batches. Every
 * item is taken once, and each taker has those of one producer in its order. Prints one line. Status 1: an item was
 * lost, came twice or came too early.
 */
#include "synthesis.h"
#include <pthread.h>
#include <sched.h>
#include <stdio.h>
#include <stdlib.h>

enum { PRODUCERS = 4, TAKERS = 4, THREADS = PRODUCERS + TAKERS, PLACES = 256, RUN = 16, ROOM = 64, FEW = 5 };

/* What a thread works with. A producer puts the numbers from `first` to before `end`; a taker marks what it took. */
struct job {
    struct synth_batch queue;
    int number;
    uint64_t first, end;
    unsigned char *seen;
    uint64_t next[PRODUCERS];
    uint64_t lost_or_twice;
};

static uint64_t items;
static struct job jobs[THREADS];

static void must(synth_code code, const char *what)
{
    if (code != SYNTH_OK) {
        fprintf(stderr, "many_batches: %s: code %d\n", what, (int)code);
        exit(1);
    }
}

static uint64_t first_of(int producer)
{
    return items / PRODUCERS * (uint64_t)producer;
}

static uint64_t end_of(int producer)
{
    return producer == PRODUCERS - 1 ? items : first_of(producer + 1);
}

/* One try to put items from `next` on. Gives how many were put. */
static uint64_t put_some(struct job *job, uint64_t next)
{
    uint64_t run[RUN];
    size_t put = 1, left = (size_t)(job->end - next), most = RUN, length = left < most ? left : most;
    for (size_t i = 0; i < length; i++) {
        run[i] = next + i;
    }
    synth_code code = job->number % 2 ? synth_batch_try_put_some(&job->queue, run, length, &put, NULL)
                                   : synth_batch_try_put(&job->queue, run, 1, NULL);
    if (code == SYNTH_OK) {
        return put;
    }
    if (code == SYNTH_FULL) {
        sched_yield();
    } else if (code != SYNTH_LOST) {
        must(code, "put");
    }
    return 0;
}

static void *put_items(void *given)
{
    struct job *job = (struct job *)given;
    uint64_t next = job->first;
    while (next < job->end) {
        next += put_some(job, next);
    }
    return NULL;
}

/* Marks an item as taken by this thread, and looks whether it comes after all that it took of the same producer. */
static void mark(struct job *job, uint64_t item)
{
    int producer = 0;
    while (producer < PRODUCERS && item >= end_of(producer)) {
        producer++;
    }
    if (producer == PRODUCERS || item < job->next[producer]) {
        job->lost_or_twice++;
        return;
    }
    job->next[producer] = item + 1;
    job->seen[item / 8] |= (unsigned char)(1u << item % 8);
}

static void *take_items(void *given)
{
    struct job *job = (struct job *)given;
    for (;;) {
        uint64_t taken[ROOM];
        size_t count = 0;
        synth_code code = job->number % 2 ? synth_batch_try_take(&job->queue, taken, ROOM, &count, NULL)
                                       : synth_batch_try_take_some(&job->queue, taken, FEW, &count, NULL);
        if (code == SYNTH_CLOSED) {
            return NULL;
        }
        if (code == SYNTH_EMPTY) {
            sched_yield();
        } else if (code == SYNTH_OK) {
            for (size_t i = 0; i < count; i++) {
                mark(job, taken[i]);
            }
        } else if (code != SYNTH_LOST) {
            must(code, "take");
        }
    }
}

/* How many of the items were not taken by exactly one of the takers. */
static uint64_t count_faults(void)
{
    uint64_t faults = 0;
    for (int i = PRODUCERS; i < THREADS; i++) {
        faults += jobs[i].lost_or_twice;
    }
    for (uint64_t item = 0; item < items; item++) {
        int takers = 0;
        for (int i = PRODUCERS; i < THREADS; i++) {
            takers += jobs[i].seen[item / 8] >> item % 8 & 1;
        }
        faults += takers != 1;
    }
    return faults;
}

static void start_all(struct synth_batch *last, pthread_t *threads)
{
    for (int i = 0; i < THREADS; i++) {
        jobs[i].number = i;
        jobs[i].first = i < PRODUCERS ? first_of(i) : 0;
        jobs[i].end = i < PRODUCERS ? end_of(i) : 0;
        jobs[i].seen = (unsigned char *)calloc((size_t)(items / 8 + 1), 1);
        must(jobs[i].seen ? SYNTH_OK : SYNTH_NO_MEMORY, "memory");
        must(synth_batch_split(last, &jobs[i].queue), "split");
    }
    for (int i = 0; i < THREADS; i++) {
        must(pthread_create(&threads[i], NULL, i < PRODUCERS ? put_items : take_items, &jobs[i]), "a thread");
    }
}

int main(int count, char **words)
{
    struct synth_batch last = SYNTH_BATCH_INIT;
    struct synth_batch_totals closed;
    pthread_t threads[THREADS];
    uint64_t left[PLACES];
    items = count > 1 ? strtoull(words[1], NULL, 10) : 10000000;
    must(synth_batch_new(PLACES, &last), "new");
    start_all(&last, threads);
    for (int i = 0; i < THREADS; i++) {
        must(pthread_join(threads[i], NULL), "the end of a thread");
        must(synth_batch_join(&last, &jobs[i].queue), "join");
        if (i == PRODUCERS - 1) {
            must(synth_batch_shut(&last), "shut");
        }
    }
    must(synth_batch_finish(&last, left, PLACES, &closed), "finish");
    uint64_t faults = count_faults();
    for (int i = 0; i < THREADS; i++) {
        free(jobs[i].seen);
    }
    bool agrees = closed.put == items && closed.taken == items && closed.left == 0;
    printf("many_batches: %llu items, %llu faults\n", (unsigned long long)items, (unsigned long long)faults);
    return faults != 0 || !agrees;
}
