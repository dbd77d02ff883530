/*
 * Four producers and four takers, each in a thread of its own, pass items through one queue: `many [ITEMS]`,
 * 10,000,000 where no number is given. Half of the producers put single items and half runs of 16; half of the takers
 * take single items and half up to 64 at once. Every item is taken once, and each taker has those of one producer in
 * its order. Prints one line. Status 1: an item was lost, came twice or came too early.
 */
#include "synthesis.h"
#include <pthread.h>
#include <sched.h>
#include <stdio.h>
#include <stdlib.h>

enum { PRODUCERS = 4, TAKERS = 4, THREADS = PRODUCERS + TAKERS, PLACES = 256, RUN = 16, ROOM = 64 };

/* What a thread works with. A producer puts the numbers from `first` to before `end`; a taker marks what it took. */
struct job {
    struct synth_queue queue;
    int number;
    uint64_t first, end;
    unsigned char *seen;
    uint64_t next[PRODUCERS];
    uint64_t lost_or_twice;
};

static uint64_t items;
static struct job jobs[THREADS];

static void must(synth_code code, const char *what)
{
    if (code != SYNTH_OK) {
        fprintf(stderr, "many: %s: code %d\n", what, (int)code);
        exit(1);
    }
}

static uint64_t first_of(int producer)
{
    return items / PRODUCERS * (uint64_t)producer;
}

static uint64_t end_of(int producer)
{
    return producer == PRODUCERS - 1 ? items : first_of(producer + 1);
}

static void *put_items(void *given)
{
    struct job *job = (struct job *)given;
    uint64_t most = job->number % 2 ? RUN : 1;
    uint64_t next = job->first;
    while (next < job->end) {
        uint64_t run[RUN];
        uint64_t length = job->end - next < most ? job->end - next : most;
        for (uint64_t i = 0; i < length; i++) {
            run[i] = next + i;
        }
        synth_code code = synth_queue_try_put(&job->queue, run, (size_t)length, NULL);
        if (code == SYNTH_OK) {
            next += length;
        } else if (code == SYNTH_FULL) {
            sched_yield();
        } else if (code != SYNTH_LOST) {
            must(code, "put");
        }
    }
    return NULL;
}

/* Marks an item as taken by this thread, and looks whether it comes after all that it took of the same producer. */
static void mark(struct job *job, uint64_t item)
{
    int producer = 0;
    while (producer < PRODUCERS && item >= end_of(producer)) {
        producer++;
    }
    if (producer == PRODUCERS || item < job->next[producer]) {
        job->lost_or_twice++;
        return;
    }
    job->next[producer] = item + 1;
    job->seen[item / 8] |= (unsigned char)(1u << item % 8);
}

static void *take_items(void *given)
{
    struct job *job = (struct job *)given;
    size_t room = job->number % 2 ? ROOM : 1;
    for (;;) {
        uint64_t taken[ROOM];
        size_t count = 1;
        synth_code code = room == 1 ? synth_queue_try_take(&job->queue, taken, NULL)
                                    : synth_queue_take_up_to(&job->queue, taken, room, &count, NULL);
        if (code == SYNTH_CLOSED) {
            return NULL;
        }
        if (code == SYNTH_EMPTY) {
            sched_yield();
        } else if (code == SYNTH_OK) {
            for (size_t i = 0; i < count; i++) {
                mark(job, taken[i]);
            }
        } else if (code != SYNTH_LOST) {
            must(code, "take");
        }
    }
}

/* How many of the items were not taken by exactly one of the takers. */
static uint64_t count_faults(void)
{
    uint64_t faults = 0;
    for (int i = PRODUCERS; i < THREADS; i++) {
        faults += jobs[i].lost_or_twice;
    }
    for (uint64_t item = 0; item < items; item++) {
        int takers = 0;
        for (int i = PRODUCERS; i < THREADS; i++) {
            takers += jobs[i].seen[item / 8] >> item % 8 & 1;
        }
        faults += takers != 1;
    }
    return faults;
}

static void start_all(struct synth_queue *last, pthread_t *threads)
{
    for (int i = 0; i < THREADS; i++) {
        jobs[i].number = i;
        jobs[i].first = i < PRODUCERS ? first_of(i) : 0;
        jobs[i].end = i < PRODUCERS ? end_of(i) : 0;
        jobs[i].seen = (unsigned char *)calloc((size_t)(items / 8 + 1), 1);
        must(jobs[i].seen ? SYNTH_OK : SYNTH_NO_MEMORY, "memory");
        must(synth_queue_split(last, &jobs[i].queue), "split");
    }
    for (int i = 0; i < THREADS; i++) {
        must(pthread_create(&threads[i], NULL, i < PRODUCERS ? put_items : take_items, &jobs[i]), "a thread");
    }
}

int main(int count, char **words)
{
    struct synth_queue last = SYNTH_QUEUE_INIT;
    struct synth_queue_totals closed;
    pthread_t threads[THREADS];
    uint64_t left[PLACES];
    items = count > 1 ? strtoull(words[1], NULL, 10) : 10000000;
    must(synth_queue_new(PLACES, 7, &last), "new");
    start_all(&last, threads);
    for (int i = 0; i < THREADS; i++) {
        must(pthread_join(threads[i], NULL), "the end of a thread");
        must(synth_queue_join(&last, &jobs[i].queue), "join");
        if (i == PRODUCERS - 1) {
            must(synth_queue_shut(&last), "shut");
        }
    }
    must(synth_queue_finish(&last, left, PLACES, &closed), "finish");
    uint64_t faults = count_faults();
    for (int i = 0; i < THREADS; i++) {
        free(jobs[i].seen);
    }
    bool agrees = closed.put == items && closed.taken == items && closed.left == 0;
    printf("many: %llu items, %llu faults\n", (unsigned long long)items, (unsigned long long)faults);
    return faults != 0 || !agrees;
}
