/*
 * A receiver takes free buffers from one batch queue, fills them, and puts them in bursts into a second one; two
 * workers take bursts from there, add up what is in the buffers, and put them back as free. All buffers are used again
 * and again. An item is the number of a buffer, whose contents are plain memory: whoever took the number sees what was
 * written before it was put. Prints how many were filled and worked on, and the sums of what was in them. Status 1:
 * they are not the same.
 */
#include "synthesis.h"
#include <pthread.h>
#include <sched.h>
#include <stdio.h>
#include <stdlib.h>

enum { BUFFERS = 64, BURST = 32, FILLS = 100000, WORKERS = 2 };

/* What is in each buffer. It is touched by whoever took the buffer, and by nobody else. */
static uint64_t contents[BUFFERS];

/* What a thread works with: its ends of both queues, and what it did. */
struct job {
    struct synth_batch unused, filled;
    unsigned long number;
    uint64_t sum;
};

static void must(synth_code code, const char *what)
{
    if (code != SYNTH_OK) {
        fprintf(stderr, "bursts: %s: code %d\n", what, (int)code);
        exit(1);
    }
}

/* Puts a whole burst, in pieces while there is no room for all of it. */
static void put_burst(struct synth_batch *queue, const uint64_t *numbers, size_t count)
{
    for (size_t done = 0, put; done < count;) {
        synth_code code = synth_batch_try_put_some(queue, numbers + done, count - done, &put, NULL);
        if (code == SYNTH_OK) {
            done += put;
        } else if (code != SYNTH_LOST && code != SYNTH_FULL) {
            must(code, "put");
        }
    }
}

/* Takes a burst, and waits for one. Gives its length, 0 once nothing will come. */
static size_t take_burst(struct synth_batch *queue, uint64_t *numbers, size_t room)
{
    size_t count;
    for (;;) {
        synth_code code = synth_batch_try_take_some(queue, numbers, room, &count, NULL);
        if (code == SYNTH_OK) {
            return count;
        }
        if (code == SYNTH_CLOSED) {
            return 0;
        }
        if (code != SYNTH_LOST && code != SYNTH_EMPTY) {
            must(code, "take");
        }
        sched_yield();
    }
}

static void *receive(void *given)
{
    struct job *job = (struct job *)given;
    while (job->number < FILLS) {
        uint64_t burst[BURST];
        size_t left = FILLS - job->number, most = BURST;
        size_t count = take_burst(&job->unused, burst, left < most ? left : most);
        for (size_t i = 0; i < count; i++) {
            contents[burst[i]] = job->number;
            job->sum += job->number++;
        }
        put_burst(&job->filled, burst, count);
    }
    must(synth_batch_shut(&job->filled), "shut");
    return NULL;
}

static void *work(void *given)
{
    struct job *job = (struct job *)given;
    uint64_t burst[BURST];
    for (size_t count; (count = take_burst(&job->filled, burst, BURST)) > 0;) {
        for (size_t i = 0; i < count; i++) {
            job->sum += contents[burst[i]];
            job->number++;
        }
        put_burst(&job->unused, burst, count);
    }
    return NULL;
}

int main(void)
{
    struct synth_batch unused = SYNTH_BATCH_INIT, filled = SYNTH_BATCH_INIT;
    struct synth_batch_totals closed;
    struct job jobs[1 + WORKERS] = {{SYNTH_BATCH_INIT, SYNTH_BATCH_INIT, 0, 0}};
    pthread_t threads[1 + WORKERS];
    uint64_t numbers[BUFFERS], sum = 0;
    unsigned long worked = 0;
    for (uint64_t i = 0; i < BUFFERS; i++) {
        numbers[i] = i;
    }
    must(synth_batch_new(BUFFERS, &unused), "new");
    must(synth_batch_new(BUFFERS, &filled), "new");
    must(synth_batch_try_put(&unused, numbers, BUFFERS, NULL), "the first put");
    for (int i = 0; i < 1 + WORKERS; i++) {
        must(synth_batch_split(&unused, &jobs[i].unused), "split");
        must(synth_batch_split(&filled, &jobs[i].filled), "split");
        must(pthread_create(&threads[i], NULL, i == 0 ? receive : work, &jobs[i]), "a thread");
    }
    for (int i = 0; i < 1 + WORKERS; i++) {
        must(pthread_join(threads[i], NULL), "the end of a thread");
        must(synth_batch_join(&unused, &jobs[i].unused), "join");
        must(synth_batch_join(&filled, &jobs[i].filled), "join");
        if (i > 0) {
            worked += jobs[i].number;
            sum += jobs[i].sum;
        }
    }
    must(synth_batch_finish(&filled, numbers, BUFFERS, &closed), "finish");
    bool agrees = closed.left == 0 && closed.put == FILLS && closed.taken == FILLS;
    must(synth_batch_finish(&unused, numbers, BUFFERS, &closed), "finish");
    agrees = agrees && closed.left == BUFFERS && worked == jobs[0].number && sum == jobs[0].sum;
    printf("bursts: %lu filled, sum %llu; %lu worked on, sum %llu\n", jobs[0].number, (unsigned long long)jobs[0].sum,
           worked, (unsigned long long)sum);
    return !agrees;
}
