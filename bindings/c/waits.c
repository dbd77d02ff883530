/*
 * The calls of synthesis_wait.h: `waits [ITEMS]`, 200,000 if no number is given. What each call answers, a row each.
 * Then four threads put items into a batch queue of 16 places, and four take them, by each of its calls that sleep; and
 * the same through a claim queue. Each item has to be taken once. Prints one line. Status 1: a row differs, or an item
 * was lost or came twice. A wake that is lost hangs it.
 */
#include "rows.h"
#include "synthesis_wait.h"
#include <pthread.h>
#include <stdlib.h>

enum { PUTTERS = 4, TAKERS = 4, THREADS = PUTTERS + TAKERS, PLACES = 16, ROOM = 64, MOST = 5 };

static const int64_t MILLISECOND = 1000000;

static struct synth_events events = SYNTH_EVENTS_INIT;

/* What a thread works with, and what it did. */
struct job {
    struct synth_batch batch;
    struct synth_queue queue;
    int number;
    uint64_t first, end; /* a putter's items */
    uint64_t count, sum; /* a taker's */
    int faults;
};

/* One thread, on an empty queue, a full one, and one that is shut. */
static void batch_codes(void)
{
    struct synth_batch end = SYNTH_BATCH_INIT;
    uint64_t items[PLACES + 1] = {1, 2, 3, 4, 5};
    size_t count = 99;
    ROW(synth_batch_put_wait(&end, items, 1, &events, 0), SYNTH_EMPTY_HANDLE);
    ROW(synth_batch_put_some_wait(&end, items, 1, &count, &events, 0), SYNTH_EMPTY_HANDLE);
    ROW(synth_batch_take_wait(&end, items, 1, &count, &events, 0), SYNTH_EMPTY_HANDLE);
    ROW(synth_batch_take_some_wait(&end, items, 1, &count, &events, 0), SYNTH_EMPTY_HANDLE);
    ROW(synth_batch_new(4, &end), SYNTH_OK);
    ROW(synth_batch_put_wait(&end, items, 0, &events, SYNTH_EVENT_NO_LIMIT), SYNTH_NO_ITEMS);
    ROW(synth_batch_put_wait(&end, items, 5, &events, SYNTH_EVENT_NO_LIMIT), SYNTH_TOO_LONG);
    ROW(synth_batch_take_wait(&end, items, 4, &count, &events, 0), SYNTH_EMPTY);
    ROW(synth_batch_take_some_wait(&end, items, 4, &count, &events, MILLISECOND), SYNTH_EMPTY);
    ROW(count, 99);
    ROW(synth_batch_put_wait(&end, items, 3, &events, SYNTH_EVENT_NO_LIMIT), SYNTH_OK);
    ROW(synth_batch_put_wait(&end, items, 2, &events, MILLISECOND), SYNTH_FULL);
    ROW(synth_batch_put_some_wait(&end, items + 3, 2, &count, &events, SYNTH_EVENT_NO_LIMIT), SYNTH_OK);
    ROW(count, 1);
    ROW(synth_batch_put_some_wait(&end, items, 1, &count, &events, MILLISECOND), SYNTH_FULL);
    ROW(synth_batch_take_wait(&end, items, 2, &count, &events, SYNTH_EVENT_NO_LIMIT), SYNTH_SHORT_BUFFER);
    ROW(count, 3);
    ROW(synth_batch_take_some_wait(&end, items + 8, 2, &count, &events, SYNTH_EVENT_NO_LIMIT), SYNTH_OK);
    ROW(count == 2 && items[8] == 1 && items[9] == 2, true);
    ROW(synth_batch_take_wait(&end, items + 8, 4, &count, &events, SYNTH_EVENT_NO_LIMIT), SYNTH_OK);
    ROW(count == 2 && items[8] == 3 && items[9] == 4, true);
    ROW(synth_batch_shut(&end), SYNTH_OK);
    ROW(synth_batch_put_wait(&end, items, 1, &events, SYNTH_EVENT_NO_LIMIT), SYNTH_CLOSED);
    ROW(synth_batch_put_some_wait(&end, items, 1, &count, &events, SYNTH_EVENT_NO_LIMIT), SYNTH_CLOSED);
    ROW(synth_batch_take_wait(&end, items, 4, &count, &events, SYNTH_EVENT_NO_LIMIT), SYNTH_CLOSED);
    ROW(synth_batch_take_some_wait(&end, items, 4, &count, &events, SYNTH_EVENT_NO_LIMIT), SYNTH_CLOSED);
    ROW(synth_batch_finish(&end, items, 4, NULL), SYNTH_OK);
}

static void queue_codes(void)
{
    struct synth_queue end = SYNTH_QUEUE_INIT;
    uint64_t item = 99, left[ROOM];
    ROW(synth_queue_put_wait(&end, 1, &events, 0), SYNTH_EMPTY_HANDLE);
    ROW(synth_queue_take_wait(&end, &item, &events, 0), SYNTH_EMPTY_HANDLE);
    ROW(synth_queue_new(ROOM, 0, &end), SYNTH_OK);
    ROW(synth_queue_take_wait(&end, &item, &events, MILLISECOND), SYNTH_EMPTY);
    ROW(item, 99);
    for (uint64_t i = 0; i < ROOM; i++) {
        ROW(synth_queue_put_wait(&end, i, &events, SYNTH_EVENT_NO_LIMIT), SYNTH_OK);
    }
    ROW(synth_queue_put_wait(&end, 7, &events, MILLISECOND), SYNTH_FULL);
    for (uint64_t i = 0; i < ROOM; i++) {
        ROW(synth_queue_take_wait(&end, &item, &events, SYNTH_EVENT_NO_LIMIT), SYNTH_OK);
        ROW(item, i);
    }
    ROW(synth_queue_shut(&end), SYNTH_OK);
    ROW(synth_queue_put_wait(&end, 7, &events, SYNTH_EVENT_NO_LIMIT), SYNTH_CLOSED);
    ROW(synth_queue_take_wait(&end, &item, &events, SYNTH_EVENT_NO_LIMIT), SYNTH_CLOSED);
    ROW(synth_queue_finish(&end, left, ROOM, NULL), SYNTH_OK);
}

/* How many times a condition was computed, and how long it is true. */
static int looks;

static bool is_true_for(int many)
{
    return ++looks <= many;
}

/* A condition that is false at first, at the second look, and after a sleep; and one that stays true. */
static void statements(void)
{
    synth_event event;
    synth_event_init(&event);
    for (int many = 0; many < 4; many++) {
        looks = 0;
        SYNTH_WAIT_WHILE(&event, 0, is_true_for(many));
        ROW(looks, many < 3 ? many + 1 : 3);
    }
    looks = 0;
    SYNTH_WAIT_WHILE(&event, MILLISECOND, looks = looks + 1, looks > 0);
    ROW(looks, 3);
    ROW(atomic_load(&event.waiters) == 0 && atomic_load(&event.notifies) == 0, true);
    synth_event_destroy(&event);
}

/* Some threads don't wait for good: they wait 50 microseconds at a time. */
static int64_t limit_of(const struct job *job)
{
    return job->number % 3 == 2 ? 50000 : SYNTH_EVENT_NO_LIMIT;
}

/* Batches of 1 to 5 items. Every second thread puts what there is room for. */
static void *put_batches(void *given)
{
    struct job *job = (struct job *)given;
    uint64_t items[MOST];
    for (uint64_t next = job->first; next < job->end;) {
        size_t count = (size_t)(1 + next % MOST), put = 0;
        count = count < job->end - next ? count : (size_t)(job->end - next);
        for (size_t i = 0; i < count; i++) {
            items[i] = next + i;
        }
        synth_code code = job->number % 2 == 0
                              ? synth_batch_put_wait(&job->batch, items, count, &events, limit_of(job))
                              : synth_batch_put_some_wait(&job->batch, items, count, &put, &events, limit_of(job));
        if (code == SYNTH_OK) {
            next += job->number % 2 == 0 ? count : put;
        } else if (code != SYNTH_FULL) {
            job->faults++;
            return NULL;
        }
    }
    return NULL;
}

/* Every second thread takes up to 3 items, and the others whole batches. */
static void *take_batches(void *given)
{
    struct job *job = (struct job *)given;
    uint64_t items[PLACES];
    for (;;) {
        size_t count = 0;
        synth_code code = job->number % 2 == 0
                              ? synth_batch_take_wait(&job->batch, items, PLACES, &count, &events, limit_of(job))
                              : synth_batch_take_some_wait(&job->batch, items, 3, &count, &events, limit_of(job));
        if (code == SYNTH_CLOSED) {
            return NULL;
        }
        for (size_t i = 0; code == SYNTH_OK && i < count; i++) {
            job->count++;
            job->sum += items[i];
        }
        job->faults += code != SYNTH_OK && code != SYNTH_EMPTY;
    }
}

static void *put_one_by_one(void *given)
{
    struct job *job = (struct job *)given;
    for (uint64_t next = job->first; next < job->end;) {
        synth_code code = synth_queue_put_wait(&job->queue, next, &events, limit_of(job));
        if (code == SYNTH_OK) {
            next++;
        } else if (code != SYNTH_FULL) {
            job->faults++;
            return NULL;
        }
    }
    return NULL;
}

static void *take_one_by_one(void *given)
{
    struct job *job = (struct job *)given;
    for (;;) {
        uint64_t item = 0;
        synth_code code = synth_queue_take_wait(&job->queue, &item, &events, limit_of(job));
        if (code == SYNTH_CLOSED) {
            return NULL;
        }
        if (code == SYNTH_OK) {
            job->count++;
            job->sum += item;
        }
        job->faults += code != SYNTH_OK && code != SYNTH_EMPTY;
    }
}

static struct job jobs[THREADS];

/* Runs putters and takers, shuts the queue once all is put, and adds up what was taken. */
static void run(uint64_t items, struct synth_batch *batch, struct synth_queue *queue)
{
    pthread_t threads[THREADS];
    uint64_t count = 0, sum = 0;
    for (int i = 0; i < THREADS; i++) {
        void *(*putter)(void *) = batch ? put_batches : put_one_by_one;
        void *(*taker)(void *) = batch ? take_batches : take_one_by_one;
        jobs[i].number = i;
        jobs[i].count = jobs[i].sum = 0;
        jobs[i].first = i < PUTTERS ? items / PUTTERS * (uint64_t)i : 0;
        jobs[i].end = i < PUTTERS - 1 ? items / PUTTERS * (uint64_t)(i + 1) : items;
        ROW(pthread_create(&threads[i], NULL, i < PUTTERS ? putter : taker, &jobs[i]), 0);
    }
    for (int i = 0; i < THREADS; i++) {
        ROW(pthread_join(threads[i], NULL), 0);
        count += jobs[i].count;
        sum += jobs[i].sum;
        ROW(jobs[i].faults, 0);
        if (i == PUTTERS - 1) {
            ROW(batch ? synth_batch_shut(batch) : synth_queue_shut(queue), SYNTH_OK);
            synth_events_notify_all(&events);
        }
    }
    ROW(count, items);
    ROW(sum, items * (items - 1) / 2);
    ROW(atomic_load(&events.items.waiters) + atomic_load(&events.places.waiters), 0);
}

static void pass_batches(uint64_t items)
{
    struct synth_batch end = SYNTH_BATCH_INIT;
    struct synth_batch_totals totals;
    uint64_t left[PLACES];
    ROW(synth_batch_new(PLACES, &end), SYNTH_OK);
    for (int i = 0; i < THREADS; i++) {
        ROW(synth_batch_split(&end, &jobs[i].batch), SYNTH_OK);
    }
    run(items, &end, NULL);
    for (int i = 0; i < THREADS; i++) {
        ROW(synth_batch_join(&end, &jobs[i].batch), SYNTH_OK);
    }
    ROW(synth_batch_finish(&end, left, PLACES, &totals), SYNTH_OK);
    ROW(totals.put == items && totals.taken == items && totals.left == 0, true);
}

static void pass_one_by_one(uint64_t items)
{
    struct synth_queue end = SYNTH_QUEUE_INIT;
    struct synth_queue_totals totals;
    uint64_t left[ROOM];
    ROW(synth_queue_new(ROOM, 0, &end), SYNTH_OK);
    for (int i = 0; i < THREADS; i++) {
        ROW(synth_queue_split(&end, &jobs[i].queue), SYNTH_OK);
    }
    run(items, NULL, &end);
    for (int i = 0; i < THREADS; i++) {
        ROW(synth_queue_join(&end, &jobs[i].queue), SYNTH_OK);
    }
    ROW(synth_queue_finish(&end, left, ROOM, &totals), SYNTH_OK);
    ROW(totals.put == items && totals.taken == items && totals.left == 0, true);
}

int main(int count, char **words)
{
    const uint64_t items = count > 1 ? strtoull(words[1], NULL, 10) : 200000;
    batch_codes();
    queue_codes();
    statements();
    synth_events_destroy(&events);
    synth_events_init(&events);
    pass_batches(items);
    pass_one_by_one(items);
    return rows_end("waits");
}
