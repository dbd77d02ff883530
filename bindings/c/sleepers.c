/*
 * Threads that sleep: producers and takers pass items through one queue, and sleep while it is full or empty:
 * `sleepers [ITEMS]`, 1,000,000 where no number is given. Half of the takers take items one by one, and half take what
 * is there. Then two threads take turns, threads wait until they are woken one by one and all at once, takers pass one
 * wake on, and waits time out. The number of notifies wraps meanwhile. Prints one line. Status 1: something was lost or
 * came twice, or a wait ended too early. A wake that is lost hangs it.
 */
#include "synthesis.h"
#include "synthesis_event.h"
#include <pthread.h>
#include <sched.h>
#include <stdio.h>
#include <stdlib.h>

enum { PRODUCERS = 3, TAKERS = 3, THREADS = PRODUCERS + TAKERS, PLACES = 64, ROOM = 16 };

/* A thread of the first part. A producer puts the numbers from `first` to before `end`; a taker marks what it took. */
struct job {
    struct synth_queue queue;
    int number;
    uint64_t first, end;
    unsigned char *seen;
    uint64_t twice;
    char apart[128];
};

static struct job jobs[THREADS];
static uint64_t number_of_items;
static uint64_t faults;

/* Takers sleep on the first one, while the queue is empty, and producers on the second, while it is full. */
static synth_event items = SYNTH_EVENT_INIT;
static synth_event places = SYNTH_EVENT_INIT;

static void must(synth_code code, const char *what)
{
    if (code != SYNTH_OK) {
        fprintf(stderr, "sleepers: %s: code %d\n", what, (int)code);
        exit(1);
    }
}

/* Takes an item, and sleeps while there is none. SYNTH_EMPTY: the time is over. */
static synth_code take_wait(struct synth_queue *end, uint64_t *item, int64_t limit)
{
    synth_code code;
    SYNTH_WAIT_WHILE(&items, limit, (code = synth_queue_take(end, item, UINT32_MAX)) == SYNTH_EMPTY);
    if (code == SYNTH_OK) {
        synth_event_notify_one(&places);
    }
    return code;
}

/* Puts an item, and sleeps while there is no place for it. SYNTH_FULL: the time is over. */
static synth_code put_wait(struct synth_queue *end, uint64_t item, int64_t limit)
{
    synth_code code;
    SYNTH_WAIT_WHILE(&places, limit, (code = synth_queue_put(end, &item, 1, UINT32_MAX)) == SYNTH_FULL);
    if (code == SYNTH_OK) {
        synth_event_notify_one(&items);
    }
    return code;
}

/* Some threads don't wait for good: they wait 50 microseconds at a time. */
static int64_t limit_of(int number)
{
    return number % 3 == 2 ? 50000 : SYNTH_EVENT_NO_LIMIT;
}

static void *put_items(void *given)
{
    struct job *job = (struct job *)given;
    for (uint64_t item = job->first; item < job->end;) {
        synth_code code = put_wait(&job->queue, item, limit_of(job->number));
        if (code == SYNTH_OK) {
            item++;
        } else if (code != SYNTH_FULL) {
            must(code, "put");
        }
    }
    return NULL;
}

static void mark(struct job *job, uint64_t item)
{
    unsigned char bit = (unsigned char)(1u << item % 8);
    if (item >= number_of_items || (job->seen[item / 8] & bit) != 0) {
        job->twice++;
    } else {
        job->seen[item / 8] |= bit;
    }
}

/* Takes what is there, and sleeps for none of it. One notify is enough: whom it wakes passes it on. */
static void take_more(struct job *job)
{
    uint64_t taken[ROOM];
    size_t count = 0;
    if (synth_queue_take_up_to(&job->queue, taken, ROOM, &count, NULL) == SYNTH_OK) {
        synth_event_notify_one(&places);
    }
    for (size_t i = 0; i < count; i++) {
        mark(job, taken[i]);
    }
}

static void *take_items(void *given)
{
    struct job *job = (struct job *)given;
    for (;;) {
        uint64_t item = 0;
        synth_code code = take_wait(&job->queue, &item, limit_of(job->number));
        if (code == SYNTH_CLOSED) {
            return NULL;
        }
        if (code == SYNTH_OK) {
            mark(job, item);
        } else if (code != SYNTH_EMPTY) {
            must(code, "take");
        }
        if (job->number % 2 != 0) {
            take_more(job);
        }
    }
}

static void start(pthread_t *thread, void *(*what)(void *), void *given)
{
    must(pthread_create(thread, NULL, what, given), "a thread");
}

static void end(pthread_t thread)
{
    must(pthread_join(thread, NULL), "the end of a thread");
}

/* How many items were not taken by exactly one taker. */
static uint64_t not_taken_once(void)
{
    uint64_t count = 0;
    for (uint64_t item = 0; item < number_of_items; item++) {
        int takers = 0;
        for (int i = PRODUCERS; i < THREADS; i++) {
            takers += jobs[i].seen[item / 8] >> item % 8 & 1;
        }
        count += takers != 1;
    }
    return count;
}

static void shut(struct synth_queue *queue)
{
    must(synth_queue_shut(queue), "shut");
    synth_event_notify_all(&items);
    synth_event_notify_all(&places);
}

static void start_jobs(struct synth_queue *last, pthread_t *threads)
{
    for (int i = 0; i < THREADS; i++) {
        jobs[i].number = i;
        jobs[i].first = i < PRODUCERS ? number_of_items / PRODUCERS * (uint64_t)i : 0;
        jobs[i].end = i < PRODUCERS - 1 ? number_of_items / PRODUCERS * (uint64_t)(i + 1) : number_of_items;
        jobs[i].seen = (unsigned char *)calloc((size_t)(number_of_items / 8 + 1), 1);
        must(jobs[i].seen ? SYNTH_OK : SYNTH_NO_MEMORY, "memory");
        must(synth_queue_split(last, &jobs[i].queue), "split");
    }
    for (int i = 0; i < THREADS; i++) {
        start(&threads[i], i < PRODUCERS ? put_items : take_items, &jobs[i]);
    }
}

/* Producers and takers over one queue. */
static void pass_items(void)
{
    struct synth_queue last = SYNTH_QUEUE_INIT;
    struct synth_queue_totals totals;
    pthread_t threads[THREADS];
    uint64_t left[PLACES];
    must(synth_queue_new(PLACES, 0, &last), "new");
    start_jobs(&last, threads);
    for (int i = 0; i < THREADS; i++) {
        end(threads[i]);
        if (i == PRODUCERS - 1) {
            shut(&last);
        }
    }
    for (int i = 0; i < THREADS; i++) {
        must(synth_queue_join(&last, &jobs[i].queue), "join");
        faults += jobs[i].twice;
    }
    must(synth_queue_finish(&last, left, PLACES, &totals), "finish");
    faults += not_taken_once() + (totals.taken != number_of_items) + totals.left;
    faults += atomic_load(&items.waiters) + atomic_load(&places.waiters);
    for (int i = 0; i < THREADS; i++) {
        free(jobs[i].seen);
    }
}

/* Two threads, each of which waits for its turn. */
static synth_event turns = SYNTH_EVENT_INIT;
static synth_event_word turn;
static uint32_t rounds;
static uint64_t changes;

static void await_turn(uint32_t mine)
{
    while (atomic_load(&turn) != mine) {
        uint32_t ticket = synth_event_prepare(&turns);
        if (atomic_load(&turn) == mine) {
            synth_event_cancel(&turns);
        } else {
            synth_event_wait(&turns, ticket, SYNTH_EVENT_NO_LIMIT);
        }
    }
}

/* The turns of one thread are the even numbers, those of the other one are odd. */
static void *take_turns(void *given)
{
    for (uint32_t mine = *(uint32_t *)given; mine < rounds; mine += 2) {
        await_turn(mine);
        changes++;
        atomic_store(&turn, mine + 1);
        synth_event_notify_one(&turns);
    }
    return NULL;
}

static void pass_turns(void)
{
    uint32_t numbers[2] = {0, 1};
    pthread_t threads[2];
    rounds = (uint32_t)(number_of_items / 50);
    for (int i = 0; i < 2; i++) {
        start(&threads[i], take_turns, &numbers[i]);
    }
    for (int i = 0; i < 2; i++) {
        end(threads[i]);
    }
    faults += (changes != rounds) + atomic_load(&turns.waiters);
}

/* Threads that wait for a notify, and for no condition. */
enum { WAITERS = 8 };
static synth_event bell = SYNTH_EVENT_INIT;
static synth_event_word announced;
static int message;

static void *await_bell(void *given)
{
    uint32_t ticket = synth_event_prepare(&bell);
    atomic_fetch_add(&announced, 1u);
    bool woken = synth_event_wait(&bell, ticket, SYNTH_EVENT_NO_LIMIT);
    *(int *)given = woken ? message : 0;
    return NULL;
}

/* Wakes all that wait: all at once, or each by a notify of one. */
static void ring(bool at_once)
{
    pthread_t threads[WAITERS];
    int heard[WAITERS];
    atomic_store(&announced, 0u);
    for (int i = 0; i < WAITERS; i++) {
        start(&threads[i], await_bell, &heard[i]);
    }
    while (atomic_load(&announced) < WAITERS) {
        sched_yield();
    }
    message = at_once ? 1 : 2;
    for (int i = 0; i < (at_once ? 1 : WAITERS); i++) {
        if (at_once) {
            synth_event_notify_all(&bell);
        } else {
            synth_event_notify_one(&bell);
        }
    }
    for (int i = 0; i < WAITERS; i++) {
        end(threads[i]);
        faults += heard[i] != message;
    }
    faults += atomic_load(&bell.waiters);
}

/* A taker of one item. */
static void *take_one(void *given)
{
    uint64_t item = 0;
    must(take_wait((struct synth_queue *)given, &item, SYNTH_EVENT_NO_LIMIT), "take");
    return NULL;
}

/*
 * Takers wait, and one notify follows a run of items for all: each taker wakes the next one. The yields change nothing
 * of what has to come; they only make it likely that the takers are asleep.
 */
enum { TAKERS_OF_ONE = 3, YIELDS = 1000, TIMES = 20 };

static void pass_wake_on(void)
{
    struct synth_queue last = SYNTH_QUEUE_INIT;
    struct synth_queue queues[TAKERS_OF_ONE] = {SYNTH_QUEUE_INIT, SYNTH_QUEUE_INIT, SYNTH_QUEUE_INIT};
    struct synth_queue_totals totals;
    pthread_t threads[TAKERS_OF_ONE];
    uint64_t run[TAKERS_OF_ONE] = {1, 2, 3}, left[PLACES];
    must(synth_queue_new(PLACES, 0, &last), "new");
    for (int i = 0; i < TAKERS_OF_ONE; i++) {
        must(synth_queue_split(&last, &queues[i]), "split");
        start(&threads[i], take_one, &queues[i]);
    }
    for (int yields = 0; yields < YIELDS || atomic_load(&items.waiters) < TAKERS_OF_ONE; yields++) {
        sched_yield();
    }
    must(synth_queue_try_put(&last, run, TAKERS_OF_ONE, NULL), "put");
    synth_event_notify_one(&items);
    for (int i = 0; i < TAKERS_OF_ONE; i++) {
        end(threads[i]);
        must(synth_queue_join(&last, &queues[i]), "join");
    }
    must(synth_queue_finish(&last, left, PLACES, &totals), "finish");
    faults += totals.left + atomic_load(&items.waiters);
}

static void wait_in_vain(void)
{
    synth_event event;
    synth_event_init(&event);
    for (int64_t limit = 0; limit <= 4000000; limit += 1000000) {
        int64_t begun = synth_event_now();
        uint32_t ticket = synth_event_prepare(&event);
        faults += synth_event_wait(&event, ticket, limit);
        faults += synth_event_now() - begun < limit;
    }
    synth_event_notify_one(&event);
    faults += atomic_load(&event.waiters) + atomic_load(&event.notifies);
    uint32_t ticket = synth_event_prepare(&event);
    synth_event_notify_one(&event);
    faults += !synth_event_wait(&event, ticket, 0);
    ticket = synth_event_prepare(&event);
    synth_event_notify_all(&event);
    faults += !synth_event_wait(&event, ticket, INT64_MAX);
    ticket = synth_event_prepare(&event);
    synth_event_cancel(&event);
    faults += ticket != 2 || atomic_load(&event.waiters) != 0 || atomic_load(&event.notifies) != 2;
    synth_event_destroy(&event);
}

/* An empty queue, and a full one, whose time is over. */
static void queue_in_vain(void)
{
    struct synth_queue queue = SYNTH_QUEUE_INIT;
    struct synth_queue_totals totals;
    uint64_t left[PLACES], item = 0;
    must(synth_queue_new(PLACES, 0, &queue), "new");
    faults += take_wait(&queue, &item, 1000000) != SYNTH_EMPTY;
    for (int i = 0; i < PLACES; i++) {
        must(put_wait(&queue, 7, 0), "put");
    }
    faults += put_wait(&queue, 7, 1000000) != SYNTH_FULL;
    must(take_wait(&queue, &item, 0), "take");
    must(synth_queue_finish(&queue, left, PLACES, &totals), "finish");
    faults += item != 7 || totals.left != PLACES - 1;
}

int main(int count, char **words)
{
    number_of_items = count > 1 ? strtoull(words[1], NULL, 10) : 1000000;
    atomic_store(&items.notifies, UINT32_MAX - 10);
    atomic_store(&places.notifies, UINT32_MAX - 10);
    atomic_store(&turns.notifies, UINT32_MAX - 10);
    atomic_store(&bell.notifies, UINT32_MAX);
    pass_items();
    pass_turns();
    ring(true);
    ring(false);
    for (int i = 0; i < TIMES; i++) {
        pass_wake_on();
    }
    wait_in_vain();
    queue_in_vain();
    printf("sleepers: %llu items, %llu faults\n", (unsigned long long)number_of_items, (unsigned long long)faults);
    return faults != 0;
}
