/*
 * Eight workers, each in a thread of its own, pass elements through the ready ring, the free elements and two wait
 * queues: `many_elements [MOVES]`, 10,000,000 where no number is given. A worker takes an element from one of them,
 * counts a step, and puts it into another. Each put is taken once, by one worker, and what one of them put into a queue
 * comes to each in its order. Prints one line. Status 1: an element was lost, came twice, or came out of order.
 */
#include "synthesis.h"
#include <pthread.h>
#include <sched.h>
#include <stdio.h>
#include <stdlib.h>

enum { WORKERS = 8, ELEMENTS = 64 };

/* The element queues. In the wait queue TICKETED elements wait by a ticket, and a notify wakes them; in WAITING not. */
enum queue { READY, RETIRED, WAITING, TICKETED, QUEUES };

/*
 * What a worker works with and did. It numbers what it puts into each queue, and knows the last number that it took
 * there of each worker, and of the table, which puts all elements at the start.
 */
struct worker {
    struct synth_hand hand;
    int number;
    uint32_t random;
    uint64_t moves, faults;
    uint64_t put[QUEUES], taken[QUEUES], last[QUEUES][WORKERS + 1];
};

/* Where an element was put last, by whom, and by which of its puts. Whoever takes the element has its label too. */
static struct {
    uint64_t number;
    int queue, worker;
    bool is_put;
} labels[ELEMENTS];

static struct worker workers[WORKERS];

static void must(synth_code code, const char *what)
{
    if (code != SYNTH_OK) {
        fprintf(stderr, "many_elements: %s: %s\n", what, synth_code_name(code));
        exit(1);
    }
}

static int any_queue(struct worker *worker)
{
    worker->random = worker->random * 1664525u + 1013904223u;
    return (int)(worker->random >> 16) % QUEUES;
}

static synth_code try_take(struct synth_hand *hand, int queue, uint32_t *element)
{
    uint32_t head = 0;
    switch (queue) {
    case READY:
        return synth_hand_try_next(hand, element, NULL);
    case RETIRED:
        return synth_hand_try_free(hand, element, NULL);
    case WAITING:
        return synth_hand_try_wake(hand, WAITING, element, NULL);
    default:
        must(synth_hand_notify(hand, TICKETED, &head), "notify");
        return synth_hand_try_wake_before(hand, TICKETED, head, element, NULL);
    }
}

static synth_code try_put(struct synth_hand *hand, int queue, uint32_t element)
{
    uint32_t ticket = 0;
    switch (queue) {
    case READY:
        return synth_hand_try_ready(hand, element, NULL);
    case RETIRED:
        return synth_hand_try_retire(hand, element, NULL);
    case WAITING:
        return synth_hand_try_wait(hand, element, WAITING, NULL, NULL);
    default:
        must(synth_hand_ticket(hand, TICKETED, &ticket), "ticket");
        return synth_hand_try_wait_at(hand, element, TICKETED, ticket, NULL, NULL);
    }
}

/* Looks whether an element that the worker took was put there, and comes after all that it took of the same worker. */
static void check(struct worker *worker, int queue, uint32_t element)
{
    uint64_t *last = &worker->last[queue][labels[element].worker];
    worker->faults += !labels[element].is_put || labels[element].queue != queue || labels[element].number <= *last;
    labels[element].is_put = false;
    *last = labels[element].number;
    worker->taken[queue]++;
}

static void put(struct worker *worker, int queue, uint32_t element)
{
    synth_code code;
    labels[element].number = ++worker->put[queue];
    labels[element].queue = queue;
    labels[element].worker = worker->number;
    labels[element].is_put = true;
    while ((code = try_put(&worker->hand, queue, element)) == SYNTH_LOST || code == SYNTH_MOVED) {
    }
    must(code, "put");
}

static void *move_all(void *given)
{
    struct worker *worker = (struct worker *)given;
    for (uint64_t moved = 0; moved < worker->moves;) {
        uint32_t element = 0;
        int queue = any_queue(worker);
        synth_code code = try_take(&worker->hand, queue, &element);
        if (code == SYNTH_OK) {
            check(worker, queue, element);
            must(synth_hand_step_done(&worker->hand, element, NULL), "step_done");
            put(worker, any_queue(worker), element);
            moved++;
        } else if (code == SYNTH_EMPTY) {
            sched_yield();
        } else if (code != SYNTH_LOST && code != SYNTH_ALL_WOKEN) {
            must(code, "take");
        }
    }
    return NULL;
}

/* The elements in a queue at the end, as the table reports them. Their labels have to say so too. */
static uint64_t count_in(const struct synth_hand_totals *totals, int queue, uint64_t *faults)
{
    static const uint32_t kinds[QUEUES] = {SYNTH_PLACE_READY, SYNTH_PLACE_FREE, SYNTH_PLACE_WAIT, SYNTH_PLACE_WAIT};
    uint64_t count = 0;
    for (int i = 0; i < ELEMENTS; i++) {
        const struct synth_place *place = &totals->place[i];
        if (place->kind == kinds[queue] && (queue < WAITING || place->number == (uint32_t)queue)) {
            *faults += !labels[i].is_put || labels[i].queue != queue;
            count++;
        }
    }
    return count;
}

/* In each queue is what was put and not taken, and each move was a step. */
static uint64_t count_faults(const struct synth_hand_totals *totals, uint64_t moves)
{
    uint64_t faults = 0, steps = 0, left = 0;
    for (int queue = 0; queue < QUEUES; queue++) {
        uint64_t count = count_in(totals, queue, &faults), expected = queue == RETIRED ? ELEMENTS : 0;
        for (int i = 0; i < WORKERS; i++) {
            expected += workers[i].put[queue] - workers[i].taken[queue];
        }
        faults += count != expected;
        left += count;
    }
    for (int i = 0; i < ELEMENTS; i++) {
        steps += totals->pc[i];
    }
    for (int i = 0; i < WORKERS; i++) {
        faults += workers[i].faults;
    }
    return faults + (steps != moves) + (left != ELEMENTS);
}

int main(int count, char **words)
{
    struct synth_hand last = {NULL, false};
    struct synth_hand_totals totals;
    pthread_t threads[WORKERS];
    uint64_t moves = count > 1 ? strtoull(words[1], NULL, 10) : 10000000;
    must(synth_hand_new(5, &last), "new");
    for (int i = 0; i < ELEMENTS; i++) {
        labels[i].number = (uint64_t)i + 1;
        labels[i].queue = RETIRED;
        labels[i].worker = WORKERS;
        labels[i].is_put = true;
    }
    for (int i = 0; i < WORKERS; i++) {
        workers[i].number = i;
        workers[i].random = (uint32_t)i;
        workers[i].moves = moves / WORKERS + ((uint64_t)i < moves % WORKERS);
        must(synth_hand_split(&last, 1u << i, &workers[i].hand), "split");
    }
    for (int i = 0; i < WORKERS; i++) {
        must(pthread_create(&threads[i], NULL, move_all, &workers[i]), "a thread");
    }
    for (int i = 0; i < WORKERS; i++) {
        must(pthread_join(threads[i], NULL), "the end of a thread");
        must(synth_hand_join(&last, &workers[i].hand), "join");
    }
    must(synth_hand_finish(&last, &totals), "finish");
    uint64_t faults = count_faults(&totals, moves);
    printf("many_elements: %llu moves, %llu faults\n", (unsigned long long)moves, (unsigned long long)faults);
    return faults != 0;
}
