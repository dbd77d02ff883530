/*
 * Four workers, each in a thread of its own, take elements from all element queues, run them, park and start them,
 * give them to a second hand, send them signals, and move them on, as pseudorandom numbers say. No element is ever held
 * by two; each step and each signal is counted once. Prints one line. Status 1: an element was held twice, or the
 * table's counts are others.
 */
#include "synthesis.h"
#include <pthread.h>
#include <sched.h>
#include <stdio.h>
#include <stdlib.h>

enum { WORKERS = 4, ELEMENTS = 64, WAITS = 16, SIGNALS = 16, TURNS = 50000 };

/* What a worker works with, and what it did. */
struct worker {
    struct synth_hand hand, other;
    uint32_t processor;
    uint32_t random;
    unsigned long steps, raised, delivered, given, faults;
};

static void must(synth_code code, const char *what)
{
    if (code != SYNTH_OK) {
        fprintf(stderr, "many_hands: %s: code %d\n", what, (int)code);
        exit(1);
    }
}

/* The next pseudorandom number, below `end`. */
static uint32_t below(struct worker *worker, uint32_t end)
{
    worker->random = worker->random * 1664525u + 1013904223u;
    return (worker->random >> 16) % end;
}

static unsigned long bits_of(uint32_t mask)
{
    unsigned long count = 0;
    for (; mask != 0; mask &= mask - 1) {
        count++;
    }
    return count;
}

/* How many steps each element has done, in plain memory: whoever takes it sees what was done before it was moved. */
static uint64_t steps_of[ELEMENTS];

/* How many workers hold each element, as they say themselves. */
static int holders[ELEMENTS];

static void hold(struct worker *worker, uint32_t element)
{
    worker->faults += __atomic_fetch_add(&holders[element], 1, __ATOMIC_SEQ_CST) != 0;
}

static void let_go(struct worker *worker, uint32_t element)
{
    worker->faults += __atomic_fetch_sub(&holders[element], 1, __ATOMIC_SEQ_CST) != 1;
}

/* One try to take an element from a queue, or from its stop cell. True where the worker holds it then. */
static bool take(struct worker *worker, uint32_t *element)
{
    synth_code code = SYNTH_EMPTY;
    uint32_t started = 0, head = 0;
    switch (below(worker, 5)) {
    case 0:
        code = synth_hand_try_next(&worker->hand, element, NULL);
        break;
    case 1:
        code = synth_hand_try_free(&worker->hand, element, NULL);
        break;
    case 2:
        code = synth_hand_try_wake(&worker->hand, below(worker, WAITS), element, NULL);
        break;
    case 3: {
        uint32_t wait = below(worker, WAITS);
        must(synth_hand_notify(&worker->hand, wait, &head), "notify");
        code = synth_hand_try_wake_before(&worker->hand, wait, head, element, NULL);
        break;
    }
    default:
        *element = below(worker, ELEMENTS);
        code = synth_hand_try_start(&worker->hand, *element, &started, NULL);
        code = code == SYNTH_OK && started != SYNTH_START_HELD ? SYNTH_EMPTY : code;
    }
    if (code == SYNTH_OK) {
        hold(worker, *element);
        return true;
    }
    if (code != SYNTH_EMPTY && code != SYNTH_LOST && code != SYNTH_ALL_WOKEN) {
        must(code, "take");
    }
    return false;
}

/* Runs an element that the worker holds for a step, and delivers its signals. */
static void run(struct worker *worker, uint32_t element)
{
    uint64_t before = 0, after = 0;
    uint32_t off = 0, signals = 0;
    must(synth_hand_pc(&worker->hand, element, &before), "pc");
    must(synth_hand_on(&worker->hand, worker->processor, element), "on");
    must(synth_hand_step_done(&worker->hand, element, &after), "step_done");
    must(synth_hand_off(&worker->hand, worker->processor, &off), "off");
    worker->faults += after != before + 1 || off != element || steps_of[element] != before;
    steps_of[element] = after;
    worker->steps++;
    synth_code code = synth_hand_try_deliver(&worker->hand, element, &signals, NULL);
    if (code == SYNTH_OK) {
        worker->delivered += bits_of(signals);
    } else if (code != SYNTH_LOST) {
        must(code, "deliver");
    }
}

/*
 * Gives an element that the worker holds to its other hand, half of the times. Returns the hand that holds it then, or
 * null if another worker has started it meanwhile.
 */
static struct synth_hand *give(struct worker *worker, uint32_t element)
{
    if (below(worker, 2) == 0) {
        return &worker->hand;
    }
    let_go(worker, element);
    synth_code code = synth_hand_give(&worker->hand, &worker->other, element);
    if (code == SYNTH_TAKEN) {
        return NULL;
    }
    hold(worker, element);
    if (code == SYNTH_OK) {
        worker->given++;
        return &worker->other;
    }
    if (code != SYNTH_STOPPED && code != SYNTH_LOST) {
        must(code, "give");
    }
    return &worker->hand;
}

/* One try to park the element, which is done where it is to stop, or else to move it to a queue. */
static bool move(struct worker *worker, struct synth_hand *hand, uint32_t element)
{
    uint32_t wait = below(worker, WAITS), ticket = 0;
    bool parked = false;
    synth_code code = synth_hand_try_park(hand, element, &parked, NULL);
    if (code != SYNTH_OK || parked) {
        return code == SYNTH_OK;
    }
    switch (below(worker, 4)) {
    case 0:
        return synth_hand_try_ready(hand, element, NULL) == SYNTH_OK;
    case 1:
        return synth_hand_try_retire(hand, element, NULL) == SYNTH_OK;
    case 2:
        return synth_hand_try_wait(hand, element, wait, NULL, NULL) == SYNTH_OK;
    default:
        must(synth_hand_ticket(hand, wait, &ticket), "ticket");
        return synth_hand_try_wait_at(hand, element, wait, ticket, NULL, NULL) == SYNTH_OK;
    }
}

static void *work(void *given)
{
    struct worker *worker = (struct worker *)given;
    for (int i = 0; i < TURNS; i++) {
        uint32_t element = 0;
        bool raised = false, was_clear = false;
        must(synth_hand_signal(&worker->hand, below(worker, ELEMENTS), below(worker, SIGNALS), &raised), "signal");
        worker->raised += raised;
        if (below(worker, 8) == 0) {
            must(synth_hand_stop(&worker->hand, below(worker, ELEMENTS), &was_clear), "stop");
        }
        if (!take(worker, &element)) {
            continue;
        }
        run(worker, element);
        struct synth_hand *hand = give(worker, element);
        if (hand == NULL) {
            continue;
        }
        let_go(worker, element);
        while (!move(worker, hand, element)) {
            sched_yield();
        }
    }
    return NULL;
}

/* All zeros, so each handle is empty. The last one is the main thread's. */
static struct worker workers[WORKERS + 1];

/* Joins a worker's hand to the main thread's, and counts what it did there. */
static void add_up(struct worker *last, struct worker *worker)
{
    must(synth_hand_join(&last->hand, &worker->hand), "join");
    must(synth_hand_join(&last->hand, &worker->other), "join of the other hand");
    last->given += worker->given;
    last->steps += worker->steps;
    last->raised += worker->raised;
    last->delivered += worker->delivered;
    last->faults += worker->faults;
}

/* What the finish reports has to be what the workers counted, and nobody holds an element or has one on a processor. */
static unsigned long faults_at_end(const struct worker *last, const struct synth_hand_totals *places)
{
    unsigned long steps = 0, pending = 0, faults = 0;
    for (int i = 0; i < ELEMENTS; i++) {
        uint32_t kind = places->place[i].kind;
        steps += (unsigned long)places->pc[i];
        pending += bits_of(places->pending[i]);
        faults += kind == SYNTH_PLACE_HELD || kind == SYNTH_PLACE_PROCESSOR || holders[i] != 0;
        faults += kind == SYNTH_PLACE_STOPPED && (places->stops >> i & 1) == 0;
    }
    return faults + (steps != last->steps) + (last->raised != last->delivered + pending);
}

int main(void)
{
    struct worker *last = &workers[WORKERS];
    struct synth_hand_totals places;
    pthread_t threads[WORKERS];
    must(synth_hand_new(3, &last->hand), "new");
    for (uint32_t i = 0; i < WORKERS; i++) {
        workers[i].processor = 7 - i;
        workers[i].random = i;
        must(synth_hand_split(&last->hand, 1u << (7 - i), &workers[i].hand), "split");
        must(synth_hand_split(&last->hand, 0, &workers[i].other), "split of the other hand");
        must(pthread_create(&threads[i], NULL, work, &workers[i]), "a thread");
    }
    for (int i = 0; i < WORKERS; i++) {
        must(pthread_join(threads[i], NULL), "the end of a worker");
        add_up(last, &workers[i]);
    }
    must(synth_hand_finish(&last->hand, &places), "finish");
    unsigned long faults = last->faults + faults_at_end(last, &places);
    printf("many_hands: %d elements, %lu faults\n", ELEMENTS, faults);
    return faults != 0 || last->steps == 0 || last->delivered == 0 || last->given == 0;
}
