/*
 * Four workers, each in a thread of its own with a processor of its own, run 64 thread elements through 100 rounds. No
 * element begins a round before all have ended the one before: until then it waits, by a ticket, and the worker that
 * ends the round wakes all. Whoever has done its last round is retired. Prints how many steps were done and a sum over
 * them, which are the same in any schedule. Status 1: they are not.
 */
#include "synthesis.h"
#include <pthread.h>
#include <sched.h>
#include <stdio.h>
#include <stdlib.h>

enum { WORKERS = 4, ELEMENTS = 64, ROUNDS = 100 };

/* The wait queue of those whose round has not begun, and the gauges that count the steps of all, and the retired. */
enum { NEXT_ROUND = 0, STEPS = 0, RETIRED = 1 };

/* What a worker works with, and the sum of what it did. */
struct worker {
    struct synth_hand hand;
    struct synth_seat seat;
    uint32_t processor;
    uint64_t sum;
};

/* What comes of an element by a step. */
enum fate { GOES_ON, WAITS, ENDS };

/* Ends the program where a call that has to succeed did not. */
static void must(synth_code code, const char *what)
{
    if (code != SYNTH_OK) {
        fprintf(stderr, "scheduler: %s: code %d\n", what, (int)code);
        exit(1);
    }
}

/* Lets other threads run where a try is to be made again, since one of them was first, or is within a move. */
static void try_again(synth_code code, const char *what)
{
    if (code != SYNTH_LOST && code != SYNTH_EMPTY) {
        must(code, what);
    }
    sched_yield();
}

static uint64_t add(struct worker *worker, uint32_t gauge, uint64_t amount)
{
    uint64_t before = 0;
    must(synth_seat_tick(&worker->seat, gauge, amount, &before), "tick");
    return before + amount;
}

static void make_ready(struct worker *worker, uint32_t element)
{
    synth_code code;
    while ((code = synth_hand_try_ready(&worker->hand, element, NULL)) != SYNTH_OK) {
        try_again(code, "ready");
    }
}

static void retire(struct worker *worker, uint32_t element)
{
    synth_code code;
    while ((code = synth_hand_try_retire(&worker->hand, element, NULL)) != SYNTH_OK) {
        try_again(code, "retire");
    }
    add(worker, RETIRED, 1);
}

/* Lets the element wait for the next round. Where a round has ended since the ticket was read it is ready instead. */
static void let_wait(struct worker *worker, uint32_t element, uint32_t ticket)
{
    synth_code code;
    while ((code = synth_hand_try_wait_at(&worker->hand, element, NEXT_ROUND, ticket, NULL, NULL)) != SYNTH_OK) {
        if (code == SYNTH_MOVED) {
            make_ready(worker, element);
            return;
        }
        try_again(code, "wait");
    }
}

/* One notify, and then all that waited before it are made ready. */
static void wake_all(struct worker *worker)
{
    uint32_t head = 0, element = 0;
    must(synth_hand_notify(&worker->hand, NEXT_ROUND, &head), "notify");
    for (;;) {
        synth_code code = synth_hand_try_wake_before(&worker->hand, NEXT_ROUND, head, &element, NULL);
        if (code == SYNTH_ALL_WOKEN) {
            return;
        }
        if (code == SYNTH_OK) {
            make_ready(worker, element);
        } else {
            try_again(code, "wake");
        }
    }
}

/*
 * A step of an element, where its round has begun: all steps of the rounds before are done. Else it is to wait. The
 * ticket is read before the look at the gauge, or a wake between the look and the wait would be lost.
 */
static enum fate step(struct worker *worker, uint32_t element, uint32_t *ticket)
{
    uint64_t round = 0;
    must(synth_hand_pc(&worker->hand, element, &round), "pc");
    must(synth_hand_ticket(&worker->hand, NEXT_ROUND, ticket), "ticket");
    if (add(worker, STEPS, 0) < round * ELEMENTS) {
        return WAITS;
    }
    worker->sum += (element + 1) * (round + 1);
    must(synth_hand_step_done(&worker->hand, element, &round), "step_done");
    if (add(worker, STEPS, 1) == round * ELEMENTS) {
        wake_all(worker);
    }
    return round == ROUNDS ? ENDS : GOES_ON;
}

/* A turn of an element that the worker holds: it runs on the processor until it has to wait or has done all rounds. */
static void turn(struct worker *worker, uint32_t element)
{
    uint32_t ticket = 0;
    enum fate fate = GOES_ON;
    must(synth_hand_on(&worker->hand, worker->processor, element), "on");
    while (fate == GOES_ON) {
        fate = step(worker, element, &ticket);
    }
    must(synth_hand_off(&worker->hand, worker->processor, &element), "off");
    if (fate == WAITS) {
        let_wait(worker, element, ticket);
    } else {
        retire(worker, element);
    }
}

/* A worker: gives turns to the elements of the ready ring, until all are retired. */
static void *work(void *given)
{
    struct worker *worker = (struct worker *)given;
    while (add(worker, RETIRED, 0) < ELEMENTS) {
        uint32_t element = 0;
        synth_code code = synth_hand_try_next(&worker->hand, &element, NULL);
        if (code == SYNTH_OK) {
            turn(worker, element);
        } else {
            try_again(code, "next");
        }
    }
    return NULL;
}

/* All zeros, so each handle is empty. The last one is the main thread's, which makes the objects and ends them. */
static struct worker workers[WORKERS + 1];

int main(void)
{
    struct worker *last = &workers[WORKERS];
    pthread_t threads[WORKERS];
    must(synth_hand_new(0, &last->hand), "new");
    must(synth_seat_new(0, &last->seat), "new");
    for (int i = 0; i < ELEMENTS; i++) {
        uint32_t element = 0;
        must(synth_hand_try_free(&last->hand, &element, NULL), "a free element");
        make_ready(last, element);
    }
    for (uint32_t i = 0; i < WORKERS; i++) {
        workers[i].processor = i;
        must(synth_hand_split(&last->hand, 1u << i, &workers[i].hand), "split");
        must(synth_seat_split(&last->seat, &workers[i].seat), "split");
        must(pthread_create(&threads[i], NULL, work, &workers[i]), "a thread");
    }
    for (int i = 0; i < WORKERS; i++) {
        must(pthread_join(threads[i], NULL), "the end of a worker");
        must(synth_hand_join(&last->hand, &workers[i].hand), "join");
        must(synth_seat_join(&last->seat, &workers[i].seat), "join");
        last->sum += workers[i].sum;
    }

    /* The last hand ends the table, and reports where each element is and how many steps it has done. */
    struct synth_hand_totals places;
    struct synth_seat_totals meters;
    must(synth_hand_finish(&last->hand, &places), "finish");
    must(synth_seat_finish(&last->seat, &meters), "finish");
    int retired = 0;
    for (int i = 0; i < ELEMENTS; i++) {
        retired += places.place[i].kind == SYNTH_PLACE_FREE && places.pc[i] == ROUNDS;
    }
    printf("did %llu steps, sum %llu\n", (unsigned long long)meters.gauges[STEPS], (unsigned long long)last->sum);
    printf("closed: %d elements are free, each after %d steps\n", retired, ROUNDS);
    return retired != ELEMENTS || last->sum != 10504000;
}
