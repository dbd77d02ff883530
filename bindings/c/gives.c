/*
 * Six workers, each in a thread of its own with two hands, start the same two elements out of their stop cells, give
 * each to the other hand, and park it again, with stops in between. So gives meet stops and starts of other hands.
 * Whatever a give answers, the element is where the answer says, and one worker at a time counts what it holds, in
 * plain memory: `gives [TURNS]`, 50,000 turns of each worker if no number is given. Prints one line. Status 1: an
 * answer wasn't so, or a count is lost.
 */
#include "synthesis.h"
#include <pthread.h>
#include <stdio.h>
#include <stdlib.h>

enum { WORKERS = 6, ELEMENTS = 2 };

static unsigned long turns;

/* What a worker works with, and what it did. */
struct worker {
    struct synth_hand hand, other;
    uint32_t random;
    unsigned long held, given, faults;
};

static void must(synth_code code, const char *what)
{
    if (code != SYNTH_OK) {
        fprintf(stderr, "gives: %s: %s\n", what, synth_code_name(code));
        exit(1);
    }
}

/* The next pseudorandom number, below `end`. */
static uint32_t below(struct worker *worker, uint32_t end)
{
    worker->random = worker->random * 1664525u + 1013904223u;
    return (worker->random >> 16) % end;
}

/* How often each element was held, in plain memory: whoever starts it sees what was done before it was parked. */
static unsigned long held[ELEMENTS];

static void count_hold(struct worker *worker, uint32_t element)
{
    held[element]++;
    worker->held++;
}

static bool holds(const struct synth_hand *hand, uint32_t element)
{
    bool is = false;
    must(synth_hand_holds(hand, element, &is), "holds");
    return is;
}

/* Gives the element, and looks whether it is where the answer says. Returns the hand that holds it then, or null. */
static struct synth_hand *give(struct worker *worker, uint32_t element)
{
    struct synth_hand *holder = &worker->hand;
    const synth_code code = synth_hand_give(&worker->hand, &worker->other, element);
    if (code == SYNTH_TAKEN) {
        holder = NULL;
    } else if (code == SYNTH_OK) {
        holder = &worker->other;
        worker->given++;
    } else if (code != SYNTH_STOPPED && code != SYNTH_LOST) {
        must(code, "give");
    }
    worker->faults += holds(&worker->hand, element) != (holder == &worker->hand);
    worker->faults += holds(&worker->other, element) != (holder == &worker->other);
    return holder;
}

/* Parks the element, whose stop bit other workers may clear meanwhile. */
static void park(struct synth_hand *hand, uint32_t element)
{
    bool parked = false;
    while (!parked) {
        must(synth_hand_stop(hand, element, NULL), "stop");
        const synth_code code = synth_hand_try_park(hand, element, &parked, NULL);
        if (code != SYNTH_LOST) {
            must(code, "park");
        }
    }
}

static void *work(void *given)
{
    struct worker *worker = (struct worker *)given;
    for (unsigned long i = 0; i < turns; i++) {
        const uint32_t element = below(worker, ELEMENTS);
        uint32_t started = SYNTH_START_NOT_STOPPED;
        if (below(worker, 8) == 0) {
            must(synth_hand_stop(&worker->hand, element, NULL), "stop");
        }
        if (synth_hand_try_start(&worker->hand, element, &started, NULL) != SYNTH_OK || started != SYNTH_START_HELD) {
            continue;
        }
        count_hold(worker, element);
        struct synth_hand *holder = give(worker, element);
        if (holder != NULL) {
            count_hold(worker, element);
            park(holder, element);
        }
    }
    return NULL;
}

/* All zeros, so each handle is empty. The last one is the main thread's. */
static struct worker workers[WORKERS + 1];

/* Joins a worker's hands to the main thread's, and counts what it did there. */
static void add_up(struct worker *last, struct worker *worker)
{
    must(synth_hand_join(&last->hand, &worker->hand), "join");
    must(synth_hand_join(&last->hand, &worker->other), "join of the other hand");
    last->held += worker->held;
    last->given += worker->given;
    last->faults += worker->faults;
}

int main(int count, char **words)
{
    struct worker *last = &workers[WORKERS];
    struct synth_hand_totals places;
    pthread_t threads[WORKERS];
    turns = count > 1 ? strtoul(words[1], NULL, 10) : 50000;
    must(synth_hand_new(0, &last->hand), "new");
    for (uint32_t element = 0; element < ELEMENTS; element++) {
        must(synth_hand_try_free(&last->hand, NULL, NULL), "free");
        park(&last->hand, element);
    }
    for (uint32_t i = 0; i < WORKERS; i++) {
        workers[i].random = i;
        must(synth_hand_split(&last->hand, 0, &workers[i].hand), "split");
        must(synth_hand_split(&last->hand, 0, &workers[i].other), "split of the other hand");
    }
    for (int i = 0; i < WORKERS; i++) {
        must(pthread_create(&threads[i], NULL, work, &workers[i]) == 0 ? SYNTH_OK : SYNTH_NO_MEMORY, "a thread");
    }
    for (int i = 0; i < WORKERS; i++) {
        must(pthread_join(threads[i], NULL) == 0 ? SYNTH_OK : SYNTH_NO_MEMORY, "the end of a worker");
        add_up(last, &workers[i]);
    }
    must(synth_hand_finish(&last->hand, &places), "finish");
    for (int i = 0; i < ELEMENTS; i++) {
        last->faults += places.place[i].kind != SYNTH_PLACE_STOPPED;
        last->held -= held[i];
    }
    printf("gives: %d elements, %lu faults, %lu holds lost\n", ELEMENTS, last->faults, last->held);
    return last->faults != 0 || last->held != 0 || last->given == 0;
}
