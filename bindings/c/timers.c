/*
 * Timers that defer. Each of eight timers is an alarm of the meters. A thread moves the clock on, takes the alarms out
 * that are due, and chains a note for each; two other threads chain notes meanwhile. Whoever is answered SYNTH_RUN runs
 * the procedures, one at a time, so they take no lock. That of a timer counts, and sets the timer's next alarm. Prints
 * how often all of them ran, which is the same in any schedule. Status 1: it isn't.
 */
#include "synthesis.h"
#include <pthread.h>
#include <sched.h>
#include <stdio.h>
#include <stdlib.h>

enum { TIMERS = 8, LAST_TICK = 1000, OTHERS = 2, THREADS = 1 + OTHERS, NOTES = 20000 };

/* A note below TIMERS is a timer's; this one is another thread's. The gauge counts the timers that are over. */
enum { ANOTHER = TIMERS, ARE_OVER = 0 };

/* What a thread works with. The first one moves the clock on. */
struct worker {
    struct synth_chain chain;
    struct synth_seat seat;
};

static struct worker workers[THREADS];

/* What the procedures work on, without a lock. The timer i is due every i + 1 ticks. */
static struct {
    uint32_t due[TIMERS];
    unsigned long of_timers, of_others;
} bottom;

/* Ends the program if a call that has to succeed did not. */
static void must(synth_code code, const char *what)
{
    if (code != SYNTH_OK) {
        fprintf(stderr, "timers: %s: %s\n", what, synth_code_name(code));
        exit(1);
    }
}

static void set_alarm(struct worker *worker, uint32_t timer)
{
    struct synth_alarm alarm = {bottom.due[timer], timer, 0};
    synth_code code;
    do {
        code = synth_seat_try_set(&worker->seat, &alarm, NULL);
    } while (code == SYNTH_LOST);
    must(code, "set");
}

/* A timer is due anew one period after it was due, however late this is. */
static void procedure(struct worker *worker, uint16_t note)
{
    if (note == ANOTHER) {
        bottom.of_others++;
        return;
    }
    bottom.of_timers++;
    bottom.due[note] += note + 1u;
    if (bottom.due[note] <= LAST_TICK) {
        set_alarm(worker, note);
    } else {
        must(synth_seat_tick(&worker->seat, ARE_OVER, 1, NULL), "tick");
    }
}

/* Chains a note, and runs what is chained if nobody else does. */
static void defer(struct worker *worker, uint16_t note)
{
    synth_code code;
    uint16_t next;
    while ((code = synth_chain_try_chain(&worker->chain, note, NULL)) == SYNTH_LOST || code == SYNTH_FULL) {
        sched_yield();
    }
    if (code == SYNTH_LEFT) {
        return;
    }
    must(code == SYNTH_RUN ? SYNTH_OK : code, "chain");
    while ((code = synth_chain_next(&worker->chain, &next)) != SYNTH_OK) {
        if (code == SYNTH_NOTE) {
            procedure(worker, next);
        } else if (code != SYNTH_AGAIN) {
            must(code, "next");
        }
    }
}

static void *move_clock(void *given)
{
    struct worker *worker = (struct worker *)given;
    struct synth_alarm alarms[16];
    uint64_t are_over = 0;
    for (uint32_t clock = 0; are_over < TIMERS;) {
        size_t count = 0;
        if (clock < LAST_TICK) {
            must(synth_seat_try_advance(&worker->seat, &clock), "advance");
        }
        must(synth_seat_due(&worker->seat, alarms, 16, &count), "due");
        for (size_t i = 0; i < count; i++) {
            defer(worker, (uint16_t)alarms[i].element);
        }
        if (count == 0) {
            sched_yield();
        }
        must(synth_seat_tick(&worker->seat, ARE_OVER, 0, &are_over), "gauge");
    }
    return NULL;
}

static void *defer_notes(void *given)
{
    struct worker *worker = (struct worker *)given;
    for (int i = 0; i < NOTES; i++) {
        defer(worker, ANOTHER);
    }
    return NULL;
}

/* How often the timers are due till the last tick. */
static unsigned long expected(void)
{
    unsigned long count = 0;
    for (unsigned long timer = 0; timer < TIMERS; timer++) {
        count += LAST_TICK / (timer + 1);
    }
    return count;
}

static void start_all(pthread_t *threads)
{
    must(synth_chain_new(0, &workers[0].chain), "a chain");
    must(synth_seat_new(0, &workers[0].seat), "meters");
    for (uint32_t timer = 0; timer < TIMERS; timer++) {
        bottom.due[timer] = timer + 1;
        set_alarm(&workers[0], timer);
    }
    for (int i = 1; i < THREADS; i++) {
        must(synth_chain_split(&workers[0].chain, &workers[i].chain), "split");
        must(synth_seat_split(&workers[0].seat, &workers[i].seat), "split");
    }
    for (int i = 0; i < THREADS; i++) {
        must(pthread_create(&threads[i], NULL, i == 0 ? move_clock : defer_notes, &workers[i]), "a thread");
    }
}

int main(void)
{
    pthread_t threads[THREADS];
    struct synth_chain_totals chained;
    struct synth_seat_totals metered;
    start_all(threads);
    for (int i = 0; i < THREADS; i++) {
        must(pthread_join(threads[i], NULL), "the end of a thread");
    }
    for (int i = 1; i < THREADS; i++) {
        must(synth_chain_join(&workers[0].chain, &workers[i].chain), "join");
        must(synth_seat_join(&workers[0].seat, &workers[i].seat), "join");
    }
    must(synth_chain_finish(&workers[0].chain, &chained), "finish");
    must(synth_seat_finish(&workers[0].seat, &metered), "finish");
    printf("timers: %lu procedures of timers, %lu others\n", bottom.of_timers, bottom.of_others);
    return bottom.of_timers != expected() || bottom.of_others != (unsigned long)(OTHERS * NOTES) ||
           chained.run != bottom.of_timers + bottom.of_others || metered.alarms != 0 || metered.clock != LAST_TICK;
}
