/*
 * A signal handler puts into a batch queue, by a handle that it alone uses: `handler [ITEMS]`, 10,000 where no number
 * is given. A timer raises its signal some thousand times a second, whatever call the program is within: the program
 * puts and takes meanwhile, by two handles of its own. All items of both come, each once and in order. Prints one line.
 * Status 1: an item was lost, came twice or came too early.
 */
#define _XOPEN_SOURCE 700
#include "synthesis.h"
#include <signal.h>
#include <stdio.h>
#include <stdlib.h>
#include <sys/time.h>

enum { PLACES = 64, ROOM = 16, MICROSECONDS = 100 };

/* The items of the handler are odd, those of the program even. */
static struct synth_batch in_handler;
static volatile sig_atomic_t is_over;
static volatile uint64_t put_there, at_fault;

static void must(synth_code code, const char *what)
{
    if (code != SYNTH_OK) {
        fprintf(stderr, "handler: %s: %s\n", what, synth_code_name(code));
        exit(1);
    }
}

/* One try, and no more: what is refused is put by the next signal. */
static void on_signal(int number)
{
    uint64_t item = put_there * 2 + 1;
    (void)number;
    if (!is_over) {
        synth_code code = synth_batch_try_put(&in_handler, &item, 1, NULL);
        put_there = put_there + (code == SYNTH_OK);
        at_fault = at_fault + (code != SYNTH_OK && code != SYNTH_FULL && code != SYNTH_LOST);
    }
}

static void start_timer(void)
{
    static struct sigaction action;
    struct itimerval each = {{0, MICROSECONDS}, {0, MICROSECONDS}};
    action.sa_handler = on_signal;
    sigemptyset(&action.sa_mask);
    if (sigaction(SIGALRM, &action, NULL) != 0 || setitimer(ITIMER_REAL, &each, NULL) != 0) {
        perror("handler");
        exit(1);
    }
}

/* A system call: valgrind and ThreadSanitizer let a signal come at one, and seldom or never elsewhere. */
static void let_signals_come(void)
{
    struct itimerval left;
    getitimer(ITIMER_REAL, &left);
}

/* Counts items of both kinds, which come in their order. */
static void count(const uint64_t *items, size_t length, uint64_t *taken)
{
    for (size_t i = 0; i < length; i++) {
        at_fault = at_fault + (items[i] / 2 != taken[items[i] % 2]++);
    }
}

static void take(struct synth_batch *queue, uint64_t *taken)
{
    uint64_t items[ROOM];
    size_t length = 0;
    if (synth_batch_try_take_some(queue, items, ROOM, &length, NULL) == SYNTH_OK) {
        count(items, length, taken);
    }
}

int main(int number, char **words)
{
    struct synth_batch putter = SYNTH_BATCH_INIT, taker = SYNTH_BATCH_INIT;
    struct synth_batch_totals totals;
    uint64_t wanted = number > 1 ? strtoull(words[1], NULL, 10) : 10000;
    uint64_t taken[2] = {0, 0}, put_here = 0, left[PLACES];
    must(synth_batch_new(PLACES, &taker), "new");
    must(synth_batch_split(&taker, &putter), "split");
    must(synth_batch_split(&taker, &in_handler), "split");
    start_timer();
    while (taken[1] < wanted) {
        uint64_t item = put_here * 2;
        put_here += synth_batch_put(&putter, &item, 1, 3) == SYNTH_OK;
        take(&taker, taken);
        if (put_here % 64 == 0) {
            let_signals_come();
        }
    }
    is_over = 1;
    must(synth_batch_join(&taker, &putter), "join");
    must(synth_batch_join(&taker, &in_handler), "join");
    must(synth_batch_finish(&taker, left, PLACES, &totals), "finish");
    count(left, totals.left, taken);
    at_fault = at_fault + (taken[0] != put_here) + (taken[1] != put_there) + (totals.put != put_here + put_there);
    printf("handler: %llu items by signals, %llu at fault\n", (unsigned long long)wanted, (unsigned long long)at_fault);
    return at_fault != 0;
}
