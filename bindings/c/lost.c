/*
 * Queues of which an end was lost are abandoned: `lost [TRIES]`, 200 where no number is given. An end is freed with its
 * items in the queue. Then, so many times, a signal handler leaves a put by longjmp, wherever it is, so its end is
 * broken and used no more; what the abandon gives are the first of the items that were put. A long put that was left so
 * is noticed by the finish of a batch queue whose ends are all joined. Prints one line. Status 1: an answer differs.
 */
#define _XOPEN_SOURCE 700
#include "rows.h"
#include "synthesis.h"
#include <setjmp.h>
#include <signal.h>
#include <stdlib.h>
#include <sys/time.h>

enum { PLACES = 64, RUN = 5, ROOM = 16, LEAST = 20 };

static const uint64_t items[] = {21, 22, 23, 24, 25, 26};
static uint64_t buffer[PLACES + 1];
static size_t count;

/* The one that is left gets what there is, or as much as it has room for; the queue goes with it. */
static void freed_ends(void)
{
    struct synth_batch batch = SYNTH_BATCH_INIT, other = SYNTH_BATCH_INIT;
    for (size_t room = 0; room <= 8; room += 4) {
        ROW(synth_batch_new(8, &batch), SYNTH_OK);
        ROW(synth_batch_split(&batch, &other), SYNTH_OK);
        ROW(synth_batch_put(&other, items, 3, 1), SYNTH_OK);
        ROW(synth_batch_put(&other, items + 3, 3, 1), SYNTH_OK);
        ROW(synth_batch_free(&other), SYNTH_OK);
        ROW(synth_batch_abandon(&batch, buffer, room, &count), SYNTH_OK);
        ROW(count, room < 6 ? room : 6);
        ROW(count == 0 || (buffer[0] == 21 && buffer[count - 1] == 20 + count), true);
        ROW(batch.full, false);
    }
    struct synth_queue queue = SYNTH_QUEUE_INIT, end = SYNTH_QUEUE_INIT;
    for (size_t room = 0; room <= 8; room += 4) {
        ROW(synth_queue_new(PLACES, 7, &queue), SYNTH_OK);
        ROW(synth_queue_split(&queue, &end), SYNTH_OK);
        ROW(synth_queue_put(&end, items, 6, 1), SYNTH_OK);
        ROW(synth_queue_free(&end), SYNTH_OK);
        ROW(synth_queue_abandon(&queue, buffer, room, &count), SYNTH_OK);
        ROW(count, room < 6 ? room : 6);
        ROW(count == 0 || (buffer[0] == 21 && buffer[count - 1] == 20 + count), true);
        ROW(queue.full, false);
    }
}

/* An abandon shuts the queue, and takes what an end that is full still might have: that one goes on alone. */
static void full_ends(void)
{
    struct synth_batch batch = SYNTH_BATCH_INIT, other = SYNTH_BATCH_INIT;
    struct synth_queue queue = SYNTH_QUEUE_INIT, end = SYNTH_QUEUE_INIT;
    ROW(synth_batch_new(8, &batch), SYNTH_OK);
    ROW(synth_batch_split(&batch, &other), SYNTH_OK);
    ROW(synth_batch_put(&other, items, 6, 1), SYNTH_OK);
    ROW(synth_batch_abandon(&batch, buffer, 2, &count), SYNTH_OK);
    ROW(count == 2 && buffer[1] == 22, true);
    ROW(synth_batch_shut(&other), SYNTH_CLOSED);
    ROW(synth_batch_put(&other, items, 1, 1), SYNTH_CLOSED);
    ROW(synth_batch_abandon(&other, buffer, PLACES, &count), SYNTH_OK);
    ROW(count == 4 && buffer[0] == 23 && buffer[3] == 26, true);
    ROW(synth_batch_abandon(&other, buffer, PLACES, &count), SYNTH_EMPTY_HANDLE);
    ROW(count, 4);
    ROW(synth_queue_new(PLACES, 0, &queue), SYNTH_OK);
    ROW(synth_queue_split(&queue, &end), SYNTH_OK);
    ROW(synth_queue_put(&end, items, 6, 1), SYNTH_OK);
    ROW(synth_queue_abandon(&queue, buffer, 2, &count), SYNTH_OK);
    ROW(count == 2 && buffer[1] == 22, true);
    ROW(synth_queue_shut(&end), SYNTH_CLOSED);
    ROW(synth_queue_put(&end, items, 1, 1), SYNTH_CLOSED);
    ROW(synth_queue_abandon(&end, buffer, PLACES, &count), SYNTH_OK);
    ROW(count == 4 && buffer[0] == 23 && buffer[3] == 26, true);
    ROW(synth_queue_abandon(&end, buffer, PLACES, &count), SYNTH_EMPTY_HANDLE);
    ROW(count, 4);
}

static sigjmp_buf back;

/* The next number to be put, and the next to be taken. A put that was left has its items from `next` on. */
static volatile uint64_t next, oldest;

static void leave(int number)
{
    siglongjmp(back, number);
}

/* Raises the signal once, after so many microseconds. */
static void start_timer(long microseconds)
{
    struct itimerval once = {{0, 0}, {0, 0}};
    once.it_value.tv_usec = microseconds;
    setitimer(ITIMER_REAL, &once, NULL);
}

/* Blocks the signal, or lets it come. */
static void block(bool is_blocked)
{
    sigset_t signals;
    sigemptyset(&signals);
    sigaddset(&signals, SIGALRM);
    sigprocmask(is_blocked ? SIG_BLOCK : SIG_UNBLOCK, &signals, NULL);
}

static void fill(uint64_t *run)
{
    for (uint64_t i = 0; i < RUN; i++) {
        run[i] = next + i;
    }
}

/* Puts runs until the signal comes. No taking is left, since the signal is blocked there. */
static void put_to_batch(struct synth_batch *putter, struct synth_batch *taker)
{
    for (;;) {
        uint64_t run[RUN];
        size_t length = 0;
        fill(run);
        if (synth_batch_try_put(putter, run, RUN, NULL) == SYNTH_OK) {
            next = next + RUN;
            continue;
        }
        block(true);
        if (synth_batch_try_take_some(taker, buffer, ROOM, &length, NULL) == SYNTH_OK) {
            oldest = oldest + length;
        }
        block(false);
    }
}

static void put_to_queue(struct synth_queue *putter, struct synth_queue *taker)
{
    for (;;) {
        uint64_t run[RUN];
        size_t length = 0;
        fill(run);
        if (synth_queue_try_put(putter, run, RUN, NULL) == SYNTH_OK) {
            next = next + RUN;
            continue;
        }
        block(true);
        if (synth_queue_take_up_to(taker, buffer, ROOM, &length, NULL) == SYNTH_OK) {
            oldest = oldest + length;
        }
        block(false);
    }
}

/* What was put and not taken was given, in its order, and of a put that was left some of its first items or none. */
static void is_given(void)
{
    bool is_right = count >= next - oldest && count <= next - oldest + RUN;
    for (size_t i = 0; i < count; i++) {
        is_right = is_right && buffer[i] == oldest + i;
    }
    ROW(is_right, true);
}

static void leave_a_batch_put(struct synth_batch *putter, long microseconds)
{
    static struct synth_batch taker;
    next = oldest = 0;
    ROW(synth_batch_new(PLACES, &taker), SYNTH_OK);
    ROW(synth_batch_split(&taker, putter), SYNTH_OK);
    if (sigsetjmp(back, 1) == 0) {
        start_timer(microseconds);
        put_to_batch(putter, &taker);
    }
    ROW(synth_batch_abandon(&taker, buffer, PLACES, &count), SYNTH_OK);
    is_given();
}

static void leave_a_queue_put(struct synth_queue *putter, long microseconds)
{
    static struct synth_queue taker;
    next = oldest = 0;
    ROW(synth_queue_new(PLACES, 0, &taker), SYNTH_OK);
    ROW(synth_queue_split(&taker, putter), SYNTH_OK);
    if (sigsetjmp(back, 1) == 0) {
        start_timer(microseconds);
        put_to_queue(putter, &taker);
    }
    ROW(synth_queue_abandon(&taker, buffer, PLACES, &count), SYNTH_OK);
    is_given();
}

/* The ends that are lost here are never used again, nor is their memory given back. */
static void left_puts(size_t tries)
{
    static struct sigaction action;
    struct synth_batch *batches = (struct synth_batch *)calloc(tries + 1, sizeof *batches);
    struct synth_queue *queues = (struct synth_queue *)calloc(tries + 1, sizeof *queues);
    action.sa_handler = leave;
    sigemptyset(&action.sa_mask);
    ROW(batches && queues && sigaction(SIGALRM, &action, NULL) == 0, true);
    for (size_t i = 0; i < tries; i++) {
        leave_a_batch_put(&batches[i], LEAST + (long)i % 50);
        leave_a_queue_put(&queues[i], LEAST + (long)i % 50);
    }
    free(batches);
    free(queues);
}

enum { MANY = 1 << 20, LONG = MANY - 100 };

/* A put of so many items is left within its writes, if the signal comes then, and its end is joined all the same. */
static synth_code finish_a_long_put(const uint64_t *many, uint64_t *left, struct synth_batch_totals *totals)
{
    static struct synth_batch batch, other;
    ROW(synth_batch_new(MANY, &batch), SYNTH_OK);
    ROW(synth_batch_split(&batch, &other), SYNTH_OK);
    ROW(synth_batch_try_put(&batch, items, 3, NULL), SYNTH_OK);
    if (sigsetjmp(back, 1) == 0) {
        start_timer(LEAST);
        (void)(synth_batch_try_put(&other, many, LONG, NULL) == SYNTH_OK);
    }
    start_timer(0);
    ROW(synth_batch_try_put(&batch, items + 3, 2, NULL), SYNTH_OK);
    ROW(synth_batch_join(&batch, &other), SYNTH_OK);
    const synth_code code = synth_batch_finish(&batch, left, MANY, totals);
    ROW(batch.full || other.full, false);
    return code;
}

/* What was put before and after the put that was left is there, and nothing of that put is. */
static void broken_puts(size_t tries)
{
    uint64_t *many = (uint64_t *)calloc(MANY, sizeof *many), *left = (uint64_t *)calloc(MANY, sizeof *left);
    bool is_broken = false;
    ROW(many && left, true);
    for (size_t i = 0; i < tries && !is_broken; i++) {
        struct synth_batch_totals totals;
        const synth_code code = finish_a_long_put(many, left, &totals);
        is_broken = code == SYNTH_BROKEN;
        ROW(is_broken || code == SYNTH_OK, true);
        ROW(totals.broken, is_broken ? LONG : 0);
        ROW(totals.taken == 0 && totals.put == totals.left + totals.broken, true);
        if (is_broken) {
            ROW(totals.left == 5 && left[0] == 21 && left[2] == 23 && left[3] == 24 && left[4] == 25, true);
        }
    }
#ifndef __SANITIZE_THREAD__ /* this one keeps signals back until a call of the system */
    ROW(tries < 100 || is_broken, true);
#endif
    free(many);
    free(left);
}

int main(int number, char **words)
{
    const size_t tries = number > 1 ? strtoul(words[1], NULL, 10) : 200;
    freed_ends();
    full_ends();
    left_puts(tries);
    broken_puts(tries);
    return rows_end("lost");
}
