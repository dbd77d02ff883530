/*
 * Tokens that go round a queue which has a place for each: `tokens [ROUNDS]`, 200,000 if no number is given. Eight
 * threads take 64 tokens out of a claim queue of 64 places and put them back. No put is FULL. Then a signal stops a
 * taker of a batch queue within its taking, by longjmp, and another end goes round. If the taker had reserved its
 * items, a put becomes FULL, although the queue has twice as many places as tokens. That is tried 100 times for each
 * 50,000 rounds, 400 times at most. Prints one line. Status 1: a put to the claim queue was FULL, a token was lost or
 * came twice, or no stopped taker was seen to keep its places.
 */
#define _XOPEN_SOURCE 700
#include "rows.h"
#include "synthesis.h"
#include <pthread.h>
#include <sched.h>
#include <setjmp.h>
#include <signal.h>
#include <stdlib.h>
#include <sys/time.h>

enum { THREADS = 8, TOKENS = 64, PLACES = 64, TAKEN = 16, STOPS = 400, LEAST = 3 };

/* What a thread works with, and what it saw. */
struct job {
    struct synth_queue end;
    uint64_t rounds, full, faults;
};

/* Takes a token and puts it back. */
static void *go_round(void *given)
{
    struct job *job = (struct job *)given;
    for (uint64_t done = 0; done < job->rounds;) {
        uint64_t token = 0;
        synth_code code = synth_queue_take(&job->end, &token, UINT32_MAX);
        if (code == SYNTH_EMPTY) {
            sched_yield();
            continue;
        }
        job->faults += code != SYNTH_OK || token < 1 || token > TOKENS;
        code = synth_queue_put(&job->end, &token, 1, UINT32_MAX);
        while (code == SYNTH_FULL) {
            job->full++;
            code = synth_queue_put(&job->end, &token, 1, UINT32_MAX);
        }
        job->faults += code != SYNTH_OK;
        done++;
    }
    return NULL;
}

static void claim_queue_is_never_full(uint64_t rounds)
{
    static struct job jobs[THREADS];
    struct synth_queue last = SYNTH_QUEUE_INIT;
    struct synth_queue_totals totals;
    pthread_t threads[THREADS];
    uint64_t left[PLACES], seen = 0;
    ROW(synth_queue_new(PLACES, 0, &last), SYNTH_OK);
    for (uint64_t token = 1; token <= TOKENS; token++) {
        ROW(synth_queue_try_put(&last, &token, 1, NULL), SYNTH_OK);
    }
    for (int i = 0; i < THREADS; i++) {
        jobs[i].rounds = rounds / THREADS;
        ROW(synth_queue_split(&last, &jobs[i].end), SYNTH_OK);
        ROW(pthread_create(&threads[i], NULL, go_round, &jobs[i]), 0);
    }
    for (int i = 0; i < THREADS; i++) {
        ROW(pthread_join(threads[i], NULL), 0);
        ROW(synth_queue_join(&last, &jobs[i].end), SYNTH_OK);
        ROW(jobs[i].full, 0);
        ROW(jobs[i].faults, 0);
    }
    ROW(synth_queue_finish(&last, left, PLACES, &totals), SYNTH_OK);
    ROW(totals.left, TOKENS);
    for (size_t i = 0; i < totals.left; i++) {
        seen |= (uint64_t)1 << (left[i] - 1);
    }
    ROW(seen == UINT64_MAX, true);
}

static sigjmp_buf back;

static void leave(int number)
{
    siglongjmp(back, number);
}

/* Raises the signal once, after so many microseconds. */
static void start_timer(long microseconds)
{
    struct itimerval once = {{0, 0}, {0, 0}};
    once.it_value.tv_usec = microseconds;
    setitimer(ITIMER_REAL, &once, NULL);
}

static uint64_t tokens[TAKEN];

/* Takes tokens and puts them back until the signal comes. */
static void take_until_stopped(struct synth_batch *end, long microseconds)
{
    if (sigsetjmp(back, 1) != 0) {
        return;
    }
    start_timer(microseconds);
    for (;;) {
        size_t count = 0;
        if (synth_batch_try_take_some(end, tokens, TAKEN, &count, NULL) == SYNTH_OK) {
            (void)!synth_batch_try_put(end, tokens, count, NULL);
        }
    }
}

/* Whether a token that goes round by another end comes to a put that is FULL, with fewer items than places. */
static bool becomes_full(struct synth_batch *end)
{
    for (int round = 0; round < 3 * PLACES; round++) {
        uint64_t token = 0, items = 0;
        if (synth_batch_try_take_one(end, &token, NULL) != SYNTH_OK) {
            return false;
        }
        if (synth_batch_try_put(end, &token, 1, NULL) == SYNTH_FULL) {
            synth_batch_len(end, &items);
            return items < PLACES;
        }
    }
    return false;
}

/* The end that is stopped is broken. It is never used again, nor is its memory given back. */
static bool stopped_taker_keeps_places(struct synth_batch *stopped, long microseconds)
{
    struct synth_batch end = SYNTH_BATCH_INIT;
    uint64_t room[PLACES];
    bool is_full;
    for (int i = 0; i < TAKEN; i++) {
        tokens[i] = (uint64_t)i + 1;
    }
    ROW(synth_batch_new(PLACES, &end), SYNTH_OK);
    ROW(synth_batch_try_put(&end, tokens, TAKEN, NULL), SYNTH_OK);
    ROW(synth_batch_try_put(&end, tokens, TAKEN, NULL), SYNTH_OK);
    ROW(synth_batch_split(&end, stopped), SYNTH_OK);
    take_until_stopped(stopped, microseconds);
    is_full = becomes_full(&end);
    ROW(synth_batch_abandon(&end, room, PLACES, NULL), SYNTH_OK);
    return is_full;
}

/* How often a taker is stopped: never under ThreadSanitizer, which keeps signals back until the loop has ended. */
static uint64_t stops_of(uint64_t rounds)
{
#ifdef SYNTH_WATCHED_
    (void)rounds;
    return 0;
#else
    const uint64_t wanted = rounds / 50000 * 100;
    return wanted < STOPS ? wanted : (uint64_t)STOPS;
#endif
}

int main(int count, char **words)
{
    const uint64_t rounds = count > 1 ? strtoull(words[1], NULL, 10) : 200000;
    static struct synth_batch stopped[STOPS];
    static struct sigaction action;
    const uint64_t stops = stops_of(rounds);
    int kept = 0;
    claim_queue_is_never_full(rounds);
    action.sa_handler = leave;
    sigemptyset(&action.sa_mask);
    ROW(sigaction(SIGALRM, &action, NULL), 0);
    for (uint64_t i = 0; i < stops && kept < LEAST; i++) {
        kept += stopped_taker_keeps_places(&stopped[i], 50 + (long)i % 97);
    }
    ROW(kept, stops > 0 ? LEAST : 0);
    return rows_end("tokens");
}
