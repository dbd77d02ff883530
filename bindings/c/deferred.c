/*
 * Eight top halves, each in a thread of its own, defer procedures by one chain: `deferred [NOTES]`, 1,250,000 notes of
 * each where no number is given. A bottom half is whichever of them runs notes at the time. It counts in plain memory,
 * with no lock: each note is run once, those of one top half in its order, and no two at once. Prints one line. Status
 * 1: a note was lost, came twice, or came beside another.
 */
#include "synthesis.h"
#include <pthread.h>
#include <sched.h>
#include <stdio.h>
#include <stdlib.h>

enum { TOP_HALVES = 8, NUMBERS = 1 << 13 };

/* What the procedures work on, without a lock. */
static struct {
    unsigned long run, at_fault;
    uint16_t next[TOP_HALVES];
    int inside;
} bottom;

static unsigned long notes;
static struct synth_chain ends[TOP_HALVES];

static void must(synth_code code, const char *what)
{
    if (code != SYNTH_OK) {
        fprintf(stderr, "deferred: %s: code %d\n", what, (int)code);
        exit(1);
    }
}

/* The procedure of a note, which has the number of its top half and a number that goes round. */
static void procedure(uint16_t note)
{
    int top_half = note / NUMBERS;
    uint16_t number = note % NUMBERS;
    if (bottom.inside++ != 0 || number != bottom.next[top_half]) {
        bottom.at_fault++;
    }
    bottom.next[top_half] = (uint16_t)((number + 1) % NUMBERS);
    bottom.run++;
    bottom.inside--;
}

static void run_notes(struct synth_chain *end)
{
    uint16_t note;
    synth_code code;
    while ((code = synth_chain_next(end, &note)) != SYNTH_OK) {
        if (code == SYNTH_NOTE) {
            procedure(note);
        } else if (code != SYNTH_AGAIN) {
            must(code, "next");
        }
    }
}

static void *defer_all(void *given)
{
    int top_half = (int)((struct synth_chain *)given - ends);
    unsigned long next = 0;
    while (next < notes) {
        uint16_t note = (uint16_t)(top_half * NUMBERS + (int)(next % NUMBERS));
        synth_code code = synth_chain_try_chain(&ends[top_half], note, NULL);
        if (code == SYNTH_RUN) {
            next++;
            run_notes(&ends[top_half]);
        } else if (code == SYNTH_LEFT) {
            next++;
        } else if (code == SYNTH_FULL) {
            sched_yield();
        } else if (code != SYNTH_LOST) {
            must(code, "chain");
        }
    }
    return NULL;
}

int main(int count, char **words)
{
    pthread_t threads[TOP_HALVES];
    struct synth_chain_totals totals;
    notes = count > 1 ? strtoul(words[1], NULL, 10) : 1250000;
    must(synth_chain_new(0, &ends[0]), "new");
    for (int i = 1; i < TOP_HALVES; i++) {
        must(synth_chain_split(&ends[0], &ends[i]), "split");
    }
    for (int i = 0; i < TOP_HALVES; i++) {
        must(pthread_create(&threads[i], NULL, defer_all, &ends[i]), "thread");
    }
    for (int i = 0; i < TOP_HALVES; i++) {
        pthread_join(threads[i], NULL);
    }
    for (int i = 1; i < TOP_HALVES; i++) {
        must(synth_chain_join(&ends[0], &ends[i]), "join");
    }
    must(synth_chain_finish(&ends[0], &totals), "finish");
    bool is_right = totals.put == totals.run && totals.run == bottom.run && bottom.run == TOP_HALVES * notes
        && bottom.at_fault == 0;
    printf("deferred: %lu notes by %d threads, %s\n", bottom.run, TOP_HALVES, is_right ? "each once" : "at fault");
    return is_right ? 0 : 1;
}
