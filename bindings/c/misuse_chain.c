/*
 * What each call of a chain answers to a caller that is wrong, or that has to be refused, a row each; and that a
 * refusal changes nothing.
 */
#include "rows.h"
#include "synthesis.h"

enum { PLACES = 32, MARK = 77 };

static struct synth_chain none;
static struct synth_chain_totals closed;
static uint16_t note;
static struct synth_positions at = {MARK, MARK};

/* Nothing was written by the refused calls since these were set. */
static void set_marks(void)
{
    note = MARK;
    closed.put = closed.run = MARK;
}

static void marks_stand(void)
{
    ROW(note, MARK);
    ROW(closed.put == MARK && closed.run == MARK, true);
}

/* The code of a try, and the positions that it reports: none but after FULL, of one thread. */
static void is_chained(synth_code have, synth_code code, uint64_t head, uint64_t tail)
{
    ROW(have, code);
    ROW(at.head, code == SYNTH_FULL ? head : (uint64_t)MARK);
    ROW(at.tail, code == SYNTH_FULL ? tail : (uint64_t)MARK);
    at.head = at.tail = MARK;
}

static void empty_handles(void)
{
    struct synth_chain full = SYNTH_CHAIN_INIT, other = SYNTH_CHAIN_INIT;
    set_marks();
    ROW(synth_chain_new(0, &full), SYNTH_OK);
    ROW(synth_chain_split(&none, &other), SYNTH_EMPTY_HANDLE);
    ROW(other.full, false);
    ROW(synth_chain_join(&none, &full), SYNTH_EMPTY_HANDLE);
    ROW(synth_chain_join(&full, &none), SYNTH_EMPTY_HANDLE);
    is_chained(synth_chain_try_chain(&none, 1, &at), SYNTH_EMPTY_HANDLE, 0, 0);
    ROW(synth_chain_next(&none, &note), SYNTH_EMPTY_HANDLE);
    ROW(synth_chain_finish(&none, &closed), SYNTH_EMPTY_HANDLE);
    ROW(synth_chain_free(&none), SYNTH_EMPTY_HANDLE);
    marks_stand();
    ROW(synth_chain_free(&full), SYNTH_OK);
    ROW(synth_chain_free(&full), SYNTH_EMPTY_HANDLE);
}

static void full_handles(void)
{
    struct synth_chain a = SYNTH_CHAIN_INIT, b = SYNTH_CHAIN_INIT, other = SYNTH_CHAIN_INIT;
    ROW(synth_chain_new(5, &a), SYNTH_OK);
    ROW(synth_chain_new(5, &a), SYNTH_FULL_HANDLE);
    ROW(synth_chain_split(&a, &b), SYNTH_OK);
    ROW(synth_chain_split(&a, &b), SYNTH_FULL_HANDLE);
    ROW(synth_chain_new(5, &other), SYNTH_OK);
    ROW(synth_chain_join(&a, &other), SYNTH_OTHER_OBJECT);
    ROW(synth_chain_join(&other, &b), SYNTH_OTHER_OBJECT);
    ROW(synth_chain_finish(&other, &closed), SYNTH_OK);
    ROW(closed.put == 0 && closed.run == 0, true);
    set_marks();
    ROW(synth_chain_finish(&a, &closed), SYNTH_OPEN);
    marks_stand();
    ROW(synth_chain_join(&a, &b), SYNTH_OK);
    ROW(synth_chain_join(&a, &b), SYNTH_EMPTY_HANDLE);
    ROW(synth_chain_finish(&a, &closed), SYNTH_OK);
    ROW(synth_chain_finish(&a, &closed), SYNTH_EMPTY_HANDLE);
}

/* The first note makes its handle run notes; the others are left to it, and come in order. */
static void notes_in_order(void)
{
    struct synth_chain a = SYNTH_CHAIN_INIT, b = SYNTH_CHAIN_INIT;
    ROW(synth_chain_new(7, &a), SYNTH_OK);
    ROW(synth_chain_split(&a, &b), SYNTH_OK);
    set_marks();
    ROW(synth_chain_next(&a, &note), SYNTH_NOT_RUNNING);
    ROW(synth_chain_next(&b, &note), SYNTH_NOT_RUNNING);
    marks_stand();
    is_chained(synth_chain_try_chain(&a, 10, &at), SYNTH_RUN, 0, 0);
    is_chained(synth_chain_try_chain(&b, 20, &at), SYNTH_LEFT, 0, 0);
    is_chained(synth_chain_try_chain(&a, UINT16_MAX, &at), SYNTH_LEFT, 0, 0);
    ROW(synth_chain_next(&b, &note), SYNTH_NOT_RUNNING);
    ROW(synth_chain_next(&a, &note), SYNTH_NOTE);
    ROW(note, 10);
    ROW(synth_chain_next(&a, &note), SYNTH_NOTE);
    ROW(note, 20);
    is_chained(synth_chain_try_chain(&b, 0, &at), SYNTH_LEFT, 0, 0);
    ROW(synth_chain_next(&a, &note), SYNTH_NOTE);
    ROW(note, UINT16_MAX);
    ROW(synth_chain_next(&a, &note), SYNTH_NOTE);
    ROW(note, 0);
    set_marks();
    ROW(synth_chain_next(&a, &note), SYNTH_OK);
    ROW(synth_chain_next(&a, &note), SYNTH_NOT_RUNNING);
    marks_stand();
    /* The other handle may be the next to run notes. */
    is_chained(synth_chain_try_chain(&b, 30, &at), SYNTH_RUN, 0, 0);
    is_chained(synth_chain_try_chain(&a, 40, &at), SYNTH_LEFT, 0, 0);
    /* A join takes over what is to be run. */
    ROW(synth_chain_join(&a, &b), SYNTH_OK);
    set_marks();
    ROW(synth_chain_finish(&a, &closed), SYNTH_RUNNING);
    marks_stand();
    ROW(synth_chain_next(&a, &note), SYNTH_NOTE);
    ROW(note, 30);
    ROW(synth_chain_next(&a, &note), SYNTH_NOTE);
    ROW(note, 40);
    ROW(synth_chain_finish(&a, &closed), SYNTH_RUNNING);
    ROW(synth_chain_next(&a, &note), SYNTH_OK);
    ROW(synth_chain_finish(&a, &closed), SYNTH_OK);
    ROW(closed.put == 6 && closed.run == 6, true);
}

/* A chain has room for 32 notes, and no positions after 4,294,967,294. */
static void full_and_spent(void)
{
    struct synth_chain a = SYNTH_CHAIN_INIT;
    ROW(synth_chain_new(100, &a), SYNTH_OK);
    for (uint16_t i = 0; i < PLACES; i++) {
        is_chained(synth_chain_try_chain(&a, i, &at), i ? SYNTH_LEFT : SYNTH_RUN, 0, 0);
    }
    is_chained(synth_chain_try_chain(&a, 99, &at), SYNTH_FULL, 100 + PLACES, 100);
    ROW(synth_chain_next(&a, &note), SYNTH_NOTE);
    is_chained(synth_chain_try_chain(&a, 99, &at), SYNTH_LEFT, 0, 0);
    for (uint16_t i = 1; i < PLACES; i++) {
        ROW(synth_chain_next(&a, &note), SYNTH_NOTE);
        ROW(note, i);
    }
    ROW(synth_chain_next(&a, &note), SYNTH_NOTE);
    ROW(note, 99);
    /* Three notes were chained after the last look at the gate, so it is looked at once more. */
    synth_code code = synth_chain_next(&a, &note);
    ROW(code == SYNTH_AGAIN || code == SYNTH_OK, true);
    if (code == SYNTH_AGAIN) {
        ROW(synth_chain_next(&a, &note), SYNTH_OK);
    }
    ROW(synth_chain_finish(&a, &closed), SYNTH_OK);
    ROW(closed.put == PLACES + 1 && closed.run == PLACES + 1, true);
    ROW(synth_chain_new(UINT32_MAX - 2, &a), SYNTH_OK);
    is_chained(synth_chain_try_chain(&a, 1, &at), SYNTH_RUN, 0, 0);
    is_chained(synth_chain_try_chain(&a, 2, &at), SYNTH_LEFT, 0, 0);
    is_chained(synth_chain_try_chain(&a, 3, &at), SYNTH_SPENT, 0, 0);
    ROW(synth_chain_free(&a), SYNTH_OK);
}

/* A handle that was freed and not joined: no close succeeds, and the last free ends the chain. */
static void freed_handles(void)
{
    struct synth_chain a = SYNTH_CHAIN_INIT, b = SYNTH_CHAIN_INIT;
    ROW(synth_chain_new(0, &a), SYNTH_OK);
    ROW(synth_chain_split(&a, &b), SYNTH_OK);
    is_chained(synth_chain_try_chain(&b, 4, &at), SYNTH_RUN, 0, 0);
    ROW(synth_chain_free(&b), SYNTH_OK);
    /* Nobody runs notes any more. */
    is_chained(synth_chain_try_chain(&a, 5, &at), SYNTH_LEFT, 0, 0);
    set_marks();
    ROW(synth_chain_next(&a, &note), SYNTH_NOT_RUNNING);
    ROW(synth_chain_finish(&a, &closed), SYNTH_OPEN);
    marks_stand();
    ROW(a.full, true);
    ROW(synth_chain_free(&a), SYNTH_OK);
    ROW(a.full, false);
}

int main(void)
{
    empty_handles();
    full_handles();
    notes_in_order();
    full_and_spent();
    freed_handles();
    return rows_end("misuse_chain");
}
