/*
 * What each call of thread elements answers to a caller that is wrong, or that has to be refused, a row each; and that
 * a refusal changes nothing.
 */
#include "rows.h"
#include "synthesis.h"
#include <string.h>

enum { SPLITS = 64, ELEMENTS = 64, PROCESSORS = 8, WAITS = 16, SIGNALS = 16, ALL = 255, MARK = 77 };

static const uint32_t last_first = UINT32_MAX - ELEMENTS;
static struct synth_hand none;
static struct synth_hand_totals places;
static uint32_t element, head, ticket, started, signals;
static uint32_t tail = MARK, new_head = MARK, notifies = MARK;
static struct synth_element_state found = {MARK, true, false};
static uint64_t steps;
static bool held, served, was_clear, parked, raised;

/* Nothing was written by the refused calls since these were set. */
static void set_marks(void)
{
    element = head = ticket = started = signals = MARK;
    steps = MARK;
    held = served = was_clear = parked = raised = true;
    memset(&places, 5, sizeof places);
}

static void marks_stand(void)
{
    ROW(element == MARK && head == MARK && ticket == MARK && started == MARK && signals == MARK, true);
    ROW(steps, MARK);
    ROW(held && served && was_clear && parked && raised, true);
    ROW(places.place[0].kind == 0x05050505 && places.pc[63] == 0x0505050505050505, true);
    ROW(places.stops, 0x0505050505050505);
}

/* The codes of tries, and what they report of others: those of one thread are never LOST. */
static void taken(synth_code have, synth_code code)
{
    ROW(have, code);
    ROW(tail, MARK);
}

static void moved(synth_code have, synth_code code, uint32_t found)
{
    ROW(have, code);
    ROW(new_head, MARK);
    ROW(notifies, code == SYNTH_MOVED ? found : (uint32_t)MARK);
    notifies = MARK;
}

static void state(synth_code have, synth_code code)
{
    ROW(have, code);
    ROW(found.pending == MARK && found.is_stopping && !found.is_parked, true);
}

/* A place at the table's end. */
static void is_at(uint32_t which, uint32_t kind, uint32_t number)
{
    ROW(places.place[which].kind, kind);
    ROW(places.place[which].number, number);
}

/* Each call that takes an element of this number and no other number, but those that look at the hand alone. */
static void of_element(struct synth_hand *hand, uint32_t number, synth_code code)
{
    ROW(synth_hand_pc(hand, number, &steps), code);
    ROW(synth_hand_step_done(hand, number, &steps), code);
    moved(synth_hand_try_ready(hand, number, &new_head), code, 0);
    moved(synth_hand_try_retire(hand, number, &new_head), code, 0);
    moved(synth_hand_try_wait(hand, number, 0, &new_head, &notifies), code, 0);
    moved(synth_hand_try_wait_at(hand, number, 0, 0, &new_head, &notifies), code, 0);
    moved(synth_hand_try_wait_at(hand, number, 0, MARK, &new_head, &notifies), code, 0);
    ROW(synth_hand_on(hand, 0, number), code);
    state(synth_hand_try_park(hand, number, &parked, &found), code);
    state(synth_hand_try_deliver(hand, number, &signals, &found), code);
}

static void of_any_element(struct synth_hand *hand, uint32_t number, synth_code code)
{
    ROW(synth_hand_holds(hand, number, &held), code);
    ROW(synth_hand_stop(hand, number, &was_clear), code);
    state(synth_hand_try_start(hand, number, &started, &found), code);
    ROW(synth_hand_signal(hand, number, 0, &raised), code);
    ROW(synth_hand_pending(hand, number, &signals), code);
}

static void of_wait(struct synth_hand *hand, uint32_t wait, synth_code code)
{
    taken(synth_hand_try_wake(hand, wait, &element, &tail), code);
    taken(synth_hand_try_wake_before(hand, wait, UINT32_MAX, &element, &tail), code);
    ROW(synth_hand_notify(hand, wait, &head), code);
    ROW(synth_hand_ticket(hand, wait, &ticket), code);
    moved(synth_hand_try_wait(hand, 0, wait, &new_head, &notifies), code, 0);
    moved(synth_hand_try_wait_at(hand, 0, wait, 0, &new_head, &notifies), code, 0);
}

static void of_processor(struct synth_hand *hand, uint32_t processor, synth_code code)
{
    ROW(synth_hand_serves(hand, processor, &served), code);
    ROW(synth_hand_on_processor(hand, processor, &element), code);
    ROW(synth_hand_on(hand, processor, 0), code);
    ROW(synth_hand_off(hand, processor, &element), code);
}

static void empty_handles(void)
{
    struct synth_hand full = SYNTH_HAND_INIT, other = SYNTH_HAND_INIT;
    set_marks();
    ROW(synth_hand_new(0, &full), SYNTH_OK);
    ROW(synth_hand_split(&none, 0, &other), SYNTH_EMPTY_HANDLE);
    ROW(synth_hand_split(&none, ALL + 1, &full), SYNTH_EMPTY_HANDLE);
    ROW(other.full, false);
    ROW(synth_hand_join(&none, &full), SYNTH_EMPTY_HANDLE);
    ROW(synth_hand_join(&full, &none), SYNTH_EMPTY_HANDLE);
    of_element(&none, 0, SYNTH_EMPTY_HANDLE);
    of_element(&none, ELEMENTS, SYNTH_EMPTY_HANDLE);
    of_any_element(&none, ELEMENTS, SYNTH_EMPTY_HANDLE);
    of_wait(&none, WAITS, SYNTH_EMPTY_HANDLE);
    of_processor(&none, PROCESSORS, SYNTH_EMPTY_HANDLE);
    taken(synth_hand_try_next(&none, &element, &tail), SYNTH_EMPTY_HANDLE);
    taken(synth_hand_try_free(&none, &element, &tail), SYNTH_EMPTY_HANDLE);
    ROW(synth_hand_finish(&none, &places), SYNTH_EMPTY_HANDLE);
    ROW(synth_hand_free(&none), SYNTH_EMPTY_HANDLE);
    marks_stand();
    ROW(synth_hand_free(&full), SYNTH_OK);
    ROW(synth_hand_free(&full), SYNTH_EMPTY_HANDLE);
}

static void full_handles(void)
{
    struct synth_hand a = SYNTH_HAND_INIT, b = SYNTH_HAND_INIT, other = SYNTH_HAND_INIT;
    ROW(synth_hand_new(5, &a), SYNTH_OK);
    ROW(synth_hand_new(5, &a), SYNTH_FULL_HANDLE);
    ROW(synth_hand_new(UINT32_MAX, &a), SYNTH_FULL_HANDLE);
    ROW(synth_hand_split(&a, ALL, &b), SYNTH_OK);
    ROW(synth_hand_split(&a, 0, &b), SYNTH_FULL_HANDLE);
    ROW(synth_hand_split(&a, ALL + 1, &b), SYNTH_FULL_HANDLE);
    ROW(synth_hand_new(5, &other), SYNTH_OK);
    ROW(synth_hand_join(&a, &other), SYNTH_OTHER_OBJECT);
    ROW(synth_hand_join(&other, &b), SYNTH_OTHER_OBJECT);
    ROW(synth_hand_finish(&other, &places), SYNTH_OK);
    set_marks();
    ROW(synth_hand_finish(&a, &places), SYNTH_OPEN);
    ROW(synth_hand_finish(&b, &places), SYNTH_OPEN);
    marks_stand();
    ROW(synth_hand_join(&a, &b), SYNTH_OK);
    ROW(synth_hand_join(&a, &b), SYNTH_EMPTY_HANDLE);
    ROW(synth_hand_finish(&a, &places), SYNTH_OK);
    ROW(synth_hand_finish(&a, &places), SYNTH_EMPTY_HANDLE);
    ROW(places.stops == 0 && places.pc[0] == 0 && places.pending[63] == 0, true);
    is_at(0, SYNTH_PLACE_FREE, 0);
    is_at(63, SYNTH_PLACE_FREE, 0);
}

/* Numbers out of range change nothing. */
static void bad_numbers(void)
{
    struct synth_hand hand = SYNTH_HAND_INIT, other = SYNTH_HAND_INIT;
    ROW(synth_hand_new(last_first + 1, &hand), SYNTH_BAD_NUMBER);
    ROW(synth_hand_new(UINT32_MAX, &hand), SYNTH_BAD_NUMBER);
    ROW(hand.full, false);
    ROW(synth_hand_new(last_first, &hand), SYNTH_OK);
    taken(synth_hand_try_free(&hand, &element, &tail), SYNTH_OK);
    ROW(element, 0);
    set_marks();
    of_element(&hand, ELEMENTS, SYNTH_BAD_NUMBER);
    of_element(&hand, UINT32_MAX, SYNTH_BAD_NUMBER);
    of_any_element(&hand, ELEMENTS, SYNTH_BAD_NUMBER);
    of_any_element(&hand, UINT32_MAX, SYNTH_BAD_NUMBER);
    of_wait(&hand, WAITS, SYNTH_BAD_NUMBER);
    of_wait(&hand, UINT32_MAX, SYNTH_BAD_NUMBER);
    of_processor(&hand, PROCESSORS, SYNTH_BAD_NUMBER);
    of_processor(&hand, UINT32_MAX, SYNTH_BAD_NUMBER);
    ROW(synth_hand_signal(&hand, 0, SIGNALS, &raised), SYNTH_BAD_NUMBER);
    ROW(synth_hand_signal(&hand, 0, UINT32_MAX, &raised), SYNTH_BAD_NUMBER);
    ROW(synth_hand_split(&hand, ALL + 1, &other), SYNTH_BAD_NUMBER);
    ROW(synth_hand_split(&hand, UINT32_MAX, &other), SYNTH_BAD_NUMBER);
    ROW(other.full, false);
    marks_stand();
    ROW(synth_hand_finish(&hand, &places), SYNTH_OK);
    ROW(places.stops == 0 && places.pc[0] == 0 && places.pending[0] == 0, true);
    is_at(0, SYNTH_PLACE_HELD, 0);
    is_at(1, SYNTH_PLACE_FREE, 0);
}

/* What a hand may do only with what it holds. */
static void not_held(void)
{
    struct synth_hand hand = SYNTH_HAND_INIT, other = SYNTH_HAND_INIT;
    ROW(synth_hand_new(0, &hand), SYNTH_OK);
    ROW(synth_hand_split(&hand, ALL, &other), SYNTH_OK);
    taken(synth_hand_try_free(&other, &element, &tail), SYNTH_OK);
    set_marks();
    of_element(&hand, 0, SYNTH_NOT_HELD);
    of_element(&hand, 63, SYNTH_NOT_HELD);
    marks_stand();
    ROW(synth_hand_holds(&hand, 0, &held), SYNTH_OK);
    ROW(held, false);
    ROW(synth_hand_holds(&other, 0, &held), SYNTH_OK);
    ROW(held, true);
    ROW(synth_hand_join(&hand, &other), SYNTH_OK);
    ROW(synth_hand_step_done(&hand, 0, &steps), SYNTH_OK);
    ROW(steps, 1);
    ROW(synth_hand_finish(&hand, &places), SYNTH_OK);
    ROW(places.pc[0], 1);
}

/* Processors: which hand serves them, and what is on them. */
static void processors(void)
{
    struct synth_hand hand = SYNTH_HAND_INIT, other = SYNTH_HAND_INIT, third = SYNTH_HAND_INIT;
    ROW(synth_hand_new(0, &hand), SYNTH_OK);
    ROW(synth_hand_split(&hand, 1u << 6 | 1u << 7, &other), SYNTH_OK);
    taken(synth_hand_try_free(&hand, &element, &tail), SYNTH_OK);
    taken(synth_hand_try_free(&hand, &element, &tail), SYNTH_OK);
    ROW(synth_hand_serves(&hand, 7, &served), SYNTH_OK);
    ROW(served, false);
    ROW(synth_hand_serves(&other, 7, &served), SYNTH_OK);
    ROW(served, true);
    set_marks();
    ROW(synth_hand_on(&hand, 7, 0), SYNTH_NOT_SERVED);
    ROW(synth_hand_on(&hand, 7, 5), SYNTH_NOT_HELD);
    ROW(synth_hand_off(&hand, 7, &element), SYNTH_NOT_SERVED);
    ROW(synth_hand_off(&hand, 0, &element), SYNTH_VACANT);
    ROW(synth_hand_on_processor(&hand, 0, &element), SYNTH_VACANT);
    ROW(synth_hand_on_processor(&hand, 7, &element), SYNTH_VACANT);
    marks_stand();
    ROW(synth_hand_on(&hand, 0, 0), SYNTH_OK);
    set_marks();
    ROW(synth_hand_on(&hand, 0, 1), SYNTH_BUSY);
    ROW(synth_hand_on(&hand, 0, 0), SYNTH_NOT_HELD);
    moved(synth_hand_try_ready(&hand, 0, &new_head), SYNTH_NOT_HELD, 0);
    ROW(synth_hand_split(&hand, 1, &third), SYNTH_BUSY);
    ROW(synth_hand_split(&hand, 1 | 1u << 7, &third), SYNTH_NOT_SERVED);
    ROW(synth_hand_split(&hand, 1u << 7, &third), SYNTH_NOT_SERVED);
    ROW(third.full, false);
    marks_stand();
    ROW(synth_hand_on_processor(&hand, 0, &element), SYNTH_OK);
    ROW(element, 0);
    ROW(synth_hand_pc(&hand, 0, &steps), SYNTH_OK);
    ROW(steps, 0);
    ROW(synth_hand_step_done(&hand, 0, &steps), SYNTH_OK);
    ROW(steps, 1);
    ROW(synth_hand_pc(&hand, 0, &steps), SYNTH_OK);
    ROW(steps, 1);
    ROW(synth_hand_pc(&other, 0, &steps), SYNTH_NOT_HELD);
    ROW(synth_hand_split(&hand, 1u << 1, &third), SYNTH_OK);

    /* A join brings what is on the processors. */
    ROW(synth_hand_join(&other, &hand), SYNTH_OK);
    ROW(synth_hand_join(&other, &third), SYNTH_OK);
    ROW(synth_hand_on(&other, 7, 1), SYNTH_OK);
    ROW(synth_hand_off(&other, 0, &element), SYNTH_OK);
    ROW(element, 0);
    ROW(synth_hand_off(&other, 0, &element), SYNTH_VACANT);
    ROW(synth_hand_finish(&other, &places), SYNTH_OK);
    is_at(0, SYNTH_PLACE_HELD, 0);
    is_at(1, SYNTH_PLACE_PROCESSOR, 7);
    is_at(2, SYNTH_PLACE_FREE, 0);
    ROW(places.pc[0] == 1 && places.pc[1] == 0, true);
}

/* The ready ring and the free elements, in their order. */
static void queues_in_order(void)
{
    struct synth_hand hand = SYNTH_HAND_INIT;
    ROW(synth_hand_new(9, &hand), SYNTH_OK);
    set_marks();
    taken(synth_hand_try_next(&hand, &element, &tail), SYNTH_EMPTY);
    taken(synth_hand_try_wake(&hand, 3, &element, &tail), SYNTH_EMPTY);
    marks_stand();
    for (uint32_t i = 0; i < ELEMENTS; i++) {
        taken(synth_hand_try_free(&hand, &element, &tail), SYNTH_OK);
        ROW(element, i);
    }
    element = MARK;
    taken(synth_hand_try_free(&hand, &element, &tail), SYNTH_EMPTY);
    ROW(element, MARK);
    for (uint32_t i = ELEMENTS; i-- > 0;) {
        moved(synth_hand_try_ready(&hand, i, &new_head), SYNTH_OK, 0);
        moved(synth_hand_try_ready(&hand, i, &new_head), SYNTH_NOT_HELD, 0);
    }
    taken(synth_hand_try_next(&hand, &element, &tail), SYNTH_OK);
    ROW(element, 63);
    moved(synth_hand_try_retire(&hand, 63, &new_head), SYNTH_OK, 0);
    taken(synth_hand_try_next(&hand, &element, &tail), SYNTH_OK);
    ROW(element, 62);
    moved(synth_hand_try_retire(&hand, 62, &new_head), SYNTH_OK, 0);
    taken(synth_hand_try_free(&hand, &element, &tail), SYNTH_OK);
    ROW(element, 63);
    ROW(synth_hand_finish(&hand, &places), SYNTH_OK);
    is_at(63, SYNTH_PLACE_HELD, 0);
    is_at(62, SYNTH_PLACE_FREE, 0);
    is_at(61, SYNTH_PLACE_READY, 0);
    is_at(0, SYNTH_PLACE_READY, 0);
}

/* The last positions: SPENT is reported ahead of MOVED. */
static void spent_positions(void)
{
    struct synth_hand hand = SYNTH_HAND_INIT;
    ROW(synth_hand_new(last_first, &hand), SYNTH_OK);
    taken(synth_hand_try_free(&hand, &element, &tail), SYNTH_OK);
    moved(synth_hand_try_retire(&hand, 0, &new_head), SYNTH_SPENT, 0);
    for (int i = 0; i < ELEMENTS; i++) {
        moved(synth_hand_try_ready(&hand, 0, &new_head), SYNTH_OK, 0);
        taken(synth_hand_try_next(&hand, &element, &tail), SYNTH_OK);
        moved(synth_hand_try_wait(&hand, 0, 15, &new_head, &notifies), SYNTH_OK, 0);
        taken(synth_hand_try_wake(&hand, 15, &element, &tail), SYNTH_OK);
    }
    moved(synth_hand_try_ready(&hand, 0, &new_head), SYNTH_SPENT, 0);
    moved(synth_hand_try_wait(&hand, 0, 15, &new_head, &notifies), SYNTH_SPENT, 0);
    moved(synth_hand_try_wait_at(&hand, 0, 15, MARK, &new_head, &notifies), SYNTH_SPENT, 0);
    moved(synth_hand_try_wait(&hand, 0, 14, &new_head, &notifies), SYNTH_OK, 0);
    ROW(synth_hand_notify(&hand, 15, &head), SYNTH_OK);
    ROW(head, UINT32_MAX);
    taken(synth_hand_try_wake_before(&hand, 15, head, &element, &tail), SYNTH_ALL_WOKEN);
    ROW(synth_hand_finish(&hand, &places), SYNTH_OK);
    is_at(0, SYNTH_PLACE_WAIT, 14);
}

/* Tickets, and a wake of all that waited before the notify. */
static void waits(void)
{
    struct synth_hand hand = SYNTH_HAND_INIT;
    ROW(synth_hand_new(100, &hand), SYNTH_OK);
    for (int i = 0; i < 4; i++) {
        taken(synth_hand_try_free(&hand, &element, &tail), SYNTH_OK);
    }
    ROW(synth_hand_ticket(&hand, 2, &ticket), SYNTH_OK);
    ROW(ticket, 0);
    moved(synth_hand_try_wait_at(&hand, 0, 2, 1, &new_head, &notifies), SYNTH_MOVED, 0);
    moved(synth_hand_try_wait_at(&hand, 0, 2, ticket, &new_head, &notifies), SYNTH_OK, 0);
    moved(synth_hand_try_wait_at(&hand, 1, 2, ticket, &new_head, &notifies), SYNTH_OK, 0);
    ROW(synth_hand_notify(&hand, 2, &head), SYNTH_OK);
    ROW(head, 102);
    moved(synth_hand_try_wait_at(&hand, 2, 2, ticket, &new_head, &notifies), SYNTH_MOVED, 1);
    moved(synth_hand_try_wait_at(&hand, 2, 2, UINT32_MAX, &new_head, &notifies), SYNTH_MOVED, 1);
    moved(synth_hand_try_wait_at(&hand, 2, 3, ticket, &new_head, &notifies), SYNTH_OK, 0);
    moved(synth_hand_try_wait(&hand, 3, 2, &new_head, &notifies), SYNTH_OK, 0);
    ROW(synth_hand_ticket(&hand, 2, &ticket), SYNTH_OK);
    ROW(ticket, 1);

    /* The notify's two are woken; the one that came after it waits. */
    taken(synth_hand_try_wake_before(&hand, 2, head, &element, &tail), SYNTH_OK);
    ROW(element, 0);
    taken(synth_hand_try_wake_before(&hand, 2, head, &element, &tail), SYNTH_OK);
    ROW(element, 1);
    set_marks();
    taken(synth_hand_try_wake_before(&hand, 2, 102, &element, &tail), SYNTH_ALL_WOKEN);
    taken(synth_hand_try_wake_before(&hand, 2, 0, &element, &tail), SYNTH_ALL_WOKEN);
    taken(synth_hand_try_wake_before(&hand, 3, 100, &element, &tail), SYNTH_ALL_WOKEN);
    marks_stand();
    ROW(synth_hand_notify(&hand, 2, &head), SYNTH_OK);
    ROW(head, 103);
    taken(synth_hand_try_wake(&hand, 2, &element, &tail), SYNTH_OK);
    ROW(element, 3);
    taken(synth_hand_try_wake_before(&hand, 2, head, &element, &tail), SYNTH_ALL_WOKEN);
    taken(synth_hand_try_wake_before(&hand, 2, head + 1, &element, &tail), SYNTH_EMPTY);
    ROW(synth_hand_ticket(&hand, 2, &ticket), SYNTH_OK);
    ROW(ticket, 2);
    ROW(synth_hand_finish(&hand, &places), SYNTH_OK);
    is_at(0, SYNTH_PLACE_HELD, 0);
    is_at(2, SYNTH_PLACE_WAIT, 3);
    is_at(3, SYNTH_PLACE_HELD, 0);
    is_at(4, SYNTH_PLACE_FREE, 0);
}

/* Stops, stop cells and starts. */
static void stops(void)
{
    struct synth_hand hand = SYNTH_HAND_INIT;
    ROW(synth_hand_new(0, &hand), SYNTH_OK);
    taken(synth_hand_try_free(&hand, &element, &tail), SYNTH_OK);
    state(synth_hand_try_park(&hand, 0, &parked, &found), SYNTH_OK);
    ROW(parked, false);
    state(synth_hand_try_start(&hand, 0, &started, &found), SYNTH_OK);
    ROW(started, SYNTH_START_NOT_STOPPED);
    ROW(synth_hand_stop(&hand, 0, &was_clear), SYNTH_OK);
    ROW(was_clear, true);
    ROW(synth_hand_stop(&hand, 0, &was_clear), SYNTH_OK);
    ROW(was_clear, false);
    state(synth_hand_try_start(&hand, 0, &started, &found), SYNTH_OK);
    ROW(started, SYNTH_START_CLEARED);
    ROW(synth_hand_stop(&hand, 0, &was_clear), SYNTH_OK);
    ROW(was_clear, true);
    state(synth_hand_try_park(&hand, 0, &parked, &found), SYNTH_OK);
    ROW(parked, true);
    state(synth_hand_try_park(&hand, 0, &parked, &found), SYNTH_NOT_HELD);
    moved(synth_hand_try_ready(&hand, 0, &new_head), SYNTH_NOT_HELD, 0);
    state(synth_hand_try_start(&hand, 0, &started, &found), SYNTH_OK);
    ROW(started, SYNTH_START_HELD);
    moved(synth_hand_try_ready(&hand, 0, &new_head), SYNTH_OK, 0);
    taken(synth_hand_try_free(&hand, &element, &tail), SYNTH_OK);
    ROW(synth_hand_stop(&hand, 1, &was_clear), SYNTH_OK);
    state(synth_hand_try_park(&hand, 1, &parked, &found), SYNTH_OK);
    ROW(synth_hand_stop(&hand, 63, &was_clear), SYNTH_OK);
    ROW(synth_hand_finish(&hand, &places), SYNTH_OK);
    is_at(0, SYNTH_PLACE_READY, 0);
    is_at(1, SYNTH_PLACE_STOPPED, 0);
    is_at(63, SYNTH_PLACE_FREE, 0);
    ROW(places.stops == (1ull << 1 | 1ull << 63), true);
}

/* Signals are sent wherever the element is, and delivered to who holds it. */
static void sent_signals(void)
{
    struct synth_hand hand = SYNTH_HAND_INIT;
    ROW(synth_hand_new(0, &hand), SYNTH_OK);
    ROW(synth_hand_signal(&hand, 0, 15, &raised), SYNTH_OK);
    ROW(raised, true);
    ROW(synth_hand_signal(&hand, 0, 15, &raised), SYNTH_OK);
    ROW(raised, false);
    ROW(synth_hand_signal(&hand, 0, 0, &raised), SYNTH_OK);
    ROW(raised, true);
    state(synth_hand_try_deliver(&hand, 0, &signals, &found), SYNTH_NOT_HELD);
    ROW(synth_hand_pending(&hand, 0, &signals), SYNTH_OK);
    ROW(signals, 0x8001);
    ROW(synth_hand_pending(&hand, 1, &signals), SYNTH_OK);
    ROW(signals, 0);
    ROW(synth_hand_pending(&hand, 0, NULL), SYNTH_OK);
    taken(synth_hand_try_free(&hand, &element, &tail), SYNTH_OK);
    ROW(synth_hand_stop(&hand, 0, &was_clear), SYNTH_OK);
    ROW(was_clear, true);
    state(synth_hand_try_deliver(&hand, 0, &signals, &found), SYNTH_OK);
    ROW(signals, 0x8001);
    state(synth_hand_try_deliver(&hand, 0, &signals, &found), SYNTH_OK);
    ROW(signals, 0);
    ROW(synth_hand_signal(&hand, 0, 4, &raised), SYNTH_OK);
    ROW(synth_hand_signal(&hand, 63, 15, &raised), SYNTH_OK);
    ROW(synth_hand_finish(&hand, &places), SYNTH_OK);
    ROW(places.pending[0] == 1u << 4 && places.pending[63] == 1u << 15 && places.pending[1] == 0, true);
    ROW(places.stops, 1);
}

/* Hands that were freed and not joined: what they held is nobody's, no close succeeds, and the last free ends it. */
static void freed_handles(void)
{
    struct synth_hand hand = SYNTH_HAND_INIT, one = SYNTH_HAND_INIT, two = SYNTH_HAND_INIT;
    ROW(synth_hand_new(0, &hand), SYNTH_OK);
    ROW(synth_hand_split(&hand, 1, &one), SYNTH_OK);
    ROW(synth_hand_split(&one, 0, &two), SYNTH_OK);
    taken(synth_hand_try_free(&one, &element, &tail), SYNTH_OK);
    ROW(synth_hand_on(&one, 0, 0), SYNTH_OK);
    ROW(synth_hand_free(&one), SYNTH_OK);
    set_marks();
    ROW(synth_hand_finish(&hand, &places), SYNTH_OPEN);
    marks_stand();
    moved(synth_hand_try_ready(&hand, 0, &new_head), SYNTH_NOT_HELD, 0);
    ROW(synth_hand_on(&hand, 0, 0), SYNTH_NOT_HELD);
    ROW(synth_hand_off(&hand, 0, &element), SYNTH_NOT_SERVED);
    ROW(synth_hand_free(&two), SYNTH_OK);
    ROW(synth_hand_finish(&hand, &places), SYNTH_OPEN);
    ROW(synth_hand_split(&hand, 0, &one), SYNTH_OK);
    ROW(synth_hand_join(&hand, &one), SYNTH_OK);
    ROW(synth_hand_finish(&hand, &places), SYNTH_OPEN);
    marks_stand();
    ROW(hand.full, true);
    taken(synth_hand_try_free(&hand, &element, &tail), SYNTH_OK);
    ROW(element, 1);
    ROW(synth_hand_on(&hand, 1, 1), SYNTH_OK);
    ROW(synth_hand_free(&hand), SYNTH_OK);
    ROW(hand.full, false);
    ROW(synth_hand_finish(&hand, &places), SYNTH_EMPTY_HANDLE);
}

/* The hand holds the element, whose stop bit is clear. */
static void is_held_by(struct synth_hand *hand, uint32_t number)
{
    ROW(synth_hand_holds(hand, number, &held), SYNTH_OK);
    ROW(held, true);
    state(synth_hand_try_park(hand, number, &parked, &found), SYNTH_OK);
    ROW(parked, false);
}

/* A give with handles or a number that are wrong. */
static void wrong_gives(struct synth_hand *from, struct synth_hand *to)
{
    static struct synth_hand other;
    ROW(synth_hand_give(&none, to, 0), SYNTH_EMPTY_HANDLE);
    ROW(synth_hand_give(from, &none, 0), SYNTH_EMPTY_HANDLE);
    ROW(synth_hand_give(&none, &other, 0), SYNTH_EMPTY_HANDLE);
    ROW(synth_hand_give(from, from, 0), SYNTH_EMPTY_HANDLE);
    ROW(synth_hand_give(from, from, ELEMENTS), SYNTH_EMPTY_HANDLE);
    ROW(synth_hand_give(&none, to, ELEMENTS), SYNTH_EMPTY_HANDLE);
    ROW(synth_hand_give(from, &none, ELEMENTS), SYNTH_EMPTY_HANDLE);
    ROW(synth_hand_give(from, to, ELEMENTS), SYNTH_BAD_NUMBER);
    ROW(synth_hand_give(from, to, UINT32_MAX), SYNTH_BAD_NUMBER);
    ROW(synth_hand_give(to, from, 0), SYNTH_NOT_HELD);
    ROW(synth_hand_give(from, to, 1), SYNTH_NOT_HELD);
    is_held_by(from, 0);
}

/* Gives from one hand to another. */
static void gives(void)
{
    struct synth_hand from = SYNTH_HAND_INIT, to = SYNTH_HAND_INIT;
    ROW(synth_hand_new(0, &from), SYNTH_OK);
    ROW(synth_hand_split(&from, 1u << 7, &to), SYNTH_OK);
    taken(synth_hand_try_free(&from, &element, &tail), SYNTH_OK);
    ROW(synth_hand_signal(&to, 0, 7, &raised), SYNTH_OK);
    ROW(synth_hand_step_done(&from, 0, &steps), SYNTH_OK);
    wrong_gives(&from, &to);
    ROW(synth_hand_on(&from, 3, 0), SYNTH_OK);
    ROW(synth_hand_give(&from, &to, 0), SYNTH_NOT_HELD);
    ROW(synth_hand_off(&from, 3, &element), SYNTH_OK);

    /* Somebody wants it stopped: the bit stays set. */
    ROW(synth_hand_stop(&to, 0, &was_clear), SYNTH_OK);
    ROW(synth_hand_give(&from, &to, 0), SYNTH_STOPPED);
    state(synth_hand_try_start(&to, 0, &started, &found), SYNTH_OK);
    ROW(started, SYNTH_START_CLEARED);
    is_held_by(&from, 0);

    ROW(synth_hand_give(&from, &to, 0), SYNTH_OK);
    is_held_by(&to, 0);
    ROW(synth_hand_give(&from, &to, 0), SYNTH_NOT_HELD);
    ROW(synth_hand_pc(&to, 0, &steps), SYNTH_OK);
    ROW(steps, 1);
    ROW(synth_hand_give(&to, &from, 0), SYNTH_OK);
    is_held_by(&from, 0);
    ROW(synth_hand_join(&to, &from), SYNTH_OK);
    ROW(synth_hand_finish(&to, &places), SYNTH_OK);
    is_at(0, SYNTH_PLACE_HELD, 0);
    ROW(places.stops == 0 && places.pc[0] == 1 && places.pending[0] == 1u << 7, true);
}

/* Gives to a hand of another table that has what only one hand of a table has. */
static void gives_to_strangers(void)
{
    struct synth_hand first = SYNTH_HAND_INIT, second = SYNTH_HAND_INIT, stranger = SYNTH_HAND_INIT;
    ROW(synth_hand_new(0, &first), SYNTH_OK);
    ROW(synth_hand_new(0, &stranger), SYNTH_OK);
    taken(synth_hand_try_free(&first, &element, &tail), SYNTH_OK);
    ROW(synth_hand_give(&first, &stranger, 0), SYNTH_OTHER_OBJECT);
    ROW(synth_hand_give(&first, &stranger, 1), SYNTH_NOT_HELD);
    ROW(synth_hand_give(&first, &stranger, ELEMENTS), SYNTH_BAD_NUMBER);
    is_held_by(&first, 0);

    /* One that serves no processor of the other one's. */
    ROW(synth_hand_split(&first, 0, &second), SYNTH_OK);
    ROW(synth_hand_give(&first, &second, 0), SYNTH_OK);
    taken(synth_hand_try_free(&stranger, &element, &tail), SYNTH_OK);
    ROW(synth_hand_give(&second, &stranger, 0), SYNTH_OTHER_OBJECT);
    ROW(synth_hand_on(&stranger, 5, 0), SYNTH_OK);
    ROW(synth_hand_stop(&second, 0, &was_clear), SYNTH_OK);
    ROW(synth_hand_give(&second, &stranger, 0), SYNTH_OTHER_OBJECT);
    ROW(synth_hand_finish(&stranger, &places), SYNTH_OK);
    is_at(0, SYNTH_PLACE_PROCESSOR, 5);
    ROW(places.stops, 0);
    ROW(synth_hand_join(&first, &second), SYNTH_OK);
    ROW(synth_hand_finish(&first, &places), SYNTH_OK);
    is_at(0, SYNTH_PLACE_HELD, 0);
    ROW(places.stops, 1);
}

/* A hand that is split off from the one before, again and again, can't be split in the end. */
static void split_often(void)
{
    static struct synth_hand chain[SPLITS];
    int last = 0;
    ROW(synth_hand_new(0, &chain[0]), SYNTH_OK);
    while (last < SPLITS - 1 && synth_hand_split(&chain[last], ALL, &chain[last + 1]) == SYNTH_OK) {
        last++;
    }
    ROW(last, 22);
    ROW(synth_hand_split(&chain[last], ALL, &chain[last + 1]), SYNTH_NO_SHARE);
    ROW(synth_hand_split(&chain[last], ALL + 1, &chain[last + 1]), SYNTH_BAD_NUMBER);
    ROW(synth_hand_split(&chain[0], 1, &chain[last + 1]), SYNTH_NOT_SERVED);
    ROW(chain[last + 1].full, false);
    ROW(synth_hand_split(&chain[0], 0, &chain[last + 1]), SYNTH_OK);
    ROW(synth_hand_join(&chain[last], &chain[last + 1]), SYNTH_OK);
    ROW(synth_hand_split(&chain[last], ALL, &chain[last + 1]), SYNTH_OK);
    for (int i = 1; i <= last + 1; i++) {
        ROW(synth_hand_join(&chain[0], &chain[i]), SYNTH_OK);
    }
    ROW(synth_hand_serves(&chain[0], 7, &served), SYNTH_OK);
    ROW(served, true);
    ROW(synth_hand_finish(&chain[0], &places), SYNTH_OK);
}

int main(void)
{
    empty_handles();
    full_handles();
    bad_numbers();
    not_held();
    processors();
    queues_in_order();
    spent_positions();
    waits();
    stops();
    sent_signals();
    gives();
    gives_to_strangers();
    freed_handles();
    split_often();
    return rows_end("misuse_hand");
}
