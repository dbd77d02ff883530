/* The calls of thread elements: see inline.h. Include synthesis.h. */
#ifndef SYNTHESIS_INLINE_HAND_H
#define SYNTHESIS_INLINE_HAND_H

#include "inline.h"

#ifdef __cplusplus
extern "C" {
#endif

/* What is left of a taking once it has its answer: the tail that was found, after LOST. */
SYNTH_CALL_ synth_code synth_hand_taken_(struct synth_raw_answer found, const uint32_t *element, uint32_t *tail)
{
    if (found.code == SYNTH_OK) {
        SYNTH_ACQUIRE_(SYNTH_ELEMENT_, *element);
        (void)element;
    } else if (tail && found.code == SYNTH_LOST) {
        *tail = found.tail;
    }
    return found.code;
}

/* What is left of a move: the head that was found, after LOST, and the notifies, after LOST and MOVED. */
SYNTH_CALL_ synth_code synth_hand_moved_(struct synth_raw_moved found, uint32_t *head, uint32_t *notifies)
{
    if (head && found.code == SYNTH_LOST) {
        *head = found.head;
    }
    if (notifies && (found.code == SYNTH_LOST || found.code == SYNTH_MOVED)) {
        *notifies = found.notifies;
    }
    return found.code;
}

/* What is left of a try at an element's state: the state that was found, after LOST. */
SYNTH_CALL_ synth_code synth_hand_state_(struct synth_raw_state found, struct synth_element_state *state)
{
    if (state && found.code == SYNTH_LOST) {
        state->pending = found.word & 0xffffu;
        state->is_stopping = (found.word >> 16 & 1u) != 0;
        state->is_parked = (found.word >> 17 & 1u) != 0;
    }
    return found.code;
}

SYNTH_CALL_ synth_code synth_hand_new(uint32_t first, struct synth_hand *hand)
{
    synth_linked_();
    return synth_raw_hand_new(first, hand);
}

SYNTH_CALL_ synth_code synth_hand_split(struct synth_hand *SYNTH_RESTRICT_ hand, uint32_t processors,
                                        struct synth_hand *SYNTH_RESTRICT_ other)
{
    return synth_raw_hand_split(hand, processors, other);
}

SYNTH_CALL_ synth_code synth_hand_join(struct synth_hand *SYNTH_RESTRICT_ hand,
                                       struct synth_hand *SYNTH_RESTRICT_ other)
{
    return synth_raw_hand_join(hand, other);
}

SYNTH_CALL_ synth_code synth_hand_holds(const struct synth_hand *hand, uint32_t element, bool *held)
{
    bool unused;
    return synth_raw_hand_holds(SYNTH_OF_(synth_hand, hand), element, held ? held : &unused);
}

SYNTH_CALL_ synth_code synth_hand_serves(const struct synth_hand *hand, uint32_t processor, bool *served)
{
    bool unused;
    return synth_raw_hand_serves(SYNTH_OF_(synth_hand, hand), processor, served ? served : &unused);
}

SYNTH_CALL_ synth_code synth_hand_on_processor(const struct synth_hand *hand, uint32_t processor, uint32_t *element)
{
    uint32_t unused;
    return synth_raw_hand_on_processor(SYNTH_OF_(synth_hand, hand), processor, element ? element : &unused);
}

SYNTH_CALL_ synth_code synth_hand_on(struct synth_hand *hand, uint32_t processor, uint32_t element)
{
    return synth_raw_hand_on(hand, processor, element);
}

SYNTH_CALL_ synth_code synth_hand_off(struct synth_hand *SYNTH_RESTRICT_ hand, uint32_t processor,
                                      uint32_t *SYNTH_RESTRICT_ element)
{
    uint32_t unused;
    return synth_raw_hand_off(hand, processor, element ? element : &unused);
}

SYNTH_CALL_ synth_code synth_hand_pc(const struct synth_hand *hand, uint32_t element, uint64_t *steps)
{
    uint64_t unused;
    return synth_raw_hand_pc(SYNTH_OF_(synth_hand, hand), element, steps ? steps : &unused);
}

SYNTH_CALL_ synth_code synth_hand_step_done(struct synth_hand *SYNTH_RESTRICT_ hand, uint32_t element,
                                            uint64_t *SYNTH_RESTRICT_ steps)
{
    uint64_t unused;
    return synth_raw_hand_step_done(hand, element, steps ? steps : &unused);
}

SYNTH_CALL_ synth_code synth_hand_try_next(struct synth_hand *SYNTH_RESTRICT_ hand,
                                           uint32_t *SYNTH_RESTRICT_ element, uint32_t *SYNTH_RESTRICT_ tail)
{
    uint32_t unused = 0;
    uint32_t *const to = element ? element : &unused;
    const struct synth_raw_answer found = synth_raw_hand_try_next(hand, to);
    return synth_hand_taken_(found, to, tail);
}

SYNTH_CALL_ synth_code synth_hand_try_free(struct synth_hand *SYNTH_RESTRICT_ hand,
                                           uint32_t *SYNTH_RESTRICT_ element, uint32_t *SYNTH_RESTRICT_ tail)
{
    uint32_t unused = 0;
    uint32_t *const to = element ? element : &unused;
    const struct synth_raw_answer found = synth_raw_hand_try_free(hand, to);
    return synth_hand_taken_(found, to, tail);
}

SYNTH_CALL_ synth_code synth_hand_try_wake(struct synth_hand *SYNTH_RESTRICT_ hand, uint32_t wait,
                                           uint32_t *SYNTH_RESTRICT_ element, uint32_t *SYNTH_RESTRICT_ tail)
{
    uint32_t unused = 0;
    uint32_t *const to = element ? element : &unused;
    const struct synth_raw_answer found = synth_raw_hand_try_wake(hand, wait, to);
    return synth_hand_taken_(found, to, tail);
}

SYNTH_CALL_ synth_code synth_hand_notify(struct synth_hand *SYNTH_RESTRICT_ hand, uint32_t wait,
                                         uint32_t *SYNTH_RESTRICT_ head)
{
    uint32_t unused;
    SYNTH_RELEASE_(SYNTH_WAIT_, wait);
    return synth_raw_hand_notify(hand, wait, head ? head : &unused);
}

SYNTH_CALL_ synth_code synth_hand_try_wake_before(struct synth_hand *SYNTH_RESTRICT_ hand, uint32_t wait,
                                                  uint32_t head, uint32_t *SYNTH_RESTRICT_ element,
                                                  uint32_t *SYNTH_RESTRICT_ tail)
{
    uint32_t unused = 0;
    uint32_t *const to = element ? element : &unused;
    const struct synth_raw_answer found = synth_raw_hand_try_wake_before(hand, wait, head, to);
    return synth_hand_taken_(found, to, tail);
}

SYNTH_CALL_ synth_code synth_hand_try_ready(struct synth_hand *SYNTH_RESTRICT_ hand, uint32_t element,
                                            uint32_t *SYNTH_RESTRICT_ head)
{
    SYNTH_RELEASE_(SYNTH_ELEMENT_, element);
    return synth_hand_moved_(synth_raw_hand_try_ready(hand, element), head, SYNTH_NULL_);
}

SYNTH_CALL_ synth_code synth_hand_try_retire(struct synth_hand *SYNTH_RESTRICT_ hand, uint32_t element,
                                             uint32_t *SYNTH_RESTRICT_ head)
{
    SYNTH_RELEASE_(SYNTH_ELEMENT_, element);
    return synth_hand_moved_(synth_raw_hand_try_retire(hand, element), head, SYNTH_NULL_);
}

SYNTH_CALL_ synth_code synth_hand_try_wait(struct synth_hand *SYNTH_RESTRICT_ hand, uint32_t element, uint32_t wait,
                                           uint32_t *SYNTH_RESTRICT_ head, uint32_t *SYNTH_RESTRICT_ notifies)
{
    SYNTH_RELEASE_(SYNTH_ELEMENT_, element);
    return synth_hand_moved_(synth_raw_hand_try_wait(hand, element, wait), head, notifies);
}

SYNTH_CALL_ synth_code synth_hand_ticket(const struct synth_hand *hand, uint32_t wait, uint32_t *ticket)
{
    uint32_t unused;
    const synth_code code = synth_raw_hand_ticket(SYNTH_OF_(synth_hand, hand), wait, ticket ? ticket : &unused);
    SYNTH_ACQUIRE_(SYNTH_WAIT_, wait);
    return code;
}

SYNTH_CALL_ synth_code synth_hand_try_wait_at(struct synth_hand *SYNTH_RESTRICT_ hand, uint32_t element,
                                              uint32_t wait, uint32_t ticket, uint32_t *SYNTH_RESTRICT_ head,
                                              uint32_t *SYNTH_RESTRICT_ notifies)
{
    struct synth_raw_moved found;
    SYNTH_RELEASE_(SYNTH_ELEMENT_, element);
    found = synth_raw_hand_try_wait_at(hand, element, wait, ticket);
    SYNTH_ACQUIRE_(SYNTH_WAIT_, wait);
    return synth_hand_moved_(found, head, notifies);
}

SYNTH_CALL_ synth_code synth_hand_stop(struct synth_hand *SYNTH_RESTRICT_ hand, uint32_t element,
                                       bool *SYNTH_RESTRICT_ was_clear)
{
    bool unused;
    SYNTH_RELEASE_(SYNTH_ELEMENT_, element);
    return synth_raw_hand_stop(hand, element, was_clear ? was_clear : &unused);
}

SYNTH_CALL_ synth_code synth_hand_try_start(struct synth_hand *SYNTH_RESTRICT_ hand, uint32_t element,
                                            uint32_t *SYNTH_RESTRICT_ started,
                                            struct synth_element_state *SYNTH_RESTRICT_ state)
{
    uint32_t unused;
    const struct synth_raw_state found = synth_raw_hand_try_start(hand, element, started ? started : &unused);
    SYNTH_ACQUIRE_(SYNTH_ELEMENT_, element);
    return synth_hand_state_(found, state);
}

SYNTH_CALL_ synth_code synth_hand_try_park(struct synth_hand *SYNTH_RESTRICT_ hand, uint32_t element,
                                           bool *SYNTH_RESTRICT_ parked,
                                           struct synth_element_state *SYNTH_RESTRICT_ state)
{
    bool unused;
    struct synth_raw_state found;
    SYNTH_RELEASE_(SYNTH_ELEMENT_, element);
    found = synth_raw_hand_try_park(hand, element, parked ? parked : &unused);
    SYNTH_ACQUIRE_(SYNTH_ELEMENT_, element);
    return synth_hand_state_(found, state);
}

/* Whether a try is to be made again, after a pause. */
SYNTH_CALL_ bool synth_is_lost_(synth_code code)
{
    if (code == SYNTH_LOST) {
        synth_pause();
    }
    return code == SYNTH_LOST;
}

/* Whether both hands have what only one hand of a table has: the element, or a processor. */
SYNTH_CALL_ bool synth_hand_are_apart_(const struct synth_hand *one, const struct synth_hand *two, uint32_t element)
{
    bool serves = false, also = false;
    uint32_t processor;
    if (synth_hand_pc(two, element, SYNTH_NULL_) == SYNTH_OK) {
        return true;
    }
    for (processor = 0; processor < 8 && !(serves && also); processor++) {
        synth_hand_serves(one, processor, &serves);
        synth_hand_serves(two, processor, &also);
    }
    return serves && also;
}

/* Each LOST is a change of the element's state by another hand. */
SYNTH_CALL_ synth_code synth_hand_give(struct synth_hand *giver, struct synth_hand *receiver, uint32_t element)
{
    bool held = false, was_clear = false, parked = false;
    uint32_t started = SYNTH_START_NOT_STOPPED;
    synth_code code = giver == receiver ? SYNTH_EMPTY_HANDLE : synth_hand_holds(giver, element, &held);
    if (code != SYNTH_EMPTY_HANDLE) {
        code = synth_hand_holds(receiver, element, SYNTH_NULL_);
    }
    if (code != SYNTH_OK) {
        return code;
    }
    if (!held) {
        return SYNTH_NOT_HELD;
    }
    if (synth_hand_are_apart_(giver, receiver, element)) {
        return SYNTH_OTHER_OBJECT;
    }
    synth_hand_stop(giver, element, &was_clear);
    if (!was_clear) {
        return SYNTH_STOPPED;
    }
    do {
        code = synth_hand_try_park(giver, element, &parked, SYNTH_NULL_);
    } while (synth_is_lost_(code));
    if (!parked) {
        return SYNTH_LOST;
    }
    do {
        code = synth_hand_try_start(receiver, element, &started, SYNTH_NULL_);
    } while (synth_is_lost_(code));
    return started == SYNTH_START_HELD ? SYNTH_OK : SYNTH_TAKEN;
}

SYNTH_CALL_ synth_code synth_hand_signal(struct synth_hand *SYNTH_RESTRICT_ hand, uint32_t element, uint32_t signal,
                                         bool *SYNTH_RESTRICT_ raised)
{
    bool unused;
    SYNTH_RELEASE_(SYNTH_ELEMENT_, element);
    return synth_raw_hand_signal(hand, element, signal, raised ? raised : &unused);
}

SYNTH_CALL_ synth_code synth_hand_pending(const struct synth_hand *hand, uint32_t element, uint32_t *signals)
{
    uint32_t unused;
    const synth_code code = synth_raw_hand_pending(SYNTH_OF_(synth_hand, hand), element, signals ? signals : &unused);
    SYNTH_ACQUIRE_(SYNTH_ELEMENT_, element);
    return code;
}

SYNTH_CALL_ synth_code synth_hand_try_deliver(struct synth_hand *SYNTH_RESTRICT_ hand, uint32_t element,
                                              uint32_t *SYNTH_RESTRICT_ signals,
                                              struct synth_element_state *SYNTH_RESTRICT_ state)
{
    uint32_t unused;
    const struct synth_raw_state found = synth_raw_hand_try_deliver(hand, element, signals ? signals : &unused);
    SYNTH_ACQUIRE_(SYNTH_ELEMENT_, element);
    return synth_hand_state_(found, state);
}

/* Tries that are made again. */

SYNTH_CALL_ synth_code synth_hand_next(struct synth_hand *SYNTH_RESTRICT_ hand, uint32_t *SYNTH_RESTRICT_ element,
                                       uint32_t tries)
{
    SYNTH_REPEAT_(tries, synth_hand_try_next(hand, element, SYNTH_NULL_));
}

SYNTH_CALL_ synth_code synth_hand_next_free(struct synth_hand *SYNTH_RESTRICT_ hand, uint32_t *SYNTH_RESTRICT_ element,
                                            uint32_t tries)
{
    SYNTH_REPEAT_(tries, synth_hand_try_free(hand, element, SYNTH_NULL_));
}

SYNTH_CALL_ synth_code synth_hand_wake(struct synth_hand *SYNTH_RESTRICT_ hand, uint32_t wait,
                                       uint32_t *SYNTH_RESTRICT_ element, uint32_t tries)
{
    SYNTH_REPEAT_(tries, synth_hand_try_wake(hand, wait, element, SYNTH_NULL_));
}

SYNTH_CALL_ synth_code synth_hand_wake_before(struct synth_hand *SYNTH_RESTRICT_ hand, uint32_t wait, uint32_t head,
                                              uint32_t *SYNTH_RESTRICT_ element, uint32_t tries)
{
    SYNTH_REPEAT_(tries, synth_hand_try_wake_before(hand, wait, head, element, SYNTH_NULL_));
}

SYNTH_CALL_ synth_code synth_hand_ready(struct synth_hand *hand, uint32_t element, uint32_t tries)
{
    SYNTH_REPEAT_(tries, synth_hand_try_ready(hand, element, SYNTH_NULL_));
}

SYNTH_CALL_ synth_code synth_hand_retire(struct synth_hand *hand, uint32_t element, uint32_t tries)
{
    SYNTH_REPEAT_(tries, synth_hand_try_retire(hand, element, SYNTH_NULL_));
}

SYNTH_CALL_ synth_code synth_hand_wait(struct synth_hand *hand, uint32_t element, uint32_t wait, uint32_t tries)
{
    SYNTH_REPEAT_(tries, synth_hand_try_wait(hand, element, wait, SYNTH_NULL_, SYNTH_NULL_));
}

SYNTH_CALL_ synth_code synth_hand_wait_at(struct synth_hand *hand, uint32_t element, uint32_t wait, uint32_t ticket,
                                          uint32_t tries)
{
    SYNTH_REPEAT_(tries, synth_hand_try_wait_at(hand, element, wait, ticket, SYNTH_NULL_, SYNTH_NULL_));
}

SYNTH_CALL_ synth_code synth_hand_start(struct synth_hand *SYNTH_RESTRICT_ hand, uint32_t element, uint32_t tries,
                                        uint32_t *SYNTH_RESTRICT_ started)
{
    SYNTH_REPEAT_(tries, synth_hand_try_start(hand, element, started, SYNTH_NULL_));
}

SYNTH_CALL_ synth_code synth_hand_park(struct synth_hand *SYNTH_RESTRICT_ hand, uint32_t element, uint32_t tries,
                                       bool *SYNTH_RESTRICT_ parked)
{
    SYNTH_REPEAT_(tries, synth_hand_try_park(hand, element, parked, SYNTH_NULL_));
}

SYNTH_CALL_ synth_code synth_hand_deliver(struct synth_hand *SYNTH_RESTRICT_ hand, uint32_t element, uint32_t tries,
                                          uint32_t *SYNTH_RESTRICT_ signals)
{
    SYNTH_REPEAT_(tries, synth_hand_try_deliver(hand, element, signals, SYNTH_NULL_));
}

SYNTH_CALL_ synth_code synth_hand_finish(struct synth_hand *SYNTH_RESTRICT_ hand,
                                         struct synth_hand_totals *SYNTH_RESTRICT_ totals)
{
    struct synth_hand_totals unused;
    return synth_raw_hand_close(hand, totals ? totals : &unused);
}

SYNTH_CALL_ synth_code synth_hand_free(struct synth_hand *hand)
{
    return synth_raw_hand_free(hand);
}

#ifdef __cplusplus
}
#endif

#endif
