/*
 * Puts and takings that sleep, for C11 and C++17: the tries of synthesis.h over the event counts of synthesis_event.h,
 * whose rules hold here too. NOTHING HERE IS PROVED.
 *
 *     static struct synth_events events = SYNTH_EVENTS_INIT;            // those of one queue, for all its threads
 *
 *     while (synth_batch_take_some_wait(&end, items, 32, &count, &events, SYNTH_EVENT_NO_LIMIT) == SYNTH_OK)
 *         use(items, count);                                            // until another thread shuts the queue:
 *     if (synth_batch_shut(&end) == SYNTH_OK) synth_events_notify_all(&events);
 *
 * A call makes its try again while it is LOST, and sleeps while there is no room for it or nothing to take. SYNTH_FULL
 * and SYNTH_EMPTY mean that the time is over. The other codes are those of the try, and after any code but SYNTH_OK all
 * is as it was, except as the try says. SYNTH_LOST is answered only after 4,294,967,295 tries. A limit is in
 * nanoseconds; SYNTH_EVENT_NO_LIMIT is none.
 *
 * ALL THREADS of a queue whose threads sleep use these calls, or notify the events themselves: after a put by another
 * call `items` by synth_event_notify_one; after a taking `places`, of a batch queue by synth_event_notify_all, since
 * there may be room for one put where there is none for a longer one; after a shut both, by synth_events_notify_all.
 */
#ifndef SYNTHESIS_WAIT_H
#define SYNTHESIS_WAIT_H

#include "synthesis.h"
#include "synthesis_event.h"

/* The events of one queue: takers sleep on `items`, and those who put on `places`. */
struct synth_events {
    synth_event items;
    synth_event places;
};

/* `struct synth_events events = SYNTH_EVENTS_INIT;` has no waiters. */
#define SYNTH_EVENTS_INIT {SYNTH_EVENT_INIT, SYNTH_EVENT_INIT}

/* Makes events without waiters in memory that has none yet, as SYNTH_EVENTS_INIT does. */
static inline void synth_events_init(struct synth_events *events)
{
    synth_event_init(&events->items);
    synth_event_init(&events->places);
}

/* Ends events that no thread uses any more, as synth_event_destroy does. */
static inline void synth_events_destroy(struct synth_events *events)
{
    synth_event_destroy(&events->items);
    synth_event_destroy(&events->places);
}

/* Wakes all who sleep on either one, as after a shut. */
static inline void synth_events_notify_all(struct synth_events *events)
{
    synth_event_notify_all(&events->items);
    synth_event_notify_all(&events->places);
}

/* Puts the items as one batch, as synth_batch_try_put does, and sleeps while there is no room for all of them. */
SYNTH_MUST_USE static inline synth_code synth_batch_put_wait(struct synth_batch *batch, const uint64_t *items,
                                                             size_t count, struct synth_events *events, int64_t limit)
{
    synth_code code;
    SYNTH_WAIT_WHILE(&events->places, limit, (code = synth_batch_put(batch, items, count, UINT32_MAX)) == SYNTH_FULL);
    if (code == SYNTH_OK) {
        synth_event_notify_one(&events->items);
    }
    return code;
}

/*
 * Puts as many of the first items as there is room for, as synth_batch_try_put_some does, and sleeps while there is no
 * room for one. Sets `put`.
 */
SYNTH_MUST_USE static inline synth_code synth_batch_put_some_wait(struct synth_batch *batch, const uint64_t *items,
                                                                  size_t count, size_t *put,
                                                                  struct synth_events *events, int64_t limit)
{
    synth_code code;
    SYNTH_WAIT_WHILE(&events->places, limit,
                     (code = synth_batch_put_some(batch, items, count, UINT32_MAX, put)) == SYNTH_FULL);
    if (code == SYNTH_OK) {
        synth_event_notify_one(&events->items);
    }
    return code;
}

/*
 * Takes whole batches, as synth_batch_try_take does, and sleeps while there is none. Sets `count`. SYNTH_SHORT_BUFFER:
 * the oldest batch has more items than there is room for; `count` is then how many.
 */
SYNTH_MUST_USE static inline synth_code synth_batch_take_wait(struct synth_batch *batch, uint64_t *items, size_t room,
                                                              size_t *count, struct synth_events *events,
                                                              int64_t limit)
{
    synth_code code;
    SYNTH_WAIT_WHILE(&events->items, limit,
                     (code = synth_batch_take(batch, items, room, UINT32_MAX, count)) == SYNTH_EMPTY);
    if (code == SYNTH_OK) {
        synth_event_notify_all(&events->places);
    }
    return code;
}

/* Takes up to `room` items, as synth_batch_try_take_some does, and sleeps while there is none. Sets `count`. */
SYNTH_MUST_USE static inline synth_code synth_batch_take_some_wait(struct synth_batch *batch, uint64_t *items,
                                                                   size_t room, size_t *count,
                                                                   struct synth_events *events, int64_t limit)
{
    synth_code code;
    SYNTH_WAIT_WHILE(&events->items, limit,
                     (code = synth_batch_take_some(batch, items, room, UINT32_MAX, count)) == SYNTH_EMPTY);
    if (code == SYNTH_OK) {
        synth_event_notify_all(&events->places);
    }
    return code;
}

/* Puts one item into a claim queue, as synth_queue_try_put does, and sleeps while there is no room for it. */
SYNTH_MUST_USE static inline synth_code synth_queue_put_wait(struct synth_queue *queue, uint64_t item,
                                                             struct synth_events *events, int64_t limit)
{
    synth_code code;
    SYNTH_WAIT_WHILE(&events->places, limit, (code = synth_queue_put(queue, &item, 1, UINT32_MAX)) == SYNTH_FULL);
    if (code == SYNTH_OK) {
        synth_event_notify_one(&events->items);
    }
    return code;
}

/* Takes the first item of a claim queue, as synth_queue_try_take does, and sleeps while there is none. */
SYNTH_MUST_USE static inline synth_code synth_queue_take_wait(struct synth_queue *queue, uint64_t *item,
                                                              struct synth_events *events, int64_t limit)
{
    synth_code code;
    SYNTH_WAIT_WHILE(&events->items, limit, (code = synth_queue_take(queue, item, UINT32_MAX)) == SYNTH_EMPTY);
    if (code == SYNTH_OK) {
        synth_event_notify_one(&events->places);
    }
    return code;
}

#endif
