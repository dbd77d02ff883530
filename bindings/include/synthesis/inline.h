/*
 * The calls of synthesis.h, over the proved ones of raw.h. They pass on what they are given, write the answers for
 * which there are pointers, and declare the order of memory to ThreadSanitizer. Include synthesis.h.
 */
#ifndef SYNTHESIS_INLINE_H
#define SYNTHESIS_INLINE_H

#include "../synthesis.h"
#include "order.h"
#include "raw.h"

/* The handle of a query, which the library may write to. */
#ifdef __cplusplus
#define SYNTH_OF_(type, handle) const_cast<struct type *>(handle)
#else
#define SYNTH_OF_(type, handle) ((struct type *)(uintptr_t)(handle))
#endif

#ifdef __cplusplus
extern "C" {
#endif

SYNTH_CALL_ void synth_pause(void)
{
#if defined(__GNUC__) && (defined(__x86_64__) || defined(__i386__))
    __builtin_ia32_pause();
#elif defined(__GNUC__) && defined(__aarch64__)
    __asm__ volatile("yield");
#endif
}

/* The rest of a call that makes a try again while it is LOST, with a pause between two. */
#define SYNTH_REPEAT_(tries, call)                                                                                     \
    synth_code code;                                                                                                   \
    while ((code = (call)) == SYNTH_LOST && tries > 1) {                                                               \
        tries--;                                                                                                       \
        synth_pause();                                                                                                 \
    }                                                                                                                  \
    return code

/* Is in each `new`: no library that lacks this version's symbol is linked. */
SYNTH_CALL_ void synth_linked_(void)
{
    const char *(*volatile version)(void) = SYNTH_VERSION_SYMBOL;
    (void)version;
}

/* Writes what a put, or a try to chain a note, found. */
SYNTH_CALL_ void synth_positions_(struct synth_positions *positions, struct synth_raw_answer found)
{
    if (positions && (found.code == SYNTH_OK || found.code == SYNTH_FULL || found.code == SYNTH_LOST)) {
        positions->head = found.head;
        positions->tail = found.tail;
    }
}

/* Writes the tail that a taking found, after EMPTY and LOST. */
SYNTH_CALL_ void synth_tail_(uint64_t *tail, struct synth_raw_answer found)
{
    if (tail && (found.code == SYNTH_EMPTY || found.code == SYNTH_LOST)) {
        *tail = found.tail;
    }
}

/* Batch queues. */

SYNTH_CALL_ synth_code synth_batch_new(size_t places, struct synth_batch *batch)
{
    synth_linked_();
    return synth_raw_batch_new(places, batch);
}

SYNTH_CALL_ synth_code synth_batch_split(struct synth_batch *SYNTH_RESTRICT_ batch,
                                         struct synth_batch *SYNTH_RESTRICT_ other)
{
    return synth_raw_batch_split(batch, other);
}

SYNTH_CALL_ synth_code synth_batch_join(struct synth_batch *SYNTH_RESTRICT_ batch,
                                        struct synth_batch *SYNTH_RESTRICT_ other)
{
    return synth_raw_batch_join(batch, other);
}

SYNTH_CALL_ synth_code synth_batch_try_put(struct synth_batch *SYNTH_RESTRICT_ batch,
                                           const uint64_t *SYNTH_RESTRICT_ items, size_t count,
                                           struct synth_positions *SYNTH_RESTRICT_ positions)
{
    struct synth_positions unused;
    synth_code code;
    SYNTH_RELEASE_ITEMS_(items, count);
    code = synth_raw_batch_try_put(batch, items, count, positions ? positions : &unused);
    if (code == SYNTH_CLOSED) {
        SYNTH_ACQUIRE_(SYNTH_SHUT_, 0);
    }
    return code;
}

SYNTH_CALL_ synth_code synth_batch_try_put_some(struct synth_batch *SYNTH_RESTRICT_ batch,
                                                const uint64_t *SYNTH_RESTRICT_ items, size_t count,
                                                size_t *SYNTH_RESTRICT_ put,
                                                struct synth_positions *SYNTH_RESTRICT_ positions)
{
    struct synth_positions unused;
    size_t uncounted;
    synth_code code;
    SYNTH_RELEASE_ITEMS_(items, count);
    code = synth_raw_batch_try_put_some(batch, items, count, put ? put : &uncounted, positions ? positions : &unused);
    if (code == SYNTH_CLOSED) {
        SYNTH_ACQUIRE_(SYNTH_SHUT_, 0);
    }
    return code;
}

/* What is left of a taking once it has its code: the tail that was found, after EMPTY, LOST and SHORT_BUFFER. */
SYNTH_CALL_ synth_code synth_batch_taken_(synth_code code, const uint64_t *items, size_t taken, size_t *count,
                                          uint64_t at, uint64_t *tail)
{
    if (code == SYNTH_OK) {
        SYNTH_ACQUIRE_ITEMS_(items, taken);
        (void)items;
    } else if (code == SYNTH_CLOSED) {
        SYNTH_ACQUIRE_(SYNTH_SHUT_, 0);
    }
    if (count && (code == SYNTH_OK || code == SYNTH_SHORT_BUFFER)) {
        *count = taken;
    }
    if (tail && (code == SYNTH_EMPTY || code == SYNTH_LOST || code == SYNTH_SHORT_BUFFER)) {
        *tail = at;
    }
    return code;
}

SYNTH_CALL_ synth_code synth_batch_try_take(struct synth_batch *SYNTH_RESTRICT_ batch,
                                            uint64_t *SYNTH_RESTRICT_ items, size_t room,
                                            size_t *SYNTH_RESTRICT_ count, uint64_t *SYNTH_RESTRICT_ tail)
{
    struct synth_positions found = {0, 0};
    size_t taken = 0;
    const synth_code code = synth_raw_batch_try_take(batch, items, room, &taken, &found);
    return synth_batch_taken_(code, items, taken, count, found.tail, tail);
}

SYNTH_CALL_ synth_code synth_batch_try_take_some(struct synth_batch *SYNTH_RESTRICT_ batch,
                                                 uint64_t *SYNTH_RESTRICT_ items, size_t room,
                                                 size_t *SYNTH_RESTRICT_ count, uint64_t *SYNTH_RESTRICT_ tail)
{
    struct synth_positions found = {0, 0};
    size_t taken = 0;
    const synth_code code = synth_raw_batch_try_take_some(batch, items, room, &taken, &found);
    return synth_batch_taken_(code, items, taken, count, found.tail, tail);
}

SYNTH_CALL_ synth_code synth_batch_put(struct synth_batch *SYNTH_RESTRICT_ batch,
                                       const uint64_t *SYNTH_RESTRICT_ items, size_t count, uint32_t tries)
{
    SYNTH_REPEAT_(tries, synth_batch_try_put(batch, items, count, SYNTH_NULL_));
}

SYNTH_CALL_ synth_code synth_batch_put_some(struct synth_batch *SYNTH_RESTRICT_ batch,
                                            const uint64_t *SYNTH_RESTRICT_ items, size_t count, uint32_t tries,
                                            size_t *SYNTH_RESTRICT_ put)
{
    SYNTH_REPEAT_(tries, synth_batch_try_put_some(batch, items, count, put, SYNTH_NULL_));
}

SYNTH_CALL_ synth_code synth_batch_take(struct synth_batch *SYNTH_RESTRICT_ batch, uint64_t *SYNTH_RESTRICT_ items,
                                        size_t room, uint32_t tries, size_t *SYNTH_RESTRICT_ count)
{
    SYNTH_REPEAT_(tries, synth_batch_try_take(batch, items, room, count, SYNTH_NULL_));
}

SYNTH_CALL_ synth_code synth_batch_take_some(struct synth_batch *SYNTH_RESTRICT_ batch,
                                             uint64_t *SYNTH_RESTRICT_ items, size_t room, uint32_t tries,
                                             size_t *SYNTH_RESTRICT_ count)
{
    SYNTH_REPEAT_(tries, synth_batch_try_take_some(batch, items, room, count, SYNTH_NULL_));
}

SYNTH_CALL_ synth_code synth_batch_try_take_one(struct synth_batch *SYNTH_RESTRICT_ batch,
                                                uint64_t *SYNTH_RESTRICT_ item, uint64_t *SYNTH_RESTRICT_ tail)
{
    uint64_t unused;
    return synth_batch_try_take_some(batch, item ? item : &unused, 1, SYNTH_NULL_, tail);
}

SYNTH_CALL_ synth_code synth_batch_take_one(struct synth_batch *SYNTH_RESTRICT_ batch, uint64_t *SYNTH_RESTRICT_ item,
                                            uint32_t tries)
{
    SYNTH_REPEAT_(tries, synth_batch_try_take_one(batch, item, SYNTH_NULL_));
}

SYNTH_CALL_ synth_code synth_batch_look(const struct synth_batch *batch, struct synth_batch_status *status)
{
    struct synth_batch_status unused;
    return synth_raw_batch_look(SYNTH_OF_(synth_batch, batch), status ? status : &unused);
}

SYNTH_CALL_ synth_code synth_batch_len(const struct synth_batch *batch, uint64_t *count)
{
    uint64_t unused;
    return synth_raw_batch_len(SYNTH_OF_(synth_batch, batch), count ? count : &unused);
}

SYNTH_CALL_ synth_code synth_batch_capacity(const struct synth_batch *batch, size_t *places)
{
    size_t unused;
    return synth_raw_batch_capacity(SYNTH_OF_(synth_batch, batch), places ? places : &unused);
}

SYNTH_CALL_ synth_code synth_batch_shut(struct synth_batch *batch)
{
    bool was_open = false;
    synth_code code;
    SYNTH_RELEASE_(SYNTH_SHUT_, 0);
    code = synth_raw_batch_shut(batch, &was_open);
    if (code == SYNTH_OK && !was_open) {
        SYNTH_ACQUIRE_(SYNTH_SHUT_, 0);
        return SYNTH_CLOSED;
    }
    return code;
}

SYNTH_CALL_ synth_code synth_batch_finish(struct synth_batch *SYNTH_RESTRICT_ batch, uint64_t *SYNTH_RESTRICT_ left,
                                          size_t room, struct synth_batch_totals *SYNTH_RESTRICT_ totals)
{
    struct synth_batch_totals unused;
    return synth_raw_batch_close(batch, left, room, totals ? totals : &unused);
}

SYNTH_CALL_ synth_code synth_batch_free(struct synth_batch *batch)
{
    return synth_raw_batch_free(batch);
}

/* Each LOST is a taking or a parting by another end, and a queue that is shut has items for so many. */
SYNTH_CALL_ synth_code synth_batch_abandon(struct synth_batch *SYNTH_RESTRICT_ batch, uint64_t *SYNTH_RESTRICT_ items,
                                           size_t room, size_t *SYNTH_RESTRICT_ count)
{
    size_t taken = 0, more = 0;
    synth_code code = synth_batch_shut(batch);
    if (code == SYNTH_EMPTY_HANDLE) {
        return code;
    }
    code = SYNTH_OK;
    while (taken < room && (code == SYNTH_OK || code == SYNTH_LOST)) {
        code = synth_batch_try_take_some(batch, items + taken, room - taken, &more, SYNTH_NULL_);
        taken += code == SYNTH_OK ? more : 0;
    }
    if (count) {
        *count = taken;
    }
    return synth_batch_free(batch);
}

/* Claim queues. */

SYNTH_CALL_ synth_code synth_queue_new(uint32_t places, uint32_t first, struct synth_queue *queue)
{
    synth_linked_();
    return synth_raw_queue_new(places, first, queue);
}

SYNTH_CALL_ synth_code synth_queue_split(struct synth_queue *SYNTH_RESTRICT_ queue,
                                         struct synth_queue *SYNTH_RESTRICT_ other)
{
    return synth_raw_queue_split(queue, other);
}

SYNTH_CALL_ synth_code synth_queue_join(struct synth_queue *SYNTH_RESTRICT_ queue,
                                        struct synth_queue *SYNTH_RESTRICT_ other)
{
    return synth_raw_queue_join(queue, other);
}

SYNTH_CALL_ synth_code synth_queue_try_put(struct synth_queue *SYNTH_RESTRICT_ queue,
                                           const uint64_t *SYNTH_RESTRICT_ items, size_t count,
                                           struct synth_positions *SYNTH_RESTRICT_ positions)
{
    struct synth_raw_answer found;
    SYNTH_RELEASE_ITEMS_(items, count);
    found = synth_raw_queue_try_put(queue, items, count);
    if (found.code == SYNTH_CLOSED) {
        SYNTH_ACQUIRE_(SYNTH_SHUT_, 0);
    }
    synth_positions_(positions, found);
    return found.code;
}

/* What is left of a taking once it has its answer. */
SYNTH_CALL_ synth_code synth_queue_taken_(struct synth_raw_answer found, const uint64_t *items, size_t taken,
                                          size_t *count, uint64_t *tail)
{
    if (found.code == SYNTH_OK) {
        SYNTH_ACQUIRE_ITEMS_(items, taken);
        (void)items;
        if (count) {
            *count = taken;
        }
    } else if (found.code == SYNTH_CLOSED) {
        SYNTH_ACQUIRE_(SYNTH_SHUT_, 0);
    }
    synth_tail_(tail, found);
    return found.code;
}

SYNTH_CALL_ synth_code synth_queue_try_take(struct synth_queue *SYNTH_RESTRICT_ queue, uint64_t *SYNTH_RESTRICT_ item,
                                            uint64_t *SYNTH_RESTRICT_ tail)
{
    uint64_t unused = 0;
    uint64_t *const to = item ? item : &unused;
    return synth_queue_taken_(synth_raw_queue_try_take(queue, to), to, 1, SYNTH_NULL_, tail);
}

SYNTH_CALL_ synth_code synth_queue_take_up_to(struct synth_queue *SYNTH_RESTRICT_ queue,
                                              uint64_t *SYNTH_RESTRICT_ items, size_t room,
                                              size_t *SYNTH_RESTRICT_ count, uint64_t *SYNTH_RESTRICT_ tail)
{
    size_t taken = 0;
    const struct synth_raw_answer found = synth_raw_queue_take_up_to(queue, items, room, &taken);
    if (tail && found.code == SYNTH_OK) {
        *tail = found.tail;
    }
    return synth_queue_taken_(found, items, taken, count, tail);
}

SYNTH_CALL_ synth_code synth_queue_try_take_line(struct synth_queue *SYNTH_RESTRICT_ queue,
                                                 uint64_t *SYNTH_RESTRICT_ line, size_t room,
                                                 size_t *SYNTH_RESTRICT_ count, uint64_t *SYNTH_RESTRICT_ tail)
{
    size_t taken = 0;
    const struct synth_raw_answer found = synth_raw_queue_try_take_line(queue, line, room, &taken);
    return synth_queue_taken_(found, line, taken, count, tail);
}

SYNTH_CALL_ synth_code synth_queue_put(struct synth_queue *SYNTH_RESTRICT_ queue,
                                       const uint64_t *SYNTH_RESTRICT_ items, size_t count, uint32_t tries)
{
    SYNTH_REPEAT_(tries, synth_queue_try_put(queue, items, count, SYNTH_NULL_));
}

SYNTH_CALL_ synth_code synth_queue_take(struct synth_queue *SYNTH_RESTRICT_ queue, uint64_t *SYNTH_RESTRICT_ item,
                                        uint32_t tries)
{
    SYNTH_REPEAT_(tries, synth_queue_try_take(queue, item, SYNTH_NULL_));
}

SYNTH_CALL_ synth_code synth_queue_take_line(struct synth_queue *SYNTH_RESTRICT_ queue,
                                             uint64_t *SYNTH_RESTRICT_ line, size_t room, uint32_t tries,
                                             size_t *SYNTH_RESTRICT_ count)
{
    SYNTH_REPEAT_(tries, synth_queue_try_take_line(queue, line, room, count, SYNTH_NULL_));
}

SYNTH_CALL_ synth_code synth_queue_look(const struct synth_queue *queue, struct synth_queue_status *status)
{
    struct synth_queue_status unused;
    return synth_raw_queue_look(SYNTH_OF_(synth_queue, queue), status ? status : &unused);
}

SYNTH_CALL_ synth_code synth_queue_shut(struct synth_queue *queue)
{
    bool was_open = false;
    synth_code code;
    SYNTH_RELEASE_(SYNTH_SHUT_, 0);
    code = synth_raw_queue_shut(queue, &was_open);
    if (code == SYNTH_OK && !was_open) {
        SYNTH_ACQUIRE_(SYNTH_SHUT_, 0);
        return SYNTH_CLOSED;
    }
    return code;
}

SYNTH_CALL_ synth_code synth_queue_finish(struct synth_queue *SYNTH_RESTRICT_ queue, uint64_t *SYNTH_RESTRICT_ left,
                                          size_t room, struct synth_queue_totals *SYNTH_RESTRICT_ totals)
{
    struct synth_queue_totals unused;
    return synth_raw_queue_close(queue, left, room, totals ? totals : &unused);
}

SYNTH_CALL_ synth_code synth_queue_free(struct synth_queue *queue)
{
    return synth_raw_queue_free(queue);
}

SYNTH_CALL_ synth_code synth_queue_abandon(struct synth_queue *SYNTH_RESTRICT_ queue, uint64_t *SYNTH_RESTRICT_ items,
                                           size_t room, size_t *SYNTH_RESTRICT_ count)
{
    size_t taken = 0, more = 0;
    synth_code code = synth_queue_shut(queue);
    if (code == SYNTH_EMPTY_HANDLE) {
        return code;
    }
    code = SYNTH_OK;
    while (taken < room && (code == SYNTH_OK || code == SYNTH_LOST)) {
        code = synth_queue_take_up_to(queue, items + taken, room - taken, &more, SYNTH_NULL_);
        taken += code == SYNTH_OK ? more : 0;
    }
    if (count) {
        *count = taken;
    }
    return synth_queue_free(queue);
}

#ifdef __cplusplus
}
#endif

#include "inline_hand.h"
#include "inline_others.h"

#undef SYNTH_REPEAT_

#endif
