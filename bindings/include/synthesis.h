/**
 * @file
 * Lockless queues, chains, meters, lines and thread elements for C11 and C++17.
 *
 *     struct synth_batch mine = SYNTH_BATCH_INIT, yours = SYNTH_BATCH_INIT;
 *     uint64_t items[32] = {1, 2, 3};
 *     size_t count = 0;
 *
 *     if (synth_batch_new(32, &mine) != SYNTH_OK) return 1;             // an empty queue with room for 32 items
 *     if (synth_batch_split(&mine, &yours) != SYNTH_OK) return 1;       // one more end of it, for another thread
 *     if (synth_batch_try_put(&mine, items, 3, NULL) != SYNTH_OK)       // one batch: all three items or none
 *         return 1;
 *     if (synth_batch_try_take(&yours, items, 32, &count, NULL) != SYNTH_OK)  // whole batches: count is 3
 *         return 1;
 *     if (synth_batch_join(&mine, &yours) != SYNTH_OK) return 1;        // the first end has the whole queue again
 *     return synth_batch_finish(&mine, items, 32, NULL);                // and ends it
 *
 * The functions of this header are inline, and are not proved; what the functions below them do to an object is
 * (docs/PROMISES.md). docs/GUIDE.md, "From C and Rust", explains programs line by line.
 *
 * THE RULES
 *
 * - All that a thread did before a put is seen by whoever takes one of its items, so an item may be a pointer.
 * - Thread-safe, except that one handle is used by one call at a time, also by a call that takes it as const.
 * - A handle may go to another thread between two calls, by a lock, by the start or the join of a thread, by a seq_cst
 *   atomic, or by an item or an element of this library.
 * - A full handle is never copied, unless the original is used no more.
 * - No call takes a lock, sleeps or waits for another thread, except in malloc and free.
 * - No call but new, split, join, finish, free and abandon calls malloc or free, or writes to its handle.
 * - Not async-signal-safe, except that a handle which one signal handler alone uses, and which is in no two calls at
 *   once there, may be used by all calls but those six.
 * - Not fork-safe: in the forked child of a process with threads no handle is used.
 * - Not cancellation-safe: a thread that is cancelled asynchronously within a call, or leaves it by longjmp, breaks its
 *   handle, and takers may wait for good for what it put. synth_batch_finish notices such a put: SYNTH_BROKEN.
 * - Handles may lie side by side, since tries don't write to them.
 * - A batch queue takes 540 bytes of memory and 16 for each place, a claim queue 280 and 16, a chain 600, meters 360, a
 *   line 540 and its room, thread elements 16,350, and each split 64. While they are made, some take about twice as
 *   much: a batch queue 770 bytes and 32 for each place, a claim queue 260 and 32, and thread elements 32,400.
 * - Two copies of the library in one process may be used side by side: to a join their objects are different ones,
 *   except by a chance of one in four million millions, if each copy made a million.
 * - A copy that a shared object of the program has is unloaded (dlclose) only if each handle that it filled is empty.
 *   If one isn't, a copy that is loaded later takes its object for another one. libsynthesis.so.1 is never unloaded.
 *
 * HANDLES. An object is shared by its ends. An end is a handle of 16 bytes, which its user owns; one of zeros is empty.
 * A variable on the stack that isn't initialised may look full, so give it SYNTH_BATCH_INIT or the like.
 * `new` makes an object and fills its first handle. `split` fills one more. `join` empties one, and gives its share to
 * another one. `finish`, by a handle that has the whole again, ends the object and reports what became of it. `free`
 * empties a handle that is never joined: then no finish succeeds, and the object goes with its last handle. A full
 * handle that is neither joined, finished, abandoned nor freed is leaked. An object is of one process: it is never in
 * memory that processes share.
 *
 * FROM DPDK. `synth_batch_put` is rte_ring_enqueue_bulk, `put_some` is rte_ring_enqueue_burst, `take_some` is
 * rte_ring_dequeue_burst, `len` is rte_ring_count, and `capacity` is rte_ring_get_capacity. There a put waits until
 * those before it are done. Here none waits, and takers find no item past a put that isn't done.
 *
 * ORDER OF MEMORY. Each atomic step is sequentially consistent, as C11 has the word. So what was done before
 *
 *     a put                          is seen by  whoever takes one of its items
 *     a shut                                     whoever is answered SYNTH_CLOSED
 *     a push                                     whoever pops its byte
 *     a note is chained                          its procedure, which also sees what those before it did
 *     an element is moved                        whoever takes it
 *     a stop, a signal                           whoever then parks the element, or finds the signal
 *     a notify                                   whoever then reads the ticket, or is answered SYNTH_MOVED
 *     a tick, a move of the clock                whoever ticks or reads the gauge later, moves or reads the clock, or
 *                                                takes due alarms
 *     an alarm is set                            whoever takes it out
 *
 * No proof says so: the proofs speak of steps in one order, and the compiler keeps to it. This header declares these
 * orders, and no others, to ThreadSanitizer.
 *
 * CODES. Each call answers a code. It looks at its codes in the order in which it lists them; if several fit, the first
 * one is answered. SYNTH_OK isn't listed. After any other code all is as it was, the caller's variables and buffers
 * included, except where a call says otherwise. Mistakes have codes: an empty handle, a full one where an empty one is
 * wanted, a handle of another object, a number out of range, a short buffer, an element that isn't held. A handle that
 * holds another kind of end than the call is for, by a cast, counts as an empty one, and stays as it is.
 *
 * POINTERS. All numbers go out by pointers. A pointer to an answer may be null; the call then doesn't report it. A
 * buffer has as many elements as the `count` or `room` beside it says; one of 0 elements may be null. Any other pointer
 * leads to one element of its type. No pointer of a call leads to what another one leads to, and none into an object.
 * The fields of a handle are the library's own: never write to them, and never follow `at`.
 *
 * PROGRESS. Each try ends after a bounded number of its own steps, and waits for no other thread. The queues are
 * lockless, and not lock-free as Herlihy and Shavit define it: while a thread is stopped within its put, nobody gets
 * what was put after it.
 *
 * TRIES. A try (`.._try_..`) makes one attempt, and always returns. If it is SYNTH_LOST another end was first, and the
 * try may be made again. In a signal handler no refused try is repeated without an end: what it waits for may be what
 * the interrupted thread is about to do.
 */
#ifndef SYNTHESIS_H
#define SYNTHESIS_H

#include <stdbool.h>
#include <stddef.h>
#include <stdint.h>

/** The version of this header and of the library, by the rules of semantic versioning. */
#define SYNTH_VERSION "1.0.0"
#define SYNTH_VERSION_MAJOR 1 /**< changes with what breaks programs */
#define SYNTH_VERSION_MINOR 0 /**< changes with what is added */
#define SYNTH_VERSION_PATCH 0 /**< changes with what is mended */
#define SYNTH_VERSION_SYMBOL synth_version_1_0_0 /**< a function of each library that serves this version's programs */

/**
 * Is before each call that may be refused though its caller made no mistake: the compiler warns if its code isn't
 * used. Define it as nothing, before this header is included, to go without.
 */
#ifndef SYNTH_MUST_USE
#if defined(__cplusplus) || (defined(__STDC_VERSION__) && __STDC_VERSION__ >= 202311L)
#define SYNTH_MUST_USE [[nodiscard]]
#elif defined(__GNUC__)
#define SYNTH_MUST_USE __attribute__((warn_unused_result))
#else
#define SYNTH_MUST_USE
#endif
#endif

/* How the calls are declared: inline in each file, and as symbols of the library once more. */
#ifdef __GNUC__
#define SYNTH_CALL_ inline __attribute__((always_inline))
#else
#define SYNTH_CALL_ inline
#endif
#ifdef __cplusplus
#define SYNTH_RESTRICT_
#define SYNTH_NULL_ nullptr
#else
#define SYNTH_RESTRICT_ restrict
#define SYNTH_NULL_ NULL
#endif

#ifdef __cplusplus
extern "C" {
#endif

/** @defgroup codes Codes
 * @{ */

/** What a call answers: one of enum synth_codes. */
typedef int32_t synth_code;

/** The codes. */
enum synth_codes {
    SYNTH_OK = 0,           /**< it was done */
    SYNTH_NO_ITEMS = 1,     /**< a put of no items */
    SYNTH_TOO_LONG = 2,     /**< a put of more items than the queue has places */
    SYNTH_CLOSED = 3,       /**< the queue is shut; of a taking: and all that was put is taken */
    SYNTH_SPENT = 4,        /**< no position, tick or step is left, or fewer positions than the put wants */
    SYNTH_FULL = 5,         /**< there was no room: let a taker run, then try again */
    SYNTH_LOST = 6,         /**< another end was first: try again */
    SYNTH_EMPTY = 7,        /**< there was nothing to take: come back */
    SYNTH_MOVED = 8,        /**< the wait queue was notified since the ticket: look again */
    SYNTH_BUSY = 9,         /**< an element is on the processor */
    SYNTH_VACANT = 10,      /**< no element is on the processor */
    SYNTH_NO_ROOM = 11,     /**< each alarm slot was found taken */
    SYNTH_OPEN = 12,        /**< the handle hasn't the whole object: others are full, or were freed and not joined */
    SYNTH_NOT_HELD = 13,    /**< the hand doesn't hold the element */
    SYNTH_NOT_SERVED = 14,  /**< the hand doesn't serve the processor */
    SYNTH_ALL_WOKEN = 15,   /**< each place that was claimed before the notify is taken */
    SYNTH_STOPPED = 16,     /**< the element's stop bit is set */
    SYNTH_TAKEN = 17,       /**< another hand has taken the element */
    SYNTH_BROKEN = 18,      /**< the queue is ended, and a put of it never ended: its items are missing */
    SYNTH_RUN = 20,         /**< the note is chained, and this handle runs notes from now on */
    SYNTH_LEFT = 21,        /**< the note is chained, and the handle that runs notes is given it */
    SYNTH_NOTE = 22,        /**< the next note */
    SYNTH_AGAIN = 23,       /**< no note was found, but one may have come: call again */
    SYNTH_RUNNING = 24,     /**< the handle runs notes: go on until none is left */
    SYNTH_NOT_RUNNING = 25, /**< the handle runs no notes */
    SYNTH_NO_MEMORY = -1,    /**< malloc gave null */
    SYNTH_EMPTY_HANDLE = -2, /**< a handle is empty where a full one is wanted */
    SYNTH_FULL_HANDLE = -3,  /**< a handle is full where an empty one is wanted */
    SYNTH_OTHER_OBJECT = -4, /**< the two handles are of two objects */
    SYNTH_NO_SHARE = -5,     /**< the handle was split too often: join others to it first */
    SYNTH_SHORT_BUFFER = -6, /**< the buffer has less room than the call wants */
    SYNTH_BAD_NUMBER = -7    /**< a number is out of its range */
};

/** The name of a code, such as "SYNTH_FULL". Of another number: "not a code". */
const char *synth_code_name(synth_code code);

/** A short text about a code, such as "there was no room". Of another number: "not a code". */
const char *synth_code_text(synth_code code);

/** Waits a moment, in a loop that makes a refused try again: other threads of the same core have it meanwhile. */
SYNTH_CALL_ void synth_pause(void);

/** The version of the library that is linked: SYNTH_VERSION of the header that it was built with. */
const char *synth_version(void);

/**
 * SYNTH_VERSION of this header. A library has a function of this kind for its own version, and for each earlier one
 * whose programs it serves. Each `new` refers to it, so no program is linked with a library of which it wants more.
 */
const char *synth_version_1_0_0(void);

/** @} */

/**
 * @defgroup batch Batch queues
 * Queues of 64-bit items, for any number of producers and takers. Any handle may put and take.
 *
 * A queue has room for as many items as it has places, which `new` is given. A put is one batch: its positions are
 * reserved by one step, its items written, and all of them published by one more. So none can be taken before all can.
 * A taking takes whole batches, as many as fit its buffer, by one step, and gives their places back by one more. Only
 * `take_some` parts a batch. The order of a queue is that of its puts; no other's item comes between two of one put.
 *
 * EMPTY, FULL AND OTHER THREADS. SYNTH_EMPTY means that the next item isn't published. So the queue is empty, or the
 * put of that item is under way: a put that isn't published hides all that were published after it. SYNTH_FULL means
 * that a place which the put wants isn't given back. So the queue has no room, or a taking from that place is under
 * way: a taker that is preempted within its taking keeps its places until it runs again, and all puts that reach them
 * are FULL.
 *
 * POOLS AND FREE LISTS. So a queue may be FULL although it has a place for each token that goes round in it, as those
 * of a pool, a free list or a ready ring do. More places than tokens make that rarer, and no number of places rules it
 * out. Repeat such a put while it is FULL, with a yield or a sleep between two (synth_batch_put_wait of
 * synthesis_wait.h), and never drop the token or end the program. Or use a claim queue: its taking keeps no places.
 *
 * A position counts the items of a queue, from 0 on. None comes back: a queue takes 2^62 items, 146 years at a billion
 * a second.
 * @{ */

/** An end of a batch queue. */
struct synth_batch {
    void *at;  /**< the library's own */
    bool full; /**< whether it has an end */
};

/** An empty handle: `struct synth_batch end = SYNTH_BATCH_INIT;` */
#define SYNTH_BATCH_INIT {SYNTH_NULL_, false}

/** The positions that a put, or a try to chain a note, found. Set after SYNTH_OK, SYNTH_FULL and SYNTH_LOST. */
struct synth_positions {
    uint64_t head; /**< that of the first item that was put, or had no room; after SYNTH_LOST, the head found */
    uint64_t tail; /**< after SYNTH_FULL, the first one whose place wasn't free; else 0 */
};

/** What a batch queue had at its end. */
struct synth_batch_totals {
    uint64_t put;   /**< how many items were put */
    uint64_t taken; /**< how many were taken; they are the first of those put */
    size_t left;    /**< how many were left, all others but those missing */
    size_t broken;  /**< how many of those put are missing, since their puts never ended: 0 unless SYNTH_BROKEN */
};

/**
 * Makes an empty queue with so many places, a power of two from 1 to 16,777,216, and fills `batch`, its only handle.
 * @return SYNTH_FULL_HANDLE; SYNTH_BAD_NUMBER: other places; SYNTH_NO_MEMORY.
 */
SYNTH_MUST_USE SYNTH_CALL_ synth_code synth_batch_new(size_t places, struct synth_batch *batch);

/**
 * Fills `other`, one more handle of the queue, for another thread. The handle that new filled can be split 2^43 times
 * without a join, and each handle that it fills 21 times in a chain.
 * @return SYNTH_EMPTY_HANDLE: `batch`; SYNTH_FULL_HANDLE: `other`; SYNTH_NO_SHARE; SYNTH_NO_MEMORY.
 */
SYNTH_MUST_USE SYNTH_CALL_ synth_code synth_batch_split(struct synth_batch *SYNTH_RESTRICT_ batch,
                                                        struct synth_batch *SYNTH_RESTRICT_ other);

/**
 * Joins `other`, a handle of the same queue, to `batch`, and empties it. Both are the calling thread's.
 * @return SYNTH_EMPTY_HANDLE: either one; SYNTH_OTHER_OBJECT: they have two marks, or both shares are more than the
 * whole, which those of one queue never are.
 */
SYNTH_MUST_USE SYNTH_CALL_ synth_code synth_batch_join(struct synth_batch *SYNTH_RESTRICT_ batch,
                                                       struct synth_batch *SYNTH_RESTRICT_ other);

/**
 * One try to put `count` items, 1 to as many as there are places, as one batch: all of them or none.
 * @return SYNTH_EMPTY_HANDLE; SYNTH_NO_ITEMS; SYNTH_TOO_LONG; SYNTH_CLOSED; SYNTH_SPENT: fewer positions are left;
 * SYNTH_FULL: there was no room for all of them; SYNTH_LOST: another end put first.
 */
SYNTH_MUST_USE SYNTH_CALL_ synth_code synth_batch_try_put(struct synth_batch *SYNTH_RESTRICT_ batch,
                                                          const uint64_t *SYNTH_RESTRICT_ items, size_t count,
                                                          struct synth_positions *SYNTH_RESTRICT_ positions);

/**
 * One try to put as many of the first of `count` items as there is room for, as one batch. Sets `put`, 1 to `count`.
 * @return SYNTH_EMPTY_HANDLE; SYNTH_NO_ITEMS; SYNTH_CLOSED; SYNTH_SPENT; SYNTH_FULL: there was no room for one;
 * SYNTH_LOST.
 */
SYNTH_MUST_USE SYNTH_CALL_ synth_code synth_batch_try_put_some(struct synth_batch *SYNTH_RESTRICT_ batch,
                                                               const uint64_t *SYNTH_RESTRICT_ items, size_t count,
                                                               size_t *SYNTH_RESTRICT_ put,
                                                               struct synth_positions *SYNTH_RESTRICT_ positions);

/**
 * One try to take batches: as many whole ones as are published, from the oldest on, and fit into `room` items. Sets
 * `count`, 1 to `room`. `tail` becomes the position that was found, after LOST, EMPTY and SHORT_BUFFER.
 * @return SYNTH_EMPTY_HANDLE; then CLOSED, LOST, EMPTY or SHORT_BUFFER. SYNTH_CLOSED: the queue is shut, and nothing
 * will ever come; SYNTH_LOST: another end took first; SYNTH_EMPTY: nothing was published there, and more may come;
 * SYNTH_SHORT_BUFFER: the oldest batch has `count` items, which is then set, more than `room`.
 */
SYNTH_MUST_USE SYNTH_CALL_ synth_code synth_batch_try_take(struct synth_batch *SYNTH_RESTRICT_ batch,
                                                           uint64_t *SYNTH_RESTRICT_ items, size_t room,
                                                           size_t *SYNTH_RESTRICT_ count,
                                                           uint64_t *SYNTH_RESTRICT_ tail);

/**
 * As try_take, but takes up to `room` items, if need be the first ones of a batch. Its others stay published, and the
 * next taking begins with them. So SYNTH_SHORT_BUFFER comes for a `room` of 0 alone. SYNTH_LOST comes also if another
 * end parted the same batch meanwhile; `tail` may be as it was then. It comes for no handle that has the whole.
 */
SYNTH_MUST_USE SYNTH_CALL_ synth_code synth_batch_try_take_some(struct synth_batch *SYNTH_RESTRICT_ batch,
                                                                uint64_t *SYNTH_RESTRICT_ items, size_t room,
                                                                size_t *SYNTH_RESTRICT_ count,
                                                                uint64_t *SYNTH_RESTRICT_ tail);

/**
 * As try_take_some, of one item.
 * @return SYNTH_EMPTY_HANDLE; SYNTH_CLOSED, SYNTH_LOST or SYNTH_EMPTY.
 */
SYNTH_MUST_USE SYNTH_CALL_ synth_code synth_batch_try_take_one(struct synth_batch *SYNTH_RESTRICT_ batch,
                                                               uint64_t *SYNTH_RESTRICT_ item,
                                                               uint64_t *SYNTH_RESTRICT_ tail);

/**
 * synth_batch_try_put, made again while it is SYNTH_LOST, at most `tries` times in all and at least once, with a
 * synth_pause between two.
 * @return that of the last try.
 */
SYNTH_MUST_USE SYNTH_CALL_ synth_code synth_batch_put(struct synth_batch *SYNTH_RESTRICT_ batch,
                                                      const uint64_t *SYNTH_RESTRICT_ items, size_t count,
                                                      uint32_t tries);
/** synth_batch_try_put_some, made again as in synth_batch_put. */
SYNTH_MUST_USE SYNTH_CALL_ synth_code synth_batch_put_some(struct synth_batch *SYNTH_RESTRICT_ batch,
                                                           const uint64_t *SYNTH_RESTRICT_ items, size_t count,
                                                           uint32_t tries, size_t *SYNTH_RESTRICT_ put);
/** synth_batch_try_take, made again as in synth_batch_put. */
SYNTH_MUST_USE SYNTH_CALL_ synth_code synth_batch_take(struct synth_batch *SYNTH_RESTRICT_ batch,
                                                       uint64_t *SYNTH_RESTRICT_ items, size_t room, uint32_t tries,
                                                       size_t *SYNTH_RESTRICT_ count);
/** synth_batch_try_take_some, made again as in synth_batch_put. */
SYNTH_MUST_USE SYNTH_CALL_ synth_code synth_batch_take_some(struct synth_batch *SYNTH_RESTRICT_ batch,
                                                            uint64_t *SYNTH_RESTRICT_ items, size_t room,
                                                            uint32_t tries, size_t *SYNTH_RESTRICT_ count);

/** synth_batch_try_take_one, made again as in synth_batch_put. */
SYNTH_MUST_USE SYNTH_CALL_ synth_code synth_batch_take_one(struct synth_batch *SYNTH_RESTRICT_ batch,
                                                           uint64_t *SYNTH_RESTRICT_ item, uint32_t tries);

/**
 * `count` becomes a hint of how many items are in the queue, published or not, which other ends change meanwhile.
 * @return SYNTH_EMPTY_HANDLE.
 */
SYNTH_CALL_ synth_code synth_batch_len(const struct synth_batch *batch, uint64_t *count);

/** What a look at a batch queue found. The numbers were found one after the other, and may have changed since. */
struct synth_batch_status {
    uint64_t tail;      /**< the position of the next item that is taken */
    uint64_t published; /**< all items before this position are published; below `head`, a put hasn't ended */
    uint64_t head;      /**< the position of the next item that is put, found last */
    bool shut;          /**< whether the queue is shut */
};

/**
 * A look for whoever watches the queue: `head` less `tail` is its depth. If `published` stays where it is, below
 * `head`, a thread is held up within its put, and so are the takers of what was put after it. A look makes a load for
 * each batch from `tail` to `published`: with 4,194,304 batches of one item there it takes 31 ms. synth_batch_len makes
 * two loads.
 * @return SYNTH_EMPTY_HANDLE.
 */
SYNTH_CALL_ synth_code synth_batch_look(const struct synth_batch *batch, struct synth_batch_status *status);

/**
 * `places` becomes how many places the queue has.
 * @return SYNTH_EMPTY_HANDLE.
 */
SYNTH_CALL_ synth_code synth_batch_capacity(const struct synth_batch *batch, size_t *places);

/**
 * Shuts the queue for puts, for good. What was put can still be taken. SYNTH_OK is answered to one call alone.
 * @return SYNTH_EMPTY_HANDLE; SYNTH_CLOSED: it was shut already.
 */
SYNTH_CALL_ synth_code synth_batch_shut(struct synth_batch *batch);

/**
 * Ends the queue by a handle to which all others were joined, and empties it. The items left go to `left`, in their
 * order; `room` is at least the number of places. SYNTH_BROKEN also ends the queue, and sets what SYNTH_OK sets: a
 * thread was ended within a put, or left it by longjmp. The items of that put are missing; those put after it are in
 * `left`. A taking that was left so isn't noticed: its items count as taken.
 * @return SYNTH_EMPTY_HANDLE; SYNTH_SHORT_BUFFER; SYNTH_OPEN: always if others were freed; SYNTH_BROKEN.
 */
SYNTH_MUST_USE SYNTH_CALL_ synth_code synth_batch_finish(struct synth_batch *SYNTH_RESTRICT_ batch,
                                                         uint64_t *SYNTH_RESTRICT_ left, size_t room,
                                                         struct synth_batch_totals *SYNTH_RESTRICT_ totals);

/**
 * Gives a queue up of which an end was lost or freed: shuts it, takes what can be taken, up to `room` items, and frees
 * this handle. Sets `count` to how many items are in `items`. This is no account of the queue: what other ends took,
 * what a lost end had reserved or was taking, and what came after that or had no room, isn't among them.
 * @return SYNTH_EMPTY_HANDLE.
 */
SYNTH_CALL_ synth_code synth_batch_abandon(struct synth_batch *SYNTH_RESTRICT_ batch, uint64_t *SYNTH_RESTRICT_ items,
                                           size_t room, size_t *SYNTH_RESTRICT_ count);

/**
 * Empties the handle, which is then never joined, so no finish succeeds. The last handle that is freed takes the queue
 * with it, and the items left.
 * @return SYNTH_EMPTY_HANDLE.
 */
SYNTH_CALL_ synth_code synth_batch_free(struct synth_batch *batch);

/** @} */

/**
 * @defgroup queue Claim queues
 * Queues of 64-bit items, of 64 or 256 places, for any number of producers and takers. Any handle may put and take.
 *
 * A position counts the items of a queue from its first one on, and is used once: a queue takes 4,294,967,295 items
 * less its first position, and is then SPENT. The order of a queue is that of its positions. One put is one run of
 * positions, with no other's item between them: it first gets the positions, by one step, and then raises its items one
 * by one, and an item can be taken once it is raised. So a thread that sleeps within its put holds up the takers of all
 * items after its own, and no producer while there is room. A taking frees its place by the step that takes, so a queue
 * with a place for each token that goes round in it is never FULL. A line is the items up to and with the first that is
 * 10, the code of a line feed.
 * @{ */

/** An end of a claim queue. */
struct synth_queue {
    void *at;  /**< the library's own */
    bool full; /**< whether it has an end */
};

/** An empty handle. */
#define SYNTH_QUEUE_INIT {SYNTH_NULL_, false}

/** What a claim queue had at its end. */
struct synth_queue_totals {
    uint32_t first; /**< its first position */
    uint32_t put;   /**< how many items were put */
    uint32_t taken; /**< how many were taken; they are the first of those put */
    size_t left;    /**< how many were left, all others */
};

/**
 * Makes an empty queue with so many places, 64 or 256, whose first position is `first`, and fills `queue`, its only
 * handle.
 * @return SYNTH_FULL_HANDLE; SYNTH_BAD_NUMBER: other places; SYNTH_NO_MEMORY.
 */
SYNTH_MUST_USE SYNTH_CALL_ synth_code synth_queue_new(uint32_t places, uint32_t first, struct synth_queue *queue);

/**
 * Fills `other`, one more handle of the queue, for another thread, as synth_batch_split does.
 * @return SYNTH_EMPTY_HANDLE: `queue`; SYNTH_FULL_HANDLE: `other`; SYNTH_NO_SHARE; SYNTH_NO_MEMORY.
 */
SYNTH_MUST_USE SYNTH_CALL_ synth_code synth_queue_split(struct synth_queue *SYNTH_RESTRICT_ queue,
                                                        struct synth_queue *SYNTH_RESTRICT_ other);

/**
 * Joins `other`, a handle of the same queue, to `queue`, and empties it. Both are the calling thread's.
 * @return SYNTH_EMPTY_HANDLE: either one; SYNTH_OTHER_OBJECT: as of a batch queue.
 */
SYNTH_MUST_USE SYNTH_CALL_ synth_code synth_queue_join(struct synth_queue *SYNTH_RESTRICT_ queue,
                                                       struct synth_queue *SYNTH_RESTRICT_ other);

/**
 * One try to put `count` items, 1 to as many as there are places, in their order.
 * @return SYNTH_EMPTY_HANDLE; SYNTH_NO_ITEMS; SYNTH_TOO_LONG; SYNTH_CLOSED; SYNTH_SPENT: fewer positions are left;
 * SYNTH_FULL: there was no room for all of them; SYNTH_LOST: another end put first.
 */
SYNTH_MUST_USE SYNTH_CALL_ synth_code synth_queue_try_put(struct synth_queue *SYNTH_RESTRICT_ queue,
                                                          const uint64_t *SYNTH_RESTRICT_ items, size_t count,
                                                          struct synth_positions *SYNTH_RESTRICT_ positions);

/**
 * One try to take the first item left. `tail` becomes the position that was found, after LOST and EMPTY.
 * @return SYNTH_EMPTY_HANDLE; then CLOSED, LOST or EMPTY, of which CLOSED is looked at first. SYNTH_CLOSED: nothing
 * will ever come; SYNTH_LOST: another end took first; SYNTH_EMPTY: the item there wasn't raised, and more may come.
 */
SYNTH_MUST_USE SYNTH_CALL_ synth_code synth_queue_try_take(struct synth_queue *SYNTH_RESTRICT_ queue,
                                                           uint64_t *SYNTH_RESTRICT_ item,
                                                           uint64_t *SYNTH_RESTRICT_ tail);

/**
 * Takes the first items left, one by one, until one is refused or `room` items are taken, and sets `count`, 1 to
 * `room`. Each is a taking of its own, so other ends' takings may come between them. `tail` becomes the position that
 * the refused one found, after LOST and EMPTY, and after OK too, where it is 0 if none was refused so.
 * @return SYNTH_EMPTY_HANDLE; SYNTH_SHORT_BUFFER: `room` is 0; SYNTH_CLOSED, SYNTH_LOST, SYNTH_EMPTY: as of a try to
 * take, if the first one was refused.
 */
SYNTH_MUST_USE SYNTH_CALL_ synth_code synth_queue_take_up_to(struct synth_queue *SYNTH_RESTRICT_ queue,
                                                             uint64_t *SYNTH_RESTRICT_ items, size_t room,
                                                             size_t *SYNTH_RESTRICT_ count,
                                                             uint64_t *SYNTH_RESTRICT_ tail);

/**
 * One try to take the first line left, by one taking: the items up to and with the first that is 10, or as many items
 * as there are places, and sets `count`. So no other end's item lies within it. `room` is at least the number of
 * places. `tail` becomes the position that was found, after LOST and EMPTY.
 * @return SYNTH_EMPTY_HANDLE; SYNTH_SHORT_BUFFER; SYNTH_EMPTY: the item at `tail` wasn't raised, and up to it there was
 * no whole line; SYNTH_LOST; SYNTH_CLOSED. A rest without an end of line in a shut queue is EMPTY: take it item by
 * item.
 */
SYNTH_MUST_USE SYNTH_CALL_ synth_code synth_queue_try_take_line(struct synth_queue *SYNTH_RESTRICT_ queue,
                                                                uint64_t *SYNTH_RESTRICT_ line, size_t room,
                                                                size_t *SYNTH_RESTRICT_ count,
                                                                uint64_t *SYNTH_RESTRICT_ tail);

/** synth_queue_try_put, made again as in synth_batch_put. */
SYNTH_MUST_USE SYNTH_CALL_ synth_code synth_queue_put(struct synth_queue *SYNTH_RESTRICT_ queue,
                                                      const uint64_t *SYNTH_RESTRICT_ items, size_t count,
                                                      uint32_t tries);
/** synth_queue_try_take, made again as in synth_batch_put. */
SYNTH_MUST_USE SYNTH_CALL_ synth_code synth_queue_take(struct synth_queue *SYNTH_RESTRICT_ queue,
                                                       uint64_t *SYNTH_RESTRICT_ item, uint32_t tries);

/** synth_queue_try_take_line, made again as in synth_batch_put. */
SYNTH_MUST_USE SYNTH_CALL_ synth_code synth_queue_take_line(struct synth_queue *SYNTH_RESTRICT_ queue,
                                                            uint64_t *SYNTH_RESTRICT_ line, size_t room,
                                                            uint32_t tries, size_t *SYNTH_RESTRICT_ count);

/** What a look at a claim queue found. The numbers were found one after the other, and may have changed since. */
struct synth_queue_status {
    uint32_t tail;   /**< the position of the next item that is taken */
    uint32_t head;   /**< the position of the next item that is put; 4,294,967,295 less `head` positions are left */
    uint32_t raised; /**< so many items are raised from the tail on, without a gap; found last, and not past `head` */
    bool shut;       /**< whether the queue is shut */
};

/**
 * A look for whoever watches the queue: `head` less `tail` is its depth. If `tail` stays where it is and `raised` is
 * less than the depth, a thread is held up within its put, and so are the takers of what was put after it.
 * @return SYNTH_EMPTY_HANDLE.
 */
SYNTH_CALL_ synth_code synth_queue_look(const struct synth_queue *queue, struct synth_queue_status *status);

/**
 * Shuts the queue for puts, for good. What was put can still be taken. SYNTH_OK is answered to one call alone.
 * @return SYNTH_EMPTY_HANDLE; SYNTH_CLOSED: it was shut already.
 */
SYNTH_CALL_ synth_code synth_queue_shut(struct synth_queue *queue);

/**
 * Ends the queue by a handle to which all others were joined, and empties it. The items left go to `left`, in their
 * order; `room` is at least the number of places.
 * @return SYNTH_EMPTY_HANDLE; SYNTH_SHORT_BUFFER; SYNTH_OPEN: always if others were freed.
 */
SYNTH_MUST_USE SYNTH_CALL_ synth_code synth_queue_finish(struct synth_queue *SYNTH_RESTRICT_ queue,
                                                         uint64_t *SYNTH_RESTRICT_ left, size_t room,
                                                         struct synth_queue_totals *SYNTH_RESTRICT_ totals);

/**
 * Gives a queue up of which an end was lost or freed, as synth_batch_abandon does.
 * @return SYNTH_EMPTY_HANDLE.
 */
SYNTH_CALL_ synth_code synth_queue_abandon(struct synth_queue *SYNTH_RESTRICT_ queue, uint64_t *SYNTH_RESTRICT_ items,
                                           size_t room, size_t *SYNTH_RESTRICT_ count);

/**
 * Empties the handle, which is then never joined, so no finish succeeds. The last handle that is freed takes the queue
 * with it, and the items left.
 * @return SYNTH_EMPTY_HANDLE.
 */
SYNTH_CALL_ synth_code synth_queue_free(struct synth_queue *queue);

/** @} */

/**
 * @defgroup chain Chains of deferred procedures
 * A note, a number of 16 bits, means a procedure and what it is to work on; which one is the program's. Any handle
 * may chain notes, also one of a signal handler or of a time-critical thread: it never waits. One handle at a time runs
 * notes, in the order in which they were chained: the one whose note found nobody running. So what the procedures work
 * on needs no lock (Massalin and Pu, 1991).
 *
 *     if (synth_chain_try_chain(&end, note, NULL) == SYNTH_RUN) {
 *         uint16_t next;
 *         synth_code code;
 *         while ((code = synth_chain_next(&end, &next)) != SYNTH_OK)
 *             if (code == SYNTH_NOTE)
 *                 procedure(next);
 *     }
 *
 * Each note is handed out once. The procedure runs after synth_chain_next returns it, and before this handle calls it
 * again, so no two procedures of one chain run at once, and each sees all that the ones before it wrote. After
 * SYNTH_LEFT the handle that runs notes is given this one too, in this or in a later call. A chain has 32 places, and
 * takes 4,294,967,295 notes less its first position; it is then SPENT.
 * @{ */

/** An end of a chain. */
struct synth_chain {
    void *at;  /**< the library's own */
    bool full; /**< whether it has an end */
};

/** An empty handle. */
#define SYNTH_CHAIN_INIT {SYNTH_NULL_, false}

/** What a chain had at its end. */
struct synth_chain_totals {
    uint32_t put; /**< how many notes were chained */
    uint32_t run; /**< how many were handed out: all of them */
};

/**
 * Makes an empty chain whose first position is `first`, and fills `chain`, its only handle, which runs no notes.
 * @return SYNTH_FULL_HANDLE; SYNTH_NO_MEMORY.
 */
SYNTH_MUST_USE SYNTH_CALL_ synth_code synth_chain_new(uint32_t first, struct synth_chain *chain);

/**
 * Fills `other`, one more handle of the chain, for another thread, as synth_batch_split does. It runs no notes.
 * @return SYNTH_EMPTY_HANDLE: `chain`; SYNTH_FULL_HANDLE: `other`; SYNTH_NO_SHARE; SYNTH_NO_MEMORY.
 */
SYNTH_MUST_USE SYNTH_CALL_ synth_code synth_chain_split(struct synth_chain *SYNTH_RESTRICT_ chain,
                                                        struct synth_chain *SYNTH_RESTRICT_ other);

/**
 * Joins `other`, a handle of the same chain, to `chain`, and empties it. Both are the calling thread's. If `other` ran
 * notes, `chain` runs them from now on.
 * @return SYNTH_EMPTY_HANDLE: either one; SYNTH_OTHER_OBJECT: as of a batch queue.
 */
SYNTH_MUST_USE SYNTH_CALL_ synth_code synth_chain_join(struct synth_chain *SYNTH_RESTRICT_ chain,
                                                       struct synth_chain *SYNTH_RESTRICT_ other);

/**
 * One try to chain a note. SYNTH_RUN: this handle runs notes from now on, and has to call synth_chain_next until it
 * answers SYNTH_OK. SYNTH_LEFT: the handle that runs notes is given the note, which may be this one. `positions` is set
 * after SYNTH_FULL and SYNTH_LOST.
 * @return SYNTH_RUN or SYNTH_LEFT; or SYNTH_EMPTY_HANDLE; SYNTH_SPENT; SYNTH_FULL; SYNTH_LOST: another handle chained
 * first.
 */
SYNTH_MUST_USE SYNTH_CALL_ synth_code synth_chain_try_chain(struct synth_chain *SYNTH_RESTRICT_ chain, uint16_t note,
                                                            struct synth_positions *SYNTH_RESTRICT_ positions);

/** synth_chain_try_chain, made again as in synth_batch_put. */
SYNTH_MUST_USE SYNTH_CALL_ synth_code synth_chain_chain(struct synth_chain *chain, uint16_t note, uint32_t tries);

/**
 * The next note, of a handle that runs notes. SYNTH_NOTE: `note` is the next one, and the handle still runs notes.
 * SYNTH_AGAIN: a handle has chained meanwhile: call again. SYNTH_OK: no note is left, and the handle runs none from now
 * on.
 * @return SYNTH_NOTE, SYNTH_AGAIN or SYNTH_OK; or SYNTH_EMPTY_HANDLE; SYNTH_NOT_RUNNING.
 */
SYNTH_MUST_USE SYNTH_CALL_ synth_code synth_chain_next(struct synth_chain *SYNTH_RESTRICT_ chain,
                                                       uint16_t *SYNTH_RESTRICT_ note);

/**
 * Ends the chain by a handle to which all others were joined, and empties it. No note is left then.
 * @return SYNTH_EMPTY_HANDLE; SYNTH_RUNNING: it runs notes, and has to go on until SYNTH_OK; SYNTH_OPEN: always if
 * others were freed.
 */
SYNTH_MUST_USE SYNTH_CALL_ synth_code synth_chain_finish(struct synth_chain *SYNTH_RESTRICT_ chain,
                                                         struct synth_chain_totals *SYNTH_RESTRICT_ totals);

/**
 * Empties the handle, which is then never joined, so no finish succeeds. If it runs notes, nobody runs those that are
 * left. The last handle that is freed takes the chain with it.
 * @return SYNTH_EMPTY_HANDLE.
 */
SYNTH_CALL_ synth_code synth_chain_free(struct synth_chain *chain);

/** @} */

/**
 * @defgroup seat Meters
 * Eight gauges, a clock and sixteen slots for alarms, which any number of threads share. An end is a seat. A clock
 * counts ticks, from the one that `new` is given on, to 4,294,967,295 at the most. An alarm is due once the clock is at
 * its tick or past it; what becomes of one that is due is its caller's: nothing here sends a signal.
 * @{ */

/** An end of meters. */
struct synth_seat {
    void *at;  /**< the library's own */
    bool full; /**< whether it has an end */
};

/** An empty seat. */
#define SYNTH_SEAT_INIT {SYNTH_NULL_, false}

/** An alarm. */
struct synth_alarm {
    uint32_t due;     /**< the tick of the clock at which it is due */
    uint32_t element; /**< 0 to 63 */
    uint32_t signal;  /**< 0 to 15 */
};

/** The meters at their end. */
struct synth_seat_totals {
    uint64_t gauges[8];           /**< what each gauge showed */
    uint32_t clock;               /**< what the clock showed */
    uint32_t alarms;              /**< how many alarms were set still */
    struct synth_alarm alarm[16]; /**< these, in the order of their slots; after them zeros */
};

/**
 * Makes meters with all gauges at 0, this clock and no alarm, and fills `seat`, their only seat.
 * @return SYNTH_FULL_HANDLE; SYNTH_NO_MEMORY.
 */
SYNTH_MUST_USE SYNTH_CALL_ synth_code synth_seat_new(uint32_t clock, struct synth_seat *seat);

/**
 * Fills `other`, one more seat of the meters, for another thread, as synth_batch_split does.
 * @return SYNTH_EMPTY_HANDLE: `seat`; SYNTH_FULL_HANDLE: `other`; SYNTH_NO_SHARE; SYNTH_NO_MEMORY.
 */
SYNTH_MUST_USE SYNTH_CALL_ synth_code synth_seat_split(struct synth_seat *SYNTH_RESTRICT_ seat,
                                                       struct synth_seat *SYNTH_RESTRICT_ other);

/**
 * Joins `other`, a seat of the same meters, to `seat`, and empties it. Both are the calling thread's.
 * @return SYNTH_EMPTY_HANDLE: either one; SYNTH_OTHER_OBJECT: as of a batch queue.
 */
SYNTH_MUST_USE SYNTH_CALL_ synth_code synth_seat_join(struct synth_seat *SYNTH_RESTRICT_ seat,
                                                      struct synth_seat *SYNTH_RESTRICT_ other);

/**
 * Adds `amount` to the gauge 0 to 7, modulo 2^64, by one step, and sets `before` to the gauge's value before.
 * @return SYNTH_EMPTY_HANDLE; SYNTH_BAD_NUMBER.
 */
SYNTH_CALL_ synth_code synth_seat_tick(struct synth_seat *SYNTH_RESTRICT_ seat, uint32_t gauge, uint64_t amount,
                                       uint64_t *SYNTH_RESTRICT_ before);

/**
 * One try to move the clock on by one tick. `clock` becomes the clock after; after SYNTH_LOST, the clock found.
 * @return SYNTH_EMPTY_HANDLE; SYNTH_SPENT: the clock is 4,294,967,295, and stays there; SYNTH_LOST: another seat moved
 * it on first.
 */
SYNTH_MUST_USE SYNTH_CALL_ synth_code synth_seat_try_advance(struct synth_seat *SYNTH_RESTRICT_ seat,
                                                             uint32_t *SYNTH_RESTRICT_ clock);

/**
 * One try to set an alarm in the first empty slot. `slot` becomes that one, 0 to 15, by which the alarm can be
 * cancelled; after SYNTH_LOST, the slot that was lost.
 * @return SYNTH_EMPTY_HANDLE; SYNTH_BAD_NUMBER: of the alarm; SYNTH_NO_ROOM: each slot was found taken, one after the
 * other; SYNTH_LOST: another seat took the slot first.
 */
SYNTH_MUST_USE SYNTH_CALL_ synth_code synth_seat_try_set(struct synth_seat *SYNTH_RESTRICT_ seat,
                                                         const struct synth_alarm *SYNTH_RESTRICT_ alarm,
                                                         uint32_t *SYNTH_RESTRICT_ slot);

/** synth_seat_try_advance, made again as in synth_batch_put. */
SYNTH_MUST_USE SYNTH_CALL_ synth_code synth_seat_advance(struct synth_seat *SYNTH_RESTRICT_ seat, uint32_t tries,
                                                         uint32_t *SYNTH_RESTRICT_ clock);
/** synth_seat_try_set, made again as in synth_batch_put. */
SYNTH_MUST_USE SYNTH_CALL_ synth_code synth_seat_set(struct synth_seat *SYNTH_RESTRICT_ seat,
                                                     const struct synth_alarm *SYNTH_RESTRICT_ alarm, uint32_t tries,
                                                     uint32_t *SYNTH_RESTRICT_ slot);

/**
 * `value` becomes the gauge, 0 to 7, by one load.
 * @return SYNTH_EMPTY_HANDLE; SYNTH_BAD_NUMBER.
 */
SYNTH_CALL_ synth_code synth_seat_gauge(const struct synth_seat *seat, uint32_t gauge, uint64_t *value);

/**
 * `clock` becomes the clock, by one load.
 * @return SYNTH_EMPTY_HANDLE.
 */
SYNTH_CALL_ synth_code synth_seat_clock(const struct synth_seat *seat, uint32_t *clock);

/**
 * Takes this alarm out of this slot, by one step. `cancelled` becomes true if it was there; else it was fired or
 * cancelled before, or never was there. Two alarms that are equal can't be distinguished.
 * @return SYNTH_EMPTY_HANDLE; SYNTH_BAD_NUMBER: the slot, or of the alarm.
 */
SYNTH_CALL_ synth_code synth_seat_cancel(struct synth_seat *SYNTH_RESTRICT_ seat, uint32_t slot,
                                         const struct synth_alarm *SYNTH_RESTRICT_ alarm,
                                         bool *SYNTH_RESTRICT_ cancelled);

/**
 * Looks at the clock once, and then takes out each alarm that is due at it, in the order of the slots, and sets
 * `count`, 0 to 16. An alarm that another seat takes first is passed over. `room` is at least 16.
 * @return SYNTH_EMPTY_HANDLE; SYNTH_SHORT_BUFFER.
 */
SYNTH_MUST_USE SYNTH_CALL_ synth_code synth_seat_due(struct synth_seat *SYNTH_RESTRICT_ seat,
                                                     struct synth_alarm *SYNTH_RESTRICT_ alarms, size_t room,
                                                     size_t *SYNTH_RESTRICT_ count);

/**
 * Ends the meters by a seat to which all others were joined, and empties it.
 * @return SYNTH_EMPTY_HANDLE; SYNTH_OPEN: always if others were freed.
 */
SYNTH_MUST_USE SYNTH_CALL_ synth_code synth_seat_finish(struct synth_seat *SYNTH_RESTRICT_ seat,
                                                        struct synth_seat_totals *SYNTH_RESTRICT_ totals);

/**
 * Empties the seat, which is then never joined, so no finish succeeds. The last seat that is freed takes the meters
 * with it.
 * @return SYNTH_EMPTY_HANDLE.
 */
SYNTH_CALL_ synth_code synth_seat_free(struct synth_seat *seat);

/** @} */

/**
 * @defgroup line Lines of bytes
 * Bytes from one thread to another, such as a device's. A line has two halves, each a handle of a type of its own: what
 * is pushed into `synth_line_in` is popped from `synth_line_out`, in its order. Neither can be split.
 * @{ */

/** The half that pushes. */
struct synth_line_in {
    void *at;  /**< the library's own */
    bool full; /**< whether it has a half */
};

/** The half that pops. */
struct synth_line_out {
    void *at;  /**< the library's own */
    bool full; /**< whether it has a half */
};

/** An empty half that pushes. */
#define SYNTH_LINE_IN_INIT {SYNTH_NULL_, false}
/** An empty half that pops. */
#define SYNTH_LINE_OUT_INIT {SYNTH_NULL_, false}

/** How many bytes went through a line, modulo 2^64. */
struct synth_line_totals {
    size_t sent;     /**< how many were pushed */
    size_t received; /**< how many were popped */
    size_t left;     /**< how many were pushed and not popped */
};

/**
 * Makes an empty line with room for so many bytes, 1 to 65,536, and fills its two halves.
 * @return SYNTH_FULL_HANDLE: either one; SYNTH_BAD_NUMBER; SYNTH_NO_MEMORY.
 */
SYNTH_MUST_USE SYNTH_CALL_ synth_code synth_line_new(size_t room, struct synth_line_in *SYNTH_RESTRICT_ input,
                                                     struct synth_line_out *SYNTH_RESTRICT_ output);

/**
 * Pushes one byte after all others.
 * @return SYNTH_EMPTY_HANDLE; SYNTH_FULL: no place of the line was seen free. None is refused so before as many bytes
 * were pushed as the line has room for.
 */
SYNTH_MUST_USE SYNTH_CALL_ synth_code synth_line_push(struct synth_line_in *input, uint8_t byte);

/**
 * Pushes the first of `count` bytes, as many as there is room for, after all others and in their order. Sets `pushed`,
 * 1 to `count`.
 * @return SYNTH_EMPTY_HANDLE; SYNTH_NO_ITEMS: `count` is 0; SYNTH_FULL, as of synth_line_push.
 */
SYNTH_MUST_USE SYNTH_CALL_ synth_code synth_line_push_some(struct synth_line_in *SYNTH_RESTRICT_ input,
                                                           const uint8_t *SYNTH_RESTRICT_ bytes, size_t count,
                                                           size_t *SYNTH_RESTRICT_ pushed);

/**
 * Pops the oldest byte.
 * @return SYNTH_EMPTY_HANDLE; SYNTH_EMPTY.
 */
SYNTH_MUST_USE SYNTH_CALL_ synth_code synth_line_pop(struct synth_line_out *SYNTH_RESTRICT_ output,
                                                     uint8_t *SYNTH_RESTRICT_ byte);

/**
 * Pops the oldest bytes, in their order: as many as there are, and at most `room`. Sets `count`, 1 to `room`.
 * @return SYNTH_EMPTY_HANDLE; SYNTH_SHORT_BUFFER: `room` is 0; SYNTH_EMPTY.
 */
SYNTH_MUST_USE SYNTH_CALL_ synth_code synth_line_pop_some(struct synth_line_out *SYNTH_RESTRICT_ output,
                                                          uint8_t *SYNTH_RESTRICT_ bytes, size_t room,
                                                          size_t *SYNTH_RESTRICT_ count);

/**
 * Ends a line whose halves are both the calling thread's, and empties them. The bytes left go with the line.
 * @return SYNTH_EMPTY_HANDLE: either one; SYNTH_OTHER_OBJECT: they are of two lines.
 */
SYNTH_MUST_USE SYNTH_CALL_ synth_code synth_line_finish(struct synth_line_in *SYNTH_RESTRICT_ input,
                                                        struct synth_line_out *SYNTH_RESTRICT_ output,
                                                        struct synth_line_totals *SYNTH_RESTRICT_ totals);

/**
 * Empties a half, whose line is then never finished; the other half goes on alone.
 * @return SYNTH_EMPTY_HANDLE.
 */
SYNTH_CALL_ synth_code synth_line_free_in(struct synth_line_in *input);
/** See synth_line_free_in. */
SYNTH_CALL_ synth_code synth_line_free_out(struct synth_line_out *output);

/** @} */

/**
 * @defgroup hand Thread elements
 * What a scheduler keeps of its threads, shared by any number of workers. There are 64 elements, 0 to 63, eight
 * processors, 0 to 7, and sixteen wait queues, 0 to 15. An element is whatever the program runs in turns: a thread of
 * its own, a task, a connection. The table knows where it is, how many steps it has done, whether it is to stop, and
 * which signals it was sent. It runs nothing and stops nothing: that is the program's.
 *
 * PLACES. Between any two atomic steps each element is in exactly one place: on a processor, in the ready ring, among
 * the free elements, in a wait queue, in its stop cell, or held by a hand. It moves by these calls:
 *
 *     from           by                          to
 *     free elements  try_free                    held
 *     ready ring     try_next                    held
 *     a wait queue   try_wake, try_wake_before   held
 *     its stop cell  try_start                   held
 *     a processor    off                         held
 *     held           try_ready                   ready ring
 *     held           on                          a processor
 *     held           try_wait, try_wait_at       a wait queue
 *     held           try_park                    its stop cell, if its stop bit is set
 *     held           try_retire                  free elements
 *     held           give                        held by another hand, by way of its stop cell
 *
 * HANDS. An end of the table is a hand, and each worker has its own. What a hand holds no other hand can move, nor
 * what it has put on a processor. A hand serves some of the processors, which no other hand serves. Any hand may make
 * any call; if a call asks that the hand hold the element, or serve the processor, it answers SYNTH_NOT_HELD or
 * SYNTH_NOT_SERVED otherwise. If a hand is freed, what it held, and what is on its processors, is nobody's.
 *
 * ELEMENT QUEUES. The ready ring, the free elements and the wait queues are queues, first come first served, with
 * places for all: no move is refused for room. A move first claims a place, by one step, and then raises it. Until it
 * is raised no hand takes its element, or one after it, so a thread that sleeps within a move holds up the takers. A
 * position is used once, as in a claim queue: each element queue takes 4,294,967,295 elements less its first position,
 * and is then SPENT. The free elements have used 64 positions when the table is made.
 *
 * WAITS, AND NO LOST WAKE. An element waits until the program has something for it. Between the worker's look for that
 * and the wait another worker may bring it, find nobody waiting, and go: then the wake is lost. A ticket rules this
 * out. It is the number of notifies of a wait queue so far, modulo 2^32: that many after a ticket look like none.
 *
 *     who waits:  1. synth_hand_ticket  2. look, and go on if there is something  3. synth_hand_try_wait_at
 *     who wakes:  1. bring it, for all to see  2. synth_hand_notify
 *                 3. synth_hand_try_wake_before with that notify's head, until SYNTH_ALL_WOKEN
 *
 * The wait succeeds only if no notify came since the ticket; else it answers SYNTH_MOVED, and the hand still holds the
 * element, so that it can look again. Whoever waited before the notify is taken by its tries, or by another hand's.
 * READ THE TICKET BEFORE THE LOOK. What is looked at is seen by calls of this library, by seq_cst atomics or under a
 * lock. No one call wakes all, since such a call would wait for hands that have claimed a place and not raised it:
 * there the tries answer SYNTH_EMPTY, and the program may do something else in between.
 *
 * A TURN of a worker takes an element from the ready ring, looks whether it is to stop (try_park), and which signals
 * it has (try_deliver), puts it on a processor, does its step, counts that (step_done), takes it off, and moves it to
 * where it belongs.
 * @{ */

/** An end of thread elements. */
struct synth_hand {
    void *at;  /**< the library's own */
    bool full; /**< whether it has an end */
};

/** An empty hand. */
#define SYNTH_HAND_INIT {SYNTH_NULL_, false}

/** The state of an element, which a try found that was SYNTH_LOST. */
struct synth_element_state {
    uint16_t pending; /**< its pending signals, bit s for signal s */
    bool is_stopping; /**< its stop bit is set */
    bool is_parked;   /**< it is in its stop cell */
};

/** What a start did. */
enum synth_started {
    SYNTH_START_NOT_STOPPED = 0, /**< nothing: the stop bit was clear */
    SYNTH_START_CLEARED = 1,     /**< the stop bit was cleared; the element wasn't in its stop cell */
    SYNTH_START_HELD = 2         /**< the stop bit was cleared; the hand holds the element, which was in the cell */
};

/** The kinds of places. */
enum synth_place_kind {
    SYNTH_PLACE_PROCESSOR = 0, /**< on a processor */
    SYNTH_PLACE_READY = 1,     /**< in the ready ring */
    SYNTH_PLACE_FREE = 2,      /**< among the free elements */
    SYNTH_PLACE_WAIT = 3,      /**< in a wait queue */
    SYNTH_PLACE_STOPPED = 4,   /**< in its stop cell */
    SYNTH_PLACE_HELD = 5       /**< in the hand that ended the table */
};

/** Where an element is. */
struct synth_place {
    uint32_t kind;   /**< one of enum synth_place_kind */
    uint32_t number; /**< that of the processor or of the wait queue, else 0 */
};

/** The elements at the table's end, each list by their numbers. */
struct synth_hand_totals {
    struct synth_place place[64]; /**< where each is */
    uint64_t pc[64];              /**< how many steps each has done */
    uint16_t pending[64];         /**< the pending signals of each, bit s for signal s */
    uint64_t stops;               /**< whose stop bit is set, bit e for element e */
};

/**
 * Makes a table and fills `hand`, its only hand, which serves all processors. All elements are free, in the order of
 * their numbers. The first position of each element queue is `first`, at most 4,294,967,231.
 * @return SYNTH_FULL_HANDLE; SYNTH_BAD_NUMBER; SYNTH_NO_MEMORY.
 */
SYNTH_MUST_USE SYNTH_CALL_ synth_code synth_hand_new(uint32_t first, struct synth_hand *hand);

/**
 * Fills `other`, one more hand of the table, for another thread, as synth_batch_split does. It holds nothing, and
 * serves the processors of the mask, bit p for processor p, which the first hand serves no more.
 * @return SYNTH_EMPTY_HANDLE: `hand`; SYNTH_FULL_HANDLE: `other`; SYNTH_BAD_NUMBER: the mask is over 255;
 * SYNTH_NOT_SERVED: a processor of the mask isn't the first hand's; SYNTH_BUSY: an element is on one of them;
 * SYNTH_NO_SHARE; SYNTH_NO_MEMORY.
 */
SYNTH_MUST_USE SYNTH_CALL_ synth_code synth_hand_split(struct synth_hand *SYNTH_RESTRICT_ hand, uint32_t processors,
                                                       struct synth_hand *SYNTH_RESTRICT_ other);

/**
 * Joins `other`, a hand of the same table, to `hand`, and empties it. The first hand then has all that both had: the
 * elements that they held, their processors, and what is there. Both are the calling thread's.
 * @return SYNTH_EMPTY_HANDLE: either one; SYNTH_OTHER_OBJECT: as of a batch queue.
 */
SYNTH_MUST_USE SYNTH_CALL_ synth_code synth_hand_join(struct synth_hand *SYNTH_RESTRICT_ hand,
                                                      struct synth_hand *SYNTH_RESTRICT_ other);

/**
 * `held` becomes whether the hand holds the element.
 * @return SYNTH_EMPTY_HANDLE; SYNTH_BAD_NUMBER.
 */
SYNTH_CALL_ synth_code synth_hand_holds(const struct synth_hand *hand, uint32_t element, bool *held);

/**
 * `served` becomes whether the hand serves the processor.
 * @return SYNTH_EMPTY_HANDLE; SYNTH_BAD_NUMBER.
 */
SYNTH_CALL_ synth_code synth_hand_serves(const struct synth_hand *hand, uint32_t processor, bool *served);

/**
 * `element` becomes the one that the hand has on the processor.
 * @return SYNTH_EMPTY_HANDLE; SYNTH_BAD_NUMBER; SYNTH_VACANT: it has none there, or doesn't serve the processor.
 */
SYNTH_MUST_USE SYNTH_CALL_ synth_code synth_hand_on_processor(const struct synth_hand *hand, uint32_t processor,
                                                              uint32_t *element);

/**
 * Puts an element that the hand holds on a processor that it serves, by one step.
 * @return SYNTH_EMPTY_HANDLE; SYNTH_BAD_NUMBER: either one; SYNTH_NOT_HELD; SYNTH_NOT_SERVED; SYNTH_BUSY.
 */
SYNTH_MUST_USE SYNTH_CALL_ synth_code synth_hand_on(struct synth_hand *hand, uint32_t processor, uint32_t element);

/**
 * Takes the element off a processor that the hand serves, by one step. The hand then holds it.
 * @return SYNTH_EMPTY_HANDLE; SYNTH_BAD_NUMBER; SYNTH_NOT_SERVED; SYNTH_VACANT.
 */
SYNTH_MUST_USE SYNTH_CALL_ synth_code synth_hand_off(struct synth_hand *SYNTH_RESTRICT_ hand, uint32_t processor,
                                                     uint32_t *SYNTH_RESTRICT_ element);

/**
 * `steps` becomes how many steps an element has done that the hand holds or has on a processor.
 * @return SYNTH_EMPTY_HANDLE; SYNTH_BAD_NUMBER; SYNTH_NOT_HELD: neither holds nor has it on a processor.
 */
SYNTH_MUST_USE SYNTH_CALL_ synth_code synth_hand_pc(const struct synth_hand *hand, uint32_t element, uint64_t *steps);

/**
 * Counts one more step of an element that the hand holds or has on a processor; `steps` is then the new number.
 * @return SYNTH_EMPTY_HANDLE; SYNTH_BAD_NUMBER; SYNTH_NOT_HELD: neither holds nor has it on a processor; SYNTH_SPENT:
 * it has done 4,294,967,295 steps.
 */
SYNTH_MUST_USE SYNTH_CALL_ synth_code synth_hand_step_done(struct synth_hand *SYNTH_RESTRICT_ hand, uint32_t element,
                                                           uint64_t *SYNTH_RESTRICT_ steps);

/**
 * One try to take the oldest element of the ready ring, which the hand then holds. `tail` becomes the position that was
 * found, after SYNTH_LOST.
 * @return SYNTH_EMPTY_HANDLE; SYNTH_EMPTY: the first place wasn't raised, so the ring is empty, or a hand has claimed
 * that place and not raised it yet; SYNTH_LOST: another hand took first.
 */
SYNTH_MUST_USE SYNTH_CALL_ synth_code synth_hand_try_next(struct synth_hand *SYNTH_RESTRICT_ hand,
                                                          uint32_t *SYNTH_RESTRICT_ element,
                                                          uint32_t *SYNTH_RESTRICT_ tail);

/**
 * As try_next, of the free elements.
 * @return SYNTH_EMPTY_HANDLE; SYNTH_EMPTY; SYNTH_LOST.
 */
SYNTH_MUST_USE SYNTH_CALL_ synth_code synth_hand_try_free(struct synth_hand *SYNTH_RESTRICT_ hand,
                                                          uint32_t *SYNTH_RESTRICT_ element,
                                                          uint32_t *SYNTH_RESTRICT_ tail);

/**
 * As try_next, of a wait queue.
 * @return SYNTH_EMPTY_HANDLE; SYNTH_BAD_NUMBER; SYNTH_EMPTY; SYNTH_LOST.
 */
SYNTH_MUST_USE SYNTH_CALL_ synth_code synth_hand_try_wake(struct synth_hand *SYNTH_RESTRICT_ hand, uint32_t wait,
                                                          uint32_t *SYNTH_RESTRICT_ element,
                                                          uint32_t *SYNTH_RESTRICT_ tail);

/**
 * Counts one more notify of a wait queue, by one step: no wait by an older ticket succeeds from then on. `head` becomes
 * the position after the last place that was claimed before.
 * @return SYNTH_EMPTY_HANDLE; SYNTH_BAD_NUMBER.
 */
SYNTH_CALL_ synth_code synth_hand_notify(struct synth_hand *SYNTH_RESTRICT_ hand, uint32_t wait,
                                         uint32_t *SYNTH_RESTRICT_ head);

/**
 * One try to take the oldest element of a wait queue, as long as a place is left that was claimed before `head`,
 * which a notify of this queue gave. The hand then holds it. If another hand takes meanwhile it may be of a place after
 * `head`. `tail` becomes the position that was found, after SYNTH_LOST.
 * @return SYNTH_EMPTY_HANDLE; SYNTH_BAD_NUMBER; SYNTH_ALL_WOKEN: each place before `head` is taken, by this hand or
 * others; SYNTH_EMPTY: the first place wasn't raised, so try again: a hand has claimed it and not raised it yet, or
 * others took all meanwhile; SYNTH_LOST: another hand took first.
 */
SYNTH_MUST_USE SYNTH_CALL_ synth_code synth_hand_try_wake_before(struct synth_hand *SYNTH_RESTRICT_ hand,
                                                                 uint32_t wait, uint32_t head,
                                                                 uint32_t *SYNTH_RESTRICT_ element,
                                                                 uint32_t *SYNTH_RESTRICT_ tail);

/**
 * One try to put an element that the hand holds into the ready ring, as the last one. `head` becomes the position that
 * was found, after SYNTH_LOST.
 * @return SYNTH_EMPTY_HANDLE; SYNTH_BAD_NUMBER; SYNTH_NOT_HELD; SYNTH_SPENT: no position is left; SYNTH_LOST: another
 * hand put an element there first.
 */
SYNTH_MUST_USE SYNTH_CALL_ synth_code synth_hand_try_ready(struct synth_hand *SYNTH_RESTRICT_ hand, uint32_t element,
                                                           uint32_t *SYNTH_RESTRICT_ head);

/**
 * As try_ready, after the free elements.
 * @return SYNTH_EMPTY_HANDLE; SYNTH_BAD_NUMBER; SYNTH_NOT_HELD; SYNTH_SPENT; SYNTH_LOST.
 */
SYNTH_MUST_USE SYNTH_CALL_ synth_code synth_hand_try_retire(struct synth_hand *SYNTH_RESTRICT_ hand, uint32_t element,
                                                            uint32_t *SYNTH_RESTRICT_ head);

/**
 * As try_ready, into a wait queue; no ticket guards it against a lost wake. `notifies` becomes the number of notifies
 * that was found, after SYNTH_LOST.
 * @return SYNTH_EMPTY_HANDLE; SYNTH_BAD_NUMBER: either one; SYNTH_NOT_HELD; SYNTH_SPENT; SYNTH_LOST: another hand put
 * an element there first, or made a notify.
 */
SYNTH_MUST_USE SYNTH_CALL_ synth_code synth_hand_try_wait(struct synth_hand *SYNTH_RESTRICT_ hand, uint32_t element,
                                                          uint32_t wait, uint32_t *SYNTH_RESTRICT_ head,
                                                          uint32_t *SYNTH_RESTRICT_ notifies);

/**
 * `ticket` becomes the number of notifies of a wait queue.
 * @return SYNTH_EMPTY_HANDLE; SYNTH_BAD_NUMBER.
 */
SYNTH_CALL_ synth_code synth_hand_ticket(const struct synth_hand *hand, uint32_t wait, uint32_t *ticket);

/**
 * One try to put an element that the hand holds into a wait queue, if its number of notifies is the ticket still.
 * `head` becomes the position that was found, after SYNTH_LOST, and `notifies` the number of notifies, after SYNTH_LOST
 * and SYNTH_MOVED.
 * @return SYNTH_EMPTY_HANDLE; SYNTH_BAD_NUMBER: either one; SYNTH_NOT_HELD; SYNTH_SPENT: no position is left;
 * SYNTH_MOVED: a notify came since the ticket was read; SYNTH_LOST: another hand put an element there first, and the
 * ticket is good still.
 */
SYNTH_MUST_USE SYNTH_CALL_ synth_code synth_hand_try_wait_at(struct synth_hand *SYNTH_RESTRICT_ hand, uint32_t element,
                                                             uint32_t wait, uint32_t ticket,
                                                             uint32_t *SYNTH_RESTRICT_ head,
                                                             uint32_t *SYNTH_RESTRICT_ notifies);

/**
 * Sets the stop bit of an element, wherever it is, by one step. `was_clear` becomes whether it was clear. Whoever
 * holds the element next may park it.
 * @return SYNTH_EMPTY_HANDLE; SYNTH_BAD_NUMBER.
 */
SYNTH_CALL_ synth_code synth_hand_stop(struct synth_hand *SYNTH_RESTRICT_ hand, uint32_t element,
                                       bool *SYNTH_RESTRICT_ was_clear);

/**
 * One try to clear the stop bit of an element, wherever it is. `started` becomes one of enum synth_started: if the
 * element was in its stop cell the hand then holds it. `state` becomes what was found, after SYNTH_LOST.
 * @return SYNTH_EMPTY_HANDLE; SYNTH_BAD_NUMBER; SYNTH_LOST: another hand changed the element's state first.
 */
SYNTH_MUST_USE SYNTH_CALL_ synth_code synth_hand_try_start(struct synth_hand *SYNTH_RESTRICT_ hand, uint32_t element,
                                                           uint32_t *SYNTH_RESTRICT_ started,
                                                           struct synth_element_state *SYNTH_RESTRICT_ state);

/**
 * One try to put an element that the hand holds into its stop cell, if its stop bit is set. `parked` becomes whether it
 * is there; if the bit was clear the hand still holds it. `state` becomes what was found, after SYNTH_LOST.
 * @return SYNTH_EMPTY_HANDLE; SYNTH_BAD_NUMBER; SYNTH_NOT_HELD; SYNTH_LOST: another hand changed the element's state
 * first.
 */
SYNTH_MUST_USE SYNTH_CALL_ synth_code synth_hand_try_park(struct synth_hand *SYNTH_RESTRICT_ hand, uint32_t element,
                                                          bool *SYNTH_RESTRICT_ parked,
                                                          struct synth_element_state *SYNTH_RESTRICT_ state);

/**
 * Gives an element that `giver` holds to `receiver`, another hand of the same table. Both are the calling thread's.
 * This is no atomic step: `giver` sets the stop bit (stop) and parks the element (try_park), and then `receiver` starts
 * it (try_start). A park or a start that is LOST is made again. Between the park and the start the element is in its
 * stop cell, where any hand may start it. A stop by another hand meanwhile is undone: the start clears the bit.
 * @return SYNTH_EMPTY_HANDLE: either one, or they are one handle; SYNTH_BAD_NUMBER; SYNTH_NOT_HELD: `giver` doesn't
 * hold it; SYNTH_OTHER_OBJECT: both have the element, or serve one processor, as no two hands of one table do;
 * SYNTH_STOPPED: the stop bit was set already, so somebody wants the element stopped; SYNTH_LOST: another hand cleared
 * the stop bit before the park, and `giver` holds the element still; SYNTH_TAKEN: another hand started the element
 * first, so neither `giver` nor `receiver` holds it. After the other refusals all is as it was. Hands of two tables
 * that have nothing in common are not found out: the element then stays in its stop cell, and the start is made on the
 * element of this number in the other table.
 */
SYNTH_MUST_USE SYNTH_CALL_ synth_code synth_hand_give(struct synth_hand *giver, struct synth_hand *receiver,
                                                      uint32_t element);

/**
 * Makes a signal, 0 to 15, of an element pending, wherever the element is, by one step. `raised` becomes false if it
 * was pending already.
 * @return SYNTH_EMPTY_HANDLE; SYNTH_BAD_NUMBER: either one.
 */
SYNTH_CALL_ synth_code synth_hand_signal(struct synth_hand *SYNTH_RESTRICT_ hand, uint32_t element, uint32_t signal,
                                         bool *SYNTH_RESTRICT_ raised);

/**
 * `signals` becomes the mask of the pending signals of an element, wherever it is, by one load. They stay pending.
 * @return SYNTH_EMPTY_HANDLE; SYNTH_BAD_NUMBER.
 */
SYNTH_CALL_ synth_code synth_hand_pending(const struct synth_hand *hand, uint32_t element, uint32_t *signals);

/**
 * One try to deliver the pending signals of an element that the hand holds: `signals` becomes their mask, bit s for
 * signal s, and they are pending no more. `state` becomes what was found, after SYNTH_LOST.
 * @return SYNTH_EMPTY_HANDLE; SYNTH_BAD_NUMBER; SYNTH_NOT_HELD; SYNTH_LOST: another hand changed the element's state
 * first.
 */
SYNTH_MUST_USE SYNTH_CALL_ synth_code synth_hand_try_deliver(struct synth_hand *SYNTH_RESTRICT_ hand, uint32_t element,
                                                             uint32_t *SYNTH_RESTRICT_ signals,
                                                             struct synth_element_state *SYNTH_RESTRICT_ state);

/** synth_hand_try_next, made again as in synth_batch_put. */
SYNTH_MUST_USE SYNTH_CALL_ synth_code synth_hand_next(struct synth_hand *SYNTH_RESTRICT_ hand,
                                                      uint32_t *SYNTH_RESTRICT_ element, uint32_t tries);
/** synth_hand_try_free, made again as in synth_batch_put. */
SYNTH_MUST_USE SYNTH_CALL_ synth_code synth_hand_next_free(struct synth_hand *SYNTH_RESTRICT_ hand,
                                                           uint32_t *SYNTH_RESTRICT_ element, uint32_t tries);
/** synth_hand_try_wake, made again as in synth_batch_put. */
SYNTH_MUST_USE SYNTH_CALL_ synth_code synth_hand_wake(struct synth_hand *SYNTH_RESTRICT_ hand, uint32_t wait,
                                                      uint32_t *SYNTH_RESTRICT_ element, uint32_t tries);
/** synth_hand_try_wake_before, made again as in synth_batch_put. */
SYNTH_MUST_USE SYNTH_CALL_ synth_code synth_hand_wake_before(struct synth_hand *SYNTH_RESTRICT_ hand, uint32_t wait,
                                                             uint32_t head, uint32_t *SYNTH_RESTRICT_ element,
                                                             uint32_t tries);
/** synth_hand_try_ready, made again as in synth_batch_put. */
SYNTH_MUST_USE SYNTH_CALL_ synth_code synth_hand_ready(struct synth_hand *hand, uint32_t element, uint32_t tries);
/** synth_hand_try_retire, made again as in synth_batch_put. */
SYNTH_MUST_USE SYNTH_CALL_ synth_code synth_hand_retire(struct synth_hand *hand, uint32_t element, uint32_t tries);
/** synth_hand_try_wait, made again as in synth_batch_put. */
SYNTH_MUST_USE SYNTH_CALL_ synth_code synth_hand_wait(struct synth_hand *hand, uint32_t element, uint32_t wait,
                                                      uint32_t tries);
/** synth_hand_try_wait_at, made again as in synth_batch_put. */
SYNTH_MUST_USE SYNTH_CALL_ synth_code synth_hand_wait_at(struct synth_hand *hand, uint32_t element, uint32_t wait,
                                                         uint32_t ticket, uint32_t tries);
/** synth_hand_try_start, made again as in synth_batch_put. */
SYNTH_MUST_USE SYNTH_CALL_ synth_code synth_hand_start(struct synth_hand *SYNTH_RESTRICT_ hand, uint32_t element,
                                                       uint32_t tries, uint32_t *SYNTH_RESTRICT_ started);
/** synth_hand_try_park, made again as in synth_batch_put. */
SYNTH_MUST_USE SYNTH_CALL_ synth_code synth_hand_park(struct synth_hand *SYNTH_RESTRICT_ hand, uint32_t element,
                                                      uint32_t tries, bool *SYNTH_RESTRICT_ parked);
/** synth_hand_try_deliver, made again as in synth_batch_put. */
SYNTH_MUST_USE SYNTH_CALL_ synth_code synth_hand_deliver(struct synth_hand *SYNTH_RESTRICT_ hand, uint32_t element,
                                                         uint32_t tries, uint32_t *SYNTH_RESTRICT_ signals);

/**
 * Ends the table by a hand to which all others were joined, empties it, and reports each element.
 * @return SYNTH_EMPTY_HANDLE; SYNTH_OPEN: always if others were freed.
 */
SYNTH_MUST_USE SYNTH_CALL_ synth_code synth_hand_finish(struct synth_hand *SYNTH_RESTRICT_ hand,
                                                        struct synth_hand_totals *SYNTH_RESTRICT_ totals);

/**
 * Empties the hand, which is then never joined, so no finish succeeds. The last hand that is freed takes the table with
 * it.
 * @return SYNTH_EMPTY_HANDLE.
 */
SYNTH_CALL_ synth_code synth_hand_free(struct synth_hand *hand);

/** @} */

#ifdef __cplusplus
}
#endif

#include "synthesis/inline.h"

#endif
