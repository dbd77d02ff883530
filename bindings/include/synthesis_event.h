/*
 * An event count for C11 and C++17: a thread sleeps until another one has put something, and a notify that finds
 * nobody waiting costs one load. The calls of synthesis.h never sleep; this header is for programs that want to. It
 * needs neither that header nor the library, and works with any condition.
 *
 * NOTHING HERE IS PROVED. bindings/c/events.c tries a model of the protocol over all schedules of two and three
 * threads, and bindings/c/sleepers.c tries this code by real threads.
 *
 *     the waiter:    1. ticket = synth_event_prepare(&event)
 *                    2. look again; if there is something, synth_event_cancel(&event)
 *                    3. else synth_event_wait(&event, ticket, limit), and begin anew
 *     the notifier:  1. put it, for all to see    2. synth_event_notify_one(&event), or notify_all
 *
 * After each prepare the same thread makes one cancel or one wait. A wait may return though nothing was put: look
 * again. SYNTH_WAIT_WHILE does all that a waiter does. The two functions below sleep while a queue is empty or full,
 * and return the code of the last try. SYNTH_EMPTY and SYNTH_FULL mean that the time is over. `items` and `places` are
 * two events of the queue. synthesis_wait.h has such functions for the queues of synthesis.h.
 *
 *     synth_code take_wait(struct synth_queue *end, uint64_t *item, int64_t limit)
 *     {
 *         synth_code code;
 *         SYNTH_WAIT_WHILE(&items, limit, (code = synth_queue_take(end, item, UINT32_MAX)) == SYNTH_EMPTY);
 *         if (code == SYNTH_OK) synth_event_notify_one(&places);
 *         return code;
 *     }
 *
 *     synth_code put_wait(struct synth_queue *end, uint64_t item, int64_t limit)
 *     {
 *         synth_code code;
 *         SYNTH_WAIT_WHILE(&places, limit, (code = synth_queue_put(end, &item, 1, UINT32_MAX)) == SYNTH_FULL);
 *         if (code == SYNTH_OK) synth_event_notify_one(&items);
 *         return code;
 *     }
 *
 * After a shut, call notify_all of both events.
 *
 * ONE OR ALL. notify_one wakes at least one of the waiters, if there are any. It is enough under two conditions:
 *
 * - Any waiter will do. A waiter with a longer put may find no room where another one would: there, notify all.
 * - A wake is passed on, as SYNTH_WAIT_WHILE does: a thread that has waited, and then found something, notifies one
 *   more. So does one that has waited and goes without a look, as by an exception. One put may make several items
 *   visible, as a run does, or an item before others that are published already. Its notify wakes one taker; the second
 *   taker is woken by the first one. SYNTH_CLOSED is passed on too.
 *
 * notify_all needs neither.
 *
 * NO LOST WAKE-UP. `waiters` counts the threads between prepare and the end of cancel or wait. A prepare adds 1 to it,
 * and then reads the ticket: the number of notifies. A notify loads `waiters`; if that isn't 0, it adds 1 to
 * `notifies`, and then wakes. Each of these steps is sequentially consistent, and so are the publication before the
 * notify and the look after the prepare. So all of them have one order, in which one of these holds:
 *
 * - The notify loads `waiters` before the prepare. Then the publication comes before the look, which finds it.
 * - The notify finds the waiter, and adds to `notifies` before the ticket is read. Then the publication comes before
 *   the look, too.
 * - The notify finds the waiter, and adds to `notifies` after the ticket is read. The step that puts a thread to sleep
 *   compares its ticket with `notifies`. If it comes after the notify's addition, the ticket is old, and the thread
 *   doesn't sleep. If it comes before, the thread sleeps already, and the wake finds it.
 *
 * This is the argument of Dekker's mutual exclusion: each side writes its own word first, and then reads the other's.
 *
 * THE CONDITION is published and looked at by calls of this library, by seq_cst atomics, or under one lock that both
 * sides take. If it is published by weaker atomics, put atomic_thread_fence(memory_order_seq_cst) between the
 * publication and the notify, and between the prepare and the look. The threads that a notify woke see all that was
 * done before it.
 *
 * THE TICKET is a number modulo 2^32. Only a notify that finds a waiter is counted. 4,294,967,295 of them fit between a
 * prepare and the sleep of its wait; 2^32 of them look like none.
 *
 * SLEEPING is by futex on 64-bit Linux, with limits by the monotonic clock. Elsewhere, and if SYNTH_EVENT_PTHREAD is
 * defined, it is by a mutex and a condition variable, with limits by the wall clock. All files of a program that share
 * an event agree on this. An event is of one process, and outlives each call on it. No thread is cancelled within a
 * wait, or leaves it by longjmp. A notify by futex may be made in a signal handler.
 *
 * The idea is that of event counts: Reed and Kanodia, "Synchronization with eventcounts and sequencers", 1979; with the
 * announced waiter, Vyukov's eventcount, and EventCount of folly.
 */
#ifndef SYNTHESIS_EVENT_H
#define SYNTHESIS_EVENT_H

#include <stdbool.h>
#include <stdint.h>
#include <time.h>

#ifdef __cplusplus
#include <atomic>
#else
#include <stdatomic.h>
#endif

#if !(defined(__linux__) && defined(__LP64__)) && !defined(SYNTH_EVENT_PTHREAD)
#define SYNTH_EVENT_PTHREAD
#endif

#include <errno.h>
#ifdef SYNTH_EVENT_PTHREAD
#include <pthread.h>
#else
#include <limits.h>
#include <sys/syscall.h>
#endif

#ifdef __cplusplus
typedef std::atomic<uint32_t> synth_event_word;
#define SYNTH_EVENT_ZERO_ {0}
#else
typedef _Atomic uint32_t synth_event_word;
#define SYNTH_EVENT_ZERO_ 0
#endif

/* An event. Its fields are this header's alone. Keep it apart from words that are written often. */
typedef struct synth_event {
    synth_event_word waiters;  /* how many threads are between prepare and the end of cancel or wait */
    synth_event_word notifies; /* how many notifies found a waiter, modulo 2^32 */
#ifdef SYNTH_EVENT_PTHREAD
    pthread_mutex_t lock; /* held while `notifies` changes, and while it is compared before a sleep */
    pthread_cond_t moved;
#endif
} synth_event;

/* `synth_event event = SYNTH_EVENT_INIT;` has no waiters. */
#ifdef SYNTH_EVENT_PTHREAD
#define SYNTH_EVENT_INIT {SYNTH_EVENT_ZERO_, SYNTH_EVENT_ZERO_, PTHREAD_MUTEX_INITIALIZER, PTHREAD_COND_INITIALIZER}
#else
#define SYNTH_EVENT_INIT {SYNTH_EVENT_ZERO_, SYNTH_EVENT_ZERO_}
#endif

/* A limit, or a deadline, that never comes. */
#define SYNTH_EVENT_NO_LIMIT ((int64_t)-1)

#define SYNTH_EVENT_SECOND_ ((int64_t)1000000000)

#ifndef SYNTH_EVENT_PTHREAD
/* What linux/futex.h has: a C library may come without it. */
#define SYNTH_EVENT_SLEEP_ 137 /* FUTEX_WAIT_BITSET_PRIVATE */
#define SYNTH_EVENT_WAKE_ 129  /* FUTEX_WAKE_PRIVATE */
#define SYNTH_EVENT_ANY_ (-1)  /* FUTEX_BITSET_MATCH_ANY: all bits */

/* Two functions of the C library, which some language modes don't declare. */
#ifdef __cplusplus
extern "C" {
#endif
long synth_event_syscall_(long number, ...) __asm__("syscall");
int synth_event_clock_(int clock, struct timespec *now) __asm__("clock_gettime");
#ifdef __cplusplus
}
#endif
#endif

/* The time in nanoseconds, by the clock of the limits. */
static inline int64_t synth_event_now(void)
{
    struct timespec now = {0, 0};
#ifdef SYNTH_EVENT_PTHREAD
    (void)timespec_get(&now, TIME_UTC);
#else
    const int monotonic = 1;
    (void)synth_event_clock_(monotonic, &now);
#endif
    return (int64_t)now.tv_sec * SYNTH_EVENT_SECOND_ + (int64_t)now.tv_nsec;
}

/* The time that is so many nanoseconds from now. Of a negative number: SYNTH_EVENT_NO_LIMIT. */
static inline int64_t synth_event_deadline(int64_t limit)
{
    if (limit < 0) {
        return SYNTH_EVENT_NO_LIMIT;
    }
    int64_t now = synth_event_now();
    return limit > INT64_MAX - now ? INT64_MAX : now + limit;
}

static inline struct timespec synth_event_time_(int64_t deadline)
{
    struct timespec time = {0, 0};
    time.tv_sec = (time_t)(deadline / SYNTH_EVENT_SECOND_);
    time.tv_nsec = (long)(deadline % SYNTH_EVENT_SECOND_);
    return time;
}

#ifdef SYNTH_EVENT_PTHREAD

/* Sleeps until the number of notifies isn't the ticket any more: true. False if the deadline came first. */
static inline bool synth_event_sleep_(synth_event *event, uint32_t ticket, int64_t deadline)
{
    struct timespec until = synth_event_time_(deadline);
    int ended = 0;
    pthread_mutex_lock(&event->lock);
    while (atomic_load(&event->notifies) == ticket && ended != ETIMEDOUT) {
        ended = deadline < 0 ? pthread_cond_wait(&event->moved, &event->lock)
                             : pthread_cond_timedwait(&event->moved, &event->lock, &until);
    }
    bool woken = atomic_load(&event->notifies) != ticket;
    pthread_mutex_unlock(&event->lock);
    return woken;
}

/* Counts a notify, and wakes one sleeper or all. Nobody begins to sleep between the two. */
static inline void synth_event_wake_(synth_event *event, bool all)
{
    pthread_mutex_lock(&event->lock);
    atomic_fetch_add(&event->notifies, 1u);
    if (all) {
        pthread_cond_broadcast(&event->moved);
    } else {
        pthread_cond_signal(&event->moved);
    }
    pthread_mutex_unlock(&event->lock);
}

#else

/* Sleeps until a notify, if the number of notifies is the ticket still: true. False if the deadline came first. */
static inline bool synth_event_sleep_(synth_event *event, uint32_t ticket, int64_t deadline)
{
    struct timespec until = synth_event_time_(deadline);
    long slept = -1;
    while (atomic_load(&event->notifies) == ticket && slept != 0) {
        slept = synth_event_syscall_(SYS_futex, &event->notifies, SYNTH_EVENT_SLEEP_, ticket,
                                     deadline < 0 ? (void *)0 : (void *)&until, (void *)0, SYNTH_EVENT_ANY_);
        if (slept != 0 && errno == ETIMEDOUT) {
            return atomic_load(&event->notifies) != ticket;
        }
    }
    return true;
}

/* Counts a notify, and wakes one sleeper or all. */
static inline void synth_event_wake_(synth_event *event, bool all)
{
    atomic_fetch_add(&event->notifies, 1u);
    (void)synth_event_syscall_(SYS_futex, &event->notifies, SYNTH_EVENT_WAKE_, all ? INT_MAX : 1);
}

#endif

/* Makes an event without waiters in memory that has none yet, as SYNTH_EVENT_INIT does. */
static inline void synth_event_init(synth_event *event)
{
    atomic_init(&event->waiters, 0u);
    atomic_init(&event->notifies, 0u);
#ifdef SYNTH_EVENT_PTHREAD
    pthread_mutex_init(&event->lock, (pthread_mutexattr_t *)0);
    pthread_cond_init(&event->moved, (pthread_condattr_t *)0);
#endif
}

/* Ends an event that no thread uses any more. Some systems have memory for a mutex; by futex it does nothing. */
static inline void synth_event_destroy(synth_event *event)
{
#ifdef SYNTH_EVENT_PTHREAD
    pthread_cond_destroy(&event->moved);
    pthread_mutex_destroy(&event->lock);
#else
    (void)event;
#endif
}

/* Announces a waiter, and returns its ticket. Look again after this. */
static inline uint32_t synth_event_prepare(synth_event *event)
{
    atomic_fetch_add(&event->waiters, 1u);
    return atomic_load(&event->notifies);
}

/* Takes the announcement back. */
static inline void synth_event_cancel(synth_event *event)
{
    atomic_fetch_sub(&event->waiters, 1u);
}

/*
 * Sleeps until a notify that came after the ticket, and returns true; or until the deadline, and returns false if no
 * such notify came. The announcement is taken back either way. Look again after both.
 */
static inline bool synth_event_wait_until(synth_event *event, uint32_t ticket, int64_t deadline)
{
    bool woken = synth_event_sleep_(event, ticket, deadline);
    atomic_fetch_sub(&event->waiters, 1u);
    return woken;
}

/* The same, with a limit in nanoseconds from now on. A negative one, such as SYNTH_EVENT_NO_LIMIT, is none. */
static inline bool synth_event_wait(synth_event *event, uint32_t ticket, int64_t limit)
{
    return synth_event_wait_until(event, ticket, synth_event_deadline(limit));
}

/* Wakes at least one of the waiters. One load, if there are none. */
static inline void synth_event_notify_one(synth_event *event)
{
    if (atomic_load(&event->waiters) != 0) {
        synth_event_wake_(event, false);
    }
}

/* Wakes all waiters. One load, if there are none. */
static inline void synth_event_notify_all(synth_event *event)
{
    if (atomic_load(&event->waiters) != 0) {
        synth_event_wake_(event, true);
    }
}

struct synth_event_waiter_ { /* a thread at SYNTH_WAIT_WHILE */
    synth_event *event;
    int64_t limit;
    int64_t deadline; /* once the condition was true */
    uint32_t ticket;
    bool is_announced; /* it is between a prepare and its cancel or wait */
    bool has_waited;
    bool is_late; /* a wait has ended by the deadline */
};

/* The condition is true: announces the thread, or sleeps if it is announced. False: the time is over. */
static inline bool synth_event_go_on_(struct synth_event_waiter_ *waiter)
{
    if (waiter->is_announced) {
        waiter->is_late = !synth_event_wait_until(waiter->event, waiter->ticket, waiter->deadline);
        waiter->is_announced = false;
        waiter->has_waited = true;
    } else if (waiter->is_late) {
        return false;
    } else {
        if (!waiter->has_waited) {
            waiter->deadline = synth_event_deadline(waiter->limit);
        }
        waiter->ticket = synth_event_prepare(waiter->event);
        waiter->is_announced = true;
    }
    return true;
}

/* The condition is false: takes the announcement back, and passes the wake on. */
static inline bool synth_event_end_(struct synth_event_waiter_ *waiter)
{
    if (waiter->is_announced) {
        synth_event_cancel(waiter->event);
    }
    if (waiter->has_waited) {
        synth_event_notify_one(waiter->event);
    }
    return false;
}

#define SYNTH_WAIT_WHILE_(of, time, condition)                                                                         \
    do {                                                                                                               \
        struct synth_event_waiter_ synth_waiter_ = {(of), (time), 0, 0, false, false, false};                          \
        while ((condition) ? synth_event_go_on_(&synth_waiter_) : synth_event_end_(&synth_waiter_)) {                  \
        }                                                                                                              \
    } while (0)

/*
 * A statement that sleeps on an event while a condition is true, at most for a limit in nanoseconds, of which
 * SYNTH_EVENT_NO_LIMIT is none. The condition is an expression, such as a try and a look at its code. It is computed
 * before each sleep, twice, and after it. Once it is false a thread that has slept notifies one more. Once the time is
 * over the statement ends too, and the condition was true at last. No condition leaves the statement, as by a throw.
 */
#define SYNTH_WAIT_WHILE(event, limit, ...) SYNTH_WAIT_WHILE_(event, limit, (__VA_ARGS__))

#endif
