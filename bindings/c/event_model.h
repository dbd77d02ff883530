/*
 * A model of synthesis_event.h. Each thread is a small state machine, and each of its moves is one atomic step.
 *
 * The queue is a claim queue: a taker finds the item of the tail once it is raised, in whatever order items are raised.
 * A step that isn't sequentially consistent may be left in a store buffer. A time-out, and a sleep that ends for no
 * reason, may come at any moment.
 */
#ifndef EVENT_MODEL_H
#define EVENT_MODEL_H
#include <stdbool.h>
#include <stdint.h>
#include <string.h>

enum { THREADS = 4, MOST_MOVES = 24 };

/* The next step of a thread. */
enum at {
    LOOK, ANNOUNCE, READ_TICKET, LOOK_AGAIN, COMPARE, SLEEP, ASLEEP, LATE, GIVE_BACK, CANCEL, /* a taker */
    LOCK, COMPARE_LOCKED, UNLOCK_AND_SLEEP, LOCK_AGAIN, LOCK_LATE, UNLOCK,  /* its sleep by mutex and condition */
    CLAIM, RAISE, SHUT,                                                     /* a putter; a thread that shuts */
    SEE_WAITERS, NOTIFY_LOCK, NOTIFY_COUNT, NOTIFY_WAKE, NOTIFY_UNLOCK,     /* a notify, by any thread */
    END
};

/* The mistakes that can be planted. */
enum mistake {
    NOTHING,
    SEES_BEFORE_PUTTING,   /* a notify loads `waiters` before its put is published */
    PUT_IS_BUFFERED,       /* the publication is still in the store buffer then */
    ANNOUNCED_AFTER_LOOK,  /* a waiter sleeps without a second look */
    ANNOUNCEMENT_BUFFERED, /* the announcement is in the store buffer at the second look */
    TICKET_AFTER_LOOK,     /* the ticket is read after the second look */
    NO_COMPARE,            /* a waiter sleeps whatever the number of notifies is */
    COMPARES_THEN_SLEEPS,  /* the comparison and the beginning of the sleep are two steps */
    CANCEL_KEEPS_COUNT,
    LATE_KEEPS_COUNT,      /* a wait that timed out doesn't give its count back */
    NOTIFY_CLEARS_COUNT,   /* a notify sets `waiters` to 0 */
    NOTIFY_ISNT_COUNTED,   /* a notify wakes and leaves the number of notifies as it is */
    WAKES_BEFORE_COUNTING, /* a notify wakes, and then counts */
    NOTIFIES_UNLOCKED,     /* by a condition variable, without the mutex */
    NOT_PASSED_ON,         /* a taker that has waited and found something notifies nobody */
    WOKEN_AND_GONE,        /* a taker that is woken goes without a look */
    THROWN_AND_GONE        /* a taker that has waited, and whose look throws, notifies nobody */
};

/* The part of a thread in a plan. */
struct role {
    uint8_t begins; /* LOOK: a taker; CLAIM: a putter; SHUT */
    uint8_t rounds; /* how many items a taker takes; how many notifies a putter makes */
    uint8_t run;    /* how many items a putter puts before each notify */
    bool all;       /* whether it notifies all */
    bool limited;   /* whether its waits may time out */
    bool cancels;   /* whether it may give up instead of a wait */
    bool only_sees; /* whether it leaves the item that it finds */
    bool throws;    /* whether a look of it, after the first one, may throw */
};

struct plan {
    struct role roles[THREADS];
    int threads;
    int modulus; /* of the number of notifies */
    bool by_pthread;
    enum mistake mistake;
};

/* A thread in a state. */
struct actor {
    uint8_t at, rounds, run, ticket, position, waited, late, found, saw, buffered;
};

/* All that the threads share, and each of them. Bytes alone, so that two states are compared as memory. */
struct state {
    uint8_t head, tail, raised, shut, waiters, notifies, asleep, lock;
    struct actor actors[THREADS];
};

/* The states after one state. No thread can count on a move by chance. */
struct moves {
    struct state to[MOST_MOVES];
    bool by_chance[MOST_MOVES];
    int count;
};

static const struct plan *plan;

/* One more move: a copy of the state before, which the caller changes. */
static struct state *move(struct moves *moves, const struct state *from, bool by_chance)
{
    struct state *to = &moves->to[moves->count];
    moves->by_chance[moves->count] = by_chance;
    moves->count++;
    *to = *from;
    return to;
}

static bool planted(enum mistake mistake)
{
    return plan->mistake == mistake;
}

static bool is_there(const struct state *s)
{
    return (s->raised >> s->tail & 1) != 0 || (s->shut && s->tail == s->head);
}

/* One try: takes the first item, or finds that the queue is shut and empty. False if there is nothing. */
static bool take(struct state *s, int thread)
{
    if (!is_there(s)) {
        return false;
    }
    if ((s->raised >> s->tail & 1) == 0) {
        s->actors[thread].rounds = 1;
    } else if (!plan->roles[thread].only_sees) {
        s->tail++;
    }
    return true;
}

static void begin_round(struct state *s, int thread)
{
    struct actor *actor = &s->actors[thread];
    uint8_t rounds = actor->rounds, buffered = actor->buffered, position = actor->position;
    memset(actor, 0, sizeof *actor);
    actor->rounds = rounds;
    actor->at = rounds == 0 ? (uint8_t)END : plan->roles[thread].begins;
    actor->run = plan->roles[thread].run;
    actor->buffered = buffered;
    actor->position = buffered ? position : 0;
}

static void end_round(struct state *s, int thread)
{
    s->actors[thread].rounds--;
    begin_round(s, thread);
}

/* A taker has found something. If it has waited, it notifies one more. */
static void pass_on(struct state *s, int thread)
{
    if (s->actors[thread].waited && !planted(NOT_PASSED_ON)) {
        s->actors[thread].at = SEE_WAITERS;
    } else {
        end_round(s, thread);
    }
}

static void give_up(struct state *s, int thread)
{
    s->actors[thread].rounds = 0;
    begin_round(s, thread);
}

static void take_back(struct state *s, bool kept)
{
    if (!kept && !(planted(NOTIFY_CLEARS_COUNT) && s->waiters == 0)) {
        s->waiters--;
    }
}

/* A look throws. The taker goes, and notifies one more if it has waited. */
static void throw_out(struct state *s, int thread)
{
    if (planted(THROWN_AND_GONE)) {
        give_up(s, thread);
    } else {
        s->actors[thread].rounds = 1;
        pass_on(s, thread);
    }
}

static void step_of_look(struct moves *moves, const struct state *from, int thread)
{
    if (plan->roles[thread].throws && from->actors[thread].waited) {
        throw_out(move(moves, from, false), thread);
    }
    struct state *s = move(moves, from, false);
    struct actor *actor = &s->actors[thread];
    if (planted(WOKEN_AND_GONE) && actor->waited && plan->roles[thread].limited) {
        give_up(s, thread);
    } else if (take(s, thread)) {
        pass_on(s, thread);
    } else if (actor->late) {
        give_up(s, thread);
    } else {
        actor->at = ANNOUNCE;
    }
}

/* The first step of a wait. */
static enum at to_sleep(void)
{
    return plan->by_pthread ? LOCK : COMPARE;
}

static void step_of_second_look(struct moves *moves, const struct state *from, int thread)
{
    if (is_there(from) && from->actors[thread].buffered) {
        return; /* A taking is an exchange, before which the store buffer is empty. */
    }
    if (plan->roles[thread].throws) {
        struct actor *thrown = &move(moves, from, false)->actors[thread];
        thrown->rounds = 1;
        thrown->found = !planted(THROWN_AND_GONE);
        thrown->at = CANCEL;
    }
    struct state *s = move(moves, from, false);
    if (take(s, thread)) {
        s->actors[thread].found = true;
        s->actors[thread].at = CANCEL;
        return;
    }
    s->actors[thread].at = planted(TICKET_AFTER_LOOK) ? READ_TICKET : to_sleep();
    if (plan->roles[thread].cancels) {
        move(moves, from, false)->actors[thread].at = CANCEL;
    }
}

/* The steps of a prepare, and those that take it back. */
static void step_of_prepare(struct moves *moves, const struct state *from, int thread)
{
    struct state *s = move(moves, from, false);
    struct actor *actor = &s->actors[thread];
    if (actor->at == ANNOUNCE) {
        actor->buffered = planted(ANNOUNCEMENT_BUFFERED);
        s->waiters = (uint8_t)(s->waiters + !actor->buffered);
        actor->at = planted(TICKET_AFTER_LOOK) ? LOOK_AGAIN : READ_TICKET;
    } else if (actor->at == READ_TICKET) {
        actor->ticket = s->notifies;
        actor->at = planted(TICKET_AFTER_LOOK) || planted(ANNOUNCED_AFTER_LOOK) ? to_sleep() : LOOK_AGAIN;
    } else if (actor->at == GIVE_BACK) {
        take_back(s, actor->late && planted(LATE_KEEPS_COUNT));
        actor->waited = true;
        actor->ticket = 0;
        actor->at = LOOK;
    } else {
        take_back(s, planted(CANCEL_KEEPS_COUNT));
        if (actor->found) {
            pass_on(s, thread);
        } else {
            give_up(s, thread);
        }
    }
}

static void fall_asleep(struct state *s, int thread)
{
    s->actors[thread].at = ASLEEP;
    s->asleep |= (uint8_t)(1u << thread);
}

static void leave_sleep(struct state *s, int thread, uint8_t at)
{
    s->actors[thread].at = at;
    s->asleep &= (uint8_t)~(1u << thread);
}

/* A sleep ends by chance: its time is over, or for no reason. A notify that ends it is a step of the notify. */
static void chances_of_sleep(struct moves *moves, const struct state *from, int thread)
{
    leave_sleep(move(moves, from, true), thread, plan->by_pthread ? LOCK_AGAIN : COMPARE);
    if (!plan->by_pthread) {
        leave_sleep(move(moves, from, true), thread, GIVE_BACK);
    }
    if (plan->roles[thread].limited) {
        leave_sleep(move(moves, from, true), thread, plan->by_pthread ? LOCK_LATE : LATE);
    }
}

static void step_of_futex_sleep(struct moves *moves, const struct state *from, int thread)
{
    struct state *s = move(moves, from, false);
    struct actor *actor = &s->actors[thread];
    bool same = planted(NO_COMPARE) || actor->ticket == s->notifies;
    if (actor->at == LATE) {
        actor->late = same;
        actor->at = GIVE_BACK;
    } else if (actor->at == COMPARE) {
        actor->at = same ? SLEEP : GIVE_BACK;
    } else if (same || planted(COMPARES_THEN_SLEEPS)) {
        fall_asleep(s, thread);
    } else {
        actor->at = COMPARE;
    }
}

static void step_of_pthread_sleep(struct moves *moves, const struct state *from, int thread)
{
    uint8_t at = from->actors[thread].at;
    bool locks = at == LOCK || at == LOCK_AGAIN || at == LOCK_LATE;
    if (locks && from->lock) {
        return;
    }
    struct state *s = move(moves, from, false);
    struct actor *actor = &s->actors[thread];
    bool same = planted(NO_COMPARE) || actor->ticket == s->notifies;
    if (locks) {
        s->lock = (uint8_t)(thread + 1);
        actor->at = COMPARE_LOCKED;
        actor->late = at == LOCK_LATE;
    } else if (at == UNLOCK) {
        s->lock = 0;
        actor->at = GIVE_BACK;
    } else if (at == UNLOCK_AND_SLEEP) {
        s->lock = 0;
        fall_asleep(s, thread);
    } else if (same && !actor->late) {
        actor->at = UNLOCK_AND_SLEEP;
    } else {
        actor->late = actor->late && same;
        actor->at = UNLOCK;
    }
}

static void step_of_put(struct moves *moves, const struct state *from, int thread)
{
    struct state *s = move(moves, from, false);
    struct actor *actor = &s->actors[thread];
    if (actor->at == SHUT) {
        s->shut = true;
        actor->at = SEE_WAITERS;
    } else if (actor->at == CLAIM) {
        if (s->shut) {
            give_up(s, thread);
            return;
        }
        actor->position = s->head++;
        actor->at = planted(SEES_BEFORE_PUTTING) ? SEE_WAITERS : RAISE;
    } else {
        actor->buffered = planted(PUT_IS_BUFFERED);
        s->raised |= (uint8_t)(!actor->buffered << actor->position);
        actor->run--;
        actor->at = actor->run != 0 ? CLAIM : SEE_WAITERS;
        if (planted(SEES_BEFORE_PUTTING) && actor->saw) {
            actor->at = NOTIFY_COUNT;
        } else if (planted(SEES_BEFORE_PUTTING)) {
            end_round(s, thread);
        }
    }
}

static void after_notify(struct state *s, int thread)
{
    if (plan->by_pthread && !planted(NOTIFIES_UNLOCKED)) {
        s->actors[thread].at = NOTIFY_UNLOCK;
    } else {
        end_round(s, thread);
    }
}

static void wake(struct state *s, int thread)
{
    if (s->asleep >> thread & 1) {
        leave_sleep(s, thread, plan->by_pthread ? LOCK_AGAIN : GIVE_BACK);
    }
}

/* The step after the wake. */
static void after_wake(struct state *s, int thread)
{
    if (planted(WAKES_BEFORE_COUNTING)) {
        s->actors[thread].at = NOTIFY_COUNT;
    } else {
        after_notify(s, thread);
    }
}

/* A wake of one chooses any sleeper. A sleeper whose time is just over may still use up a signal. */
static void step_of_wake(struct moves *moves, const struct state *from, int thread)
{
    bool one = !plan->roles[thread].all;
    bool chosen = false;
    for (int other = 0; one && other < plan->threads; other++) {
        bool uses_up = from->actors[other].at == LOCK_LATE;
        if (from->asleep >> other & 1 || uses_up) {
            struct state *s = move(moves, from, false);
            wake(s, other);
            after_wake(s, thread);
            chosen = chosen || !uses_up;
        }
    }
    if (!chosen) {
        struct state *s = move(moves, from, false);
        for (int other = 0; other < plan->threads; other++) {
            wake(s, other);
        }
        after_wake(s, thread);
    }
}

static void see_waiters(struct state *s, int thread)
{
    struct actor *actor = &s->actors[thread];
    uint8_t next = plan->by_pthread && !planted(NOTIFIES_UNLOCKED) ? NOTIFY_LOCK : NOTIFY_COUNT;
    if (planted(WAKES_BEFORE_COUNTING)) {
        next = NOTIFY_WAKE;
    }
    if (planted(SEES_BEFORE_PUTTING) && plan->roles[thread].begins == CLAIM) {
        actor->saw = s->waiters != 0;
        actor->at = RAISE;
    } else if (s->waiters != 0) {
        actor->at = next;
    } else {
        end_round(s, thread);
    }
}

static void step_of_notify(struct moves *moves, const struct state *from, int thread)
{
    uint8_t at = from->actors[thread].at;
    if (at == NOTIFY_WAKE) {
        step_of_wake(moves, from, thread);
        return;
    }
    if (at == NOTIFY_LOCK && from->lock) {
        return;
    }
    struct state *s = move(moves, from, false);
    if (at == SEE_WAITERS) {
        see_waiters(s, thread);
    } else if (at == NOTIFY_LOCK) {
        s->lock = (uint8_t)(thread + 1);
        s->actors[thread].at = NOTIFY_COUNT;
    } else if (at == NOTIFY_UNLOCK) {
        s->lock = 0;
        end_round(s, thread);
    } else {
        s->notifies = (uint8_t)((s->notifies + !planted(NOTIFY_ISNT_COUNTED)) % plan->modulus);
        s->waiters = planted(NOTIFY_CLEARS_COUNT) ? 0 : s->waiters;
        s->actors[thread].at = NOTIFY_WAKE;
        if (planted(WAKES_BEFORE_COUNTING)) {
            after_notify(s, thread);
        }
    }
}

/* Writes the step that is in a thread's store buffer. */
static void write_buffered(struct state *s, int thread)
{
    struct actor *actor = &s->actors[thread];
    actor->buffered = false;
    if (planted(PUT_IS_BUFFERED)) {
        s->raised |= (uint8_t)(1u << actor->position);
        actor->position = 0;
    } else {
        s->waiters++;
    }
}

/* Whether a step is a load, which doesn't wait for the store buffer. */
static bool is_load(uint8_t at)
{
    return at == READ_TICKET || at == LOOK_AGAIN || at == COMPARE || at == SEE_WAITERS;
}

/* All moves of one thread. */
static void moves_of(struct moves *moves, const struct state *from, int thread)
{
    uint8_t at = from->actors[thread].at;
    if (from->actors[thread].buffered) {
        write_buffered(move(moves, from, false), thread);
        if (!is_load(at)) {
            return;
        }
    }
    if (at == LOOK) {
        step_of_look(moves, from, thread);
    } else if (at == LOOK_AGAIN) {
        step_of_second_look(moves, from, thread);
    } else if (at == ASLEEP) {
        chances_of_sleep(moves, from, thread);
    } else if (at == COMPARE || at == SLEEP || at == LATE) {
        step_of_futex_sleep(moves, from, thread);
    } else if (at < LOCK) {
        step_of_prepare(moves, from, thread);
    } else if (at < CLAIM) {
        step_of_pthread_sleep(moves, from, thread);
    } else if (at < SEE_WAITERS) {
        step_of_put(moves, from, thread);
    } else if (at < END) {
        step_of_notify(moves, from, thread);
    }
}

static void all_moves(struct moves *moves, const struct state *from)
{
    moves->count = 0;
    for (int thread = 0; thread < plan->threads; thread++) {
        moves_of(moves, from, thread);
    }
}
#endif
