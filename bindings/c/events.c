/*
 * Tries the model of synthesis_event.h over all schedules of two, three and four threads. An explorer follows every
 * order of their steps from the first state on, and looks at each state that it reaches:
 *
 * - lost: no thread can move, and one sleeps though there is something for it;
 * - stuck: no thread can move, or no end can be reached, though not all threads have ended;
 * - count: `waiters` isn't the number of the threads that are announced.
 *
 * No thread counts on a time-out, or on a sleep that ends for no reason. The plans that are right have no fault, over
 * both ways of sleeping. In each of the others a mistake is planted, which the explorer has to find. Prints how many
 * states it reached. Status 1: a plan has other faults.
 */
#include "event_model.h"
#include "rows.h"
#include <stdlib.h>

enum { MOST_STATES = 1 << 20, SLOTS = 1 << 21 };
enum { RIGHT = 0, LOST = 1, STUCK = 2, COUNT = 4 };

/* The states that were reached, in their order, and a table of hashes by which a state is found. */
static struct state *states;
static uint32_t *slots;
static bool *ends;
static uint32_t reached;
static unsigned long reached_in_all;

static uint32_t slot_of(const struct state *s)
{
    uint64_t hash = 14695981039346656037u;
    const unsigned char *bytes = (const unsigned char *)s;
    for (size_t i = 0; i < sizeof *s; i++) {
        hash = (hash ^ bytes[i]) * 1099511628211u;
    }
    uint32_t slot = (uint32_t)(hash >> 32) % SLOTS;
    while (slots[slot] != 0 && memcmp(&states[slots[slot] - 1], s, sizeof *s) != 0) {
        slot = (slot + 1) % SLOTS;
    }
    return slot;
}

/* The number of a state, which may be a new one. */
static uint32_t number_of(const struct state *s)
{
    uint32_t slot = slot_of(s);
    if (slots[slot] == 0) {
        if (reached == MOST_STATES) {
            fputs("events: too many states\n", stderr);
            exit(1);
        }
        states[reached] = *s;
        slots[slot] = ++reached;
    }
    return slots[slot] - 1;
}

static bool has_ended(const struct state *s)
{
    bool ended = true;
    for (int thread = 0; thread < plan->threads; thread++) {
        ended = ended && s->actors[thread].at == END && !s->actors[thread].buffered;
    }
    return ended;
}

/* How many threads are announced. */
static int announced(const struct state *s)
{
    int count = 0;
    for (int thread = 0; thread < plan->threads; thread++) {
        uint8_t at = s->actors[thread].at;
        bool between = at > ANNOUNCE && at < CLAIM;
        count += between && !(s->actors[thread].buffered && planted(ANNOUNCEMENT_BUFFERED));
    }
    return count;
}

/* The faults of a state with these moves. */
static int faults_of(const struct state *s, const struct moves *moves)
{
    int faults = s->waiters == announced(s) ? 0 : COUNT;
    for (int i = 0; i < moves->count; i++) {
        if (!moves->by_chance[i]) {
            return faults;
        }
    }
    bool limited = false;
    for (int thread = 0; thread < plan->threads; thread++) {
        if (s->actors[thread].at == ASLEEP && is_there(s)) {
            return faults | LOST;
        }
        limited = limited || (s->actors[thread].at == ASLEEP && plan->roles[thread].limited);
    }
    return faults | (has_ended(s) || limited ? 0 : STUCK);
}

/* Whether some move of a state leads to one from which an end can be reached. */
static bool leads_to_end(const struct state *s)
{
    static struct moves moves;
    all_moves(&moves, s);
    for (int i = 0; i < moves.count; i++) {
        if (ends[number_of(&moves.to[i])]) {
            return true;
        }
    }
    return has_ended(s);
}

/* Whether an end can be reached from each state. */
static bool all_can_end(void)
{
    uint32_t left = reached, before = reached + 1;
    memset(ends, 0, reached * sizeof *ends);
    while (left < before && left != 0) {
        before = left;
        for (uint32_t i = reached; i-- > 0;) {
            if (!ends[i] && leads_to_end(&states[i])) {
                ends[i] = true;
                left--;
            }
        }
    }
    return left == 0;
}

/* Goes through all states that a plan can reach, and returns the faults found. */
static int explore(const struct plan *of)
{
    static struct moves moves;
    struct state first;
    int faults = 0;
    plan = of;
    reached = 0;
    memset(slots, 0, SLOTS * sizeof *slots);
    memset(&first, 0, sizeof first);
    first.notifies = (uint8_t)(plan->modulus - 1);
    for (int thread = 0; thread < plan->threads; thread++) {
        first.actors[thread].rounds = plan->roles[thread].rounds;
        begin_round(&first, thread);
    }
    number_of(&first);
    for (uint32_t i = 0; i < reached; i++) {
        struct state s = states[i];
        all_moves(&moves, &s);
        faults |= faults_of(&s, &moves);
        for (int k = 0; k < moves.count; k++) {
            number_of(&moves.to[k]);
        }
    }
    reached_in_all += reached;
    return faults != 0 ? faults : all_can_end() ? 0 : STUCK;
}

/* Roles. */
#define TAKER(n) {LOOK, n, 0, false, false, false, false, false}
#define LIMITED {LOOK, 1, 0, false, true, false, false, false}
#define CANCELLING {LOOK, 1, 0, false, false, true, false, false}
#define UNSURE {LOOK, 1, 0, false, true, true, false, false}
#define SEER {LOOK, 1, 0, false, false, false, true, false}
#define THROWER {LOOK, 1, 0, false, false, false, false, true}
#define LIMITED_THROWER {LOOK, 1, 0, false, true, false, false, true}
#define PUTTER(n) {CLAIM, n, 1, false, false, false, false, false}
#define LOUD_PUTTER(n) {CLAIM, n, 1, true, false, false, false, false}
#define RUN_OF_TWO {CLAIM, 1, 2, false, false, false, false, false}
#define LOUD_RUN_OF_TWO {CLAIM, 1, 2, true, false, false, false, false}
#define SHUTTER {SHUT, 1, 0, true, false, false, false, false}
#define NOBODY {END, 0, 0, false, false, false, false, false}

/* Plans that are right, by their threads. Each is explored over a futex and over a condition variable. */
static const struct role right[][THREADS] = {
    {TAKER(1), PUTTER(1), NOBODY, NOBODY},
    {TAKER(2), PUTTER(2), NOBODY, NOBODY},
    {TAKER(2), RUN_OF_TWO, NOBODY, NOBODY},
    {TAKER(1), SHUTTER, NOBODY, NOBODY},
    {LIMITED, PUTTER(1), NOBODY, NOBODY},
    {CANCELLING, PUTTER(1), NOBODY, NOBODY},
    {UNSURE, PUTTER(2), NOBODY, NOBODY},
    {TAKER(1), TAKER(1), PUTTER(2), NOBODY},
    {TAKER(1), TAKER(1), LOUD_PUTTER(2), NOBODY},
    {TAKER(1), TAKER(1), RUN_OF_TWO, NOBODY},
    {TAKER(1), TAKER(1), LOUD_RUN_OF_TWO, NOBODY},
    {SEER, SEER, PUTTER(1), NOBODY},
    {SEER, SEER, LOUD_PUTTER(1), NOBODY},
    {TAKER(1), TAKER(1), SHUTTER, NOBODY},
    {TAKER(1), UNSURE, PUTTER(2), NOBODY},
    {UNSURE, UNSURE, PUTTER(1), NOBODY},
    {TAKER(2), PUTTER(1), PUTTER(1), NOBODY},
    {TAKER(3), PUTTER(1), SHUTTER, NOBODY},
    {TAKER(1), TAKER(1), PUTTER(1), PUTTER(1)},
    {TAKER(1), TAKER(1), PUTTER(1), SHUTTER},
    {THROWER, TAKER(1), RUN_OF_TWO, NOBODY},
    {THROWER, THROWER, RUN_OF_TWO, NOBODY},
    {THROWER, LIMITED_THROWER, PUTTER(2), NOBODY},
    {THROWER, TAKER(1), PUTTER(1), PUTTER(1)},
    {THROWER, TAKER(1), PUTTER(1), SHUTTER},
};

/* Plans with a mistake, and the faults that it has. */
static const struct {
    enum mistake mistake;
    bool by_pthread;
    int faults;
    struct role roles[THREADS];
} wrong[] = {
    {SEES_BEFORE_PUTTING, false, LOST, {TAKER(1), PUTTER(1), NOBODY, NOBODY}},
    {PUT_IS_BUFFERED, false, LOST, {TAKER(1), PUTTER(1), NOBODY, NOBODY}},
    {PUT_IS_BUFFERED, true, LOST, {TAKER(1), PUTTER(1), NOBODY, NOBODY}},
    {ANNOUNCED_AFTER_LOOK, false, LOST, {TAKER(1), PUTTER(1), NOBODY, NOBODY}},
    {ANNOUNCED_AFTER_LOOK, true, LOST, {TAKER(1), PUTTER(1), NOBODY, NOBODY}},
    {ANNOUNCEMENT_BUFFERED, false, LOST, {TAKER(1), PUTTER(1), NOBODY, NOBODY}},
    {ANNOUNCEMENT_BUFFERED, true, LOST, {TAKER(1), PUTTER(1), NOBODY, NOBODY}},
    {TICKET_AFTER_LOOK, false, LOST, {TAKER(1), PUTTER(1), NOBODY, NOBODY}},
    {TICKET_AFTER_LOOK, true, LOST, {TAKER(1), PUTTER(1), NOBODY, NOBODY}},
    {NO_COMPARE, false, LOST, {TAKER(1), PUTTER(1), NOBODY, NOBODY}},
    {COMPARES_THEN_SLEEPS, false, LOST, {TAKER(1), PUTTER(1), NOBODY, NOBODY}},
    {CANCEL_KEEPS_COUNT, false, COUNT, {CANCELLING, PUTTER(1), NOBODY, NOBODY}},
    {CANCEL_KEEPS_COUNT, true, COUNT, {TAKER(1), PUTTER(1), NOBODY, NOBODY}},
    {LATE_KEEPS_COUNT, false, COUNT, {LIMITED, PUTTER(1), NOBODY, NOBODY}},
    {NOTIFY_CLEARS_COUNT, false, LOST | COUNT, {TAKER(1), TAKER(1), PUTTER(2), NOBODY}},
    {NOTIFY_CLEARS_COUNT, true, LOST | COUNT, {TAKER(1), TAKER(1), PUTTER(2), NOBODY}},
    {NOTIFY_ISNT_COUNTED, false, LOST, {TAKER(1), PUTTER(1), NOBODY, NOBODY}},
    {NOTIFY_ISNT_COUNTED, true, LOST, {TAKER(1), PUTTER(1), NOBODY, NOBODY}},
    {WAKES_BEFORE_COUNTING, false, LOST, {TAKER(1), PUTTER(1), NOBODY, NOBODY}},
    {NOTIFIES_UNLOCKED, true, LOST, {TAKER(1), PUTTER(1), NOBODY, NOBODY}},
    {NOT_PASSED_ON, false, LOST, {TAKER(1), TAKER(1), RUN_OF_TWO, NOBODY}},
    {NOT_PASSED_ON, false, LOST, {TAKER(1), TAKER(1), PUTTER(1), PUTTER(1)}},
    {NOT_PASSED_ON, true, LOST, {TAKER(1), TAKER(1), PUTTER(1), SHUTTER}},
    {WOKEN_AND_GONE, false, LOST, {LIMITED, LIMITED, PUTTER(1), NOBODY}},
    {WOKEN_AND_GONE, true, LOST, {LIMITED, LIMITED, PUTTER(1), NOBODY}},
    {THROWN_AND_GONE, false, LOST, {THROWER, TAKER(1), RUN_OF_TWO, NOBODY}},
    {THROWN_AND_GONE, true, LOST, {THROWER, TAKER(1), RUN_OF_TWO, NOBODY}},
};

static struct plan plan_of(const struct role *roles, enum mistake mistake, bool by_pthread, int modulus)
{
    struct plan made;
    memset(&made, 0, sizeof made);
    memcpy(made.roles, roles, sizeof made.roles);
    made.threads = 0;
    while (made.threads < THREADS && roles[made.threads].begins != END) {
        made.threads++;
    }
    made.modulus = modulus;
    made.by_pthread = by_pthread;
    made.mistake = mistake;
    return made;
}

static void try_right(void)
{
    for (size_t i = 0; i < sizeof right / sizeof right[0]; i++) {
        struct plan by_futex = plan_of(right[i], NOTHING, false, 8);
        struct plan by_pthread = plan_of(right[i], NOTHING, true, 8);
        ROW(explore(&by_futex), RIGHT);
        ROW(explore(&by_pthread), RIGHT);
    }
}

static void try_wrong(void)
{
    for (size_t i = 0; i < sizeof wrong / sizeof wrong[0]; i++) {
        struct plan made = plan_of(wrong[i].roles, wrong[i].mistake, wrong[i].by_pthread, 8);
        ROW(explore(&made), wrong[i].faults);
    }
}

/* If each notify wakes all, no taker has to notify one more. */
static void try_all(void)
{
    static const struct role loud[][THREADS] = {
        {TAKER(1), TAKER(1), LOUD_RUN_OF_TWO, NOBODY},
        {TAKER(1), TAKER(1), LOUD_PUTTER(1), LOUD_PUTTER(1)},
        {TAKER(1), TAKER(1), LOUD_PUTTER(1), SHUTTER},
    };
    for (size_t i = 0; i < sizeof loud / sizeof loud[0]; i++) {
        struct plan by_futex = plan_of(loud[i], NOT_PASSED_ON, false, 8);
        struct plan by_pthread = plan_of(loud[i], NOT_PASSED_ON, true, 8);
        ROW(explore(&by_futex), RIGHT);
        ROW(explore(&by_pthread), RIGHT);
    }
}

/* Between a prepare and its wait as many notifies as the number has values look like none; fewer don't. */
static void try_wraps(void)
{
    static const struct role of_two[THREADS] = {SEER, PUTTER(2), NOBODY, NOBODY};
    static const struct role of_three[THREADS] = {SEER, PUTTER(3), NOBODY, NOBODY};
    struct plan plans[] = {
        plan_of(of_two, NOTHING, false, 3), plan_of(of_two, NOTHING, false, 2),   plan_of(of_two, NOTHING, true, 2),
        plan_of(of_three, NOTHING, true, 4), plan_of(of_three, NOTHING, false, 3), plan_of(of_three, NOTHING, true, 3),
    };
    ROW(explore(&plans[0]), RIGHT);
    ROW(explore(&plans[1]), LOST);
    ROW(explore(&plans[2]), LOST);
    ROW(explore(&plans[3]), RIGHT);
    ROW(explore(&plans[4]), LOST);
    ROW(explore(&plans[5]), LOST);
}

int main(void)
{
    states = (struct state *)malloc(MOST_STATES * sizeof *states);
    slots = (uint32_t *)malloc(SLOTS * sizeof *slots);
    ends = (bool *)malloc(MOST_STATES * sizeof *ends);
    if (!states || !slots || !ends) {
        fputs("events: no memory\n", stderr);
        return 1;
    }
    try_right();
    printf("events: %lu states without a fault\n", reached_in_all);
    try_wrong();
    try_all();
    try_wraps();
    free(states);
    free(slots);
    free(ends);
    return rows_end("events");
}
