/*
 * What each call of meters answers to a caller that is wrong, or that has to be refused, a row each; and that a
 * refusal changes nothing.
 */
#include "rows.h"
#include "synthesis.h"
#include <string.h>

enum { SLOTS = 16, MARK = 77 };

static struct synth_seat none;
static struct synth_seat_totals metered;
static struct synth_alarm alarms[SLOTS];
static const struct synth_alarm good = {3, 63, 15};
static uint64_t before;
static uint32_t clock_now, slot;
static size_t count;
static bool cancelled;

/* Nothing was written by the refused calls since these were set. */
static void set_marks(void)
{
    before = clock_now = slot = MARK;
    count = MARK;
    cancelled = false;
    memset(alarms, 7, sizeof alarms);
    memset(&metered, 5, sizeof metered);
}

static void marks_stand(void)
{
    ROW(before == MARK && clock_now == MARK && slot == MARK && count == MARK && !cancelled, true);
    ROW(alarms[0].due, 0x07070707);
    ROW(metered.clock, 0x05050505);
    ROW(metered.alarms, 0x05050505);
}

static void empty_handles(void)
{
    struct synth_seat full = SYNTH_SEAT_INIT, other = SYNTH_SEAT_INIT;
    set_marks();
    ROW(synth_seat_new(0, &full), SYNTH_OK);
    ROW(synth_seat_split(&none, &other), SYNTH_EMPTY_HANDLE);
    ROW(other.full, false);
    ROW(synth_seat_join(&none, &full), SYNTH_EMPTY_HANDLE);
    ROW(synth_seat_join(&full, &none), SYNTH_EMPTY_HANDLE);
    ROW(synth_seat_tick(&none, 0, 1, &before), SYNTH_EMPTY_HANDLE);
    ROW(synth_seat_gauge(&none, 0, &before), SYNTH_EMPTY_HANDLE);
    ROW(synth_seat_clock(&none, &clock_now), SYNTH_EMPTY_HANDLE);
    ROW(synth_seat_try_advance(&none, &clock_now), SYNTH_EMPTY_HANDLE);
    ROW(synth_seat_try_set(&none, &good, &slot), SYNTH_EMPTY_HANDLE);
    ROW(synth_seat_cancel(&none, 0, &good, &cancelled), SYNTH_EMPTY_HANDLE);
    ROW(synth_seat_due(&none, alarms, SLOTS, &count), SYNTH_EMPTY_HANDLE);
    ROW(synth_seat_finish(&none, &metered), SYNTH_EMPTY_HANDLE);
    ROW(synth_seat_free(&none), SYNTH_EMPTY_HANDLE);
    marks_stand();
    ROW(synth_seat_free(&full), SYNTH_OK);
    ROW(synth_seat_free(&full), SYNTH_EMPTY_HANDLE);
}

static void full_handles(void)
{
    struct synth_seat a = SYNTH_SEAT_INIT, b = SYNTH_SEAT_INIT, other = SYNTH_SEAT_INIT;
    ROW(synth_seat_new(5, &a), SYNTH_OK);
    ROW(synth_seat_new(5, &a), SYNTH_FULL_HANDLE);
    ROW(synth_seat_split(&a, &b), SYNTH_OK);
    ROW(synth_seat_split(&a, &b), SYNTH_FULL_HANDLE);
    ROW(synth_seat_new(5, &other), SYNTH_OK);
    ROW(synth_seat_join(&a, &other), SYNTH_OTHER_OBJECT);
    ROW(synth_seat_join(&other, &b), SYNTH_OTHER_OBJECT);
    ROW(synth_seat_finish(&other, &metered), SYNTH_OK);
    set_marks();
    ROW(synth_seat_finish(&a, &metered), SYNTH_OPEN);
    marks_stand();
    ROW(synth_seat_join(&a, &b), SYNTH_OK);
    ROW(synth_seat_join(&a, &b), SYNTH_EMPTY_HANDLE);
    ROW(synth_seat_finish(&a, &metered), SYNTH_OK);
    ROW(synth_seat_finish(&a, &metered), SYNTH_EMPTY_HANDLE);
    ROW(metered.clock == 5 && metered.alarms == 0, true);
}

/* Numbers out of range change nothing. */
static void bad_numbers(void)
{
    static const struct synth_alarm wrong[] = {{3, 64, 15}, {3, UINT32_MAX, 0}, {3, 63, 16}, {3, 0, UINT32_MAX}};
    struct synth_seat seat = SYNTH_SEAT_INIT;
    ROW(synth_seat_new(0, &seat), SYNTH_OK);
    set_marks();
    ROW(synth_seat_tick(&seat, 8, 1, &before), SYNTH_BAD_NUMBER);
    ROW(synth_seat_tick(&seat, UINT32_MAX, 1, &before), SYNTH_BAD_NUMBER);
    ROW(synth_seat_gauge(&seat, 8, &before), SYNTH_BAD_NUMBER);
    ROW(synth_seat_gauge(&seat, UINT32_MAX, &before), SYNTH_BAD_NUMBER);
    for (size_t i = 0; i < sizeof wrong / sizeof *wrong; i++) {
        ROW(synth_seat_try_set(&seat, &wrong[i], &slot), SYNTH_BAD_NUMBER);
        ROW(synth_seat_cancel(&seat, 0, &wrong[i], &cancelled), SYNTH_BAD_NUMBER);
    }
    ROW(synth_seat_cancel(&seat, SLOTS, &good, &cancelled), SYNTH_BAD_NUMBER);
    ROW(synth_seat_cancel(&seat, UINT32_MAX, &good, &cancelled), SYNTH_BAD_NUMBER);
    ROW(synth_seat_due(&seat, alarms, SLOTS - 1, &count), SYNTH_SHORT_BUFFER);
    ROW(synth_seat_due(&seat, NULL, 0, &count), SYNTH_SHORT_BUFFER);
    marks_stand();
    ROW(synth_seat_finish(&seat, &metered), SYNTH_OK);
    ROW(metered.gauges[0] == 0 && metered.alarms == 0, true);
}

/* Gauges, the clock up to its last tick, and alarms that are due, cancelled, or too many. */
static void uses(void)
{
    struct synth_seat seat = SYNTH_SEAT_INIT;
    ROW(synth_seat_new(UINT32_MAX - 2, &seat), SYNTH_OK);
    ROW(synth_seat_tick(&seat, 7, UINT64_MAX, &before), SYNTH_OK);
    ROW(before, 0);
    ROW(synth_seat_tick(&seat, 7, 3, &before), SYNTH_OK);
    ROW(before, UINT64_MAX);
    ROW(synth_seat_gauge(&seat, 7, &before), SYNTH_OK);
    ROW(before, 2);
    ROW(synth_seat_gauge(&seat, 6, &before), SYNTH_OK);
    ROW(before, 0);
    ROW(synth_seat_gauge(&seat, 6, NULL), SYNTH_OK);
    ROW(synth_seat_clock(&seat, &clock_now), SYNTH_OK);
    ROW(clock_now, UINT32_MAX - 2);
    ROW(synth_seat_clock(&seat, NULL), SYNTH_OK);
    ROW(synth_seat_try_set(&seat, &good, &slot), SYNTH_OK);
    ROW(slot, 0);
    for (uint32_t i = 1; i < SLOTS; i++) {
        struct synth_alarm alarm = {i % 2 ? UINT32_MAX - 1 : UINT32_MAX, i, i};
        ROW(synth_seat_try_set(&seat, &alarm, &slot), SYNTH_OK);
        ROW(slot, i);
    }
    ROW(synth_seat_try_set(&seat, &good, &slot), SYNTH_NO_ROOM);
    ROW(synth_seat_due(&seat, alarms, SLOTS, &count), SYNTH_OK);
    ROW(count == 1 && alarms[0].due == good.due && alarms[0].element == 63 && alarms[0].signal == 15, true);
    ROW(synth_seat_cancel(&seat, 0, &good, &cancelled), SYNTH_OK);
    ROW(cancelled, false);
    struct synth_alarm first = {UINT32_MAX - 1, 1, 1};
    ROW(synth_seat_cancel(&seat, 2, &first, &cancelled), SYNTH_OK);
    ROW(cancelled, false);
    ROW(synth_seat_cancel(&seat, 1, &first, &cancelled), SYNTH_OK);
    ROW(cancelled, true);
    ROW(synth_seat_try_advance(&seat, &clock_now), SYNTH_OK);
    ROW(clock_now, UINT32_MAX - 1);
    ROW(synth_seat_due(&seat, alarms, SLOTS, &count), SYNTH_OK);
    ROW(count == 7 && alarms[0].element == 3 && alarms[6].element == 15, true);
    ROW(synth_seat_try_advance(&seat, &clock_now), SYNTH_OK);
    ROW(synth_seat_try_advance(&seat, &clock_now), SYNTH_SPENT);
    ROW(clock_now, UINT32_MAX);
    ROW(synth_seat_finish(&seat, &metered), SYNTH_OK);
    ROW(metered.gauges[7] == 2 && metered.clock == UINT32_MAX && metered.alarms == 7, true);
    ROW(metered.alarm[0].element == 2 && metered.alarm[6].element == 14 && metered.alarm[7].due == 0, true);
}

/* A seat that was freed and not joined: no close succeeds, the meters go on, and the last free ends them. */
static void freed_handles(void)
{
    struct synth_seat seat = SYNTH_SEAT_INIT, other = SYNTH_SEAT_INIT;
    ROW(synth_seat_new(0, &seat), SYNTH_OK);
    ROW(synth_seat_split(&seat, &other), SYNTH_OK);
    ROW(synth_seat_tick(&other, 3, 4, &before), SYNTH_OK);
    ROW(synth_seat_free(&other), SYNTH_OK);
    set_marks();
    ROW(synth_seat_finish(&seat, &metered), SYNTH_OPEN);
    ROW(synth_seat_split(&seat, &other), SYNTH_OK);
    ROW(synth_seat_join(&seat, &other), SYNTH_OK);
    ROW(synth_seat_finish(&seat, &metered), SYNTH_OPEN);
    marks_stand();
    ROW(seat.full, true);
    ROW(synth_seat_tick(&seat, 3, 0, &before), SYNTH_OK);
    ROW(before, 4);
    ROW(synth_seat_free(&seat), SYNTH_OK);
    ROW(seat.full, false);
    ROW(synth_seat_finish(&seat, &metered), SYNTH_EMPTY_HANDLE);
}

int main(void)
{
    empty_handles();
    full_handles();
    bad_numbers();
    uses();
    freed_handles();
    return rows_end("misuse_seat");
}
