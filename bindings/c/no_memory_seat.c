/*
 * Refuses each allocation of each call of meters in turn. The call then answers SYNTH_NO_MEMORY and leaves all as it
 * was. All other calls ask for no memory, and in the end all of it is given back.
 */
#include "refusals.h"

enum { SLOTS = 16 };

static struct synth_seat last, other;

static synth_code new_meters(void)
{
    return synth_seat_new(0, &last);
}

static void is_empty(void)
{
    ROW(last.full, false);
}

static synth_code split_off(void)
{
    return synth_seat_split(&last, &other);
}

/* No handle was filled, and the gauge can be read. */
static void ticks(void)
{
    uint64_t before = 1;
    ROW(other.full, false);
    ROW(synth_seat_tick(&last, 3, 0, &before), SYNTH_OK);
    ROW(before, 0);
}

static void ask_for_none(void)
{
    const struct synth_alarm alarm = {1, 2, 3};
    struct synth_alarm due[SLOTS];
    struct synth_seat_totals metered;
    uint32_t clock_now = 0, slot = 0;
    bool cancelled = false;
    size_t count = 0;
    uint64_t before = 0;
    memory_refuse(1);
    ROW(synth_seat_tick(&other, 3, 1, &before), SYNTH_OK);
    ROW(synth_seat_try_set(&other, &alarm, &slot), SYNTH_OK);
    ROW(synth_seat_cancel(&last, slot, &alarm, &cancelled), SYNTH_OK);
    ROW(synth_seat_try_set(&other, &alarm, &slot), SYNTH_OK);
    ROW(synth_seat_try_advance(&last, &clock_now), SYNTH_OK);
    ROW(synth_seat_due(&other, due, SLOTS, &count), SYNTH_OK);
    ROW(count, 1);
    ROW(synth_seat_finish(&last, &metered), SYNTH_OPEN);
    ROW(synth_seat_join(&last, &other), SYNTH_OK);
    ROW(synth_seat_finish(&last, &metered), SYNTH_OK);
    ROW(memory_asked(), 0);
    ROW(memory_taken(), 0);
    memory_refuse(0);
}

/* Seats that are freed give their memory back, the last one that of the meters. A close that is refused gives none. */
static void free_all(void)
{
    struct synth_seat_totals metered;
    long taken;
    ROW(synth_seat_new(0, &last), SYNTH_OK);
    ROW(synth_seat_split(&last, &other), SYNTH_OK);
    ROW(synth_seat_free(&last), SYNTH_OK);
    taken = memory_taken();
    ROW(taken > 0, true);
    ROW(synth_seat_finish(&other, &metered), SYNTH_OPEN);
    ROW(memory_taken(), taken);
    ROW(synth_seat_free(&other), SYNTH_OK);
    ROW(memory_taken(), 0);
}

int main(void)
{
    refuse_each(new_meters, is_empty);
    refuse_each(split_off, ticks);
    ask_for_none();
    free_all();
    return rows_end("no_memory_seat");
}
