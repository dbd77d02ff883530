/*
 * Refuses each allocation of each call of thread elements in turn. The call then answers SYNTH_NO_MEMORY and leaves all
 * as it was. All other calls ask for no memory, and in the end all of it is given back.
 */
#include "refusals.h"

enum { PROCESSOR = 7, ALL = 255 };

static struct synth_hand last, other;

static synth_code new_table(void)
{
    return synth_hand_new(0, &last);
}

static void is_empty(void)
{
    ROW(last.full, false);
}

static synth_code split_off(void)
{
    return synth_hand_split(&last, 1u << PROCESSOR, &other);
}

/* No handle was filled, and the hand serves its processor still, with an element that goes on it and off. */
static void serves(void)
{
    uint32_t element = 0;
    ROW(other.full, false);
    ROW(synth_hand_try_free(&last, &element, NULL), SYNTH_OK);
    ROW(synth_hand_on(&last, PROCESSOR, element), SYNTH_OK);
    ROW(synth_hand_off(&last, PROCESSOR, &element), SYNTH_OK);
    ROW(synth_hand_try_retire(&last, element, NULL), SYNTH_OK);
}

static void take_and_move(void)
{
    uint32_t element = 0, ticket = 0, head = 0;
    ROW(synth_hand_try_free(&other, &element, NULL), SYNTH_OK);
    ROW(synth_hand_try_ready(&other, element, NULL), SYNTH_OK);
    ROW(synth_hand_try_next(&other, &element, NULL), SYNTH_OK);
    ROW(synth_hand_try_wait(&other, element, 1, NULL, NULL), SYNTH_OK);
    ROW(synth_hand_try_wake(&other, 1, &element, NULL), SYNTH_OK);
    ROW(synth_hand_ticket(&other, 1, &ticket), SYNTH_OK);
    ROW(synth_hand_try_wait_at(&other, element, 1, ticket, NULL, NULL), SYNTH_OK);
    ROW(synth_hand_notify(&other, 1, &head), SYNTH_OK);
    ROW(synth_hand_try_wake_before(&other, 1, head, &element, NULL), SYNTH_OK);
    ROW(synth_hand_try_wake_before(&other, 1, head, &element, NULL), SYNTH_ALL_WOKEN);
    ROW(synth_hand_try_retire(&other, element, NULL), SYNTH_OK);
}

static void run_and_stop(void)
{
    uint32_t element = 0, started = 0, signals = 0;
    uint64_t steps = 0;
    bool is = false;
    ROW(synth_hand_try_free(&other, &element, NULL), SYNTH_OK);
    ROW(synth_hand_holds(&other, element, &is), SYNTH_OK);
    ROW(synth_hand_serves(&other, PROCESSOR, &is), SYNTH_OK);
    ROW(synth_hand_on(&other, PROCESSOR, element), SYNTH_OK);
    ROW(synth_hand_on_processor(&other, PROCESSOR, &element), SYNTH_OK);
    ROW(synth_hand_step_done(&other, element, &steps), SYNTH_OK);
    ROW(synth_hand_pc(&other, element, &steps), SYNTH_OK);
    ROW(synth_hand_off(&other, PROCESSOR, &element), SYNTH_OK);
    ROW(synth_hand_signal(&last, element, 3, &is), SYNTH_OK);
    ROW(synth_hand_try_deliver(&other, element, &signals, NULL), SYNTH_OK);
    ROW(synth_hand_stop(&last, element, &is), SYNTH_OK);
    ROW(synth_hand_try_park(&other, element, &is, NULL), SYNTH_OK);
    ROW(synth_hand_try_start(&last, element, &started, NULL), SYNTH_OK);
    ROW(synth_hand_give(&last, &other, element), SYNTH_OK);
}

static void ask_for_none(void)
{
    struct synth_hand_totals places;
    memory_refuse(1);
    take_and_move();
    run_and_stop();
    ROW(synth_hand_finish(&last, &places), SYNTH_OPEN);
    ROW(synth_hand_join(&last, &other), SYNTH_OK);
    ROW(synth_hand_finish(&last, &places), SYNTH_OK);
    ROW(memory_asked(), 0);
    ROW(memory_taken(), 0);
    memory_refuse(0);
}

/* Hands that are freed give their memory back, the last one that of the table. A close that is refused gives none. */
static void free_all(void)
{
    struct synth_hand_totals places;
    long taken;
    ROW(synth_hand_new(0, &last), SYNTH_OK);
    ROW(synth_hand_split(&last, ALL, &other), SYNTH_OK);
    ROW(synth_hand_free(&last), SYNTH_OK);
    taken = memory_taken();
    ROW(taken > 0, true);
    ROW(synth_hand_finish(&other, &places), SYNTH_OPEN);
    ROW(memory_taken(), taken);
    ROW(synth_hand_free(&other), SYNTH_OK);
    ROW(memory_taken(), 0);
}

int main(void)
{
    refuse_each(new_table, is_empty);
    refuse_each(split_off, serves);
    ask_for_none();
    free_all();
    return rows_end("no_memory_hand");
}
