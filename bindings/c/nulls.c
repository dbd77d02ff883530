/*
 * Each call with a null pointer in the place of each of its answers: it does what it does, and reports nothing there.
 * A buffer of no elements may be null too.
 */
#include "rows.h"
#include "synthesis.h"

enum { PLACES = 64, SLOTS = 16 };

static uint64_t items[PLACES] = {1, 2, 3}, buffer[PLACES];

static void batches(void)
{
    struct synth_batch end = SYNTH_BATCH_INIT, other = SYNTH_BATCH_INIT;
    ROW(synth_batch_new(PLACES, &end), SYNTH_OK);
    ROW(synth_batch_split(&end, &other), SYNTH_OK);
    ROW(synth_batch_try_take(&end, NULL, 0, NULL, NULL), SYNTH_EMPTY);
    ROW(synth_batch_try_take_some(&end, NULL, 0, NULL, NULL), SYNTH_EMPTY);
    ROW(synth_batch_take(&end, NULL, 0, 9, NULL), SYNTH_EMPTY);
    ROW(synth_batch_take_some(&end, NULL, 0, 0, NULL), SYNTH_EMPTY);
    ROW(synth_batch_try_put(&end, NULL, 0, NULL), SYNTH_NO_ITEMS);
    ROW(synth_batch_try_put_some(&end, NULL, 0, NULL, NULL), SYNTH_NO_ITEMS);
    ROW(synth_batch_put(&end, NULL, 0, 9), SYNTH_NO_ITEMS);
    ROW(synth_batch_put_some(&end, NULL, 0, 0, NULL), SYNTH_NO_ITEMS);
    ROW(synth_batch_try_put(&end, items, 3, NULL), SYNTH_OK);
    ROW(synth_batch_try_put_some(&end, items, 2, NULL, NULL), SYNTH_OK);
    ROW(synth_batch_put(&end, items, 1, 9), SYNTH_OK);
    ROW(synth_batch_put_some(&end, items, 1, 0, NULL), SYNTH_OK);
    ROW(synth_batch_len(&end, NULL), SYNTH_OK);
    ROW(synth_batch_capacity(&end, NULL), SYNTH_OK);
    ROW(synth_batch_look(&end, NULL), SYNTH_OK);
    ROW(synth_batch_try_put(&end, items, PLACES, NULL), SYNTH_FULL);
    ROW(synth_batch_try_take(&end, NULL, 0, NULL, NULL), SYNTH_SHORT_BUFFER);
    ROW(synth_batch_try_take(&end, buffer, 3, NULL, NULL), SYNTH_OK);
    ROW(buffer[0] == 1 && buffer[2] == 3, true);
    ROW(synth_batch_try_take_some(&end, buffer, 1, NULL, NULL), SYNTH_OK);
    ROW(synth_batch_take(&end, buffer, 1, 9, NULL), SYNTH_OK);
    ROW(buffer[0], 2);
    ROW(synth_batch_take_some(&end, buffer, 1, 0, NULL), SYNTH_OK);
    ROW(synth_batch_shut(&end), SYNTH_OK);
    ROW(synth_batch_abandon(&other, NULL, 0, NULL), SYNTH_OK);
    ROW(synth_batch_finish(&end, buffer, PLACES, NULL), SYNTH_OPEN);
    ROW(synth_batch_free(&end), SYNTH_OK);
    ROW(synth_batch_new(PLACES, &end), SYNTH_OK);
    ROW(synth_batch_finish(&end, NULL, 0, NULL), SYNTH_SHORT_BUFFER);
    ROW(synth_batch_finish(&end, buffer, PLACES, NULL), SYNTH_OK);
    ROW(synth_batch_abandon(&end, NULL, 0, NULL), SYNTH_EMPTY_HANDLE);
}

static void queues(void)
{
    const uint64_t line[] = {4, 10};
    struct synth_queue end = SYNTH_QUEUE_INIT, other = SYNTH_QUEUE_INIT;
    ROW(synth_queue_new(PLACES, 0, &end), SYNTH_OK);
    ROW(synth_queue_split(&end, &other), SYNTH_OK);
    ROW(synth_queue_try_take(&end, NULL, NULL), SYNTH_EMPTY);
    ROW(synth_queue_take(&end, NULL, 9), SYNTH_EMPTY);
    ROW(synth_queue_take_up_to(&end, NULL, 0, NULL, NULL), SYNTH_SHORT_BUFFER);
    ROW(synth_queue_take_up_to(&end, buffer, 1, NULL, NULL), SYNTH_EMPTY);
    ROW(synth_queue_try_take_line(&end, NULL, 0, NULL, NULL), SYNTH_SHORT_BUFFER);
    ROW(synth_queue_try_put(&end, NULL, 0, NULL), SYNTH_NO_ITEMS);
    ROW(synth_queue_put(&end, NULL, 0, 9), SYNTH_NO_ITEMS);
    ROW(synth_queue_try_put(&end, items, 3, NULL), SYNTH_OK);
    ROW(synth_queue_put(&end, items, 3, 0), SYNTH_OK);
    ROW(synth_queue_try_put(&end, items, PLACES, NULL), SYNTH_FULL);
    ROW(synth_queue_try_take(&end, NULL, NULL), SYNTH_OK);
    ROW(synth_queue_take(&end, NULL, 0), SYNTH_OK);
    ROW(synth_queue_try_take(&end, buffer, NULL), SYNTH_OK);
    ROW(buffer[0], 3);
    ROW(synth_queue_take_up_to(&end, buffer, PLACES, NULL, NULL), SYNTH_OK);
    ROW(buffer[0] == 1 && buffer[2] == 3, true);
    ROW(synth_queue_put(&end, line, 2, 9), SYNTH_OK);
    ROW(synth_queue_try_take_line(&end, buffer, PLACES, NULL, NULL), SYNTH_OK);
    ROW(buffer[0] == 4 && buffer[1] == 10, true);
    ROW(synth_queue_look(&end, NULL), SYNTH_OK);
    ROW(synth_queue_shut(&end), SYNTH_OK);
    ROW(synth_queue_abandon(&other, NULL, 0, NULL), SYNTH_OK);
    ROW(synth_queue_finish(&end, buffer, PLACES, NULL), SYNTH_OPEN);
    ROW(synth_queue_free(&end), SYNTH_OK);
    ROW(synth_queue_new(PLACES, 0, &end), SYNTH_OK);
    ROW(synth_queue_finish(&end, NULL, 0, NULL), SYNTH_SHORT_BUFFER);
    ROW(synth_queue_finish(&end, buffer, PLACES, NULL), SYNTH_OK);
    ROW(synth_queue_abandon(&end, NULL, 0, NULL), SYNTH_EMPTY_HANDLE);
}

static void chains(void)
{
    struct synth_chain end = SYNTH_CHAIN_INIT;
    ROW(synth_chain_new(0, &end), SYNTH_OK);
    ROW(synth_chain_try_chain(&end, 5, NULL), SYNTH_RUN);
    ROW(synth_chain_next(&end, NULL), SYNTH_NOTE);
    ROW(synth_chain_next(&end, NULL), SYNTH_OK);
    ROW(synth_chain_finish(&end, NULL), SYNTH_OK);
}

static void meters(void)
{
    const struct synth_alarm alarm = {1, 2, 3};
    struct synth_alarm alarms[SLOTS];
    struct synth_seat end = SYNTH_SEAT_INIT;
    ROW(synth_seat_new(0, &end), SYNTH_OK);
    ROW(synth_seat_tick(&end, 0, 1, NULL), SYNTH_OK);
    ROW(synth_seat_try_set(&end, &alarm, NULL), SYNTH_OK);
    ROW(synth_seat_try_set(&end, &alarm, NULL), SYNTH_OK);
    ROW(synth_seat_try_advance(&end, NULL), SYNTH_OK);
    ROW(synth_seat_cancel(&end, 0, &alarm, NULL), SYNTH_OK);
    ROW(synth_seat_due(&end, NULL, 0, NULL), SYNTH_SHORT_BUFFER);
    ROW(synth_seat_due(&end, alarms, SLOTS, NULL), SYNTH_OK);
    ROW(alarms[0].due == 1 && alarms[0].element == 2 && alarms[0].signal == 3, true);
    ROW(synth_seat_finish(&end, NULL), SYNTH_OK);
}

static void lines(void)
{
    struct synth_line_in input = SYNTH_LINE_IN_INIT;
    struct synth_line_out output = SYNTH_LINE_OUT_INIT;
    uint8_t bytes[] = {7, 8};
    ROW(synth_line_new(2, &input, &output), SYNTH_OK);
    ROW(synth_line_push(&input, 7), SYNTH_OK);
    ROW(synth_line_pop(&output, NULL), SYNTH_OK);
    ROW(synth_line_pop(&output, NULL), SYNTH_EMPTY);
    ROW(synth_line_push_some(&input, NULL, 0, NULL), SYNTH_NO_ITEMS);
    ROW(synth_line_push_some(&input, bytes, 2, NULL), SYNTH_OK);
    ROW(synth_line_pop_some(&output, NULL, 0, NULL), SYNTH_SHORT_BUFFER);
    ROW(synth_line_pop_some(&output, bytes, 1, NULL), SYNTH_OK);
    ROW(synth_line_finish(&input, &output, NULL), SYNTH_OK);
}

static void places_of_hands(struct synth_hand *hand)
{
    ROW(synth_hand_holds(hand, 0, NULL), SYNTH_OK);
    ROW(synth_hand_serves(hand, 0, NULL), SYNTH_OK);
    ROW(synth_hand_on(hand, 0, 0), SYNTH_OK);
    ROW(synth_hand_on_processor(hand, 0, NULL), SYNTH_OK);
    ROW(synth_hand_pc(hand, 0, NULL), SYNTH_OK);
    ROW(synth_hand_step_done(hand, 0, NULL), SYNTH_OK);
    ROW(synth_hand_off(hand, 0, NULL), SYNTH_OK);
    ROW(synth_hand_off(hand, 0, NULL), SYNTH_VACANT);
}

static void hands(void)
{
    struct synth_hand hand = SYNTH_HAND_INIT;
    ROW(synth_hand_new(0, &hand), SYNTH_OK);
    ROW(synth_hand_try_free(&hand, NULL, NULL), SYNTH_OK);
    places_of_hands(&hand);
    ROW(synth_hand_try_ready(&hand, 0, NULL), SYNTH_OK);
    ROW(synth_hand_try_next(&hand, NULL, NULL), SYNTH_OK);
    ROW(synth_hand_try_next(&hand, NULL, NULL), SYNTH_EMPTY);
    ROW(synth_hand_ticket(&hand, 1, NULL), SYNTH_OK);
    ROW(synth_hand_try_wait(&hand, 0, 1, NULL, NULL), SYNTH_OK);
    ROW(synth_hand_try_wake(&hand, 1, NULL, NULL), SYNTH_OK);
    ROW(synth_hand_try_wait_at(&hand, 0, 1, 0, NULL, NULL), SYNTH_OK);
    ROW(synth_hand_notify(&hand, 1, NULL), SYNTH_OK);
    ROW(synth_hand_try_wake_before(&hand, 1, 2, NULL, NULL), SYNTH_OK);
    ROW(synth_hand_try_wait_at(&hand, 0, 1, 0, NULL, NULL), SYNTH_MOVED);
    ROW(synth_hand_stop(&hand, 0, NULL), SYNTH_OK);
    ROW(synth_hand_try_park(&hand, 0, NULL, NULL), SYNTH_OK);
    ROW(synth_hand_try_start(&hand, 0, NULL, NULL), SYNTH_OK);
    ROW(synth_hand_signal(&hand, 0, 5, NULL), SYNTH_OK);
    ROW(synth_hand_try_deliver(&hand, 0, NULL, NULL), SYNTH_OK);
    ROW(synth_hand_try_retire(&hand, 0, NULL), SYNTH_OK);
    ROW(synth_hand_finish(&hand, NULL), SYNTH_OK);
}

int main(void)
{
    batches();
    queues();
    chains();
    meters();
    lines();
    hands();
    return rows_end("nulls");
}
