/*
 * A handle of one kind that is given to the calls of another, by a cast: to them it is an empty one, and it stays as it
 * is. What fills a handle refuses it as a full one.
 */
#include "rows.h"
#include "synthesis.h"

enum { PLACES = 64, KINDS = 7 };

static struct synth_batch batch, no_batch;
static struct synth_queue queue, no_queue;
static struct synth_chain chain, no_chain;
static struct synth_seat seat, no_seat;
static struct synth_hand hand, no_hand;
static struct synth_line_in input, no_input;
static struct synth_line_out output, no_output;

/* One of each kind. */
static void *handles[KINDS] = {&batch, &queue, &chain, &seat, &hand, &input, &output};

static void to_batch_calls(struct synth_batch *other)
{
    struct synth_positions at = {9, 9};
    uint64_t items[PLACES] = {0}, len = 9;
    size_t count = 9;
    struct synth_batch_totals closed;
    ROW(synth_batch_new(PLACES, other), SYNTH_FULL_HANDLE);
    ROW(synth_batch_split(other, &no_batch), SYNTH_EMPTY_HANDLE);
    ROW(synth_batch_split(&batch, other), SYNTH_FULL_HANDLE);
    ROW(synth_batch_join(&batch, other), SYNTH_EMPTY_HANDLE);
    ROW(synth_batch_join(other, &batch), SYNTH_EMPTY_HANDLE);
    ROW(synth_batch_try_put(other, items, 1, &at), SYNTH_EMPTY_HANDLE);
    ROW(synth_batch_try_put_some(other, items, 1, &count, &at), SYNTH_EMPTY_HANDLE);
    ROW(synth_batch_try_take(other, items, PLACES, &count, &len), SYNTH_EMPTY_HANDLE);
    ROW(synth_batch_try_take_some(other, items, PLACES, &count, &len), SYNTH_EMPTY_HANDLE);
    ROW(synth_batch_put(other, items, 1, 9), SYNTH_EMPTY_HANDLE);
    ROW(synth_batch_put_some(other, items, 1, 9, &count), SYNTH_EMPTY_HANDLE);
    ROW(synth_batch_take(other, items, PLACES, 9, &count), SYNTH_EMPTY_HANDLE);
    ROW(synth_batch_take_some(other, items, PLACES, 9, &count), SYNTH_EMPTY_HANDLE);
    ROW(synth_batch_abandon(other, items, PLACES, &count), SYNTH_EMPTY_HANDLE);
    ROW(synth_batch_len(other, &len), SYNTH_EMPTY_HANDLE);
    ROW(synth_batch_look(other, NULL), SYNTH_EMPTY_HANDLE);
    ROW(synth_batch_try_take_one(other, items, &len), SYNTH_EMPTY_HANDLE);
    ROW(synth_batch_capacity(other, &count), SYNTH_EMPTY_HANDLE);
    ROW(synth_batch_shut(other), SYNTH_EMPTY_HANDLE);
    ROW(synth_batch_finish(other, items, PLACES, &closed), SYNTH_EMPTY_HANDLE);
    ROW(synth_batch_free(other), SYNTH_EMPTY_HANDLE);
    ROW(count == 9 && len == 9 && at.head == 9 && at.tail == 9 && other->full, true);
}

static void to_queue_calls(struct synth_queue *other)
{
    uint64_t items[PLACES] = {0};
    size_t count = 9;
    struct synth_queue_totals closed;
    ROW(synth_queue_new(PLACES, 0, other), SYNTH_FULL_HANDLE);
    ROW(synth_queue_split(other, &no_queue), SYNTH_EMPTY_HANDLE);
    ROW(synth_queue_split(&queue, other), SYNTH_FULL_HANDLE);
    ROW(synth_queue_join(&queue, other), SYNTH_EMPTY_HANDLE);
    ROW(synth_queue_join(other, &queue), SYNTH_EMPTY_HANDLE);
    ROW(synth_queue_try_put(other, items, 1, NULL), SYNTH_EMPTY_HANDLE);
    ROW(synth_queue_try_take(other, items, NULL), SYNTH_EMPTY_HANDLE);
    ROW(synth_queue_take_up_to(other, items, PLACES, &count, NULL), SYNTH_EMPTY_HANDLE);
    ROW(synth_queue_try_take_line(other, items, PLACES, &count, NULL), SYNTH_EMPTY_HANDLE);
    ROW(synth_queue_put(other, items, 1, 9), SYNTH_EMPTY_HANDLE);
    ROW(synth_queue_take(other, items, 9), SYNTH_EMPTY_HANDLE);
    ROW(synth_queue_abandon(other, items, PLACES, &count), SYNTH_EMPTY_HANDLE);
    ROW(synth_queue_look(other, NULL), SYNTH_EMPTY_HANDLE);
    ROW(synth_queue_shut(other), SYNTH_EMPTY_HANDLE);
    ROW(synth_queue_finish(other, items, PLACES, &closed), SYNTH_EMPTY_HANDLE);
    ROW(synth_queue_free(other), SYNTH_EMPTY_HANDLE);
    ROW(count == 9 && other->full, true);
}

static void to_chain_calls(struct synth_chain *other)
{
    struct synth_chain_totals closed;
    uint16_t note = 9;
    ROW(synth_chain_new(0, other), SYNTH_FULL_HANDLE);
    ROW(synth_chain_split(other, &no_chain), SYNTH_EMPTY_HANDLE);
    ROW(synth_chain_split(&chain, other), SYNTH_FULL_HANDLE);
    ROW(synth_chain_join(&chain, other), SYNTH_EMPTY_HANDLE);
    ROW(synth_chain_join(other, &chain), SYNTH_EMPTY_HANDLE);
    ROW(synth_chain_try_chain(other, 1, NULL), SYNTH_EMPTY_HANDLE);
    ROW(synth_chain_next(other, &note), SYNTH_EMPTY_HANDLE);
    ROW(synth_chain_finish(other, &closed), SYNTH_EMPTY_HANDLE);
    ROW(synth_chain_free(other), SYNTH_EMPTY_HANDLE);
    ROW(note == 9 && other->full, true);
}

static void to_seat_calls(struct synth_seat *other)
{
    struct synth_alarm alarm = {0, 0, 0};
    struct synth_alarm alarms[16];
    struct synth_seat_totals metered;
    uint64_t before = 9;
    uint32_t number = 9;
    size_t count = 9;
    bool cancelled = false;
    ROW(synth_seat_new(0, other), SYNTH_FULL_HANDLE);
    ROW(synth_seat_split(other, &no_seat), SYNTH_EMPTY_HANDLE);
    ROW(synth_seat_split(&seat, other), SYNTH_FULL_HANDLE);
    ROW(synth_seat_join(&seat, other), SYNTH_EMPTY_HANDLE);
    ROW(synth_seat_join(other, &seat), SYNTH_EMPTY_HANDLE);
    ROW(synth_seat_tick(other, 0, 1, &before), SYNTH_EMPTY_HANDLE);
    ROW(synth_seat_try_advance(other, &number), SYNTH_EMPTY_HANDLE);
    ROW(synth_seat_try_set(other, &alarm, &number), SYNTH_EMPTY_HANDLE);
    ROW(synth_seat_cancel(other, 0, &alarm, &cancelled), SYNTH_EMPTY_HANDLE);
    ROW(synth_seat_due(other, alarms, 16, &count), SYNTH_EMPTY_HANDLE);
    ROW(synth_seat_finish(other, &metered), SYNTH_EMPTY_HANDLE);
    ROW(synth_seat_free(other), SYNTH_EMPTY_HANDLE);
    ROW(before == 9 && number == 9 && count == 9 && !cancelled && other->full, true);
}

static void to_hand_calls(struct synth_hand *other)
{
    static struct synth_hand_totals places;
    uint32_t number = 9;
    bool is = false;
    ROW(synth_hand_new(0, other), SYNTH_FULL_HANDLE);
    ROW(synth_hand_split(other, 0, &no_hand), SYNTH_EMPTY_HANDLE);
    ROW(synth_hand_split(&hand, 0, other), SYNTH_FULL_HANDLE);
    ROW(synth_hand_join(&hand, other), SYNTH_EMPTY_HANDLE);
    ROW(synth_hand_join(other, &hand), SYNTH_EMPTY_HANDLE);
    ROW(synth_hand_holds(other, 0, &is), SYNTH_EMPTY_HANDLE);
    ROW(synth_hand_on(other, 0, 0), SYNTH_EMPTY_HANDLE);
    ROW(synth_hand_off(other, 0, &number), SYNTH_EMPTY_HANDLE);
    ROW(synth_hand_try_next(other, &number, NULL), SYNTH_EMPTY_HANDLE);
    ROW(synth_hand_try_ready(other, 0, NULL), SYNTH_EMPTY_HANDLE);
    ROW(synth_hand_stop(other, 0, &is), SYNTH_EMPTY_HANDLE);
    ROW(synth_hand_finish(other, &places), SYNTH_EMPTY_HANDLE);
    ROW(synth_hand_free(other), SYNTH_EMPTY_HANDLE);
    ROW(number == 9 && !is && other->full, true);
}

static void to_line_in_calls(struct synth_line_in *other)
{
    const uint8_t byte = 9;
    struct synth_line_totals totals;
    ROW(synth_line_new(4, other, &no_output), SYNTH_FULL_HANDLE);
    ROW(synth_line_push(other, 1), SYNTH_EMPTY_HANDLE);
    ROW(synth_line_push_some(other, &byte, 1, NULL), SYNTH_EMPTY_HANDLE);
    ROW(synth_line_finish(other, &output, &totals), SYNTH_EMPTY_HANDLE);
    ROW(synth_line_free_in(other), SYNTH_EMPTY_HANDLE);
    ROW(other->full, true);
}

static void to_line_out_calls(struct synth_line_out *other)
{
    struct synth_line_totals totals;
    uint8_t byte = 9;
    ROW(synth_line_new(4, &no_input, other), SYNTH_FULL_HANDLE);
    ROW(synth_line_pop(other, &byte), SYNTH_EMPTY_HANDLE);
    ROW(synth_line_pop_some(other, &byte, 1, NULL), SYNTH_EMPTY_HANDLE);
    ROW(synth_line_finish(&input, other, &totals), SYNTH_EMPTY_HANDLE);
    ROW(synth_line_free_out(other), SYNTH_EMPTY_HANDLE);
    ROW(byte == 9 && other->full, true);
}

/* Each object is whole still, so its close succeeds. */
static void all_close(void)
{
    static struct synth_hand_totals places;
    uint64_t left[PLACES];
    struct synth_batch_totals batch_closed;
    struct synth_queue_totals closed;
    struct synth_chain_totals chained;
    struct synth_seat_totals metered;
    struct synth_line_totals totals;
    ROW(synth_batch_finish(&batch, left, PLACES, &batch_closed), SYNTH_OK);
    ROW(synth_queue_finish(&queue, left, PLACES, &closed), SYNTH_OK);
    ROW(synth_chain_finish(&chain, &chained), SYNTH_OK);
    ROW(synth_seat_finish(&seat, &metered), SYNTH_OK);
    ROW(synth_hand_finish(&hand, &places), SYNTH_OK);
    ROW(synth_line_finish(&input, &output, &totals), SYNTH_OK);
    ROW(no_batch.full || no_queue.full || no_chain.full || no_seat.full, false);
    ROW(no_hand.full || no_input.full || no_output.full, false);
}

int main(void)
{
    ROW(synth_batch_new(PLACES, &batch), SYNTH_OK);
    ROW(synth_queue_new(PLACES, 0, &queue), SYNTH_OK);
    ROW(synth_chain_new(0, &chain), SYNTH_OK);
    ROW(synth_seat_new(0, &seat), SYNTH_OK);
    ROW(synth_hand_new(0, &hand), SYNTH_OK);
    ROW(synth_line_new(4, &input, &output), SYNTH_OK);
    for (int i = 0; i < KINDS; i++) {
        if (handles[i] != &batch) {
            to_batch_calls((struct synth_batch *)handles[i]);
        }
        if (handles[i] != &queue) {
            to_queue_calls((struct synth_queue *)handles[i]);
        }
        if (handles[i] != &chain) {
            to_chain_calls((struct synth_chain *)handles[i]);
        }
        if (handles[i] != &seat) {
            to_seat_calls((struct synth_seat *)handles[i]);
        }
        if (handles[i] != &hand) {
            to_hand_calls((struct synth_hand *)handles[i]);
        }
        if (handles[i] != &input) {
            to_line_in_calls((struct synth_line_in *)handles[i]);
        }
        if (handles[i] != &output) {
            to_line_out_calls((struct synth_line_out *)handles[i]);
        }
    }
    all_close();
    return rows_end("misuse_kinds");
}
