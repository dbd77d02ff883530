/*
 * What the inline functions of synthesis.h make of the answers that one thread alone never gets, such as SYNTH_LOST:
 * the functions below them are those of this file, and answer what a row wants. Status 1: an answer differs.
 */
#include "rows.h"
#include "synthesis.h"

enum { MARK = 97 };

/* What the function below answers, and how often it is LOST before. */
static struct synth_raw_answer answer;
static struct synth_raw_moved moved;
static struct synth_raw_state state;
static const struct synth_raw_state lost = {SYNTH_LOST, 0x30000};
static struct synth_positions found;
static size_t taken;
static int losses, calls;

static struct synth_batch batch;
static struct synth_queue queue;
static struct synth_chain chain;
static struct synth_seat seat;
static struct synth_hand hand, giver, receiver;

/* What the park and the start of a give do; how often the start is LOST before; the calls that the wrong hand made. */
static bool parks;
static uint32_t starts;
static int start_losses, wrong_hands;

#ifdef __cplusplus
extern "C" {
#endif

static int32_t code_of_batch(struct synth_positions *positions)
{
    calls++;
    if (losses > 0) {
        losses--;
        return SYNTH_LOST;
    }
    if (answer.code != SYNTH_CLOSED) {
        *positions = found;
    }
    return answer.code;
}

static struct synth_raw_answer answer_of_queue(void)
{
    struct synth_raw_answer lost = {SYNTH_LOST, 0, 0};
    calls++;
    if (losses > 0) {
        losses--;
        return lost;
    }
    return answer;
}

int32_t synth_raw_batch_try_put(struct synth_batch *end, const uint64_t *items, size_t count,
                                struct synth_positions *at)
{
    (void)end, (void)items, (void)count;
    return code_of_batch(at);
}

int32_t synth_raw_batch_try_put_some(struct synth_batch *end, const uint64_t *items, size_t count, size_t *put,
                                     struct synth_positions *at)
{
    (void)end, (void)items, (void)count;
    *put = taken;
    return code_of_batch(at);
}

int32_t synth_raw_batch_try_take(struct synth_batch *end, uint64_t *items, size_t room, size_t *count,
                                 struct synth_positions *at)
{
    (void)end, (void)items, (void)room;
    *count = taken;
    return code_of_batch(at);
}

int32_t synth_raw_batch_try_take_some(struct synth_batch *end, uint64_t *items, size_t room, size_t *count,
                                      struct synth_positions *at)
{
    return synth_raw_batch_try_take(end, items, room, count, at);
}

struct synth_raw_answer synth_raw_queue_try_put(struct synth_queue *end, const uint64_t *items, size_t count)
{
    (void)end, (void)items, (void)count;
    return answer_of_queue();
}

struct synth_raw_answer synth_raw_queue_try_take(struct synth_queue *end, uint64_t *item)
{
    (void)end, (void)item;
    return answer_of_queue();
}

struct synth_raw_answer synth_raw_queue_take_up_to(struct synth_queue *end, uint64_t *items, size_t room, size_t *count)
{
    (void)end, (void)items, (void)room;
    *count = taken;
    return answer_of_queue();
}

struct synth_raw_answer synth_raw_queue_try_take_line(struct synth_queue *end, uint64_t *line, size_t room,
                                                      size_t *count)
{
    return synth_raw_queue_take_up_to(end, line, room, count);
}

struct synth_raw_answer synth_raw_chain_try_chain(struct synth_chain *end, uint16_t note)
{
    (void)end, (void)note;
    return answer_of_queue();
}

struct synth_raw_answer synth_raw_seat_advance(struct synth_seat *end, uint32_t *clock)
{
    (void)end, (void)clock;
    return answer_of_queue();
}

struct synth_raw_answer synth_raw_seat_try_set(struct synth_seat *end, const struct synth_alarm *alarm, uint32_t *slot)
{
    (void)end, (void)alarm, (void)slot;
    return answer_of_queue();
}

struct synth_raw_answer synth_raw_hand_try_next(struct synth_hand *end, uint32_t *element)
{
    (void)end, (void)element;
    return answer_of_queue();
}

struct synth_raw_answer synth_raw_hand_try_free(struct synth_hand *end, uint32_t *element)
{
    return synth_raw_hand_try_next(end, element);
}

struct synth_raw_answer synth_raw_hand_try_wake(struct synth_hand *end, uint32_t wait, uint32_t *element)
{
    (void)wait;
    return synth_raw_hand_try_next(end, element);
}

struct synth_raw_answer synth_raw_hand_try_wake_before(struct synth_hand *end, uint32_t wait, uint32_t head,
                                                       uint32_t *element)
{
    (void)wait, (void)head;
    return synth_raw_hand_try_next(end, element);
}

struct synth_raw_moved synth_raw_hand_try_ready(struct synth_hand *end, uint32_t element)
{
    const struct synth_raw_moved lost_move = {SYNTH_LOST, 0, 0};
    (void)end, (void)element;
    calls++;
    if (losses > 0) {
        losses--;
        return lost_move;
    }
    return moved;
}

struct synth_raw_moved synth_raw_hand_try_retire(struct synth_hand *end, uint32_t element)
{
    return synth_raw_hand_try_ready(end, element);
}

struct synth_raw_moved synth_raw_hand_try_wait(struct synth_hand *end, uint32_t element, uint32_t wait)
{
    (void)wait;
    return synth_raw_hand_try_ready(end, element);
}

struct synth_raw_moved synth_raw_hand_try_wait_at(struct synth_hand *end, uint32_t element, uint32_t wait,
                                                  uint32_t ticket)
{
    (void)wait, (void)ticket;
    return synth_raw_hand_try_ready(end, element);
}

struct synth_raw_state synth_raw_hand_try_start(struct synth_hand *end, uint32_t element, uint32_t *started)
{
    (void)element;
    calls++;
    wrong_hands += end == &giver;
    if (start_losses > 0) {
        start_losses--;
        return lost;
    }
    *started = starts;
    return state;
}

struct synth_raw_state synth_raw_hand_try_park(struct synth_hand *end, uint32_t element, bool *parked)
{
    (void)element;
    calls++;
    wrong_hands += end == &receiver;
    if (losses > 0) {
        losses--;
        return lost;
    }
    *parked = parks;
    return state;
}

int32_t synth_raw_hand_stop(struct synth_hand *end, uint32_t element, bool *was_clear)
{
    (void)element;
    calls++;
    wrong_hands += end == &receiver;
    *was_clear = true;
    return SYNTH_OK;
}

int32_t synth_raw_hand_holds(struct synth_hand *end, uint32_t element, bool *held)
{
    (void)element;
    *held = end == &giver;
    return SYNTH_OK;
}

int32_t synth_raw_hand_pc(struct synth_hand *end, uint32_t element, uint64_t *steps)
{
    (void)end, (void)element, (void)steps;
    return SYNTH_NOT_HELD;
}

int32_t synth_raw_hand_serves(struct synth_hand *end, uint32_t processor, bool *served)
{
    (void)processor;
    *served = end == &giver;
    return SYNTH_OK;
}

struct synth_raw_state synth_raw_hand_try_deliver(struct synth_hand *end, uint32_t element, uint32_t *signals)
{
    return synth_raw_hand_try_start(end, element, signals);
}

#ifdef __cplusplus
}
#endif

/* The answer from now on. */
static void is_answered(synth_code code, uint32_t head, uint32_t tail)
{
    answer.code = moved.code = state.code = code;
    answer.head = moved.head = head;
    answer.tail = moved.notifies = tail;
    found.head = head;
    found.tail = tail;
}

static uint64_t items[4];
static struct synth_positions at;
static uint64_t tail;
static size_t count;

/* What a put of either queue, or a try to chain, writes of positions. */
static void is_put(synth_code have, synth_code want, uint64_t head, uint64_t oldest)
{
    ROW(have, want);
    ROW(at.head, head);
    ROW(at.tail, oldest);
    at.head = at.tail = MARK;
}

static void puts_and_notes(void)
{
    static const synth_code refused[] = {SYNTH_CLOSED, SYNTH_SPENT, SYNTH_TOO_LONG, SYNTH_EMPTY_HANDLE};
    at.head = at.tail = MARK;
    is_answered(SYNTH_LOST, 5, 0);
    is_put(synth_batch_try_put(&batch, items, 4, &at), SYNTH_LOST, 5, 0);
    is_put(synth_batch_try_put_some(&batch, items, 4, &count, &at), SYNTH_LOST, 5, 0);
    is_put(synth_queue_try_put(&queue, items, 4, &at), SYNTH_LOST, 5, 0);
    is_put(synth_chain_try_chain(&chain, 4, &at), SYNTH_LOST, 5, 0);
    is_answered(SYNTH_FULL, 7, 6);
    is_put(synth_queue_try_put(&queue, items, 4, &at), SYNTH_FULL, 7, 6);
    is_put(synth_chain_try_chain(&chain, 4, &at), SYNTH_FULL, 7, 6);
    for (size_t i = 0; i < sizeof refused / sizeof *refused; i++) {
        is_answered(refused[i], 0, 0);
        is_put(synth_queue_try_put(&queue, items, 4, &at), refused[i], MARK, MARK);
        is_put(synth_chain_try_chain(&chain, 4, &at), refused[i], MARK, MARK);
    }
    is_answered(SYNTH_RUN, 0, 0);
    is_put(synth_chain_try_chain(&chain, 4, &at), SYNTH_RUN, MARK, MARK);
    is_answered(SYNTH_LEFT, 0, 0);
    is_put(synth_chain_try_chain(&chain, 4, &at), SYNTH_LEFT, MARK, MARK);
}

static void is_taken(synth_code have, synth_code want, uint64_t position, size_t number)
{
    ROW(have, want);
    ROW(tail, position);
    ROW(count, number);
    tail = count = MARK;
}

static void takings(void)
{
    tail = count = MARK;
    taken = 3;
    is_answered(SYNTH_LOST, 0, 8);
    is_taken(synth_batch_try_take(&batch, items, 4, &count, &tail), SYNTH_LOST, 8, MARK);
    is_taken(synth_batch_try_take_some(&batch, items, 4, &count, &tail), SYNTH_LOST, 8, MARK);
    is_taken(synth_queue_try_take(&queue, items, &tail), SYNTH_LOST, 8, MARK);
    is_taken(synth_queue_take_up_to(&queue, items, 4, &count, &tail), SYNTH_LOST, 8, MARK);
    is_taken(synth_queue_try_take_line(&queue, items, 4, &count, &tail), SYNTH_LOST, 8, MARK);
    is_answered(SYNTH_CLOSED, 0, 0);
    is_taken(synth_batch_try_take(&batch, items, 4, &count, &tail), SYNTH_CLOSED, MARK, MARK);
    is_taken(synth_queue_take_up_to(&queue, items, 4, &count, &tail), SYNTH_CLOSED, MARK, MARK);
    is_answered(SYNTH_SHORT_BUFFER, 0, 9);
    is_taken(synth_batch_try_take(&batch, items, 2, &count, &tail), SYNTH_SHORT_BUFFER, 9, 3);
    is_taken(synth_queue_take_up_to(&queue, items, 0, &count, &tail), SYNTH_SHORT_BUFFER, MARK, MARK);
    is_answered(SYNTH_OK, 0, 9);
    is_taken(synth_batch_try_take(&batch, items, 4, &count, &tail), SYNTH_OK, MARK, 3);
    is_taken(synth_queue_take_up_to(&queue, items, 4, &count, &tail), SYNTH_OK, 9, 3);
    is_taken(synth_queue_try_take_line(&queue, items, 4, &count, &tail), SYNTH_OK, MARK, 3);
}

/* So many losses, and so many tries: the last answer, after as many calls. */
static void is_tried(int number, synth_code have, synth_code want)
{
    ROW(have, want);
    ROW(calls, number);
    calls = 0;
}

/* Three losses, and so many tries at a call. */
#define IS_REPEATED(call)                                                                                              \
    losses = start_losses = 3;                                                                                         \
    is_tried(number, call, code)

static void repeated_tries(void)
{
    const struct synth_alarm alarm = {1, 2, 3};
    uint32_t element = 0;
    calls = 0;
    is_answered(SYNTH_OK, 0, 0);
    for (uint32_t tries = 0; tries < 6; tries++) {
        int most = tries > 1 ? (int)tries : 1;
        int number = most < 4 ? most : 4;
        synth_code code = number < 4 ? SYNTH_LOST : SYNTH_OK;
        IS_REPEATED(synth_batch_put(&batch, items, 4, tries));
        IS_REPEATED(synth_batch_put_some(&batch, items, 4, tries, &count));
        IS_REPEATED(synth_batch_take(&batch, items, 4, tries, &count));
        IS_REPEATED(synth_batch_take_some(&batch, items, 4, tries, &count));
        IS_REPEATED(synth_batch_take_one(&batch, items, tries));
        IS_REPEATED(synth_queue_put(&queue, items, 4, tries));
        IS_REPEATED(synth_queue_take(&queue, items, tries));
        IS_REPEATED(synth_queue_take_line(&queue, items, 4, tries, &count));
        IS_REPEATED(synth_chain_chain(&chain, 4, tries));
        IS_REPEATED(synth_seat_advance(&seat, tries, NULL));
        IS_REPEATED(synth_seat_set(&seat, &alarm, tries, NULL));
        IS_REPEATED(synth_hand_next(&hand, &element, tries));
        IS_REPEATED(synth_hand_next_free(&hand, &element, tries));
        IS_REPEATED(synth_hand_wake(&hand, 1, &element, tries));
        IS_REPEATED(synth_hand_wake_before(&hand, 1, 2, &element, tries));
        IS_REPEATED(synth_hand_ready(&hand, 1, tries));
        IS_REPEATED(synth_hand_retire(&hand, 1, tries));
        IS_REPEATED(synth_hand_wait(&hand, 1, 2, tries));
        IS_REPEATED(synth_hand_wait_at(&hand, 1, 2, 3, tries));
        IS_REPEATED(synth_hand_start(&hand, 1, tries, NULL));
        IS_REPEATED(synth_hand_park(&hand, 1, tries, NULL));
        IS_REPEATED(synth_hand_deliver(&hand, 1, tries, NULL));
        losses = start_losses = 0;
    }
    is_answered(SYNTH_FULL, 0, 0);
    losses = 1;
    is_tried(2, synth_batch_put(&batch, items, 4, UINT32_MAX), SYNTH_FULL);
}

static void meters(void)
{
    const struct synth_alarm alarm = {1, 2, 3};
    uint32_t clock = MARK, slot = MARK;
    is_answered(SYNTH_LOST, 12, 0);
    ROW(synth_seat_try_advance(&seat, &clock), SYNTH_LOST);
    ROW(clock, 12);
    ROW(synth_seat_try_set(&seat, &alarm, &slot), SYNTH_LOST);
    ROW(slot, 12);
    is_answered(SYNTH_SPENT, 0, 0);
    ROW(synth_seat_try_advance(&seat, &clock), SYNTH_SPENT);
    ROW(clock, 12);
    is_answered(SYNTH_NO_ROOM, 0, 0);
    ROW(synth_seat_try_set(&seat, &alarm, &slot), SYNTH_NO_ROOM);
    ROW(slot, 12);
}

static void is_held(synth_code have, synth_code want, uint32_t *position, uint32_t number)
{
    ROW(have, want);
    ROW(*position, number);
    *position = MARK;
}

static void elements(void)
{
    uint32_t oldest = MARK, head = MARK, notifies = MARK;
    is_answered(SYNTH_LOST, 13, 14);
    is_held(synth_hand_try_next(&hand, NULL, &oldest), SYNTH_LOST, &oldest, 14);
    is_held(synth_hand_try_free(&hand, NULL, &oldest), SYNTH_LOST, &oldest, 14);
    is_held(synth_hand_try_wake(&hand, 1, NULL, &oldest), SYNTH_LOST, &oldest, 14);
    is_held(synth_hand_try_wake_before(&hand, 1, 2, NULL, &oldest), SYNTH_LOST, &oldest, 14);
    is_held(synth_hand_try_ready(&hand, 1, &head), SYNTH_LOST, &head, 13);
    is_held(synth_hand_try_retire(&hand, 1, &head), SYNTH_LOST, &head, 13);
    is_held(synth_hand_try_wait(&hand, 1, 2, &head, &notifies), SYNTH_LOST, &head, 13);
    ROW(notifies, 14);
    is_held(synth_hand_try_wait_at(&hand, 1, 2, 3, &head, NULL), SYNTH_LOST, &head, 13);
    is_answered(SYNTH_MOVED, 0, 15);
    is_held(synth_hand_try_wait_at(&hand, 1, 2, 3, &head, &notifies), SYNTH_MOVED, &head, MARK);
    ROW(notifies, 15);
    is_answered(SYNTH_EMPTY, 0, 0);
    is_held(synth_hand_try_next(&hand, NULL, &oldest), SYNTH_EMPTY, &oldest, MARK);
}

static void states(void)
{
    struct synth_element_state seen = {MARK, false, false};
    is_answered(SYNTH_LOST, 0, 0);
    state.word = 0x18001;
    ROW(synth_hand_try_start(&hand, 1, NULL, &seen), SYNTH_LOST);
    ROW(seen.pending == 0x8001 && seen.is_stopping && !seen.is_parked, true);
    state.word = 0x20002;
    ROW(synth_hand_try_park(&hand, 1, NULL, &seen), SYNTH_LOST);
    ROW(seen.pending == 2 && !seen.is_stopping && seen.is_parked, true);
    state.word = 0x3ffff;
    ROW(synth_hand_try_deliver(&hand, 1, NULL, &seen), SYNTH_LOST);
    ROW(seen.pending == 0xffff && seen.is_stopping && seen.is_parked, true);
    is_answered(SYNTH_NOT_HELD, 0, 0);
    state.word = 0;
    ROW(synth_hand_try_park(&hand, 1, NULL, &seen), SYNTH_NOT_HELD);
    ROW(seen.pending == 0xffff && seen.is_stopping && seen.is_parked, true);
}

/* One give whose park and start are LOST so often, and then do this. */
static void is_given(int park_losses, bool parked, int losses_of_start, uint32_t started, synth_code want)
{
    losses = park_losses;
    parks = parked;
    start_losses = losses_of_start;
    starts = started;
    calls = wrong_hands = 0;
    ROW(synth_hand_give(&giver, &receiver, 1), want);
    ROW(calls, 1 + park_losses + 1 + (parked ? losses_of_start + 1 : 0));
    ROW(wrong_hands, 0);
}

static void gives(void)
{
    is_answered(SYNTH_OK, 0, 0);
    is_given(0, true, 0, SYNTH_START_HELD, SYNTH_OK);
    is_given(3, true, 0, SYNTH_START_HELD, SYNTH_OK);
    is_given(0, true, 17, SYNTH_START_HELD, SYNTH_OK);
    is_given(2, true, 1, SYNTH_START_HELD, SYNTH_OK);
    is_given(0, false, 0, SYNTH_START_HELD, SYNTH_LOST);
    is_given(1, false, 0, SYNTH_START_NOT_STOPPED, SYNTH_LOST);
    is_given(0, true, 0, SYNTH_START_NOT_STOPPED, SYNTH_TAKEN);
    is_given(1, true, 2, SYNTH_START_NOT_STOPPED, SYNTH_TAKEN);
    is_given(0, true, 0, SYNTH_START_CLEARED, SYNTH_TAKEN);
    is_given(0, true, 1, SYNTH_START_CLEARED, SYNTH_TAKEN);
    ROW(synth_hand_give(&receiver, &giver, 1), SYNTH_NOT_HELD);
}

int main(void)
{
    puts_and_notes();
    takings();
    repeated_tries();
    meters();
    elements();
    states();
    gives();
    return rows_end("answers");
}
