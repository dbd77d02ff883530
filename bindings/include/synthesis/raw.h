/**
 * @file
 * The proved functions of the library, for bindings of other languages. A program in C or C++ calls the functions of
 * synthesis.h, which are inline over these, and which says what each does. The archive has the calls of synthesis.h as
 * symbols, too. A `close` is what is `finish` there, and `advance` is `try_advance`. A `shut` answers SYNTH_OK also if
 * the queue was shut already, and reports whether it was open.
 *
 * Here no pointer is null, except one to 0 elements. An answer that comes by value has 0 in each field that its code
 * doesn't set. What comes by a pointer stays as it was if the code doesn't come with it, except that
 * `synth_raw_queue_take_up_to` sets `count` to 0 with SYNTH_CLOSED, SYNTH_LOST and SYNTH_EMPTY.
 */
#ifndef SYNTHESIS_RAW_H
#define SYNTHESIS_RAW_H

#include <stdbool.h>
#include <stddef.h>
#include <stdint.h>

#ifdef __cplusplus
extern "C" {
#endif

struct synth_alarm;
struct synth_batch;
struct synth_batch_status;
struct synth_batch_totals;
struct synth_chain;
struct synth_chain_totals;
struct synth_hand;
struct synth_hand_totals;
struct synth_line_in;
struct synth_line_out;
struct synth_line_totals;
struct synth_positions;
struct synth_queue;
struct synth_queue_status;
struct synth_queue_totals;
struct synth_seat;
struct synth_seat_totals;

/** A code, and the positions that it comes with. */
struct synth_raw_answer {
    int32_t code;  /**< one of the codes of synthesis.h */
    uint32_t head; /**< of synth_raw_seat_advance the clock, of synth_raw_seat_try_set the slot */
    uint32_t tail; /**< the oldest position */
};

/** The answer of a move of an element. */
struct synth_raw_moved {
    int32_t code;      /**< one of the codes of synthesis.h */
    uint32_t head;     /**< the head of the element queue that was found */
    uint32_t notifies; /**< the number of notifies that was found */
};

/** The answer of a try at an element's state. */
struct synth_raw_state {
    int32_t code;  /**< one of the codes of synthesis.h */
    uint32_t word; /**< bits 0 to 15: the pending signals; bit 16: the stop bit; bit 17: it is in its stop cell */
};

/** @cond RAW */
int32_t synth_raw_batch_new(size_t places, struct synth_batch *batch);
int32_t synth_raw_batch_split(struct synth_batch *batch, struct synth_batch *other);
int32_t synth_raw_batch_join(struct synth_batch *batch, struct synth_batch *other);
int32_t synth_raw_batch_try_put(struct synth_batch *batch, const uint64_t *items, size_t count,
                                struct synth_positions *positions);
int32_t synth_raw_batch_try_put_some(struct synth_batch *batch, const uint64_t *items, size_t count, size_t *put,
                                     struct synth_positions *positions);
int32_t synth_raw_batch_try_take(struct synth_batch *batch, uint64_t *items, size_t room, size_t *count,
                                 struct synth_positions *positions);
int32_t synth_raw_batch_try_take_some(struct synth_batch *batch, uint64_t *items, size_t room, size_t *count,
                                      struct synth_positions *positions);
int32_t synth_raw_batch_look(struct synth_batch *batch, struct synth_batch_status *status);
int32_t synth_raw_batch_len(struct synth_batch *batch, uint64_t *count);
int32_t synth_raw_batch_capacity(struct synth_batch *batch, size_t *places);
int32_t synth_raw_batch_shut(struct synth_batch *batch, bool *was_open);
int32_t synth_raw_batch_close(struct synth_batch *batch, uint64_t *left, size_t room,
                              struct synth_batch_totals *totals);
int32_t synth_raw_batch_free(struct synth_batch *batch);

int32_t synth_raw_queue_new(uint32_t places, uint32_t first, struct synth_queue *queue);
int32_t synth_raw_queue_split(struct synth_queue *queue, struct synth_queue *other);
int32_t synth_raw_queue_join(struct synth_queue *queue, struct synth_queue *other);
struct synth_raw_answer synth_raw_queue_try_put(struct synth_queue *queue, const uint64_t *items, size_t count);
struct synth_raw_answer synth_raw_queue_try_take(struct synth_queue *queue, uint64_t *item);
struct synth_raw_answer synth_raw_queue_take_up_to(struct synth_queue *queue, uint64_t *items, size_t room,
                                                   size_t *count);
struct synth_raw_answer synth_raw_queue_try_take_line(struct synth_queue *queue, uint64_t *line, size_t room,
                                                      size_t *count);
int32_t synth_raw_queue_look(struct synth_queue *queue, struct synth_queue_status *status);
int32_t synth_raw_queue_shut(struct synth_queue *queue, bool *was_open);
int32_t synth_raw_queue_close(struct synth_queue *queue, uint64_t *left, size_t room,
                              struct synth_queue_totals *totals);
int32_t synth_raw_queue_free(struct synth_queue *queue);

int32_t synth_raw_chain_new(uint32_t first, struct synth_chain *chain);
int32_t synth_raw_chain_split(struct synth_chain *chain, struct synth_chain *other);
int32_t synth_raw_chain_join(struct synth_chain *chain, struct synth_chain *other);
struct synth_raw_answer synth_raw_chain_try_chain(struct synth_chain *chain, uint16_t note);
int32_t synth_raw_chain_next(struct synth_chain *chain, uint16_t *note);
int32_t synth_raw_chain_close(struct synth_chain *chain, struct synth_chain_totals *totals);
int32_t synth_raw_chain_free(struct synth_chain *chain);

int32_t synth_raw_seat_new(uint32_t clock, struct synth_seat *seat);
int32_t synth_raw_seat_split(struct synth_seat *seat, struct synth_seat *other);
int32_t synth_raw_seat_join(struct synth_seat *seat, struct synth_seat *other);
int32_t synth_raw_seat_tick(struct synth_seat *seat, uint32_t gauge, uint64_t amount, uint64_t *before);
int32_t synth_raw_seat_gauge(struct synth_seat *seat, uint32_t gauge, uint64_t *value);
int32_t synth_raw_seat_clock(struct synth_seat *seat, uint32_t *clock);
struct synth_raw_answer synth_raw_seat_advance(struct synth_seat *seat, uint32_t *clock);
struct synth_raw_answer synth_raw_seat_try_set(struct synth_seat *seat, const struct synth_alarm *alarm,
                                               uint32_t *slot);
int32_t synth_raw_seat_cancel(struct synth_seat *seat, uint32_t slot, const struct synth_alarm *alarm,
                              bool *cancelled);
int32_t synth_raw_seat_due(struct synth_seat *seat, struct synth_alarm *alarms, size_t room, size_t *count);
int32_t synth_raw_seat_close(struct synth_seat *seat, struct synth_seat_totals *totals);
int32_t synth_raw_seat_free(struct synth_seat *seat);

int32_t synth_raw_line_new(size_t room, struct synth_line_in *input, struct synth_line_out *output);
int32_t synth_raw_line_push(struct synth_line_in *input, uint8_t byte);
int32_t synth_raw_line_push_some(struct synth_line_in *input, const uint8_t *bytes, size_t count, size_t *pushed);
int32_t synth_raw_line_pop(struct synth_line_out *output, uint8_t *byte);
int32_t synth_raw_line_pop_some(struct synth_line_out *output, uint8_t *bytes, size_t room, size_t *count);
int32_t synth_raw_line_finish(struct synth_line_in *input, struct synth_line_out *output,
                              struct synth_line_totals *totals);
int32_t synth_raw_line_free_in(struct synth_line_in *input);
int32_t synth_raw_line_free_out(struct synth_line_out *output);

int32_t synth_raw_hand_new(uint32_t first, struct synth_hand *hand);
int32_t synth_raw_hand_split(struct synth_hand *hand, uint32_t processors, struct synth_hand *other);
int32_t synth_raw_hand_join(struct synth_hand *hand, struct synth_hand *other);
int32_t synth_raw_hand_holds(struct synth_hand *hand, uint32_t element, bool *held);
int32_t synth_raw_hand_serves(struct synth_hand *hand, uint32_t processor, bool *served);
int32_t synth_raw_hand_on_processor(struct synth_hand *hand, uint32_t processor, uint32_t *element);
int32_t synth_raw_hand_on(struct synth_hand *hand, uint32_t processor, uint32_t element);
int32_t synth_raw_hand_off(struct synth_hand *hand, uint32_t processor, uint32_t *element);
int32_t synth_raw_hand_pc(struct synth_hand *hand, uint32_t element, uint64_t *steps);
int32_t synth_raw_hand_step_done(struct synth_hand *hand, uint32_t element, uint64_t *steps);
struct synth_raw_answer synth_raw_hand_try_next(struct synth_hand *hand, uint32_t *element);
struct synth_raw_answer synth_raw_hand_try_free(struct synth_hand *hand, uint32_t *element);
struct synth_raw_answer synth_raw_hand_try_wake(struct synth_hand *hand, uint32_t wait, uint32_t *element);
int32_t synth_raw_hand_notify(struct synth_hand *hand, uint32_t wait, uint32_t *head);
struct synth_raw_answer synth_raw_hand_try_wake_before(struct synth_hand *hand, uint32_t wait, uint32_t head,
                                                       uint32_t *element);
struct synth_raw_moved synth_raw_hand_try_ready(struct synth_hand *hand, uint32_t element);
struct synth_raw_moved synth_raw_hand_try_retire(struct synth_hand *hand, uint32_t element);
struct synth_raw_moved synth_raw_hand_try_wait(struct synth_hand *hand, uint32_t element, uint32_t wait);
int32_t synth_raw_hand_ticket(struct synth_hand *hand, uint32_t wait, uint32_t *ticket);
struct synth_raw_moved synth_raw_hand_try_wait_at(struct synth_hand *hand, uint32_t element, uint32_t wait,
                                                  uint32_t ticket);
int32_t synth_raw_hand_stop(struct synth_hand *hand, uint32_t element, bool *was_clear);
struct synth_raw_state synth_raw_hand_try_start(struct synth_hand *hand, uint32_t element, uint32_t *started);
struct synth_raw_state synth_raw_hand_try_park(struct synth_hand *hand, uint32_t element, bool *parked);
int32_t synth_raw_hand_signal(struct synth_hand *hand, uint32_t element, uint32_t signal, bool *raised);
int32_t synth_raw_hand_pending(struct synth_hand *hand, uint32_t element, uint32_t *signals);
struct synth_raw_state synth_raw_hand_try_deliver(struct synth_hand *hand, uint32_t element, uint32_t *signals);
int32_t synth_raw_hand_close(struct synth_hand *hand, struct synth_hand_totals *totals);
int32_t synth_raw_hand_free(struct synth_hand *hand);
/** @endcond */

#ifdef __cplusplus
}
#endif
#endif
