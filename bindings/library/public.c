/*
 * The calls of synthesis.h as symbols of the archive, for other languages and for pointers to them. In C an inline
 * function has a symbol in the one file that declares it `extern inline`: this one.
 */
#include "synthesis.h"

extern inline synth_code synth_batch_new(size_t places, struct synth_batch *batch);
extern inline synth_code synth_batch_split(struct synth_batch *restrict batch, struct synth_batch *restrict other);
extern inline synth_code synth_batch_join(struct synth_batch *restrict batch, struct synth_batch *restrict other);
extern inline synth_code synth_batch_try_put(struct synth_batch *restrict batch, const uint64_t *restrict items,
                                             size_t count, struct synth_positions *restrict positions);
extern inline synth_code synth_batch_try_put_some(struct synth_batch *restrict batch, const uint64_t *restrict items,
                                                  size_t count, size_t *restrict put,
                                                  struct synth_positions *restrict positions);
extern inline synth_code synth_batch_try_take(struct synth_batch *restrict batch, uint64_t *restrict items,
                                              size_t room, size_t *restrict count, uint64_t *restrict tail);
extern inline synth_code synth_batch_try_take_some(struct synth_batch *restrict batch, uint64_t *restrict items,
                                                   size_t room, size_t *restrict count, uint64_t *restrict tail);
extern inline synth_code synth_batch_put(struct synth_batch *restrict batch, const uint64_t *restrict items,
                                         size_t count, uint32_t tries);
extern inline synth_code synth_batch_put_some(struct synth_batch *restrict batch, const uint64_t *restrict items,
                                              size_t count, uint32_t tries, size_t *restrict put);
extern inline synth_code synth_batch_take(struct synth_batch *restrict batch, uint64_t *restrict items, size_t room,
                                          uint32_t tries, size_t *restrict count);
extern inline synth_code synth_batch_take_some(struct synth_batch *restrict batch, uint64_t *restrict items,
                                               size_t room, uint32_t tries, size_t *restrict count);
extern inline synth_code synth_batch_try_take_one(struct synth_batch *restrict batch, uint64_t *restrict item,
                                                  uint64_t *restrict tail);
extern inline synth_code synth_batch_take_one(struct synth_batch *restrict batch, uint64_t *restrict item,
                                              uint32_t tries);
extern inline synth_code synth_batch_look(const struct synth_batch *batch, struct synth_batch_status *status);
extern inline synth_code synth_batch_len(const struct synth_batch *batch, uint64_t *count);
extern inline synth_code synth_batch_capacity(const struct synth_batch *batch, size_t *places);
extern inline synth_code synth_batch_shut(struct synth_batch *batch);
extern inline synth_code synth_batch_finish(struct synth_batch *restrict batch, uint64_t *restrict left, size_t room,
                                            struct synth_batch_totals *restrict totals);
extern inline synth_code synth_batch_abandon(struct synth_batch *restrict batch, uint64_t *restrict items,
                                             size_t room, size_t *restrict count);
extern inline synth_code synth_batch_free(struct synth_batch *batch);

extern inline synth_code synth_queue_new(uint32_t places, uint32_t first, struct synth_queue *queue);
extern inline synth_code synth_queue_split(struct synth_queue *restrict queue, struct synth_queue *restrict other);
extern inline synth_code synth_queue_join(struct synth_queue *restrict queue, struct synth_queue *restrict other);
extern inline synth_code synth_queue_try_put(struct synth_queue *restrict queue, const uint64_t *restrict items,
                                             size_t count, struct synth_positions *restrict positions);
extern inline synth_code synth_queue_try_take(struct synth_queue *restrict queue, uint64_t *restrict item,
                                              uint64_t *restrict tail);
extern inline synth_code synth_queue_take_up_to(struct synth_queue *restrict queue, uint64_t *restrict items,
                                                size_t room, size_t *restrict count, uint64_t *restrict tail);
extern inline synth_code synth_queue_try_take_line(struct synth_queue *restrict queue, uint64_t *restrict line,
                                                   size_t room, size_t *restrict count, uint64_t *restrict tail);
extern inline synth_code synth_queue_put(struct synth_queue *restrict queue, const uint64_t *restrict items,
                                         size_t count, uint32_t tries);
extern inline synth_code synth_queue_take(struct synth_queue *restrict queue, uint64_t *restrict item,
                                          uint32_t tries);
extern inline synth_code synth_queue_take_line(struct synth_queue *restrict queue, uint64_t *restrict line,
                                               size_t room, uint32_t tries, size_t *restrict count);
extern inline synth_code synth_queue_look(const struct synth_queue *queue, struct synth_queue_status *status);
extern inline synth_code synth_queue_shut(struct synth_queue *queue);
extern inline synth_code synth_queue_finish(struct synth_queue *restrict queue, uint64_t *restrict left, size_t room,
                                            struct synth_queue_totals *restrict totals);
extern inline synth_code synth_queue_abandon(struct synth_queue *restrict queue, uint64_t *restrict items,
                                             size_t room, size_t *restrict count);
extern inline synth_code synth_queue_free(struct synth_queue *queue);

extern inline synth_code synth_chain_new(uint32_t first, struct synth_chain *chain);
extern inline synth_code synth_chain_split(struct synth_chain *restrict chain, struct synth_chain *restrict other);
extern inline synth_code synth_chain_join(struct synth_chain *restrict chain, struct synth_chain *restrict other);
extern inline synth_code synth_chain_try_chain(struct synth_chain *restrict chain, uint16_t note,
                                               struct synth_positions *restrict positions);
extern inline synth_code synth_chain_chain(struct synth_chain *chain, uint16_t note, uint32_t tries);
extern inline synth_code synth_chain_next(struct synth_chain *restrict chain, uint16_t *restrict note);
extern inline synth_code synth_chain_finish(struct synth_chain *restrict chain,
                                            struct synth_chain_totals *restrict totals);
extern inline synth_code synth_chain_free(struct synth_chain *chain);

extern inline synth_code synth_seat_new(uint32_t clock, struct synth_seat *seat);
extern inline synth_code synth_seat_split(struct synth_seat *restrict seat, struct synth_seat *restrict other);
extern inline synth_code synth_seat_join(struct synth_seat *restrict seat, struct synth_seat *restrict other);
extern inline synth_code synth_seat_tick(struct synth_seat *restrict seat, uint32_t gauge, uint64_t amount,
                                         uint64_t *restrict before);
extern inline synth_code synth_seat_try_advance(struct synth_seat *restrict seat, uint32_t *restrict clock);
extern inline synth_code synth_seat_try_set(struct synth_seat *restrict seat,
                                            const struct synth_alarm *restrict alarm, uint32_t *restrict slot);
extern inline synth_code synth_seat_advance(struct synth_seat *restrict seat, uint32_t tries, uint32_t *restrict clock);
extern inline synth_code synth_seat_set(struct synth_seat *restrict seat, const struct synth_alarm *restrict alarm,
                                        uint32_t tries, uint32_t *restrict slot);
extern inline synth_code synth_seat_gauge(const struct synth_seat *seat, uint32_t gauge, uint64_t *value);
extern inline synth_code synth_seat_clock(const struct synth_seat *seat, uint32_t *clock);
extern inline synth_code synth_seat_cancel(struct synth_seat *restrict seat, uint32_t slot,
                                           const struct synth_alarm *restrict alarm, bool *restrict cancelled);
extern inline synth_code synth_seat_due(struct synth_seat *restrict seat, struct synth_alarm *restrict alarms,
                                        size_t room, size_t *restrict count);
extern inline synth_code synth_seat_finish(struct synth_seat *restrict seat,
                                           struct synth_seat_totals *restrict totals);
extern inline synth_code synth_seat_free(struct synth_seat *seat);

extern inline synth_code synth_line_new(size_t room, struct synth_line_in *restrict input,
                                        struct synth_line_out *restrict output);
extern inline synth_code synth_line_push(struct synth_line_in *input, uint8_t byte);
extern inline synth_code synth_line_push_some(struct synth_line_in *restrict input, const uint8_t *restrict bytes,
                                              size_t count, size_t *restrict pushed);
extern inline synth_code synth_line_pop(struct synth_line_out *restrict output, uint8_t *restrict byte);
extern inline synth_code synth_line_pop_some(struct synth_line_out *restrict output, uint8_t *restrict bytes,
                                             size_t room, size_t *restrict count);
extern inline synth_code synth_line_finish(struct synth_line_in *restrict input,
                                           struct synth_line_out *restrict output,
                                           struct synth_line_totals *restrict totals);
extern inline synth_code synth_line_free_in(struct synth_line_in *input);
extern inline synth_code synth_line_free_out(struct synth_line_out *output);

extern inline synth_code synth_hand_new(uint32_t first, struct synth_hand *hand);
extern inline synth_code synth_hand_split(struct synth_hand *restrict hand, uint32_t processors,
                                          struct synth_hand *restrict other);
extern inline synth_code synth_hand_join(struct synth_hand *restrict hand, struct synth_hand *restrict other);
extern inline synth_code synth_hand_holds(const struct synth_hand *hand, uint32_t element, bool *held);
extern inline synth_code synth_hand_serves(const struct synth_hand *hand, uint32_t processor, bool *served);
extern inline synth_code synth_hand_on_processor(const struct synth_hand *hand, uint32_t processor,
                                                 uint32_t *element);
extern inline synth_code synth_hand_on(struct synth_hand *hand, uint32_t processor, uint32_t element);
extern inline synth_code synth_hand_off(struct synth_hand *restrict hand, uint32_t processor,
                                        uint32_t *restrict element);
extern inline synth_code synth_hand_pc(const struct synth_hand *hand, uint32_t element, uint64_t *steps);
extern inline synth_code synth_hand_step_done(struct synth_hand *restrict hand, uint32_t element,
                                              uint64_t *restrict steps);
extern inline synth_code synth_hand_try_next(struct synth_hand *restrict hand, uint32_t *restrict element,
                                             uint32_t *restrict tail);
extern inline synth_code synth_hand_try_free(struct synth_hand *restrict hand, uint32_t *restrict element,
                                             uint32_t *restrict tail);
extern inline synth_code synth_hand_try_wake(struct synth_hand *restrict hand, uint32_t wait,
                                             uint32_t *restrict element, uint32_t *restrict tail);
extern inline synth_code synth_hand_notify(struct synth_hand *restrict hand, uint32_t wait, uint32_t *restrict head);
extern inline synth_code synth_hand_try_wake_before(struct synth_hand *restrict hand, uint32_t wait, uint32_t head,
                                                    uint32_t *restrict element, uint32_t *restrict tail);
extern inline synth_code synth_hand_try_ready(struct synth_hand *restrict hand, uint32_t element,
                                              uint32_t *restrict head);
extern inline synth_code synth_hand_try_retire(struct synth_hand *restrict hand, uint32_t element,
                                               uint32_t *restrict head);
extern inline synth_code synth_hand_try_wait(struct synth_hand *restrict hand, uint32_t element, uint32_t wait,
                                             uint32_t *restrict head, uint32_t *restrict notifies);
extern inline synth_code synth_hand_ticket(const struct synth_hand *hand, uint32_t wait, uint32_t *ticket);
extern inline synth_code synth_hand_try_wait_at(struct synth_hand *restrict hand, uint32_t element, uint32_t wait,
                                                uint32_t ticket, uint32_t *restrict head,
                                                uint32_t *restrict notifies);
extern inline synth_code synth_hand_stop(struct synth_hand *restrict hand, uint32_t element,
                                         bool *restrict was_clear);
extern inline synth_code synth_hand_try_start(struct synth_hand *restrict hand, uint32_t element,
                                              uint32_t *restrict started, struct synth_element_state *restrict state);
extern inline synth_code synth_hand_try_park(struct synth_hand *restrict hand, uint32_t element,
                                             bool *restrict parked, struct synth_element_state *restrict state);
extern inline synth_code synth_hand_give(struct synth_hand *giver, struct synth_hand *receiver, uint32_t element);
extern inline synth_code synth_hand_signal(struct synth_hand *restrict hand, uint32_t element, uint32_t signal,
                                           bool *restrict raised);
extern inline synth_code synth_hand_pending(const struct synth_hand *hand, uint32_t element, uint32_t *signals);
extern inline synth_code synth_hand_try_deliver(struct synth_hand *restrict hand, uint32_t element,
                                                uint32_t *restrict signals,
                                                struct synth_element_state *restrict state);
extern inline synth_code synth_hand_next(struct synth_hand *restrict hand, uint32_t *restrict element, uint32_t tries);
extern inline synth_code synth_hand_next_free(struct synth_hand *restrict hand, uint32_t *restrict element,
                                              uint32_t tries);
extern inline synth_code synth_hand_wake(struct synth_hand *restrict hand, uint32_t wait, uint32_t *restrict element,
                                         uint32_t tries);
extern inline synth_code synth_hand_wake_before(struct synth_hand *restrict hand, uint32_t wait, uint32_t head,
                                                uint32_t *restrict element, uint32_t tries);
extern inline synth_code synth_hand_ready(struct synth_hand *hand, uint32_t element, uint32_t tries);
extern inline synth_code synth_hand_retire(struct synth_hand *hand, uint32_t element, uint32_t tries);
extern inline synth_code synth_hand_wait(struct synth_hand *hand, uint32_t element, uint32_t wait, uint32_t tries);
extern inline synth_code synth_hand_wait_at(struct synth_hand *hand, uint32_t element, uint32_t wait, uint32_t ticket,
                                            uint32_t tries);
extern inline synth_code synth_hand_start(struct synth_hand *restrict hand, uint32_t element, uint32_t tries,
                                          uint32_t *restrict started);
extern inline synth_code synth_hand_park(struct synth_hand *restrict hand, uint32_t element, uint32_t tries,
                                         bool *restrict parked);
extern inline synth_code synth_hand_deliver(struct synth_hand *restrict hand, uint32_t element, uint32_t tries,
                                            uint32_t *restrict signals);
extern inline synth_code synth_hand_finish(struct synth_hand *restrict hand,
                                           struct synth_hand_totals *restrict totals);
extern inline synth_code synth_hand_free(struct synth_hand *hand);

/* What the calls have in common, for a compiler that doesn't inline it. */
extern inline void synth_pause(void);
extern inline void synth_linked_(void);
extern inline void synth_positions_(struct synth_positions *positions, struct synth_raw_answer found);
extern inline void synth_tail_(uint64_t *tail, struct synth_raw_answer found);
extern inline synth_code synth_batch_taken_(synth_code code, const uint64_t *items, size_t taken, size_t *count,
                                            uint64_t at, uint64_t *tail);
extern inline synth_code synth_queue_taken_(struct synth_raw_answer found, const uint64_t *items, size_t taken,
                                            size_t *count, uint64_t *tail);
extern inline synth_code synth_hand_taken_(struct synth_raw_answer found, const uint32_t *element, uint32_t *tail);
extern inline synth_code synth_hand_moved_(struct synth_raw_moved found, uint32_t *head, uint32_t *notifies);
extern inline synth_code synth_hand_state_(struct synth_raw_state found, struct synth_element_state *state);
extern inline bool synth_is_lost_(synth_code code);
extern inline bool synth_hand_are_apart_(const struct synth_hand *one, const struct synth_hand *two,
                                         uint32_t element);
