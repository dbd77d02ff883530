/* The calls of chains, meters and lines: see inline.h. Include synthesis.h. */
#ifndef SYNTHESIS_INLINE_OTHERS_H
#define SYNTHESIS_INLINE_OTHERS_H

#include "inline.h"

#ifdef __cplusplus
extern "C" {
#endif

/* Chains. */

SYNTH_CALL_ synth_code synth_chain_new(uint32_t first, struct synth_chain *chain)
{
    synth_linked_();
    return synth_raw_chain_new(first, chain);
}

SYNTH_CALL_ synth_code synth_chain_split(struct synth_chain *SYNTH_RESTRICT_ chain,
                                         struct synth_chain *SYNTH_RESTRICT_ other)
{
    return synth_raw_chain_split(chain, other);
}

SYNTH_CALL_ synth_code synth_chain_join(struct synth_chain *SYNTH_RESTRICT_ chain,
                                        struct synth_chain *SYNTH_RESTRICT_ other)
{
    return synth_raw_chain_join(chain, other);
}

SYNTH_CALL_ synth_code synth_chain_try_chain(struct synth_chain *SYNTH_RESTRICT_ chain, uint16_t note,
                                             struct synth_positions *SYNTH_RESTRICT_ positions)
{
    struct synth_raw_answer found;
    SYNTH_RELEASE_(SYNTH_NOTE_OF_, note);
    found = synth_raw_chain_try_chain(chain, note);
    if (found.code == SYNTH_RUN) {
        SYNTH_ACQUIRE_(SYNTH_TURN_, 0);
    }
    synth_positions_(positions, found);
    return found.code;
}

SYNTH_CALL_ synth_code synth_chain_chain(struct synth_chain *chain, uint16_t note, uint32_t tries)
{
    SYNTH_REPEAT_(tries, synth_chain_try_chain(chain, note, SYNTH_NULL_));
}

SYNTH_CALL_ synth_code synth_chain_next(struct synth_chain *SYNTH_RESTRICT_ chain, uint16_t *SYNTH_RESTRICT_ note)
{
    uint16_t unused = 0;
    uint16_t *const to = note ? note : &unused;
    synth_code code;
    SYNTH_RELEASE_(SYNTH_TURN_, 0);
    code = synth_raw_chain_next(chain, to);
    if (code == SYNTH_NOTE) {
        SYNTH_ACQUIRE_(SYNTH_NOTE_OF_, *to);
    }
    return code;
}

SYNTH_CALL_ synth_code synth_chain_finish(struct synth_chain *SYNTH_RESTRICT_ chain,
                                          struct synth_chain_totals *SYNTH_RESTRICT_ totals)
{
    struct synth_chain_totals unused;
    return synth_raw_chain_close(chain, totals ? totals : &unused);
}

SYNTH_CALL_ synth_code synth_chain_free(struct synth_chain *chain)
{
    return synth_raw_chain_free(chain);
}

/* Meters. */

SYNTH_CALL_ synth_code synth_seat_new(uint32_t clock, struct synth_seat *seat)
{
    synth_linked_();
    return synth_raw_seat_new(clock, seat);
}

SYNTH_CALL_ synth_code synth_seat_split(struct synth_seat *SYNTH_RESTRICT_ seat,
                                        struct synth_seat *SYNTH_RESTRICT_ other)
{
    return synth_raw_seat_split(seat, other);
}

SYNTH_CALL_ synth_code synth_seat_join(struct synth_seat *SYNTH_RESTRICT_ seat,
                                       struct synth_seat *SYNTH_RESTRICT_ other)
{
    return synth_raw_seat_join(seat, other);
}

SYNTH_CALL_ synth_code synth_seat_tick(struct synth_seat *SYNTH_RESTRICT_ seat, uint32_t gauge, uint64_t amount,
                                       uint64_t *SYNTH_RESTRICT_ before)
{
    uint64_t unused;
    synth_code code;
    SYNTH_RELEASE_(SYNTH_GAUGE_, gauge);
    code = synth_raw_seat_tick(seat, gauge, amount, before ? before : &unused);
    SYNTH_ACQUIRE_(SYNTH_GAUGE_, gauge);
    return code;
}

SYNTH_CALL_ synth_code synth_seat_try_advance(struct synth_seat *SYNTH_RESTRICT_ seat,
                                              uint32_t *SYNTH_RESTRICT_ clock)
{
    uint32_t unused;
    struct synth_raw_answer found;
    SYNTH_RELEASE_(SYNTH_CLOCK_, 0);
    found = synth_raw_seat_advance(seat, clock ? clock : &unused);
    SYNTH_ACQUIRE_(SYNTH_CLOCK_, 0);
    if (clock && found.code == SYNTH_LOST) {
        *clock = found.head;
    }
    return found.code;
}

#define SYNTH_WORD_OF_(alarm) ((alarm->due * UINT64_C(64) + alarm->element) * 16 + alarm->signal)

SYNTH_CALL_ synth_code synth_seat_try_set(struct synth_seat *SYNTH_RESTRICT_ seat,
                                          const struct synth_alarm *SYNTH_RESTRICT_ alarm,
                                          uint32_t *SYNTH_RESTRICT_ slot)
{
    uint32_t unused;
    struct synth_raw_answer found;
    SYNTH_RELEASE_(SYNTH_ALARM_, SYNTH_WORD_OF_(alarm));
    found = synth_raw_seat_try_set(seat, alarm, slot ? slot : &unused);
    if (slot && found.code == SYNTH_LOST) {
        *slot = found.head;
    }
    return found.code;
}

SYNTH_CALL_ synth_code synth_seat_advance(struct synth_seat *SYNTH_RESTRICT_ seat, uint32_t tries,
                                          uint32_t *SYNTH_RESTRICT_ clock)
{
    SYNTH_REPEAT_(tries, synth_seat_try_advance(seat, clock));
}

SYNTH_CALL_ synth_code synth_seat_set(struct synth_seat *SYNTH_RESTRICT_ seat,
                                      const struct synth_alarm *SYNTH_RESTRICT_ alarm, uint32_t tries,
                                      uint32_t *SYNTH_RESTRICT_ slot)
{
    SYNTH_REPEAT_(tries, synth_seat_try_set(seat, alarm, slot));
}

SYNTH_CALL_ synth_code synth_seat_gauge(const struct synth_seat *seat, uint32_t gauge, uint64_t *value)
{
    uint64_t unused;
    const synth_code code = synth_raw_seat_gauge(SYNTH_OF_(synth_seat, seat), gauge, value ? value : &unused);
    SYNTH_ACQUIRE_(SYNTH_GAUGE_, gauge);
    return code;
}

SYNTH_CALL_ synth_code synth_seat_clock(const struct synth_seat *seat, uint32_t *clock)
{
    uint32_t unused;
    const synth_code code = synth_raw_seat_clock(SYNTH_OF_(synth_seat, seat), clock ? clock : &unused);
    SYNTH_ACQUIRE_(SYNTH_CLOCK_, 0);
    return code;
}

SYNTH_CALL_ synth_code synth_seat_cancel(struct synth_seat *SYNTH_RESTRICT_ seat, uint32_t slot,
                                         const struct synth_alarm *SYNTH_RESTRICT_ alarm,
                                         bool *SYNTH_RESTRICT_ cancelled)
{
    bool unused;
    const synth_code code = synth_raw_seat_cancel(seat, slot, alarm, cancelled ? cancelled : &unused);
    SYNTH_ACQUIRE_(SYNTH_ALARM_, SYNTH_WORD_OF_(alarm));
    return code;
}

SYNTH_CALL_ synth_code synth_seat_due(struct synth_seat *SYNTH_RESTRICT_ seat,
                                      struct synth_alarm *SYNTH_RESTRICT_ alarms, size_t room,
                                      size_t *SYNTH_RESTRICT_ count)
{
    size_t due = 0;
    const synth_code code = synth_raw_seat_due(seat, alarms, room, &due);
    SYNTH_ACQUIRE_(SYNTH_CLOCK_, 0);
    if (code == SYNTH_OK) {
#ifdef SYNTH_WATCHED_
        for (const struct synth_alarm *alarm = alarms; alarm < alarms + due; alarm++) {
            SYNTH_ACQUIRE_(SYNTH_ALARM_, SYNTH_WORD_OF_(alarm));
        }
#endif
        if (count) {
            *count = due;
        }
    }
    return code;
}

#undef SYNTH_WORD_OF_

SYNTH_CALL_ synth_code synth_seat_finish(struct synth_seat *SYNTH_RESTRICT_ seat,
                                         struct synth_seat_totals *SYNTH_RESTRICT_ totals)
{
    struct synth_seat_totals unused;
    return synth_raw_seat_close(seat, totals ? totals : &unused);
}

SYNTH_CALL_ synth_code synth_seat_free(struct synth_seat *seat)
{
    return synth_raw_seat_free(seat);
}

/* Lines. */

SYNTH_CALL_ synth_code synth_line_new(size_t room, struct synth_line_in *SYNTH_RESTRICT_ input,
                                      struct synth_line_out *SYNTH_RESTRICT_ output)
{
    synth_linked_();
    return synth_raw_line_new(room, input, output);
}

SYNTH_CALL_ synth_code synth_line_push(struct synth_line_in *input, uint8_t byte)
{
    SYNTH_RELEASE_(SYNTH_BYTE_, 0);
    return synth_raw_line_push(input, byte);
}

SYNTH_CALL_ synth_code synth_line_push_some(struct synth_line_in *SYNTH_RESTRICT_ input,
                                            const uint8_t *SYNTH_RESTRICT_ bytes, size_t count,
                                            size_t *SYNTH_RESTRICT_ pushed)
{
    size_t unused;
    SYNTH_RELEASE_(SYNTH_BYTE_, 0);
    return synth_raw_line_push_some(input, bytes, count, pushed ? pushed : &unused);
}

SYNTH_CALL_ synth_code synth_line_pop(struct synth_line_out *SYNTH_RESTRICT_ output, uint8_t *SYNTH_RESTRICT_ byte)
{
    uint8_t unused;
    const synth_code code = synth_raw_line_pop(output, byte ? byte : &unused);
    if (code == SYNTH_OK) {
        SYNTH_ACQUIRE_(SYNTH_BYTE_, 0);
    }
    return code;
}

SYNTH_CALL_ synth_code synth_line_pop_some(struct synth_line_out *SYNTH_RESTRICT_ output,
                                           uint8_t *SYNTH_RESTRICT_ bytes, size_t room, size_t *SYNTH_RESTRICT_ count)
{
    size_t unused;
    const synth_code code = synth_raw_line_pop_some(output, bytes, room, count ? count : &unused);
    if (code == SYNTH_OK) {
        SYNTH_ACQUIRE_(SYNTH_BYTE_, 0);
    }
    return code;
}

SYNTH_CALL_ synth_code synth_line_finish(struct synth_line_in *SYNTH_RESTRICT_ input,
                                         struct synth_line_out *SYNTH_RESTRICT_ output,
                                         struct synth_line_totals *SYNTH_RESTRICT_ totals)
{
    struct synth_line_totals unused;
    return synth_raw_line_finish(input, output, totals ? totals : &unused);
}

SYNTH_CALL_ synth_code synth_line_free_in(struct synth_line_in *input)
{
    return synth_raw_line_free_in(input);
}

SYNTH_CALL_ synth_code synth_line_free_out(struct synth_line_out *output)
{
    return synth_raw_line_free_out(output);
}

#ifdef __cplusplus
}
#endif

#endif
