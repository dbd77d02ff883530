/*
 * The archive has each call of synthesis.h as a symbol, so that other languages, and pointers to a function, have one.
 * Status 1: two calls have the same. That each is there the linker sees. And the version's numbers are those of its
 * text.
 */
#include "rows.h"
#include "synthesis.h"
#include <string.h>

typedef void (*function)(void);

#define CALL(name) (function) name

static const function calls[] = {
    CALL(synth_batch_new), CALL(synth_batch_split), CALL(synth_batch_join), CALL(synth_batch_try_put),
    CALL(synth_batch_try_put_some), CALL(synth_batch_try_take), CALL(synth_batch_try_take_some),
    CALL(synth_batch_put), CALL(synth_batch_put_some), CALL(synth_batch_take), CALL(synth_batch_take_some),
    CALL(synth_batch_try_take_one), CALL(synth_batch_take_one), CALL(synth_batch_look), CALL(synth_batch_len),
    CALL(synth_batch_capacity), CALL(synth_batch_shut), CALL(synth_batch_finish), CALL(synth_batch_abandon),
    CALL(synth_batch_free), CALL(synth_queue_new), CALL(synth_queue_split), CALL(synth_queue_join),
    CALL(synth_queue_try_put), CALL(synth_queue_try_take), CALL(synth_queue_take_up_to),
    CALL(synth_queue_try_take_line), CALL(synth_queue_put), CALL(synth_queue_take), CALL(synth_queue_take_line),
    CALL(synth_queue_look), CALL(synth_queue_shut), CALL(synth_queue_finish), CALL(synth_queue_abandon),
    CALL(synth_queue_free), CALL(synth_chain_new), CALL(synth_chain_split), CALL(synth_chain_join),
    CALL(synth_chain_try_chain), CALL(synth_chain_chain), CALL(synth_chain_next), CALL(synth_chain_finish),
    CALL(synth_chain_free), CALL(synth_seat_new), CALL(synth_seat_split), CALL(synth_seat_join),
    CALL(synth_seat_tick), CALL(synth_seat_try_advance), CALL(synth_seat_try_set), CALL(synth_seat_advance),
    CALL(synth_seat_set), CALL(synth_seat_gauge), CALL(synth_seat_clock), CALL(synth_seat_cancel),
    CALL(synth_seat_due), CALL(synth_seat_finish), CALL(synth_seat_free), CALL(synth_line_new),
    CALL(synth_line_push), CALL(synth_line_push_some), CALL(synth_line_pop), CALL(synth_line_pop_some),
    CALL(synth_line_finish), CALL(synth_line_free_in), CALL(synth_line_free_out),
    CALL(synth_hand_new), CALL(synth_hand_split), CALL(synth_hand_join),
    CALL(synth_hand_holds), CALL(synth_hand_serves), CALL(synth_hand_on_processor), CALL(synth_hand_on),
    CALL(synth_hand_off), CALL(synth_hand_pc), CALL(synth_hand_step_done), CALL(synth_hand_try_next),
    CALL(synth_hand_try_free), CALL(synth_hand_try_wake), CALL(synth_hand_notify), CALL(synth_hand_try_wake_before),
    CALL(synth_hand_try_ready), CALL(synth_hand_try_retire), CALL(synth_hand_try_wait), CALL(synth_hand_ticket),
    CALL(synth_hand_try_wait_at), CALL(synth_hand_stop), CALL(synth_hand_try_start), CALL(synth_hand_try_park),
    CALL(synth_hand_give), CALL(synth_hand_signal), CALL(synth_hand_pending), CALL(synth_hand_try_deliver),
    CALL(synth_hand_next), CALL(synth_hand_next_free), CALL(synth_hand_wake), CALL(synth_hand_wake_before),
    CALL(synth_hand_ready), CALL(synth_hand_retire), CALL(synth_hand_wait), CALL(synth_hand_wait_at),
    CALL(synth_hand_start), CALL(synth_hand_park), CALL(synth_hand_deliver), CALL(synth_hand_finish),
    CALL(synth_hand_free),
};

enum { CALLS = sizeof calls / sizeof *calls };

int main(void)
{
    struct synth_batch end = SYNTH_BATCH_INIT;
    synth_code (*volatile make)(size_t, struct synth_batch *) = synth_batch_new;
    synth_code (*volatile put)(struct synth_batch *, const uint64_t *, size_t, uint32_t) = synth_batch_put;
    synth_code (*volatile finish)(struct synth_batch *, uint64_t *, size_t, struct synth_batch_totals *) =
        synth_batch_finish;
    uint64_t items[2] = {8, 9};
    char version[64];
    for (int i = 0; i < CALLS; i++) {
        for (int k = 0; k < i; k++) {
            ROW(calls[i] != calls[k], true);
        }
    }
    ROW(make(2, &end), SYNTH_OK);
    ROW(put(&end, items, 1, 1), SYNTH_OK);
    ROW(finish(&end, items, 2, NULL), SYNTH_OK);
    ROW(items[0], 8);
    snprintf(version, sizeof version, "%d.%d.%d", SYNTH_VERSION_MAJOR, SYNTH_VERSION_MINOR, SYNTH_VERSION_PATCH);
    ROW(strcmp(version, SYNTH_VERSION), 0);
    return rows_end("pointers");
}
