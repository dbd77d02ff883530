/*
 * The sizes of the structs of synthesis.h and raw.h, and the offsets of their fields: those that other languages are
 * bound to. What differs doesn't compile. And the version's symbol is that of the header, and of the library.
 */
#include "rows.h"
#include "synthesis.h"
#include <string.h>

#ifdef __cplusplus
#define CHECK(is_so, text) static_assert(is_so, text)
#else
#define CHECK(is_so, text) _Static_assert(is_so, text)
#endif

#define SIZE(type, bytes) CHECK(sizeof(struct type) == (bytes), "sizeof " #type)
#define FIELD(type, field, at, bytes)                                                                                  \
    CHECK(offsetof(struct type, field) == (at) && sizeof ((struct type *)0)->field == (bytes), #type "." #field)

/* A handle: 16 bytes, as the head of the header says. */
#define HANDLE(type)                                                                                                   \
    SIZE(type, 16);                                                                                                    \
    FIELD(type, at, 0, 8);                                                                                             \
    FIELD(type, full, 8, 1)

CHECK(sizeof(synth_code) == 4 && (synth_code)-1 < 0, "synth_code");
CHECK(sizeof(size_t) == 8 && sizeof(void *) == 8 && sizeof(bool) == 1, "the machine");

HANDLE(synth_batch);
HANDLE(synth_queue);
HANDLE(synth_chain);
HANDLE(synth_seat);
HANDLE(synth_line_in);
HANDLE(synth_line_out);
HANDLE(synth_hand);

SIZE(synth_positions, 16);
FIELD(synth_positions, head, 0, 8);
FIELD(synth_positions, tail, 8, 8);

SIZE(synth_batch_totals, 32);
FIELD(synth_batch_totals, put, 0, 8);
FIELD(synth_batch_totals, taken, 8, 8);
FIELD(synth_batch_totals, left, 16, 8);
FIELD(synth_batch_totals, broken, 24, 8);

SIZE(synth_batch_status, 32);
FIELD(synth_batch_status, tail, 0, 8);
FIELD(synth_batch_status, published, 8, 8);
FIELD(synth_batch_status, head, 16, 8);
FIELD(synth_batch_status, shut, 24, 1);

SIZE(synth_queue_totals, 24);
FIELD(synth_queue_totals, first, 0, 4);
FIELD(synth_queue_totals, put, 4, 4);
FIELD(synth_queue_totals, taken, 8, 4);
FIELD(synth_queue_totals, left, 16, 8);

SIZE(synth_queue_status, 16);
FIELD(synth_queue_status, tail, 0, 4);
FIELD(synth_queue_status, head, 4, 4);
FIELD(synth_queue_status, raised, 8, 4);
FIELD(synth_queue_status, shut, 12, 1);

SIZE(synth_chain_totals, 8);
FIELD(synth_chain_totals, put, 0, 4);
FIELD(synth_chain_totals, run, 4, 4);

SIZE(synth_alarm, 12);
FIELD(synth_alarm, due, 0, 4);
FIELD(synth_alarm, element, 4, 4);
FIELD(synth_alarm, signal, 8, 4);

SIZE(synth_seat_totals, 264);
FIELD(synth_seat_totals, gauges, 0, 64);
FIELD(synth_seat_totals, clock, 64, 4);
FIELD(synth_seat_totals, alarms, 68, 4);
FIELD(synth_seat_totals, alarm, 72, 192);

SIZE(synth_line_totals, 24);
FIELD(synth_line_totals, sent, 0, 8);
FIELD(synth_line_totals, received, 8, 8);
FIELD(synth_line_totals, left, 16, 8);

SIZE(synth_element_state, 4);
FIELD(synth_element_state, pending, 0, 2);
FIELD(synth_element_state, is_stopping, 2, 1);
FIELD(synth_element_state, is_parked, 3, 1);

SIZE(synth_place, 8);
FIELD(synth_place, kind, 0, 4);
FIELD(synth_place, number, 4, 4);

SIZE(synth_hand_totals, 1160);
FIELD(synth_hand_totals, place, 0, 512);
FIELD(synth_hand_totals, pc, 512, 512);
FIELD(synth_hand_totals, pending, 1024, 128);
FIELD(synth_hand_totals, stops, 1152, 8);

SIZE(synth_raw_answer, 12);
FIELD(synth_raw_answer, code, 0, 4);
FIELD(synth_raw_answer, head, 4, 4);
FIELD(synth_raw_answer, tail, 8, 4);

SIZE(synth_raw_moved, 12);
FIELD(synth_raw_moved, code, 0, 4);
FIELD(synth_raw_moved, head, 4, 4);
FIELD(synth_raw_moved, notifies, 8, 4);

SIZE(synth_raw_state, 8);
FIELD(synth_raw_state, code, 0, 4);
FIELD(synth_raw_state, word, 4, 4);

/* Whether the library writes the last field of each struct where it is here, and nothing after it. */
static void written_to_their_ends(void)
{
    struct synth_batch batch = SYNTH_BATCH_INIT;
    struct {
        struct synth_batch_status status;
        uint64_t after;
    } looked;
    struct {
        struct synth_batch_totals totals;
        uint64_t after;
    } ended;
    uint64_t items[2] = {8, 9};
    looked.after = ended.after = UINT64_MAX;
    ROW(synth_batch_new(2, &batch), SYNTH_OK);
    ROW(synth_batch_try_put(&batch, items, 2, NULL), SYNTH_OK);
    ROW(synth_batch_look(&batch, &looked.status), SYNTH_OK);
    ROW(looked.status.head == 2 && looked.status.published == 2 && !looked.status.shut, true);
    ROW(looked.after == UINT64_MAX, true);
    ROW(synth_batch_finish(&batch, items, 2, &ended.totals), SYNTH_OK);
    ROW(ended.totals.put == 2 && ended.totals.left == 2 && ended.after == UINT64_MAX, true);
}

int main(void)
{
    ROW(strcmp(synth_version_1_0_0(), SYNTH_VERSION), 0);
    ROW(strcmp(SYNTH_VERSION_SYMBOL(), SYNTH_VERSION), 0);
    ROW(strcmp(synth_version(), SYNTH_VERSION), 0);
    written_to_their_ends();
    return rows_end("layout");
}
