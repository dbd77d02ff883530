/*
 * What a `new` and a `split` take of memory, and what they take at their peak: at most what the head of synthesis.h
 * says, and no less than nine tenths of it. And that a try writes nothing to its handle, so that handles may lie side
 * by side: it is made on handles in memory that can't be written to. Status 1: it isn't so. A write to a handle ends
 * the program.
 */
#ifndef _DEFAULT_SOURCE
#define _DEFAULT_SOURCE
#endif
#include "memory.h"
#include "rows.h"
#include "synthesis.h"
#include <sys/mman.h>

/* The bytes that the head of synthesis.h names. */
enum { PER_PLACE = 16, BATCH = 540, QUEUE = 280, CHAIN = 600, METERS = 360, LINE = 540, ELEMENTS = 16350, SPLIT = 64 };

/* The bytes that it names of those which take more while they are made. */
enum { PEAK_PER_PLACE = 32, BATCH_PEAK = 770, QUEUE_PEAK = 260, ELEMENTS_PEAK = 32400 };

static size_t taken_before;

/* What is taken from here on is that of the next call. */
static void begin(void)
{
    memory_refuse(0);
    taken_before = memory_bytes();
}

/* So many bytes are about what is named. */
static void is_about(size_t bytes, size_t at_most)
{
    if (bytes > at_most || bytes * 10 < at_most * 9) {
        ROW(bytes, at_most);
    }
}

/* The call was done, and took about so many bytes, and about so many at its peak. */
static void takes_more(synth_code code, size_t at_most, size_t at_peak)
{
    size_t bytes = memory_bytes() - taken_before, peak = memory_peak() - taken_before;
    ROW(code, SYNTH_OK);
    is_about(bytes, at_most);
    is_about(peak, at_peak);
    begin();
}

/* The call was done, and took about so many bytes, and no more at its peak. */
static void takes(synth_code code, size_t at_most)
{
    takes_more(code, at_most, at_most);
}

/* One handle of each kind and one more, and room for the rest of a page. */
struct handles {
    struct synth_batch batch, batch_part;
    struct synth_queue queue, queue_part;
    struct synth_chain chain, chain_part;
    struct synth_seat seat, seat_part;
    struct synth_hand hand, hand_part;
    struct synth_line_in input;
    struct synth_line_out output;
};

static void make_all(struct handles *all)
{
    takes_more(synth_batch_new(64, &all->batch), BATCH + 64 * PER_PLACE, BATCH_PEAK + 64 * PEAK_PER_PLACE);
    takes(synth_batch_split(&all->batch, &all->batch_part), SPLIT);
    takes_more(synth_queue_new(64, 0, &all->queue), QUEUE + 64 * PER_PLACE, QUEUE_PEAK + 64 * PEAK_PER_PLACE);
    takes(synth_queue_split(&all->queue, &all->queue_part), SPLIT);
    takes(synth_chain_new(0, &all->chain), CHAIN);
    takes(synth_chain_split(&all->chain, &all->chain_part), SPLIT);
    takes(synth_seat_new(0, &all->seat), METERS);
    takes(synth_seat_split(&all->seat, &all->seat_part), SPLIT);
    takes_more(synth_hand_new(0, &all->hand), ELEMENTS, ELEMENTS_PEAK);
    takes(synth_hand_split(&all->hand, 1, &all->hand_part), SPLIT);
    takes(synth_line_new(1, &all->input, &all->output), LINE);
}

static void free_all(struct handles *all)
{
    ROW(synth_batch_join(&all->batch, &all->batch_part), SYNTH_OK);
    ROW(synth_batch_free(&all->batch), SYNTH_OK);
    ROW(synth_queue_join(&all->queue, &all->queue_part), SYNTH_OK);
    ROW(synth_queue_free(&all->queue), SYNTH_OK);
    ROW(synth_chain_free(&all->chain), SYNTH_OK);
    ROW(synth_chain_free(&all->chain_part), SYNTH_OK);
    ROW(synth_seat_free(&all->seat), SYNTH_OK);
    ROW(synth_seat_free(&all->seat_part), SYNTH_OK);
    ROW(synth_hand_free(&all->hand), SYNTH_OK);
    ROW(synth_hand_free(&all->hand_part), SYNTH_OK);
    ROW(synth_line_finish(&all->input, &all->output, NULL), SYNTH_OK);
    ROW(memory_taken(), 0);
    begin();
}

static void large_ones(struct handles *all)
{
    takes_more(synth_batch_new(4096, &all->batch), BATCH + 4096 * PER_PLACE, BATCH_PEAK + 4096 * PEAK_PER_PLACE);
    takes_more(synth_queue_new(256, 0, &all->queue), QUEUE + 256 * PER_PLACE, QUEUE_PEAK + 256 * PEAK_PER_PLACE);
    takes(synth_line_new(65536, &all->input, &all->output), LINE + 65536);
    ROW(synth_batch_free(&all->batch), SYNTH_OK);
    ROW(synth_queue_free(&all->queue), SYNTH_OK);
    ROW(synth_line_finish(&all->input, &all->output, NULL), SYNTH_OK);
}

/* Whatever the first positions are, and however many places there are. */
static void each_first(struct handles *all)
{
    for (int i = 0; i < 287; i++) {
        const uint32_t first = i < 256 ? (uint32_t)i : UINT32_C(0x7FFFFFFF) >> (i - 256);
        const size_t places = (size_t)1 << i % 16;
        takes_more(synth_batch_new(places, &all->batch), BATCH + places * PER_PLACE, BATCH_PEAK + places * PEAK_PER_PLACE);
        takes_more(synth_queue_new(64, first, &all->queue), QUEUE + 64 * PER_PLACE, QUEUE_PEAK + 64 * PEAK_PER_PLACE);
        takes_more(synth_hand_new(first, &all->hand), ELEMENTS, ELEMENTS_PEAK);
        takes(synth_chain_new(first, &all->chain), CHAIN);
        takes(synth_seat_new(first, &all->seat), METERS);
        ROW(synth_batch_free(&all->batch), SYNTH_OK);
        ROW(synth_queue_free(&all->queue), SYNTH_OK);
        ROW(synth_hand_free(&all->hand), SYNTH_OK);
        ROW(synth_chain_free(&all->chain), SYNTH_OK);
        ROW(synth_seat_free(&all->seat), SYNTH_OK);
        begin();
    }
}

/* Each call of queues, lines, chains and meters that takes and frees no memory. */
static void use_all(struct handles *all)
{
    const struct synth_alarm alarm = {0, 1, 2};
    struct synth_alarm alarms[16];
    uint64_t items[64] = {1, 10};
    uint8_t byte = 1;
    ROW(synth_batch_try_put(&all->batch, items, 2, NULL), SYNTH_OK);
    ROW(synth_batch_try_put_some(&all->batch, items, 2, NULL, NULL), SYNTH_OK);
    ROW(synth_batch_try_take(&all->batch_part, items, 2, NULL, NULL), SYNTH_OK);
    ROW(synth_batch_try_take_some(&all->batch_part, items, 1, NULL, NULL), SYNTH_OK);
    ROW(synth_batch_len(&all->batch, NULL), SYNTH_OK);
    ROW(synth_batch_capacity(&all->batch, NULL), SYNTH_OK);
    ROW(synth_batch_shut(&all->batch), SYNTH_OK);
    ROW(synth_queue_try_put(&all->queue, items, 2, NULL), SYNTH_OK);
    ROW(synth_queue_try_take_line(&all->queue, items, 64, NULL, NULL), SYNTH_OK);
    ROW(synth_queue_try_put(&all->queue, items, 2, NULL), SYNTH_OK);
    ROW(synth_queue_try_take(&all->queue_part, NULL, NULL), SYNTH_OK);
    ROW(synth_queue_take_up_to(&all->queue_part, items, 2, NULL, NULL), SYNTH_OK);
    ROW(synth_queue_shut(&all->queue), SYNTH_OK);
    ROW(synth_chain_try_chain(&all->chain, 4, NULL), SYNTH_RUN);
    ROW(synth_chain_try_chain(&all->chain_part, 5, NULL), SYNTH_LEFT);
    ROW(synth_chain_next(&all->chain, NULL), SYNTH_NOTE);
    ROW(synth_chain_next(&all->chain, NULL), SYNTH_NOTE);
    ROW(synth_chain_next(&all->chain, NULL), SYNTH_OK);
    ROW(synth_seat_tick(&all->seat, 0, 1, NULL), SYNTH_OK);
    ROW(synth_seat_try_set(&all->seat, &alarm, NULL), SYNTH_OK);
    ROW(synth_seat_try_set(&all->seat, &alarm, NULL), SYNTH_OK);
    ROW(synth_seat_cancel(&all->seat, 0, &alarm, NULL), SYNTH_OK);
    ROW(synth_seat_try_advance(&all->seat_part, NULL), SYNTH_OK);
    ROW(synth_seat_due(&all->seat, alarms, 16, NULL), SYNTH_OK);
    ROW(synth_line_push(&all->input, 1), SYNTH_OK);
    ROW(synth_line_pop(&all->output, NULL), SYNTH_OK);
    ROW(synth_line_push_some(&all->input, &byte, 1, NULL), SYNTH_OK);
    ROW(synth_line_pop_some(&all->output, &byte, 1, NULL), SYNTH_OK);
}

/* The same of thread elements. */
static void use_hands(struct synth_hand *hand, struct synth_hand *other)
{
    ROW(synth_hand_try_free(hand, NULL, NULL), SYNTH_OK);
    ROW(synth_hand_holds(hand, 0, NULL), SYNTH_OK);
    ROW(synth_hand_serves(hand, 0, NULL), SYNTH_OK);
    ROW(synth_hand_on(hand, 1, 0), SYNTH_OK);
    ROW(synth_hand_on_processor(hand, 1, NULL), SYNTH_OK);
    ROW(synth_hand_pc(hand, 0, NULL), SYNTH_OK);
    ROW(synth_hand_step_done(hand, 0, NULL), SYNTH_OK);
    ROW(synth_hand_off(hand, 1, NULL), SYNTH_OK);
    ROW(synth_hand_try_ready(hand, 0, NULL), SYNTH_OK);
    ROW(synth_hand_try_next(hand, NULL, NULL), SYNTH_OK);
    ROW(synth_hand_ticket(hand, 1, NULL), SYNTH_OK);
    ROW(synth_hand_try_wait(hand, 0, 1, NULL, NULL), SYNTH_OK);
    ROW(synth_hand_try_wake(hand, 1, NULL, NULL), SYNTH_OK);
    ROW(synth_hand_try_wait_at(hand, 0, 1, 0, NULL, NULL), SYNTH_OK);
    ROW(synth_hand_notify(hand, 1, NULL), SYNTH_OK);
    ROW(synth_hand_try_wake_before(hand, 1, 2, NULL, NULL), SYNTH_OK);
    ROW(synth_hand_signal(hand, 0, 5, NULL), SYNTH_OK);
    ROW(synth_hand_try_deliver(hand, 0, NULL, NULL), SYNTH_OK);
    ROW(synth_hand_stop(hand, 0, NULL), SYNTH_OK);
    ROW(synth_hand_try_park(hand, 0, NULL, NULL), SYNTH_OK);
    ROW(synth_hand_try_start(hand, 0, NULL, NULL), SYNTH_OK);
    ROW(synth_hand_give(hand, other, 0), SYNTH_OK);
    ROW(synth_hand_give(other, hand, 0), SYNTH_OK);
    ROW(synth_hand_try_retire(hand, 0, NULL), SYNTH_OK);
}

int main(void)
{
    void *page = mmap(NULL, sizeof(struct handles), PROT_READ | PROT_WRITE, MAP_PRIVATE | MAP_ANONYMOUS, -1, 0);
    struct handles *all = (struct handles *)page;
    if (page == MAP_FAILED) {
        perror("sizes");
        return 1;
    }
    begin();
    large_ones(all);
    begin();
    each_first(all);
    make_all(all);
    ROW(mprotect(page, sizeof *all, PROT_READ), 0);
    use_all(all);
    use_hands(&all->hand, &all->hand_part);
    ROW(mprotect(page, sizeof *all, PROT_READ | PROT_WRITE), 0);
    free_all(all);
    munmap(page, sizeof *all);
    return rows_end("sizes");
}
