/*
 * Refuses each allocation of each call of a batch queue in turn. The call then answers SYNTH_NO_MEMORY and leaves all
 * as it was: the handles, the items, and the memory that is taken. All other calls ask for no memory, and in the end
 * all of it is given back.
 */
#include "refusals.h"

enum { PLACES = 64 };

static struct synth_batch last, other;
static uint64_t left[PLACES];

static synth_code new_queue(void)
{
    return synth_batch_new(PLACES, &last);
}

static void is_empty(void)
{
    ROW(last.full, false);
}

static synth_code split_off(void)
{
    return synth_batch_split(&last, &other);
}

/* No handle was filled, and one item goes through the queue. */
static void passes_one(void)
{
    uint64_t item = 0, wanted = 4;
    size_t count = 0;
    ROW(other.full, false);
    ROW(synth_batch_try_put(&last, &wanted, 1, NULL), SYNTH_OK);
    ROW(synth_batch_try_take(&last, &item, 1, &count, NULL), SYNTH_OK);
    ROW(item, wanted);
}

/* Nothing but `new` and `split` asks for memory, and no end was lost by what was refused, since the close succeeds. */
static void ask_for_none(void)
{
    uint64_t items[] = {5, 6, 7}, len = 0;
    size_t count = 0;
    struct synth_batch_totals closed;
    memory_refuse(1);
    ROW(synth_batch_try_put(&other, items, 3, NULL), SYNTH_OK);
    ROW(synth_batch_try_put_some(&other, items, 3, &count, NULL), SYNTH_OK);
    ROW(synth_batch_len(&other, &len), SYNTH_OK);
    ROW(synth_batch_capacity(&other, &count), SYNTH_OK);
    ROW(synth_batch_try_take(&other, left, 2, &count, NULL), SYNTH_SHORT_BUFFER);
    ROW(synth_batch_try_take_some(&other, left, 2, &count, NULL), SYNTH_OK);
    ROW(synth_batch_try_take(&last, left, PLACES, &count, NULL), SYNTH_OK);
    ROW(count, 4);
    ROW(synth_batch_shut(&other), SYNTH_OK);
    ROW(synth_batch_finish(&last, left, PLACES, &closed), SYNTH_OPEN);
    ROW(synth_batch_join(&last, &other), SYNTH_OK);
    ROW(synth_batch_finish(&last, left, PLACES, &closed), SYNTH_OK);
    ROW(memory_asked(), 0);
    ROW(memory_taken(), 0);
    memory_refuse(0);
}

/* Handles that are freed give their memory back, the last one that of the queue. A close that is refused gives none. */
static void free_all(void)
{
    struct synth_batch_totals closed;
    long taken;
    ROW(synth_batch_new(PLACES, &last), SYNTH_OK);
    ROW(synth_batch_split(&last, &other), SYNTH_OK);
    ROW(synth_batch_free(&last), SYNTH_OK);
    taken = memory_taken();
    ROW(taken > 0, true);
    ROW(synth_batch_finish(&other, left, PLACES, &closed), SYNTH_OPEN);
    ROW(memory_taken(), taken);
    ROW(synth_batch_free(&other), SYNTH_OK);
    ROW(memory_taken(), 0);
}

int main(void)
{
    refuse_each(new_queue, is_empty);
    refuse_each(split_off, passes_one);
    ask_for_none();
    free_all();
    return rows_end("no_memory_batch");
}
