/*
 * The pipeline by the batch queue of the library, with an end for each thread at each ring. What is there is taken by
 * `take_some`, which parts a batch. With WHOLE it is `take`, which takes whole batches alone.
 */
#include "pipeline.h"
#include "synthesis.h"

/* A try is made again at once, if another end was first. */
enum { TRIES = 8 };

static struct {
    APART struct synth_batch queue;
} ends[RINGS][THREADS];

/* Where the items go that are left at the end: none. */
static uint64_t left[MOST_BUFFERS];

static bool make_rings(size_t places)
{
    bool are_made = true;
    for (unsigned ring = 0; ring < RINGS; ring++) {
        are_made = are_made && synth_batch_new(places, &ends[ring][0].queue) == SYNTH_OK;
        for (unsigned thread = 1; are_made && thread < THREADS; thread++) {
            are_made = synth_batch_split(&ends[ring][0].queue, &ends[ring][thread].queue) == SYNTH_OK;
        }
    }
    return are_made;
}

static void drop_rings(void)
{
    for (unsigned ring = 0; ring < RINGS; ring++) {
        struct synth_batch_totals totals;
        struct synth_batch *first = &ends[ring][0].queue;
        for (unsigned thread = 1; thread < THREADS; thread++) {
            must(synth_batch_join(first, &ends[ring][thread].queue) == SYNTH_OK, "ends can't be joined");
        }
        must(synth_batch_finish(first, left, MOST_BUFFERS, &totals) == SYNTH_OK, "a ring can't be finished");
        must(totals.put == totals.taken && totals.left == 0, "the end of a ring reports other items");
    }
}

static size_t put_some(unsigned ring, unsigned thread, const uint64_t *items, size_t count)
{
    size_t put = 0;
    return synth_batch_put_some(&ends[ring][thread].queue, items, count, TRIES, &put) == SYNTH_OK ? put : 0;
}

static size_t take_some(unsigned ring, unsigned thread, uint64_t *items, size_t most)
{
    size_t count = 0;
#ifdef WHOLE
    return synth_batch_take(&ends[ring][thread].queue, items, most, TRIES, &count) == SYNTH_OK ? count : 0;
#else
    return synth_batch_take_some(&ends[ring][thread].queue, items, most, TRIES, &count) == SYNTH_OK ? count : 0;
#endif
}

int main(int count, char **words)
{
    return measure_pipeline(count, words);
}
