/*
 * The batch queue of the library: a line is one batch, which is put whole by one try, and taken whole by another. With
 * ROOM it has so many places in the place of those that the other queues have.
 */
#include "measure.h"
#include "synthesis.h"

#ifndef ROOM
#define ROOM PLACES
#endif

/* An end for each thread. */
static struct {
    APART struct synth_batch queue;
} putters[MOST_ENDS], takers[MOST_ENDS];

static unsigned made;

static bool make_queue(unsigned ends)
{
    made = ends;
    bool is_made = synth_batch_new(ROOM, &putters[0].queue) == SYNTH_OK;
    for (unsigned i = 0; is_made && i < ends; i++) {
        is_made = (i == 0 || synth_batch_split(&putters[0].queue, &putters[i].queue) == SYNTH_OK) &&
                  synth_batch_split(&putters[0].queue, &takers[i].queue) == SYNTH_OK;
    }
    return is_made;
}

static void drop_queue(void)
{
    struct synth_batch_totals totals;
    uint64_t left[ROOM];
    for (unsigned i = 0; i < made; i++) {
        must(i == 0 || synth_batch_join(&putters[0].queue, &putters[i].queue) == SYNTH_OK, "ends can't be joined");
        must(synth_batch_join(&putters[0].queue, &takers[i].queue) == SYNTH_OK, "ends can't be joined");
    }
    must(synth_batch_finish(&putters[0].queue, left, ROOM, &totals) == SYNTH_OK, "the queue can't be finished");
    must(totals.put == totals.taken && totals.left == 0, "the finish reports other items");
}

static size_t put_some(unsigned end, const uint64_t *items, size_t count)
{
    return synth_batch_try_put(&putters[end].queue, items, count, NULL) == SYNTH_OK ? count : 0;
}

static size_t take_some(unsigned end, uint64_t *items, size_t most)
{
    size_t count = 0;
    return synth_batch_try_take(&takers[end].queue, items, most, &count, NULL) == SYNTH_OK ? count : 0;
}

int main(int count, char **words)
{
    return measure(count, words, 2);
}
