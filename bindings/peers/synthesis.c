/*
 * The claim queue of the library: a line is put by one claim. A line of several items is taken by one taking,
 * `try_take_line`, and one of a single item by `try_take`. With ONE_BY_ONE lines are taken by `take_up_to`, which makes a
 * taking for each item.
 */
#include "measure.h"
#include "synthesis.h"

/* An end for each thread. */
static struct {
    APART struct synth_queue queue;
} putters[MOST_ENDS], takers[MOST_ENDS];

static unsigned made;

static bool make_queue(unsigned ends)
{
    made = ends;
    bool is_made = synth_queue_new(PLACES, 0, &putters[0].queue) == SYNTH_OK;
    for (unsigned i = 0; is_made && i < ends; i++) {
        is_made = (i == 0 || synth_queue_split(&putters[0].queue, &putters[i].queue) == SYNTH_OK) &&
                  synth_queue_split(&putters[0].queue, &takers[i].queue) == SYNTH_OK;
    }
    return is_made;
}

static void drop_queue(void)
{
    struct synth_queue_totals totals;
    uint64_t left[PLACES];
    for (unsigned i = 0; i < made; i++) {
        must(i == 0 || synth_queue_join(&putters[0].queue, &putters[i].queue) == SYNTH_OK, "ends can't be joined");
        must(synth_queue_join(&putters[0].queue, &takers[i].queue) == SYNTH_OK, "ends can't be joined");
    }
    must(synth_queue_finish(&putters[0].queue, left, PLACES, &totals) == SYNTH_OK, "the queue can't be finished");
    must(totals.put == totals.taken && totals.left == 0, "the finish reports other items");
}

static size_t put_some(unsigned end, const uint64_t *items, size_t count)
{
    return synth_queue_try_put(&putters[end].queue, items, count, NULL) == SYNTH_OK ? count : 0;
}

static size_t take_some(unsigned end, uint64_t *items, size_t most)
{
    struct synth_queue *taker = &takers[end].queue;
    size_t count = 0;
#ifdef ONE_BY_ONE
    return synth_queue_take_up_to(taker, items, most, &count, NULL) == SYNTH_OK ? count : 0;
#else
    if (most == 1) {
        return synth_queue_try_take(taker, items, NULL) == SYNTH_OK;
    }
    return synth_queue_try_take_line(taker, items, PLACES, &count, NULL) == SYNTH_OK ? count : 0;
#endif
}

int main(int count, char **words)
{
    return measure(count, words, 2);
}
