/*
 * moodycamel's ConcurrentQueue by its bulk calls and with a token for each end, which its documentation has as the
 * fastest way. Its order is that of each producer alone. It has no places: the blocks that it makes at the start are for
 * 256 items, and `try_enqueue_bulk` takes no others.
 */
#include "measure.h"
#include <memory>
#if __has_include(<concurrentqueue.h>)
#include <concurrentqueue.h>
#elif __has_include(<moodycamel/concurrentqueue.h>)
#include <moodycamel/concurrentqueue.h>
#elif __has_include(<concurrentqueue/concurrentqueue.h>)
#include <concurrentqueue/concurrentqueue.h>
#else
#include <concurrentqueue/moodycamel/concurrentqueue.h>
#endif

namespace {

struct Tokens {
    explicit Tokens(moodycamel::ConcurrentQueue<uint64_t> &queue) : putter(queue), taker(queue)
    {
    }

    APART moodycamel::ProducerToken putter;
    APART moodycamel::ConsumerToken taker;
};

struct Tokened {
    moodycamel::ConcurrentQueue<uint64_t> queue{PLACES};
    Tokens ends[MOST_ENDS] = {Tokens(queue), Tokens(queue)};
};

std::unique_ptr<Tokened> tokened;

}

/* Each end that puts has its share of the blocks: it keeps a block that it has used once. */
static bool make_queue(unsigned ends)
{
    uint64_t items[PLACES] = {};
    size_t share = PLACES / ends, taken = 0;
    tokened = std::make_unique<Tokened>();
    for (unsigned i = 0; i < ends; i++) {
        if (!tokened->queue.try_enqueue_bulk(tokened->ends[i].putter, items, share)) {
            return false;
        }
    }
    while (taken < share * ends) {
        taken += tokened->queue.try_dequeue_bulk(tokened->ends[0].taker, items, PLACES);
    }
    return true;
}

static void drop_queue()
{
    tokened.reset();
}

static size_t put_some(unsigned end, const uint64_t *items, size_t count)
{
    return tokened->queue.try_enqueue_bulk(tokened->ends[end].putter, items, count) ? count : 0;
}

static size_t take_some(unsigned end, uint64_t *items, size_t most)
{
    return tokened->queue.try_dequeue_bulk(tokened->ends[end].taker, items, most);
}

int main(int count, char **words)
{
    return measure(count, words, 2);
}
