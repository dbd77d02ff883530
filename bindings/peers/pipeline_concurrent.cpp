/*
 * The pipeline by moodycamel's ConcurrentQueue, by its bulk calls and with a token for each thread at each ring. Its
 * order is that of each producer alone. It has no places; the buffers are all that goes through it.
 */
#define WEAKER
#include "pipeline.h"
#include <memory>
#if __has_include(<concurrentqueue.h>)
#include <concurrentqueue.h>
#elif __has_include(<moodycamel/concurrentqueue.h>)
#include <moodycamel/concurrentqueue.h>
#elif __has_include(<concurrentqueue/concurrentqueue.h>)
#include <concurrentqueue/concurrentqueue.h>
#else
#include <concurrentqueue/moodycamel/concurrentqueue.h>
#endif

namespace {

struct Tokens {
    explicit Tokens(moodycamel::ConcurrentQueue<uint64_t> &queue) : putter(queue), taker(queue)
    {
    }

    APART moodycamel::ProducerToken putter;
    APART moodycamel::ConsumerToken taker;
};

struct Ring {
    explicit Ring(size_t places) : queue(places)
    {
        for (auto &end : ends) {
            end = std::make_unique<Tokens>(queue);
        }
    }

    moodycamel::ConcurrentQueue<uint64_t> queue;
    std::unique_ptr<Tokens> ends[THREADS];
};

std::unique_ptr<Ring> rings[RINGS];

}

static bool make_rings(size_t places)
{
    for (auto &ring : rings) {
        ring = std::make_unique<Ring>(places);
    }
    return true;
}

static void drop_rings()
{
    for (auto &ring : rings) {
        ring.reset();
    }
}

static size_t put_some(unsigned ring, unsigned thread, const uint64_t *items, size_t count)
{
    return rings[ring]->queue.enqueue_bulk(rings[ring]->ends[thread]->putter, items, count) ? count : 0;
}

static size_t take_some(unsigned ring, unsigned thread, uint64_t *items, size_t most)
{
    return rings[ring]->queue.try_dequeue_bulk(rings[ring]->ends[thread]->taker, items, most);
}

int main(int count, char **words)
{
    return measure_pipeline(count, words);
}
