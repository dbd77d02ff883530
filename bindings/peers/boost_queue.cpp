/* Boost.Lockfree's queue with 256 nodes that are made at the start, item by item: it has no call for more. */
#include "measure.h"
#include <boost/lockfree/queue.hpp>
#include <memory>

using Queue = boost::lockfree::queue<uint64_t, boost::lockfree::capacity<PLACES>>;

static std::unique_ptr<Queue> queue;

static bool make_queue(unsigned)
{
    queue = std::make_unique<Queue>();
    return queue->is_lock_free();
}

static void drop_queue()
{
    queue.reset();
}

static size_t put_some(unsigned, const uint64_t *items, size_t count)
{
    size_t put = 0;
    while (put < count && queue->bounded_push(items[put])) {
        put++;
    }
    return put;
}

static size_t take_some(unsigned, uint64_t *items, size_t most)
{
    size_t taken = 0;
    while (taken < most && queue->pop(items[taken])) {
        taken++;
    }
    return taken;
}

int main(int count, char **words)
{
    return measure(count, words, 2);
}
