/* oneTBB's queue of 256 places, item by item: it has no call for more. */
#include "measure.h"
#include <memory>
#include <oneapi/tbb/concurrent_queue.h>

using Queue = oneapi::tbb::concurrent_bounded_queue<uint64_t>;

static std::unique_ptr<Queue> queue;

static bool make_queue(unsigned)
{
    queue = std::make_unique<Queue>();
    queue->set_capacity(PLACES);
    return true;
}

static void drop_queue()
{
    queue.reset();
}

static size_t put_some(unsigned, const uint64_t *items, size_t count)
{
    size_t put = 0;
    while (put < count && queue->try_push(items[put])) {
        put++;
    }
    return put;
}

static size_t take_some(unsigned, uint64_t *items, size_t most)
{
    size_t taken = 0;
    while (taken < most && queue->try_pop(items[taken])) {
        taken++;
    }
    return taken;
}

int main(int count, char **words)
{
    return measure(count, words, 2);
}
