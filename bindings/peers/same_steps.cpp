/*
 * The steps of the claim queue in C++, one by one and on words that lie as its words do, with no handle and no proof:
 * what these steps cost where nothing is added to them. Each is sequentially consistent, as the queue's are. With WEAKER
 * the words of the data are stored and loaded relaxed, flags are stored by release, and all else is loaded by acquire,
 * which is as much as the algorithm needs. With TOGETHER head and tail are neighbours, and all flags are after all data:
 * what it would cost not to have head, tail and places in cache lines of their own.
 */
#include "measure.h"
#include <array>
#include <atomic>
#include <new>

#ifdef WEAKER
constexpr auto LOAD = std::memory_order_acquire;
constexpr auto STORE_FLAG = std::memory_order_release;
constexpr auto DATA = std::memory_order_relaxed;
#else
constexpr auto LOAD = std::memory_order_seq_cst;
constexpr auto STORE_FLAG = std::memory_order_seq_cst;
constexpr auto DATA = std::memory_order_seq_cst;
#endif

#ifdef TOGETHER
constexpr size_t HEAD = 0, TAIL = 1, DATA_AT = 3, FLAGS_AT = 3 + PLACES, NEXT = 1;
#else
/* Head and number of ends, then the tail, then the places, each of them in cache lines of their own: datum and flag. */
constexpr size_t HEAD = 0, TAIL = 8, DATA_AT = 16, FLAGS_AT = 17, NEXT = 2;
#endif

constexpr uint64_t SHUT = uint64_t{1} << 32;

namespace {

class Queue {
public:
    bool try_put(const uint64_t *items, size_t count)
    {
        uint64_t head = words[HEAD].load(LOAD);
        if (head >= SHUT || head + count >= SHUT) {
            return false;
        }
        uint64_t tail = words[TAIL].load(LOAD);
        if (head + count > tail + PLACES || !words[HEAD].compare_exchange_strong(head, head + count)) {
            return false;
        }
        for (size_t i = 0; i < count; i++) {
            data(head + i).store(items[i], DATA);
            flag(head + i).store(head + i + 1, STORE_FLAG);
        }
        return true;
    }

    /* The items up to and with the first that ends a line, or `most` of them. */
    size_t try_take_line(uint64_t *items, size_t most)
    {
        uint64_t tail = words[TAIL].load(LOAD);
        size_t count = 0;
        do {
            if (flag(tail + count).load(LOAD) != tail + count + 1) {
                return refused(tail);
            }
            items[count] = data(tail + count).load(DATA);
            count++;
        } while (count < most && items[count - 1] != END_OF_LINE);
        return words[TAIL].compare_exchange_strong(tail, tail + count) ? count : 0;
    }

private:
    /* What the queue loads to report why nothing was taken: the head, which may be shut, and the tail again. */
    size_t refused(uint64_t tail)
    {
        must(words[HEAD].load(LOAD) != SHUT + tail, "the queue was shut");
        (void)words[TAIL].load(LOAD);
        return 0;
    }

    std::atomic<uint64_t> &data(uint64_t position)
    {
        return words[DATA_AT + position % PLACES * NEXT];
    }

    std::atomic<uint64_t> &flag(uint64_t position)
    {
        return words[FLAGS_AT + position % PLACES * NEXT];
    }

    std::array<std::atomic<uint64_t>, DATA_AT + 2 * PLACES> words{};
};

}

static Queue *queue;

static bool make_queue(unsigned)
{
    queue = new (std::nothrow) Queue;
    return queue != nullptr;
}

static void drop_queue()
{
    delete queue;
}

static size_t put_some(unsigned, const uint64_t *items, size_t count)
{
    return queue->try_put(items, count) ? count : 0;
}

static size_t take_some(unsigned, uint64_t *items, size_t most)
{
    return queue->try_take_line(items, most);
}

int main(int count, char **words)
{
    return measure(count, words, 2);
}
