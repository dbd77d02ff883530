/*
 * The classes of synthesis.hpp where memory is refused: each allocation of the library in turn, and that of the list
 * which a finish answers. What is refused is NoMemory, takes no memory, throws nothing, and leaves all as it was.
 */
#include "memory.h"
#include "rows.h"
#include "synthesis.hpp"
#include <new>

/* So that the memory of a list is refused too. */
void *operator new(std::size_t size)
{
    void *block = std::malloc(size);
    if (block == nullptr) {
        throw std::bad_alloc();
    }
    return block;
}

void operator delete(void *block) noexcept
{
    std::free(block);
}

void operator delete(void *block, std::size_t) noexcept
{
    std::free(block);
}

namespace {

using synthesis::Code;

/* Refuses each allocation of a call in turn, until it succeeds, and gives what it then answers. */
template <class Call> auto refuse_each(Call call)
{
    const long taken = memory_taken();
    for (unsigned long number = 1;; number++) {
        memory_refuse(number);
        auto answer = call();
        memory_refuse(0);
        if (answer || number == 100) {
            ROW(number > 1, true);
            return answer;
        }
        ROW(answer.code(), Code::NoMemory);
        ROW(memory_taken(), taken);
    }
}

template <class End> void queues()
{
    End end = refuse_each([] { return End::make(64); }).value();
    End other = refuse_each([&end] { return end.split(); }).value();
    ROW(other.try_put(7).code, Code::Ok);
    ROW(end.join(std::move(other)), Code::Ok);
    auto totals = refuse_each([&end] { return end.finish(); });
    ROW(totals->left.size() == 1 && totals->left[0] == 7, true);
    ROW(end.full(), false);
}

} // namespace

int main()
{
    const long taken = memory_taken();
    queues<synthesis::BatchEnd>();
    queues<synthesis::QueueEnd>();
    queues<synthesis::QueueOf<short>>();
    queues<synthesis::BatchOf<short>>();
    {
        auto seat = refuse_each([] { return synthesis::Seat::make(); }).value();
        ROW(refuse_each([&seat] { return seat.split(); }).ok(), true);
        auto hand = refuse_each([] { return synthesis::Hand::make(); }).value();
        ROW(refuse_each([&hand] { return hand.split(1); }).ok(), true);
        ROW(refuse_each([] { return synthesis::make_line(1); }).ok(), true);
    }
    ROW(memory_taken(), taken);
    return rows_end("no_memory_wrappers");
}
