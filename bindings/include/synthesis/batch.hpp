/* Batch queues of 64-bit items. Include synthesis.hpp, which has the rules of all. */
#ifndef SYNTHESIS_BATCH_HPP
#define SYNTHESIS_BATCH_HPP

#include "event.hpp"
#include "handles.hpp"
#include <initializer_list>

namespace synthesis {

/// The oldest batch, or what is left of it, for which the buffer has no room.
struct OldestBatch {
    std::uint64_t tail; ///< the position of its first item
    std::size_t count;  ///< how many items it has
};

/// The answer of a put of a batch.
struct [[nodiscard]] BatchPutAnswer {
    Code code;
    std::size_t count;                     ///< how many items were put: 0 after a refusal
    std::optional<std::uint64_t> position; ///< of the first item, if it is Ok
    std::optional<Full> full;
    std::optional<LostPut> lost;

    explicit operator bool() const noexcept { return code == Code::Ok; }
};

/// The answer of a taking of batches, whose items are then the first ones of the buffer.
struct [[nodiscard]] BatchTakeAnswer {
    Code code;
    std::size_t count; ///< how many items were taken: 0 after a refusal
    std::optional<Empty> empty;
    std::optional<LostTake> lost;
    std::optional<OldestBatch> oldest; ///< if it is ShortBuffer

    explicit operator bool() const noexcept { return code == Code::Ok; }
};

/// What a batch queue had at its end, by its numbers alone: how many items were put; how many were taken, which are the
/// first ones of those put; how many were left, all others, which are in the caller's buffer; and how many of those put
/// are missing, since their puts never ended (`broken`).
using BatchNumbers = synth_batch_totals;

/// What a look at a batch queue found.
using BatchStatus = synth_batch_status;

/// What a batch queue had at its end.
struct BatchTotals {
    std::uint64_t put;
    std::uint64_t taken;
    std::vector<std::uint64_t> left; ///< the items left, in their order
    std::size_t broken;              ///< how many of those put are missing, since their puts never ended
};

namespace detail {

inline BatchPutAnswer batch_put_answer(synth_code code, std::size_t count, const synth_positions &at) noexcept
{
    BatchPutAnswer put = {as_code(code), 0, {}, {}, {}};
    if (code == SYNTH_OK) {
        put.count = count;
        put.position = at.head;
    } else if (code == SYNTH_FULL) {
        put.full = Full{at.head, at.tail};
    } else if (code == SYNTH_LOST) {
        put.lost = LostPut{at.head};
    }
    return put;
}

inline BatchTakeAnswer batch_take_answer(synth_code code, std::size_t count, std::uint64_t tail) noexcept
{
    BatchTakeAnswer take = {as_code(code), 0, {}, {}, {}};
    if (code == SYNTH_OK) {
        take.count = count;
    } else if (code == SYNTH_EMPTY) {
        take.empty = Empty{tail};
    } else if (code == SYNTH_LOST) {
        take.lost = LostTake{tail};
    } else if (code == SYNTH_SHORT_BUFFER) {
        take.oldest = OldestBatch{tail, count};
    }
    return take;
}

} // namespace detail

/// An end of a batch queue: a queue of any power of two of places for 64-bit items, from any number of threads to any
/// number.
///
/// Each end may put and take. An end is used by one thread at a time; `split` makes one for another thread. What a
/// thread did before a put is visible to whoever takes one of its items, what it did before `shut` to whoever is
/// answered Closed.
///
/// A put is one batch, of which no item can be taken before all can. A taking takes whole batches by one step, unless
/// it is one by `try_take_some`. A queue takes 2^62 items in its life, and is Spent then. A thread that sleeps within
/// a put holds up the takers of all items after its own; one that sleeps within a taking keeps those places.
///
///     std::array<std::uint64_t, 64> items;
///     if (auto taken = end.try_take(items)) use(synthesis::View<std::uint64_t>(items).first(taken.count));
class BatchEnd : public detail::Joined<BatchEnd, synth_batch, synth_batch_free, synth_batch_join> {
public:
    BatchEnd() noexcept = default;

    /// An empty queue by its only end. BadNumber: `places` isn't a power of two from 1 to 16,777,216; NoMemory.
    static Expected<BatchEnd> make(std::size_t places) noexcept
    {
        return filled_by([=](synth_batch *end) { return synth_batch_new(places, end); });
    }

    /// One more end, for another thread. EmptyHandle; NoShare; NoMemory.
    Expected<BatchEnd> split() noexcept
    {
        return filled_by([this](synth_batch *other) { return synth_batch_split(raw(), other); });
    }

    /// One try to put the items, in their order, as one batch: all of them or none. EmptyHandle; NoItems; TooLong;
    /// Closed; Spent; Full; Lost.
    BatchPutAnswer try_put(View<const std::uint64_t> items) noexcept
    {
        synth_positions at = {};
        const synth_code code = synth_batch_try_put(raw(), items.data(), items.size(), &at);
        return detail::batch_put_answer(code, items.size(), at);
    }
    BatchPutAnswer try_put(std::initializer_list<std::uint64_t> items) noexcept
    {
        return try_put(View<const std::uint64_t>(items.begin(), items.size()));
    }
    /// The same of one item, which is an integer.
    template <class Item, std::enable_if_t<std::is_integral_v<Item> && sizeof(Item) <= sizeof(std::uint64_t), int> = 0>
    BatchPutAnswer try_put(Item item) noexcept
    {
        const std::uint64_t word = static_cast<std::uint64_t>(item);
        return try_put(View<const std::uint64_t>(&word, 1));
    }

    /// One try to put as many of the first items as there is room for, as one batch. EmptyHandle; NoItems; Closed;
    /// Spent; Full: there was no room for one; Lost.
    BatchPutAnswer try_put_some(View<const std::uint64_t> items) noexcept
    {
        std::size_t put = 0;
        synth_positions at = {};
        const synth_code code = synth_batch_try_put_some(raw(), items.data(), items.size(), &put, &at);
        return detail::batch_put_answer(code, put, at);
    }
    BatchPutAnswer try_put_some(std::initializer_list<std::uint64_t> items) noexcept
    {
        return try_put_some(View<const std::uint64_t>(items.begin(), items.size()));
    }

    /// One try to take batches: as many whole ones as are published, from the oldest on, and fit into the buffer.
    /// EmptyHandle; then Closed: nothing will ever come, Lost, Empty, or ShortBuffer: the oldest batch doesn't fit.
    BatchTakeAnswer try_take(View<std::uint64_t> buffer) noexcept
    {
        std::size_t count = 0;
        std::uint64_t tail = 0;
        const synth_code code = synth_batch_try_take(raw(), buffer.data(), buffer.size(), &count, &tail);
        return detail::batch_take_answer(code, count, tail);
    }

    /// One try to take as many items as the buffer has room for, where need be the first ones of a batch. Its others
    /// stay published, and the next taking begins with them. The codes are those of try_take; ShortBuffer: the buffer
    /// has no room.
    BatchTakeAnswer try_take_some(View<std::uint64_t> buffer) noexcept
    {
        std::size_t count = 0;
        std::uint64_t tail = 0;
        const synth_code code = synth_batch_try_take_some(raw(), buffer.data(), buffer.size(), &count, &tail);
        return detail::batch_take_answer(code, count, tail);
    }

    /// A hint of how many items are in the queue, published or not. Other ends change it meanwhile. EmptyHandle.
    Expected<std::uint64_t> len() const noexcept
    {
        std::uint64_t count = 0;
        const synth_code code = synth_batch_len(raw(), &count);
        return detail::value_of(code, count);
    }

    /// A look for whoever watches the queue: its tail, how far it is published, its head, whether it is shut. The
    /// numbers were found one after the other, and may have changed since. EmptyHandle.
    Expected<BatchStatus> look() const noexcept
    {
        BatchStatus status = {};
        const synth_code code = synth_batch_look(raw(), &status);
        return detail::value_of(code, status);
    }

    /// How many places the queue has. EmptyHandle.
    Expected<std::size_t> capacity() const noexcept
    {
        std::size_t places = 0;
        const synth_code code = synth_batch_capacity(raw(), &places);
        return detail::value_of(code, places);
    }

    /// Shuts the queue for puts, for good: Ok, of one call alone. EmptyHandle; Closed: it was shut already.
    Code shut() noexcept { return detail::as_code(synth_batch_shut(raw())); }

    /// Ends the queue by an end to which all others were joined, and empties it. The items left become the first ones
    /// of the buffer. If a put never ended, `broken` of the value isn't 0. EmptyHandle; ShortBuffer: it has less room
    /// than the queue has places; Open.
    Expected<BatchNumbers> finish(View<std::uint64_t> buffer) noexcept
    {
        synth_batch_totals totals = {};
        const synth_code code = synth_batch_finish(raw(), buffer.data(), buffer.size(), &totals);
        return detail::value_of(code == SYNTH_BROKEN ? SYNTH_OK : code, totals);
    }
    /// The same, with the items left in a list. EmptyHandle; NoMemory: none for the list, of as many items as the queue
    /// has places, and the end is still full; Open.
    Expected<BatchTotals> finish() noexcept
    {
        const Expected<std::size_t> places = capacity();
        std::vector<std::uint64_t> left;
        if (!places) {
            return places.code();
        }
        if (!detail::has_grown(left, *places)) {
            return Code::NoMemory;
        }
        const Expected<BatchNumbers> totals = finish(left);
        if (!totals) {
            return totals.code();
        }
        left.resize(totals->left);
        return BatchTotals{totals->put, totals->taken, std::move(left), totals->broken};
    }

    /// Gives the queue up, of which an end was lost or freed: shuts it, takes what can be taken into the buffer, as
    /// much as has room, and frees this end. The value is how many items it took: no account of the queue. EmptyHandle.
    Expected<std::size_t> abandon(View<std::uint64_t> buffer) noexcept
    {
        std::size_t count = 0;
        const synth_code code = synth_batch_abandon(raw(), buffer.data(), buffer.size(), &count);
        return detail::value_of(code, count);
    }

    /// Puts the items as one batch, and sleeps while there is no room. Full: the time is over; else as try_put, and
    /// never Lost.
    BatchPutAnswer put_wait(View<const std::uint64_t> items, QueueEvents &events, Limit limit = {}) noexcept
    {
        const auto put = [&]() noexcept { return repeat([&]() noexcept { return try_put(items); }); };
        const BatchPutAnswer answer = events.places.wait_while(Code::Full, limit, put);
        if (answer) {
            events.items.notify_one();
        }
        return answer;
    }

    /// Puts as many of the first items as there is room for, as one batch, and sleeps while there is no room for one.
    /// Full: the time is over; else as try_put_some, and never Lost.
    BatchPutAnswer put_some_wait(View<const std::uint64_t> items, QueueEvents &events, Limit limit = {}) noexcept
    {
        const auto put = [&]() noexcept { return repeat([&]() noexcept { return try_put_some(items); }); };
        const BatchPutAnswer answer = events.places.wait_while(Code::Full, limit, put);
        if (answer) {
            events.items.notify_one();
        }
        return answer;
    }

    /// Takes whole batches, and sleeps while there is none. Empty: the time is over; else as try_take, and never Lost.
    ///
    /// After a taking by another call than this one call places.notify_all(): where a longer put finds no room, another
    /// one may.
    BatchTakeAnswer take_wait(View<std::uint64_t> buffer, QueueEvents &events, Limit limit = {}) noexcept
    {
        const auto take = [&]() noexcept { return repeat([&]() noexcept { return try_take(buffer); }); };
        const BatchTakeAnswer answer = events.items.wait_while(Code::Empty, limit, take);
        if (answer) {
            events.places.notify_all();
        }
        return answer;
    }

    /// Takes as many items as the buffer has room for, and sleeps while there is none. Empty: the time is over; else as
    /// try_take_some, and never Lost.
    BatchTakeAnswer take_some_wait(View<std::uint64_t> buffer, QueueEvents &events, Limit limit = {}) noexcept
    {
        const auto take = [&]() noexcept { return repeat([&]() noexcept { return try_take_some(buffer); }); };
        const BatchTakeAnswer answer = events.items.wait_while(Code::Empty, limit, take);
        if (answer) {
            events.places.notify_all();
        }
        return answer;
    }
};

} // namespace synthesis

#endif
