/* Claim queues of 64-bit items. Include synthesis.hpp, which has the rules of all. */
#ifndef SYNTHESIS_QUEUE_HPP
#define SYNTHESIS_QUEUE_HPP

#include "event.hpp"
#include "handles.hpp"
#include <initializer_list>

namespace synthesis {

/// The answer of a put.
struct [[nodiscard]] PutAnswer {
    Code code;
    std::optional<std::uint64_t> position; ///< of the first item, if it is Ok
    std::optional<Full> full;
    std::optional<LostPut> lost;

    explicit operator bool() const noexcept { return code == Code::Ok; }
};

/// The answer of a taking of one item.
template <class T> struct [[nodiscard]] TakeAnswerOf {
    Code code;
    std::optional<T> item; ///< if it is Ok
    std::optional<Empty> empty;
    std::optional<LostTake> lost;

    explicit operator bool() const noexcept { return code == Code::Ok; }
};
using TakeAnswer = TakeAnswerOf<std::uint64_t>;

/// The answer of a taking of several items, which are then the first ones of the buffer.
struct [[nodiscard]] RunAnswer {
    Code code;
    std::size_t count; ///< how many were taken: 0 after a refusal
    std::optional<Empty> empty;
    std::optional<LostTake> lost;
    std::optional<std::uint64_t> stopped_at; ///< if it is Ok: the tail that the next try found, which was refused

    explicit operator bool() const noexcept { return code == Code::Ok; }
};

/// What a queue had at its end, by its numbers alone: its first position; how many items were put; how many were taken,
/// which are the first ones of those put; and how many were left, all others, which are in the caller's buffer.
using QueueNumbers = synth_queue_totals;

/// What a look at a claim queue found.
using QueueStatus = synth_queue_status;

/// What a queue had at its end.
template <class T> struct QueueTotalsOf {
    std::uint32_t first;
    std::uint32_t put;
    std::uint32_t taken;
    std::vector<T> left; ///< the items left, in their order
};
using QueueTotals = QueueTotalsOf<std::uint64_t>;

namespace detail {

inline PutAnswer put_answer(synth_code code, const synth_positions &at) noexcept
{
    PutAnswer put = {as_code(code), {}, {}, {}};
    if (code == SYNTH_OK) {
        put.position = at.head;
    } else if (code == SYNTH_FULL) {
        put.full = Full{at.head, at.tail};
    } else if (code == SYNTH_LOST) {
        put.lost = LostPut{at.head};
    }
    return put;
}

inline TakeAnswer take_answer(synth_code code, std::uint64_t item, std::uint64_t tail) noexcept
{
    return {as_code(code), only_if<std::uint64_t>(code == SYNTH_OK, item), only_if<Empty>(code == SYNTH_EMPTY, tail),
            only_if<LostTake>(code == SYNTH_LOST, tail)};
}

inline RunAnswer run_answer(synth_code code, std::size_t count, std::uint64_t tail) noexcept
{
    return {as_code(code), code == SYNTH_OK ? count : 0, only_if<Empty>(code == SYNTH_EMPTY, tail),
            only_if<LostTake>(code == SYNTH_LOST, tail),
            only_if<std::uint64_t>(code == SYNTH_OK && tail != 0, tail)};
}

} // namespace detail

/// An end of a claim queue: a queue of 64 or 256 places for 64-bit items, from any number of threads to any number.
///
/// Each end may put and take. An end is used by one thread at a time; `split` makes one for another thread. What a
/// thread did before a put is visible to whoever takes one of its items, what it did before `shut` to whoever is
/// answered Closed.
///
/// The items of one put are one run, with no other end's item between them. A queue takes 4,294,967,295 items less its
/// first position in its life, and is Spent then. A thread that sleeps within a put holds up the takers of all
/// items after its own.
class QueueEnd : public detail::Joined<QueueEnd, synth_queue, synth_queue_free, synth_queue_join> {
public:
    /// Room enough for try_take_line and finish of any queue.
    static constexpr std::size_t most_places = 256;

    QueueEnd() noexcept = default;

    /// An empty queue by its only end. BadNumber: `places` isn't 64 or 256; NoMemory.
    static Expected<QueueEnd> make(std::uint32_t places, std::uint32_t first = 0) noexcept
    {
        return filled_by([=](synth_queue *end) { return synth_queue_new(places, first, end); });
    }

    /// One more end, for another thread. EmptyHandle; NoShare; NoMemory.
    Expected<QueueEnd> split() noexcept
    {
        return filled_by([this](synth_queue *other) { return synth_queue_split(raw(), other); });
    }

    /// One try to put the items, in their order. EmptyHandle; NoItems; TooLong; Closed; Spent; Full; Lost.
    PutAnswer try_put(View<const std::uint64_t> items) noexcept
    {
        synth_positions at = {};
        const synth_code code = synth_queue_try_put(raw(), items.data(), items.size(), &at);
        return detail::put_answer(code, at);
    }
    PutAnswer try_put(std::initializer_list<std::uint64_t> items) noexcept
    {
        return try_put(View<const std::uint64_t>(items.begin(), items.size()));
    }
    /// The same of one item, which is an integer.
    template <class Item, std::enable_if_t<std::is_integral_v<Item> && sizeof(Item) <= sizeof(std::uint64_t), int> = 0>
    PutAnswer try_put(Item item) noexcept
    {
        const std::uint64_t word = static_cast<std::uint64_t>(item);
        return try_put(View<const std::uint64_t>(&word, 1));
    }

    /// One try to take the first item left. EmptyHandle; Closed: nothing will ever come; Lost; Empty.
    TakeAnswer try_take() noexcept
    {
        std::uint64_t item = 0;
        std::uint64_t tail = 0;
        const synth_code code = synth_queue_try_take(raw(), &item, &tail);
        return detail::take_answer(code, item, tail);
    }

    /// Takes the first items left, one by one, until one is refused or the buffer is full. EmptyHandle; ShortBuffer: it
    /// has no room; Closed, Lost, Empty: of the first one.
    RunAnswer take_up_to(View<std::uint64_t> buffer) noexcept
    {
        std::size_t count = 0;
        std::uint64_t tail = 0;
        const synth_code code = synth_queue_take_up_to(raw(), buffer.data(), buffer.size(), &count, &tail);
        return detail::run_answer(code, count, tail);
    }

    /// One try to take a line by one taking: the items up to and with the first that is 10, or as many as there are
    /// places. EmptyHandle; ShortBuffer: it has less room than the queue has places; Empty; Lost; Closed.
    RunAnswer try_take_line(View<std::uint64_t> buffer) noexcept
    {
        std::size_t count = 0;
        std::uint64_t tail = 0;
        const synth_code code = synth_queue_try_take_line(raw(), buffer.data(), buffer.size(), &count, &tail);
        return detail::run_answer(code, count, tail);
    }

    /// A look for whoever watches the queue: its tail, its head, how many items are raised from the tail on, whether it
    /// is shut. The numbers were found one after the other, and may have changed since. EmptyHandle.
    Expected<QueueStatus> look() const noexcept
    {
        QueueStatus status = {};
        const synth_code code = synth_queue_look(raw(), &status);
        return detail::value_of(code, status);
    }

    /// Shuts the queue for puts, for good: Ok, of one call alone. EmptyHandle; Closed: it was shut already.
    Code shut() noexcept { return detail::as_code(synth_queue_shut(raw())); }

    /// Ends the queue by an end to which all others were joined, and empties it. The items left become the first ones
    /// of the buffer. EmptyHandle; ShortBuffer: it has less room than the queue has places; Open.
    Expected<QueueNumbers> finish(View<std::uint64_t> buffer) noexcept
    {
        synth_queue_totals totals = {};
        const synth_code code = synth_queue_finish(raw(), buffer.data(), buffer.size(), &totals);
        return detail::value_of(code, totals);
    }
    /// The same, with the items left in a list. NoMemory: none for the list, and the end is still full. EmptyHandle;
    /// Open.
    Expected<QueueTotals> finish() noexcept
    {
        std::vector<std::uint64_t> left;
        if (!detail::has_grown(left, most_places)) {
            return Code::NoMemory;
        }
        const Expected<QueueNumbers> totals = finish(left);
        if (!totals) {
            return totals.code();
        }
        left.resize(totals->left);
        return QueueTotals{totals->first, totals->put, totals->taken, std::move(left)};
    }

    /// Gives the queue up, of which an end was lost or freed: shuts it, takes what can be taken into the buffer, as
    /// much as has room, and frees this end. The value is how many items it took: no account of the queue. EmptyHandle.
    Expected<std::size_t> abandon(View<std::uint64_t> buffer) noexcept
    {
        std::size_t count = 0;
        const synth_code code = synth_queue_abandon(raw(), buffer.data(), buffer.size(), &count);
        return detail::value_of(code, count);
    }

    /// Puts an item, and sleeps while there is no room. Full: the time is over; else as try_put, and never Lost.
    PutAnswer put_wait(std::uint64_t item, QueueEvents &events, Limit limit = {}) noexcept
    {
        const auto put = [&]() noexcept { return repeat([&]() noexcept { return try_put(item); }); };
        const PutAnswer answer = events.places.wait_while(Code::Full, limit, put);
        if (answer) {
            events.items.notify_one();
        }
        return answer;
    }

    /// Takes an item, and sleeps while there is none. Empty: the time is over; else as try_take, and never Lost.
    TakeAnswer take_wait(QueueEvents &events, Limit limit = {}) noexcept
    {
        const auto take = [&]() noexcept { return repeat([&]() noexcept { return try_take(); }); };
        const TakeAnswer answer = events.items.wait_while(Code::Empty, limit, take);
        if (answer) {
            events.places.notify_one();
        }
        return answer;
    }
};

} // namespace synthesis

#endif
