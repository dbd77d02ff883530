/* Batch queues of any values that fit an item. Include synthesis.hpp, which has the rules of all. */
#ifndef SYNTHESIS_BATCH_OF_HPP
#define SYNTHESIS_BATCH_OF_HPP

#include "batch.hpp"
#include "queue.hpp"
#include "words.hpp"
#include <array>

namespace synthesis {

/// What a batch queue had at its end, whose items are values of T.
template <class T> struct BatchTotalsOf {
    std::uint64_t put;
    std::uint64_t taken;
    std::vector<T> left; ///< the values left, in their order
    std::size_t broken;  ///< how many of those put are missing, since their puts never ended
};

/// An end of a batch queue whose items are values of T: a pointer, a number, an enum or a small struct. A value is
/// copied by its bytes, of which it has at most 8.
///
/// The calls are those of BatchEnd, and an end is used by one thread at a time. What a thread did before a put is
/// visible to whoever takes one of its items, so also what a pointer leads to. A call puts or takes at most 256 values.
///
///     auto end = synthesis::BatchOf<Packet *>::make(4096).value();
///     std::array<Packet *, 32> burst;
///     if (auto taken = end.try_take_some(burst)) use(synthesis::View<Packet *>(burst).first(taken.count));
template <class T> class BatchOf {
    using Words = detail::Words<T>;
    static_assert(Words::fits, "a value is an item");

public:
    /// The most values of one call.
    static constexpr std::size_t most_at_once = 256;

    BatchOf() noexcept = default;
    /// An end whose items are all values of T.
    explicit BatchOf(BatchEnd end) noexcept : end_(std::move(end)) {}

    static Expected<BatchOf> make(std::size_t places) noexcept { return of(BatchEnd::make(places)); }
    Expected<BatchOf> split() noexcept { return of(end_.split()); }
    Code join(BatchOf &&other) noexcept { return end_.join(std::move(other.end_)); }
    [[nodiscard]] bool full() const noexcept { return end_.full(); }
    /// The end. Each of its items has the bytes of a value, and zeros after them.
    [[nodiscard]] BatchEnd &end() noexcept { return end_; }

    BatchPutAnswer try_put(T value) noexcept { return end_.try_put(Words::word_of(value)); }
    /// As BatchEnd::try_put. TooLong also for more than 256 values.
    BatchPutAnswer try_put(View<const T> values) noexcept
    {
        return values.size() > most_at_once ? too_long() : end_.try_put(Run(values).view());
    }
    BatchPutAnswer try_put(std::initializer_list<T> values) noexcept
    {
        return try_put(View<const T>(values.begin(), values.size()));
    }
    /// As BatchEnd::try_put_some, of the first 256 values.
    BatchPutAnswer try_put_some(View<const T> values) noexcept { return end_.try_put_some(Run(values).view()); }
    BatchPutAnswer try_put_some(std::initializer_list<T> values) noexcept
    {
        return try_put_some(View<const T>(values.begin(), values.size()));
    }

    /// As BatchEnd::try_take. It takes at most 256 values. ShortBuffer: the oldest batch has more, or doesn't fit.
    BatchTakeAnswer try_take(View<T> buffer) noexcept
    {
        Room room(buffer);
        return room.filled(end_.try_take(room.view()));
    }
    /// As BatchEnd::try_take_some. It takes at most 256 values.
    BatchTakeAnswer try_take_some(View<T> buffer) noexcept
    {
        Room room(buffer);
        return room.filled(end_.try_take_some(room.view()));
    }
    /// Takes one value.
    TakeAnswerOf<T> try_take() noexcept
    {
        T value{};
        return one_of(try_take_some(View<T>(&value, 1)), value);
    }

    Expected<std::uint64_t> len() const noexcept { return end_.len(); }
    Expected<std::size_t> capacity() const noexcept { return end_.capacity(); }
    Code shut() noexcept { return end_.shut(); }

    /// As BatchEnd::finish. NoMemory: none for the lists, of as many items as the queue has places, and the end is still
    /// full.
    Expected<BatchTotalsOf<T>> finish() noexcept
    {
        const Expected<std::size_t> places = end_.capacity();
        std::vector<T> left;
        if (!places) {
            return places.code();
        }
        if (!detail::has_grown(left, *places)) {
            return Code::NoMemory;
        }
        const Expected<BatchTotals> totals = end_.finish();
        if (!totals) {
            return totals.code();
        }
        left.resize(totals->left.size());
        for (std::size_t i = 0; i < left.size(); i++) {
            left[i] = Words::value_of(totals->left[i]);
        }
        return BatchTotalsOf<T>{totals->put, totals->taken, std::move(left), totals->broken};
    }

    /// As BatchEnd::put_wait. TooLong also for more than 256 values.
    BatchPutAnswer put_wait(View<const T> values, QueueEvents &events, Limit limit = {}) noexcept
    {
        return values.size() > most_at_once ? too_long() : end_.put_wait(Run(values).view(), events, limit);
    }
    BatchPutAnswer put_wait(T value, QueueEvents &events, Limit limit = {}) noexcept
    {
        return put_wait(View<const T>(&value, 1), events, limit);
    }
    /// As BatchEnd::put_some_wait, of the first 256 values.
    BatchPutAnswer put_some_wait(View<const T> values, QueueEvents &events, Limit limit = {}) noexcept
    {
        return end_.put_some_wait(Run(values).view(), events, limit);
    }
    /// As BatchEnd::take_wait, and try_take.
    BatchTakeAnswer take_wait(View<T> buffer, QueueEvents &events, Limit limit = {}) noexcept
    {
        Room room(buffer);
        return room.filled(end_.take_wait(room.view(), events, limit));
    }
    /// Takes one value, and sleeps while there is none.
    TakeAnswerOf<T> take_wait(QueueEvents &events, Limit limit = {}) noexcept
    {
        T value{};
        return one_of(take_some_wait(View<T>(&value, 1), events, limit), value);
    }
    /// As BatchEnd::take_some_wait. It takes at most 256 values.
    BatchTakeAnswer take_some_wait(View<T> buffer, QueueEvents &events, Limit limit = {}) noexcept
    {
        Room room(buffer);
        return room.filled(end_.take_some_wait(room.view(), events, limit));
    }

private:
    /// The first values as items.
    class Run {
    public:
        explicit Run(View<const T> values) noexcept : size_(values.size() < most_at_once ? values.size() : most_at_once)
        {
            for (std::size_t i = 0; i < size_; i++) {
                words_[i] = Words::word_of(values[i]);
            }
        }
        View<const std::uint64_t> view() const noexcept { return View<const std::uint64_t>(words_.data(), size_); }

    private:
        std::array<std::uint64_t, most_at_once> words_;
        std::size_t size_;
    };

    /// Items that become the values of a buffer.
    class Room {
    public:
        explicit Room(View<T> buffer) noexcept : buffer_(buffer) {}
        View<std::uint64_t> view() noexcept
        {
            return View<std::uint64_t>(words_.data(), buffer_.size() < most_at_once ? buffer_.size() : most_at_once);
        }
        BatchTakeAnswer filled(const BatchTakeAnswer &taken) const noexcept
        {
            for (std::size_t i = 0; i < taken.count; i++) {
                buffer_[i] = Words::value_of(words_[i]);
            }
            return taken;
        }

    private:
        View<T> buffer_;
        std::array<std::uint64_t, most_at_once> words_;
    };

    BatchPutAnswer too_long() const noexcept
    {
        return {end_.full() ? Code::TooLong : Code::EmptyHandle, 0, {}, {}, {}};
    }
    static TakeAnswerOf<T> one_of(const BatchTakeAnswer &taken, const T &value) noexcept
    {
        TakeAnswerOf<T> answer = {taken.code, {}, taken.empty, taken.lost};
        if (taken) {
            answer.item = value;
        }
        return answer;
    }
    static Expected<BatchOf> of(Expected<BatchEnd> end) noexcept
    {
        return end ? Expected<BatchOf>(BatchOf(std::move(*end))) : Expected<BatchOf>(end.code());
    }

    BatchEnd end_;
};

} // namespace synthesis

#endif
