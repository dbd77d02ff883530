/* Claim queues of any values that fit an item. Include synthesis.hpp, which has the rules of all. */
#ifndef SYNTHESIS_QUEUE_OF_HPP
#define SYNTHESIS_QUEUE_OF_HPP

#include "queue.hpp"
#include "words.hpp"
#include <array>

namespace synthesis {

/// An end of a claim queue whose items are values of T: a pointer, a number, an enum or a small struct. A value is
/// copied by its bytes, of which it has at most 8.
///
/// The calls are those of QueueEnd, and an end is used by one thread at a time. What a thread did before a put is
/// visible to whoever takes one of its items, so also what a pointer leads to.
template <class T> class QueueOf {
    using Words = detail::Words<T>;
    static_assert(Words::fits, "a value is an item");

public:
    QueueOf() noexcept = default;
    /// An end whose items are all values of T.
    explicit QueueOf(QueueEnd end) noexcept : end_(std::move(end)) {}

    static Expected<QueueOf> make(std::uint32_t places, std::uint32_t first = 0) noexcept
    {
        return of(QueueEnd::make(places, first));
    }
    Expected<QueueOf> split() noexcept { return of(end_.split()); }
    Code join(QueueOf &&other) noexcept { return end_.join(std::move(other.end_)); }
    [[nodiscard]] bool full() const noexcept { return end_.full(); }
    /// The end. Each of its items has the bytes of a value, and zeros after them.
    [[nodiscard]] QueueEnd &end() noexcept { return end_; }

    PutAnswer try_put(T value) noexcept { return end_.try_put(Words::word_of(value)); }
    /// As QueueEnd::try_put of several items.
    PutAnswer try_put(View<const T> values) noexcept
    {
        std::array<std::uint64_t, QueueEnd::most_places> words;
        if (values.size() > words.size()) {
            return {end_.full() ? Code::TooLong : Code::EmptyHandle, {}, {}, {}};
        }
        for (std::size_t i = 0; i < values.size(); i++) {
            words[i] = Words::word_of(values[i]);
        }
        return end_.try_put(View<const std::uint64_t>(words.data(), values.size()));
    }

    PutAnswer try_put(std::initializer_list<T> values) noexcept
    {
        return try_put(View<const T>(values.begin(), values.size()));
    }

    TakeAnswerOf<T> try_take() noexcept { return of(end_.try_take()); }
    /// As QueueEnd::take_up_to. It takes at most 256 values.
    RunAnswer take_up_to(View<T> buffer) noexcept
    {
        std::array<std::uint64_t, QueueEnd::most_places> words;
        const std::size_t room = buffer.size() < words.size() ? buffer.size() : words.size();
        const RunAnswer answer = end_.take_up_to(View<std::uint64_t>(words.data(), room));
        for (std::size_t i = 0; i < answer.count; i++) {
            buffer[i] = Words::value_of(words[i]);
        }
        return answer;
    }

    Code shut() noexcept { return end_.shut(); }

    Expected<QueueTotalsOf<T>> finish() noexcept
    {
        std::vector<T> left;
        std::array<std::uint64_t, QueueEnd::most_places> words;
        if (!detail::has_grown(left, words.size())) {
            return Code::NoMemory;
        }
        const Expected<QueueNumbers> totals = end_.finish(words);
        if (!totals) {
            return totals.code();
        }
        left.resize(totals->left);
        for (std::size_t i = 0; i < left.size(); i++) {
            left[i] = Words::value_of(words[i]);
        }
        return QueueTotalsOf<T>{totals->first, totals->put, totals->taken, std::move(left)};
    }

    PutAnswer put_wait(T value, QueueEvents &events, Limit limit = {}) noexcept
    {
        return end_.put_wait(Words::word_of(value), events, limit);
    }
    TakeAnswerOf<T> take_wait(QueueEvents &events, Limit limit = {}) noexcept
    {
        return of(end_.take_wait(events, limit));
    }

private:
    static Expected<QueueOf> of(Expected<QueueEnd> end) noexcept
    {
        return end ? Expected<QueueOf>(QueueOf(std::move(*end))) : Expected<QueueOf>(end.code());
    }
    static TakeAnswerOf<T> of(const TakeAnswer &taken) noexcept
    {
        TakeAnswerOf<T> answer = {taken.code, {}, taken.empty, taken.lost};
        if (taken.item) {
            answer.item = Words::value_of(*taken.item);
        }
        return answer;
    }

    QueueEnd end_;
};

} // namespace synthesis

#endif
