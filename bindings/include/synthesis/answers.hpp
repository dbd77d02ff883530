/* What the calls answer, and views of what they are given. Include synthesis.hpp, which has the rules of all. */
#ifndef SYNTHESIS_ANSWERS_HPP
#define SYNTHESIS_ANSWERS_HPP

#include "../synthesis.h"
#include <cstddef>
#include <cstdint>
#include <cstdlib>
#include <iterator>
#include <optional>
#include <type_traits>
#include <utility>

namespace synthesis {

/// What a call answered: the codes of synthesis.h, which has the meaning of each.
enum class [[nodiscard]] Code : std::int32_t {
    Ok = SYNTH_OK,
    NoItems = SYNTH_NO_ITEMS,
    TooLong = SYNTH_TOO_LONG,
    Closed = SYNTH_CLOSED,
    Spent = SYNTH_SPENT,
    Full = SYNTH_FULL,
    Lost = SYNTH_LOST,
    Empty = SYNTH_EMPTY,
    Moved = SYNTH_MOVED,
    Busy = SYNTH_BUSY,
    Vacant = SYNTH_VACANT,
    NoRoom = SYNTH_NO_ROOM,
    Open = SYNTH_OPEN,
    NotHeld = SYNTH_NOT_HELD,
    NotServed = SYNTH_NOT_SERVED,
    AllWoken = SYNTH_ALL_WOKEN,
    Stopped = SYNTH_STOPPED,
    Taken = SYNTH_TAKEN,
    Broken = SYNTH_BROKEN,
    Run = SYNTH_RUN,
    Left = SYNTH_LEFT,
    Note = SYNTH_NOTE,
    Again = SYNTH_AGAIN,
    Running = SYNTH_RUNNING,
    NotRunning = SYNTH_NOT_RUNNING,
    NoMemory = SYNTH_NO_MEMORY,
    EmptyHandle = SYNTH_EMPTY_HANDLE,
    FullHandle = SYNTH_FULL_HANDLE,
    OtherObject = SYNTH_OTHER_OBJECT,
    NoShare = SYNTH_NO_SHARE,
    ShortBuffer = SYNTH_SHORT_BUFFER,
    BadNumber = SYNTH_BAD_NUMBER
};

/// The name of a code in synthesis.h.
[[nodiscard]] constexpr const char *name(Code code) noexcept
{
    switch (code) {
    case Code::Ok: return "SYNTH_OK";
    case Code::NoItems: return "SYNTH_NO_ITEMS";
    case Code::TooLong: return "SYNTH_TOO_LONG";
    case Code::Closed: return "SYNTH_CLOSED";
    case Code::Spent: return "SYNTH_SPENT";
    case Code::Full: return "SYNTH_FULL";
    case Code::Lost: return "SYNTH_LOST";
    case Code::Empty: return "SYNTH_EMPTY";
    case Code::Moved: return "SYNTH_MOVED";
    case Code::Busy: return "SYNTH_BUSY";
    case Code::Vacant: return "SYNTH_VACANT";
    case Code::NoRoom: return "SYNTH_NO_ROOM";
    case Code::Open: return "SYNTH_OPEN";
    case Code::NotHeld: return "SYNTH_NOT_HELD";
    case Code::NotServed: return "SYNTH_NOT_SERVED";
    case Code::AllWoken: return "SYNTH_ALL_WOKEN";
    case Code::Stopped: return "SYNTH_STOPPED";
    case Code::Taken: return "SYNTH_TAKEN";
    case Code::Broken: return "SYNTH_BROKEN";
    case Code::Run: return "SYNTH_RUN";
    case Code::Left: return "SYNTH_LEFT";
    case Code::Note: return "SYNTH_NOTE";
    case Code::Again: return "SYNTH_AGAIN";
    case Code::Running: return "SYNTH_RUNNING";
    case Code::NotRunning: return "SYNTH_NOT_RUNNING";
    case Code::NoMemory: return "SYNTH_NO_MEMORY";
    case Code::EmptyHandle: return "SYNTH_EMPTY_HANDLE";
    case Code::FullHandle: return "SYNTH_FULL_HANDLE";
    case Code::OtherObject: return "SYNTH_OTHER_OBJECT";
    case Code::NoShare: return "SYNTH_NO_SHARE";
    case Code::ShortBuffer: return "SYNTH_SHORT_BUFFER";
    case Code::BadNumber: return "SYNTH_BAD_NUMBER";
    }
    return "not a code";
}

/// A value, or the code of a refusal.
template <class T> class [[nodiscard]] Expected {
public:
    Expected(T value) noexcept : code_(Code::Ok), value_(std::move(value)) {}
    /// A refusal: any code but Ok.
    Expected(Code refusal) noexcept : code_(refusal) {}

    [[nodiscard]] Code code() const noexcept { return code_; }
    [[nodiscard]] bool ok() const noexcept { return value_.has_value(); }

    /// As ok(). An Expected<bool> doesn't have it, since it would be taken for its value.
    template <class U = T, std::enable_if_t<!std::is_same_v<U, bool>, int> = 0> explicit operator bool() const noexcept
    {
        return ok();
    }

    /// The value. Without one it ends the program.
    [[nodiscard]] T &value() & noexcept { return has(), *value_; }
    [[nodiscard]] const T &value() const & noexcept { return has(), *value_; }
    [[nodiscard]] T &&value() && noexcept { return has(), std::move(*value_); }

    /// The value, or this one if there is none.
    [[nodiscard]] T value_or(T other) && noexcept { return value_ ? std::move(*value_) : std::move(other); }
    [[nodiscard]] T value_or(T other) const & noexcept { return value_ ? *value_ : std::move(other); }

    /// The value, which has to be there.
    [[nodiscard]] T &operator*() noexcept { return *value_; }
    [[nodiscard]] const T &operator*() const noexcept { return *value_; }
    [[nodiscard]] T *operator->() noexcept { return &*value_; }
    [[nodiscard]] const T *operator->() const noexcept { return &*value_; }

private:
    void has() const noexcept
    {
        if (!value_) {
            std::abort();
        }
    }

    Code code_;
    std::optional<T> value_;
};

/// The head that a put found when there was no room for its items, and the first position whose place wasn't free.
struct Full {
    std::uint64_t head;
    std::uint64_t tail;
};
/// The head that was found, since another end put first.
struct LostPut {
    std::uint64_t head;
};
/// The tail that was found. The item of this position was not published.
struct Empty {
    std::uint64_t tail;
};
/// The tail that was found, since another end took first.
struct LostTake {
    std::uint64_t tail;
};

/// Consecutive elements that somebody else owns: `View<const std::uint64_t>` to be read, `View<std::uint64_t>` to be
/// written. It is made from a pointer and a number, from an array, or from what has data() and size(): std::array,
/// std::vector, std::span, another view. A std::span can be made from it. Use it for the time of a call.
template <class T> class View {
    template <class From>
    using Elements = std::remove_pointer_t<decltype(std::data(std::declval<From &>()))> (*)[];

public:
    using value_type = std::remove_cv_t<T>;

    constexpr View() noexcept = default;
    constexpr View(T *data, std::size_t size) noexcept : data_(data), size_(size) {}

    template <class From, std::enable_if_t<!std::is_same_v<std::decay_t<From>, View> &&
                                               std::is_convertible_v<Elements<From>, T (*)[]>,
                                           int> = 0>
    constexpr View(From &&from) noexcept : data_(std::data(from)), size_(std::size(from))
    {
    }

    [[nodiscard]] constexpr T *data() const noexcept { return data_; }
    [[nodiscard]] constexpr std::size_t size() const noexcept { return size_; }
    [[nodiscard]] constexpr bool empty() const noexcept { return size_ == 0; }
    [[nodiscard]] constexpr T *begin() const noexcept { return data_; }
    [[nodiscard]] constexpr T *end() const noexcept { return data_ + size_; }
    [[nodiscard]] constexpr T &operator[](std::size_t index) const noexcept { return data_[index]; }
    /// The first elements, `count` of them, which is at most size().
    [[nodiscard]] constexpr View first(std::size_t count) const noexcept { return View(data_, count); }

private:
    T *data_ = nullptr;
    std::size_t size_ = 0;
};

/// The code of an answer.
template <class Answer> [[nodiscard]] constexpr Code code_of(const Answer &answer) noexcept
{
    return answer.code;
}

/// Repeats a try while it is Lost, with a pause before each repetition. Each time another end was first.
template <class Attempt> auto repeat(Attempt attempt) noexcept(noexcept(attempt()))
{
    auto answer = attempt();
    while (code_of(answer) == Code::Lost) {
        synth_pause();
        answer = attempt();
    }
    return answer;
}

} // namespace synthesis

#endif
