/* What the classes over handles have in common. Include synthesis.hpp, which has the rules of all. */
#ifndef SYNTHESIS_HANDLES_HPP
#define SYNTHESIS_HANDLES_HPP

#include "answers.hpp"
#include <new>
#include <vector>

namespace synthesis {

namespace detail {

constexpr Code as_code(synth_code code) noexcept { return static_cast<Code>(code); }

/// What a call with one value answers.
template <class T> Expected<T> value_of(synth_code code, T value) noexcept
{
    return code == SYNTH_OK ? Expected<T>(std::move(value)) : Expected<T>(as_code(code));
}

/// A number, if the code has it.
template <class T, class From> std::optional<T> only_if(bool is_there, From number) noexcept
{
    return is_there ? std::optional<T>(T{number}) : std::nullopt;
}

/// Gives a list this size. False if there was no memory.
template <class T> bool has_grown(std::vector<T> &list, std::size_t size) noexcept
{
#ifdef __cpp_exceptions
    try {
        list.resize(size);
    } catch (...) {
        return false;
    }
#else
    list.resize(size);
#endif
    return true;
}

/// Owns a handle, which is freed when it goes.
template <class Raw, synth_code (*Free)(Raw *)> class Handle {
public:
    Handle() noexcept = default;
    Handle(Handle &&other) noexcept : raw_(other.release()) {}
    Handle &operator=(Handle &&other) noexcept
    {
        if (this != &other) {
            free();
            raw_ = other.release();
        }
        return *this;
    }
    ~Handle() { free(); }

    /// Whether it has a handle.
    [[nodiscard]] bool full() const noexcept { return raw_.full; }
    /// Frees the handle, if there is one. The end is empty then.
    void free() noexcept
    {
        if (raw_.full) {
            (void)Free(&raw_);
        }
    }
    /// The handle, for calls of synthesis.h.
    [[nodiscard]] Raw *raw() noexcept { return &raw_; }
    [[nodiscard]] const Raw *raw() const noexcept { return &raw_; }
    /// Gives the handle away, to be freed by its new owner. The end is empty then.
    [[nodiscard]] Raw release() noexcept { return std::exchange(raw_, Raw{nullptr, false}); }

private:
    Raw raw_ = {nullptr, false};
};

/// What the ends that can be joined have in common. `Self` is the end itself.
template <class Self, class Raw, synth_code (*Free)(Raw *), synth_code (*Join)(Raw *, Raw *)>
class Joined : public Handle<Raw, Free> {
public:
    /// Takes a full handle over. Nothing else may use it from then on.
    [[nodiscard]] static Self adopt(Raw raw) noexcept
    {
        Self end;
        *end.raw() = raw;
        return end;
    }

    /// Joins another end of the same object to this one, and empties it. Unless the code is Ok, `other` keeps its
    /// handle. EmptyHandle: either one, or they are one end; OtherObject.
    Code join(Self &&other) noexcept
    {
        return this->raw() == other.raw() ? Code::EmptyHandle : as_code(Join(this->raw(), other.raw()));
    }

protected:
    /// The end that a call has filled.
    template <class Call> static Expected<Self> filled_by(Call call) noexcept
    {
        Self end;
        const Code code = as_code(call(end.raw()));
        return code == Code::Ok ? Expected<Self>(std::move(end)) : Expected<Self>(code);
    }
};

} // namespace detail

} // namespace synthesis

#endif
