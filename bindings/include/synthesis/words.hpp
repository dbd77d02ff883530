/* Values as items of a queue. Include synthesis.hpp, which has the rules of all. */
#ifndef SYNTHESIS_WORDS_HPP
#define SYNTHESIS_WORDS_HPP

#include <cstdint>
#include <cstring>
#include <type_traits>

namespace synthesis {

namespace detail {

/// A value as an item: its bytes, and zeros after them.
template <class T> struct Words {
    static_assert(std::is_trivially_copyable_v<T> && std::is_nothrow_default_constructible_v<T>,
                  "a value is copied by its bytes");
    static_assert(sizeof(T) <= sizeof(std::uint64_t), "a value has at most 8 bytes");
    static constexpr bool fits = true;

    static std::uint64_t word_of(const T &value) noexcept
    {
        std::uint64_t word = 0;
        std::memcpy(&word, &value, sizeof value);
        return word;
    }
    static T value_of(std::uint64_t word) noexcept
    {
        T value{};
        std::memcpy(&value, &word, sizeof value);
        return value;
    }
};

} // namespace detail

} // namespace synthesis

#endif
