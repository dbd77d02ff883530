/* Device lines. Include synthesis.hpp, which has the rules of all. */
#ifndef SYNTHESIS_LINE_HPP
#define SYNTHESIS_LINE_HPP

#include "handles.hpp"

namespace synthesis {

/// The half of a device line that pushes: bytes from one thread to another, in their order. make_line makes both.
///
/// A half is used by one thread at a time, and neither can be split. What a thread did before a push is visible to
/// whoever pops the byte.
class LineIn : public detail::Handle<synth_line_in, synth_line_free_in> {
public:
    LineIn() noexcept = default;

    /// Pushes one byte after all others. EmptyHandle; Full.
    Code push(std::uint8_t byte) noexcept
    {
        return detail::as_code(synth_line_push(raw(), byte));
    }

    /// Pushes the first of the bytes, as many as there is room for, and returns how many. EmptyHandle; NoItems; Full.
    Expected<std::size_t> push_some(View<const std::uint8_t> bytes) noexcept
    {
        std::size_t pushed = 0;
        const synth_code code = synth_line_push_some(raw(), bytes.data(), bytes.size(), &pushed);
        return detail::value_of(code, pushed);
    }
};

/// The half of a device line that pops. The rest is as of LineIn.
class LineOut : public detail::Handle<synth_line_out, synth_line_free_out> {
public:
    LineOut() noexcept = default;

    /// Pops the oldest byte. EmptyHandle; Empty.
    Expected<std::uint8_t> pop() noexcept
    {
        std::uint8_t byte = 0;
        const synth_code code = synth_line_pop(raw(), &byte);
        return detail::value_of(code, byte);
    }

    /// Pops the oldest bytes, as many as there are and fit the buffer, whose first ones they become, and returns how
    /// many. EmptyHandle; ShortBuffer: it has no room; Empty.
    Expected<std::size_t> pop_some(View<std::uint8_t> buffer) noexcept
    {
        std::size_t count = 0;
        const synth_code code = synth_line_pop_some(raw(), buffer.data(), buffer.size(), &count);
        return detail::value_of(code, count);
    }
};

/// The two halves of a line.
struct Line {
    LineIn in;
    LineOut out;
};

/// How many bytes went through a line, modulo 2^64, and how many were pushed and not popped.
using LineTotals = synth_line_totals;

/// An empty line with room for so many bytes, 1 to 65,536. BadNumber; NoMemory.
inline Expected<Line> make_line(std::size_t room) noexcept
{
    Line line;
    const synth_code code = synth_line_new(room, line.in.raw(), line.out.raw());
    return detail::value_of(code, std::move(line));
}

/// Ends a line whose halves are both this thread's, and empties them. The bytes left go with the line. Unless the code
/// is Ok, both keep their handles. EmptyHandle: either one; OtherObject: they are of two lines.
inline Expected<LineTotals> finish(LineIn &&in, LineOut &&out) noexcept
{
    synth_line_totals totals = {};
    const synth_code code = synth_line_finish(in.raw(), out.raw(), &totals);
    return detail::value_of(code, totals);
}

} // namespace synthesis

#endif
