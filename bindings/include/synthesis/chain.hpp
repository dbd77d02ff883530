/* Chains of deferred procedures. Include synthesis.hpp, which has the rules of all. */
#ifndef SYNTHESIS_CHAIN_HPP
#define SYNTHESIS_CHAIN_HPP

#include "handles.hpp"

namespace synthesis {

/// The answer of a try to chain a note.
struct [[nodiscard]] ChainAnswer {
    Code code;
    std::optional<Full> full;
    std::optional<LostPut> lost;

    /// This end runs notes from now on: serve them.
    [[nodiscard]] bool is_runner() const noexcept { return code == Code::Run; }
    /// The note is chained: by Run, or by Left, after which the end that runs notes is given it.
    explicit operator bool() const noexcept { return code == Code::Run || code == Code::Left; }
};

/// What a chain had at its end: how many notes were chained, and handed out.
using ChainTotals = synth_chain_totals;

/// An end of a chain of 32 places. A note of 16 bits means a procedure and what it works on.
///
/// Any end may chain notes. One end at a time runs them, in the order in which they were chained, so no two procedures
/// of a chain run at once. An end is used by one thread at a time; `split` makes one for another thread. What a thread
/// did before it chained a note is visible to the procedure of the note, and what a procedure did to those after it.
///
///     if (end.try_chain(note).is_runner() && end.serve(procedure) != synthesis::Code::Ok) ..
class ChainEnd : public detail::Joined<ChainEnd, synth_chain, synth_chain_free, synth_chain_join> {
public:
    ChainEnd() noexcept = default;

    /// An empty chain by its only end, which runs no notes. NoMemory.
    static Expected<ChainEnd> make(std::uint32_t first = 0) noexcept
    {
        return filled_by([=](synth_chain *end) { return synth_chain_new(first, end); });
    }

    /// One more end, for another thread. EmptyHandle; NoShare; NoMemory.
    Expected<ChainEnd> split() noexcept
    {
        return filled_by([this](synth_chain *other) { return synth_chain_split(raw(), other); });
    }

    /// One try to chain a note: Run or Left. EmptyHandle; Spent; Full; Lost.
    ChainAnswer try_chain(std::uint16_t note) noexcept
    {
        synth_positions at = {};
        const synth_code code = synth_chain_try_chain(raw(), note, &at);
        ChainAnswer chained = {detail::as_code(code), {}, {}};
        if (code == SYNTH_FULL) {
            chained.full = Full{at.head, at.tail};
        } else if (code == SYNTH_LOST) {
            chained.lost = LostPut{at.head};
        }
        return chained;
    }

    /// The next note, of an end that runs notes. Ok: no note is left, and the end runs none from now on; Again: call
    /// again; EmptyHandle; NotRunning.
    Code next(std::uint16_t &note) noexcept { return detail::as_code(synth_chain_next(raw(), &note)); }

    /// Calls the procedure with each note, until none is left. Ok; EmptyHandle; NotRunning.
    template <class Procedure> Code serve(Procedure procedure) noexcept(noexcept(procedure(std::uint16_t{})))
    {
        std::uint16_t note = 0;
        Code code = next(note);
        while (code == Code::Note || code == Code::Again) {
            if (code == Code::Note) {
                procedure(note);
            }
            code = next(note);
        }
        return code;
    }

    /// Ends the chain by an end to which all others were joined, and empties it. EmptyHandle; Running; Open.
    Expected<ChainTotals> finish() noexcept
    {
        synth_chain_totals totals = {};
        const synth_code code = synth_chain_finish(raw(), &totals);
        return detail::value_of(code, totals);
    }
};

} // namespace synthesis

#endif
