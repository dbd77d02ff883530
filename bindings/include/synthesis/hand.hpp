/* Thread elements. Include synthesis.hpp, which has the rules of all. */
#ifndef SYNTHESIS_HAND_HPP
#define SYNTHESIS_HAND_HPP

#include "handles.hpp"
#include <array>

namespace synthesis {

/// The answer of a taking of an element, which the hand then holds.
struct [[nodiscard]] ElementAnswer {
    Code code;
    std::optional<std::uint32_t> element; ///< if it is Ok
    std::optional<LostTake> lost;

    explicit operator bool() const noexcept { return code == Code::Ok; }
};

/// The head and the number of notifies that a move found, since another hand was first.
struct LostMove {
    std::uint32_t head;
    std::optional<std::uint32_t> notifies; ///< of a wait queue
};

/// The answer of a move of an element.
struct [[nodiscard]] MoveAnswer {
    Code code;
    std::optional<LostMove> lost;
    std::optional<std::uint32_t> notifies; ///< how many were found, if it is Moved

    explicit operator bool() const noexcept { return code == Code::Ok; }
};

/// The state of an element, as it was found: its pending signals, bit s for signal s; whether its stop bit is set; and
/// whether it is in its stop cell.
using ElementState = synth_element_state;

/// The answer of a try at an element's state. It isn't to be taken for its value, so it has no operator bool.
template <class T> struct [[nodiscard]] StateAnswer {
    Code code;
    std::optional<T> value;            ///< if it is Ok
    std::optional<ElementState> found; ///< if it is Lost: another hand changed the state first

    [[nodiscard]] bool ok() const noexcept { return code == Code::Ok; }
};

/// What a start did.
enum class Started : std::uint32_t {
    NotStopped = SYNTH_START_NOT_STOPPED, ///< nothing: the stop bit was clear
    Cleared = SYNTH_START_CLEARED,        ///< the stop bit was cleared; the element wasn't in its stop cell
    Held = SYNTH_START_HELD               ///< the stop bit was cleared; the hand holds the element, which was there
};

/// The kinds of places.
enum class PlaceKind : std::uint32_t {
    Processor = SYNTH_PLACE_PROCESSOR,
    Ready = SYNTH_PLACE_READY,
    Free = SYNTH_PLACE_FREE,
    Wait = SYNTH_PLACE_WAIT,
    Stopped = SYNTH_PLACE_STOPPED,
    Held = SYNTH_PLACE_HELD
};

/// Where an element is.
struct Place {
    PlaceKind kind;
    std::optional<std::uint32_t> processor; ///< if it is on one
    std::optional<std::uint32_t> wait;      ///< its wait queue, if it is in one
};

/// The elements at the table's end, each list by their numbers.
struct HandTotals {
    std::array<Place, 64> places;
    std::array<std::uint64_t, 64> pc;      ///< how many steps each has done
    std::array<std::uint16_t, 64> pending; ///< the pending signals of each, bit s for signal s
    std::uint64_t stops;                   ///< whose stop bit is set, bit e for element e
};

namespace detail {

inline ElementAnswer element_answer(synth_code code, std::uint32_t element, std::uint32_t tail) noexcept
{
    return {as_code(code), only_if<std::uint32_t>(code == SYNTH_OK, element),
            only_if<LostTake>(code == SYNTH_LOST, tail)};
}

/// The answer of a move to an element queue, which has notifies if it is a wait queue.
inline MoveAnswer move_answer(synth_code code, std::uint32_t head, std::optional<std::uint32_t> notifies) noexcept
{
    MoveAnswer moved = {as_code(code), {}, {}};
    if (code == SYNTH_LOST) {
        moved.lost = LostMove{head, notifies};
    } else if (code == SYNTH_MOVED) {
        moved.notifies = notifies;
    }
    return moved;
}

template <class T> StateAnswer<T> state_answer(synth_code code, T value, const ElementState &found) noexcept
{
    return {as_code(code), code == SYNTH_OK ? std::optional<T>(value) : std::nullopt,
            code == SYNTH_LOST ? std::optional<ElementState>(found) : std::nullopt};
}

inline Place place_of(const synth_place &place) noexcept
{
    const PlaceKind kind = static_cast<PlaceKind>(place.kind);
    return {kind, only_if<std::uint32_t>(kind == PlaceKind::Processor, place.number),
            only_if<std::uint32_t>(kind == PlaceKind::Wait, place.number)};
}

} // namespace detail

/// A hand of a table of thread elements, which is what a scheduler keeps of its threads: 64 elements, 8 processors, 16
/// wait queues. Each element is in exactly one place, and moves by the calls below; synthesis.h has the table of them.
///
/// A hand is used by one thread at a time; `split` makes one for another worker. What a hand holds no other hand can
/// move, nor what it has put on a processor. What a thread did before it moved an element is visible to whoever takes
/// the element; what it did before a stop or a signal to whoever then parks the element or takes its signals; what it
/// did before a notify to whoever then reads a ticket of the queue, or is answered Moved.
class Hand : public detail::Joined<Hand, synth_hand, synth_hand_free, synth_hand_join> {
public:
    Hand() noexcept = default;

    /// A table by its only hand, which serves all processors. All elements are free. BadNumber: `first` is over
    /// 4,294,967,231; NoMemory.
    static Expected<Hand> make(std::uint32_t first = 0) noexcept
    {
        return filled_by([=](synth_hand *hand) { return synth_hand_new(first, hand); });
    }

    /// One more hand, which serves the processors of the mask in the place of this one. EmptyHandle; BadNumber;
    /// NotServed; Busy; NoShare; NoMemory.
    Expected<Hand> split(std::uint32_t processors) noexcept
    {
        return filled_by([this, processors](synth_hand *other) { return synth_hand_split(raw(), processors, other); });
    }

    /// Whether this hand holds the element. EmptyHandle; BadNumber.
    Expected<bool> holds(std::uint32_t element) const noexcept
    {
        bool held = false;
        const synth_code code = synth_hand_holds(raw(), element, &held);
        return detail::value_of(code, held);
    }

    /// Whether this hand serves the processor. EmptyHandle; BadNumber.
    Expected<bool> serves(std::uint32_t processor) const noexcept
    {
        bool served = false;
        const synth_code code = synth_hand_serves(raw(), processor, &served);
        return detail::value_of(code, served);
    }

    /// The element that this hand has on the processor. EmptyHandle; BadNumber; Vacant.
    Expected<std::uint32_t> on_processor(std::uint32_t processor) const noexcept
    {
        std::uint32_t element = 0;
        const synth_code code = synth_hand_on_processor(raw(), processor, &element);
        return detail::value_of(code, element);
    }

    /// Puts an element on a processor. EmptyHandle; BadNumber; NotHeld; NotServed; Busy.
    Code on(std::uint32_t processor, std::uint32_t element) noexcept
    {
        return detail::as_code(synth_hand_on(raw(), processor, element));
    }

    /// Takes the element off a processor; it is held then. EmptyHandle; BadNumber; NotServed; Vacant.
    Expected<std::uint32_t> off(std::uint32_t processor) noexcept
    {
        std::uint32_t element = 0;
        const synth_code code = synth_hand_off(raw(), processor, &element);
        return detail::value_of(code, element);
    }

    /// How many steps an element has done. EmptyHandle; BadNumber; NotHeld.
    Expected<std::uint64_t> pc(std::uint32_t element) const noexcept
    {
        std::uint64_t steps = 0;
        const synth_code code = synth_hand_pc(raw(), element, &steps);
        return detail::value_of(code, steps);
    }

    /// Counts one more step of an element. The value is their number. EmptyHandle; BadNumber; NotHeld; Spent.
    Expected<std::uint64_t> step_done(std::uint32_t element) noexcept
    {
        std::uint64_t steps = 0;
        const synth_code code = synth_hand_step_done(raw(), element, &steps);
        return detail::value_of(code, steps);
    }

    /// One try to take the oldest element of the ready ring. EmptyHandle; Empty; Lost.
    ElementAnswer try_next() noexcept
    {
        std::uint32_t element = 0;
        std::uint32_t tail = 0;
        const synth_code code = synth_hand_try_next(raw(), &element, &tail);
        return detail::element_answer(code, element, tail);
    }

    /// The same of the free elements.
    ElementAnswer try_free() noexcept
    {
        std::uint32_t element = 0;
        std::uint32_t tail = 0;
        const synth_code code = synth_hand_try_free(raw(), &element, &tail);
        return detail::element_answer(code, element, tail);
    }

    /// The same of a wait queue. EmptyHandle; BadNumber; Empty; Lost.
    ElementAnswer try_wake(std::uint32_t wait) noexcept
    {
        std::uint32_t element = 0;
        std::uint32_t tail = 0;
        const synth_code code = synth_hand_try_wake(raw(), wait, &element, &tail);
        return detail::element_answer(code, element, tail);
    }

    /// As try_wake, as long as a place is left that was claimed before `head`, which a notify gave. AllWoken: none is.
    ElementAnswer try_wake_before(std::uint32_t wait, std::uint32_t head) noexcept
    {
        std::uint32_t element = 0;
        std::uint32_t tail = 0;
        const synth_code code = synth_hand_try_wake_before(raw(), wait, head, &element, &tail);
        return detail::element_answer(code, element, tail);
    }

    /// Counts one more notify of a wait queue. The value is the head for try_wake_before. EmptyHandle; BadNumber.
    Expected<std::uint32_t> notify(std::uint32_t wait) noexcept
    {
        std::uint32_t head = 0;
        const synth_code code = synth_hand_notify(raw(), wait, &head);
        return detail::value_of(code, head);
    }

    /// A ticket for a wait. Read it before the look for what the element waits for. EmptyHandle; BadNumber.
    Expected<std::uint32_t> ticket(std::uint32_t wait) const noexcept
    {
        std::uint32_t ticket = 0;
        const synth_code code = synth_hand_ticket(raw(), wait, &ticket);
        return detail::value_of(code, ticket);
    }

    /// One try to put an element into the ready ring. EmptyHandle; BadNumber; NotHeld; Spent; Lost.
    MoveAnswer try_ready(std::uint32_t element) noexcept
    {
        std::uint32_t head = 0;
        const synth_code code = synth_hand_try_ready(raw(), element, &head);
        return detail::move_answer(code, head, std::nullopt);
    }

    /// The same, after the free elements.
    MoveAnswer try_retire(std::uint32_t element) noexcept
    {
        std::uint32_t head = 0;
        const synth_code code = synth_hand_try_retire(raw(), element, &head);
        return detail::move_answer(code, head, std::nullopt);
    }

    /// The same, into a wait queue; no ticket guards it against a lost wake.
    MoveAnswer try_wait(std::uint32_t element, std::uint32_t wait) noexcept
    {
        std::uint32_t head = 0;
        std::uint32_t notifies = 0;
        const synth_code code = synth_hand_try_wait(raw(), element, wait, &head, &notifies);
        return detail::move_answer(code, head, notifies);
    }

    /// The same, if the ticket is the number of notifies still. Moved: look again.
    MoveAnswer try_wait_at(std::uint32_t element, std::uint32_t wait, std::uint32_t ticket) noexcept
    {
        std::uint32_t head = 0;
        std::uint32_t notifies = 0;
        const synth_code code = synth_hand_try_wait_at(raw(), element, wait, ticket, &head, &notifies);
        return detail::move_answer(code, head, notifies);
    }

    /// Sets the stop bit of an element. The value is whether it was clear. EmptyHandle; BadNumber.
    Expected<bool> stop(std::uint32_t element) noexcept
    {
        bool was_clear = false;
        const synth_code code = synth_hand_stop(raw(), element, &was_clear);
        return detail::value_of(code, was_clear);
    }

    /// One try to clear the stop bit of an element. EmptyHandle; BadNumber; Lost.
    StateAnswer<Started> try_start(std::uint32_t element) noexcept
    {
        std::uint32_t started = 0;
        ElementState found = {};
        const synth_code code = synth_hand_try_start(raw(), element, &started, &found);
        return detail::state_answer(code, static_cast<Started>(started), found);
    }

    /// One try to put an element into its stop cell, if its stop bit is set. The value is whether it is there.
    /// EmptyHandle; BadNumber; NotHeld; Lost.
    StateAnswer<bool> try_park(std::uint32_t element) noexcept
    {
        bool parked = false;
        ElementState found = {};
        const synth_code code = synth_hand_try_park(raw(), element, &parked, &found);
        return detail::state_answer(code, parked, found);
    }

    /// Gives an element that this hand holds to another hand of the same thread and table: a stop and a park by this
    /// hand, and then a start by `receiver`. It is no atomic step, as synthesis.h explains. EmptyHandle: either one, or
    /// they are one hand; BadNumber; NotHeld; OtherObject, if it is found out; Stopped: the stop bit was set already;
    /// Lost: another hand cleared it, and this hand holds the element still; Taken: another hand started the element
    /// first, so neither of the two holds it.
    Code give(Hand &receiver, std::uint32_t element) noexcept
    {
        return detail::as_code(synth_hand_give(raw(), receiver.raw(), element));
    }

    /// Makes a signal of an element pending. The value is whether it was not pending before. EmptyHandle; BadNumber.
    Expected<bool> signal(std::uint32_t element, std::uint32_t signal) noexcept
    {
        bool raised = false;
        const synth_code code = synth_hand_signal(raw(), element, signal, &raised);
        return detail::value_of(code, raised);
    }

    /// The mask of the pending signals of an element, wherever it is. They stay pending. EmptyHandle; BadNumber.
    Expected<std::uint32_t> pending(std::uint32_t element) const noexcept
    {
        std::uint32_t signals = 0;
        const synth_code code = synth_hand_pending(raw(), element, &signals);
        return detail::value_of(code, signals);
    }

    /// One try to take the pending signals of an element, bit s for signal s. EmptyHandle; BadNumber; NotHeld; Lost.
    StateAnswer<std::uint16_t> try_deliver(std::uint32_t element) noexcept
    {
        std::uint32_t signals = 0;
        ElementState found = {};
        const synth_code code = synth_hand_try_deliver(raw(), element, &signals, &found);
        return detail::state_answer(code, static_cast<std::uint16_t>(signals), found);
    }

    /// Ends the table by a hand to which all others were joined, and empties it. EmptyHandle; Open.
    Expected<HandTotals> finish() noexcept
    {
        synth_hand_totals given = {};
        HandTotals totals = {};
        const synth_code code = synth_hand_finish(raw(), &given);
        if (code != SYNTH_OK) {
            return detail::as_code(code);
        }
        for (std::size_t i = 0; i < totals.places.size(); i++) {
            totals.places[i] = detail::place_of(given.place[i]);
            totals.pc[i] = given.pc[i];
            totals.pending[i] = given.pending[i];
        }
        totals.stops = given.stops;
        return totals;
    }
};

} // namespace synthesis

#endif
