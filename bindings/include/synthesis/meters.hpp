/* Meters: gauges, a clock and alarms. Include synthesis.hpp, which has the rules of all. */
#ifndef SYNTHESIS_METERS_HPP
#define SYNTHESIS_METERS_HPP

#include "handles.hpp"
#include <array>
#include <cstring>

namespace synthesis {

/// An alarm of meters: `due` is a tick of the clock, `element` is 0 to 63, `signal` 0 to 15.
using Alarm = synth_alarm;

/// Up to sixteen alarms, in the order of their slots.
class Alarms {
public:
    static constexpr std::size_t most = 16;

    [[nodiscard]] std::size_t size() const noexcept { return size_; }
    [[nodiscard]] bool empty() const noexcept { return size_ == 0; }
    [[nodiscard]] const Alarm *data() const noexcept { return alarms_.data(); }
    [[nodiscard]] const Alarm *begin() const noexcept { return alarms_.data(); }
    [[nodiscard]] const Alarm *end() const noexcept { return alarms_.data() + size_; }
    [[nodiscard]] const Alarm &operator[](std::size_t index) const noexcept { return alarms_[index]; }

private:
    friend class Seat;
    std::array<Alarm, most> alarms_ = {};
    std::size_t size_ = 0;
};

/// The answer of a move of the clock.
struct [[nodiscard]] AdvanceAnswer {
    Code code;
    std::optional<std::uint32_t> clock; ///< the clock after, if it is Ok
    std::optional<std::uint32_t> found; ///< the clock found, if it is Lost

    explicit operator bool() const noexcept { return code == Code::Ok; }
};

/// The answer of a try to set an alarm.
struct [[nodiscard]] SetAnswer {
    Code code;
    std::optional<std::uint32_t> slot;      ///< by which it can be cancelled, if it is Ok
    std::optional<std::uint32_t> lost_slot; ///< which another seat took first, if it is Lost

    explicit operator bool() const noexcept { return code == Code::Ok; }
};

/// The meters at their end.
struct SeatTotals {
    std::array<std::uint64_t, 8> gauges;
    std::uint32_t clock;
    Alarms alarms; ///< those that were set still
};

/// A seat at meters: eight gauges, a clock, and sixteen slots for alarms, which any number of threads share.
///
/// A seat is used by one thread at a time; `split` makes one for another thread. What a thread did before a tick of a
/// gauge is visible to whoever ticks the gauge later. What it did before it moved the clock on is visible to whoever
/// moves it on or takes due alarms later, and what it did before it set an alarm to whoever takes the alarm out.
class Seat : public detail::Joined<Seat, synth_seat, synth_seat_free, synth_seat_join> {
public:
    Seat() noexcept = default;

    /// Meters with all gauges at 0 and no alarm, by their only seat. NoMemory.
    static Expected<Seat> make(std::uint32_t clock = 0) noexcept
    {
        return filled_by([=](synth_seat *seat) { return synth_seat_new(clock, seat); });
    }

    /// One more seat, for another thread. EmptyHandle; NoShare; NoMemory.
    Expected<Seat> split() noexcept
    {
        return filled_by([this](synth_seat *other) { return synth_seat_split(raw(), other); });
    }

    /// Adds to a gauge, 0 to 7, modulo 2^64. The value is the gauge before. EmptyHandle; BadNumber.
    Expected<std::uint64_t> tick(std::uint32_t gauge, std::uint64_t amount) noexcept
    {
        std::uint64_t before = 0;
        const synth_code code = synth_seat_tick(raw(), gauge, amount, &before);
        return detail::value_of(code, before);
    }

    /// One try to move the clock on by one tick. EmptyHandle; Spent; Lost.
    AdvanceAnswer try_advance() noexcept
    {
        std::uint32_t clock = 0;
        const synth_code code = synth_seat_try_advance(raw(), &clock);
        return {detail::as_code(code), detail::only_if<std::uint32_t>(code == SYNTH_OK, clock),
                detail::only_if<std::uint32_t>(code == SYNTH_LOST, clock)};
    }

    /// One try to set an alarm in the first empty slot. EmptyHandle; BadNumber; NoRoom; Lost.
    SetAnswer try_set(const Alarm &alarm) noexcept
    {
        std::uint32_t slot = 0;
        const synth_code code = synth_seat_try_set(raw(), &alarm, &slot);
        return {detail::as_code(code), detail::only_if<std::uint32_t>(code == SYNTH_OK, slot),
                detail::only_if<std::uint32_t>(code == SYNTH_LOST, slot)};
    }

    /// The value of a gauge, 0 to 7. EmptyHandle; BadNumber.
    Expected<std::uint64_t> gauge(std::uint32_t gauge) const noexcept
    {
        std::uint64_t value = 0;
        const synth_code code = synth_seat_gauge(raw(), gauge, &value);
        return detail::value_of(code, value);
    }

    /// The clock. EmptyHandle.
    Expected<std::uint32_t> clock() const noexcept
    {
        std::uint32_t clock = 0;
        const synth_code code = synth_seat_clock(raw(), &clock);
        return detail::value_of(code, clock);
    }

    /// Takes this alarm out of this slot. The value is whether it was there. EmptyHandle; BadNumber.
    Expected<bool> cancel(std::uint32_t slot, const Alarm &alarm) noexcept
    {
        bool cancelled = false;
        const synth_code code = synth_seat_cancel(raw(), slot, &alarm, &cancelled);
        return detail::value_of(code, cancelled);
    }

    /// Takes out each alarm that is due at the clock. EmptyHandle.
    Expected<Alarms> due() noexcept
    {
        Alarms alarms;
        const synth_code code = synth_seat_due(raw(), alarms.alarms_.data(), Alarms::most, &alarms.size_);
        return detail::value_of(code, alarms);
    }

    /// Ends the meters by a seat to which all others were joined, and empties it. EmptyHandle; Open.
    Expected<SeatTotals> finish() noexcept
    {
        synth_seat_totals given = {};
        SeatTotals totals = {};
        const synth_code code = synth_seat_finish(raw(), &given);
        if (code != SYNTH_OK) {
            return detail::as_code(code);
        }
        std::memcpy(totals.gauges.data(), given.gauges, sizeof given.gauges);
        std::memcpy(totals.alarms.alarms_.data(), given.alarm, sizeof given.alarm);
        totals.alarms.size_ = given.alarms;
        totals.clock = given.clock;
        return totals;
    }
};

} // namespace synthesis

#endif
