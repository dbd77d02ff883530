/* An event count, on which threads sleep. Include synthesis.hpp, which has the rules of all. */
#ifndef SYNTHESIS_EVENT_HPP
#define SYNTHESIS_EVENT_HPP

#include "../synthesis_event.h"
#include "answers.hpp"
#include <chrono>

namespace synthesis {

/// How long a wait may last, from a std::chrono::duration: a negative one is 0, and one of more than 292 years is that
/// long. Limit() has no end.
class Limit {
public:
    constexpr Limit() noexcept = default;

    template <class Rep, class Period>
    constexpr Limit(std::chrono::duration<Rep, Period> limit) noexcept : nanoseconds_(longest)
    {
        const double seconds = std::chrono::duration<double>(limit).count();
        if (!(seconds > 0)) {
            nanoseconds_ = 0;
        } else if (seconds < 9.2e9) {
            nanoseconds_ = std::chrono::duration_cast<std::chrono::duration<std::int64_t, std::nano>>(limit).count();
        }
    }

    /// In nanoseconds, as synthesis_event.h takes it.
    [[nodiscard]] constexpr std::int64_t nanoseconds() const noexcept { return nanoseconds_; }

private:
    static constexpr std::int64_t longest = INT64_MAX;
    std::int64_t nanoseconds_ = -1; // SYNTH_EVENT_NO_LIMIT
};

/// An event count: threads sleep on it until another one has put something. A notify that finds nobody waiting costs
/// one load. It isn't proved. synthesis_event.h says why no wake is lost.
///
/// Any thread may make any call at any time. The threads that a notify woke see all that was done before it. The
/// condition is changed and looked at by calls of this library, by SeqCst atomics, or under one lock.
///
///     waiter:   1. Event::Ticket ticket = event.prepare();   2. look again   3. if there is nothing, ticket.wait()
///     notifier: 1. put it, for all to see   2. event.notify_one(), or notify_all()
class Event {
public:
    /// An announcement of a waiter, made by prepare(). It is taken back when it goes.
    class [[nodiscard]] Ticket {
    public:
        Ticket(Ticket &&other) noexcept : event_(std::exchange(other.event_, nullptr)), number_(other.number_) {}
        Ticket &operator=(Ticket &&) = delete;
        ~Ticket() { cancel(); }

        /// Takes the announcement back.
        void cancel() noexcept
        {
            if (event_ != nullptr) {
                synth_event_cancel(std::exchange(event_, nullptr));
            }
        }

        /// Sleeps until a notify that came after the ticket: true. False if the time was over first, or the ticket
        /// was used before. Look again after both.
        bool wait(Limit limit = {}) noexcept { return wait_until(synth_event_deadline(limit.nanoseconds())); }

    private:
        friend class Event;
        explicit Ticket(synth_event *event) noexcept : event_(event), number_(synth_event_prepare(event)) {}

        bool wait_until(std::int64_t deadline) noexcept
        {
            return event_ != nullptr && synth_event_wait_until(std::exchange(event_, nullptr), number_, deadline);
        }

        synth_event *event_;
        std::uint32_t number_;
    };

    constexpr Event() noexcept = default;
    Event(const Event &) = delete;
    Event &operator=(const Event &) = delete;
    ~Event() { synth_event_destroy(&event_); }

    /// Announces a waiter. Look again after this.
    Ticket prepare() noexcept { return Ticket(&event_); }
    /// Wakes at least one of the waiters. It is enough if any of them will do, and if each passes the wake on.
    void notify_one() noexcept { synth_event_notify_one(&event_); }
    void notify_all() noexcept { synth_event_notify_all(&event_); }
    /// The event, for functions of synthesis_event.h.
    [[nodiscard]] synth_event *raw() noexcept { return &event_; }

    /// Makes an attempt, and sleeps and makes it again while its answer has this code. Once the time is over it returns
    /// such an answer. A thread that has slept, and is answered otherwise, notifies one more: the wake is passed on. So
    /// does one whose attempt throws.
    template <class Attempt>
    auto wait_while(Code refusal, Limit limit, Attempt attempt) noexcept(noexcept(attempt()))
    {
        auto answer = attempt();
        if (code_of(answer) == refusal) {
            answer = sleep_while(refusal, synth_event_deadline(limit.nanoseconds()), attempt);
        }
        return answer;
    }

private:
    /// The wake that a thread owes to others once it has slept. It is passed on when this goes, also by an exception.
    class Wake {
    public:
        explicit Wake(Event &event) noexcept : event_(event) {}
        Wake(const Wake &) = delete;
        Wake &operator=(const Wake &) = delete;
        ~Wake()
        {
            if (is_owed_) {
                event_.notify_one();
            }
        }
        void set_owed(bool is_owed) noexcept { is_owed_ = is_owed; }

    private:
        Event &event_;
        bool is_owed_ = false;
    };

    /// The rest of wait_while, once an attempt was refused.
    template <class Attempt>
    auto sleep_while(Code refusal, std::int64_t deadline, Attempt attempt) noexcept(noexcept(attempt()))
    {
        Wake wake(*this);
        for (;;) {
            Ticket ticket = prepare();
            auto answer = attempt();
            bool in_time = false;
            if (code_of(answer) == refusal) {
                in_time = ticket.wait_until(deadline);
                wake.set_owed(true);
                answer = attempt();
            }
            if (code_of(answer) != refusal) {
                return answer;
            }
            if (!in_time) {
                wake.set_owed(false);
                return answer;
            }
        }
    }

    synth_event event_ = SYNTH_EVENT_INIT;
};

/// The events of one queue: takers sleep on `items`, producers on `places`.
///
/// A put by another call than put_wait is followed by items.notify_one(), a taking by another call than take_wait by
/// places.notify_one(), of a batch queue by places.notify_all(), and a shut by notify_all().
struct QueueEvents {
    Event items;
    Event places;

    void notify_all() noexcept
    {
        items.notify_all();
        places.notify_all();
    }
};

} // namespace synthesis

#endif
