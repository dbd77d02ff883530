/*
 * The classes of synthesis.hpp: the example of its head; what each call answers, a row each; moves; waits whose time is
 * over; and what doesn't compile. Status 1: a row differs.
 */
#include "synthesis.hpp"
#include "rows.h"
#include <atomic>
#include <cstdio>
#include <cstdlib>
#include <string_view>
#include <thread>
#if defined(__has_include) && __cplusplus >= 202002L
#if __has_include(<span>)
#include <span>
#endif
#endif

using namespace std::chrono_literals;
using synthesis::BatchEnd;
using synthesis::Code;
using synthesis::Hand;
using synthesis::QueueEnd;
using synthesis::QueueOf;
using synthesis::Seat;
using synthesis::View;

namespace {

/*
 * What doesn't compile: a copy of an end; a truth that is taken for success; a buffer over constant or other elements.
 * With -Werror also an answer that is dropped, such as `end.try_put(1);` or `end.join(std::move(other));`.
 */
template <class End>
constexpr bool moves_only = !std::is_copy_constructible_v<End> && !std::is_copy_assignable_v<End> &&
                            std::is_nothrow_move_constructible_v<End> && std::is_nothrow_move_assignable_v<End> &&
                            std::is_nothrow_default_constructible_v<End>;
static_assert(moves_only<QueueEnd> && moves_only<QueueOf<int>> && moves_only<Seat> && moves_only<Hand>);
static_assert(moves_only<BatchEnd> && moves_only<synthesis::BatchOf<char>> && moves_only<synthesis::ChainEnd>);
static_assert(moves_only<synthesis::LineIn> && moves_only<synthesis::LineOut>);
static_assert(!std::is_copy_constructible_v<synthesis::Event> && !std::is_move_constructible_v<synthesis::Event>);
static_assert(!std::is_copy_constructible_v<synthesis::Event::Ticket>);
static_assert(!std::is_constructible_v<bool, synthesis::Expected<bool>>);
static_assert(std::is_constructible_v<bool, synthesis::Expected<std::uint8_t>>);
static_assert(!std::is_convertible_v<synthesis::Expected<std::uint8_t>, bool>);
static_assert(!std::is_constructible_v<bool, synthesis::StateAnswer<bool>>);
static_assert(!std::is_constructible_v<View<std::uint64_t>, const std::vector<std::uint64_t> &>);
static_assert(!std::is_constructible_v<View<const std::uint64_t>, std::vector<std::uint32_t> &>);
static_assert(!std::is_constructible_v<View<const std::uint64_t>, int>);
static_assert(std::is_convertible_v<View<std::uint64_t>, View<const std::uint64_t>>);
static_assert(!std::is_convertible_v<View<const std::uint64_t>, View<std::uint64_t>>);
static_assert(sizeof(QueueEnd) == sizeof(synth_queue) && sizeof(Hand) == sizeof(synth_hand));
static_assert(sizeof(BatchEnd) == sizeof(synth_batch));

/* The number in a field of an answer; -1 if it is empty. */
template <class T> long long number_in(const std::optional<T> &number)
{
    return number ? static_cast<long long>(*number) : -1;
}

/* The example at the head of synthesis.hpp. */
bool passes_a_thousand(std::uint64_t &sum)
{
    synthesis::QueueEvents events;
    synthesis::QueueEnd end = synthesis::QueueEnd::make(64).value();
    synthesis::QueueEnd other = end.split().value();
    std::thread putter([&other, &events] {
        for (std::uint64_t item = 0; item < 1000 && other.put_wait(item, events); item++) {}
        if (other.shut() == synthesis::Code::Ok) events.notify_all();
    });
    while (auto taken = end.take_wait(events, std::chrono::seconds(9))) sum += *taken.item;
    putter.join();
    if (end.join(std::move(other)) != synthesis::Code::Ok) return false;
    auto totals = end.finish();
    return totals.ok() && totals->put == 1000 && totals->taken == 1000 && totals->left.empty();
}

/* The code of the C header that has this name here. The compiler refuses a switch that lacks a code. */
std::string_view name_of(synth_codes code)
{
    switch (code) {
#define CODE(cxx, c)                                                                                                   \
    case SYNTH_##c: static_assert(static_cast<int>(Code::cxx) == SYNTH_##c); return "SYNTH_" #c
        CODE(Ok, OK);
        CODE(NoItems, NO_ITEMS);
        CODE(TooLong, TOO_LONG);
        CODE(Closed, CLOSED);
        CODE(Spent, SPENT);
        CODE(Full, FULL);
        CODE(Lost, LOST);
        CODE(Empty, EMPTY);
        CODE(Moved, MOVED);
        CODE(Busy, BUSY);
        CODE(Vacant, VACANT);
        CODE(NoRoom, NO_ROOM);
        CODE(Open, OPEN);
        CODE(NotHeld, NOT_HELD);
        CODE(NotServed, NOT_SERVED);
        CODE(AllWoken, ALL_WOKEN);
        CODE(Stopped, STOPPED);
        CODE(Taken, TAKEN);
        CODE(Broken, BROKEN);
        CODE(Run, RUN);
        CODE(Left, LEFT);
        CODE(Note, NOTE);
        CODE(Again, AGAIN);
        CODE(Running, RUNNING);
        CODE(NotRunning, NOT_RUNNING);
        CODE(NoMemory, NO_MEMORY);
        CODE(EmptyHandle, EMPTY_HANDLE);
        CODE(FullHandle, FULL_HANDLE);
        CODE(OtherObject, OTHER_OBJECT);
        CODE(NoShare, NO_SHARE);
        CODE(ShortBuffer, SHORT_BUFFER);
        CODE(BadNumber, BAD_NUMBER);
#undef CODE
    }
    return "not a code";
}

void codes()
{
    for (int code = SYNTH_BAD_NUMBER; code <= SYNTH_NOT_RUNNING; code++) {
        ROW(name(static_cast<Code>(code)) == name_of(static_cast<synth_codes>(code)), true);
    }
    ROW(name(static_cast<Code>(SYNTH_BAD_NUMBER - 1)) == std::string_view("not a code"), true);
    ROW(name(static_cast<Code>(99)) == std::string_view("not a code"), true);
    for (int code = SYNTH_BAD_NUMBER - 1; code <= SYNTH_NOT_RUNNING + 1; code++) {
        ROW(name(static_cast<Code>(code)) == std::string_view(synth_code_name(code)), true);
        const bool has_text = synth_code_text(code) != std::string_view("not a code");
        ROW(has_text, name(static_cast<Code>(code)) != std::string_view("not a code"));
    }
}

void views()
{
    std::uint64_t plain[3] = {1, 2, 3};
    std::array<std::uint64_t, 2> array = {4, 5};
    const std::vector<std::uint64_t> list = {6, 7, 8, 9};
    ROW(View<std::uint64_t>(plain).size(), 3);
    ROW(View<std::uint64_t>(array).size(), 2);
    ROW(View<const std::uint64_t>(list)[3], 9);
    ROW(View<const std::uint64_t>(plain, 2).size(), 2);
    ROW(View<const std::uint64_t>().empty(), true);
    View<std::uint64_t>{plain}[1] = 20;
    std::uint64_t sum = 0;
    for (std::uint64_t item : View<const std::uint64_t>(View<std::uint64_t>(plain))) {
        sum += item;
    }
    ROW(sum, 24);
    ROW(View<const std::uint64_t>(list).first(2).end() == list.data() + 2, true);
#ifdef __cpp_lib_span
    const std::span<const std::uint64_t> span(list);
    ROW(View<const std::uint64_t>(span).data() == list.data(), true);
    ROW((std::span<const std::uint64_t>(View<const std::uint64_t>(list)).size()), 4);
#endif
}

void expected_values()
{
    synthesis::Expected<int> value(5), refusal(Code::NoMemory);
    ROW(value.ok() && value && *value == 5 && value.value() == 5 && value.value_or(6) == 5, true);
    ROW(value.code(), Code::Ok);
    ROW(refusal.ok() || refusal, false);
    ROW(refusal.code(), Code::NoMemory);
    ROW(refusal.value_or(6), 6);
    synthesis::Expected<bool> no(false);
    ROW(no.ok(), true);
    ROW(no.value(), false);
}

void limits()
{
    static_assert(synthesis::Limit(3ms).nanoseconds() == 3000000);
    static_assert(synthesis::Limit(-3h).nanoseconds() == 0);
    static_assert(synthesis::Limit(std::chrono::hours::max()).nanoseconds() == INT64_MAX);
    static_assert(synthesis::Limit(std::chrono::hours::min()).nanoseconds() == 0);
    static_assert(synthesis::Limit().nanoseconds() == SYNTH_EVENT_NO_LIMIT);
    ROW(synthesis::Limit(0.5s).nanoseconds(), 500000000);
    ROW(synthesis::Limit(std::chrono::duration<float, std::nano>(7)).nanoseconds(), 7);
}

/* Each call on an end that is empty. */
void empty_batch()
{
    BatchEnd none, full = BatchEnd::make(4).value();
    std::uint64_t room[4] = {99};
    synthesis::QueueEvents events;
    ROW(none.full(), false);
    ROW(none.split().code(), Code::EmptyHandle);
    ROW(none.join(std::move(full)), Code::EmptyHandle);
    ROW(full.join(std::move(none)), Code::EmptyHandle);
    ROW(full.join(std::move(full)), Code::EmptyHandle);
    ROW(full.full(), true);
    ROW(none.try_put(1).code, Code::EmptyHandle);
    ROW(none.try_put({}).code, Code::EmptyHandle);
    ROW(none.try_put_some({1, 2}).code, Code::EmptyHandle);
    ROW(none.try_take(room).code, Code::EmptyHandle);
    ROW(none.try_take_some(room).code, Code::EmptyHandle);
    ROW(none.put_wait(View<const std::uint64_t>(room), events).code, Code::EmptyHandle);
    ROW(none.take_wait(room, events).code, Code::EmptyHandle);
    ROW(none.put_some_wait(View<const std::uint64_t>(room), events).code, Code::EmptyHandle);
    ROW(none.take_some_wait(room, events).code, Code::EmptyHandle);
    ROW(none.len().code(), Code::EmptyHandle);
    ROW(none.look().code(), Code::EmptyHandle);
    ROW(none.capacity().code(), Code::EmptyHandle);
    ROW(none.shut(), Code::EmptyHandle);
    ROW(none.finish(room).code(), Code::EmptyHandle);
    ROW(none.finish().code(), Code::EmptyHandle);
    none.free();
    ROW(room[0], 99);
}

void batch_puts()
{
    ROW(BatchEnd::make(0).code(), Code::BadNumber);
    ROW(BatchEnd::make(9).code(), Code::BadNumber);
    ROW(BatchEnd::make(33554432).code(), Code::BadNumber);
    ROW(BatchEnd::make(1).value().capacity().value(), 1);
    BatchEnd end = BatchEnd::make(8).value();
    std::uint64_t room[9] = {};
    ROW(end.capacity().value(), 8);
    ROW(end.try_put({}).code, Code::NoItems);
    ROW(end.try_put_some({}).code, Code::NoItems);
    ROW(end.try_put_some(View<const std::uint64_t>()).code, Code::NoItems);
    ROW(end.try_put(std::vector<std::uint64_t>(9)).code, Code::TooLong);
    ROW(end.try_put({7, 8}).count, 2);
    ROW(end.try_take(room).count, 2);
    auto put = end.try_put({1, 2, 3});
    ROW(put && put.count == 3 && !put.full && !put.lost, true);
    ROW(number_in(put.position), 2);
    auto full = end.try_put(View<const std::uint64_t>(room, 6));
    ROW(full.code, Code::Full);
    ROW(!full && full.count == 0 && !full.position && !full.lost && full.full, true);
    ROW(full.full->head == 5 && full.full->tail == 2, true);
    ROW(number_in(end.try_put(4).position), 5);
    ROW(number_in(end.try_put(true).position), 6);
    ROW(end.len().value(), 5);
    ROW(end.look().value().head - end.look().value().tail == 5 && !end.look().value().shut, true);
    auto some = end.try_put_some({21, 22, 23, 24, 25, 26, 27, 28, 29});
    ROW(some && some.count == 3 && number_in(some.position) == 7, true);
    ROW(end.try_put_some({1}).code, Code::Full);
    ROW(end.try_put_some({1}).full->head, 10);
    ROW(end.try_put_some({1}).count, 0);
    ROW(end.len().value(), 8);
    ROW(end.shut(), Code::Ok);
    ROW(end.shut(), Code::Closed);
    auto closed_put = end.try_put(1);
    ROW(closed_put.code, Code::Closed);
    ROW(closed_put || closed_put.position || closed_put.full || closed_put.lost, false);
    ROW(end.try_put_some({1}).code, Code::Closed);
    ROW(end.finish(View<std::uint64_t>(room, 7)).code(), Code::ShortBuffer);
    auto totals = end.finish(room);
    ROW(totals && totals->put == 10 && totals->taken == 2 && totals->left == 8, true);
    ROW(room[0] == 1 && room[2] == 3 && room[3] == 4 && room[4] == 1 && room[5] == 21 && room[7] == 23, true);
    ROW(end.full(), false);
    ROW(end.finish(room).code(), Code::EmptyHandle);
}

void batch_takings()
{
    BatchEnd end = BatchEnd::make(8).value(), other = end.split().value();
    std::array<std::uint64_t, 8> room = {};
    const View<std::uint64_t> view(room);
    auto none = end.try_take(room);
    ROW(none.code, Code::Empty);
    ROW(!none && none.count == 0 && !none.lost && !none.oldest && none.empty && none.empty->tail == 0, true);
    ROW(end.try_take_some(room).code, Code::Empty);
    ROW(other.try_put({1, 2, 3}).code, Code::Ok);
    ROW(other.try_put({4, 5}).code, Code::Ok);
    ROW(other.try_put({6}).code, Code::Ok);
    auto too_short = end.try_take(view.first(2));
    ROW(too_short.code, Code::ShortBuffer);
    ROW(!too_short && too_short.count == 0 && !too_short.empty && !too_short.lost && too_short.oldest, true);
    ROW(too_short.oldest->tail == 0 && too_short.oldest->count == 3 && room[0] == 0, true);
    ROW(end.try_take_some({}).code, Code::ShortBuffer);
    auto whole = end.try_take(view.first(4));
    ROW(whole && whole.count == 3 && !whole.empty && !whole.lost && !whole.oldest, true);
    ROW(room[0] == 1 && room[2] == 3 && room[3] == 0, true);
    auto part = other.try_take_some(view.first(1));
    ROW(part && part.count == 1 && room[0] == 4 && room[1] == 2, true);
    ROW(end.try_take({}).oldest->count, 1);
    ROW(end.try_take({}).oldest->tail, 4);
    auto rest = other.try_take(room);
    ROW(rest && rest.count == 2 && room[0] == 5 && room[1] == 6, true);
    ROW(end.try_take(room).empty->tail, 6);
    ROW(end.try_take_some(room).empty->tail, 6);
    ROW(end.try_put({7, 8, 9}).code, Code::Ok);
    ROW(end.try_take_some(room).count, 3);
    ROW(end.try_put({10, 11}).code, Code::Ok);
    ROW(end.finish().code(), Code::Open);
    ROW(end.full() && end.join(std::move(other)) == Code::Ok, true);
    ROW(other.full(), false);
    ROW(end.shut(), Code::Ok);
    ROW(end.try_take(view.first(1)).code, Code::ShortBuffer);
    auto totals = end.finish();
    ROW(totals && totals->put == 11 && totals->taken == 9, true);
    ROW(totals->left == std::vector<std::uint64_t>({10, 11}), true);
    BatchEnd shut = BatchEnd::make(8).value();
    ROW(shut.shut(), Code::Ok);
    auto over = shut.try_take(room);
    ROW(over.code, Code::Closed);
    ROW(over || over.count != 0 || over.empty || over.lost || over.oldest, false);
    ROW(shut.try_take_some({}).code, Code::Closed);
    auto all = shut.finish();
    ROW(all && all->put == 0 && all->taken == 0 && all->left.empty(), true);
}

/* Queues of which an end was freed are given up. */
void abandoned()
{
    std::uint64_t room[4] = {};
    ROW(BatchEnd().abandon(room).code(), Code::EmptyHandle);
    ROW(QueueEnd().abandon(room).code(), Code::EmptyHandle);
    BatchEnd batch = BatchEnd::make(8).value(), lost = batch.split().value();
    ROW(lost.try_put({1, 2, 3, 4, 5}).code, Code::Ok);
    lost.free();
    ROW(batch.finish().code(), Code::Open);
    ROW(batch.abandon(room).value(), 4);
    ROW(room[0] == 1 && room[3] == 4 && !batch.full(), true);
    QueueEnd queue = QueueEnd::make(64).value(), other = queue.split().value();
    ROW(other.try_put({6, 7}).code, Code::Ok);
    ROW(queue.abandon(room).value(), 2);
    ROW(room[0] == 6 && room[1] == 7 && !queue.full(), true);
    ROW(other.shut(), Code::Closed);
    ROW(other.abandon({}).value(), 0);
    ROW(other.full(), false);
}

/* The calls that take a const end. */
void of_const_ends()
{
    BatchEnd end = BatchEnd::make(8).value();
    const BatchEnd &batch = end;
    ROW(batch.len().value() == 0 && batch.capacity().value() == 8 && batch.raw()->full, true);
    Hand mine = Hand::make().value();
    const Hand &hand = mine;
    ROW(hand.holds(0).value() || !hand.serves(7).value() || hand.ticket(2).value() != 0, false);
    ROW(hand.on_processor(0).code(), Code::Vacant);
    ROW(hand.pc(0).code(), Code::NotHeld);
}

/* Answers that one thread doesn't get: of a race, and of a queue after 146 years. */
void batch_answers()
{
    const synth_positions at = {5000000000, 6000000000};
    const auto lost_put = synthesis::detail::batch_put_answer(SYNTH_LOST, 3, at);
    ROW(lost_put.code, Code::Lost);
    ROW(!lost_put && lost_put.count == 0 && !lost_put.position && !lost_put.full && lost_put.lost, true);
    ROW(lost_put.lost->head, 5000000000);
    const auto spent = synthesis::detail::batch_put_answer(SYNTH_SPENT, 3, at);
    ROW(spent.code, Code::Spent);
    ROW(spent || spent.count != 0 || spent.position || spent.full || spent.lost, false);
    ROW(synthesis::detail::batch_put_answer(SYNTH_FULL, 3, at).full->tail, 6000000000);
    ROW(number_in(synthesis::detail::batch_put_answer(SYNTH_OK, 3, at).position), 5000000000);
    const auto lost_take = synthesis::detail::batch_take_answer(SYNTH_LOST, 3, at.tail);
    ROW(lost_take.code, Code::Lost);
    ROW(!lost_take && lost_take.count == 0 && !lost_take.empty && !lost_take.oldest && lost_take.lost, true);
    ROW(lost_take.lost->tail, 6000000000);
    ROW(synthesis::detail::batch_take_answer(SYNTH_EMPTY, 3, at.tail).empty->tail, 6000000000);
    ROW(synthesis::detail::batch_take_answer(SYNTH_SHORT_BUFFER, 3, at.tail).oldest->tail, 6000000000);
}

/* Moves of an end: each queue goes with its last end, which valgrind sees. */
void batch_moves()
{
    BatchEnd a = BatchEnd::make(8).value(), b = BatchEnd::make(16).value();
    std::uint64_t room[16];
    ROW(a.try_put(1).code, Code::Ok);
    BatchEnd moved(std::move(a));
    ROW(moved.full() && !a.full(), true);
    b = std::move(moved);
    ROW(b.full() && !moved.full() && b.capacity().value() == 8, true);
    ROW(b.try_take(room).count == 1 && room[0] == 1, true);
    BatchEnd &same = b;
    b = std::move(same);
    ROW(b.full(), true);
    a = b.split().value();
    std::swap(a, b);
    ROW(a.full() && b.full(), true);
    b = BatchEnd();
    ROW(b.full(), false);
    ROW(a.finish().code(), Code::Open);
    BatchEnd stranger = BatchEnd::make(8).value();
    ROW(a.join(std::move(stranger)), Code::OtherObject);
    ROW(stranger.full(), true);
    BatchEnd adopted = BatchEnd::adopt(stranger.release());
    ROW(adopted.full() && !stranger.full(), true);
    ROW(synth_batch_free(adopted.raw()), SYNTH_OK);
    ROW(adopted.full(), false);
    std::array<BatchEnd, 64> chain;
    std::size_t last = 0;
    chain[0] = BatchEnd::make(1).value();
    for (auto next = chain[0].split(); next; next = chain[last].split()) {
        chain[++last] = std::move(*next);
    }
    ROW(last, 22);
    ROW(chain[last].split().code(), Code::NoShare);
}

/* Waits whose time is over, and those that end at once. */
void batch_waits()
{
    synthesis::QueueEvents events;
    BatchEnd end = BatchEnd::make(4).value();
    std::array<std::uint64_t, 4> room = {};
    const std::vector<std::uint64_t> three = {1, 2, 3};
    const auto begun = std::chrono::steady_clock::now();
    ROW(end.take_wait(room, events, 20ms).code, Code::Empty);
    ROW(std::chrono::steady_clock::now() - begun >= 20ms, true);
    ROW(end.put_wait({}, events).code, Code::NoItems);
    ROW(end.put_wait(std::vector<std::uint64_t>(5), events).code, Code::TooLong);
    ROW(number_in(end.put_wait(three, events).position), 0);
    ROW(end.put_wait(three, events, 1500us).full->head, 3);
    ROW(end.take_wait(View<std::uint64_t>(room).first(2), events).oldest->count, 3);
    ROW(end.take_wait(room, events, 0s).count == 3 && room[2] == 3, true);
    ROW(end.put_wait(three, events).count, 3);
    ROW(end.shut(), Code::Ok);
    ROW(end.put_wait(three, events).code, Code::Closed);
    ROW(end.take_wait(room, events).count, 3);
    ROW(end.take_wait(room, events).code, Code::Closed);
    ROW(events.items.raw()->waiters.load() + events.places.raw()->waiters.load(), 0);
}

/* Each call on an end that is empty. */
void empty_queue()
{
    QueueEnd none, full = QueueEnd::make(64).value();
    std::uint64_t room[1] = {99};
    ROW(none.full(), false);
    ROW(none.split().code(), Code::EmptyHandle);
    ROW(none.join(std::move(full)), Code::EmptyHandle);
    ROW(full.join(std::move(none)), Code::EmptyHandle);
    ROW(full.join(std::move(full)), Code::EmptyHandle);
    ROW(full.full(), true);
    ROW(none.try_put(1).code, Code::EmptyHandle);
    ROW(none.try_take().code, Code::EmptyHandle);
    ROW(none.take_up_to(room).code, Code::EmptyHandle);
    ROW(none.try_take_line(room).code, Code::EmptyHandle);
    ROW(none.shut(), Code::EmptyHandle);
    ROW(none.finish(room).code(), Code::EmptyHandle);
    ROW(none.finish().code(), Code::EmptyHandle);
    none.free();
    ROW(room[0], 99);
}

void queue_puts()
{
    ROW(QueueEnd::make(65).code(), Code::BadNumber);
    QueueEnd end = QueueEnd::make(64, 5).value();
    const std::vector<std::uint64_t> run(62);
    ROW(end.try_put({}).code, Code::NoItems);
    ROW(end.try_put(View<const std::uint64_t>()).code, Code::NoItems);
    ROW(end.try_put(std::vector<std::uint64_t>(65)).code, Code::TooLong);
    auto put = end.try_put({1, 10, 3});
    ROW(put && !put.full && !put.lost, true);
    ROW(number_in(put.position), 5);
    auto full = end.try_put(run);
    ROW(full.code, Code::Full);
    ROW(!full && !full.position && !full.lost && full.full, true);
    ROW(full.full->head == 8 && full.full->tail == 5, true);
    ROW(number_in(end.try_put(4).position), 8);
    ROW(number_in(end.try_put(true).position), 9);
    ROW(end.shut(), Code::Ok);
    ROW(end.shut(), Code::Closed);
    ROW(end.try_put(1).code, Code::Closed);
    std::uint64_t room[64];
    ROW(end.finish(View<std::uint64_t>(room, 63)).code(), Code::ShortBuffer);
    auto totals = end.finish(room);
    ROW(totals && totals->first == 5 && totals->put == 5 && totals->taken == 0 && totals->left == 5, true);
    ROW(room[0] == 1 && room[1] == 10 && room[2] == 3 && room[3] == 4 && room[4] == 1, true);
    ROW(end.full(), false);
    end = QueueEnd::make(64, UINT32_MAX - 1).value();
    ROW(end.try_put({1, 2}).code, Code::Spent);
}

void queue_takings()
{
    QueueEnd end = QueueEnd::make(256, 3).value(), other = end.split().value();
    std::array<std::uint64_t, 256> room = {};
    auto none = end.try_take();
    ROW(none.code, Code::Empty);
    ROW(!none && !none.item && !none.lost && none.empty && none.empty->tail == 3, true);
    auto no_run = end.take_up_to(room);
    ROW(no_run.code, Code::Empty);
    ROW(no_run.count == 0 && !no_run.stopped_at && no_run.empty && no_run.empty->tail == 3, true);
    ROW(end.take_up_to({}).code, Code::ShortBuffer);
    ROW(end.try_take_line(View<std::uint64_t>(room.data(), 255)).code, Code::ShortBuffer);
    ROW(end.try_put({1, 2, 10, 4, 5, 6}).code, Code::Ok);
    auto one = other.try_take();
    ROW(one && !one.empty && number_in(one.item) == 1, true);
    auto line = other.try_take_line(room);
    ROW(line && line.count == 2 && room[0] == 2 && room[1] == 10, true);
    ROW(other.try_take_line(room).code, Code::Empty);
    auto whole = end.take_up_to(View<std::uint64_t>(room).first(1));
    ROW(whole && whole.count == 1 && room[0] == 4 && !whole.stopped_at, true);
    auto part = end.take_up_to(room);
    ROW(part && part.count == 2 && room[1] == 6 && number_in(part.stopped_at) == 9, true);
    ROW(end.try_put(7).code, Code::Ok);
    ROW(end.finish().code(), Code::Open);
    ROW(end.join(std::move(other)), Code::Ok);
    ROW(other.full(), false);
    ROW(end.shut(), Code::Ok);
    auto totals = end.finish();
    ROW(totals && totals->first == 3 && totals->put == 7 && totals->taken == 6, true);
    ROW(totals->left.size() == 1 && totals->left[0] == 7, true);
    QueueEnd shut = QueueEnd::make(64).value();
    ROW(shut.shut(), Code::Ok);
    ROW(shut.try_take().code, Code::Closed);
    ROW(shut.take_up_to(room).code, Code::Closed);
}

/* Moves of an end: each object goes with its last end, which valgrind sees. */
void moves()
{
    QueueEnd a = QueueEnd::make(64).value(), b = QueueEnd::make(64, 9).value();
    ROW(a.try_put(1).code, Code::Ok);
    QueueEnd moved(std::move(a));
    ROW(moved.full() && !a.full(), true);
    b = std::move(moved);
    ROW(b.full() && !moved.full(), true);
    ROW(number_in(b.try_take().item), 1);
    QueueEnd &same = b;
    b = std::move(same);
    ROW(b.full(), true);
    a = b.split().value();
    std::swap(a, b);
    ROW(a.full() && b.full(), true);
    b = QueueEnd();
    ROW(b.full(), false);
    ROW(a.finish().code(), Code::Open);
    QueueEnd stranger = QueueEnd::make(64).value();
    ROW(a.join(std::move(stranger)), Code::OtherObject);
    ROW(stranger.full(), true);
    std::vector<QueueEnd> ends(2);
    ends.push_back(std::move(stranger));
    ends.insert(ends.begin(), a.split().value());
    ROW(ends[0].full() && !ends[1].full() && ends[3].full(), true);
    QueueEnd adopted = QueueEnd::adopt(ends[3].release());
    ROW(adopted.full() && !ends[3].full(), true);
    ROW(synth_queue_free(adopted.raw()), SYNTH_OK);
    ROW(adopted.full(), false);
}

enum class Colour : std::uint8_t { Red = 1, Blue = 200 };
struct Pair {
    std::int32_t left;
    std::int16_t right;
};

void queue_of_values()
{
    auto colours = QueueOf<Colour>::make(64).value();
    ROW(colours.try_put(Colour::Blue).code, Code::Ok);
    ROW(colours.try_take().item == Colour::Blue, true);
    ROW(QueueOf<Colour>::make(1).code(), Code::BadNumber);
    auto pairs = QueueOf<Pair>::make(256).value();
    auto other = pairs.split().value();
    const std::vector<Pair> three = {{-1, -2}, {3, 4}, {5, 6}};
    ROW(other.try_put(three).code, Code::Ok);
    ROW(other.try_put(View<const Pair>()).code, Code::NoItems);
    ROW(other.try_put(std::vector<Pair>(257)).code, Code::TooLong);
    ROW(other.try_put(std::vector<Pair>(2000000)).code, Code::TooLong);
    ROW(other.try_put(std::vector<Pair>(254)).full->tail, 0);
    ROW(other.try_take().item->left, -1);
    std::array<Pair, 300> room = {};
    auto run = pairs.take_up_to(View<Pair>(room).first(1));
    ROW(run.count == 1 && room[0].left == 3 && room[0].right == 4, true);
    ROW(pairs.shut(), Code::Ok);
    ROW(pairs.finish().code(), Code::Open);
    ROW(pairs.join(std::move(other)), Code::Ok);
    ROW(other.full() || other.try_take().item, false);
    ROW(other.try_put(three).code, Code::EmptyHandle);
    ROW(other.try_put(std::vector<Pair>(257)).code, Code::EmptyHandle);
    auto totals = pairs.finish();
    ROW(totals && totals->put == 3 && totals->left.size() == 1 && totals->left[0].right == 6, true);
    int number = 7;
    auto pointers = QueueOf<int *>::make(64).value();
    ROW(pointers.try_put(&number).code, Code::Ok);
    ROW(*pointers.try_take().item.value() == 7, true);
    ROW(pointers.take_up_to({}).code, Code::ShortBuffer);
    auto words = QueueOf<std::uint64_t>::make(64).value();
    ROW(words.try_put({}).code, Code::NoItems);
    ROW(words.try_put({1, 2}).code, Code::Ok);
    ROW(words.try_put({3}).code, Code::Ok);
    ROW(number_in(words.try_take().item), 1);
    ROW(number_in(words.end().try_take().item), 2);
}

/* Batch queues of pointers, of small structs and of numbers, and the most values of a call. */
void batches_of_values()
{
    struct Point {
        float x, y;
    };
    using Points = synthesis::BatchOf<Point>;
    int numbers[3] = {7, 8, 9};
    auto pointers = synthesis::BatchOf<int *>::make(4).value(), part = pointers.split().value();
    std::array<int *, 4> taken = {};
    ROW(pointers.try_put(&numbers[0]).code, Code::Ok);
    ROW(number_in(part.try_put({&numbers[1], &numbers[2]}).position), 1);
    ROW(pointers.len().value() == 3 && pointers.capacity().value() == 4, true);
    ROW(pointers.try_put({&numbers[0], &numbers[0]}).full->head, 3);
    ROW(pointers.try_put_some({&numbers[0], &numbers[0]}).count, 1);
    ROW(*part.try_take().item.value(), 7);
    ROW(part.try_take(View<int *>(taken).first(1)).oldest->count, 2);
    ROW(part.try_take_some(View<int *>(taken).first(1)).count == 1 && *taken[0] == 8 && taken[1] == nullptr, true);
    const auto rest = pointers.try_take(taken);
    ROW(rest && rest.count == 2 && *taken[0] == 9 && taken[1] == numbers && taken[2] == nullptr, true);
    ROW(pointers.try_take(taken).empty->tail, 4);
    ROW(pointers.try_take().item.has_value(), false);
    ROW(pointers.try_take().code, Code::Empty);
    ROW(pointers.shut() == Code::Ok && part.try_put(numbers).code == Code::Closed, true);
    ROW(pointers.finish().code(), Code::Open);
    ROW(pointers.join(std::move(part)), Code::Ok);
    ROW(part.full() || part.try_take(taken).count != 0, false);
    ROW(pointers.finish()->taken, 4);
    auto points = Points::make(512).value();
    std::vector<Point> many(300, Point{1.5f, -2.5f}), few(2);
    ROW(points.try_put(many).code, Code::TooLong);
    ROW(Points().try_put(many).code, Code::EmptyHandle);
    ROW(points.try_put_some(many).count, 256);
    ROW(points.try_put(View<const Point>(many).first(256)).count, 256);
    ROW(points.try_put(few).code, Code::Full);
    ROW(points.try_take_some(many).count, 256);
    ROW(points.try_take(few).oldest->count, 256);
    ROW(points.try_take_some(few).count == 2 && few[1].x == 1.5f && few[1].y == -2.5f, true);
    ROW(points.end().try_put({UINT64_MAX}).code, Code::Ok);
    const auto totals = points.finish();
    ROW(totals && totals->put == 513 && totals->taken == 258 && totals->left.size() == 255, true);
    ROW(totals->left[0].x == 1.5f && totals->left[253].y == -2.5f && totals->left[254].x != totals->left[254].x, true);
}

/* Waits of a typed end, whose time is over or not. */
void typed_waits()
{
    synthesis::QueueEvents events;
    auto end = synthesis::BatchOf<char>::make(4).value();
    std::array<char, 4> letters = {'a', 'b', 'c', 'd'};
    const View<const char> all(letters);
    ROW(end.take_wait(letters, events, 1ms).code, Code::Empty);
    ROW(end.take_some_wait(letters, events, 0s).code, Code::Empty);
    ROW(end.put_wait(all.first(3), events).count, 3);
    ROW(end.put_wait(all.first(2), events, 1ms).code, Code::Full);
    ROW(end.put_some_wait(all, events).count, 1);
    ROW(end.put_some_wait(all, events, 1ms).code, Code::Full);
    ROW(end.put_wait(View<const char>(std::vector<char>(257)), events).code, Code::TooLong);
    ROW(end.take_some_wait(View<char>(letters).first(2), events).count == 2 && letters[1] == 'b', true);
    ROW(end.take_wait(letters, events).count == 2 && letters[0] == 'c' && letters[1] == 'a', true);
    ROW(end.take_wait(events, 1ms).code, Code::Empty);
    ROW(end.put_wait('z', events).count, 1);
    ROW(end.take_wait(events).item.value(), 'z');
    ROW(end.shut(), Code::Ok);
    ROW(end.take_wait(events).code == Code::Closed && !end.take_wait(events).item, true);
    ROW(end.take_some_wait(letters, events).code, Code::Closed);
    ROW(end.put_some_wait(all, events).code, Code::Closed);
}

void seats()
{
    Seat seat = Seat::make(UINT32_MAX - 1).value(), other = seat.split().value();
    const synthesis::Alarm first = {UINT32_MAX, 9, 3}, second = {UINT32_MAX - 1, 63, 15};
    ROW(seat.tick(2, 5).value(), 0);
    ROW(other.tick(2, 1).value(), 5);
    ROW(seat.gauge(2).value() == 6 && seat.gauge(3).value() == 0, true);
    ROW(seat.gauge(8).code(), Code::BadNumber);
    ROW(seat.tick(8, 1).code(), Code::BadNumber);
    ROW(number_in(seat.try_set(first).slot), 0);
    ROW(number_in(seat.try_set(second).slot), 1);
    ROW(seat.try_set({0, 64, 0}).code, Code::BadNumber);
    auto due = seat.due();
    ROW(due && due->size() == 1 && (*due)[0].element == 63 && due->begin()->signal == 15, true);
    auto clock = seat.try_advance();
    ROW(clock && number_in(clock.clock) == UINT32_MAX && !clock.found, true);
    ROW(seat.try_advance().code, Code::Spent);
    ROW(seat.cancel(0, first).value(), true);
    ROW(seat.cancel(0, first).value(), false);
    for (std::uint32_t i = 0; i < 16; i++) {
        ROW(number_in(other.try_set(second).slot), i);
    }
    ROW(other.try_set(second).code, Code::NoRoom);
    ROW(seat.finish().code(), Code::Open);
    ROW(seat.join(std::move(other)), Code::Ok);
    auto totals = seat.finish();
    ROW(totals && totals->gauges[2] == 6 && totals->clock == UINT32_MAX && totals->alarms.size() == 16, true);
    std::size_t alarms = 0;
    for (const synthesis::Alarm &alarm : totals->alarms) {
        alarms += alarm.element == 63;
    }
    ROW(alarms, 16);
    ROW(seat.tick(0, 0).code(), Code::EmptyHandle);
    ROW(seat.gauge(0).code() == Code::EmptyHandle && seat.clock().code() == Code::EmptyHandle, true);
    ROW(seat.due().code(), Code::EmptyHandle);
    ROW(seat.finish().code(), Code::EmptyHandle);
}

void chains()
{
    using synthesis::ChainEnd;
    ChainEnd end = ChainEnd::make(7).value(), other = end.split().value();
    std::vector<std::uint16_t> served;
    const auto serve = [&served](std::uint16_t note) { served.push_back(note); };
    std::uint16_t note = 0;
    ROW(end.next(note), Code::NotRunning);
    ROW(end.try_chain(1).is_runner(), true);
    const auto left = other.try_chain(2);
    ROW(left && !left.is_runner() && !left.full && !left.lost, true);
    ROW(other.serve(serve), Code::NotRunning);
    ROW(end.finish().code(), Code::Running);
    ROW(end.serve(serve), Code::Ok);
    ROW(served == std::vector<std::uint16_t>({1, 2}), true);
    ROW(end.finish().code(), Code::Open);
    ROW(end.join(std::move(other)), Code::Ok);
    const auto totals = end.finish();
    ROW(totals && totals->put == 2 && totals->run == 2, true);
    ROW(end.try_chain(1).code, Code::EmptyHandle);
    ROW(end.next(note), Code::EmptyHandle);
}

void lines()
{
    ROW(synthesis::make_line(0).code(), Code::BadNumber);
    auto [in, out] = synthesis::make_line(2).value();
    ROW(out.pop().code(), Code::Empty);
    ROW(in.push(0), Code::Ok);
    ROW(in.push(105), Code::Ok);
    ROW(in.push(33), Code::Full);
    auto byte = out.pop();
    ROW(byte && *byte == 0, true);
    std::array<std::uint8_t, 3> bytes = {7, 8, 9};
    auto pushed = in.push_some(bytes);
    ROW(pushed && *pushed == 1, true);
    ROW(in.push_some(bytes).code(), Code::Full);
    ROW(in.push_some({}).code(), Code::NoItems);
    ROW(out.pop_some({}).code(), Code::ShortBuffer);
    auto popped = out.pop_some(bytes);
    ROW(popped && *popped == 2 && bytes[0] == 105 && bytes[1] == 7 && bytes[2] == 9, true);
    ROW(out.pop_some(bytes).code(), Code::Empty);
    ROW(in.push(3), Code::Ok);
    synthesis::Line stranger = synthesis::make_line(65536).value();
    ROW(finish(std::move(in), std::move(stranger.out)).code(), Code::OtherObject);
    ROW(in.full() && stranger.out.full(), true);
    auto totals = finish(std::move(in), std::move(out));
    ROW(totals && totals->sent == 4 && totals->received == 3 && totals->left == 1, true);
    ROW(in.full() || out.full(), false);
    ROW(in.push(1), Code::EmptyHandle);
    ROW(in.push_some(bytes).code(), Code::EmptyHandle);
    ROW(out.pop_some(bytes).code(), Code::EmptyHandle);
    stranger.in = std::move(in);
    ROW(stranger.in.full(), false);
}

/* The moves of elements, and the processors. */
void hands()
{
    ROW(Hand::make(UINT32_MAX).code(), Code::BadNumber);
    Hand hand = Hand::make(100).value(), other = hand.split(1u << 3).value();
    ROW(hand.split(256).code(), Code::BadNumber);
    ROW(hand.split(1u << 3).code(), Code::NotServed);
    ROW(other.serves(3).value() && !other.serves(2).value(), true);
    ROW(hand.try_next().code, Code::Empty);
    for (std::uint32_t i = 0; i < 4; i++) {
        ROW(number_in(hand.try_free().element), i);
    }
    ROW(hand.holds(0).value(), true);
    ROW(other.holds(0).value(), false);
    ROW(hand.try_ready(0).code, Code::Ok);
    ROW(hand.try_ready(0).code, Code::NotHeld);
    ROW(number_in(other.try_next().element), 0);
    ROW(other.on_processor(3).code(), Code::Vacant);
    ROW(other.on(3, 0), Code::Ok);
    ROW(other.on(3, 1), Code::NotHeld);
    auto on = other.on_processor(3);
    ROW(on && *on == 0, true);
    ROW(other.step_done(0).value(), 1);
    ROW(other.pc(0).value(), 1);
    ROW(hand.pc(0).code(), Code::NotHeld);
    auto off = other.off(3);
    ROW(off && *off == 0, true);
    ROW(other.try_retire(0).code, Code::Ok);
    ROW(hand.try_next().code, Code::Empty);
    ROW(other.split(1u << 3).value().on(3, 0), Code::NotHeld);
}

/* Tickets, signals, stop cells and the finish. */
void hands_wait()
{
    Hand hand = Hand::make(100).value();
    for (std::uint32_t i = 0; i < 4; i++) {
        ROW(number_in(hand.try_free().element), i);
    }
    const std::uint32_t ticket = hand.ticket(2).value();
    ROW(hand.try_wait_at(0, 2, ticket).code, Code::Ok);
    ROW(hand.notify(2).value(), 101);
    auto moved = hand.try_wait_at(1, 2, ticket);
    ROW(moved.code, Code::Moved);
    ROW(!moved && !moved.lost && number_in(moved.notifies) == 1, true);
    ROW(hand.try_wait(1, 2).code, Code::Ok);
    ROW(number_in(hand.try_wake_before(2, 101).element), 0);
    ROW(hand.try_wake_before(2, 101).code, Code::AllWoken);
    ROW(number_in(hand.try_wake(2).element), 1);
    ROW(hand.try_wait(1, 16).code, Code::BadNumber);
    ROW(hand.signal(2, 5).value(), true);
    ROW(hand.signal(2, 5).value(), false);
    ROW(hand.pending(2).value(), 1u << 5);
    ROW(hand.pending(64).code(), Code::BadNumber);
    ROW(number_in(hand.try_deliver(2).value), 1 << 5);
    ROW(hand.try_start(2).value == synthesis::Started::NotStopped, true);
    ROW(number_in(hand.try_park(2).value), false);
    ROW(hand.stop(2).value(), true);
    ROW(number_in(hand.try_park(2).value), true);
    ROW(hand.try_deliver(2).code, Code::NotHeld);
    ROW(hand.try_start(2).value == synthesis::Started::Held, true);
    ROW(hand.step_done(3).value(), 1);
    ROW(hand.stop(3).value() && hand.try_park(3).ok(), true);
    ROW(hand.signal(3, 15).value() && hand.on(7, 2) == Code::Ok && hand.try_wait(0, 9).code == Code::Ok, true);
    auto totals = hand.finish();
    ROW(totals && totals->places[0].kind == synthesis::PlaceKind::Wait && number_in(totals->places[0].wait) == 9, true);
    ROW(totals->places[0].processor || totals->places[1].wait, false);
    ROW(totals->places[1].kind, synthesis::PlaceKind::Held);
    ROW(number_in(totals->places[2].processor), 7);
    ROW(totals->places[3].kind, synthesis::PlaceKind::Stopped);
    ROW(totals->places[63].kind, synthesis::PlaceKind::Free);
    ROW(totals->stops == 1u << 3 && totals->pending[3] == 1u << 15 && totals->pc[3] == 1, true);
    ROW(hand.finish().code(), Code::EmptyHandle);
}

/* An element from one hand to another. */
void hands_give()
{
    Hand hand = Hand::make().value(), other = hand.split(1u << 3).value(), stranger = Hand::make().value();
    ROW(number_in(hand.try_free().element), 0);
    ROW(hand.give(hand, 0), Code::EmptyHandle);
    Hand none;
    ROW(hand.give(none, 0), Code::EmptyHandle);
    ROW(none.give(hand, 64), Code::EmptyHandle);
    ROW(hand.give(other, 64), Code::BadNumber);
    ROW(other.give(hand, 0), Code::NotHeld);
    ROW(hand.give(stranger, 0), Code::OtherObject);
    ROW(hand.stop(0).value(), true);
    ROW(hand.give(other, 0), Code::Stopped);
    ROW(hand.try_start(0).value == synthesis::Started::Cleared, true);
    ROW(hand.give(other, 0), Code::Ok);
    ROW(other.holds(0).value() && !hand.holds(0).value(), true);
    ROW(other.give(hand, 0), Code::Ok);
    ROW(hand.join(std::move(other)), Code::Ok);
    auto totals = hand.finish();
    ROW(totals && totals->places[0].kind == synthesis::PlaceKind::Held && totals->stops == 0, true);
}

/* Waits whose time is over, by a clock that is not ours; and tickets. */
void waits_in_vain()
{
    synthesis::QueueEvents events;
    QueueEnd end = QueueEnd::make(64).value();
    const auto begun = std::chrono::steady_clock::now();
    ROW(end.take_wait(events, 20ms).code, Code::Empty);
    ROW(std::chrono::steady_clock::now() - begun >= 20ms, true);
    ROW(end.take_wait(events, -1s).code, Code::Empty);
    for (int i = 0; i < 64; i++) {
        ROW(end.put_wait(7, events).code, Code::Ok);
    }
    ROW(end.put_wait(8, events, 1500us).code, Code::Full);
    ROW(number_in(end.take_wait(events, 0s).item), 7);
    ROW(end.shut(), Code::Ok);
    ROW(end.put_wait(8, events).code, Code::Closed);
    ROW(QueueEnd().take_wait(events).code, Code::EmptyHandle);
    synthesis::Event event;
    auto ticket = event.prepare();
    event.notify_one();
    ROW(ticket.wait(), true);
    ROW(ticket.wait(), false);
    ROW(event.prepare().wait(1ms), false);
    auto kept = event.prepare();
    auto moved = std::move(kept);
    ROW(event.raw()->waiters.load(), 1);
    moved.cancel();
    ROW(event.raw()->waiters.load(), 0);
    {
        auto dropped = event.prepare();
        ROW(event.raw()->waiters.load(), 1);
    }
    ROW(event.raw()->waiters.load(), 0);
}

/* What is tried again, and how often. */
void repeated_tries()
{
    synthesis::Event event;
    int tries = 0;
    const auto lost_twice = [&tries] { return synthesis::SetAnswer{++tries < 3 ? Code::Lost : Code::NoRoom, {}, {}}; };
    ROW(synthesis::repeat(lost_twice).code, Code::NoRoom);
    ROW(tries, 3);
    const auto refused = [&tries] { return synthesis::SetAnswer{++tries < 5 ? Code::NoRoom : Code::Ok, {}, {}}; };
    ROW(event.wait_while(Code::NoRoom, {}, refused).code, Code::Ok);
    ROW(tries, 5);
    tries = 0;
    ROW(event.wait_while(Code::NoRoom, 1ms, refused).code, Code::NoRoom);
    ROW(tries, 3);
    ROW(event.raw()->waiters.load(), 0);
}

} // namespace

int main()
{
    std::uint64_t sum = 0;
    ROW(passes_a_thousand(sum), true);
    ROW(sum, 499500);
    codes();
    views();
    expected_values();
    limits();
    empty_batch();
    batch_puts();
    batch_takings();
    batch_answers();
    abandoned();
    of_const_ends();
    batch_moves();
    batch_waits();
    empty_queue();
    queue_puts();
    queue_takings();
    moves();
    queue_of_values();
    batches_of_values();
    typed_waits();
    seats();
    chains();
    lines();
    hands();
    hands_wait();
    hands_give();
    waits_in_vain();
    repeated_tries();
    return rows_end("wrappers");
}
