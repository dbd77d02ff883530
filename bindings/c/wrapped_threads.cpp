/*
 * Threads that use synthesis.hpp: `wrapped_threads [ITEMS]`, 100,000 if no number is given. Three producers and three
 * takers pass boxes by their addresses through one queue, first without a sleep and then with sleeps. In the same two
 * ways they pass pieces through a batch queue, each batch whole. Takers pass one wake on, also one whose look throws.
 * Puts of two lengths wait for places. Workers pass elements, each of which has a word. A thread sends bytes, each of
 * which says that a word is written. What an item, an element or a byte leads to is read and written by plain code, at
 * which ThreadSanitizer looks. Prints one line. Status 1: something was lost or came twice. A wake that is lost hangs
 * it.
 */
#include "synthesis.hpp"
#include <algorithm>
#include <atomic>
#include <cstdio>
#include <cstdlib>
#include <thread>

using namespace std::chrono_literals;
using synthesis::Code;
using synthesis::Hand;
using synthesis::View;

namespace {

enum { PRODUCERS = 3, TAKERS = 3, WORKERS = 3, ROOM = 16 };

/* What a producer writes before its put, and a taker clears. */
struct Box {
    std::uint64_t number;
};
using Boxes = synthesis::QueueOf<Box *>;

synthesis::QueueEvents events;
std::vector<Box> boxes;
std::atomic<std::uint64_t> faults;

/* Whether producers and takers sleep. If they don't, nothing orders them but the queue. */
bool sleeps;

void notify(synthesis::Event &event)
{
    if (sleeps) {
        event.notify_one();
    }
}

void must(Code code, const char *what)
{
    if (code != Code::Ok) {
        std::fprintf(stderr, "wrapped_threads: %s: %s\n", what, name(code));
        std::exit(1);
    }
}

/* The third thread of each kind doesn't wait for good: it waits 50 microseconds at a time. */
synthesis::Limit limit_of(std::size_t number)
{
    return number % 3 == 2 ? synthesis::Limit(50us) : synthesis::Limit();
}

/* Puts a run of two without a sleep. False: there was no room. */
bool has_put_two(Boxes &end, std::size_t i)
{
    const std::array<Box *, 2> two = {&boxes[i], &boxes[i + PRODUCERS]};
    const auto put = synthesis::repeat([&] { return end.try_put(two); });
    if (put) {
        notify(events.items);
    }
    return put && !put.full && !put.lost;
}

/* Puts a box, and sleeps while there is no room, or yields. */
void put_box(Boxes &end, Box *box, std::size_t number)
{
    for (;;) {
        const auto put = sleeps ? end.put_wait(box, events, limit_of(number)) : end.try_put(box);
        if (put) {
            return;
        }
        if (put.code != Code::Full && put.code != Code::Lost) {
            must(put.code, "put");
        }
        std::this_thread::yield();
    }
}

/* Each third box, beginning with one. The second producer puts two at once, if there is room. */
void put_boxes(Boxes &end, std::size_t first)
{
    for (std::size_t i = first; i < boxes.size(); i += PRODUCERS) {
        boxes[i].number = i + 1;
        if (first == 1 && i + PRODUCERS < boxes.size()) {
            boxes[i + PRODUCERS].number = i + PRODUCERS + 1;
            if (has_put_two(end, i)) {
                i += PRODUCERS;
                continue;
            }
            boxes[i + PRODUCERS].number = 0;
        }
        put_box(end, &boxes[i], first);
    }
}

/* Takes what is in a box, and leaves 0. */
std::uint64_t empty_box(Box *box)
{
    faults += box->number == 0;
    return std::exchange(box->number, 0);
}

std::uint64_t take_more(Boxes &end)
{
    std::uint64_t sum = 0;
    std::array<Box *, ROOM> taken = {};
    const auto run = end.take_up_to(taken);
    for (Box *box : View<Box *>(taken).first(run.count)) {
        sum += empty_box(box);
    }
    if (run) {
        notify(events.places);
    }
    return sum;
}

/* Takes boxes until none will ever come. The second taker takes what is there. */
void take_boxes(Boxes &end, std::size_t number, std::uint64_t &sum)
{
    for (;;) {
        const auto taken = sleeps ? end.take_wait(events, limit_of(number)) : end.try_take();
        if (taken) {
            sum += empty_box(*taken.item);
        } else if (taken.code == Code::Closed) {
            return;
        } else if (taken.code != Code::Empty && taken.code != Code::Lost) {
            must(taken.code, "take");
        } else {
            std::this_thread::yield();
        }
        sum += number == 1 ? take_more(end) : 0;
    }
}

void pass_boxes(std::uint64_t items)
{
    boxes.assign(items, Box{0});
    Boxes last = Boxes::make(64).value();
    std::array<Boxes, PRODUCERS + TAKERS> ends;
    std::array<std::uint64_t, TAKERS> sums = {};
    std::array<std::thread, PRODUCERS + TAKERS> threads;
    for (Boxes &end : ends) {
        end = last.split().value();
    }
    for (std::size_t i = 0; i < PRODUCERS; i++) {
        threads[i] = std::thread([&ends, i] { put_boxes(ends[i], i); });
    }
    for (std::size_t i = 0; i < TAKERS; i++) {
        threads[PRODUCERS + i] = std::thread([&, i] { take_boxes(ends[PRODUCERS + i], i, sums[i]); });
    }
    for (std::size_t i = 0; i < threads.size(); i++) {
        threads[i].join();
        must(last.join(std::move(ends[i])), "join");
        if (i == PRODUCERS - 1) {
            must(last.shut(), "shut");
            events.notify_all();
        }
    }
    const auto totals = last.finish();
    must(totals.code(), "finish");
    for (std::uint64_t sum : sums) {
        faults += sum;
    }
    faults -= items * (items + 1) / 2;
    for (const Box &box : boxes) {
        faults += box.number != 0;
    }
    faults += (totals->put != items) + (totals->taken != items) + totals->left.size();
    faults += events.items.raw()->waiters + events.places.raw()->waiters;
}

/* What a producer writes before its put of a batch, and a taker counts. */
struct Piece {
    std::size_t producer;
    std::size_t index;  /* in its batch */
    std::size_t length; /* of its batch */
    std::uint64_t taken;
};

enum { BATCH_PLACES = 16, LONGEST = 5 };

std::vector<Piece> pieces;

/* What is written before the shut, and read by whoever is answered Closed. */
std::uint64_t shut_word;

/* The pieces of each producer begin here. Those of PRODUCERS are none. */
std::size_t first_piece(std::size_t producer)
{
    return pieces.size() * producer / PRODUCERS;
}

/* One try to put a batch, or a wait. The third producer puts as many as there is room for: batches of no set length. */
synthesis::BatchPutAnswer put_batch(synthesis::BatchEnd &end, View<const std::uint64_t> items, std::size_t number)
{
    if (number == 2) {
        return sleeps ? end.put_some_wait(items, events, limit_of(items.size())) : end.try_put_some(items);
    }
    return sleeps ? end.put_wait(items, events, limit_of(items.size())) : end.try_put(items);
}

/* Puts batches of 1 to 5 pieces by turns. */
void put_batches(synthesis::BatchEnd &end, std::size_t number)
{
    std::array<std::uint64_t, LONGEST> items = {};
    const std::size_t last = first_piece(number + 1);
    for (std::size_t next = first_piece(number); next < last;) {
        const std::size_t length = std::min(1 + next % LONGEST, last - next);
        for (std::size_t i = 0; i < length; i++) {
            pieces[next + i] = number == 2 ? Piece{number, 0, 1, 0} : Piece{number, i, length, 0};
            items[i] = reinterpret_cast<std::uintptr_t>(&pieces[next + i]);
        }
        const auto put = put_batch(end, View<const std::uint64_t>(items.data(), length), number);
        next += put.count;
        if (put && number == 2) {
            notify(events.items);
        } else if (put) {
            faults += put.count != length;
        } else if (put.code != Code::Full && put.code != Code::Lost) {
            must(put.code, "put a batch");
        } else {
            faults += put.full.has_value() == put.lost.has_value() || (sleeps && number != 2 && put.lost);
            std::this_thread::yield();
        }
    }
}

/* Counts the pieces of a taking: whole batches alone, and those of each producer in its order. */
void count_pieces(View<std::uint64_t> items, std::array<Piece *, PRODUCERS> &before)
{
    std::size_t index = 0;
    for (std::uint64_t item : items) {
        Piece *piece = reinterpret_cast<Piece *>(static_cast<std::uintptr_t>(item));
        Piece *&last = before[piece->producer];
        faults += piece->index != index || (index > 0 ? piece != last + 1 : last != nullptr && piece <= last);
        index = piece->index + 1 < piece->length ? piece->index + 1 : 0;
        piece->taken++;
        last = piece;
    }
    faults += index != 0;
}

/* Takes batches until none will ever come. The second taker tries with little room first. */
void take_batches(synthesis::BatchEnd &end, std::size_t number)
{
    std::array<std::uint64_t, BATCH_PLACES> items = {};
    std::array<Piece *, PRODUCERS> before = {};
    std::size_t room = number == 1 ? 1 : items.size();
    for (;;) {
        const View<std::uint64_t> buffer(items.data(), room);
        const auto taken = sleeps ? end.take_wait(buffer, events, limit_of(number)) : end.try_take(buffer);
        room = number == 1 ? 1 : items.size();
        if (taken) {
            count_pieces(buffer.first(taken.count), before);
        } else if (taken.code == Code::ShortBuffer) {
            faults += taken.oldest->count <= buffer.size() || taken.oldest->count > LONGEST;
            room = taken.oldest->count;
        } else if (taken.code == Code::Closed) {
            faults += shut_word != 1;
            return;
        } else if (taken.code != Code::Empty && taken.code != Code::Lost) {
            must(taken.code, "take batches");
        } else {
            faults += taken.empty.has_value() == taken.lost.has_value() || (sleeps && taken.lost);
            std::this_thread::yield();
        }
    }
}

void pass_batches(std::uint64_t items)
{
    pieces.assign(items, Piece{0, 0, 0, 0});
    shut_word = 0;
    synthesis::BatchEnd last = synthesis::BatchEnd::make(BATCH_PLACES).value();
    std::array<synthesis::BatchEnd, PRODUCERS + TAKERS> ends;
    std::array<std::thread, PRODUCERS + TAKERS> threads;
    for (synthesis::BatchEnd &end : ends) {
        end = last.split().value();
    }
    for (std::size_t i = 0; i < PRODUCERS; i++) {
        threads[i] = std::thread([&ends, i] { put_batches(ends[i], i); });
    }
    for (std::size_t i = 0; i < TAKERS; i++) {
        threads[PRODUCERS + i] = std::thread([&ends, i] { take_batches(ends[PRODUCERS + i], i); });
    }
    for (std::size_t i = 0; i < threads.size(); i++) {
        threads[i].join();
        must(last.join(std::move(ends[i])), "join");
        if (i == PRODUCERS - 1) {
            shut_word = 1;
            must(last.shut(), "shut");
            events.notify_all();
        }
    }
    const auto totals = last.finish();
    must(totals.code(), "finish");
    for (const Piece &piece : pieces) {
        faults += piece.taken != 1;
    }
    faults += (totals->put != items) + (totals->taken != items) + totals->left.size();
    faults += events.items.raw()->waiters + events.places.raw()->waiters;
}

/* A thread puts until the queue is shut, and sees what was written before the shut. */
void pass_shut()
{
    shut_word = 0;
    synthesis::BatchEnd last = synthesis::BatchEnd::make(1).value();
    synthesis::BatchEnd other = last.split().value();
    std::thread putter([&other] {
        while (other.try_put(1).code != Code::Closed) {
            std::this_thread::yield();
        }
        faults += shut_word != 1;
    });
    shut_word = 1;
    must(last.shut(), "shut");
    putter.join();
    must(last.join(std::move(other)), "join");
    faults += !last.finish().ok();
}

void wait_for_waiters(synthesis::Event &event, std::uint32_t count)
{
    for (int yields = 0; yields < 1000 || event.raw()->waiters < count; yields++) {
        std::this_thread::yield();
    }
}

/* Takers wait, and one notify follows a run of items for all: each taker wakes the next one. */
void pass_wake_on()
{
    synthesis::QueueEnd last = synthesis::QueueEnd::make(64).value();
    std::array<synthesis::QueueEnd, TAKERS> ends;
    std::array<std::thread, TAKERS> threads;
    for (std::size_t i = 0; i < TAKERS; i++) {
        ends[i] = last.split().value();
        threads[i] = std::thread([&ends, i] { must(ends[i].take_wait(events).code, "take"); });
    }
    wait_for_waiters(events.items, TAKERS);
    must(last.try_put({1, 2, 3}).code, "put");
    events.items.notify_one();
    for (std::size_t i = 0; i < TAKERS; i++) {
        threads[i].join();
        must(last.join(std::move(ends[i])), "join");
    }
    const auto totals = last.finish();
    faults += !totals || !totals->left.empty();
}

/* A taker that is woken, and whose look then throws. */
struct Thrown {};

/* Takes an item. The first look after a sleep throws, of whichever taker it is: then it takes none. */
void take_or_throw(synthesis::QueueEnd &end, std::atomic<bool> &has_thrown)
{
    int looks = 0;
    const auto look = [&] {
        if (++looks > 2 && !has_thrown.exchange(true)) {
            throw Thrown();
        }
        return end.try_take();
    };
    try {
        must(events.items.wait_while(Code::Empty, 20s, look).code, "take");
    } catch (const Thrown &) {
        faults += looks != 3;
    }
}

/* Two takers wait for one item. A notify wakes one of them, whose look throws. It passes the wake on. */
void pass_wake_on_by_throw()
{
    synthesis::QueueEnd last = synthesis::QueueEnd::make(64).value();
    std::array<synthesis::QueueEnd, 2> ends;
    std::array<std::thread, 2> threads;
    std::atomic<bool> has_thrown(false);
    for (std::size_t i = 0; i < ends.size(); i++) {
        ends[i] = last.split().value();
        threads[i] = std::thread([&, i] { take_or_throw(ends[i], has_thrown); });
    }
    wait_for_waiters(events.items, 2);
    must(last.try_put(1).code, "put");
    events.items.notify_one();
    for (std::size_t i = 0; i < ends.size(); i++) {
        threads[i].join();
        must(last.join(std::move(ends[i])), "join");
    }
    const auto totals = last.finish();
    faults += !totals || totals->taken != 1 || !has_thrown;
    faults += events.items.raw()->waiters;
}

/* A long put waits for places, and then a short one: one place is enough for the short one. Then a taker waits. */
void pass_places_on()
{
    synthesis::BatchEnd last = synthesis::BatchEnd::make(4).value();
    synthesis::BatchEnd first = last.split().value(), second = last.split().value();
    const std::array<std::uint64_t, 4> items = {1, 2, 3, 4};
    std::array<std::uint64_t, 4> room = {};
    const View<const std::uint64_t> all(items), one = all.first(1);
    for (std::size_t i = 0; i < items.size(); i++) {
        must(last.put_wait(one, events).code, "put");
    }
    std::thread longer([&] { must(first.put_wait(all, events).code, "put"); });
    wait_for_waiters(events.places, 1);
    std::thread shorter([&] { must(second.put_wait(one, events).code, "put"); });
    wait_for_waiters(events.places, 2);
    must(last.take_wait(View<std::uint64_t>(room).first(1), events).code, "take");
    shorter.join();
    faults += last.take_wait(room, events).count != 4;
    longer.join();
    faults += last.take_wait(room, events).count != 4;
    std::thread taker([&] { faults += second.take_wait(room, events).count != 2; });
    wait_for_waiters(events.items, 1);
    must(last.put_wait(all.first(2), events).code, "put");
    taker.join();
    must(last.join(std::move(first)), "join");
    must(last.join(std::move(second)), "join");
    const auto totals = last.finish();
    faults += !totals || totals->taken != 11 || !totals->left.empty();
}

/* Whoever holds an element has its word. */
std::array<std::uint64_t, 64> words;

void work(Hand &hand, std::uint64_t turns)
{
    for (std::uint64_t i = 0; i < turns;) {
        const auto next = hand.try_next();
        if (next) {
            words[*next.element]++;
            must(synthesis::repeat([&] { return hand.try_ready(*next.element); }).code, "ready");
            i++;
        } else {
            std::this_thread::yield();
        }
    }
}

void pass_elements(std::uint64_t turns)
{
    Hand last = Hand::make().value();
    std::array<Hand, WORKERS> hands;
    std::array<std::thread, WORKERS> threads;
    for (int i = 0; i < WORKERS; i++) {
        const auto free = last.try_free();
        must(free.code, "a free element");
        must(last.try_ready(*free.element).code, "ready");
    }
    for (std::size_t i = 0; i < WORKERS; i++) {
        hands[i] = last.split(1u << i).value();
        threads[i] = std::thread([&hands, i, turns] { work(hands[i], turns); });
    }
    for (std::size_t i = 0; i < WORKERS; i++) {
        threads[i].join();
        must(last.join(std::move(hands[i])), "join");
    }
    std::uint64_t sum = 0;
    for (std::uint64_t word : words) {
        sum += word;
    }
    faults += (sum != WORKERS * turns) + !last.finish().ok();
}

/* What is sent beside each byte. */
std::vector<std::uint64_t> letters;

void send(synthesis::LineIn &in)
{
    for (std::size_t i = 0; i < letters.size(); i++) {
        letters[i] = i * i;
        while (in.push(static_cast<std::uint8_t>(i)) == Code::Full) {
            std::this_thread::yield();
        }
    }
}

void pass_bytes(std::uint64_t bytes)
{
    letters.assign(bytes, 0);
    auto [in, out] = synthesis::make_line(100).value();
    std::thread sender([half = &in] { send(*half); });
    for (std::size_t i = 0; i < letters.size(); i++) {
        auto byte = out.pop();
        while (byte.code() == Code::Empty) {
            std::this_thread::yield();
            byte = out.pop();
        }
        faults += (byte.value() != static_cast<std::uint8_t>(i)) + (letters[i] != i * i);
    }
    sender.join();
    const auto totals = finish(std::move(in), std::move(out));
    faults += !totals || totals->sent != bytes || totals->received != bytes || totals->left != 0;
}

} // namespace

int main(int count, char **words_given)
{
    const std::uint64_t items = count > 1 ? std::strtoull(words_given[1], nullptr, 10) : 100000;
    pass_boxes(items);
    pass_batches(items);
    sleeps = true;
    pass_boxes(items);
    pass_batches(items);
    for (int times = 0; times < 20; times++) {
        pass_shut();
        pass_wake_on();
        pass_wake_on_by_throw();
        pass_places_on();
    }
    pass_elements(items / 10);
    pass_bytes(items / 10);
    std::printf("wrapped_threads: %llu items, %llu faults\n", static_cast<unsigned long long>(items),
                static_cast<unsigned long long>(faults));
    return faults != 0;
}
