/*
 * The lockless tables of synthesis for C++17: a class for each handle of synthesis.h, BatchEnd, QueueEnd, ChainEnd,
 * Seat, LineIn, LineOut and Hand, and Event for the event count of synthesis_event.h. BatchOf<T> is a BatchEnd of
 * values, and QueueOf<T> a QueueEnd of values. It is a header alone. NOTHING HERE IS PROVED: it passes each call on to
 * the library, whose calls are.
 *
 * Two threads, and a queue on which they sleep. bindings/c/wrappers.cpp runs this:
 *
 *     synthesis::QueueEvents events;
 *     synthesis::QueueEnd end = synthesis::QueueEnd::make(64).value();
 *     synthesis::QueueEnd other = end.split().value();
 *     std::thread putter([&other, &events] {
 *         for (std::uint64_t item = 0; item < 1000 && other.put_wait(item, events); item++) {}
 *         if (other.shut() == synthesis::Code::Ok) events.notify_all();
 *     });
 *     while (auto taken = end.take_wait(events, std::chrono::seconds(9))) sum += *taken.item;
 *     putter.join();
 *     if (end.join(std::move(other)) != synthesis::Code::Ok) return false;
 *     auto totals = end.finish();
 *     return totals.ok() && totals->put == 1000 && totals->taken == 1000 && totals->left.empty();
 *
 * ENDS. An end owns one handle, of 16 bytes, or is empty. It can be moved, and not copied. An end that was moved from
 * is empty, and each call on an empty end answers Code::EmptyHandle. The destructor frees a full end, and so does an
 * assignment to it. An end that is freed is never joined, and its object is never finished. So join each end of a
 * thread to another one before it goes. `split` isn't const, since it writes to its end: two threads that split one end
 * do so under a lock.
 *
 * THREADS. One end is used by one thread at a time; an end has no lock. Different ends of one object are used by
 * different threads at once. Between two calls an end may go to another thread by a lock, by the start or the join of a
 * thread, by a SeqCst atomic, or by an item of a queue. No call but those named `.._wait` sleeps. Not
 * async-signal-safe, except as synthesis.h says.
 *
 * PROGRESS. Each try ends after a bounded number of its own steps, and waits for no other thread. The queues are
 * lockless, and not lock-free as Herlihy and Shavit define it: while a thread is stopped within its put, nobody gets
 * what was put after it.
 *
 * ORDER OF MEMORY. The steps of each call are sequentially consistent. All that a thread did before a put is visible to
 * the thread that takes one of its items, and all before a shut to a thread that is answered Closed. So an item may be
 * a pointer. The same holds from a push to the pop of its byte, and from the move of an element to its taking. Under
 * ThreadSanitizer synthesis.h declares these orders, so what an item leads to is not reported as a race.
 *
 * ANSWERS. Each call answers a Code: alone, in an Expected, or in a struct with named fields. A field is empty if the
 * code has no such number. After any code but Ok all is as it was. No call throws. If the memory of a std::vector is
 * refused, the code is NoMemory; a program that is built without exceptions ends.
 *
 * The ranges of numbers, and the order of the codes of each call, are those of synthesis.h.
 */
#ifndef SYNTHESIS_HPP
#define SYNTHESIS_HPP

#include "synthesis/answers.hpp"
#include "synthesis/batch.hpp"
#include "synthesis/batch_of.hpp"
#include "synthesis/chain.hpp"
#include "synthesis/event.hpp"
#include "synthesis/hand.hpp"
#include "synthesis/line.hpp"
#include "synthesis/meters.hpp"
#include "synthesis/queue.hpp"
#include "synthesis/queue_of.hpp"

#endif
