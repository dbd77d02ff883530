//! How each program boxes_* measures its channel of boxes: `ITEMS [CORE CORE [CORE CORE]]`. Two threads send a half of
//! so many boxes each, one by one, and two others receive them, each pinned to a core. Who finds none, or no room,
//! sleeps.
//!
//! Prints two rows: `boxes`, the places, and the nanoseconds from one box to the next; and `boxes-busy`, the places,
//! and how many processors were busy on average. A tenth of the boxes goes through first, and isn't counted.
//!
//! Each receiver gets the boxes of one sender in their order, and all add up. Status 1: a box was lost, came twice or
//! came out of order.

use std::env;
use std::error::Error;
use std::sync::atomic::{fence, Ordering};
use std::sync::Barrier;
use std::thread;

pub use synthesis_kernel::Event;

use crate::machine::{busy_time, elapsed, pin};
use crate::{must, PLACES};

/// So many threads send, and as many receive.
const SENDERS: usize = 2;

/// What sends boxes. When all of them are dropped, no box will come any more.
pub trait Sends: Send {
    /// Sends a box, and sleeps while there is no room.
    fn send(&mut self, item: Box<u64>);
}

/// What receives them.
pub trait Receives: Send {
    /// Receives a box, and sleeps while there is none. None, if none will come.
    fn receive(&mut self) -> Option<Box<u64>>;
}

/// Sleeps on the event until `look` finds something, as [`Event::wait_for`], where what it looks at has weaker orders
/// than sequentially consistent.
pub fn wait_for<T>(event: &Event, mut look: impl FnMut() -> Option<T>) -> T {
    let mut waited = false;
    let found = loop {
        if let Some(found) = look() {
            break found;
        }
        let ticket = event.prepare();
        fence(Ordering::SeqCst);
        if let Some(found) = look() {
            break found;
        }
        ticket.wait();
        waited = true;
    };
    if waited {
        event.notify_one();
    }
    found
}

/// Wakes one who sleeps on the event, after a change by weaker orders.
pub fn notify_one(event: &Event) {
    fence(Ordering::SeqCst);
    event.notify_one();
}

/// The box of this number of a sender.
fn item_of(sender: usize, number: u64) -> u64 {
    (sender as u64) << 40 | number
}

fn send_all<S: Sends>(mut sender: S, number: usize, items: u64) {
    for item in 0..items {
        sender.send(Box::new(item_of(number, item)));
    }
}

/// Receives until nothing will come. Gives the sum of what was received, and whether it came in order.
fn receive_all<R: Receives>(mut receiver: R) -> (u64, bool) {
    let (mut sum, mut next, mut in_order) = (0u64, [0; SENDERS], true);
    while let Some(item) = receiver.receive() {
        let next = &mut next[(*item >> 40) as usize];
        in_order &= *item >= *next;
        *next = *item + 1;
        sum = sum.wrapping_add(*item);
    }
    (sum, in_order)
}

/// The nanoseconds from one box to the next, and the processors busy meanwhile.
fn time_boxes<S: Sends, R: Receives>(ends: Vec<(S, R)>, items: u64, cores: &[usize]) -> (f64, f64) {
    let start = Barrier::new(2 * SENDERS + 1);
    let (start, half) = (&start, items / SENDERS as u64);
    let core = |thread: usize| cores.get(thread % cores.len().max(1)).copied();
    let (begun, busy, sums) = thread::scope(|scope| {
        let mut receivers = Vec::new();
        for (number, (sender, receiver)) in ends.into_iter().enumerate() {
            scope.spawn(move || {
                core(2 * number).into_iter().for_each(pin);
                start.wait();
                send_all(sender, number, half);
            });
            receivers.push(scope.spawn(move || {
                core(2 * number + 1).into_iter().for_each(pin);
                start.wait();
                receive_all(receiver)
            }));
        }
        let (begun, busy) = (elapsed(), busy_time());
        start.wait();
        let sums: Vec<_> = receivers.into_iter().map(|thread| thread.join().expect("a thread ends")).collect();
        (begun, busy, sums)
    });
    let (time, busy) = ((elapsed() - begun) as f64, (busy_time() - busy) as f64);
    must(sums.iter().all(|sum| sum.1), "a box came twice or came out of order");
    let sent = (0..SENDERS).flat_map(|sender| (0..half).map(move |number| item_of(sender, number)));
    let received = sums.iter().fold(0u64, |all, sum| all.wrapping_add(sum.0));
    must(sent.fold(0, u64::wrapping_add) == received, "a box was lost or came twice");
    (time / (half * SENDERS as u64) as f64, busy / time)
}

/// Measures a channel, which is made anew for each part of the boxes, with so many places, and so many pairs of ends.
pub fn measure<S: Sends, R: Receives>(
    make: impl Fn(usize, usize) -> Result<Vec<(S, R)>, Box<dyn Error>>,
) -> Result<(), Box<dyn Error>> {
    let words: Vec<usize> = env::args().skip(1).map(|word| word.parse()).collect::<Result<_, _>>()?;
    let (items, cores) = words.split_first().ok_or("ITEMS [CORE CORE [CORE CORE]] are wanted")?;
    must(*items >= 2000 && matches!(cores.len(), 0 | 2 | 4), "ITEMS [CORE CORE [CORE CORE]] are wanted");
    time_boxes(make(PLACES, SENDERS)?, *items as u64 / 10, cores);
    let (each, busy) = time_boxes(make(PLACES, SENDERS)?, *items as u64, cores);
    println!("boxes {PLACES} {each:.2}");
    println!("boxes-busy {PLACES} {busy:.3}");
    Ok(())
}
