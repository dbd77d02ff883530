//! Boxes through crossbeam's `ArrayQueue`. It has no sleep of its own: threads sleep by two events of
//! `synthesis-kernel`, as those of its channel do.

use crossbeam_queue::ArrayQueue;
use std::error::Error;
use std::sync::atomic::{AtomicUsize, Ordering};
use std::sync::Arc;
use synthesis_peers::boxes::{measure, notify_one, wait_for, Event, Receives, Sends};

/// An event that is in a cache line of its own, and in the neighbour that is fetched with it.
#[repr(align(128))]
struct Apart(Event);

struct Channel {
    queue: ArrayQueue<Box<u64>>,
    senders: AtomicUsize,
    boxes: Apart,
    places: Apart,
}

struct Sender(Arc<Channel>);

struct Receiver(Arc<Channel>);

impl Sends for Sender {
    fn send(&mut self, item: Box<u64>) {
        let mut item = Some(item);
        wait_for(&self.0.places.0, || match self.0.queue.push(item.take()?) {
            Ok(()) => Some(()),
            Err(back) => {
                item = Some(back);
                None
            }
        });
        notify_one(&self.0.boxes.0);
    }
}

impl Receives for Receiver {
    fn receive(&mut self) -> Option<Box<u64>> {
        let item = wait_for(&self.0.boxes.0, || {
            let has_senders = self.0.senders.load(Ordering::SeqCst) > 0;
            let item = self.0.queue.pop();
            (item.is_some() || !has_senders).then_some(item)
        });
        notify_one(&self.0.places.0);
        item
    }
}

impl Drop for Sender {
    fn drop(&mut self) {
        self.0.senders.fetch_sub(1, Ordering::SeqCst);
        self.0.boxes.0.notify_all();
    }
}

fn main() -> Result<(), Box<dyn Error>> {
    measure(|places, pairs| {
        let (queue, senders) = (ArrayQueue::new(places), AtomicUsize::new(pairs));
        let channel = Arc::new(Channel { queue, senders, boxes: Apart(Event::new()), places: Apart(Event::new()) });
        Ok((0..pairs).map(|_pair| (Sender(Arc::clone(&channel)), Receiver(Arc::clone(&channel)))).collect())
    })
}
