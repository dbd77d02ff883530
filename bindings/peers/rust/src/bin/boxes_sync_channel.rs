//! Boxes through the standard library's bounded channel, `sync_channel`. It has one receiver, which two threads have in
//! turns, by a mutex.

use std::error::Error;
use std::sync::mpsc::{sync_channel, Receiver, SyncSender};
use std::sync::{Arc, Mutex};
use synthesis_peers::boxes::{measure, Receives, Sends};
use synthesis_peers::must;

struct Sender(SyncSender<Box<u64>>);

struct Shared(Arc<Mutex<Receiver<Box<u64>>>>);

impl Sends for Sender {
    fn send(&mut self, item: Box<u64>) {
        must(self.0.send(item).is_ok(), "no receiver is left");
    }
}

impl Receives for Shared {
    fn receive(&mut self) -> Option<Box<u64>> {
        self.0.lock().expect("no thread panics").recv().ok()
    }
}

fn main() -> Result<(), Box<dyn Error>> {
    measure(|places, pairs| {
        let (sender, receiver) = sync_channel(places);
        let receiver = Arc::new(Mutex::new(receiver));
        Ok((0..pairs).map(|_pair| (Sender(sender.clone()), Shared(Arc::clone(&receiver)))).collect())
    })
}
