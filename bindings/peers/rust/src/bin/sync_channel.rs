//! The standard library's bounded channel, `sync_channel`, of 256 places, item by item. It has any number of producers
//! and one taker.

use std::error::Error;
use std::sync::mpsc::{sync_channel, Receiver, SyncSender};
use synthesis_peers::{measure, Puts, Takes, PLACES};

struct Putter(SyncSender<u64>);

struct Taker(Receiver<u64>);

impl Puts for Putter {
    fn put_some(&mut self, items: &[u64]) -> usize {
        items.iter().take_while(|item| self.0.try_send(**item).is_ok()).count()
    }
}

impl Takes for Taker {
    fn take_some(&mut self, items: &mut [u64; PLACES], most: usize) -> usize {
        items.iter_mut().zip(self.0.try_iter().take(most)).map(|(place, item)| *place = item).count()
    }
}

fn main() -> Result<(), Box<dyn Error>> {
    let make = |_ends| {
        let (putter, taker) = sync_channel(PLACES);
        Ok(vec![(Putter(putter), Taker(taker))])
    };
    measure(make, 1)
}
