//! crossbeam's `ArrayQueue` of 256 places, item by item: it has no call for more.

use crossbeam_queue::ArrayQueue;
use std::error::Error;
use std::sync::Arc;
use synthesis_peers::{measure, Puts, Takes, PLACES};

struct End(Arc<ArrayQueue<u64>>);

impl Puts for End {
    fn put_some(&mut self, items: &[u64]) -> usize {
        items.iter().take_while(|item| self.0.push(**item).is_ok()).count()
    }
}

impl Takes for End {
    fn take_some(&mut self, items: &mut [u64; PLACES], most: usize) -> usize {
        let mut taken = 0;
        while taken < most {
            let Some(item) = self.0.pop() else { break };
            items[taken] = item;
            taken += 1;
        }
        taken
    }
}

fn main() -> Result<(), Box<dyn Error>> {
    let make = |ends| {
        let queue = Arc::new(ArrayQueue::new(PLACES));
        Ok((0..ends).map(|_end| (End(Arc::clone(&queue)), End(Arc::clone(&queue)))).collect())
    };
    measure(make, 2)
}
