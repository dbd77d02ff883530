//! The claim queue by the crate `synthesis-kernel`: a line is put by one claim, and taken by one taking.

use std::error::Error;
use synthesis_kernel::QueueEnd;
use synthesis_peers::{measure, Puts, Takes, PLACES};

struct Putter(QueueEnd<PLACES>);

struct Taker(QueueEnd<PLACES>);

impl Puts for Putter {
    fn put_some(&mut self, items: &[u64]) -> usize {
        self.0.try_put(items).map_or(0, |_head| items.len())
    }
}

impl Takes for Taker {
    fn take_some(&mut self, items: &mut [u64; PLACES], most: usize) -> usize {
        if most > 1 {
            return self.0.try_take_line(items).unwrap_or(0);
        }
        self.0.try_take().map_or(0, |item| {
            items[0] = item;
            1
        })
    }
}

fn make(ends: usize) -> Result<Vec<(Putter, Taker)>, Box<dyn Error>> {
    let first = QueueEnd::new(0)?;
    let taker = first.split()?;
    let mut others = Vec::new();
    for _ in 1..ends {
        others.push((Putter(first.split()?), Taker(first.split()?)));
    }
    let mut made = vec![(Putter(first), Taker(taker))];
    made.append(&mut others);
    Ok(made)
}

fn main() -> Result<(), Box<dyn Error>> {
    measure(make, 2)
}
