//! Three producers put lines of text into one queue, and two takers take them, each in a thread of its own. Each line
//! is put by one call and taken by one, so each comes whole, and once.

use std::error::Error;
use std::thread;
use synthesis_kernel::queue::{PutError, QueueEnd, TakeError};

type End = QueueEnd<256>;

/// How many lines a thread put or took, and the sum of their bytes.
#[derive(Clone, Copy, Debug, Default, PartialEq, Eq)]
struct Count {
    lines: u64,
    sum: u64,
}

impl Count {
    fn add(&mut self, line: &[u64]) {
        self.lines += 1;
        self.sum += line.iter().sum::<u64>();
    }

    fn and(self, other: Count) -> Count {
        Count { lines: self.lines + other.lines, sum: self.sum + other.sum }
    }
}

/// Puts one line, trying again while the queue is full or another end is first.
fn put_line(end: &mut End, line: &[u64]) -> Result<(), PutError> {
    loop {
        match end.try_put(line) {
            Ok(_) => return Ok(()),
            Err(PutError::Full { .. } | PutError::Lost { .. }) => thread::yield_now(),
            Err(error) => return Err(error),
        }
    }
}

fn put_lines(mut end: End, producer: usize) -> Result<(End, Count), PutError> {
    let mut count = Count::default();
    for i in 0..10_000 {
        let line: Vec<u64> = format!("line {i} of producer {producer}\n").bytes().map(u64::from).collect();
        put_line(&mut end, &line)?;
        count.add(&line);
    }
    Ok((end, count))
}

/// Takes lines until none will ever come.
fn take_lines(mut end: End) -> (End, Count) {
    let (mut line, mut count) = ([0; 256], Count::default());
    loop {
        match end.try_take_line(&mut line) {
            Ok(length) => count.add(&line[..length]),
            Err(TakeError::Closed) => return (end, count),
            Err(_) => thread::yield_now(),
        }
    }
}

fn main() -> Result<(), Box<dyn Error>> {
    let mut last = End::new(0)?;
    let (mut put, mut taken) = (Count::default(), Count::default());
    let (mut producers, mut takers) = (Vec::new(), Vec::new());
    for i in 0..3 {
        let end = last.split()?;
        producers.push(thread::spawn(move || put_lines(end, i)));
    }
    for _ in 0..2 {
        let end = last.split()?;
        takers.push(thread::spawn(move || take_lines(end)));
    }
    for thread in producers {
        let (end, count) = thread.join().expect("a producer ends")?;
        last.join(end)?;
        put = put.and(count);
    }
    last.shut();
    for thread in takers {
        let (end, count) = thread.join().expect("a taker ends");
        last.join(end)?;
        taken = taken.and(count);
    }
    let closed = last.close()?;
    println!("put {} lines, sum {}", put.lines, put.sum);
    println!("taken {} lines, sum {}", taken.lines, taken.sum);
    println!("closed: put {} items, taken {}, left {}", closed.put, closed.taken, closed.left.len());
    assert_eq!(put, taken);
    Ok(())
}
