//! How each program measures its queue: `measure.h` beside this crate once more, with the same items, courses, waits,
//! words, rows and statuses. Only the row of a handoff is left to the programs in C. The module `boxes` measures
//! channels of boxes.

use std::env;
use std::error::Error;
use std::hint;
use std::ops::Range;
use std::process;
use std::sync::atomic::{AtomicU64, Ordering};
use std::sync::Barrier;
use std::thread;

pub mod boxes;
mod machine;

use machine::{elapsed, pin, processor_time};

/// The places of a queue.
pub const PLACES: usize = 256;

/// The items of the longest line.
const MOST: usize = 64;

/// The item that ends a line of several.
const END_OF_LINE: u64 = 10;

/// The longest of the short waits is of 2 to this power pauses.
const LONGEST_SHORT: u32 = 6;

/// A long wait, in nanoseconds.
const LONG_WAIT: u64 = 2000;

/// So many failed tries are followed by a long wait.
const LONG_WAITS: u32 = 8;

/// So many items are put one at a time, now and then.
const LONES: usize = 300;

/// The time of all threads that met, in nanoseconds.
static WHOLE: AtomicU64 = AtomicU64::new(0);

/// For how much of it others had their cores.
static AWAY: AtomicU64 = AtomicU64::new(0);

/// What puts into a queue.
pub trait Puts: Send {
    /// One try to put a line, or what is left of it. Gives how many of its first items were put.
    fn put_some(&mut self, items: &[u64]) -> usize;
}

/// What takes out of it.
pub trait Takes: Send {
    /// One try to take a line. Gives how many items were taken, `most` or fewer, which are at the front.
    fn take_some(&mut self, items: &mut [u64; PLACES], most: usize) -> usize;
}

/// An end that is in a cache line of its own, and in the neighbour that is fetched with it.
#[repr(align(128))]
struct Apart<T>(T);

/// The ends for a thread that puts and one that takes.
struct Ends<P, T> {
    putter: Apart<P>,
    taker: Apart<T>,
}

/// How a thread waits after a failed try, and before the next one.
#[derive(Clone, Copy)]
enum Waits {
    Short,
    Long,
}

/// What the threads do.
#[derive(Clone, Copy)]
struct Course<'a> {
    waits: Waits,
    items: u64,
    length: usize,
    cores: &'a [usize],
}

/// What a thread reports at its end. Bits that are not 0 mean an item that had not to come.
#[derive(Clone, Copy)]
struct Told {
    begun: u64,
    ended: u64,
    bits: u64,
    sum: u64,
}

/// Ends the program if a queue has a fault.
pub fn must(good: bool, what: &str) {
    if !good {
        eprintln!("{what}");
        process::exit(1);
    }
}

fn wait_till(time: u64) {
    while elapsed() < time {
        hint::spin_loop();
    }
}

impl Waits {
    /// Waits after a failed try, of which there were so many before.
    fn wait_a_little(self, tries: &mut u32) {
        match self {
            Waits::Short if *tries <= LONGEST_SHORT => (0..1 << *tries).for_each(|_| hint::spin_loop()),
            Waits::Long if *tries < LONG_WAITS => wait_till(elapsed() + LONG_WAIT),
            _ => {
                thread::yield_now();
                return;
            }
        }
        *tries += 1;
    }
}

/// The numbers of the items that end a line have all bits of the mask. One that is alone in its line ends none.
fn mask_of(length: usize) -> u64 {
    if length == 1 {
        u64::MAX
    } else {
        length as u64 - 1
    }
}

/// The item of this number: 11 and above, each once, but 10 at the end of a line.
fn item_of(number: u64, mask: u64) -> u64 {
    if number & mask == mask {
        END_OF_LINE
    } else {
        number + END_OF_LINE + 1
    }
}

/// The number of the first item that is put at this end.
fn first_of(end: usize) -> u64 {
    (end as u64) << 40
}

/// The end at which an item was put that ends no line.
fn end_of(item: u64) -> usize {
    (item >> 40 & 1) as usize
}

fn write_line(line: &mut [u64], first: u64) {
    let mask = mask_of(line.len());
    for (number, item) in (first..).zip(line) {
        *item = item_of(number, mask);
    }
}

/// 0 where these are the items from this number on.
fn difference(taken: &[u64], first: u64, mask: u64) -> u64 {
    taken.iter().zip(first..).fold(0, |bits, (item, number)| bits | (item ^ item_of(number, mask)))
}

/// The sum of so many items that are put at this end.
fn sum_of(end: usize, items: u64, length: usize) -> u64 {
    (0..items).fold(0, |sum: u64, i| sum.wrapping_add(item_of(first_of(end) + i, mask_of(length))))
}

fn put_line<P: Puts>(putter: &mut P, waits: Waits, line: &[u64]) {
    let mut tries = 0;
    let mut put = putter.put_some(line);
    while put < line.len() {
        waits.wait_a_little(&mut tries);
        put += putter.put_some(&line[put..]);
    }
}

/// Takes 1 to `most` items.
fn take_line<T: Takes>(taker: &mut T, waits: Waits, taken: &mut [u64; PLACES], most: usize) -> usize {
    let mut tries = 0;
    loop {
        let count = taker.take_some(taken, most);
        if count > 0 {
            return count;
        }
        waits.wait_a_little(&mut tries);
    }
}

/// Takes the items of these numbers, of lines of this length, into the room given. 0 where they were those.
fn take_items<T: Takes>(
    taker: &mut T,
    waits: Waits,
    taken: &mut [u64; PLACES],
    numbers: Range<u64>,
    length: usize,
) -> u64 {
    let (mut next, mut bits) = (numbers.start, 0);
    while next < numbers.end {
        let count = take_line(taker, waits, taken, length);
        bits |= difference(&taken[..count], next, mask_of(length));
        next += count as u64;
    }
    bits | (next ^ numbers.end)
}

/// Takes so many items, which two threads put: those of each in their order, each beyond the last one. Gives the sum.
fn take_of_two<T: Takes>(taker: &mut T, waits: Waits, items: u64, length: usize) -> (u64, u64) {
    let (mut taken, mut last, mut bits, mut sum) = ([0; PLACES], [0, 0], 0, 0u64);
    let mut left = items;
    while left > 0 {
        let count = take_line(taker, waits, &mut taken, length.min(left as usize));
        for item in &taken[..count] {
            sum = sum.wrapping_add(*item);
            if *item != END_OF_LINE {
                bits |= u64::from(*item <= last[end_of(*item)]);
                last[end_of(*item)] = *item;
            }
        }
        left -= count as u64;
    }
    (bits, sum)
}

fn put_items<P: Puts>(putter: &mut P, course: &Course, first: u64) {
    let mut line = [0; MOST];
    let line = &mut line[..course.length];
    for next in (first..first + course.items).step_by(course.length) {
        write_line(line, next);
        put_line(putter, course.waits, line);
    }
}

/// The nanoseconds that one thread takes for whole lines of so many items together.
fn time_alone<P: Puts, T: Takes>(ends: &mut Ends<P, T>, items: u64, length: usize) -> u64 {
    let mut line = [0; MOST];
    let line = &mut line[..length];
    let (mut taken, mut bits) = ([0; PLACES], 0);
    let begun = processor_time();
    for next in (0..items).step_by(length) {
        write_line(line, next);
        put_line(&mut ends.putter.0, Waits::Short, line);
        bits |= take_items(&mut ends.taker.0, Waits::Short, &mut taken, next..next + length as u64, length);
    }
    let ended = processor_time();
    must(bits == 0, "an item was lost, came twice or came out of order");
    ended - begun
}

/// Begins with the others, on a core of its own. The work gives bits and a sum.
fn run_job(start: &Barrier, core: usize, work: impl FnOnce() -> (u64, u64)) -> Told {
    pin(core);
    start.wait();
    let (had, begun) = (processor_time(), elapsed());
    let (bits, sum) = work();
    let ended = elapsed();
    let had = processor_time() - had;
    WHOLE.fetch_add(ended - begun, Ordering::Relaxed);
    AWAY.fetch_add((ended - begun).saturating_sub(had), Ordering::Relaxed);
    Told { begun, ended, bits, sum }
}

/// Threads that put at an end each and threads that take there, each of these a part of the items. Gives the
/// nanoseconds from the first one's begin till the last one's end.
fn time_threads<P: Puts, T: Takes>(ends: &mut [Ends<P, T>], course: &Course) -> u64 {
    let count = ends.len();
    let start = Barrier::new(2 * count);
    let start = &start;
    let part = Course { items: course.items / count as u64, ..*course };
    let told: Vec<Told> = thread::scope(|scope| {
        let mut threads = Vec::new();
        for ((number, Ends { putter, taker }), cores) in ends.iter_mut().enumerate().zip(course.cores.chunks(2)) {
            threads.push(scope.spawn(move || {
                run_job(start, cores[0], || {
                    put_items(&mut putter.0, &part, first_of(number));
                    (0, 0)
                })
            }));
            threads.push(scope.spawn(move || {
                run_job(start, cores[1], || match count {
                    1 => (take_items(&mut taker.0, part.waits, &mut [0; PLACES], 0..part.items, part.length), 0),
                    _ => take_of_two(&mut taker.0, part.waits, part.items, part.length),
                })
            }));
        }
        threads.into_iter().map(|thread| thread.join().expect("a thread ends")).collect()
    });
    must(told.iter().all(|told| told.bits == 0), "an item was lost, came twice or came out of order");
    if count > 1 {
        let put = (0..count).fold(0u64, |sum, end| sum.wrapping_add(sum_of(end, part.items, part.length)));
        must(told.iter().fold(0u64, |sum, told| sum.wrapping_add(told.sum)) == put, "an item was lost or came twice");
    }
    let ended = told.iter().map(|told| told.ended).max();
    let begun = told.iter().map(|told| told.begun).min();
    ended.unwrap_or(0) - begun.unwrap_or(0)
}

/// One figure, in nanoseconds an item. A tenth of the items goes through the queue first, and isn't counted.
fn time_each<P: Puts, T: Takes>(ends: &mut [Ends<P, T>], is_alone: bool, course: &Course) -> f64 {
    let lines = course.items / course.length as u64 / 2;
    let mut time = 0;
    for part in [lines / 10, lines] {
        let items = 2 * part * course.length as u64;
        time = if is_alone {
            time_alone(&mut ends[0], items, course.length)
        } else {
            time_threads(ends, &Course { items, ..*course })
        };
        must(ends[0].taker.0.take_some(&mut [0; PLACES], 1) == 0, "more items came than were put");
    }
    time as f64 / (2 * lines * course.length as u64) as f64
}

/// Puts the time, once in so many microseconds: a half of them to one and a half, by chance.
fn put_lone<P: Puts>(putter: &mut P, waits: Waits, gap: u64) {
    let mut chance = 1u64;
    for _ in 0..LONES {
        chance = chance.wrapping_mul(6364136223846793005).wrapping_add(1442695040888963407);
        wait_till(elapsed() + gap * 500 + (chance >> 33) % (gap * 1000));
        put_line(putter, waits, &[elapsed()]);
    }
}

/// The median of the nanoseconds from before a put till after the taking, where so many microseconds are between two.
fn time_lone<P: Puts, T: Takes>(ends: &mut Ends<P, T>, waits: Waits, gap: u64, cores: &[usize]) -> u64 {
    let start = Barrier::new(2);
    let mut delays = [0; LONES];
    let Ends { putter, taker } = ends;
    thread::scope(|scope| {
        scope.spawn(|| {
            run_job(&start, cores[0], || {
                put_lone(&mut putter.0, waits, gap);
                (0, 0)
            })
        });
        scope.spawn(|| {
            run_job(&start, cores[1], || {
                let mut taken = [0; PLACES];
                for delay in &mut delays {
                    take_line(&mut taker.0, waits, &mut taken, 1);
                    *delay = elapsed() - taken[0];
                }
                (0, 0)
            })
        });
    });
    delays.sort_unstable();
    delays[LONES / 2]
}

/// Measures a queue, which is made anew for each figure, by the words of the program: `ITEMS [CORE CORE [CORE CORE]]`.
/// It is made with so many ends to put at and as many to take at, `most_ends` at the most.
pub fn measure<P: Puts, T: Takes>(
    make: impl Fn(usize) -> Result<Vec<(P, T)>, Box<dyn Error>>,
    most_ends: usize,
) -> Result<(), Box<dyn Error>> {
    let words: Vec<usize> = env::args().skip(1).map(|word| word.parse()).collect::<Result<_, _>>()?;
    let (items, cores) = words.split_first().ok_or("ITEMS [CORE CORE [CORE CORE]] are wanted")?;
    must(*items >= 2000 && matches!(cores.len(), 0 | 2 | 4), "ITEMS [CORE CORE [CORE CORE]] are wanted");
    if let Some(core) = cores.first() {
        pin(*core);
    }
    let made = |ends: usize| -> Result<Vec<Ends<P, T>>, Box<dyn Error>> {
        Ok(make(ends)?.into_iter().map(|(putter, taker)| Ends { putter: Apart(putter), taker: Apart(taker) }).collect())
    };
    let print_lines = |name: &str, ends: usize, waits: Waits| -> Result<(), Box<dyn Error>> {
        for length in [1, 16, MOST] {
            let course = Course { waits, items: *items as u64, length, cores };
            println!("{name} {length} {:.2}", time_each(&mut made(ends)?, name == "alone", &course));
        }
        Ok(())
    };
    print_lines("alone", 1, Waits::Short)?;
    if cores.len() >= 2 {
        print_lines("pair-short", 1, Waits::Short)?;
        print_lines("pair-long", 1, Waits::Long)?;
        for (name, waits) in [("lone-short", Waits::Short), ("lone-long", Waits::Long)] {
            for gap in [5, 50] {
                println!("{name} {gap} {:.2}", time_lone(&mut made(1)?[0], waits, gap, cores) as f64);
            }
        }
    }
    if cores.len() == 4 && most_ends == 2 {
        print_lines("two-short", 2, Waits::Short)?;
        print_lines("two-long", 2, Waits::Long)?;
    }
    let whole = WHOLE.load(Ordering::Relaxed);
    if whole > 0 {
        println!("away 1 {:.2}", 100.0 * AWAY.load(Ordering::Relaxed) as f64 / whole as f64);
    }
    Ok(())
}
