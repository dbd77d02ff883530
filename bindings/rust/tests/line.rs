//! A line from one thread to another, and its errors.

use std::io::{ErrorKind, Read, Write};
use std::thread;
use synthesis_kernel::line::{NewError, finish, line};

const BYTES: usize = 100_000;

fn byte_at(i: usize) -> u8 {
    (i % 251) as u8
}

#[test]
fn all_bytes_come_in_order() {
    let (mut input, mut output) = line(64).unwrap();
    let pushing = thread::spawn(move || {
        for i in 0..BYTES {
            while input.push(byte_at(i)).is_err() {
                thread::yield_now();
            }
        }
        input
    });
    for i in 0..BYTES {
        let byte = loop {
            match output.pop() {
                Some(byte) => break byte,
                None => thread::yield_now(),
            }
        };
        assert_eq!(byte, byte_at(i));
    }
    let totals = finish(pushing.join().unwrap(), output).unwrap();
    assert_eq!((totals.sent, totals.received, totals.left), (BYTES, BYTES, 0));
}

/// The bytes of a run from this index on.
fn run_at(start: usize) -> [u8; 9] {
    std::array::from_fn(|i| byte_at(start + i))
}

#[test]
fn runs_come_in_order() {
    let (mut input, mut output) = line(64).unwrap();
    let pushing = thread::spawn(move || {
        let mut next = 0;
        while next < BYTES {
            let run = run_at(next);
            let count = input.push_some(&run[..(BYTES - next).min(9)]);
            if count == 0 {
                thread::yield_now();
            }
            next += count;
        }
        input
    });
    let (mut next, mut buffer) = (0, [0; 7]);
    while next < BYTES {
        let count = output.pop_some(&mut buffer);
        assert_eq!(buffer[..count], run_at(next)[..count]);
        if count == 0 {
            thread::yield_now();
        }
        next += count;
    }
    let totals = finish(pushing.join().unwrap(), output).unwrap();
    assert_eq!((totals.sent, totals.received, totals.left), (BYTES, BYTES, 0));
}

#[test]
fn a_run_is_pushed_and_popped_as_far_as_it_fits() {
    let (mut input, mut output) = line(4).unwrap();
    let mut buffer = [9; 3];
    assert_eq!((output.pop_some(&mut buffer), buffer), (0, [9; 3]));
    assert_eq!((input.push_some(&[]), input.push_some(&[1, 2, 3]), input.push_some(&[4, 5])), (0, 3, 1));
    assert_eq!((input.push_some(&[5]), output.pop_some(&mut [])), (0, 0));
    assert_eq!((output.pop_some(&mut buffer), buffer), (3, [1, 2, 3]));
    assert_eq!((output.pop_some(&mut buffer), buffer), (1, [4, 2, 3]));
    let totals = finish(input, output).unwrap();
    assert_eq!((totals.sent, totals.received, totals.left), (4, 4, 0));
}

#[test]
fn errors_come_back() {
    assert_eq!(line(0).unwrap_err(), NewError::BadCapacity);
    assert_eq!(line(65_537).unwrap_err(), NewError::BadCapacity);
    assert_eq!(NewError::BadCapacity.to_string(), "a line has room for 1 to 65,536 bytes");
    let (mut input, output) = line(65_536).unwrap();
    let (other_input, mut other_output) = line(1).unwrap();
    input.push(5).unwrap();
    assert_eq!(other_output.pop(), None);
    let (input, other_output) = finish(input, other_output).unwrap_err().into_inner();
    assert_eq!(finish(other_input, other_output).unwrap().sent, 0);
    assert_eq!(finish(input, output).unwrap().left, 1);
}

#[test]
fn one_half_goes_on_and_ends_the_line_when_the_other_is_dropped() {
    let (mut input, mut output) = line(1).unwrap();
    input.push(8).unwrap();
    assert!(!output.is_closed());
    let mut output = output.close().unwrap_err().into_inner();
    drop(input);
    assert!(output.is_closed());
    assert_eq!(output.pop(), Some(8));
    assert_eq!(output.pop(), None);
    let totals = output.close().unwrap();
    assert_eq!((totals.sent, totals.received, totals.left), (1, 1, 0));
    let (mut input, output) = line(1).unwrap();
    drop(output);
    assert_eq!(input.push(1), Ok(()));
    assert_eq!(input.push(2), Err(2));
    let totals = input.close().unwrap();
    assert_eq!((totals.sent, totals.received, totals.left), (1, 0, 1));
}

#[test]
fn halves_read_and_write() {
    let (mut input, mut output) = line(4).unwrap();
    let mut buffer = [0; 8];
    assert_eq!(output.read(&mut buffer).unwrap_err().kind(), ErrorKind::WouldBlock);
    assert_eq!(input.write(b"abcdef").unwrap(), 4);
    assert_eq!(input.write(b"ef").unwrap_err().kind(), ErrorKind::WouldBlock);
    assert_eq!((input.write(b"").unwrap(), output.read(&mut []).unwrap()), (0, 0));
    assert_eq!((output.read(&mut buffer[..3]).unwrap(), &buffer[..3]), (3, &b"abc"[..]));
    drop(input);
    assert_eq!((output.read(&mut buffer).unwrap(), buffer[0]), (1, b'd'));
    assert_eq!(output.read(&mut buffer).unwrap(), 0);
    let (mut input, _) = line(4).unwrap();
    assert_eq!(input.write(b"a").unwrap_err().kind(), ErrorKind::BrokenPipe);
}
