//! Device lines: bytes from one thread to another.

use crate::ends::{CloseError, JoinError};
use crate::raw;
use crate::words::says;
use std::io::{self, Read, Write};
use std::mem;
use std::sync::{Arc, Mutex, PoisonError};

/// The half of a line that pushes bytes. It may go to another thread, and no other half of its kind exists.
///
/// A dropped half goes back to the line, which the other half can then [`close`](LineIn::close).
#[derive(Debug)]
pub struct LineIn {
    handle: raw::Input,
    dropped: Arc<Mutex<Dropped>>,
}

/// The half of a line that pops bytes. It may go to another thread, and no other half of its kind exists.
///
/// A dropped half goes back to the line, which the other half can then [`close`](LineOut::close).
#[derive(Debug)]
pub struct LineOut {
    handle: raw::Output,
    dropped: Arc<Mutex<Dropped>>,
}

/// The halves that were dropped. They are freed with the last half.
#[derive(Debug, Default)]
struct Dropped {
    input: raw::Input,
    output: raw::Output,
}

impl Drop for Dropped {
    fn drop(&mut self) {
        self.input.free();
        self.output.free();
    }
}

/// How many bytes went through a line.
#[derive(Clone, Copy, Debug, PartialEq, Eq, Hash)]
pub struct Totals {
    /// The bytes pushed, modulo 2^64.
    pub sent: usize,
    /// The bytes popped, modulo 2^64.
    pub received: usize,
    /// The bytes pushed and not popped.
    pub left: usize,
}

/// Why a line was not made. The errors are in the order in which they are checked.
#[derive(Clone, Copy, Debug, PartialEq, Eq, Hash)]
#[non_exhaustive]
pub enum NewError {
    /// A line has room for 1 to 65,536 bytes.
    BadCapacity,
    /// An allocation was refused.
    OutOfMemory,
}

says!(NewError {
    NewError::BadCapacity => "a line has room for 1 to 65,536 bytes",
    NewError::OutOfMemory => "out of memory",
});

/// Makes a line with room for `capacity` bytes, 1 to 65,536, and returns its two halves.
///
/// ```
/// use synthesis_kernel::line;
///
/// let (mut input, mut output) = line(2)?;
/// assert_eq!(input.push(104), Ok(()));
/// assert_eq!(input.push(105), Ok(()));
/// assert_eq!(input.push(33), Err(33));
/// assert_eq!(output.pop(), Some(104));
/// # Ok::<(), Box<dyn std::error::Error>>(())
/// ```
///
/// # Errors
///
/// The capacity is 0 or over 65,536, or memory is refused.
pub fn line(capacity: usize) -> Result<(LineIn, LineOut), NewError> {
    let (mut input, mut output) = (raw::Input::default(), raw::Output::default());
    match raw::line_new(capacity, &mut input, &mut output) {
        raw::OK => {}
        raw::BAD_NUMBER => return Err(NewError::BadCapacity),
        raw::NO_MEMORY => return Err(NewError::OutOfMemory),
        code => raw::no_such_answer(code),
    }
    let dropped = Arc::new(Mutex::new(Dropped::default()));
    Ok((LineIn { handle: input, dropped: Arc::clone(&dropped) }, LineOut { handle: output, dropped }))
}

/// Ends a line whose halves are in one thread again, and returns how many bytes were sent, received and left. The bytes
/// left go with the line. Halves of two lines come back.
///
/// ```
/// # use synthesis_kernel::line;
/// # use synthesis_kernel::line::finish;
/// let (mut input, output) = line(8)?;
/// input.push(7).unwrap();
/// let totals = finish(input, output)?;
/// assert_eq!((totals.sent, totals.received, totals.left), (1, 0, 1));
/// # Ok::<(), Box<dyn std::error::Error>>(())
/// ```
///
/// # Errors
///
/// The halves are of two lines. Both come back.
pub fn finish(mut input: LineIn, mut output: LineOut) -> Result<Totals, JoinError<(LineIn, LineOut)>> {
    finish_raw(&mut input.handle, &mut output.handle).ok_or_else(|| JoinError::new((input, output)))
}

/// None if the halves are of two lines.
fn finish_raw(input: &mut raw::Input, output: &mut raw::Output) -> Option<Totals> {
    let mut totals = raw::LineTotals::default();
    match raw::synth_raw_line_finish(input, output, &mut totals) {
        raw::OK => Some(Totals { sent: totals.sent, received: totals.received, left: totals.left }),
        raw::OTHER_OBJECT => None,
        code => raw::no_such_answer(code),
    }
}

/// What was dropped, if the other half was. What the other half did comes before this.
fn other_dropped(dropped: &mut Arc<Mutex<Dropped>>) -> Option<&mut Dropped> {
    Some(Arc::get_mut(dropped)?.get_mut().unwrap_or_else(PoisonError::into_inner))
}

impl LineIn {
    /// Pushes one byte after all others, or returns it if no place of the line is free. None is refused before as many
    /// bytes were pushed as the line has room for.
    ///
    /// ```
    /// let (mut input, mut output) = synthesis_kernel::line(1)?;
    /// assert_eq!(input.push(7), Ok(()));
    /// assert_eq!(input.push(8), Err(8));
    /// assert_eq!((output.pop(), output.pop()), (Some(7), None));
    /// # Ok::<(), Box<dyn std::error::Error>>(())
    /// ```
    ///
    /// # Errors
    ///
    /// No place of the line is free. The byte comes back.
    pub fn push(&mut self, byte: u8) -> Result<(), u8> {
        match raw::synth_raw_line_push(&mut self.handle, byte) {
            raw::OK => Ok(()),
            raw::FULL => Err(byte),
            code => raw::no_such_answer(code),
        }
    }

    /// Pushes the first of these bytes, as many as there is room for, after all others and in their order. Returns how
    /// many. If not all are pushed, no place of the line was seen free after those.
    ///
    /// ```
    /// let (mut input, mut output) = synthesis_kernel::line(4)?;
    /// assert_eq!(input.push_some(b"hello"), 4);
    /// let mut bytes = [0; 8];
    /// assert_eq!(output.pop_some(&mut bytes), 4);
    /// assert_eq!(&bytes[..4], b"hell");
    /// # Ok::<(), Box<dyn std::error::Error>>(())
    /// ```
    pub fn push_some(&mut self, bytes: &[u8]) -> usize {
        let mut pushed = 0;
        // SAFETY: the pointer and the length are those of the slice.
        let code = unsafe { raw::synth_raw_line_push_some(&mut self.handle, bytes.as_ptr(), bytes.len(), &mut pushed) };
        match code {
            raw::OK => pushed,
            raw::NO_ITEMS | raw::FULL => 0,
            code => raw::no_such_answer(code),
        }
    }

    /// Whether the other half was dropped, so that nobody pops any more.
    ///
    /// ```
    /// let (mut input, output) = synthesis_kernel::line(1)?;
    /// assert!(!input.is_closed());
    /// drop(output);
    /// assert!(input.is_closed());
    /// # Ok::<(), Box<dyn std::error::Error>>(())
    /// ```
    pub fn is_closed(&mut self) -> bool {
        other_dropped(&mut self.dropped).is_some()
    }

    /// Ends the line whose other half was dropped. Otherwise this half comes back.
    ///
    /// ```
    /// # use synthesis_kernel::line;
    /// let (mut input, output) = line(8)?;
    /// input.push(7).unwrap();
    /// let input = input.close().unwrap_err().into_inner();
    /// drop(output);
    /// assert_eq!(input.close()?.left, 1);
    /// # Ok::<(), Box<dyn std::error::Error>>(())
    /// ```
    ///
    /// # Errors
    ///
    /// The other half exists, or was leaked. This one comes back.
    pub fn close(mut self) -> Result<Totals, CloseError<LineIn>> {
        match other_dropped(&mut self.dropped).and_then(|other| finish_raw(&mut self.handle, &mut other.output)) {
            Some(totals) => Ok(totals),
            None => Err(CloseError::Open(self)),
        }
    }
}

impl LineOut {
    /// Pops the oldest byte, or returns `None` if the line is empty.
    pub fn pop(&mut self) -> Option<u8> {
        let mut byte = 0;
        match raw::synth_raw_line_pop(&mut self.handle, &mut byte) {
            raw::OK => Some(byte),
            raw::EMPTY => None,
            code => raw::no_such_answer(code),
        }
    }

    /// Pops the oldest bytes, as many as there are and fit the buffer, in their order. They become its first ones, and
    /// its others stay. Returns how many. If the buffer has room for more, no byte was seen after those.
    pub fn pop_some(&mut self, buffer: &mut [u8]) -> usize {
        let mut count = 0;
        // SAFETY: the pointer and the length are those of the slice.
        let code =
            unsafe { raw::synth_raw_line_pop_some(&mut self.handle, buffer.as_mut_ptr(), buffer.len(), &mut count) };
        match code {
            raw::OK => count,
            raw::SHORT_BUFFER | raw::EMPTY => 0,
            code => raw::no_such_answer(code),
        }
    }

    /// Pops bytes until the line is empty.
    ///
    /// ```
    /// # use synthesis_kernel::line;
    /// let (mut input, mut output) = line(8)?;
    /// input.push(7).unwrap();
    /// input.push(8).unwrap();
    /// assert!(output.try_iter().eq([7, 8]));
    /// # Ok::<(), Box<dyn std::error::Error>>(())
    /// ```
    pub fn try_iter(&mut self) -> TryIter<'_> {
        TryIter { output: self }
    }

    /// Whether the other half was dropped. A line that is empty after this stays so.
    pub fn is_closed(&mut self) -> bool {
        other_dropped(&mut self.dropped).is_some()
    }

    /// Ends the line whose other half was dropped. Otherwise this half comes back.
    ///
    /// ```
    /// # use synthesis_kernel::line;
    /// let (mut input, mut output) = line(8)?;
    /// input.push(7).unwrap();
    /// drop(input);
    /// assert_eq!(output.pop(), Some(7));
    /// assert_eq!(output.close()?.received, 1);
    /// # Ok::<(), Box<dyn std::error::Error>>(())
    /// ```
    ///
    /// # Errors
    ///
    /// The other half exists, or was leaked. This one comes back.
    pub fn close(mut self) -> Result<Totals, CloseError<LineOut>> {
        match other_dropped(&mut self.dropped).and_then(|other| finish_raw(&mut other.input, &mut self.handle)) {
            Some(totals) => Ok(totals),
            None => Err(CloseError::Open(self)),
        }
    }
}

/// Pops bytes until the line is empty: see [`LineOut::try_iter`].
#[derive(Debug)]
pub struct TryIter<'half> {
    output: &'half mut LineOut,
}

impl Iterator for TryIter<'_> {
    type Item = u8;

    fn next(&mut self) -> Option<u8> {
        self.output.pop()
    }
}

/// Pushes as many bytes as there is room for. An error of kind `WouldBlock` if there is no room, and of kind
/// `BrokenPipe` if the other half was dropped.
///
/// ```
/// use std::io::{Read, Write};
///
/// let (mut input, mut output) = synthesis_kernel::line(4)?;
/// assert_eq!(input.write(b"hello")?, 4);
/// drop(input);
/// let mut bytes = Vec::new();
/// output.read_to_end(&mut bytes)?;
/// assert_eq!(bytes, b"hell");
/// # Ok::<(), Box<dyn std::error::Error>>(())
/// ```
impl Write for LineIn {
    fn write(&mut self, bytes: &[u8]) -> io::Result<usize> {
        if self.is_closed() {
            return Err(io::ErrorKind::BrokenPipe.into());
        }
        let count = self.push_some(bytes);
        if count == 0 && !bytes.is_empty() {
            return Err(io::ErrorKind::WouldBlock.into());
        }
        Ok(count)
    }

    fn flush(&mut self) -> io::Result<()> {
        Ok(())
    }
}

/// Pops as many bytes as there are and fit. An error of kind `WouldBlock` if there is none, and the end of the file if
/// the other half was dropped too.
impl Read for LineOut {
    fn read(&mut self, buffer: &mut [u8]) -> io::Result<usize> {
        // Before the bytes are popped: what comes of a half that is dropped meanwhile may not be passed over.
        let is_closed = self.is_closed();
        let count = self.pop_some(buffer);
        if count == 0 && !buffer.is_empty() && !is_closed {
            return Err(io::ErrorKind::WouldBlock.into());
        }
        Ok(count)
    }
}

// An end of a line that was finished is empty, and so is then what goes back.

impl Drop for LineIn {
    fn drop(&mut self) {
        self.dropped.lock().unwrap_or_else(PoisonError::into_inner).input = mem::take(&mut self.handle);
    }
}

impl Drop for LineOut {
    fn drop(&mut self) {
        self.dropped.lock().unwrap_or_else(PoisonError::into_inner).output = mem::take(&mut self.handle);
    }
}
