//! Transfers: a host reads one of a display's texts, fragment by fragment.
use core::fmt;

use crate::message::Message;
#[cfg(doc)]
use crate::message::OUTPUT_ROOM;
use crate::raw;
use crate::refusal::Refusal;

/// The two texts of a display.
#[derive(Debug, Clone, Copy, PartialEq, Eq, Hash)]
pub enum TextKind {
    /// The capabilities string.
    Capabilities = 0,
    /// The table, VCP code F4.
    Table = 1,
}

/// Whether a transfer runs, or how it closed.
#[derive(Debug, Clone, Copy, PartialEq, Eq, Hash)]
pub enum State {
    /// It asks and receives.
    Running,
    /// The whole text stands in the buffer.
    Done,
    /// Its budget is used up.
    Exhausted,
    /// The text is longer than the room.
    Overflowed,
}

impl fmt::Display for State {
    fn fmt(&self, f: &mut fmt::Formatter<'_>) -> fmt::Result {
        f.write_str(match self {
            State::Running => "still running",
            State::Done => "done",
            State::Exhausted => "closed, its budget is used up",
            State::Overflowed => "closed, the text is longer than its room",
        })
    }
}

/// Why [`Transfer::finish`] gives no text: the transfer is not done.
#[derive(Debug, Clone, Copy, PartialEq, Eq)]
pub struct Unfinished {
    /// How the transfer stands: running, exhausted or overflowed.
    pub state: State,
    /// How many bytes of the text came.
    pub received: u16,
    /// How many exchanges were counted.
    pub exchanges: u16,
}

impl fmt::Display for Unfinished {
    fn fmt(&self, f: &mut fmt::Formatter<'_>) -> fmt::Result {
        let Unfinished { state, received, exchanges } = self;
        write!(
            f,
            "the transfer is {state}: {received} bytes came in {exchanges} exchanges, and not the end of the text"
        )
    }
}

impl core::error::Error for Unfinished {}

/// A transfer in a buffer of the caller's.
///
/// Ask with [`Transfer::request`], send that, and give what came back to [`Transfer::receive`] while the state is
/// [`State::Running`]. Then [`Transfer::finish`] gives the text, or says why there is none.
///
/// Proved of it (demand 3): whatever the line loses, cuts, or changes so that the reader refuses it, the buffer
/// begins with the first bytes of the text, and a transfer that says done holds exactly the text.
///
/// Supposed is that nobody changes the text or asks for its fragments meanwhile, and that a fragment of the text's
/// kind at the very offset asked for comes only as the display's own reply to that request. The checksum is one
/// exclusive-or byte: it refuses every change within a single byte other than the length byte, but two flips of the
/// same bit in two bytes pass it, and then other bytes are joined.
///
/// ```
/// use ddcci::{Reply, State, TextKind, Transfer};
///
/// let text = b"(vcp(10 12))";
/// let mut buffer = [0; 64];
/// let mut transfer = Transfer::begin(TextKind::Capabilities, &mut buffer, 100)?;
/// while transfer.state() == State::Running {
///     let request = transfer.request()?; // goes to the display, which answers with a fragment
///     let offset = usize::from(transfer.offset());
///     let end = text.len().min(offset + 5);
///     let reply = Reply::TextFragment { offset: offset as u16, data: &text[offset..end] }.to_bytes()?;
///     transfer.receive(&reply)?;
/// }
/// assert_eq!(transfer.finish(), Ok(&text[..]));
/// # Ok::<(), ddcci::Refusal>(())
/// ```
pub struct Transfer<'a> {
    numbers: raw::Transfer,
    buffer: &'a mut [u8],
}

impl<'a> Transfer<'a> {
    /// Begins a transfer into a buffer, with a budget of exchanges up to 65,535.
    ///
    /// The room for the text is the buffer's length, and at most 4,096 bytes.
    pub fn begin(kind: TextKind, buffer: &'a mut [u8], budget: usize) -> Result<Transfer<'a>, Refusal> {
        // SAFETY: pointer and length are those of one slice, which is only read during the call.
        let numbers = unsafe { raw::ddcci_begin(kind as u8, buffer.as_ptr(), buffer.len(), budget) };
        Refusal::check(numbers.answer)?;
        Ok(Transfer { numbers, buffer })
    }

    /// Returns the request for the offset reached; [`Refusal::TransferClosed`] where the transfer is closed.
    #[inline]
    pub fn request(&self) -> Result<Message, Refusal> {
        Message::built(|out| self.write_request(out))
    }

    /// Writes the same request to the start of `out`, which has at least [`OUTPUT_ROOM`] bytes, and returns its
    /// length.
    #[inline]
    pub fn write_request(&self, out: &mut [u8]) -> Result<usize, Refusal> {
        // SAFETY: pointer and length are those of one slice, which is borrowed for writing and thus overlaps no
        // other.
        let r = unsafe { raw::ddcci_request(self.numbers, out.as_mut_ptr(), out.len()) };
        Refusal::check(r.answer)?;
        Ok(r.length)
    }

    /// Receives the bytes that came back, or none.
    ///
    /// A refusal changes nothing but the count. It closes the transfer where its budget is used up or the text is
    /// longer than its room; otherwise ask again.
    #[inline]
    pub fn receive(&mut self, reply: &[u8]) -> Result<(), Refusal> {
        // SAFETY: each pointer and its length are those of one slice; the buffer is borrowed for writing and thus
        // does not overlap the reply.
        self.numbers = unsafe {
            raw::ddcci_receive(self.numbers, self.buffer.as_mut_ptr(), self.buffer.len(), reply.as_ptr(), reply.len())
        };
        Refusal::check(self.numbers.answer)
    }

    /// Returns whether it runs, or how it closed.
    #[inline]
    pub fn state(&self) -> State {
        match self.numbers.phase % 4 {
            0 => State::Exhausted,
            1 => State::Running,
            2 => State::Done,
            _ => State::Overflowed,
        }
    }

    /// Ends the transfer and returns the whole text, which there is only where the transfer is done.
    ///
    /// It is the text as the display has it: a capabilities string that ends with zero bytes comes with them, and
    /// [`Capabilities::read`](crate::Capabilities::read) takes them.
    ///
    /// ```
    /// # use ddcci::{State, TextKind, Transfer};
    /// # let mut buffer = [0; 64];
    /// let mut transfer = Transfer::begin(TextKind::Capabilities, &mut buffer, 1)?;
    /// let _ = transfer.receive(&[0x6E, 0x84, 0xE3, 0x00, 0x00, 0x28, 0x71]); // "(" came, and the budget is used up
    /// assert_eq!(transfer.received_so_far(), b"(");
    /// let unfinished = transfer.finish().unwrap_err();
    /// assert_eq!((unfinished.state, unfinished.received, unfinished.exchanges), (State::Exhausted, 1, 1));
    /// # Ok::<(), ddcci::Refusal>(())
    /// ```
    pub fn finish(self) -> Result<&'a [u8], Unfinished> {
        let state = self.state();
        let raw::Transfer { offset: received, count: exchanges, .. } = self.numbers;
        match state {
            State::Done => Ok(&self.buffer[..usize::from(received)]),
            _ => Err(Unfinished { state, received, exchanges }),
        }
    }

    /// Returns the offset reached: so many bytes of the text stand at the start of the buffer.
    pub fn offset(&self) -> u16 {
        self.numbers.offset
    }

    /// Returns how many exchanges were counted.
    pub fn count(&self) -> u16 {
        self.numbers.count
    }

    /// Returns the bytes that came so far: the whole text only where the state is [`State::Done`], else its first
    /// part.
    pub fn received_so_far(&self) -> &[u8] {
        &self.buffer[..usize::from(self.numbers.offset)]
    }

    /// Returns the whole buffer, with what stood in it beyond the text.
    pub fn buffer(&self) -> &[u8] {
        self.buffer
    }
}

impl fmt::Debug for Transfer<'_> {
    fn fmt(&self, f: &mut fmt::Formatter<'_>) -> fmt::Result {
        f.debug_struct("Transfer")
            .field("state", &self.state())
            .field("offset", &self.numbers.offset)
            .field("count", &self.numbers.count)
            .field("budget", &self.numbers.budget)
            .finish_non_exhaustive()
    }
}
