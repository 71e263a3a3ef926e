//! The transfer ("read run"): the host reads a whole text, fragment by fragment.

use crate::message::{self, Reply, OUTPUT_LEN};
use crate::{answer, Text, TABLE_CODE, TEXT_LIMIT};

/// "A budget 0 to 65,535 (else 18)."
pub const BUDGET_LIMIT: u64 = 65_535;

/// Whether a transfer goes on, and how it closed.
#[derive(Clone, Copy, Debug, PartialEq, Eq)]
pub enum State {
    /// Open.
    Open,
    /// The empty fragment at the end was accepted.
    Done,
    /// Closed as spent: the count met the budget, or the beginning was refused.
    Exhausted,
    /// Closed by 11.
    Overflowed,
}

/// A transfer of one text.
#[derive(Clone, Copy, Debug, PartialEq, Eq)]
pub struct Transfer {
    which: Text,
    state: State,
    buffer_len: usize,
    room: u16,
    budget: u16,
    count: u16,
    offset: u16,
}

impl Transfer {
    /// Begins a transfer with a buffer of that length and a budget of
    /// exchanges: 0, or 18 with "a spent run of room 0". "A budget of 0 is
    /// closed at once."
    pub fn begin(which: Text, buffer_len: usize, budget: u64) -> (u8, Self) {
        if budget > BUDGET_LIMIT {
            let refused =
                Self { which, state: State::Exhausted, buffer_len: 0, room: 0, budget: 0, count: 0, offset: 0 };
            return (answer::NOT_ALLOWED, refused);
        }
        let begun = Self {
            which,
            state: if budget == 0 { State::Exhausted } else { State::Open },
            buffer_len,
            // "Room: the lesser of its length and 4,096."
            room: buffer_len.min(TEXT_LIMIT) as u16,
            budget: budget as u16,
            count: 0,
            offset: 0,
        };
        (answer::DONE, begun)
    }

    /// Which text it reads.
    pub fn which(&self) -> Text {
        self.which
    }

    /// The state.
    pub fn state(&self) -> State {
        self.state
    }

    /// The exchanges counted.
    pub fn count(&self) -> usize {
        usize::from(self.count)
    }

    /// The offset reached: the number of bytes accepted.
    pub fn offset(&self) -> usize {
        usize::from(self.offset)
    }

    /// The room.
    pub fn room(&self) -> usize {
        usize::from(self.room)
    }

    /// The budget.
    pub fn budget(&self) -> usize {
        usize::from(self.budget)
    }

    /// "Asking builds the request for the offset it has reached (16 if closed)
    /// and counts nothing." The answer and the request's length.
    #[inline]
    pub fn request(&self, out: &mut [u8]) -> (u8, usize) {
        if self.state != State::Open {
            return (answer::CLOSED, 0);
        }
        if out.len() < OUTPUT_LEN {
            return (answer::SIZE, 0);
        }
        let built = match self.which {
            Text::Capabilities => message::build_capabilities(self.offset, out),
            Text::Table => message::build_table_read(TABLE_CODE, self.offset, out),
        };
        match built {
            Ok(length) => (answer::DONE, length),
            Err(refusal) => (refusal, 0),
        }
    }

    /// "Each offering call is lent a buffer of the starting length (else 1) and
    /// the bytes that came back, or an empty slice; if not answered 16 or 1 it
    /// counts as one exchange."
    #[inline]
    pub fn receive(&mut self, buffer: &mut [u8], reply: &[u8]) -> u8 {
        if self.state != State::Open {
            return answer::CLOSED;
        }
        if buffer.len() != self.buffer_len {
            return answer::SIZE;
        }
        // Open means that the count is below the budget.
        self.count += 1;
        let answer = self.judge(buffer, reply);
        // "When the count meets the budget, an open run closes as spent, after
        // the last reply is judged; the call still gives that reply's answer."
        if self.state == State::Open && self.count == self.budget {
            self.state = State::Exhausted;
        }
        answer
    }

    #[inline]
    fn judge(&mut self, buffer: &mut [u8], reply: &[u8]) -> u8 {
        let reply = match message::read_reply(reply) {
            Ok(reply) => reply,
            Err(refusal) => return refusal,
        };
        // "A reply of another kind, or at another offset, is 10."
        let (offset, data) = match (self.which, reply) {
            (Text::Capabilities, Reply::Capabilities { offset, data })
            | (Text::Table, Reply::Table { offset, data }) => (offset, data),
            _ => return answer::OFFSET,
        };
        if offset != self.offset {
            return answer::OFFSET;
        }
        // "Data past the room is 11 and closes the run."
        let start = usize::from(offset);
        let end = start + data.len();
        if end > usize::from(self.room) {
            self.state = State::Overflowed;
            return answer::TOO_LONG;
        }
        // "An accepted piece is put at the offset; an empty one closes it as done."
        if data.is_empty() {
            self.state = State::Done;
        } else {
            buffer[start..end].copy_from_slice(data);
            self.offset = end as u16;
        }
        answer::DONE
    }
}
