//! A conforming display of demand 3 ("faithful board"): any fragment sizes, any
//! offset and length to start from.

use crate::message::{self, Request, FRAGMENT_LIMIT};
use crate::{Text, TABLE_CODE};

/// "Holds the text, an offset o and a length s, any two numbers before the first exchange."
#[derive(Clone, Debug)]
pub struct ConformingDisplay<'a> {
    which: Text,
    text: &'a [u8],
    offset: u64,
    length: u64,
}

impl<'a> ConformingDisplay<'a> {
    /// A display that holds the text, with any two numbers. The text is at most 65,535 bytes.
    pub fn new(which: Text, text: &'a [u8], offset: u64, length: u64) -> Self {
        Self { which, text, offset, length }
    }

    /// The offset o and the length s.
    pub fn place(&self) -> (u64, u64) {
        (self.offset, self.length)
    }

    /// Acts on a request for its text and gives the reply's length in the
    /// output of at least 38 bytes. `choose` gets the most bytes that a
    /// fragment may have and picks its length, from 1 up to that.
    ///
    /// Any other request is ignored: no reply, and both numbers stay.
    pub fn act(&mut self, request: &[u8], choose: &mut impl FnMut(usize) -> usize, out: &mut [u8]) -> usize {
        let asked = match (self.which, message::read_request(request)) {
            (Text::Capabilities, Ok(Request::Capabilities { offset })) => u64::from(offset),
            (Text::Table, Ok(Request::TableRead { code, offset })) if code == TABLE_CODE => u64::from(offset),
            _ => return 0,
        };
        // "If q is 0, o becomes 0; else if q is o, it keeps both; else if q is
        // o + s, o becomes q; else o becomes 0." The sum is one of unbounded
        // numbers: where it does not fit, it is no offset that can be asked for.
        let set = if asked == 0 {
            Some(0)
        } else if asked == self.offset {
            None
        } else if self.offset.checked_add(self.length) == Some(asked) {
            Some(asked)
        } else {
            Some(0)
        };
        // "Where o was set, s is chosen anew: 1 to 32 and at most the bytes left
        // from o, but 0 when none are left."
        if let Some(offset) = set {
            let left = self.text.len().saturating_sub(offset as usize);
            let most = left.min(FRAGMENT_LIMIT);
            self.offset = offset;
            self.length = if most == 0 { 0 } else { choose(most).clamp(1, most) as u64 };
        }
        // "The reply is the piece message with o and the s bytes from o." Two
        // starting numbers that name no such bytes give no reply; a transfer
        // from its beginning cannot meet that, as its first request is at 0.
        let data: &[u8] = if self.length == 0 {
            &[]
        } else {
            let end = self.offset.checked_add(self.length);
            match end.and_then(|end| self.text.get(self.offset as usize..end as usize)) {
                Some(data) => data,
                None => return 0,
            }
        };
        let built = match self.which {
            Text::Capabilities => message::build_capabilities_reply(self.offset as u16, data, out),
            Text::Table => message::build_table_read_reply(self.offset as u16, data, out),
        };
        built.unwrap_or(0)
    }
}
