//! Messages of both directions.
use core::fmt;
use core::ops::Deref;

use crate::raw;
use crate::refusal::Refusal;

/// The bytes of output that every builder asks for: the longest message.
pub const OUTPUT_ROOM: usize = 38;

/// The most data bytes of a Table write.
pub const MOST_WRITTEN: usize = 31;

/// The most data bytes of a fragment.
pub const MOST_FRAGMENT: usize = 32;

/// Returns the exclusive-or of bytes with a seed: 6E for a request, 50 for a reply. It is 0 over a whole message.
///
/// ```
/// assert_eq!(ddcci::checksum(0x6E, &[0x51, 0x82, 0x01, 0x10, 0xAC]), 0);
/// ```
#[inline]
pub fn checksum(seed: u8, bytes: &[u8]) -> u8 {
    // SAFETY: pointer and length are those of one slice, which is only read during the call.
    unsafe { raw::ddcci_checksum(seed, bytes.as_ptr(), bytes.len()) }
}

/// A message's bytes, as they go over the wire behind the I2C address.
#[derive(Clone, Copy, PartialEq, Eq)]
pub struct Message {
    bytes: [u8; OUTPUT_ROOM],
    length: usize,
}

impl Message {
    pub(crate) fn built(build: impl FnOnce(&mut [u8]) -> Result<usize, Refusal>) -> Result<Message, Refusal> {
        let mut bytes = [0; OUTPUT_ROOM];
        let length = build(&mut bytes)?;
        Ok(Message { bytes, length })
    }
}

impl Deref for Message {
    type Target = [u8];

    #[inline]
    fn deref(&self) -> &[u8] {
        &self.bytes[..self.length]
    }
}

impl fmt::Debug for Message {
    fn fmt(&self, f: &mut fmt::Formatter<'_>) -> fmt::Result {
        write!(f, "{:02X?}", &self[..])
    }
}

#[inline]
fn length(built: raw::Built) -> Result<usize, Refusal> {
    Refusal::check(built.answer)?;
    Ok(built.length)
}

/// A message to the display.
///
/// ```
/// use ddcci::Request;
///
/// let set = Request::Set { code: 0x10, value: 100 };
/// let bytes = set.to_bytes()?;
/// assert_eq!(&bytes[..], [0x51, 0x84, 0x03, 0x10, 0x00, 0x64, 0xCC]);
/// assert_eq!(Request::read(&bytes)?, set);
/// # Ok::<(), ddcci::Refusal>(())
/// ```
#[derive(Debug, Clone, Copy, PartialEq, Eq)]
pub enum Request<'a> {
    /// Get VCP feature (01).
    Get {
        /// The VCP code.
        code: u8,
    },
    /// Set VCP feature (03).
    Set {
        /// The VCP code.
        code: u8,
        /// Its new value.
        value: u16,
    },
    /// Get timing report (07).
    Timing,
    /// Save current settings (0C).
    Save,
    /// Capabilities request (F3).
    Text {
        /// From which byte of the capabilities string on.
        offset: u16,
    },
    /// Table read (E2).
    TableRead {
        /// The table's VCP code: F4 is the one that a display has.
        code: u8,
        /// From which byte of the table on.
        offset: u16,
    },
    /// Table write (E7).
    TableWrite {
        /// The table's VCP code: F4 is the one that a display has.
        code: u8,
        /// Where in the table the data go.
        offset: u16,
        /// The bytes to write, at most [`MOST_WRITTEN`].
        data: &'a [u8],
    },
}

impl<'a> Request<'a> {
    /// Reads a request. The slice is the whole message.
    #[inline]
    pub fn read(message: &'a [u8]) -> Result<Request<'a>, Refusal> {
        // SAFETY: pointer and length are those of one slice, which is only read during the call.
        let r = unsafe { raw::ddcci_read_request(message.as_ptr(), message.len()) };
        Refusal::check(r.answer)?;
        Ok(match r.command {
            0x01 => Request::Get { code: r.code },
            0x03 => Request::Set { code: r.code, value: r.word },
            0x07 => Request::Timing,
            0x0C => Request::Save,
            0xF3 => Request::Text { offset: r.word },
            0xE2 => Request::TableRead { code: r.code, offset: r.word },
            _ => {
                Request::TableWrite { code: r.code, offset: r.word, data: &message[r.position..r.position + r.length] }
            }
        })
    }

    /// Builds the message at the start of `out`, which has at least [`OUTPUT_ROOM`] bytes, and returns its length.
    /// Bytes beyond it stay.
    #[inline]
    pub fn build(&self, out: &mut [u8]) -> Result<usize, Refusal> {
        let (o, n) = (out.as_mut_ptr(), out.len());
        // SAFETY: each pointer and its length are those of one slice; `out` is borrowed for writing and thus does not
        // overlap the data.
        length(unsafe {
            match *self {
                Request::Get { code } => raw::ddcci_build_get(code, o, n),
                Request::Set { code, value } => raw::ddcci_build_set(code, value, o, n),
                Request::Timing => raw::ddcci_build_timing(o, n),
                Request::Save => raw::ddcci_build_save(o, n),
                Request::Text { offset } => raw::ddcci_build_text(offset, o, n),
                Request::TableRead { code, offset } => raw::ddcci_build_table_read(code, offset, o, n),
                Request::TableWrite { code, offset, data } => {
                    raw::ddcci_build_table_write(code, offset, data.as_ptr(), data.len(), o, n)
                }
            }
        })
    }

    /// Returns the message's bytes.
    #[inline]
    pub fn to_bytes(&self) -> Result<Message, Refusal> {
        Message::built(|out| self.build(out))
    }
}

/// A message to the host.
///
/// ```
/// use ddcci::{Refusal, Reply};
///
/// let bytes = [0x6E, 0x88, 0x02, 0x00, 0x10, 0x00, 0x00, 0x64, 0x00, 0x32, 0xF2];
/// let value = Reply::Value { result: 0, code: 0x10, kind: 0, max: 100, present: 50 };
/// assert_eq!(Reply::read(&bytes)?, value);
/// assert_eq!(Reply::read(&[0x6E, 0x80, 0xBE]), Err(Refusal::NullMessage));
/// # Ok::<(), ddcci::Refusal>(())
/// ```
#[derive(Debug, Clone, Copy, PartialEq, Eq)]
pub enum Reply<'a> {
    /// VCP feature reply (02).
    Value {
        /// 0 done, 1 the display does not have this code.
        result: u8,
        /// The VCP code.
        code: u8,
        /// The code's type: 0 kept, 1 momentary.
        kind: u8,
        /// The greatest value.
        max: u16,
        /// The present value.
        present: u16,
    },
    /// Timing message (4E).
    Timing {
        /// The status byte. Its bits 5 to 2 are 0.
        status: u8,
        /// The horizontal frequency, as the display gives it.
        horizontal: u16,
        /// The vertical frequency, as the display gives it.
        vertical: u16,
    },
    /// The null message. It can be built; read, it is [`Refusal::NullMessage`].
    Null,
    /// Capabilities reply (E3).
    TextFragment {
        /// Where in the capabilities string the data stand.
        offset: u16,
        /// The bytes, at most [`MOST_FRAGMENT`]; none at the end of the string.
        data: &'a [u8],
    },
    /// Table read reply (E4).
    TableFragment {
        /// Where in the table the data stand.
        offset: u16,
        /// The bytes, at most [`MOST_FRAGMENT`]; none at the end of the table.
        data: &'a [u8],
    },
}

impl<'a> Reply<'a> {
    /// Reads the reply that the slice begins with; what follows it is ignored.
    #[inline]
    pub fn read(message: &'a [u8]) -> Result<Reply<'a>, Refusal> {
        // SAFETY: pointer and length are those of one slice, which is only read during the call.
        let r = unsafe { raw::ddcci_read_reply(message.as_ptr(), message.len()) };
        Refusal::check(r.answer)?;
        let data = &message[r.position..r.position + r.length];
        Ok(match r.command {
            0x02 => Reply::Value { result: r.status, code: r.code, kind: r.kind, max: r.first, present: r.second },
            0x4E => Reply::Timing { status: r.status, horizontal: r.first, vertical: r.second },
            0xE3 => Reply::TextFragment { offset: r.first, data },
            _ => Reply::TableFragment { offset: r.first, data },
        })
    }

    /// Builds the message at the start of `out`, which has at least [`OUTPUT_ROOM`] bytes, and returns its length.
    /// Bytes beyond it stay.
    #[inline]
    pub fn build(&self, out: &mut [u8]) -> Result<usize, Refusal> {
        let (o, n) = (out.as_mut_ptr(), out.len());
        // SAFETY: each pointer and its length are those of one slice; `out` is borrowed for writing and thus does not
        // overlap the data.
        length(unsafe {
            match *self {
                Reply::Value { result, code, kind, max, present } => {
                    raw::ddcci_build_value(result, code, kind, max, present, o, n)
                }
                Reply::Timing { status, horizontal, vertical } => {
                    raw::ddcci_build_timing_reply(status, horizontal, vertical, o, n)
                }
                Reply::Null => raw::ddcci_build_null(o, n),
                Reply::TextFragment { offset, data } => {
                    raw::ddcci_build_text_fragment(offset, data.as_ptr(), data.len(), o, n)
                }
                Reply::TableFragment { offset, data } => {
                    raw::ddcci_build_table_fragment(offset, data.as_ptr(), data.len(), o, n)
                }
            }
        })
    }

    /// Returns the message's bytes.
    #[inline]
    pub fn to_bytes(&self) -> Result<Message, Refusal> {
        Message::built(|out| self.build(out))
    }
}
