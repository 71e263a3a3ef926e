//! The messages on the wire, read and built.
//!
//! A request ("to the board") is 51, 80+n, body, checksum; a reply ("to the
//! post") is 6E, length byte, body, checksum. The I2C address is not in the slice.

use crate::answer;

/// "Every builder needs 38 bytes of output": 35 bytes of body and 3 around them.
pub const OUTPUT_LEN: usize = 38;

/// "n is 0 to 35".
pub const BODY_LIMIT: usize = 35;

/// A fragment carries "0 to 32 data".
pub const FRAGMENT_LIMIT: usize = 32;

/// A Table write carries "0 to 31 data".
pub const WRITE_LIMIT: usize = 31;

/// "The null message is always the three bytes 6E 80 BE."
pub const NULL_MESSAGE: [u8; 3] = [0x6E, 0x80, 0xBE];

const REQUEST_FIRST: u8 = 0x51;
const REPLY_FIRST: u8 = 0x6E;
/// "6E exclusive-or all bytes of the slice is 0."
const REQUEST_SEED: u8 = 0x6E;
/// "50 exclusive-or the first n+3 bytes is 0."
const REPLY_SEED: u8 = 0x50;
const LENGTH_FLAG: u8 = 0x80;
/// "Status bits 5 to 2 are 0."
pub const STATUS_RESERVED: u8 = 0b0011_1100;

const GET: u8 = 0x01;
const VALUE: u8 = 0x02;
const SET: u8 = 0x03;
const TIMING: u8 = 0x07;
const SAVE: u8 = 0x0C;
const TIMING_REPLY: u8 = 0x4E;
const TABLE_READ: u8 = 0xE2;
const CAPABILITIES_REPLY: u8 = 0xE3;
const TABLE_READ_REPLY: u8 = 0xE4;
const TABLE_WRITE: u8 = 0xE7;
const CAPABILITIES: u8 = 0xF3;

/// A message from the host to the display.
#[derive(Clone, Copy, Debug, PartialEq, Eq)]
pub enum Request<'a> {
    /// Get 01: get VCP feature.
    Get {
        /// The VCP code.
        code: u8,
    },
    /// Set 03: set VCP feature.
    Set {
        /// The VCP code.
        code: u8,
        /// The value to set.
        value: u16,
    },
    /// Timing 07: get timing report.
    Timing,
    /// Save 0C: save current settings.
    Save,
    /// Text F3: capabilities request.
    Capabilities {
        /// The offset asked for.
        offset: u16,
    },
    /// Table read E2.
    TableRead {
        /// The VCP code.
        code: u8,
        /// The offset asked for.
        offset: u16,
    },
    /// Table write E7.
    TableWrite {
        /// The VCP code.
        code: u8,
        /// The offset at which the data goes.
        offset: u16,
        /// 0 to 31 bytes.
        data: &'a [u8],
    },
}

/// A message from the display to the host. The null message is answer 12.
#[derive(Clone, Copy, Debug, PartialEq, Eq)]
pub enum Reply<'a> {
    /// Value 02: VCP feature reply.
    Value {
        /// 0 no error, 1 unsupported code.
        result: u8,
        /// The VCP code.
        code: u8,
        /// 0 kept, 1 momentary.
        kind: u8,
        /// The maximum.
        maximum: u16,
        /// The present value.
        present: u16,
    },
    /// Text piece E3: capabilities reply.
    Capabilities {
        /// The fragment's offset.
        offset: u16,
        /// 0 to 32 bytes.
        data: &'a [u8],
    },
    /// Timing 4E: timing message.
    Timing {
        /// Status, bits 5 to 2 being 0.
        status: u8,
        /// Horizontal frequency.
        horizontal: u16,
        /// Vertical frequency.
        vertical: u16,
    },
    /// Table piece E4: table read reply.
    Table {
        /// The fragment's offset.
        offset: u16,
        /// 0 to 32 bytes.
        data: &'a [u8],
    },
}

/// The exclusive-or of all bytes, eight at a time.
#[inline]
pub fn xor(bytes: &[u8]) -> u8 {
    let (words, tail) = bytes.as_chunks::<8>();
    let mut wide = words.iter().fold(0, |sum, word| sum ^ u64::from_ne_bytes(*word));
    wide ^= wide >> 32;
    wide ^= wide >> 16;
    wide ^= wide >> 8;
    tail.iter().fold(wide as u8, |sum, byte| sum ^ byte)
}

#[inline]
fn word(high: u8, low: u8) -> u16 {
    u16::from_be_bytes([high, low])
}

/// Reads a request: 2, 3, 4, 5, 6, 7 in that order, else the message.
#[inline]
pub fn read_request(bytes: &[u8]) -> Result<Request<'_>, u8> {
    let [first, length, body @ .., _] = bytes else {
        return Err(answer::SHORT);
    };
    if *first != REQUEST_FIRST {
        return Err(answer::FIRST_BYTE);
    }
    // "n is 0 to 35. The slice is exactly n+3 bytes." The length byte is 80+n.
    if body.len() > BODY_LIMIT || *length != LENGTH_FLAG | body.len() as u8 {
        return Err(answer::LENGTH);
    }
    if xor(bytes) != REQUEST_SEED {
        return Err(answer::CHECKSUM);
    }
    match *body {
        [GET, code] => Ok(Request::Get { code }),
        [SET, code, high, low] => Ok(Request::Set { code, value: word(high, low) }),
        [TIMING] => Ok(Request::Timing),
        [SAVE] => Ok(Request::Save),
        [CAPABILITIES, high, low] => Ok(Request::Capabilities { offset: word(high, low) }),
        [TABLE_READ, code, high, low] => Ok(Request::TableRead { code, offset: word(high, low) }),
        // n is at most 35, so the data is at most 31.
        [TABLE_WRITE, code, high, low, ref data @ ..] => {
            Ok(Request::TableWrite { code, offset: word(high, low), data })
        }
        [GET | SET | TIMING | SAVE | CAPABILITIES | TABLE_READ | TABLE_WRITE, ..] => Err(answer::FIELD),
        // "Command not in the table, or n = 0 to the board."
        _ => Err(answer::COMMAND),
    }
}

/// Reads a reply: 2, 3, 4, 5, 12, 6, 7 in that order, else the message.
/// What follows the first n+3 bytes is ignored.
#[inline]
pub fn read_reply(bytes: &[u8]) -> Result<Reply<'_>, u8> {
    let [first, length, third, ..] = *bytes else {
        return Err(answer::SHORT);
    };
    if first != REPLY_FIRST {
        return Err(answer::FIRST_BYTE);
    }
    // "The length byte is 80+n, save that a reply whose first body byte is 4E
    // has plain n. Any other mix is refusal 4." With n = 0 there is no first
    // body byte, so only 80 is left.
    let n = match length {
        0x80 => 0,
        0x81..=0xA3 if third != TIMING_REPLY => usize::from(length - LENGTH_FLAG),
        0x01..=0x23 if third == TIMING_REPLY => usize::from(length),
        _ => return Err(answer::LENGTH),
    };
    let Some(message) = bytes.get(..n + 3) else {
        return Err(answer::LENGTH);
    };
    if xor(message) != REPLY_SEED {
        return Err(answer::CHECKSUM);
    }
    match message[2..n + 2] {
        [] => Err(answer::NULL),
        // "Result and type are 0 or 1."
        [VALUE, result @ 0..=1, code, kind @ 0..=1, max_high, max_low, high, low] => {
            Ok(Reply::Value { result, code, kind, maximum: word(max_high, max_low), present: word(high, low) })
        }
        // n is at most 35, so the data of a fragment is at most 32.
        [CAPABILITIES_REPLY, high, low, ref data @ ..] => Ok(Reply::Capabilities { offset: word(high, low), data }),
        [TABLE_READ_REPLY, high, low, ref data @ ..] => Ok(Reply::Table { offset: word(high, low), data }),
        [TIMING_REPLY, status, h_high, h_low, v_high, v_low] if status & STATUS_RESERVED == 0 => {
            Ok(Reply::Timing { status, horizontal: word(h_high, h_low), vertical: word(v_high, v_low) })
        }
        [VALUE | CAPABILITIES_REPLY | TABLE_READ_REPLY | TIMING_REPLY, ..] => Err(answer::FIELD),
        _ => Err(answer::COMMAND),
    }
}

/// The lent output's first 38 bytes, or 1.
#[inline]
fn room(out: &mut [u8]) -> Result<&mut [u8; OUTPUT_LEN], u8> {
    out.first_chunk_mut().ok_or(answer::SIZE)
}

/// Writes a message of a fixed body.
#[inline]
fn put<const N: usize>(out: &mut [u8; OUTPUT_LEN], first: u8, length: u8, seed: u8, body: [u8; N]) -> usize {
    out[0] = first;
    out[1] = length;
    out[2..N + 2].copy_from_slice(&body);
    out[N + 2] = body.iter().fold(seed ^ first ^ length, |sum, byte| sum ^ byte);
    N + 3
}

#[inline]
fn put_request<const N: usize>(out: &mut [u8; OUTPUT_LEN], body: [u8; N]) -> usize {
    put(out, REQUEST_FIRST, LENGTH_FLAG | N as u8, REQUEST_SEED, body)
}

/// Writes a message whose body is a head and data. The caller has judged the data's length.
#[inline]
fn put_data<const N: usize>(out: &mut [u8; OUTPUT_LEN], first: u8, seed: u8, head: [u8; N], data: &[u8]) -> usize {
    let n = N + data.len();
    let length = LENGTH_FLAG | n as u8;
    out[0] = first;
    out[1] = length;
    out[2..N + 2].copy_from_slice(&head);
    out[N + 2..n + 2].copy_from_slice(data);
    out[n + 2] = head.iter().fold(seed ^ first ^ length ^ xor(data), |sum, byte| sum ^ byte);
    n + 3
}

/// Builds Get 01.
#[inline]
pub fn build_get(code: u8, out: &mut [u8]) -> Result<usize, u8> {
    Ok(put_request(room(out)?, [GET, code]))
}

/// Builds Set 03.
#[inline]
pub fn build_set(code: u8, value: u16, out: &mut [u8]) -> Result<usize, u8> {
    let [high, low] = value.to_be_bytes();
    Ok(put_request(room(out)?, [SET, code, high, low]))
}

/// Builds Timing 07.
#[inline]
pub fn build_timing(out: &mut [u8]) -> Result<usize, u8> {
    Ok(put_request(room(out)?, [TIMING]))
}

/// Builds Save 0C.
#[inline]
pub fn build_save(out: &mut [u8]) -> Result<usize, u8> {
    Ok(put_request(room(out)?, [SAVE]))
}

/// Builds Text F3, the capabilities request.
#[inline]
pub fn build_capabilities(offset: u16, out: &mut [u8]) -> Result<usize, u8> {
    let [high, low] = offset.to_be_bytes();
    Ok(put_request(room(out)?, [CAPABILITIES, high, low]))
}

/// Builds Table read E2.
#[inline]
pub fn build_table_read(code: u8, offset: u16, out: &mut [u8]) -> Result<usize, u8> {
    let [high, low] = offset.to_be_bytes();
    Ok(put_request(room(out)?, [TABLE_READ, code, high, low]))
}

/// Builds Table write E7; 7 with more than 31 bytes of data.
#[inline]
pub fn build_table_write(code: u8, offset: u16, data: &[u8], out: &mut [u8]) -> Result<usize, u8> {
    let out = room(out)?;
    if data.len() > WRITE_LIMIT {
        return Err(answer::FIELD);
    }
    let [high, low] = offset.to_be_bytes();
    let head = [TABLE_WRITE, code, high, low];
    Ok(put_data(out, REQUEST_FIRST, REQUEST_SEED, head, data))
}

/// Builds Value 02; 7 with a result or a type above 1.
#[inline]
pub fn build_value(result: u8, code: u8, kind: u8, maximum: u16, present: u16, out: &mut [u8]) -> Result<usize, u8> {
    let out = room(out)?;
    if result > 1 || kind > 1 {
        return Err(answer::FIELD);
    }
    let [max_high, max_low] = maximum.to_be_bytes();
    let [high, low] = present.to_be_bytes();
    let body = [VALUE, result, code, kind, max_high, max_low, high, low];
    let length = LENGTH_FLAG | body.len() as u8;
    Ok(put(out, REPLY_FIRST, length, REPLY_SEED, body))
}

/// Builds Text piece E3, the capabilities reply; 7 with more than 32 bytes of data.
#[inline]
pub fn build_capabilities_reply(offset: u16, data: &[u8], out: &mut [u8]) -> Result<usize, u8> {
    build_fragment(CAPABILITIES_REPLY, offset, data, out)
}

/// Builds Table piece E4, the table read reply; 7 with more than 32 bytes of data.
#[inline]
pub fn build_table_read_reply(offset: u16, data: &[u8], out: &mut [u8]) -> Result<usize, u8> {
    build_fragment(TABLE_READ_REPLY, offset, data, out)
}

#[inline]
fn build_fragment(command: u8, offset: u16, data: &[u8], out: &mut [u8]) -> Result<usize, u8> {
    let out = room(out)?;
    if data.len() > FRAGMENT_LIMIT {
        return Err(answer::FIELD);
    }
    let [high, low] = offset.to_be_bytes();
    Ok(put_data(out, REPLY_FIRST, REPLY_SEED, [command, high, low], data))
}

/// Builds Timing 4E; 7 with a reserved status bit set. Its length byte is plain n.
#[inline]
pub fn build_timing_reply(status: u8, horizontal: u16, vertical: u16, out: &mut [u8]) -> Result<usize, u8> {
    let out = room(out)?;
    if status & STATUS_RESERVED != 0 {
        return Err(answer::FIELD);
    }
    let [h_high, h_low] = horizontal.to_be_bytes();
    let [v_high, v_low] = vertical.to_be_bytes();
    let body = [TIMING_REPLY, status, h_high, h_low, v_high, v_low];
    Ok(put(out, REPLY_FIRST, body.len() as u8, REPLY_SEED, body))
}

/// Builds the null message.
#[inline]
pub fn build_null(out: &mut [u8]) -> Result<usize, u8> {
    room(out)?[..3].copy_from_slice(&NULL_MESSAGE);
    Ok(NULL_MESSAGE.len())
}

impl Request<'_> {
    /// Builds this request.
    #[inline]
    pub fn build(&self, out: &mut [u8]) -> Result<usize, u8> {
        match *self {
            Request::Get { code } => build_get(code, out),
            Request::Set { code, value } => build_set(code, value, out),
            Request::Timing => build_timing(out),
            Request::Save => build_save(out),
            Request::Capabilities { offset } => build_capabilities(offset, out),
            Request::TableRead { code, offset } => build_table_read(code, offset, out),
            Request::TableWrite { code, offset, data } => build_table_write(code, offset, data, out),
        }
    }
}

impl Reply<'_> {
    /// Builds this reply.
    #[inline]
    pub fn build(&self, out: &mut [u8]) -> Result<usize, u8> {
        match *self {
            Reply::Value { result, code, kind, maximum, present } => {
                build_value(result, code, kind, maximum, present, out)
            }
            Reply::Capabilities { offset, data } => build_capabilities_reply(offset, data, out),
            Reply::Timing { status, horizontal, vertical } => build_timing_reply(status, horizontal, vertical, out),
            Reply::Table { offset, data } => build_table_read_reply(offset, data, out),
        }
    }
}
