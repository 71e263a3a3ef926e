//! The display ("board"): one step for each message that comes.

use crate::message::{self, Request, FRAGMENT_LIMIT, OUTPUT_LEN, STATUS_RESERVED};
use crate::settings::{Declaration, Settings};
use crate::{answer, Text, SETTING_LIMIT, TABLE_CODE, TABLE_LIMIT, TEXT_LIMIT};

/// The fragment cursor ("place") of a text: the offset and the length of the
/// last fragment, "both 0 at first".
#[derive(Clone, Copy, Debug, Default, PartialEq, Eq)]
pub struct Cursor {
    /// The current offset.
    pub offset: u16,
    /// The length of the last fragment.
    pub length: u16,
}

impl Cursor {
    /// "Offset 0: the place's offset is 0. Equal to the place's offset: send
    /// that piece again. Equal to offset + length: move there. Otherwise go to
    /// 0. The piece is the next min(piece size, bytes left) bytes; at the end
    /// it has none."
    #[inline]
    fn turn(&mut self, asked: u16, fragment_size: u16, text_len: u16) {
        // Offset and length never pass the text's length, so the sum is at most 4,096.
        if asked != self.offset && asked != self.offset + self.length {
            self.offset = 0;
        } else {
            self.offset = asked;
        }
        self.length = fragment_size.min(text_len - self.offset);
    }
}

/// The timing that a display reports.
#[derive(Clone, Copy, Debug, Default, PartialEq, Eq)]
pub struct Timing {
    /// Status, bits 5 to 2 being 0.
    pub status: u8,
    /// Horizontal frequency.
    pub horizontal: u16,
    /// Vertical frequency.
    pub vertical: u16,
}

/// A display.
#[derive(Clone, Debug, PartialEq, Eq)]
pub struct Display {
    /// The settings.
    pub settings: Settings,
    timing: Timing,
    text_len: u16,
    table_len: u16,
    fragment_size: u16,
    text_cursor: Cursor,
    table_cursor: Cursor,
}

/// What one step came to, inside.
struct Outcome {
    answer: u8,
    reply_len: usize,
    fragment: Option<Text>,
}

impl Outcome {
    #[inline]
    fn silent(answer: u8) -> Self {
        Self { answer, reply_len: 0, fragment: None }
    }

    /// "Null message in the output, reply length 3."
    #[inline]
    fn null(answer: u8, out: &mut [u8]) -> Self {
        Self::built(answer, message::build_null(out))
    }

    /// A reply of fields that are right by construction in an output that has room.
    #[inline]
    fn built(answer: u8, reply: Result<usize, u8>) -> Self {
        match reply {
            Ok(reply_len) => Self { answer, reply_len, fragment: None },
            Err(refusal) => Self::silent(refusal),
        }
    }
}

impl Display {
    /// "An empty board (no code, no text, timing 0, piece size 1)."
    pub fn empty() -> Self {
        Self {
            settings: Settings::new(),
            timing: Timing::default(),
            text_len: 0,
            table_len: 0,
            fragment_size: 1,
            text_cursor: Cursor::default(),
            table_cursor: Cursor::default(),
        }
    }

    /// Starts a display: timing with a reserved bit 18, a text over 4,096
    /// bytes 11, a fragment size not 1 to 32 18, in this order. "A refused
    /// start gives an empty board."
    pub fn start(timing: Timing, text: &[u8], fragment_size: usize) -> (u8, Self) {
        let mut display = Self::empty();
        if timing.status & STATUS_RESERVED != 0 {
            return (answer::NOT_ALLOWED, display);
        }
        if text.len() > TEXT_LIMIT {
            return (answer::TOO_LONG, display);
        }
        if !(1..=FRAGMENT_LIMIT).contains(&fragment_size) {
            return (answer::NOT_ALLOWED, display);
        }
        display.timing = timing;
        display.text_len = text.len() as u16;
        display.fragment_size = fragment_size as u16;
        (answer::DONE, display)
    }

    /// Declares a VCP code: 0 or 18.
    pub fn declare(&mut self, declaration: Declaration) -> u8 {
        self.settings.declare(declaration)
    }

    /// The number declared.
    pub fn number_declared(&self) -> usize {
        self.settings.number_declared()
    }

    /// The least declared code not below the given number.
    pub fn next_declared(&self, from: u16) -> Option<u8> {
        self.settings.next_declared(from)
    }

    /// The timing.
    pub fn timing(&self) -> Timing {
        self.timing
    }

    /// The length of the capabilities string at the start.
    pub fn text_len(&self) -> usize {
        usize::from(self.text_len)
    }

    /// The length of the table.
    pub fn table_len(&self) -> usize {
        usize::from(self.table_len)
    }

    /// The fragment size.
    pub fn fragment_size(&self) -> usize {
        usize::from(self.fragment_size)
    }

    /// The fragment cursor of one of the two texts.
    pub fn cursor(&self, which: Text) -> Cursor {
        match which {
            Text::Capabilities => self.text_cursor,
            Text::Table => self.table_cursor,
        }
    }

    /// One message: the answer and the length of the reply in the output.
    /// Where no reply is due its length is 0 and no output byte changes.
    #[inline]
    pub fn step(&mut self, text: &[u8], table: &mut [u8], message: &[u8], out: &mut [u8]) -> (u8, usize) {
        let outcome = self.turn(text, table, message, out);
        (outcome.answer, outcome.reply_len)
    }

    /// The same with the display given and handed back by value.
    #[inline]
    pub fn step_by_value(mut self, text: &[u8], table: &mut [u8], message: &[u8], out: &mut [u8]) -> (Self, u8, usize) {
        let outcome = self.turn(text, table, message, out);
        (self, outcome.answer, outcome.reply_len)
    }

    /// The same, with the fragment found "handed back as a part of whichever of
    /// the two lent texts was asked for"; empty where no fragment was sent.
    #[inline]
    pub fn step_fragment<'a>(
        &mut self,
        text: &'a [u8],
        table: &'a mut [u8],
        message: &[u8],
        out: &mut [u8],
    ) -> (u8, usize, &'a [u8]) {
        let outcome = self.turn(text, table, message, out);
        let fragment: &[u8] = match outcome.fragment {
            None => &[],
            Some(Text::Capabilities) => part(text, self.text_cursor),
            Some(Text::Table) => part(table, self.table_cursor),
        };
        (outcome.answer, outcome.reply_len, fragment)
    }

    /// Many settings in one call: "it must equal that many Set messages one
    /// after the other: the same board afterwards, the same answer at each
    /// place, refused ones skipped and the next still tried. An answer buffer
    /// shorter than the codes is refused with 1, then more than 64, or unequally
    /// many codes and values, with 7; nothing is tried and no answer written."
    /// Answers beyond the codes stay.
    #[inline]
    pub fn set_all(&mut self, codes: &[u8], values: &[u16], answers: &mut [u8]) -> u8 {
        let Some(answers) = answers.get_mut(..codes.len()) else {
            return answer::SIZE;
        };
        if codes.len() > SETTING_LIMIT || codes.len() != values.len() {
            return answer::FIELD;
        }
        for ((answer, &code), &value) in answers.iter_mut().zip(codes).zip(values) {
            *answer = self.settings.set(code, value);
        }
        answer::DONE
    }

    /// The same with the display given and handed back by value, behind a call
    /// that is not inlined, as a library's function is.
    #[inline(never)]
    pub fn set_all_by_value(mut self, codes: &[u8], values: &[u16], answers: &mut [u8]) -> (Self, u8) {
        let answer = self.set_all(codes, values, answers);
        (self, answer)
    }

    #[inline]
    fn turn(&mut self, text: &[u8], table: &mut [u8], message: &[u8], out: &mut [u8]) -> Outcome {
        // "A step is lent the list's buffer of exactly 1,024 bytes and the text
        // at its starting length (else 1)"; an output under 38 bytes is 1 too.
        if out.len() < OUTPUT_LEN || table.len() != TABLE_LIMIT || text.len() != usize::from(self.text_len) {
            return Outcome::silent(answer::SIZE);
        }
        let request = match message::read_request(message) {
            Ok(request) => request,
            Err(answer::COMMAND) => return Outcome::null(answer::COMMAND, out),
            Err(refusal) => return Outcome::silent(refusal),
        };
        match request {
            // "Always answer 0 with a Value reply."
            Request::Get { code } => {
                let reply = match self.settings.get(code) {
                    Some((kind, maximum, present)) => message::build_value(0, code, kind, maximum, present, out),
                    None => message::build_value(1, code, 0, 0, 0, out),
                };
                Outcome::built(answer::DONE, reply)
            }
            Request::Set { code, value } => Outcome::silent(self.settings.set(code, value)),
            Request::Save => {
                self.settings.save();
                Outcome::silent(answer::DONE)
            }
            Request::Timing => {
                let Timing { status, horizontal, vertical } = self.timing;
                let reply = message::build_timing_reply(status, horizontal, vertical, out);
                Outcome::built(answer::DONE, reply)
            }
            Request::TableWrite { code, offset, data } => Outcome::silent(self.write_table(table, code, offset, data)),
            Request::Capabilities { offset } => {
                self.text_cursor.turn(offset, self.fragment_size, self.text_len);
                let cursor = self.text_cursor;
                let reply = message::build_capabilities_reply(cursor.offset, part(text, cursor), out);
                Outcome { fragment: Some(Text::Capabilities), ..Outcome::built(answer::DONE, reply) }
            }
            // "8: nothing; Table read: null message, length 3."
            Request::TableRead { code, .. } if code != TABLE_CODE => Outcome::null(answer::CODE, out),
            Request::TableRead { offset, .. } => {
                self.table_cursor.turn(offset, self.fragment_size, self.table_len);
                let cursor = self.table_cursor;
                let reply = message::build_table_read_reply(cursor.offset, part(table, cursor), out);
                Outcome { fragment: Some(Text::Table), ..Outcome::built(answer::DONE, reply) }
            }
        }
    }

    /// "Table write: 8 unless F4; 10 if the offset is above the list's length;
    /// 11 if offset + data passes 1,024. Bytes go at the offset. At offset 0 the
    /// new length is the data's; above 0 it is the larger of the old length and
    /// offset + data. The list's place becomes 0, 0."
    #[inline]
    fn write_table(&mut self, table: &mut [u8], code: u8, offset: u16, data: &[u8]) -> u8 {
        if code != TABLE_CODE {
            return answer::CODE;
        }
        if offset > self.table_len {
            return answer::OFFSET;
        }
        let start = usize::from(offset);
        let end = start + data.len();
        if end > TABLE_LIMIT {
            return answer::TOO_LONG;
        }
        table[start..end].copy_from_slice(data);
        self.table_len = if offset == 0 { end as u16 } else { self.table_len.max(end as u16) };
        self.table_cursor = Cursor::default();
        answer::DONE
    }
}

/// The bytes of a text that a cursor covers.
#[inline]
fn part(text: &[u8], cursor: Cursor) -> &[u8] {
    let start = usize::from(cursor.offset);
    &text[start..start + usize::from(cursor.length)]
}
