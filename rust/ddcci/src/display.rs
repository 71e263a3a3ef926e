//! A display: it answers a host's requests.
use core::fmt;
use core::ops::Range;

use crate::raw;
use crate::refusal::{Answer, Refusal, RefusedAt};
use crate::transfer::TextKind;

/// The bytes of a table's buffer.
pub const TABLE_ROOM: usize = 1024;

/// The most settings of one call of [`Display::set_all`].
pub const MOST_SETTINGS: usize = 64;

/// The bytes of the longest profile that a display writes: 7 for each code but F4. To read any profile from a file, see
/// [`PROFILE_ROOM`](crate::PROFILE_ROOM).
pub const LONGEST_PROFILE: usize = 1785;

/// The timing that a display reports.
#[repr(C)]
#[derive(Debug, Clone, Copy, PartialEq, Eq, Default)]
pub struct Timing {
    /// The status byte. Bits 5 to 2 are 0, else the start is refused.
    pub status: u8,
    /// The horizontal frequency, as it goes into the Timing reply.
    pub horizontal: u16,
    /// The vertical frequency, as it goes into the Timing reply.
    pub vertical: u16,
}

/// What is declared of a VCP code.
#[repr(C)]
#[derive(Debug, Clone, Copy, PartialEq, Eq)]
pub struct Declaration {
    /// The VCP code: any but F4, which is the table's.
    pub code: u8,
    /// Whether a Get tells its value.
    pub readable: bool,
    /// Whether a Set is accepted. A code is readable or writable, or both.
    pub writable: bool,
    /// Its type: 0 kept, 1 momentary. A momentary code is writable; its value is not stored.
    pub kind: u8,
    /// Whether values above the maximum are refused.
    pub continuous: bool,
    /// The greatest value, which a Get tells.
    pub maximum: u16,
    /// The present value, which is the saved one too at first.
    pub present: u16,
}

/// What a step came to.
#[derive(Debug, Clone, PartialEq, Eq)]
#[must_use = "the reply, if one is due, has the step's length and stands at the start of the output"]
pub struct Step {
    /// Done, or why the message was refused.
    pub answer: Result<(), Refusal>,
    /// The length of the reply at the start of the output; 0 where none is due: a read then gets the null message.
    pub length: usize,
    /// The fragment that was sent: of which text, and which of its bytes.
    pub found: Option<(TextKind, Range<usize>)>,
}

/// What an accepted message asked for.
#[derive(Debug, Clone, Copy, PartialEq, Eq)]
pub enum Asked {
    /// The value of a code.
    Get {
        /// The VCP code.
        code: u8,
    },
    /// A new value of a code.
    Set {
        /// The VCP code.
        code: u8,
        /// Its new value.
        value: u16,
    },
    /// The timing.
    Timing,
    /// That the present values be saved.
    Save,
    /// A fragment of the capabilities string.
    Text,
    /// A fragment of the table.
    TableRead {
        /// The table's VCP code.
        code: u8,
    },
    /// That bytes be written into the table.
    TableWrite {
        /// The table's VCP code.
        code: u8,
    },
}

impl Step {
    /// Returns what the message of this step asked for: which code was set, also of a momentary one, whose value is
    /// not stored, or that a Save or a Table write came. A message that was refused asked for nothing.
    ///
    /// ```
    /// # use ddcci::{Asked, Display, Request, Timing, OUTPUT_ROOM, TABLE_ROOM};
    /// # let mut display = Display::start(Timing::default(), b"", 32)?;
    /// # let (mut table, mut out) = ([0; TABLE_ROOM], [0; OUTPUT_ROOM]);
    /// let save = Request::Save.to_bytes()?;
    /// let step = display.step(b"", &mut table, &save, &mut out);
    /// assert_eq!(step.asked(&save), Some(Asked::Save));
    /// # Ok::<(), ddcci::Refusal>(())
    /// ```
    pub fn asked(&self, message: &[u8]) -> Option<Asked> {
        let answer = self.answer.err().map_or(0, Refusal::number);
        // SAFETY: pointer and length are those of one slice, which is only read during the call.
        let r = unsafe { raw::ddcci_display_asked(answer, message.as_ptr(), message.len()) };
        Some(match r.command {
            0x01 => Asked::Get { code: r.code },
            0x03 => Asked::Set { code: r.code, value: r.value },
            0x07 => Asked::Timing,
            0x0C => Asked::Save,
            0xF3 => Asked::Text,
            0xE2 => Asked::TableRead { code: r.code },
            0xE7 => Asked::TableWrite { code: r.code },
            _ => return None,
        })
    }
}

/// A display. Its capabilities string and its table are lent to each step.
///
/// ```
/// use ddcci::{Declaration, Display, Reply, Request, Timing, OUTPUT_ROOM, TABLE_ROOM};
///
/// let text = b"(vcp(10 12))";
/// let mut display = Display::start(Timing::default(), text, 32)?;
/// display.declare(Declaration {
///     code: 0x10,
///     readable: true,
///     writable: true,
///     kind: 0,
///     continuous: true,
///     maximum: 100,
///     present: 50,
/// })?;
/// let (mut table, mut out) = ([0; TABLE_ROOM], [0; OUTPUT_ROOM]);
/// let request = Request::Get { code: 0x10 }.to_bytes()?;
/// let step = display.step(text, &mut table, &request, &mut out);
/// let value = Reply::Value { result: 0, code: 0x10, kind: 0, max: 100, present: 50 };
/// assert_eq!(Reply::read(&out[..step.length]), Ok(value));
/// # Ok::<(), ddcci::Refusal>(())
/// ```
#[derive(Clone, PartialEq, Eq)]
pub struct Display(raw::Display);

impl Display {
    /// Starts a display with a capabilities string of at most 4,096 bytes and fragments of 1 to 32 bytes.
    /// No code is declared yet.
    pub fn start(timing: Timing, text: &[u8], fragment_size: u16) -> Result<Display, Refusal> {
        // SAFETY: pointer and length are those of one slice, which is only read during the call.
        let r = unsafe { raw::ddcci_display_start(timing, text.as_ptr(), text.len(), fragment_size) };
        Refusal::check(r.answer)?;
        Ok(Display(r.display))
    }

    /// Declares a VCP code, or changes nothing.
    pub fn declare(&mut self, declaration: Declaration) -> Result<(), Refusal> {
        // SAFETY: both go by value, and a `bool` of Rust is 0 or 1.
        let r = unsafe { raw::ddcci_display_declare(self.0, declaration) };
        self.0 = r.display;
        Refusal::check(r.answer)
    }

    /// Returns how many codes are declared.
    pub fn declared_count(&self) -> u16 {
        // SAFETY: the display goes by value.
        unsafe { raw::ddcci_display_declared_count(self.0) }
    }

    /// Returns the declared codes, rising.
    ///
    /// ```
    /// # use ddcci::{Declaration, Display, Timing};
    /// # let mut display = Display::start(Timing::default(), b"", 32)?;
    /// # for code in [0x60, 0x10] {
    /// #     let (readable, writable, kind, continuous, maximum, present) = (true, true, 0, true, 100, 50);
    /// #     display.declare(Declaration { code, readable, writable, kind, continuous, maximum, present })?;
    /// # }
    /// assert_eq!(display.declared_codes().collect::<Vec<u8>>(), [0x10, 0x60]);
    /// # Ok::<(), ddcci::Refusal>(())
    /// ```
    pub fn declared_codes(&self) -> impl Iterator<Item = u8> + '_ {
        core::iter::successors(self.next_declared(0), |code| self.next_declared(u16::from(*code) + 1))
    }

    /// Returns the least declared code from the given number on.
    pub fn next_declared(&self, from: u16) -> Option<u8> {
        // SAFETY: the display goes by value.
        let code = unsafe { raw::ddcci_display_next_declared(self.0, from) };
        u8::try_from(code).ok()
    }

    /// Answers one message.
    ///
    /// Lent are the capabilities string at its starting length, the table's buffer of [`TABLE_ROOM`] bytes as the last
    /// step left it, and an output of at least [`crate::OUTPUT_ROOM`] bytes.
    ///
    /// [`Step::asked`] tells afterwards what the message was for.
    #[inline]
    pub fn step(&mut self, text: &[u8], table: &mut [u8], message: &[u8], out: &mut [u8]) -> Step {
        // SAFETY: each pointer and its length are those of one slice; the table and the output are borrowed for writing
        // and thus overlap neither each other nor the text nor the message.
        let r = unsafe {
            raw::ddcci_display_step(
                self.0,
                text.as_ptr(),
                text.len(),
                table.as_mut_ptr(),
                table.len(),
                message.as_ptr(),
                message.len(),
                out.as_mut_ptr(),
                out.len(),
            )
        };
        self.0 = r.display;
        let bytes = r.offset..r.offset + r.count;
        let found = match r.sent {
            1 => Some((TextKind::Capabilities, bytes)),
            2 => Some((TextKind::Table, bytes)),
            _ => None,
        };
        Step { answer: Refusal::check(r.answer), length: r.length, found }
    }

    /// Sets each code to the value at its place, one after the other, and writes what each came to into the answers.
    ///
    /// The display and the answers are what that many Set messages give, each stepped by itself. A setting that is
    /// refused, with 8 or 9, is skipped and the next one is tried; the call is `Ok` even if all are. A code may stand
    /// twice: of a kept code the later value that is accepted stands. Answers beyond the codes stay as they were.
    ///
    /// Fewer answers than codes are refused with 1, then more than [`MOST_SETTINGS`] codes, or unequally many codes
    /// and values, with 7. Nothing is tried then, and no answer is written: the answers tell something only after
    /// `Ok`, and only those of the codes.
    ///
    /// ```
    /// use ddcci::{Answer, Refusal};
    /// # use ddcci::{Declaration, Display, Reply, Request, Timing, OUTPUT_ROOM, TABLE_ROOM};
    /// # let mut display = Display::start(Timing::default(), b"", 32)?;
    /// # let (code, readable, writable, kind, continuous, maximum, present) = (0x10, true, true, 0, true, 100, 50);
    /// # display.declare(Declaration { code, readable, writable, kind, continuous, maximum, present })?;
    ///
    /// let codes = [0x10, 0x10, 0x10]; // brightness, which is at most 100
    /// let values = [70, 101, 80];
    /// let mut answers = [Answer::default(); 3];
    /// display.set_all(&codes, &values, &mut answers)?;
    /// assert_eq!(answers.map(Answer::result), [Ok(()), Err(Refusal::ValueTooLarge), Ok(())]);
    ///
    /// let get = Request::Get { code: 0x10 }.to_bytes()?;
    /// # let (mut table, mut out) = ([0; TABLE_ROOM], [0; OUTPUT_ROOM]);
    /// let step = display.step(b"", &mut table, &get, &mut out);
    /// let later = Reply::Value { result: 0, code: 0x10, kind: 0, max: 100, present: 80 };
    /// assert_eq!(Reply::read(&out[..step.length]), Ok(later));
    ///
    /// assert_eq!(display.set_all(&codes, &values, &mut answers[..2]), Err(Refusal::WrongSize));
    /// assert_eq!(display.set_all(&codes, &values[..2], &mut answers), Err(Refusal::WrongField));
    /// # Ok::<(), ddcci::Refusal>(())
    /// ```
    #[inline]
    pub fn set_all(&mut self, codes: &[u8], values: &[u16], answers: &mut [Answer]) -> Result<(), Refusal> {
        // SAFETY: each pointer and its length are those of one slice; the answers, which have the layout of their bytes,
        // are borrowed for writing and thus overlap neither the codes nor the values.
        let r = unsafe {
            raw::ddcci_display_set_all(
                self.0,
                codes.as_ptr(),
                codes.len(),
                values.as_ptr(),
                values.len(),
                answers.as_mut_ptr(),
                answers.len(),
            )
        };
        self.0 = r.display;
        Refusal::check(r.answer)
    }

    /// Writes the profile of the saved values to the start of the output, and returns its length: 7 bytes for each code
    /// that is readable, writable and kept. [`LONGEST_PROFILE`] bytes are always enough.
    pub fn write_profile(&self, out: &mut [u8]) -> Result<usize, Refusal> {
        // SAFETY: pointer and length are those of one slice, which is borrowed for writing and thus overlaps no other.
        let r = unsafe { raw::ddcci_display_write_profile(self.0, out.as_mut_ptr(), out.len()) };
        Refusal::check(r.answer).map(|()| r.length)
    }

    /// Loads a profile: its values become present and saved. A refusal tells the record, and changes nothing.
    ///
    /// ```
    /// # use ddcci::{Declaration, Display, Refusal, Timing};
    /// # let mut display = Display::start(Timing::default(), b"", 32)?;
    /// # let (code, readable, writable, kind, continuous, maximum, present) = (0x10, true, true, 0, true, 100, 50);
    /// # display.declare(Declaration { code, readable, writable, kind, continuous, maximum, present })?;
    /// let mut sheet = [0; 7];
    /// assert_eq!(display.write_profile(&mut sheet)?, 7);
    /// assert_eq!(sheet, [5, 0, 1, 0, 0x10, 50, 0]);
    /// sheet[5] = 101;
    /// let refused = display.load_profile(&sheet).unwrap_err();
    /// assert_eq!((refused.refusal, refused.position), (Refusal::ValueTooLarge, 0));
    /// # Ok::<(), ddcci::Refusal>(())
    /// ```
    pub fn load_profile(&mut self, profile: &[u8]) -> Result<(), RefusedAt> {
        // SAFETY: pointer and length are those of one slice, which is only read during the call.
        let r = unsafe { raw::ddcci_display_load_profile(self.0, profile.as_ptr(), profile.len()) };
        self.0 = r.display;
        RefusedAt::check(r.answer, r.position)
    }
}

impl fmt::Debug for Display {
    fn fmt(&self, f: &mut fmt::Formatter<'_>) -> fmt::Result {
        f.debug_struct("Display")
            .field("declared_count", &self.declared_count())
            .field("capabilities", &self.0.capabilities)
            .field("table", &self.0.table)
            .field("fragment_size", &self.0.fragment_size)
            .finish_non_exhaustive()
    }
}
