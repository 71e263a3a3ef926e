//! The refusals of the papers' table of answer numbers.
use core::fmt;

macro_rules! refusals {
    ($($(#[$doc:meta])* $name:ident = $number:literal, $text:literal;)*) => {
        /// Why a call was refused. Each refusal has the number of the papers' table, and leaves what that table says.
        ///
        /// Document 01 has the numbers to 18; document 02 adds to them, and further ones may join.
        #[derive(Debug, Clone, Copy, PartialEq, Eq, Hash)]
        #[repr(u8)]
        #[non_exhaustive]
        pub enum Refusal {
            $($(#[$doc])* $name = $number,)*
        }

        impl Refusal {
            /// Returns the refusal of an answer number; `None` for 0 (done) and for a number outside the table.
            pub fn from_number(number: u8) -> Option<Refusal> {
                match number {
                    $($number => Some(Refusal::$name),)*
                    _ => None,
                }
            }

            fn meaning(self) -> &'static str {
                match self {
                    $(Refusal::$name => $text,)*
                }
            }
        }
    };
}

refusals! {
    /// A lent buffer has the wrong size; of many settings, there are fewer answers than codes; of two profiles, in C,
    /// fewer entries than differences.
    WrongSize = 1,
        "a lent buffer has the wrong size (an output needs 38 bytes, a setting an answer, a difference an entry)";
    /// A message is under 3 bytes.
    TooShort = 2, "the message is under 3 bytes";
    /// The first byte of a message is wrong.
    WrongFirstByte = 3, "the first byte is not the one of this direction";
    /// The length byte is wrong, or the slice does not agree with it.
    WrongLength = 4, "the length byte is wrong, or the slice does not agree with it";
    /// The checksum is wrong.
    WrongChecksum = 5, "the checksum is wrong: ask again";
    /// The command, or in C the number of a text, is not in the table.
    UnknownCommand = 6, "the command or the text's number is not in the table";
    /// The length or a field is wrong for the command; or over 64 settings are given, or unequally many codes and values.
    WrongField = 7, "the length or a field is wrong for the command, or a list of settings is too long or uneven";
    /// The code is not allowed.
    CodeNotAllowed = 8, "the VCP code is not allowed";
    /// A value is above the maximum.
    ValueTooLarge = 9, "the value is above the maximum";
    /// An offset or fragment is not the one wanted.
    NotWanted = 10, "the offset or fragment is not the one wanted";
    /// A text is too long for its room, or a call list is over 1,024 bytes.
    TextTooLong = 11, "the text is too long for its room (a call list has at most 1,024 bytes)";
    /// The null message was read.
    NullMessage = 12, "the display sent the null message: it is busy or does not know the command";
    /// A capabilities string does not follow the grammar.
    WrongGrammar = 13, "the capabilities string does not follow the grammar";
    /// There is no room for a node.
    NoNodeRoom = 14, "there is no room for another node";
    /// Groups nest deeper than 8.
    TooDeep = 15, "groups nest deeper than 8";
    /// The transfer is closed.
    TransferClosed = 16, "the transfer is closed: begin another";
    /// A record of a profile or of a call list is broken, or of a profile missing, too many or, where two are compared,
    /// not rising.
    BrokenRecord = 17, "the profile or call list is broken here: do not use it";
    /// A declaration, timing, fragment size or budget is not allowed.
    NotDeclarable = 18, "the declaration, timing, fragment size or budget is not allowed";
    /// A token stands twice in a call list.
    RepeatedToken = 19, "a token stands twice in the call list: call nobody by it";
    /// A household stands twice in a call list.
    RepeatedHousehold = 20, "a household stands twice in the call list: call nobody by it";
}

impl Refusal {
    /// Returns the number in the papers' table.
    pub fn number(self) -> u8 {
        self as u8
    }

    /// Returns `Ok` for answer 0, else the refusal.
    #[inline]
    pub(crate) fn check(number: u8) -> Result<(), Refusal> {
        match number {
            0 => Ok(()),
            n => Err(Refusal::of(n)),
        }
    }

    #[cold]
    fn of(number: u8) -> Refusal {
        Refusal::from_number(number).expect("the library answers by the table")
    }
}

impl fmt::Display for Refusal {
    fn fmt(&self, f: &mut fmt::Formatter<'_>) -> fmt::Result {
        write!(f, "refused {}: {}", self.number(), self.meaning())
    }
}

impl core::error::Error for Refusal {}

/// For programs that talk to a device file: a refusal is invalid data.
///
/// ```
/// fn brightness(reply: &[u8]) -> std::io::Result<u16> {
///     match ddcci::Reply::read(reply)? {
///         ddcci::Reply::Value { code: 0x10, present, .. } => Ok(present),
///         _ => Err(ddcci::Refusal::NotWanted.into()),
///     }
/// }
/// assert_eq!(brightness(&[0x6E, 0x88, 0x02, 0x00, 0x10, 0x00, 0x00, 0x64, 0x00, 0x32, 0xF2]).unwrap(), 50);
/// assert_eq!(brightness(b"").unwrap_err().to_string(), "refused 2: the message is under 3 bytes");
/// ```
#[cfg(feature = "std")]
impl From<Refusal> for std::io::Error {
    fn from(refusal: Refusal) -> std::io::Error {
        std::io::Error::new(std::io::ErrorKind::InvalidData, refusal)
    }
}

/// What one of many settings came to, as [`Display::set_all`](crate::Display::set_all) answers it: done, or refused
/// with 8 or 9. One that no call has written says nothing: it starts as done.
#[repr(transparent)]
#[derive(Debug, Clone, Copy, PartialEq, Eq, Default)]
pub struct Answer(u8);

impl Answer {
    /// Returns the number of the papers' table: 0, 8 or 9.
    pub fn number(self) -> u8 {
        self.0
    }

    /// Returns `Ok` if the setting was done, else why it was refused.
    pub fn result(self) -> Result<(), Refusal> {
        Refusal::check(self.0)
    }
}

/// Why a capabilities string, a profile or a call list was refused, and where.
#[derive(Debug, Clone, Copy, PartialEq, Eq)]
pub struct RefusedAt {
    /// The refusal: of a capabilities string 11, 13, 14 or 15, of a profile 8, 9 or 17, of a call list 11, 17, 19 or
    /// 20.
    pub refusal: Refusal,
    /// The position in the string, or where the record starts in the profile or the call list.
    pub position: usize,
}

impl RefusedAt {
    /// Returns `Ok` for answer 0, else the refusal with its position.
    #[inline]
    pub(crate) fn check(number: u8, position: usize) -> Result<(), RefusedAt> {
        Refusal::check(number).map_err(|refusal| RefusedAt { refusal, position })
    }
}

impl fmt::Display for RefusedAt {
    fn fmt(&self, f: &mut fmt::Formatter<'_>) -> fmt::Result {
        write!(f, "refused {} at {}: {}", self.refusal.number(), self.position, self.refusal.meaning())
    }
}

impl core::error::Error for RefusedAt {}

/// For programs that talk to a device file: a refusal is invalid data.
#[cfg(feature = "std")]
impl From<RefusedAt> for std::io::Error {
    fn from(refused: RefusedAt) -> std::io::Error {
        std::io::Error::new(std::io::ErrorKind::InvalidData, refused)
    }
}
