//! Two profiles compared.
use core::fmt;
use core::iter::FusedIterator;
use core::ops::Range;

use crate::raw;
use crate::refusal::RefusedAt;

/// The most differences of two profiles: one for each code.
pub const MOST_DIFFERENCES: usize = 256;

/// The room to read a profile from a file: one byte more than the 1,792 of a record for each code. Read into less, a
/// longer file that is cut behind a record could be taken for a profile.
pub const PROFILE_ROOM: usize = 1793;

/// Three buffers that the differences of two profiles are listed in, one entry a difference.
///
/// There is room for all that two profiles can have. The buffers can be used again for the next two.
pub struct DifferenceRoom {
    codes: [u8; MOST_DIFFERENCES],
    first_values: [u32; MOST_DIFFERENCES],
    second_values: [u32; MOST_DIFFERENCES],
}

impl Default for DifferenceRoom {
    fn default() -> Self {
        DifferenceRoom {
            codes: [0; MOST_DIFFERENCES],
            first_values: [0; MOST_DIFFERENCES],
            second_values: [0; MOST_DIFFERENCES],
        }
    }
}

impl fmt::Debug for DifferenceRoom {
    fn fmt(&self, f: &mut fmt::Formatter<'_>) -> fmt::Result {
        f.debug_struct("DifferenceRoom").finish_non_exhaustive()
    }
}

/// A code that is in one of two profiles only, or whose value differs. It is shown as document 02 writes it.
///
/// ```
/// let brighter = ddcci::Difference { code: 0x10, first: Some(50), second: Some(70) };
/// let gone = ddcci::Difference { code: 0xAC, first: Some(65535), second: None };
/// assert_eq!((brighter.to_string(), gone.to_string()), ("10 50 70".into(), "AC 65535 -".into()));
/// ```
#[derive(Debug, Clone, Copy, PartialEq, Eq, Hash)]
pub struct Difference {
    /// The VCP code.
    pub code: u8,
    /// Its value in the first profile; `None` where that does not have the code.
    pub first: Option<u16>,
    /// Its value in the second profile; `None` where that does not have the code.
    pub second: Option<u16>,
}

impl fmt::Display for Difference {
    fn fmt(&self, f: &mut fmt::Formatter<'_>) -> fmt::Result {
        write!(f, "{:02X}", self.code)?;
        for value in [self.first, self.second] {
            match value {
                Some(value) => write!(f, " {value}")?,
                None => f.write_str(" -")?,
            }
        }
        Ok(())
    }
}

/// The differences of two profiles, by rising codes.
#[derive(Clone, Copy)]
pub struct Differences<'a> {
    room: &'a DifferenceRoom,
    count: usize,
}

impl<'a> Differences<'a> {
    /// Returns the number of differences, at most [`MOST_DIFFERENCES`].
    pub fn len(&self) -> usize {
        self.count
    }

    /// Returns whether there is no difference: the two profiles have the same bytes.
    pub fn is_empty(&self) -> bool {
        self.count == 0
    }

    /// Returns all differences, by rising codes.
    pub fn iter(&self) -> DifferencesIter<'a> {
        DifferencesIter { room: self.room, left: 0..self.count }
    }
}

/// The differences of two profiles one after the other, by rising codes.
#[derive(Clone)]
pub struct DifferencesIter<'a> {
    room: &'a DifferenceRoom,
    left: Range<usize>,
}

impl Iterator for DifferencesIter<'_> {
    type Item = Difference;

    fn next(&mut self) -> Option<Difference> {
        self.left.next().map(|at| self.room.difference(at))
    }

    fn size_hint(&self) -> (usize, Option<usize>) {
        self.left.size_hint()
    }
}

impl DoubleEndedIterator for DifferencesIter<'_> {
    fn next_back(&mut self) -> Option<Difference> {
        self.left.next_back().map(|at| self.room.difference(at))
    }
}

impl ExactSizeIterator for DifferencesIter<'_> {}

impl FusedIterator for DifferencesIter<'_> {}

impl fmt::Debug for DifferencesIter<'_> {
    fn fmt(&self, f: &mut fmt::Formatter<'_>) -> fmt::Result {
        f.debug_list().entries(self.clone()).finish()
    }
}

impl<'a> IntoIterator for Differences<'a> {
    type Item = Difference;
    type IntoIter = DifferencesIter<'a>;

    fn into_iter(self) -> DifferencesIter<'a> {
        self.iter()
    }
}

impl<'a> IntoIterator for &Differences<'a> {
    type Item = Difference;
    type IntoIter = DifferencesIter<'a>;

    fn into_iter(self) -> DifferencesIter<'a> {
        self.iter()
    }
}

impl DifferenceRoom {
    fn difference(&self, at: usize) -> Difference {
        // What stands for a value that is not there is 65,536.
        let value = |value: u32| u16::try_from(value).ok();
        Difference { code: self.codes[at], first: value(self.first_values[at]), second: value(self.second_values[at]) }
    }
}

impl fmt::Debug for Differences<'_> {
    fn fmt(&self, f: &mut fmt::Formatter<'_>) -> fmt::Result {
        f.debug_list().entries(self.iter()).finish()
    }
}

/// Why two profiles were not compared: which of them is refused, and where.
///
/// The refusal is 17, and the position is where the record starts that is cut, has another length or kind, or has a
/// code that is not above the one before it.
#[derive(Debug, Clone, Copy, PartialEq, Eq)]
pub enum RefusedProfile {
    /// The first profile is refused, whatever the second is.
    First(RefusedAt),
    /// The second profile is refused.
    Second(RefusedAt),
}

impl RefusedProfile {
    /// Returns the refusal with its position, of whichever profile it is.
    pub fn refused(&self) -> RefusedAt {
        match *self {
            RefusedProfile::First(refused) | RefusedProfile::Second(refused) => refused,
        }
    }
}

impl fmt::Display for RefusedProfile {
    fn fmt(&self, f: &mut fmt::Formatter<'_>) -> fmt::Result {
        match self {
            RefusedProfile::First(refused) => write!(f, "the first profile: {refused}"),
            RefusedProfile::Second(refused) => write!(f, "the second profile: {refused}"),
        }
    }
}

impl core::error::Error for RefusedProfile {}

/// For programs that read profiles from files: a refusal is invalid data.
#[cfg(feature = "std")]
impl From<RefusedProfile> for std::io::Error {
    fn from(refused: RefusedProfile) -> std::io::Error {
        std::io::Error::new(std::io::ErrorKind::InvalidData, refused)
    }
}

/// Compares two profiles: lists exactly the codes that are in one only or whose value differs, with both values.
///
/// A profile is judged by its form alone, not against a display: it is whole records `05 00 01 00`, code, value with
/// the lower byte first, and their codes rise; any code may be there, F4 too. The empty profile is accepted. No
/// difference means that the profiles have the same bytes. Giving each listed code its second value in the first
/// profile, or taking it out where that is `None`, makes the second.
///
/// The first profile is judged before the second. A refusal leaves the room as it was.
///
/// ```
/// use ddcci::{compare_profiles, Difference, DifferenceRoom, RefusedProfile};
///
/// let evening = [5, 0, 1, 0, 0x10, 50, 0, 5, 0, 1, 0, 0x12, 80, 0]; // brightness 50, contrast 80
/// let mut morning = [5, 0, 1, 0, 0x10, 70, 0, 5, 0, 1, 0, 0x60, 15, 0]; // brightness 70, input 15
/// let mut room = DifferenceRoom::default();
/// let changed = compare_profiles(&evening, &morning, &mut room)?;
/// assert_eq!(changed.iter().next(), Some(Difference { code: 0x10, first: Some(50), second: Some(70) }));
/// let mut lines = String::new();
/// for difference in changed {
///     lines += &format!("{difference}\n");
/// }
/// assert_eq!(lines, "10 50 70\n12 80 -\n60 - 15\n");
///
/// assert!(compare_profiles(&evening, &evening, &mut room)?.is_empty());
///
/// morning[11] = 0x10; // brightness again: the codes do not rise
/// let refused = compare_profiles(&evening, &morning, &mut room).unwrap_err();
/// assert!(matches!(refused, RefusedProfile::Second(_)));
/// assert_eq!(refused.refused().position, 7);
/// assert_eq!(
///     refused.to_string(),
///     "the second profile: refused 17 at 7: the profile or call list is broken here: do not use it"
/// );
/// # Ok::<(), ddcci::RefusedProfile>(())
/// ```
pub fn compare_profiles<'a>(
    first: &[u8],
    second: &[u8],
    room: &'a mut DifferenceRoom,
) -> Result<Differences<'a>, RefusedProfile> {
    let DifferenceRoom { codes, first_values, second_values } = &mut *room;
    // SAFETY: each pointer and its length are those of one slice; the three buffers are borrowed for writing and thus
    // overlap neither each other nor the profiles.
    let r = unsafe {
        raw::ddcci_compare_profiles(
            first.as_ptr(),
            first.len(),
            second.as_ptr(),
            second.len(),
            codes.as_mut_ptr(),
            codes.len(),
            first_values.as_mut_ptr(),
            first_values.len(),
            second_values.as_mut_ptr(),
            second_values.len(),
        )
    };
    // The room is never too small, so a refusal is of one of the two profiles.
    let which = if r.profile == 1 { RefusedProfile::First } else { RefusedProfile::Second };
    RefusedAt::check(r.answer, r.position).map_err(which)?;
    Ok(Differences { room, count: r.differences })
}
