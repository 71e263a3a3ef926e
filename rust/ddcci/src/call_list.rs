//! Call lists, as a gate post checks them before it calls anyone.
use core::fmt;

use crate::raw;
use crate::refusal::RefusedAt;

/// The most bytes of a call list.
pub const LONGEST_CALL_LIST: usize = 1024;

/// The most entries of a call list: those of 85 records, which are 1,020 bytes.
pub const MOST_ENTRIES: usize = 85;

/// An entry of a call list: a token, and the household that it calls.
#[repr(C)]
#[derive(Debug, Clone, Copy, PartialEq, Eq, Hash)]
pub struct Entry {
    /// The token.
    pub token: u32,
    /// The household.
    pub household: u32,
}

/// A call list that was checked: its records are whole, no token stands twice and no household stands twice.
///
/// A record has 12 bytes: its length 10, its kind 32, the token and the household, each with its lowest byte first.
///
/// A gate post reads the list with a [`Transfer`](crate::Transfer) of the table, and checks what
/// [`finish`](crate::Transfer::finish) returns before it calls anyone.
///
/// ```
/// use ddcci::{CallList, Refusal};
///
/// let mut list = [
///     10, 0, 32, 0, 102, 0, 0, 0, 0xD0, 0x07, 0, 0, // token 102 for household 2000
///     10, 0, 32, 0, 101, 0, 0, 0, 0xEF, 0x07, 0, 0, // token 101 for household 2031
/// ];
/// let calls = CallList::read(&list)?;
/// let tokens: Vec<u32> = calls.entries().map(|entry| entry.token).collect();
/// assert_eq!(tokens, [102, 101]);
/// assert_eq!(calls.position_of(2031), Some(1));
/// assert_eq!(calls.position_of(2001), None);
///
/// list[20] = 0xD0; // the second record calls household 2000 again
/// let refused = CallList::read(&list).unwrap_err();
/// assert_eq!((refused.refusal, refused.position), (Refusal::RepeatedHousehold, 12));
/// assert_eq!(
///     refused.to_string(),
///     "refused 20 at 12: a household stands twice in the call list: call nobody by it"
/// );
/// # Ok::<(), ddcci::RefusedAt>(())
/// ```
#[derive(Clone, Copy, PartialEq, Eq)]
pub struct CallList<'a> {
    list: &'a [u8],
    count: usize,
}

impl<'a> CallList<'a> {
    /// Checks a call list. The empty one is accepted.
    ///
    /// More than [`LONGEST_CALL_LIST`] bytes are refused with 11 at 0. Else the position is where the first record
    /// starts that is broken (17), repeats the token of an earlier one (19) or the household of an earlier one (20),
    /// in that order for one record.
    pub fn read(list: &'a [u8]) -> Result<CallList<'a>, RefusedAt> {
        // SAFETY: pointer and length are those of one slice.
        let r = unsafe { raw::ddcci_check_call_list(list.as_ptr(), list.len()) };
        RefusedAt::check(r.answer, r.position).map(|()| CallList { list, count: r.entries })
    }

    /// Returns the number of entries, at most [`MOST_ENTRIES`].
    pub fn len(&self) -> usize {
        self.count
    }

    /// Returns whether there is no entry.
    pub fn is_empty(&self) -> bool {
        self.count == 0
    }

    /// Returns the entry with this number, counted from 0.
    pub fn entry(&self, number: usize) -> Option<Entry> {
        (number < self.count).then(|| self.at(number))
    }

    /// Returns all entries, in list order.
    pub fn entries(&self) -> impl DoubleEndedIterator<Item = Entry> + ExactSizeIterator + 'a {
        let all = *self;
        (0..self.count).map(move |number| all.at(number))
    }

    /// Returns the number of the entry that calls this household, counted from 0.
    ///
    /// The library checks the list again for it. To ask for many households, go through [`CallList::entries`] once.
    pub fn position_of(&self, household: u32) -> Option<usize> {
        // SAFETY: pointer and length are those of one slice.
        let r = unsafe { raw::ddcci_find_household(self.list.as_ptr(), self.list.len(), household) };
        (r.there == 1).then_some(r.number)
    }

    fn at(&self, number: usize) -> Entry {
        // SAFETY: pointer and length are those of one slice; the number may be any.
        unsafe { raw::ddcci_call_list_entry(self.list.as_ptr(), self.list.len(), number) }
    }
}

impl fmt::Debug for CallList<'_> {
    fn fmt(&self, f: &mut fmt::Formatter<'_>) -> fmt::Result {
        f.debug_list().entries(self.entries()).finish()
    }
}
