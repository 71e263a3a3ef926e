//! The gate posts' check of a call list, document 02's K9.
//!
//! "Read a call list as records of kind 32, body token and household, four
//! bytes each, little-endian, so length 10 and 12 bytes in all."

use crate::{answer, TABLE_LIMIT};

/// The bytes of one record: its length field and the 10 bytes it counts.
pub const RECORD_LEN: usize = 12;

/// "At most 1,024 bytes (85 records)."
pub const ENTRY_LIMIT: usize = TABLE_LIMIT / RECORD_LEN;

/// Length 10, kind 32.
const HEAD: [u8; 4] = [10, 0, 32, 0];

/// The body of one record.
#[derive(Clone, Copy, Debug, PartialEq, Eq)]
pub struct Entry {
    /// The token.
    pub token: u32,
    /// The household.
    pub household: u32,
}

/// The entries read so far, tokens and households apart: each is searched from its first to its last.
struct Entries {
    count: usize,
    tokens: [u32; ENTRY_LIMIT],
    households: [u32; ENTRY_LIMIT],
}

impl Entries {
    #[inline]
    fn none() -> Self {
        Self { count: 0, tokens: [0; ENTRY_LIMIT], households: [0; ENTRY_LIMIT] }
    }

    #[inline]
    fn tokens(&self) -> &[u32] {
        &self.tokens[..self.count]
    }

    #[inline]
    fn households(&self) -> &[u32] {
        &self.households[..self.count]
    }

    #[inline]
    fn push(&mut self, entry: Entry) {
        self.tokens[self.count] = entry.token;
        self.households[self.count] = entry.household;
        self.count += 1;
    }

    /// Reads a list into no entries: nothing, or the refusal with its place.
    ///
    /// A record is judged before anything after it, so the first bad one
    /// decides; one record is judged for 17, then 19, then 20.
    #[inline]
    fn read(&mut self, list: &[u8]) -> Result<(), (u8, usize)> {
        if list.len() > TABLE_LIMIT {
            return Err((answer::TOO_LONG, 0));
        }
        let (records, rest) = list.as_chunks::<RECORD_LEN>();
        for &[l0, l1, k0, k1, t0, t1, t2, t3, h0, h1, h2, h3] in records {
            let place = self.count * RECORD_LEN;
            let entry =
                Entry { token: u32::from_le_bytes([t0, t1, t2, t3]), household: u32::from_le_bytes([h0, h1, h2, h3]) };
            if [l0, l1, k0, k1] != HEAD {
                return Err((answer::RECORD, place));
            }
            if self.tokens().contains(&entry.token) {
                return Err((answer::REPEATED_TOKEN, place));
            }
            if self.households().contains(&entry.household) {
                return Err((answer::REPEATED_HOUSEHOLD, place));
            }
            self.push(entry);
        }
        // A cut record stands behind all whole ones.
        if rest.is_empty() {
            Ok(())
        } else {
            Err((answer::RECORD, list.len() - rest.len()))
        }
    }
}

/// "Accept exactly when the list is at most 1,024 bytes (85 records), every
/// record is whole, no token stands twice and no household stands twice. The
/// refusal gives the start of the first record that is broken (17) or that
/// repeats a token (19) or a household (20) of an earlier one, in that order
/// for one record. Over 1,024 bytes is 11 at 0, before the others."
pub fn check(list: &[u8]) -> Result<Vec<Entry>, (u8, usize)> {
    let mut entries = Entries::none();
    entries.read(list)?;
    let pairs = entries.tokens().iter().zip(entries.households());
    Ok(pairs.map(|(&token, &household)| Entry { token, household }).collect())
}

/// The number of entries, or the same refusal; nothing is kept. This is the
/// baseline of speed.
pub fn judge(list: &[u8]) -> Result<usize, (u8, usize)> {
    let mut entries = Entries::none();
    entries.read(list)?;
    Ok(entries.count)
}

/// "A query answers a household's position (records counted from 0), or that it
/// isn't there; on a list that isn't accepted it gives the same refusal."
pub fn find(list: &[u8], household: u32) -> Result<Option<usize>, (u8, usize)> {
    let mut entries = Entries::none();
    entries.read(list)?;
    Ok(entries.households().iter().position(|&called| called == household))
}
