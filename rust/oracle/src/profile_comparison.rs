//! Comparing two profiles ("settings sheets"), document 02's K4.
//!
//! "We want a compare tool over two settings sheets ..: exactly the codes that
//! are in one only or whose value differs, in rising order, with both values."

use crate::answer;
use crate::profile::RECORD_LEN;

/// "-" where absent: no value is 65,536.
pub const ABSENT: u32 = 65_536;

/// "It has room for 256 codes": there are no more.
const CODES: usize = 256;

/// Length 5, kind 1.
const HEAD: [u8; 4] = [5, 0, 1, 0];

type Record = [u8; RECORD_LEN];

/// Why two profiles are not compared.
#[derive(Clone, Copy, Debug, PartialEq, Eq)]
pub struct Refused {
    /// 17 or 1.
    pub answer: u8,
    /// "The answer says which sheet": 1 the first, 2 the second; 0 where it is the room.
    pub profile: u8,
    /// Where the refused record starts; 0 where it is the room.
    pub position: usize,
}

#[inline]
fn head([l0, l1, k0, k1, ..]: Record) -> [u8; 4] {
    [l0, l1, k0, k1]
}

#[inline]
fn code([_, _, _, _, code, ..]: Record) -> u8 {
    code
}

#[inline]
fn value([.., low, high]: Record) -> u32 {
    u32::from(u16::from_le_bytes([low, high]))
}

/// "Each sheet is judged by form (records, kind 1, rising codes, no code twice,
/// else 17 at the record's start)": its records, or that start.
#[inline]
fn records(profile: &[u8]) -> Result<&[Record], usize> {
    let (records, rest) = profile.as_chunks::<RECORD_LEN>();
    // The least code that may come next.
    let mut least = 0;
    for (number, &record) in records.iter().enumerate() {
        let this = u16::from(code(record));
        if head(record) != HEAD || this < least {
            return Err(number * RECORD_LEN);
        }
        least = this + 1;
    }
    // A cut record stands behind all whole ones.
    if rest.is_empty() {
        Ok(records)
    } else {
        Err(profile.len() - rest.len())
    }
}

/// Gives each difference, by rising codes: the code, and its value in the first
/// and in the second profile.
///
/// A merge: rising codes meet once. Records of one code are the same exactly if
/// its values are.
#[inline]
fn each_difference(first: &[Record], second: &[Record], mut found: impl FnMut(u8, u32, u32)) {
    let (mut i, mut j) = (0, 0);
    while let (Some(&one), Some(&other)) = (first.get(i), second.get(j)) {
        if code(one) == code(other) {
            if one != other {
                found(code(one), value(one), value(other));
            }
            i += 1;
            j += 1;
        } else if code(one) < code(other) {
            found(code(one), value(one), ABSENT);
            i += 1;
        } else {
            found(code(other), ABSENT, value(other));
            j += 1;
        }
    }
    for &one in &first[i..] {
        found(code(one), value(one), ABSENT);
    }
    for &other in &second[j..] {
        found(code(other), ABSENT, value(other));
    }
}

#[inline]
fn count(first: &[Record], second: &[Record]) -> usize {
    let mut count = 0;
    each_difference(first, second, |_, _, _| count += 1);
    count
}

/// Compares two profiles: how many differences stand at the start of the lent
/// entries, or the refusal, which leaves them all as they were. This is the
/// baseline of speed.
///
/// "Refusals: the first sheet's 17, the second's 17 (the answer says which
/// sheet), then 1 if the lent room is too small; nothing is listed."
pub fn compare(
    first: &[u8],
    second: &[u8],
    codes: &mut [u8],
    first_values: &mut [u32],
    second_values: &mut [u32],
) -> Result<usize, Refused> {
    let broken = |profile| move |position| Refused { answer: answer::RECORD, profile, position };
    let first = records(first).map_err(broken(1))?;
    let second = records(second).map_err(broken(2))?;
    let room = codes.len().min(first_values.len()).min(second_values.len());
    // Room for every code is always enough; any other is counted for before an entry is written.
    if room < CODES && room < count(first, second) {
        return Err(Refused { answer: answer::SIZE, profile: 0, position: 0 });
    }
    let mut at = 0;
    each_difference(first, second, |code, first, second| {
        (codes[at], first_values[at], second_values[at]) = (code, first, second);
        at += 1;
    });
    Ok(at)
}
