//! A slow comparison of two profiles ("settings sheets"), as near to document
//! 02's words as can be, and the profiles on which others are compared with it
//! or with each other.

use crate::line::Random;
use crate::profile_comparison::{Refused, ABSENT};

/// "Length .. kind .. body. Kind 1: code, saved value .. so length 5", and 2 bytes of the length itself.
const RECORD_LEN: usize = 7;

/// A code "in one only or whose value differs .. with both values".
#[derive(Clone, Copy, Debug, PartialEq, Eq)]
pub struct Difference {
    /// The code.
    pub code: u8,
    /// Its value in the first profile, if it is there.
    pub first: Option<u16>,
    /// Its value in the second profile, if it is there.
    pub second: Option<u16>,
}

/// A little-endian number.
fn number(bytes: &[u8]) -> u16 {
    u16::from(bytes[0]) + 256 * u16::from(bytes[1])
}

/// The record with this start, as much of it as the profile has.
fn record(profile: &[u8], start: usize) -> &[u8] {
    &profile[start..profile.len().min(start + RECORD_LEN)]
}

/// "Records: length (2 bytes, little-endian, counting what follows it), kind (2
/// bytes, little-endian), body. Kind 1 .. length 5"; all others are broken.
fn is_broken(record: &[u8]) -> bool {
    record.len() < RECORD_LEN || number(&record[..2]) != 5 || number(&record[2..4]) != 1
}

/// Whether the record with this start, behind whole ones, is not "records, kind
/// 1, rising codes, no code twice".
fn is_refused(profile: &[u8], start: usize) -> bool {
    let this = record(profile, start);
    is_broken(this) || (0..start).step_by(RECORD_LEN).any(|earlier| record(profile, earlier)[4] >= this[4])
}

/// "Each sheet is judged by form (records, kind 1, rising codes, no code twice,
/// else 17 at the record's start), not against a board": the codes with their
/// values, or that start.
pub fn judge(profile: &[u8]) -> Result<Vec<(u8, u16)>, usize> {
    let starts = (0..profile.len()).step_by(RECORD_LEN);
    match starts.clone().find(|&start| is_refused(profile, start)) {
        Some(start) => Err(start),
        None => Ok(starts.map(|start| (profile[start + 4], number(&profile[start + 5..]))).collect()),
    }
}

/// A code's value among these, if it is there.
fn value_of(entries: &[(u8, u16)], code: u8) -> Option<u16> {
    entries.iter().find(|entry| entry.0 == code).map(|entry| entry.1)
}

/// "Exactly the codes that are in one only or whose value differs, in rising
/// order, with both values"; or which profile is refused, 1 or 2, and where.
pub fn compare(first: &[u8], second: &[u8]) -> Result<Vec<Difference>, (u8, usize)> {
    let first = judge(first).map_err(|position| (1, position))?;
    let second = judge(second).map_err(|position| (2, position))?;
    let both = |code| Difference { code, first: value_of(&first, code), second: value_of(&second, code) };
    Ok((0..=255).map(both).filter(|both| both.first != both.second).collect())
}

/// The lent entries of a comparison.
#[derive(Clone, Debug, PartialEq, Eq)]
pub struct Lent {
    /// One code a difference.
    pub codes: Vec<u8>,
    /// Its value in the first profile, or `ABSENT`.
    pub first_values: Vec<u32>,
    /// Its value in the second profile, or `ABSENT`.
    pub second_values: Vec<u32>,
}

impl Lent {
    /// So many entries of each of the three, with numbers that no comparison writes into the values.
    pub fn new(rooms: [usize; 3]) -> Self {
        let [codes, first_values, second_values] = rooms;
        Self {
            codes: vec![0xA5; codes],
            first_values: vec![0xDEAD_BEEF; first_values],
            second_values: vec![0xFEED_F00D; second_values],
        }
    }
}

/// "Refusals: the first sheet's 17, the second's 17 (the answer says which
/// sheet), then 1 if the lent room is too small; nothing is listed."
///
/// The comparison itself is given, so that it may be lent many rooms.
pub fn list(compared: &Result<Vec<Difference>, (u8, usize)>, lent: &mut Lent) -> Result<usize, Refused> {
    let differences = compared.as_ref().map_err(|&(profile, position)| Refused { answer: 17, profile, position })?;
    let room = lent.codes.len().min(lent.first_values.len()).min(lent.second_values.len());
    if room < differences.len() {
        return Err(Refused { answer: 1, profile: 0, position: 0 });
    }
    for (place, difference) in differences.iter().enumerate() {
        lent.codes[place] = difference.code;
        lent.first_values[place] = difference.first.map_or(ABSENT, u32::from);
        lent.second_values[place] = difference.second.map_or(ABSENT, u32::from);
    }
    Ok(differences.len())
}

/// "Turning the first sheet into the second by the listed differences gives its
/// exact bytes": a listed code gets its second value or goes, all others stay.
pub fn turn(first: &[u8], differences: &[Difference]) -> Vec<u8> {
    let first = judge(first).expect("it is accepted");
    let listed = |code| differences.iter().find(|difference| difference.code == code);
    let turned = |code| listed(code).map_or_else(|| value_of(&first, code), |difference| difference.second);
    profile_of((0..=255).filter_map(|code| Some((code, turned(code)?))))
}

/// The bytes of a record.
pub fn record_of(code: u8, value: u16) -> [u8; RECORD_LEN] {
    let [low, high] = value.to_le_bytes();
    [5, 0, 1, 0, code, low, high]
}

/// The profile of these codes and values, in their order.
pub fn profile_of(entries: impl IntoIterator<Item = (u8, u16)>) -> Vec<u8> {
    entries.into_iter().flat_map(|(code, value)| record_of(code, value)).collect()
}

/// The codes of the small profiles: the least, the table's and the greatest.
const SMALL_CODES: [u8; 3] = [0x00, 0xF4, 0xFF];

/// The values of the small profiles: the second and the third differ from the first in one byte.
const SMALL_VALUES: [Option<u16>; 4] = [None, Some(50), Some(51), Some(306)];

/// Every profile in which each of three codes is absent or has one of three values: 64 of them.
pub fn small_profiles() -> Vec<Vec<u8>> {
    let mut all = vec![vec![]];
    for code in SMALL_CODES {
        let with = |value: Option<u16>| value.map_or(vec![], |value| record_of(code, value).to_vec());
        all = all.iter().flat_map(|begun| SMALL_VALUES.map(|value| [begun.clone(), with(value)].concat())).collect();
    }
    all
}

/// A profile of none to all of the codes.
pub fn random_profile(random: &mut Random) -> Vec<u8> {
    let share = [0, 2, 50, 98, 100][random.below(5)];
    let codes: Vec<u8> = (0..=255).filter(|_| random.percent(share)).collect();
    profile_of(codes.into_iter().map(|code| (code, random.word())))
}

/// A profile and another: its neighbour, in which few codes have come, gone or changed, or any one.
pub fn random_pair(random: &mut Random) -> (Vec<u8>, Vec<u8>) {
    let first = random_profile(random);
    let second = if random.percent(70) { neighbour(random, &first) } else { random_profile(random) };
    (first, second)
}

fn neighbour(random: &mut Random, profile: &[u8]) -> Vec<u8> {
    let entries = judge(profile).expect("it is accepted");
    let share = random.below(5);
    let mut changed = |code| {
        let value = value_of(&entries, code);
        let other = if random.percent(60) { Some(random.word()) } else { None };
        if random.percent(share) {
            other
        } else {
            value
        }
    };
    profile_of((0..=255).filter_map(|code| Some((code, changed(code)?))))
}

/// One damage of any kind to a profile. Some leave a profile that is accepted.
pub fn damage(random: &mut Random, profile: &mut Vec<u8>) {
    let records = profile.len() / RECORD_LEN;
    if records == 0 || random.percent(10) {
        let behind = random.between(1, 2 * RECORD_LEN);
        profile.extend((0..behind).map(|_| random.byte()));
        return;
    }
    let (this, other) = (RECORD_LEN * random.below(records), RECORD_LEN * random.below(records));
    match random.below(8) {
        0 => profile[this + random.below(RECORD_LEN)] ^= 1 << random.below(8),
        1 => profile[this + random.below(RECORD_LEN)] = random.byte(),
        2 => profile.truncate(this + random.below(RECORD_LEN)),
        3 => (0..RECORD_LEN).for_each(|at| profile.swap(this + at, other + at)),
        4 => drop(profile.splice(this..this, profile[this..this + RECORD_LEN].to_vec())),
        5 => profile[this + 4] = random.below(usize::from(profile[this + 4]) + 1) as u8,
        6 => profile[this + random.below(4)] = random.between(1, 7) as u8,
        _ => profile[this + [1, 3][random.below(2)]] = 1 << random.below(8),
    }
}
