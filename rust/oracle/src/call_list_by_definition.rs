//! A slow check of call lists, as near to document 02's words as can be, and
//! the lists on which others are compared with it or with each other.

use crate::call_list::Entry;
use crate::line::Random;

/// "12 bytes in all."
const RECORD_LEN: usize = 12;

/// A little-endian number.
fn number(bytes: &[u8]) -> u32 {
    bytes.iter().rev().fold(0, |number, &byte| number * 256 + u32::from(byte))
}

/// The record with this start, as much of it as the list has.
fn record(list: &[u8], start: usize) -> &[u8] {
    &list[start..list.len().min(start + RECORD_LEN)]
}

/// "Body token and household, four bytes each, little-endian."
fn body(record: &[u8]) -> Entry {
    Entry { token: number(&record[4..8]), household: number(&record[8..12]) }
}

/// "Records of kind 32 .. so length 10 and 12 bytes in all"; all others are broken.
fn is_broken(record: &[u8]) -> bool {
    record.len() < RECORD_LEN || number(&record[..2]) != 10 || number(&record[2..4]) != 32
}

/// Why the record with this start is refused, if it is.
fn refusal(list: &[u8], start: usize) -> Option<u8> {
    let this = record(list, start);
    if is_broken(this) {
        return Some(17);
    }
    let mut earlier = (0..start).step_by(RECORD_LEN).map(|start| body(record(list, start)));
    if earlier.clone().any(|entry| entry.token == body(this).token) {
        return Some(19);
    }
    earlier.any(|entry| entry.household == body(this).household).then_some(20)
}

/// "The refusal gives the start of the first record that is broken (17) or that
/// repeats a token (19) or a household (20) of an earlier one, in that order for
/// one record. Over 1,024 bytes is 11 at 0, before the others."
pub fn check(list: &[u8]) -> Result<Vec<Entry>, (u8, usize)> {
    if list.len() > 1024 {
        return Err((11, 0));
    }
    let starts = (0..list.len()).step_by(RECORD_LEN);
    match starts.clone().find_map(|start| Some((refusal(list, start)?, start))) {
        Some(refused) => Err(refused),
        None => Ok(starts.map(|start| body(record(list, start))).collect()),
    }
}

/// The tokens of the small lists: the second and the third differ from the first in one byte.
const TOKENS: [u32; 3] = [0x0000_0001, 0x0000_0101, 0x0001_0001];

/// The households of the small lists: the second and the third differ from the first, which is a token too, in one
/// byte.
pub const HOUSEHOLDS: [u32; 3] = [0x0000_0001, 0x0000_0002, 0x0100_0001];

/// Lengths and kinds that are wrong in one byte each.
const WRONG_HEADS: [[u8; 4]; 4] = [[9, 0, 32, 0], [10, 1, 32, 0], [10, 0, 0x32, 0], [10, 0, 32, 1]];

/// The bytes of a record.
fn bytes_of(head: [u8; 4], token: u32, household: u32) -> Vec<u8> {
    [head, token.to_le_bytes(), household.to_le_bytes()].concat()
}

/// The records of the small lists: every token with every household, and the wrong heads.
fn small_records() -> Vec<Vec<u8>> {
    let pairs = TOKENS.iter().flat_map(|&token| HOUSEHOLDS.map(|household| (token, household)));
    let good = pairs.map(|(token, household)| bytes_of([10, 0, 32, 0], token, household));
    good.chain(WRONG_HEADS.map(|head| bytes_of(head, TOKENS[1], HOUSEHOLDS[1]))).collect()
}

/// Visits every list of up to so many small records, each also with 1 to 11 bytes of another record behind it.
pub fn every_small_list(most: usize, visit: &mut impl FnMut(&[u8])) {
    grow(&mut vec![], most, &small_records(), visit);
}

fn grow(list: &mut Vec<u8>, more: usize, records: &[Vec<u8>], visit: &mut impl FnMut(&[u8])) {
    let length = list.len();
    for cut in 0..RECORD_LEN {
        list.extend(&records[0][..cut]);
        visit(list);
        list.truncate(length);
    }
    if more == 0 {
        return;
    }
    for record in records {
        list.extend(record);
        grow(list, more - 1, records, visit);
        list.truncate(length);
    }
}

/// A number spread over four bytes; different numbers give different ones.
fn spread(number: usize) -> u32 {
    (number as u32).wrapping_mul(0x9E37_79B1)
}

/// A list of up to 90 records: one in a hundred repeats a token and one in a hundred a household, one list in five has
/// a damaged byte, one in five is cut.
pub fn random_list(random: &mut Random) -> Vec<u8> {
    let mut list = vec![];
    for number in 0..random.below(91) {
        let mut this_or_earlier = || if random.percent(1) { random.below(number + 1) } else { number };
        let (token, household) = (spread(this_or_earlier()), spread(1000 + this_or_earlier()));
        list.extend(bytes_of([10, 0, 32, 0], token, household));
    }
    if random.percent(20) && !list.is_empty() {
        let at = random.below(list.len());
        list[at] = random.byte();
    }
    if random.percent(20) {
        list.truncate(random.below(list.len() + 1));
    }
    list
}

/// A household that such a list may have, or has nowhere.
pub fn random_household(random: &mut Random) -> u32 {
    spread(1000 + random.below(180))
}
