//! The proved check of call lists against the oracle's: the same answer, entries, position and number, through the C
//! functions and through the crate.
mod common;
use common::rounds;
use ddcci::{CallList, Entry, LONGEST_CALL_LIST, MOST_ENTRIES};
use oracle::call_list as slow;
use oracle::call_list_by_definition::{every_small_list, random_household, random_list, HOUSEHOLDS};
use oracle::line::Random;

#[repr(C)]
#[derive(Debug, PartialEq, Eq)]
struct Checked {
    answer: u8,
    entries: usize,
    position: usize,
}

#[repr(C)]
#[derive(Debug, PartialEq, Eq)]
struct Found {
    answer: u8,
    there: u8,
    number: usize,
    position: usize,
}

extern "C" {
    fn ddcci_check_call_list(list: *const u8, list_length: usize) -> Checked;
    fn ddcci_find_household(list: *const u8, list_length: usize, household: u32) -> Found;
    fn ddcci_call_list_entry(list: *const u8, list_length: usize, number: usize) -> Entry;
}

const NO_ENTRY: Entry = Entry { token: 0, household: 0 };

fn checked(list: &[u8]) -> Checked {
    // SAFETY: pointer and length are those of one slice.
    unsafe { ddcci_check_call_list(list.as_ptr(), list.len()) }
}

fn found(list: &[u8], household: u32) -> Found {
    // SAFETY: pointer and length are those of one slice.
    unsafe { ddcci_find_household(list.as_ptr(), list.len(), household) }
}

fn entry(list: &[u8], number: usize) -> Entry {
    // SAFETY: pointer and length are those of one slice; the number may be any.
    unsafe { ddcci_call_list_entry(list.as_ptr(), list.len(), number) }
}

/// So many records: token 500 + i, and household 7000 + 3 i.
fn good_list(records: u32) -> Vec<u8> {
    (0..records).flat_map(|i| record(500 + i, 7000 + 3 * i)).collect()
}

fn record(token: u32, household: u32) -> Vec<u8> {
    [[10, 0, 32, 0], token.to_le_bytes(), household.to_le_bytes()].concat()
}

/// Both check the list alike, and on an accepted one give the same entries. Returns the answer.
fn check_alike(list: &[u8]) -> u8 {
    let theirs = slow::check(list);
    let ours = CallList::read(list).map_err(|refused| (refused.refusal.number(), refused.position));
    match theirs {
        Ok(theirs) => {
            assert_eq!(checked(list), Checked { answer: 0, entries: theirs.len(), position: list.len() });
            entries_alike(list, ours.unwrap(), &theirs);
            0
        }
        Err((answer, position)) => {
            assert_eq!(checked(list), Checked { answer, entries: 0, position }, "{list:02X?}");
            assert_eq!(ours, Err((answer, position)));
            answer
        }
    }
}

/// The entries of an accepted list, by number, in order, and from the last.
fn entries_alike(list: &[u8], ours: CallList, theirs: &[slow::Entry]) {
    let theirs: Vec<Entry> = theirs.iter().map(|e| Entry { token: e.token, household: e.household }).collect();
    assert_eq!((ours.len(), ours.is_empty(), ours.entries().len()), (theirs.len(), list.is_empty(), theirs.len()));
    assert_eq!(ours.entries().collect::<Vec<_>>(), theirs);
    assert!(ours.entries().rev().eq(theirs.iter().rev().copied()));
    for (number, &one) in theirs.iter().enumerate() {
        assert_eq!((ours.entry(number), entry(list, number)), (Some(one), one));
    }
    assert_eq!((ours.entry(theirs.len()), entry(list, theirs.len())), (None, NO_ENTRY));
}

/// Both find the household alike, or refuse the list alike.
fn find_alike(list: &[u8], household: u32) {
    let (answer, there, number, position) = match slow::find(list, household) {
        Ok(Some(number)) => (0, 1, number, 0),
        Ok(None) => (0, 0, 0, 0),
        Err((answer, position)) => (answer, 0, 0, position),
    };
    assert_eq!(found(list, household), Found { answer, there, number, position }, "{household:X} in {list:02X?}");
    if let Ok(ours) = CallList::read(list) {
        assert_eq!(ours.position_of(household), (there == 1).then_some(number));
    }
}

/// Every household of the list is found, and numbers near it that are no household are not.
fn find_all_alike(list: &[u8]) {
    for record in list.chunks_exact(12) {
        let household = u32::from_le_bytes([record[8], record[9], record[10], record[11]]);
        for near in [household, household ^ 1, household ^ 0x8000_0000, household.swap_bytes()] {
            find_alike(list, near);
        }
    }
    find_alike(list, 0);
    find_alike(list, u32::MAX);
}

/// All lists of up to 4 records of 13, with every tail of 0 to 11 bytes.
#[test]
fn every_small_list_alike() {
    let mut answers = [0usize; 21];
    every_small_list(4, &mut |list| {
        answers[usize::from(check_alike(list))] += 1;
        for household in HOUSEHOLDS {
            find_alike(list, household);
        }
        find_alike(list, 0);
    });
    // Accepted with 0 to 3 records: 1 + 9 + 9 * 4 + 9 * 4 * 1; a fourth token there is not.
    assert_eq!(answers[0], 82);
    for answer in [17, 19, 20] {
        assert!(answers[answer] > 1000, "answer {answer}: {answers:?}");
    }
}

#[test]
fn random_lists_alike() {
    let mut r = Random::new(19);
    let mut answers = [0usize; 21];
    for _ in 0..rounds(5_000) {
        let list = random_list(&mut r);
        answers[usize::from(check_alike(&list))] += 1;
        for _ in 0..4 {
            find_alike(&list, random_household(&mut r));
        }
        if r.percent(5) {
            find_all_alike(&list);
        }
    }
    for answer in [0, 11, 17, 19, 20] {
        assert!(answers[answer] > 100, "answer {answer}: {answers:?}");
    }
}

/// Each byte of a short list takes each value, and each bit of the longest list is flipped.
#[test]
fn every_damaged_byte_alike() {
    let short = [record(1, 0x0102_0304), record(0x0100, 0x0102_0305), record(0x0101, 0x0202_0304)].concat();
    for at in 0..short.len() {
        for byte in 0..=255 {
            let mut damaged = short.clone();
            damaged[at] = byte;
            check_alike(&damaged);
            find_alike(&damaged, 0x0102_0304);
        }
    }
    let long = good_list(85);
    for at in 0..long.len() {
        for bit in 0..8 {
            let mut damaged = long.clone();
            damaged[at] ^= 1 << bit;
            check_alike(&damaged);
        }
    }
}

/// Every beginning of the longest list, and of one whose records 40 and 60 repeat a household and a token.
#[test]
fn every_prefix_alike() {
    let good = good_list(85);
    let mut repeats = good.clone();
    repeats.copy_within(12 + 8..12 + 12, 40 * 12 + 8);
    repeats.copy_within(12 + 4..12 + 8, 60 * 12 + 4);
    for length in 0..=good.len() {
        let cut = !length.is_multiple_of(12);
        assert_eq!(check_alike(&good[..length]), if cut { 17 } else { 0 });
        let wanted = if length >= 41 * 12 { 20 } else { check_alike(&good[..length]) };
        assert_eq!(check_alike(&repeats[..length]), wanted);
    }
    find_all_alike(&good);
    find_all_alike(&repeats);
}

/// In each pair of the longest list's records the later one gets the other's token, and then its household.
#[test]
fn every_repeat_of_the_longest_list() {
    let good = good_list(85);
    for later in 1..85 {
        for earlier in 0..later {
            for (field, answer) in [(4, 19), (8, 20)] {
                let mut list = good.clone();
                list.copy_within(12 * earlier + field..12 * earlier + field + 4, 12 * later + field);
                assert_eq!(checked(&list), Checked { answer, entries: 0, position: 12 * later });
                assert_eq!(slow::judge(&list), Err((answer, 12 * later)));
            }
        }
    }
}

#[test]
fn lengths_around_the_limit() {
    assert_eq!((LONGEST_CALL_LIST, MOST_ENTRIES), (1024, 85));
    let long = good_list(100);
    let mut broken = long.clone();
    broken[0] = 0;
    for length in 1000..=1100 {
        for list in [&long[..length], &broken[..length], &vec![0; length], &vec![0xFF; length]] {
            let answer = check_alike(list);
            assert_eq!(answer == 11, length > 1024, "{length} bytes: {answer}");
            find_alike(list, 7000);
        }
    }
    assert_eq!(check_alike(&long[..1020]), 0);
    assert_eq!(checked(&long[..1024]), Checked { answer: 17, entries: 0, position: 1020 });
    assert_eq!(checked(&broken[..1025]), Checked { answer: 11, entries: 0, position: 0 });
    assert_eq!(check_alike(&vec![0; 1 << 20]), 11);
}

/// A list may stand at any address.
#[test]
fn every_address() {
    let list = good_list(85);
    for offset in 0..16 {
        let mut bytes = vec![0xFF; offset];
        bytes.extend(&list);
        assert_eq!(check_alike(&bytes[offset..]), 0);
        find_alike(&bytes[offset..], 7000 + 3 * 84);
    }
}

/// Numbers past the entries, among them those whose place in bytes, 12 times the number, is past all numbers and would
/// come out as an entry's again.
#[test]
fn entries_that_are_not_there() {
    let largest = usize::MAX;
    for records in [0, 1, 2, 84, 85] {
        let list = good_list(records);
        let calls = CallList::read(&list).unwrap();
        let count = calls.len();
        let wrapped = [1, 2, 3].map(|times| (times << 62, times << 32));
        let behind = [count, count + 1, 85, 86, 1024, largest / 12, largest / 12 + 1, largest - 1, largest];
        let again = wrapped.iter().flat_map(|&(far, near)| (0..3).flat_map(move |i| [far + i, near + i]));
        for number in behind.into_iter().chain(again) {
            assert_eq!((calls.entry(number), entry(&list, number)), (None, NO_ENTRY), "{number} of {count}");
        }
    }
}

/// Of a list that is not accepted, what stands there.
#[test]
fn entries_of_a_refused_list() {
    let list = [record(1, 2), record(1, 3), vec![9; 12], record(4, 2), vec![10; 11]].concat();
    assert_eq!(checked(&list), Checked { answer: 19, entries: 0, position: 12 });
    let what_stands = [(1, 2), (1, 3), (0x0909_0909, 0x0909_0909), (4, 2)];
    for (number, (token, household)) in what_stands.into_iter().enumerate() {
        assert_eq!(entry(&list, number), Entry { token, household });
    }
}

#[test]
fn a_refusal_says_what_is_wrong() {
    for (list, says) in [
        (vec![0; 1025], "refused 11 at 0: the text is too long for its room (a call list has at most 1,024 bytes)"),
        (good_list(2)[..23].to_vec(), "refused 17 at 12: the profile or call list is broken here: do not use it"),
        (
            [record(1, 2), record(1, 3)].concat(),
            "refused 19 at 12: a token stands twice in the call list: call nobody by it",
        ),
        (
            [record(1, 2), record(3, 2)].concat(),
            "refused 20 at 12: a household stands twice in the call list: call nobody by it",
        ),
    ] {
        assert_eq!(CallList::read(&list).unwrap_err().to_string(), says);
    }
}

#[test]
fn a_list_shows_its_entries() {
    let list = good_list(2);
    let calls = CallList::read(&list).unwrap();
    let shown = "[Entry { token: 500, household: 7000 }, Entry { token: 501, household: 7003 }]";
    assert_eq!(format!("{calls:?}"), shown);
    assert_eq!(format!("{:?}", CallList::read(&[]).unwrap()), "[]");
}
