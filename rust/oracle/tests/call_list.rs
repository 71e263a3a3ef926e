//! K9, the gate posts' check of call lists: the paper's sentences, and the check against its definition.

use oracle::call_list::{check, find, judge, Entry, ENTRY_LIMIT};
use oracle::call_list_by_definition::{
    self as definition, every_small_list, random_household, random_list, HOUSEHOLDS,
};
use oracle::line::Random;

/// A record with token and household of one byte each.
fn record(token: u8, household: u8) -> Vec<u8> {
    vec![0x0A, 0x00, 0x20, 0x00, token, 0, 0, 0, household, 0, 0, 0]
}

/// So many records: tokens from 1 on, households from 101 on.
fn good_list(records: u8) -> Vec<u8> {
    (0..records).flat_map(|number| record(1 + number, 101 + number)).collect()
}

/// The answer and the place of a list that is not accepted: the same of all three.
fn refused(list: &[u8]) -> (u8, usize) {
    let refused = check(list).expect_err("it is refused");
    assert_eq!(judge(list), Err(refused));
    for household in [0, 101, u32::MAX] {
        assert_eq!(find(list, household), Err(refused));
    }
    refused
}

/// "Records of kind 32, body token and household, four bytes each, little-endian, so length 10 and 12 bytes in all."
#[test]
fn the_fields_of_a_record() {
    let one = [0x0A, 0x00, 0x20, 0x00, 0x78, 0x56, 0x34, 0x12, 0xF0, 0xDE, 0xBC, 0x9A];
    assert_eq!(check(&one), Ok(vec![Entry { token: 0x1234_5678, household: 0x9ABC_DEF0 }]));
    assert_eq!(judge(&one), Ok(1));
    let largest = [0x0A, 0, 0x20, 0, 0xFF, 0xFF, 0xFF, 0xFF, 0, 0, 0, 0];
    assert_eq!(check(&largest), Ok(vec![Entry { token: 4_294_967_295, household: 0 }]));
}

/// "Accept exactly when the list is at most 1,024 bytes (85 records)": an empty list too.
#[test]
fn lists_of_no_record_and_of_the_most() {
    assert_eq!((check(&[]), judge(&[]), find(&[], 0)), (Ok(vec![]), Ok(0), Ok(None)));
    assert_eq!(ENTRY_LIMIT, 85);
    let most = good_list(85);
    assert_eq!((most.len(), judge(&most)), (1020, Ok(85)));
    let entries = check(&most).unwrap();
    assert_eq!((entries[0], entries[84]), (Entry { token: 1, household: 101 }, Entry { token: 85, household: 185 }));
    assert_eq!((find(&most, 101), find(&most, 185), find(&most, 186)), (Ok(Some(0)), Ok(Some(84)), Ok(None)));
}

/// "Over 1,024 bytes is 11 at 0, before the others."
#[test]
fn over_1024_bytes() {
    let list = [good_list(85), record(86, 186)].concat();
    for length in 1021..=1024 {
        assert_eq!(refused(&list[..length]), (17, 1020));
    }
    for length in 1025..=1032 {
        assert_eq!(refused(&list[..length]), (11, 0));
    }
    let mut broken = list[..1025].to_vec();
    broken[0] = 0;
    assert_eq!(refused(&broken), (11, 0));
    assert_eq!(refused(&broken[..1024]), (17, 0));
    assert_eq!(refused(&[0; 5000]), (11, 0));
}

/// "Every record is whole": a cut one is broken, and so is one of another length or kind.
#[test]
fn broken_records() {
    let list = good_list(3);
    for length in [1, 2, 3, 4, 5, 8, 11] {
        assert_eq!(refused(&list[..length]), (17, 0));
        assert_eq!(refused(&list[..12 + length]), (17, 12));
        assert_eq!(refused(&list[..24 + length]), (17, 24));
    }
    for (at, byte) in [(0, 9), (0, 11), (0, 0), (1, 1), (2, 0x1F), (2, 0x32), (2, 1), (3, 1), (3, 0x20)] {
        for start in [0, 12, 24] {
            let mut changed = list.clone();
            changed[start + at] = byte;
            assert_eq!(refused(&changed), (17, start), "byte {at} is {byte:02X}");
        }
    }
}

/// "No token stands twice and no household stands twice": the start is that of the later record.
#[test]
fn repeats() {
    let list = |entries: [(u8, u8); 4]| entries.map(|(token, household)| record(token, household)).concat();
    assert_eq!(judge(&list([(1, 5), (2, 6), (3, 7), (4, 8)])), Ok(4));
    assert_eq!(refused(&list([(1, 5), (2, 6), (1, 7), (4, 8)])), (19, 24));
    assert_eq!(refused(&list([(1, 5), (2, 6), (3, 7), (3, 8)])), (19, 36));
    assert_eq!(refused(&list([(1, 5), (2, 5), (3, 7), (4, 8)])), (20, 12));
    assert_eq!(refused(&list([(1, 5), (2, 6), (3, 7), (4, 5)])), (20, 36));
    // A household is no token: the same number may be both.
    assert_eq!(judge(&list([(1, 2), (2, 1), (3, 4), (4, 3)])), Ok(4));
    assert_eq!(judge(&list([(1, 1), (2, 2), (3, 3), (4, 4)])), Ok(4));
    // Numbers that differ in their highest byte alone are two.
    let mut far = list([(1, 5), (1, 5), (3, 7), (4, 8)]);
    (far[12 + 7], far[12 + 11]) = (0x80, 0x80);
    assert_eq!(judge(&far), Ok(4));
}

/// "The first record that is broken (17) or that repeats a token (19) or a household (20) of an earlier one, in that
/// order for one record."
#[test]
fn which_refusal_goes_first() {
    let both = [record(1, 5), record(1, 5)].concat();
    assert_eq!(refused(&both), (19, 12));
    let mut broken_too = both.clone();
    broken_too[12] = 9;
    assert_eq!(refused(&broken_too), (17, 12));
    assert_eq!(refused(&both[..23]), (17, 12));
    // An earlier record goes first, whatever comes later.
    let household_first = [record(1, 5), record(2, 5), record(1, 6)].concat();
    assert_eq!(refused(&household_first), (20, 12));
    let cut_tail = [record(1, 5), record(2, 5), vec![0x0A]].concat();
    assert_eq!(refused(&cut_tail), (20, 12));
    let cut_tail = [record(1, 5), record(1, 6), vec![0x0A]].concat();
    assert_eq!(refused(&cut_tail), (19, 12));
    // A repeat of a record that is itself refused is not reached.
    let two_repeats = [record(1, 5), record(2, 6), record(2, 7), record(1, 8)].concat();
    assert_eq!(refused(&two_repeats), (19, 24));
}

/// "A query answers a household's position (records counted from 0), or that it isn't there."
#[test]
fn the_query() {
    let list = [record(9, 30), record(8, 10), record(7, 20)].concat();
    let found = [10, 20, 30, 9, 0].map(|household| find(&list, household).unwrap());
    assert_eq!(found, [Some(1), Some(2), Some(0), None, None]);
}

/// Compares the list's check, count and query with the definition: "a query answers a household's position (records
/// counted from 0), or that it isn't there; on a list that isn't accepted it gives the same refusal". Returns the answer.
fn compare(list: &[u8], households: &[u32]) -> u8 {
    let expected = definition::check(list);
    assert_eq!(check(list), expected, "{list:02X?}");
    let entries = expected.as_deref().map_err(|&refused| refused);
    assert_eq!(judge(list), entries.map(<[Entry]>::len));
    for &household in households {
        let position = entries.map(|entries| entries.iter().position(|entry| entry.household == household));
        assert_eq!(find(list, household), position, "{household:X} in {list:02X?}");
    }
    expected.map_or_else(|(answer, _)| answer, |_| 0)
}

/// All lists of up to 4 records of 13, with every tail of 0 to 11 bytes.
#[test]
fn every_small_list_by_the_definition() {
    let households = [HOUSEHOLDS[0], HOUSEHOLDS[1], HOUSEHOLDS[2], 0];
    let mut answers = [0; 21];
    every_small_list(4, &mut |list| answers[usize::from(compare(list, &households))] += 1);
    // 1 + 13 + 13^2 + 13^3 + 13^4 rows of records, with 12 tails each.
    assert_eq!(answers.iter().sum::<usize>(), 30_941 * 12);
    // Accepted with 0 to 3 records: 1 + 9 + 9 * 4 + 9 * 4 * 1, and no fourth token.
    assert_eq!(answers[0], 82);
    assert!(answers[17] > 0 && answers[19] > 0 && answers[20] > 0);
}

#[test]
fn random_lists_by_the_definition() {
    let mut random = Random::new(9);
    let mut answers = [0; 21];
    for _ in 0..20_000 {
        let list = random_list(&mut random);
        let households = [0; 3].map(|_| random_household(&mut random));
        answers[usize::from(compare(&list, &households))] += 1;
    }
    for answer in [0, 11, 17, 19, 20] {
        assert!(answers[answer] > 500, "answer {answer}: {answers:?}");
    }
}
