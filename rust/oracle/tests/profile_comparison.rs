//! K4, comparing two profiles: the paper's sentences, and the comparison against its definition.

use oracle::line::Random;
use oracle::profile_comparison::{compare, Refused, ABSENT};
use oracle::profile_comparison_by_definition::{
    self as definition, damage, judge, profile_of, random_pair, record_of, small_profiles, turn, Difference, Lent,
};

/// What is listed, code, first and second value, with as much room as there can be need of; every entry behind it stays.
fn listed(first: &[u8], second: &[u8]) -> Result<Vec<(u8, u32, u32)>, Refused> {
    let mut lent = Lent::new([256; 3]);
    let count = compare(first, second, &mut lent.codes, &mut lent.first_values, &mut lent.second_values)?;
    let unwritten = Lent::new([256; 3]);
    assert_eq!(lent.codes[count..], unwritten.codes[count..]);
    assert_eq!(lent.first_values[count..], unwritten.first_values[count..]);
    assert_eq!(lent.second_values[count..], unwritten.second_values[count..]);
    Ok((0..count).map(|at| (lent.codes[at], lent.first_values[at], lent.second_values[at])).collect())
}

/// Where the profile is refused, as the first and as the second of two.
fn refused_at(profile: &[u8]) -> usize {
    let position = judge(profile).expect_err("it is refused");
    for other in [vec![], record_of(0x10, 50).to_vec()] {
        let refused = |profile| Err(Refused { answer: 17, profile, position });
        assert_eq!((listed(profile, &other), listed(&other, profile)), (refused(1), refused(2)), "{profile:02X?}");
    }
    position
}

/// "Code in two capital hex digits, then both values in decimal, "-" where absent, one space between: `10 50 70`."
#[test]
fn the_papers_example() {
    let (first, second) = ([5, 0, 1, 0, 0x10, 50, 0], [5, 0, 1, 0, 0x10, 70, 0]);
    assert_eq!(listed(&first, &second), Ok(vec![(0x10, 50, 70)]));
    assert_eq!(listed(&first, &[]), Ok(vec![(0x10, 50, 65_536)]));
    assert_eq!(listed(&[], &second), Ok(vec![(0x10, 65_536, 70)]));
    assert_eq!(
        definition::compare(&first, &second),
        Ok(vec![Difference { code: 0x10, first: Some(50), second: Some(70) }])
    );
    assert_eq!(definition::compare(&first, &[]), Ok(vec![Difference { code: 0x10, first: Some(50), second: None }]));
    assert_eq!(ABSENT, 65_536);
}

/// "Exactly the codes that are in one only or whose value differs, in rising order, with both values."
#[test]
fn every_way_to_differ() {
    let first = profile_of([(0x00, 0), (0x10, 50), (0x12, 256), (0x60, 7), (0xF4, 9), (0xFE, 65_535)]);
    let second = profile_of([(0x10, 70), (0x11, 3), (0x12, 257), (0x60, 7), (0xF4, 9), (0xFE, 255), (0xFF, 0)]);
    let wanted = [
        (0x00, 0, 65_536),
        (0x10, 50, 70),
        (0x11, 65_536, 3),
        (0x12, 256, 257),
        (0xFE, 65_535, 255),
        (0xFF, 65_536, 0),
    ];
    assert_eq!(listed(&first, &second), Ok(wanted.to_vec()));
    let back = wanted.map(|(code, one, other)| (code, other, one));
    assert_eq!(listed(&second, &first), Ok(back.to_vec()));
}

/// "Records, kind 1, rising codes, no code twice, else 17 at the record's start."
#[test]
fn the_form() {
    let whole = profile_of([(0x10, 50), (0x12, 4000), (0xF4, 0)]);
    assert_eq!(judge(&whole), Ok(vec![(0x10, 50), (0x12, 4000), (0xF4, 0)]));
    assert_eq!(judge(&[]), Ok(vec![]));
    for length in (0..21).filter(|length| length % 7 != 0) {
        assert_eq!(refused_at(&whole[..length]), length / 7 * 7);
    }
    for (at, byte) in [(0, 4), (0, 6), (0, 0), (0, 7), (1, 1), (1, 5), (2, 0), (2, 2), (3, 1), (3, 0x10)] {
        for start in [0, 7, 14] {
            let mut changed = whole.clone();
            changed[start + at] = byte;
            assert_eq!(refused_at(&changed), start, "byte {at} is {byte:02X}");
        }
    }
    assert_eq!(refused_at(&profile_of([(0x10, 1), (0x10, 1)])), 7);
    assert_eq!(refused_at(&profile_of([(0x10, 1), (0x12, 1), (0x11, 1)])), 14);
    assert_eq!(refused_at(&profile_of([(0xFF, 1), (0x00, 1)])), 7);
    assert_eq!(refused_at(&profile_of([(0xFF, 1), (0xFF, 1)])), 7);
    // The first bad record decides: one that does not rise stands before a broken one and before a cut one.
    assert_eq!(refused_at(&[profile_of([(2, 1), (1, 1)]), vec![9; 7]].concat()), 7);
    assert_eq!(refused_at(&[profile_of([(2, 1), (1, 1)]), vec![5]].concat()), 7);
    // Of 257 records the last cannot rise.
    let most = profile_of((0..=255).map(|code| (code, 1)));
    assert_eq!((judge(&most).unwrap().len(), most.len()), (256, 1792));
    assert_eq!(refused_at(&[most, record_of(0, 1).to_vec()].concat()), 1792);
}

/// "Refusals: the first sheet's 17, the second's 17 (the answer says which sheet), then 1 if the lent room is too small."
#[test]
fn which_refusal_goes_first() {
    let (good, bad, worse) = (profile_of([(1, 1)]), profile_of([(1, 1), (1, 1)]), vec![0; 3]);
    for (first, second, answer, profile, position) in
        [(&bad, &worse, 17, 1, 7), (&worse, &bad, 17, 1, 0), (&good, &bad, 17, 2, 7), (&good, &vec![], 1, 0, 0)]
    {
        let compared = compare(first, second, &mut [], &mut [], &mut []);
        assert_eq!(compared, Err(Refused { answer, profile, position }));
    }
}

/// Both list alike with this room, to every lent entry. Returns the answer.
fn compare_with_room(first: &[u8], second: &[u8], rooms: [usize; 3]) -> u8 {
    let (mut ours, mut theirs) = (Lent::new(rooms), Lent::new(rooms));
    let compared = compare(first, second, &mut ours.codes, &mut ours.first_values, &mut ours.second_values);
    let expected = definition::list(&definition::compare(first, second), &mut theirs);
    assert_eq!((compared, &ours), (expected, &theirs), "{first:02X?} {second:02X?}");
    assert!(expected.is_ok() || theirs == Lent::new(rooms));
    expected.map_or_else(|refused| refused.answer, |_| 0)
}

/// "Of accepted sheets, equal bytes give an empty list and an empty list means equal bytes. Turning the first sheet into
/// the second by the listed differences gives its exact bytes." The definition itself is held to both.
fn turned(first: &[u8], second: &[u8]) {
    let differences = definition::compare(first, second).unwrap();
    assert_eq!(differences.is_empty(), first == second);
    assert!(differences.is_sorted_by(|one, next| one.code < next.code));
    assert_eq!(turn(first, &differences), second);
}

/// Every pair of 64 profiles of three codes, with room for 0 to 4 entries in each of the three.
#[test]
fn every_small_pair_by_the_definition() {
    let all = small_profiles();
    let mut answers = [0; 18];
    for (first, second) in all.iter().flat_map(|first| all.iter().map(move |second| (first, second))) {
        turned(first, second);
        for room in 0..125 {
            let rooms = [room % 5, room / 5 % 5, room / 25];
            answers[usize::from(compare_with_room(first, second, rooms))] += 1;
        }
    }
    // Of the 16 pairs of a code's values 4 are equal: 64, 576, 1,728 and 1,728 pairs with 0 to 3 differences, and of the
    // 125 rooms 125, 64, 27 and 8 are enough for so many.
    assert_eq!(answers[0], 64 * 125 + 576 * 64 + 1728 * 27 + 1728 * 8);
    assert_eq!(answers.iter().sum::<usize>(), 64 * 64 * 125);
}

#[test]
fn random_pairs_by_the_definition() {
    let mut random = Random::new(4);
    let mut answers = [0; 18];
    for _ in 0..10_000 {
        let (mut first, mut second) = random_pair(&mut random);
        turned(&first, &second);
        for profile in [&mut first, &mut second] {
            if random.percent(30) {
                damage(&mut random, profile);
            }
        }
        let count = definition::compare(&first, &second).map_or(0, |differences| differences.len());
        assert_ne!(compare_with_room(&first, &second, [256; 3]), 1);
        let rooms = [0; 3].map(|_| (count + random.below(20)).saturating_sub(1));
        answers[usize::from(compare_with_room(&first, &second, rooms))] += 1;
    }
    for answer in [0, 1, 17] {
        assert!(answers[answer] > 500, "answer {answer}: {answers:?}");
    }
}
