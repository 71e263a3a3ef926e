//! The proved comparison of two profiles against the oracle's: the same answer, profile, position and differences, and
//! every lent entry, through the C function and through the crate.
mod common;
use common::rounds;
use ddcci::{compare_profiles, DifferenceRoom, Differences, Refusal, RefusedAt, RefusedProfile, MOST_DIFFERENCES};
use oracle::line::Random;
use oracle::profile_comparison::Refused;
use oracle::profile_comparison_by_definition::{
    self as definition, damage, profile_of, random_pair, random_profile, record_of, small_profiles, turn, Difference,
    Lent,
};

#[repr(C)]
#[derive(Debug, PartialEq, Eq)]
struct Compared {
    answer: u8,
    profile: u8,
    differences: usize,
    position: usize,
}

extern "C" {
    fn ddcci_compare_profiles(
        first: *const u8,
        first_length: usize,
        second: *const u8,
        second_length: usize,
        codes: *mut u8,
        codes_length: usize,
        first_values: *mut u32,
        first_values_length: usize,
        second_values: *mut u32,
        second_values_length: usize,
    ) -> Compared;
}

fn compared(first: &[u8], second: &[u8], lent: &mut Lent) -> Compared {
    let Lent { codes, first_values, second_values } = lent;
    // SAFETY: each pointer and its length are those of one slice; the three that are written lie apart from all.
    unsafe {
        ddcci_compare_profiles(
            first.as_ptr(),
            first.len(),
            second.as_ptr(),
            second.len(),
            codes.as_mut_ptr(),
            codes.len(),
            first_values.as_mut_ptr(),
            first_values.len(),
            second_values.as_mut_ptr(),
            second_values.len(),
        )
    }
}

fn accepted(differences: usize) -> Compared {
    Compared { answer: 0, profile: 0, differences, position: 0 }
}

fn broken(profile: u8, position: usize) -> Compared {
    Compared { answer: 17, profile, differences: 0, position }
}

const TOO_LITTLE_ROOM: Compared = Compared { answer: 1, profile: 0, differences: 0, position: 0 };

/// What is listed with room for all that there can be: code, first and second value.
fn listed(first: &[u8], second: &[u8]) -> Vec<(u8, u32, u32)> {
    let mut lent = Lent::new([256; 3]);
    let compared = compared(first, second, &mut lent);
    assert_eq!(compared, accepted(compared.differences));
    (0..compared.differences).map(|at| (lent.codes[at], lent.first_values[at], lent.second_values[at])).collect()
}

/// The same refusal, whatever the room, which stays as it was.
fn refused(first: &[u8], second: &[u8]) -> Compared {
    let mut lent = Lent::new([0; 3]);
    let expected = compared(first, second, &mut lent);
    for rooms in [[1; 3], [256; 3], [300, 0, 7]] {
        let mut lent = Lent::new(rooms);
        assert_eq!(compared(first, second, &mut lent), expected);
        assert_eq!(lent, Lent::new(rooms));
    }
    expected
}

type Theirs = Result<Vec<Difference>, (u8, usize)>;

/// Both list alike with these rooms, to every lent entry: what a refusal leaves and what stands past the list too.
/// Returns the answer.
fn list_alike(first: &[u8], second: &[u8], theirs: &Theirs, rooms: [usize; 3]) -> u8 {
    let (mut ours_lent, mut theirs_lent) = (Lent::new(rooms), Lent::new(rooms));
    let expected = match definition::list(theirs, &mut theirs_lent) {
        Ok(differences) => accepted(differences),
        Err(Refused { answer, profile, position }) => Compared { answer, profile, differences: 0, position },
    };
    let ours = compared(first, second, &mut ours_lent);
    assert_eq!(ours, expected, "{first:02X?} and {second:02X?} with {rooms:?}");
    assert_eq!(ours_lent, theirs_lent, "{first:02X?} and {second:02X?} with {rooms:?}");
    expected.answer
}

/// The crate's differences in the oracle's spelling, from the first and from the last.
fn in_the_oracles_terms(ours: Differences) -> Vec<Difference> {
    let spelled = |d: ddcci::Difference| Difference { code: d.code, first: d.first, second: d.second };
    let all: Vec<Difference> = ours.iter().map(spelled).collect();
    assert!(ours.iter().rev().map(spelled).eq(all.iter().rev().copied()));
    assert_eq!((ours.len(), ours.iter().len(), ours.is_empty()), (all.len(), all.len(), all.is_empty()));
    all
}

/// The crate lists alike: by its list the first profile turns into the second, and it is empty for equal bytes alone.
fn crate_alike(first: &[u8], second: &[u8], theirs: &Theirs, room: &mut DifferenceRoom) {
    match (compare_profiles(first, second, room), theirs) {
        (Ok(ours), Ok(theirs)) => {
            let ours = in_the_oracles_terms(ours);
            assert_eq!(&ours, theirs, "{first:02X?} and {second:02X?}");
            assert_eq!(turn(first, &ours), second);
            assert_eq!(ours.is_empty(), first == second);
        }
        (Err(RefusedProfile::First(ours)), &Err((1, position)))
        | (Err(RefusedProfile::Second(ours)), &Err((2, position))) => {
            assert_eq!(ours, RefusedAt { refusal: Refusal::BrokenRecord, position }, "{first:02X?} and {second:02X?}");
        }
        (ours, _) => panic!("{ours:?} for {theirs:?}: {first:02X?} and {second:02X?}"),
    }
}

/// Both compare alike, with rooms around the number of differences: just enough, more, and one short in each of the
/// three buffers alone. Returns the profile that is refused, or 0.
fn compare_alike(first: &[u8], second: &[u8]) -> u8 {
    let theirs = definition::compare(first, second);
    let count = theirs.as_ref().map_or(0, Vec::len);
    for rooms in [[count; 3], [256; 3], [300; 3], [count, count + 1, count + 2], [count + 3, count, count]] {
        assert_eq!(list_alike(first, second, &theirs, rooms), if theirs.is_ok() { 0 } else { 17 });
    }
    for short in 0..if count > 0 { 3 } else { 0 } {
        for mut rooms in [[count; 3], [256; 3]] {
            rooms[short] = count - 1;
            assert_eq!(list_alike(first, second, &theirs, rooms), 1);
        }
    }
    crate_alike(first, second, &theirs, &mut DifferenceRoom::default());
    theirs.map_or_else(|(profile, _)| profile, |_| 0)
}

/// A profile of all 256 codes with the values of a function of the code.
fn all_codes(value: impl Fn(u16) -> u16) -> Vec<u8> {
    profile_of((0..=255).map(|code| (code, value(u16::from(code)))))
}

/// "Code in two capital hex digits, then both values in decimal, "-" where absent, one space between: `10 50 70`."
#[test]
fn the_papers_example() {
    let (first, second) = ([5, 0, 1, 0, 0x10, 50, 0], [5, 0, 1, 0, 0x10, 70, 0]);
    assert_eq!(listed(&first, &second), [(0x10, 50, 70)]);
    assert_eq!(listed(&first, &[]), [(0x10, 50, 65_536)]);
    assert_eq!(listed(&[], &second), [(0x10, 65_536, 70)]);
    assert_eq!(listed(&first, &first), []);
    let lines = |first: &[u8], second: &[u8]| {
        let mut room = DifferenceRoom::default();
        compare_profiles(first, second, &mut room).unwrap().iter().map(|d| format!("{d}\n")).collect::<String>()
    };
    assert_eq!(lines(&first, &second), "10 50 70\n");
    assert_eq!(lines(&first, &[5, 0, 1, 0, 0x0A, 255, 255]), "0A - 65535\n10 50 -\n");
}

/// The least and the greatest code, the table's, and values whose bytes differ in one place only.
#[test]
fn every_way_to_differ() {
    let first = [
        [5, 0, 1, 0, 0x00, 0, 0],
        [5, 0, 1, 0, 0x10, 0, 1],
        [5, 0, 1, 0, 0x12, 255, 0],
        [5, 0, 1, 0, 0x60, 7, 0],
        [5, 0, 1, 0, 0xF4, 0, 0],
        [5, 0, 1, 0, 0xFE, 255, 255],
    ]
    .concat();
    let second = [
        [5, 0, 1, 0, 0x10, 0, 0],
        [5, 0, 1, 0, 0x11, 0, 0],
        [5, 0, 1, 0, 0x12, 0, 1],
        [5, 0, 1, 0, 0x60, 7, 0],
        [5, 0, 1, 0, 0xF4, 1, 0],
        [5, 0, 1, 0, 0xFE, 255, 254],
        [5, 0, 1, 0, 0xFF, 255, 255],
    ]
    .concat();
    let wanted = [
        (0x00, 0, 65_536),
        (0x10, 256, 0),
        (0x11, 65_536, 0),
        (0x12, 255, 256),
        (0xF4, 0, 1),
        (0xFE, 65_535, 65_279),
        (0xFF, 65_536, 65_535),
    ];
    assert_eq!(listed(&first, &second), wanted);
    assert_eq!(listed(&second, &first), wanted.map(|(code, one, other)| (code, other, one)));
    compare_alike(&first, &second);
    compare_alike(&second, &first);
}

/// Every pair of 64 profiles of three codes, with room for 0 to 4 entries in each of the three buffers.
#[test]
fn every_small_pair_alike() {
    let all = small_profiles();
    let mut room = DifferenceRoom::default();
    let mut answers = [0usize; 18];
    for (first, second) in all.iter().flat_map(|first| all.iter().map(move |second| (first, second))) {
        let theirs = definition::compare(first, second);
        for rooms in (0..125).map(|room| [room % 5, room / 5 % 5, room / 25]) {
            answers[usize::from(list_alike(first, second, &theirs, rooms))] += 1;
        }
        crate_alike(first, second, &theirs, &mut room);
    }
    // Of the 16 pairs of a code's values 4 are equal: 64, 576, 1,728 and 1,728 pairs with 0 to 3 differences, and of the
    // 125 rooms 125, 64, 27 and 8 are enough for so many.
    assert_eq!(answers[0], 64 * 125 + 576 * 64 + 1728 * 27 + 1728 * 8);
    assert_eq!(answers[1], 64 * 64 * 125 - answers[0]);
}

/// Each byte of profiles of one to three records takes each value, in the first profile, in the second and in both.
#[test]
fn every_damaged_byte_alike() {
    let other = profile_of([(0x10, 50), (0x12, 80)]);
    let mut refused = [0usize; 3];
    for whole in [profile_of([(0x10, 50)]), profile_of([(0x10, 50), (0x12, 4000), (0xF4, 513)])] {
        for (at, byte) in (0..whole.len()).flat_map(|at| (0..=255).map(move |byte| (at, byte))) {
            let mut damaged = whole.clone();
            damaged[at] = byte;
            let pairs = [(&damaged, &whole), (&whole, &damaged), (&damaged, &other), (&damaged, &damaged)];
            for (first, second) in pairs {
                refused[usize::from(compare_alike(first, second))] += 1;
            }
        }
    }
    // In each of the 4 records 4 bytes of length and kind are wrong with 255 values. In the longer profile a code does not
    // rise where the first is 12 or more, the second 10 or less or F4 or more, or the third 12 or less.
    let bad = 4 * 4 * 255 + (0x100 - 0x12) + (0x11 + (0x100 - 0xF4)) + 0x13;
    assert_eq!(refused, [4 * 28 * 256 - 4 * bad, 3 * bad, bad]);
}

/// Every beginning of the longest profile, as the first and as the second.
#[test]
fn every_prefix_alike() {
    let whole = all_codes(|code| 257 * code);
    assert_eq!(whole.len(), 1792);
    for length in 0..=whole.len() {
        let cut = !length.is_multiple_of(7);
        assert_eq!(compare_alike(&whole[..length], &whole), if cut { 1 } else { 0 });
        assert_eq!(compare_alike(&whole, &whole[..length]), if cut { 2 } else { 0 });
    }
}

/// In the longest profile each pair of neighbours changes places, and each code stands twice.
#[test]
fn every_place_that_does_not_rise() {
    let whole = all_codes(|code| code);
    for number in 0..255 {
        let (this, next) = (7 * number, 7 * (number + 1));
        let swapped = [&whole[..this], &whole[next..next + 7], &whole[this..next], &whole[next + 7..]].concat();
        let twice = [&whole[..next], &whole[this..]].concat();
        for bad in [swapped, twice] {
            assert_eq!((refused(&bad, &whole), refused(&whole, &bad)), (broken(1, next), broken(2, next)));
        }
    }
}

#[test]
fn the_most_differences() {
    assert_eq!(MOST_DIFFERENCES, 256);
    let (low, high) = (all_codes(|code| code), all_codes(|code| 65_535 - code));
    let codes = 0..256u32;
    assert_eq!(listed(&low, &[]), codes.clone().map(|code| (code as u8, code, 65_536)).collect::<Vec<_>>());
    assert_eq!(listed(&[], &low), codes.clone().map(|code| (code as u8, 65_536, code)).collect::<Vec<_>>());
    assert_eq!(listed(&low, &high), codes.map(|code| (code as u8, code, 65_535 - code)).collect::<Vec<_>>());
    assert_eq!(listed(&low, &low), []);
    for (first, second) in [(&low, &vec![]), (&vec![], &low), (&low, &high), (&high, &high)] {
        compare_alike(first, second);
    }
    // Codes that take turns, and the lower half against the upper.
    let of = |some: fn(u8) -> bool| profile_of((0..=255).filter(|&code| some(code)).map(|code| (code, 9)));
    for (first, second) in [(of(|code| code % 2 == 0), of(|code| code % 2 == 1)), (of(|c| c < 128), of(|c| c >= 128))] {
        assert_eq!(listed(&first, &second).len(), 256);
        compare_alike(&first, &second);
        compare_alike(&second, &first);
    }
}

/// "Records, kind 1, rising codes, no code twice, else 17 at the record's start", and which sheet it is.
#[test]
fn refusals_with_places() {
    let good = profile_of([(0x10, 50), (0x12, 80)]);
    for (bad, position) in [
        (vec![5], 0),
        (vec![5, 0, 1, 0, 0x10, 50], 0),
        ([&good[..], &[5]].concat(), 14),
        ([&good[..], b"\n"].concat(), 14),
        (vec![4, 0, 1, 0, 0x10, 50, 0], 0),
        (vec![6, 0, 1, 0, 0x10, 50, 0, 0], 0),
        (vec![7, 0, 1, 0, 0x10, 50, 0], 0),
        (vec![0, 5, 0, 1, 0x10, 50, 0], 0),
        (vec![5, 1, 1, 0, 0x10, 50, 0], 0),
        (vec![5, 0, 0, 0, 0x10, 50, 0], 0),
        (vec![5, 0, 2, 0, 0x10, 50, 0], 0),
        (vec![5, 0, 1, 1, 0x10, 50, 0], 0),
        (profile_of([(0x10, 50), (0x10, 50)]), 7),
        (profile_of([(0x10, 50), (0x0F, 50)]), 7),
        (profile_of([(0x10, 50), (0x12, 50), (0x11, 50)]), 14),
        (profile_of([(0xFF, 50), (0x00, 50)]), 7),
        (profile_of([(0x00, 50), (0x00, 50)]), 7),
        // The first bad record decides.
        ([profile_of([(2, 1), (1, 1)]), vec![9; 7]].concat(), 7),
        ([profile_of([(2, 1), (2, 1)]), vec![5]].concat(), 7),
        ([vec![9; 7], profile_of([(2, 1), (1, 1)])].concat(), 0),
        // Of 257 records the last cannot rise.
        ([all_codes(|code| code), record_of(0, 0).to_vec()].concat(), 1792),
        ([all_codes(|code| code), record_of(255, 255).to_vec()].concat(), 1792),
        ([all_codes(|code| code), vec![5]].concat(), 1792),
        (vec![0; 100_000], 0),
        (record_of(0x10, 50).repeat(10_000), 7),
    ] {
        assert_eq!(refused(&bad, &good), broken(1, position), "{bad:02X?}");
        assert_eq!(refused(&good, &bad), broken(2, position), "{bad:02X?}");
        assert_eq!(refused(&bad, &bad), broken(1, position), "{bad:02X?}");
        assert_eq!(refused(&bad, &[]), broken(1, position), "{bad:02X?}");
        assert_eq!(refused(&[], &bad), broken(2, position), "{bad:02X?}");
    }
}

/// "The first sheet's 17, the second's 17 (the answer says which sheet), then 1 if the lent room is too small; nothing is
/// listed."
#[test]
fn which_refusal_goes_first() {
    let (good, other) = (profile_of([(0x10, 50), (0x12, 80)]), profile_of([(0x10, 70), (0x60, 15)]));
    let (twice, cut) = (profile_of([(1, 1), (2, 2), (2, 2)]), vec![5, 0, 1]);
    assert_eq!(refused(&twice, &cut), broken(1, 14));
    assert_eq!(refused(&cut, &twice), broken(1, 0));
    assert_eq!(refused(&twice, &other), broken(1, 14));
    assert_eq!(refused(&good, &twice), broken(2, 14));
    // Three differences: 10, 12 and 60.
    for (rooms, wanted) in [
        ([3, 3, 3], accepted(3)),
        ([4, 300, 3], accepted(3)),
        ([2, 3, 3], TOO_LITTLE_ROOM),
        ([3, 2, 3], TOO_LITTLE_ROOM),
        ([3, 3, 2], TOO_LITTLE_ROOM),
        ([2, 256, 256], TOO_LITTLE_ROOM),
        ([256, 2, 256], TOO_LITTLE_ROOM),
        ([256, 256, 2], TOO_LITTLE_ROOM),
        ([0, 256, 256], TOO_LITTLE_ROOM),
        ([0, 0, 0], TOO_LITTLE_ROOM),
    ] {
        let mut lent = Lent::new(rooms);
        assert_eq!(compared(&good, &other, &mut lent), wanted, "{rooms:?}");
        assert_eq!(lent == Lent::new(rooms), wanted == TOO_LITTLE_ROOM, "{rooms:?}");
    }
    // No difference needs no room.
    for rooms in [[0, 0, 0], [0, 5, 5], [5, 0, 5], [5, 5, 0], [5, 5, 5]] {
        for profile in [&good[..], &[]] {
            let mut lent = Lent::new(rooms);
            assert_eq!(compared(profile, profile, &mut lent), accepted(0));
            assert_eq!(lent, Lent::new(rooms));
        }
    }
}

/// A pair as it is, then with one of its profiles or both damaged once or more.
#[test]
fn random_pairs_alike() {
    let mut r = Random::new(44);
    let mut counts = [0usize; 3];
    for _ in 0..rounds(4_000) {
        let (mut first, mut second) = random_pair(&mut r);
        assert_eq!(compare_alike(&first, &second), 0);
        for profile in [&mut first, &mut second] {
            for _ in 0..[0, 0, 1, 3][r.below(4)] {
                damage(&mut r, profile);
            }
        }
        counts[usize::from(compare_alike(&first, &second))] += 1;
    }
    for (profile, count) in counts.into_iter().enumerate() {
        assert!(count > 500, "profile {profile}: {counts:?}");
    }
}

/// Bytes that are no profile at all, and zeros and ones of many lengths.
#[test]
fn any_bytes_alike() {
    let mut r = Random::new(45);
    for length in 0..300 {
        let mut bytes = vec![0; length];
        r.fill(&mut bytes);
        let good = random_profile(&mut r);
        for bad in [bytes, vec![0; length], vec![0xFF; length]] {
            let refused = if length == 0 { [0, 0] } else { [1, 2] };
            assert_eq!([compare_alike(&bad, &good), compare_alike(&good, &bad)], refused);
        }
    }
}

/// Profiles may stand at any address, and overlap: they are only read.
#[test]
fn every_address() {
    let whole = all_codes(|code| code);
    for offset in 0..16 {
        let bytes = [&vec![0xFF; offset][..], &whole].concat();
        let profile = &bytes[offset..];
        assert_eq!(listed(profile, profile), []);
        for records in [0, 1, 255] {
            let part = &profile[..7 * records];
            assert_eq!(listed(profile, part).len(), 256 - records);
            assert_eq!(listed(part, profile).len(), 256 - records);
            assert_eq!(listed(&profile[7 * records..], part).len(), 256);
            compare_alike(part, profile);
        }
    }
}

/// A room that is used again tells of the last two profiles only.
#[test]
fn the_room_is_used_again() {
    let mut r = Random::new(46);
    let mut room = DifferenceRoom::default();
    for _ in 0..rounds(200) {
        let (mut first, second) = random_pair(&mut r);
        if r.percent(20) {
            damage(&mut r, &mut first);
        }
        crate_alike(&first, &second, &definition::compare(&first, &second), &mut room);
    }
}

#[test]
fn a_refusal_says_which_profile_and_what_is_wrong() {
    let (good, twice) = (profile_of([(1, 1)]), profile_of([(1, 1), (1, 1)]));
    let mut room = DifferenceRoom::default();
    let why = "the profile or call list is broken here: do not use it";
    let first = compare_profiles(&twice[..13], &twice, &mut room).unwrap_err();
    assert_eq!(first, RefusedProfile::First(RefusedAt { refusal: Refusal::BrokenRecord, position: 7 }));
    assert_eq!(first.to_string(), format!("the first profile: refused 17 at 7: {why}"));
    let second = compare_profiles(&good, &good[..6], &mut room).unwrap_err();
    assert_eq!(second, RefusedProfile::Second(RefusedAt { refusal: Refusal::BrokenRecord, position: 0 }));
    assert_eq!(second.to_string(), format!("the second profile: refused 17 at 0: {why}"));
    let error = std::io::Error::from(second);
    assert_eq!((error.kind(), error.to_string()), (std::io::ErrorKind::InvalidData, second.to_string()));
}

#[test]
fn differences_are_shown() {
    let (first, second) = (profile_of([(0x10, 50), (0x12, 80)]), profile_of([(0x10, 70)]));
    let mut room = DifferenceRoom::default();
    assert_eq!(format!("{room:?}"), "DifferenceRoom { .. }");
    let shown = "[Difference { code: 16, first: Some(50), second: Some(70) }, \
                 Difference { code: 18, first: Some(80), second: None }]";
    assert_eq!(format!("{:?}", compare_profiles(&first, &second, &mut room).unwrap()), shown);
    assert_eq!(format!("{:?}", compare_profiles(&first, &first, &mut room).unwrap()), "[]");
}
