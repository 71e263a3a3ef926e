//! Comparing two profiles: of all 256 codes, the same, with eight of the values changed and with all of them; beside an
//! empty one; and two of about half of the codes each. Beside a merge of the two into lent buffers.
use crate::measure::{both, line};
use ddcci::{compare_profiles, DifferenceRoom, MOST_DIFFERENCES};
use oracle::profile_comparison as slow;
use std::hint::black_box;

/// Lent buffers.
struct Lent {
    codes: [u8; MOST_DIFFERENCES],
    first_values: [u32; MOST_DIFFERENCES],
    second_values: [u32; MOST_DIFFERENCES],
}

/// A profile of all codes, of which every so many have another value.
fn profile(changed_every: Option<u8>) -> Vec<u8> {
    let value = |code: u8| 50 + u8::from(changed_every.is_some_and(|every| code % every == every - 1));
    (0..=255).flat_map(|code| [5, 0, 1, 0, code, value(code), 0]).collect()
}

// Both sides stand behind one call that is not inlined, as a library's functions do.

#[inline(never)]
fn ours(first: &[u8], second: &[u8], room: &mut DifferenceRoom) -> usize {
    compare_profiles(first, second, room).map_or(0, |differences| differences.len())
}

#[inline(never)]
fn theirs(first: &[u8], second: &[u8], lent: &mut Lent) -> usize {
    slow::compare(first, second, &mut lent.codes, &mut lent.first_values, &mut lent.second_values).unwrap_or(0)
}

/// A profile of about half of the codes, which lie as by chance.
fn half(seed: u32) -> Vec<u8> {
    let chosen = |code: &u8| (u32::from(*code) + seed).wrapping_mul(0x9E37_79B1) >> 31 == 1;
    (0..=255).filter(chosen).flat_map(|code| [5, 0, 1, 0, code, 50, 0]).collect()
}

pub fn run() {
    let mut room = DifferenceRoom::default();
    let mut lent = Lent {
        codes: [0; MOST_DIFFERENCES],
        first_values: [0; MOST_DIFFERENCES],
        second_values: [0; MOST_DIFFERENCES],
    };
    let all = || profile(None);
    for (what, first, second) in [
        ("of 256 codes, the same", all(), all()),
        ("of 256 codes, 8 differ", all(), profile(Some(32))),
        ("of 256 codes, all differ", all(), profile(Some(1))),
        ("of 256 codes and of none", all(), vec![]),
        ("of half of the codes each, by chance", half(1), half(1000)),
    ] {
        assert_eq!(ours(&first, &second, &mut room), theirs(&first, &second, &mut lent));
        let times = both(
            1_000,
            || ours(black_box(&first), black_box(&second), &mut room),
            || theirs(black_box(&first), black_box(&second), &mut lent),
        );
        line(&format!("two profiles {what}"), times);
    }
}
