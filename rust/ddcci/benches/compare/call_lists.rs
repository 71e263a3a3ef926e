//! Checking call lists of 85 and of 8 records, and finding a household in one.
use crate::measure::{both, line};
use ddcci::CallList;
use oracle::call_list as slow;
use std::hint::black_box;

/// A list like the day's: tokens rise from 101 on, the households stand in another order.
fn list(records: u32) -> Vec<u8> {
    (0..records)
        .flat_map(|i| [[10, 0, 32, 0], (101 + i).to_le_bytes(), (2000 + i * 31 % 85).to_le_bytes()].concat())
        .collect()
}

// Both sides stand behind one call that is not inlined, as a library's functions do.

#[inline(never)]
fn theirs(list: &[u8]) -> Result<usize, (u8, usize)> {
    slow::judge(list)
}

#[inline(never)]
fn find_theirs(list: &[u8], household: u32) -> Result<Option<usize>, (u8, usize)> {
    slow::find(list, household)
}

pub fn run() {
    for records in [85, 8] {
        let list = list(records);
        let calls = CallList::read(&list).unwrap();
        assert_eq!(Ok(calls.len()), theirs(&list));
        line(
            &format!("check of a call list of {records}"),
            both(2_000, || CallList::read(black_box(&list)), || theirs(black_box(&list))),
        );
        let last = calls.entries().next_back().unwrap().household;
        line(
            &format!("  its last household found, list of {records}"),
            both(2_000, || black_box(&calls).position_of(last), || find_theirs(black_box(&list), last)),
        );
    }
}
