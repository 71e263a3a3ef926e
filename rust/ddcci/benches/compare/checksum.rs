//! The checksum of the shortest and of the longest message.
use crate::measure::{both, line};
use std::hint::black_box;

#[inline(never)]
fn theirs(seed: u8, bytes: &[u8]) -> u8 {
    seed ^ oracle::message::xor(bytes)
}

pub fn run() {
    let bytes: Vec<u8> = (0..38).collect();
    for length in [3, 38] {
        let message = &bytes[..length];
        line(
            &format!("checksum of {length} bytes"),
            both(20_000, || ddcci::checksum(0x50, black_box(message)), || theirs(0x50, black_box(message))),
        );
    }
}
