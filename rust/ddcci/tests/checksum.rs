//! The checksum, which is taken of eight bytes at a time: against the papers' sentence taken byte by byte, and against
//! the oracle's, on every length up to 64 at every alignment, and on long slices.
mod common;
use common::rounds;
use oracle::line::Random;

/// The seeds of both directions, none, and all bits.
const SEEDS: [u8; 4] = [0x6E, 0x50, 0x00, 0xFF];
const LONGEST: usize = 64;
const ALIGNMENTS: usize = 64;
const ROOM: usize = 2 * ALIGNMENTS + LONGEST + ALIGNMENTS;

/// Bytes that begin at a multiple of 64, with room in front of and behind every slice that is looked at.
#[repr(align(64))]
struct Aligned([u8; ROOM]);

/// "the exclusive-or of its bytes with a seed", one byte after the other.
fn by_definition(seed: u8, bytes: &[u8]) -> u8 {
    let mut sum = seed;
    for byte in bytes {
        sum ^= byte;
    }
    sum
}

fn agrees(seed: u8, bytes: &[u8]) {
    let ours = ddcci::checksum(seed, bytes);
    assert_eq!(ours, by_definition(seed, bytes), "{} bytes, seed {seed:02X}", bytes.len());
    assert_eq!(ours, seed ^ oracle::message::xor(bytes), "the oracle's of {} bytes", bytes.len());
}

/// Calls with every slice of up to 64 bytes at every alignment of a buffer.
fn slices(buffer: &mut Aligned, mut each: impl FnMut(&mut Aligned, std::ops::Range<usize>)) {
    for start in ALIGNMENTS..2 * ALIGNMENTS {
        for length in 0..=LONGEST {
            each(buffer, start..start + length);
        }
    }
}

#[test]
fn every_length_at_every_alignment() {
    let mut r = Random::new(3);
    for _ in 0..rounds(20) {
        let mut buffer = Aligned(std::array::from_fn(|_| r.byte()));
        assert_eq!(buffer.0.as_ptr() as usize % ALIGNMENTS, 0, "so every alignment is met");
        slices(&mut buffer, |buffer, place| {
            for seed in SEEDS {
                agrees(seed, &buffer.0[place.clone()]);
            }
        });
    }
}

/// Each bit of the slice counts, and none beside it: of zeros with one byte among them the checksum is that byte, and
/// bytes in front of the slice and behind it make no difference.
#[test]
fn each_byte_counts_and_none_beside() {
    slices(&mut Aligned([0; ROOM]), |buffer, place| {
        for at in place.start - 9..place.end + 9 {
            buffer.0[at] = 0xFF;
            let counted = if place.contains(&at) { 0xFF } else { 0 };
            assert_eq!(ddcci::checksum(0x50, &buffer.0[place.clone()]), 0x50 ^ counted, "byte {at} of {place:?}");
            buffer.0[at] = 0;
        }
    });
}

/// Two words and four bytes behind them.
#[test]
fn every_value_at_every_place_of_twenty_bytes() {
    let mut bytes = [0x11; 20];
    for at in 0..bytes.len() {
        for value in 0..=255 {
            bytes[at] = value;
            agrees(0x50, &bytes);
        }
        bytes[at] = 0x11;
    }
}

#[test]
fn long_slices() {
    let mut r = Random::new(4);
    let bytes: Vec<u8> = (0..70_000).map(|_| r.byte()).collect();
    for length in (65..=1100).chain([4095, 4096, 4097, 65_535, 65_536, 69_992]) {
        for start in 0..8 {
            agrees(0x6E, &bytes[start..start + length]);
        }
    }
}

/// A message with its checksum behind it comes to 0, and with any one bit flipped it does not.
#[test]
fn a_closed_message_comes_to_zero() {
    let mut r = Random::new(5);
    for length in 0..=LONGEST {
        let mut message: Vec<u8> = (0..length).map(|_| r.byte()).collect();
        message.push(ddcci::checksum(0x50, &message));
        assert_eq!(ddcci::checksum(0x50, &message), 0);
        for bit in 0..8 * message.len() {
            message[bit / 8] ^= 1 << (bit % 8);
            assert_ne!(ddcci::checksum(0x50, &message), 0, "bit {bit} of {} bytes", message.len());
            message[bit / 8] ^= 1 << (bit % 8);
        }
    }
}
