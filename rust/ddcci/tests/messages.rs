//! The proved messages against the oracle's: read alike whatever the bytes, built alike whatever the fields.
mod common;
use common::{number, read_alike, rounds};
use ddcci::{Refusal, Reply, Request, OUTPUT_ROOM};
use oracle::line::Random;
use oracle::message as slow;

const ROOM: usize = 64;

/// Our output and answer, then the oracle's answer and output.
type Built = ([u8; ROOM], Result<usize, Refusal>, Result<usize, u8>, [u8; ROOM]);

/// A message of each kind with these bytes as its fields.
fn request_of(kind: usize, r: &mut Random, data: &[u8]) -> Built {
    let mut ours = [0xAA; ROOM];
    let mut theirs = [0xAA; ROOM];
    let (code, word) = (r.byte(), r.word());
    let (a, b) = match kind {
        0 => (Request::Get { code }.build(&mut ours), slow::build_get(code, &mut theirs)),
        1 => (Request::Set { code, value: word }.build(&mut ours), slow::build_set(code, word, &mut theirs)),
        2 => (Request::Timing.build(&mut ours), slow::build_timing(&mut theirs)),
        3 => (Request::Save.build(&mut ours), slow::build_save(&mut theirs)),
        4 => (Request::Text { offset: word }.build(&mut ours), slow::build_capabilities(word, &mut theirs)),
        5 => (
            Request::TableRead { code, offset: word }.build(&mut ours),
            slow::build_table_read(code, word, &mut theirs),
        ),
        _ => (
            Request::TableWrite { code, offset: word, data }.build(&mut ours),
            slow::build_table_write(code, word, data, &mut theirs),
        ),
    };
    (ours, a, b, theirs)
}

fn reply_of(kind: usize, r: &mut Random, data: &[u8]) -> Built {
    let mut ours = [0x55; ROOM];
    let mut theirs = [0x55; ROOM];
    let small = |r: &mut Random| if r.percent(80) { (r.byte()) & 1 } else { r.byte() };
    let (a, b) = match kind {
        0 => {
            let (result, code, kind, max, present) = (small(r), r.byte(), small(r), r.word(), r.word());
            (
                Reply::Value { result, code, kind, max, present }.build(&mut ours),
                slow::build_value(result, code, kind, max, present, &mut theirs),
            )
        }
        1 => {
            let status = if r.percent(70) { r.byte() & 0xC3 } else { r.byte() };
            let (horizontal, vertical) = (r.word(), r.word());
            (
                Reply::Timing { status, horizontal, vertical }.build(&mut ours),
                slow::build_timing_reply(status, horizontal, vertical, &mut theirs),
            )
        }
        2 => (Reply::Null.build(&mut ours), slow::build_null(&mut theirs)),
        3 => {
            let offset = r.word();
            (
                Reply::TextFragment { offset, data }.build(&mut ours),
                slow::build_capabilities_reply(offset, data, &mut theirs),
            )
        }
        _ => {
            let offset = r.word();
            (
                Reply::TableFragment { offset, data }.build(&mut ours),
                slow::build_table_read_reply(offset, data, &mut theirs),
            )
        }
    };
    (ours, a, b, theirs)
}

fn some_data<'a>(r: &mut Random, room: &'a mut [u8; 40]) -> &'a [u8] {
    r.fill(room);
    let n = r.below(36);
    &room[..n]
}

/// A valid message of either direction, or `None` where the fields were refused.
fn some_message(r: &mut Random) -> Option<([u8; ROOM], usize)> {
    let mut room = [0; 40];
    let data = some_data(r, &mut room);
    let (bytes, length, ..) = if r.percent(50) {
        let kind = r.below(7);
        request_of(kind, r, data)
    } else {
        let kind = r.below(5);
        reply_of(kind, r, data)
    };
    length.ok().map(|n| (bytes, n))
}

#[test]
fn every_slice_of_up_to_3_bytes() {
    read_alike(&[]);
    for a in 0..=255u8 {
        read_alike(&[a]);
        for b in 0..=255u8 {
            read_alike(&[a, b]);
            for c in 0..=255u8 {
                read_alike(&[a, b, c]);
            }
        }
    }
}

#[test]
fn built_alike_and_read_back() {
    let mut r = Random::new(1);
    for round in 0..rounds(300_000) {
        let mut room = [0; 40];
        let data = some_data(&mut r, &mut room);
        let (ours, a, b, theirs) = if round % 2 == 0 {
            let kind = r.below(7);
            request_of(kind, &mut r, data)
        } else {
            let kind = r.below(5);
            reply_of(kind, &mut r, data)
        };
        assert_eq!(number(a), b);
        assert_eq!(ours, theirs, "every byte of the output, the bytes beyond the message too");
        if let Ok(n) = b {
            read_alike(&ours[..n]);
            let again = match ours[0] {
                0x51 => Request::read(&ours[..n]).and_then(|m| m.to_bytes()),
                _ => Reply::read(&ours[..n]).and_then(|m| m.to_bytes()),
            };
            match again {
                Ok(bytes) => assert_eq!(&bytes[..], &ours[..n]),
                Err(refusal) => assert_eq!((refusal, &ours[..n]), (Refusal::NullMessage, &[0x6E, 0x80, 0xBE][..])),
            }
        }
    }
}

#[test]
fn every_byte_of_a_message_changed_to_every_value() {
    let mut r = Random::new(2);
    for _ in 0..rounds(400) {
        let Some((mut bytes, n)) = some_message(&mut r) else { continue };
        for i in 0..n {
            let kept = bytes[i];
            for b in 0..=255 {
                bytes[i] = b;
                read_alike(&bytes[..n]);
            }
            bytes[i] = kept;
        }
    }
}

#[test]
fn random_and_mutated_slices() {
    let mut r = Random::new(3);
    for _ in 0..rounds(2_000_000) {
        let mut room = [0u8; 300];
        let n = if r.percent(90) { r.below(45) } else { r.below(300) };
        if r.percent(60) {
            let Some((bytes, m)) = some_message(&mut r) else { continue };
            room[..m].copy_from_slice(&bytes[..m]);
            for _ in 0..r.below(3) {
                let at = r.below(m);
                room[at] = r.byte();
            }
            let end = (m + r.below(4)).saturating_sub(r.below(3));
            read_alike(&room[..end]);
        } else {
            r.fill(&mut room[..n]);
            if n > 2 {
                room[0] = if r.percent(50) { 0x51 } else { 0x6E };
                room[1] = if r.percent(80) { 0x80 + (n - 3).min(127) as u8 } else { r.byte() };
                if r.percent(50) {
                    let seed = if room[0] == 0x51 { 0x6E } else { 0x50 };
                    room[n - 1] = room[..n - 1].iter().fold(seed, |x, b| x ^ b);
                }
            }
            read_alike(&room[..n]);
        }
    }
}

#[test]
fn an_output_needs_38_bytes() {
    for room in [0, 1, 37, 38, 39] {
        let mut out = vec![0x5A; room];
        let wanted = if room < OUTPUT_ROOM { Err(Refusal::WrongSize) } else { Ok(5) };
        assert_eq!(Request::Get { code: 0x10 }.build(&mut out), wanted);
        if room < OUTPUT_ROOM {
            assert!(out.iter().all(|b| *b == 0x5A));
        }
    }
}
