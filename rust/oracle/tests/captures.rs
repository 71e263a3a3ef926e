//! The captured lines of the sources.

use oracle::display::{Display, Timing};
use oracle::message::*;
use oracle::settings::Declaration;
use oracle::TABLE_LIMIT;

/// The bytes of a line of hexadecimal numbers.
fn bytes(line: &str) -> Vec<u8> {
    line.split_whitespace().map(|byte| u8::from_str_radix(byte.trim_start_matches("0x"), 16).expect("a byte")).collect()
}

/// Reading and building again gives the same bytes.
fn request(slice: &[u8]) -> Request<'_> {
    let message = read_request(slice).expect("a request");
    let mut out = [0; 38];
    let length = message.build(&mut out).expect("built");
    assert_eq!(&out[..length], slice);
    message
}

fn reply(slice: &[u8]) -> Reply<'_> {
    let message = read_reply(slice).expect("a reply");
    let mut out = [0; 38];
    let length = message.build(&mut out).expect("built");
    assert_eq!(&out[..length], slice);
    message
}

/// Source 001's lines stand with the address 37 before the slice. A write's
/// exclusive-or with it is 59: 37 xor 6E.
fn without_address(line: &[u8]) -> &[u8] {
    assert_eq!(line[0], 0x37);
    &line[1..]
}

const EXCHANGES: [(&str, &str, u16, u16); 6] = [
    ("0x37 0x51 0x82 0x01 0xd1 0x6d", "0x37 0x6e 0x88 0x02 0x00 0xd1 0x00 0x00 0x02 0x00 0x00 0x67", 2, 0),
    ("0x37 0x51 0x82 0x01 0x62 0xde", "0x37 0x6e 0x88 0x02 0x00 0x62 0x00 0x00 0x32 0x00 0x00 0xe4", 0x32, 0),
    ("0x37 0x51 0x82 0x01 0x8d 0x31", "0x37 0x6e 0x88 0x02 0x00 0x8d 0x00 0x00 0x02 0x00 0x01 0x3a", 2, 1),
    ("0x37 0x51 0x82 0x01 0xdc 0x60", "0x37 0x6e 0x88 0x02 0x00 0xdc 0x00 0x00 0x32 0x00 0x12 0x48", 0x32, 0x12),
    ("0x37 0x51 0x82 0x01 0xd9 0x65", "0x37 0x6e 0x88 0x02 0x00 0xd9 0x00 0x07 0x0a 0x03 0x08 0x6b", 0x070A, 0x0308),
    ("0x37 0x51 0x82 0x01 0xd7 0x6b", "0x37 0x6e 0x88 0x02 0x00 0xd7 0x00 0x02 0x31 0x02 0x10 0x42", 0x0231, 0x0210),
];

#[test]
fn source_001_exchanges() {
    for (written, read, maximum, present) in EXCHANGES {
        let written = bytes(written);
        assert_eq!(written.iter().fold(0, |sum, byte| sum ^ byte), 0x59);
        let Request::Get { code } = request(without_address(&written)) else {
            panic!("not a Get");
        };
        let read = bytes(read);
        let value = Reply::Value { result: 0, code, kind: 0, maximum, present };
        assert_eq!(reply(without_address(&read)), value);
        // A display with these values answers with these bytes.
        let (_, mut display) = Display::start(Timing::default(), b"", 32);
        let declaration =
            Declaration { code, readable: true, writable: true, kind: 0, continuous: false, maximum, present };
        assert_eq!(display.declare(declaration), 0);
        let mut out = [0; 38];
        let (answer, length) = display.step(b"", &mut [0; TABLE_LIMIT], &written[1..], &mut out);
        assert_eq!((answer, &out[..length]), (0, &read[1..]));
    }
    let sample = bytes("0x6e 0x88 0x02 0x00 0x18 0x00 0x00 0x64 0x00 0x64 0xac");
    let value = Reply::Value { result: 0, code: 0x18, kind: 0, maximum: 100, present: 100 };
    assert_eq!(reply(&sample), value);
}

#[test]
fn source_001_sets() {
    for (line, value) in
        [("0x37 0x51 0x84 0x03 0xd7 0x02 0x20 0x4d", 0x0220), ("0x37 0x51 0x84 0x03 0xd7 0x02 0x10 0x7d", 0x0210)]
    {
        let line = bytes(line);
        assert_eq!(line.iter().fold(0, |sum, byte| sum ^ byte), 0x59);
        assert_eq!(request(without_address(&line)), Request::Set { code: 0xD7, value });
    }
}

#[test]
fn source_001_gets() {
    let lines = [
        (0xDC, 0x60),
        (0xD9, 0x65),
        (0xD7, 0x6B),
        (0xE2, 0x5E),
        (0x10, 0xAC),
        (0x12, 0xAE),
        (0x87, 0x3B),
        (0x14, 0xA8),
        (0x16, 0xAA),
        (0x18, 0xA4),
        (0x1A, 0xA6),
        (0x8A, 0x36),
        (0x72, 0xCE),
        (0xFD, 0x41),
        (0xE6, 0x5A),
        (0xE7, 0x5B),
        (0xE9, 0x55),
        (0x60, 0xDC),
        (0x19, 0xA5),
        (0xD1, 0x6D),
        (0x62, 0xDE),
        (0x8D, 0x31),
    ];
    assert_eq!(lines.len(), 22);
    for (code, checksum) in lines {
        let slice = [0x51, 0x82, 0x01, code, checksum];
        assert_eq!(request(&slice), Request::Get { code });
    }
}

#[test]
fn source_003() {
    assert_eq!(request(&bytes("51 82 01 10 AC")), Request::Get { code: 0x10 });
    assert_eq!(request(&bytes("51 84 03 10 00 64 CC")), Request::Set { code: 0x10, value: 100 });
    assert_eq!(request(&bytes("51 81 07 B9")), Request::Timing);
    assert_eq!(request(&bytes("51 81 0C B2")), Request::Save);
    assert_eq!(
        reply(&bytes("6E 88 02 00 10 00 00 64 00 32 F2")),
        Reply::Value { result: 0, code: 0x10, kind: 0, maximum: 100, present: 50 }
    );
    let timing = bytes("6E 06 4E 02 34 1C 17 70 3B");
    assert_eq!(reply(&timing), Reply::Timing { status: 2, horizontal: 13340, vertical: 6000 });
    // A display with that timing answers with these bytes.
    let timing_of_source = Timing { status: 2, horizontal: 13340, vertical: 6000 };
    let (answer, mut display) = Display::start(timing_of_source, b"", 1);
    assert_eq!(answer, 0);
    let mut out = [0; 38];
    let (answer, length) = display.step(b"", &mut [0; TABLE_LIMIT], &bytes("51 81 07 B9"), &mut out);
    assert_eq!((answer, &out[..length]), (0, &timing[..]));
}

#[test]
fn source_004() {
    assert_eq!(read_reply(&bytes("6E 80 BE")), Err(12));
    // Commands that the table does not have.
    assert_eq!(read_request(&bytes("51 82 F5 01 49")), Err(6));
    assert_eq!(read_request(&bytes("51 81 B1 0F")), Err(6));
    assert_eq!(read_reply(&bytes("6E 82 A1 00 1D")), Err(6));
    // Another device's first byte.
    assert_eq!(read_request(&bytes("F1 81 B1 AF")), Err(3));
    assert_eq!(read_reply(&bytes("F0 82 A1 00 83")), Err(3));
    // The display answers an unknown command with the null message.
    let (_, mut display) = Display::start(Timing::default(), b"", 1);
    let mut out = [0xA5; 40];
    let step = display.step(b"", &mut [0; TABLE_LIMIT], &bytes("51 82 F5 01 49"), &mut out);
    assert_eq!(step, (6, 3));
    assert_eq!(out[..3], NULL_MESSAGE);
    assert!(out[3..].iter().all(|&byte| byte == 0xA5));
}
