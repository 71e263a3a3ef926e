//! "Checked examples" of document 01.

use oracle::capabilities;
use oracle::display::{Display, Timing};
use oracle::message::*;
use oracle::profile;
use oracle::settings::{Declaration, Settings};
use oracle::transfer::{State, Transfer};
use oracle::{answer, Text, TABLE_CODE, TABLE_LIMIT};

/// Building gives these bytes, and the output beyond them stays.
fn built(expected: &[u8], build: impl Fn(&mut [u8]) -> Result<usize, u8>) {
    for length in [38, 39, 100] {
        let mut out = vec![0xA5; length];
        assert_eq!(build(&mut out), Ok(expected.len()));
        assert_eq!(&out[..expected.len()], expected);
        assert!(out[expected.len()..].iter().all(|&byte| byte == 0xA5));
    }
    for length in 0..38 {
        let mut out = vec![0xA5; length];
        assert_eq!(build(&mut out), Err(1));
        assert!(out.iter().all(|&byte| byte == 0xA5));
    }
}

fn request(bytes: &[u8], message: Request) {
    assert_eq!(read_request(bytes), Ok(message));
    built(bytes, |out| message.build(out));
}

fn reply(bytes: &[u8], message: Reply) {
    assert_eq!(read_reply(bytes), Ok(message));
    let mut longer = bytes.to_vec();
    longer.extend([0x6E, 0x80, 0xBE, 0x00, 0xFF]);
    assert_eq!(read_reply(&longer), Ok(message));
    built(bytes, |out| message.build(out));
}

#[test]
fn requests() {
    request(&[0x51, 0x82, 0x01, 0x10, 0xAC], Request::Get { code: 0x10 });
    request(&[0x51, 0x84, 0x03, 0x10, 0x00, 0x64, 0xCC], Request::Set { code: 0x10, value: 100 });
    request(&[0x51, 0x81, 0x07, 0xB9], Request::Timing);
    request(&[0x51, 0x81, 0x0C, 0xB2], Request::Save);
    request(&[0x51, 0x83, 0xF3, 0x00, 0x00, 0x4F], Request::Capabilities { offset: 0 });
}

#[test]
fn replies() {
    reply(
        &[0x6E, 0x88, 0x02, 0x00, 0x10, 0x00, 0x00, 0x64, 0x00, 0x32, 0xF2],
        Reply::Value { result: 0, code: 0x10, kind: 0, maximum: 100, present: 50 },
    );
    reply(
        &[0x6E, 0x06, 0x4E, 0x02, 0x34, 0x1C, 0x17, 0x70, 0x3B],
        Reply::Timing { status: 2, horizontal: 13340, vertical: 6000 },
    );
    reply(&[0x6E, 0x83, 0xE3, 0x00, 0x00, 0x5E], Reply::Capabilities { offset: 0, data: &[] });
    assert_eq!(read_reply(&[0x6E, 0x80, 0xBE]), Err(12));
    assert_eq!(read_reply(&[0x6E, 0x80, 0xBE, 1, 2]), Err(12));
    built(&[0x6E, 0x80, 0xBE], build_null);
}

#[test]
fn decided_readings_of_the_length_byte() {
    // No body: 6E 00 xx is 4, a null with a wrong checksum is 5.
    for checksum in 0..=255 {
        assert_eq!(read_reply(&[0x6E, 0x00, checksum]), Err(4));
    }
    assert_eq!(read_reply(&[0x6E, 0x80, 0x4E]), Err(5));
    // 4E in the form 80+n is 4, before the checksum; plain n other than 6 is 7, after it.
    let timing = [0x6E, 0x86, 0x4E, 0x02, 0x34, 0x1C, 0x17, 0x70, 0x3B ^ 0x80];
    assert_eq!(read_reply(&timing), Err(4));
    for n in 1..=35_u8 {
        let mut bytes = vec![0x6E, n, 0x4E];
        bytes.resize(usize::from(n) + 2, 0);
        let checksum = bytes.iter().fold(0x50, |sum, byte| sum ^ byte);
        bytes.push(checksum);
        let read = read_reply(&bytes);
        assert_eq!(read.is_ok(), n == 6);
        assert!(n == 6 || read == Err(7));
        bytes[usize::from(n) + 2] ^= 1;
        assert_eq!(read_reply(&bytes), Err(5));
    }
    for n in 36..=127 {
        let mut bytes = vec![0x6E, n, 0x4E];
        bytes.resize(200, 0);
        assert_eq!(read_reply(&bytes), Err(4));
    }
    // The plain form is a reply's only.
    assert_eq!(read_request(&[0x51, 0x01, 0x07, 0x39]), Err(4));
    // Each end knows its own half of the table.
    let value_as_request = [0x51, 0x82, 0x02, 0x10, 0xAF];
    assert_eq!(read_request(&value_as_request), Err(6));
    let get_as_reply = [0x6E, 0x82, 0x01, 0x10, 0xAD];
    assert_eq!(read_reply(&get_as_reply), Err(6));
    assert_eq!(read_request(&[0x51, 0x80, 0xBF]), Err(6));
}

/// Start, length, parent and group of each node.
type Nodes = Vec<(u16, u16, u16, u8)>;

fn tree(text: &[u8]) -> Result<Nodes, (u8, usize)> {
    let mut starts = [7; 16];
    let mut lengths = [7; 16];
    let mut parents = [7; 16];
    let mut groups = [7; 16];
    let count = capabilities::read(text, &mut starts, &mut lengths, &mut parents, &mut groups)?;
    assert!(starts[count..].iter().all(|&entry| entry == 7));
    Ok((0..count).map(|node| (starts[node], lengths[node], parents[node], groups[node])).collect())
}

#[test]
fn capabilities_strings() {
    assert_eq!(
        tree(b"(vcp(10 14(05 08)))"),
        Ok(vec![(1, 3, 65_535, 1), (5, 2, 0, 0), (8, 2, 0, 1), (11, 2, 2, 0), (14, 2, 2, 0)])
    );
    assert_eq!(tree(b"()"), Ok(vec![]));
    assert_eq!(tree(b"(a(b)(c))"), Err((13, 5)));
    assert_eq!(tree(b"((05))"), Err((13, 1)));
    assert_eq!(tree(b"(a) "), Err((13, 3)));
    assert_eq!(tree(b"(a"), Err((13, 2)));
    // Decided readings.
    assert_eq!(tree(b""), Err((13, 0)));
    assert_eq!(tree(b"(a(b) (c))"), Err((13, 6)));
    assert_eq!(tree(b"(a(b)c)"), Ok(vec![(1, 1, 65_535, 1), (3, 1, 0, 0), (5, 1, 65_535, 0)]));
    assert_eq!(tree(b"(a  (b))"), Ok(vec![(1, 1, 65_535, 1), (5, 1, 0, 0)]));
    let empty = || (Vec::<u16>::new(), Vec::<u8>::new());
    let (mut none, mut no_groups) = empty();
    let mut read = |text: &[u8]| capabilities::read(text, &mut none, &mut [0u16; 4], &mut [0u16; 4], &mut no_groups);
    assert_eq!(read(b"()"), Ok(0));
    assert_eq!(read(b"(  )"), Ok(0));
    assert_eq!(read(b"( a)"), Err((14, 2)));
}

#[test]
fn depth_8_and_9() {
    let nested = |depth: usize| {
        let mut text = b"(".to_vec();
        for _ in 1..depth {
            text.extend(b"a(");
        }
        text.extend(vec![b')'; depth]);
        text
    };
    assert_eq!(tree(&nested(8)).map(|nodes| nodes.len()), Ok(7));
    assert_eq!(tree(&nested(9)), Err((15, 16)));
    // The ninth open at once: groups side by side do not add up.
    let mut side = b"(".to_vec();
    for _ in 0..12 {
        side.extend(b"a(b)");
    }
    side.push(b')');
    assert_eq!(capabilities::judge(&side, 512), Ok(24));
    // A ninth bracket where no group may stand is 13.
    let mut bad = nested(8)[..15].to_vec();
    bad.push(b'(');
    assert_eq!(tree(&bad), Err((13, 15)));
}

#[test]
fn text_length_and_node_room() {
    let mut text = vec![b' '; 4096];
    text[0] = b'(';
    text[4095] = b')';
    assert_eq!(tree(&text), Ok(vec![]));
    text.insert(1, b' ');
    assert_eq!(tree(&text), Err((11, 0)));
    assert_eq!(tree(&[0; 5000]), Err((11, 0)));

    let words = |count: usize| {
        let mut text = b"(".to_vec();
        for _ in 0..count {
            text.extend(b"w ");
        }
        text.push(b')');
        text
    };
    let mut starts = [0; 600];
    let mut lengths = [0; 600];
    let mut parents = [0; 600];
    let mut groups = [9; 600];
    let mut read = |text: &[u8]| capabilities::read(text, &mut starts, &mut lengths, &mut parents, &mut groups);
    assert_eq!(read(&words(512)), Ok(512));
    assert_eq!(read(&words(513)), Err((14, 1 + 512 * 2)));
    assert_eq!(groups[511], 0);
    assert_eq!(groups[512], 9);
}

#[test]
fn source_004_capabilities_strings() {
    let nodes = tree(b"(vcp(10 12 16 18 1A 50 92))").expect("accepted");
    assert_eq!(nodes.len(), 8);
    let nodes = tree(b"(e_edid_sel(40 01(02(00)0C(01 02 00)18(00))))").expect("accepted");
    assert_eq!(nodes.len(), 11);
}

#[test]
fn profile_of_one_code() {
    let mut settings = Settings::new();
    let declaration = Declaration {
        code: 0x10,
        readable: true,
        writable: true,
        kind: 0,
        continuous: true,
        maximum: 100,
        present: 50,
    };
    assert_eq!(settings.declare(declaration), 0);
    let bytes = [0x05, 0x00, 0x01, 0x00, 0x10, 0x32, 0x00];
    let mut out = [0xA5; 9];
    assert_eq!(profile::write(&settings, &mut out), Ok(7));
    assert_eq!(out[..7], bytes);
    assert_eq!(out[7..], [0xA5, 0xA5]);
    assert_eq!(profile::write(&settings, &mut out[..6]), Err(1));
    let before = settings.clone();
    assert_eq!(profile::load(&mut settings, &bytes), Ok(()));
    assert_eq!(settings, before);
}

/// A display with a text of that length and one byte a fragment.
fn display(text: &[u8], fragment_size: usize) -> Display {
    let (answer, display) = Display::start(Timing::default(), text, fragment_size);
    assert_eq!(answer, 0);
    display
}

#[test]
fn table_of_1024_and_1025_bytes() {
    let mut display = display(b"", 32);
    let mut table = [0xEE; TABLE_LIMIT];
    let mut out = [0; 38];
    let mut message = [0; 38];
    let list: Vec<u8> = (0..1025u32).map(|byte| byte as u8).collect();
    for start in (0..1023).step_by(31) {
        let end = (start + 31).min(1023);
        let length = build_table_write(TABLE_CODE, start as u16, &list[start..end], &mut message).expect("built");
        let step = display.step(b"", &mut table, &message[..length], &mut out);
        assert_eq!(step, (0, 0));
    }
    assert_eq!(display.table_len(), 1023);
    let mut write = |display: &mut Display, offset: usize, data: &[u8]| {
        let length = build_table_write(TABLE_CODE, offset as u16, data, &mut message).expect("built");
        display.step(b"", &mut table, &message[..length], &mut out).0
    };
    assert_eq!(write(&mut display, 1024, &[]), 10);
    assert_eq!(write(&mut display, 1023, &list[1023..1025]), 11);
    assert_eq!(display.table_len(), 1023);
    assert_eq!(write(&mut display, 1023, &list[1023..1024]), 0);
    assert_eq!(display.table_len(), 1024);
    assert_eq!(write(&mut display, 1024, &list[1024..1025]), 11);
    assert_eq!(write(&mut display, 1024, &[]), 0);
    assert_eq!(write(&mut display, 1025, &[]), 10);
    assert_eq!(display.table_len(), 1024);
    assert_eq!(table[..], list[..1024]);
}

#[test]
fn no_tail_of_a_longer_old_table() {
    let mut display = display(b"", 32);
    let mut table = [0xEE; TABLE_LIMIT];
    let mut out = [0; 38];
    let mut message = [0; 38];
    for (offset, data, length) in [
        (0, &b"abcdef"[..], 6),
        (3, &b"X"[..], 6),
        (6, &b"gh"[..], 8),
        (8, &b""[..], 8),
        (0, &b"xy"[..], 2),
        (0, &b""[..], 0),
    ] {
        let n = build_table_write(TABLE_CODE, offset, data, &mut message).expect("built");
        assert_eq!(display.step(b"", &mut table, &message[..n], &mut out), (0, 0));
        assert_eq!(display.table_len(), length);
    }
    assert_eq!(&table[..8], b"xycXefgh");
    let n = build_table_read(TABLE_CODE, 0, &mut message).expect("built");
    let (answer, reply_len) = display.step(b"", &mut table, &message[..n], &mut out);
    assert_eq!((answer, &out[..reply_len]), (0, &[0x6E, 0x83, 0xE4, 0, 0, 0x59][..]));
}

/// Runs a transfer of the display's text without noise.
fn run(text: &[u8], fragment_size: usize, budget: u64) -> (Transfer, Vec<u8>) {
    let mut display = display(text, fragment_size);
    let (answer, mut transfer) = Transfer::begin(Text::Capabilities, text.len(), budget);
    assert_eq!(answer, 0);
    let mut buffer = vec![0; text.len()];
    let mut table = [0; TABLE_LIMIT];
    let (mut request, mut reply) = ([0; 38], [0; 38]);
    while transfer.state() == State::Open {
        let (answer, length) = transfer.request(&mut request);
        assert_eq!(answer, 0);
        let (answer, length) = display.step(text, &mut table, &request[..length], &mut reply);
        assert_eq!(answer, 0);
        assert_eq!(transfer.receive(&mut buffer, &reply[..length]), 0);
    }
    assert_eq!(transfer.request(&mut request), (answer::CLOSED, 0));
    assert_eq!(transfer.receive(&mut buffer, &reply), answer::CLOSED);
    (transfer, buffer)
}

#[test]
fn budget_l_and_l_plus_1() {
    for length in [0, 1, 2, 31, 32, 33, 1024, 4096] {
        let text: Vec<u8> = (0..length).map(|byte| byte as u8).collect();
        let (transfer, buffer) = run(&text, 1, length as u64);
        assert_eq!(transfer.state(), State::Exhausted);
        assert_eq!((transfer.offset(), transfer.count()), (length, length));
        assert_eq!(buffer, text);
        let (transfer, buffer) = run(&text, 1, length as u64 + 1);
        assert_eq!(transfer.state(), State::Done);
        assert_eq!((transfer.offset(), transfer.count()), (length, length + 1));
        assert_eq!(buffer, text);
    }
}

#[test]
fn beginnings() {
    let (answer, transfer) = Transfer::begin(Text::Table, 100, 65_536);
    assert_eq!((answer, transfer.state()), (18, State::Exhausted));
    assert_eq!((transfer.room(), transfer.budget(), transfer.count()), (0, 0, 0));
    let (answer, transfer) = Transfer::begin(Text::Table, 100, u64::MAX);
    assert_eq!((answer, transfer.state()), (18, State::Exhausted));
    let (answer, transfer) = Transfer::begin(Text::Table, 5000, 0);
    assert_eq!((answer, transfer.state()), (0, State::Exhausted));
    assert_eq!(transfer.room(), 4096);
    let (answer, transfer) = Transfer::begin(Text::Table, 4095, 65_535);
    assert_eq!((answer, transfer.state()), (0, State::Open));
    assert_eq!(transfer.room(), 4095);
}

#[test]
fn rules_of_receiving() {
    let (_, mut transfer) = Transfer::begin(Text::Table, 4, 9);
    let mut buffer = [0xA5; 4];
    let mut reply = [0; 38];
    let mut out = [0; 38];
    assert_eq!(transfer.request(&mut out[..37]), (1, 0));
    assert_eq!(transfer.request(&mut out), (0, 7));
    assert_eq!(read_request(&out[..7]), Ok(Request::TableRead { code: 0xF4, offset: 0 }));
    // A buffer of another length is 1 and not counted.
    assert_eq!(transfer.receive(&mut [0; 3], &[]), 1);
    assert_eq!(transfer.receive(&mut [0; 5], &[]), 1);
    assert_eq!(transfer.count(), 0);
    // Counted: nothing came, a null message, another kind, another offset.
    assert_eq!(transfer.receive(&mut buffer, &[]), 2);
    assert_eq!(transfer.receive(&mut buffer, &NULL_MESSAGE), 12);
    let n = build_capabilities_reply(0, b"ab", &mut reply).expect("built");
    assert_eq!(transfer.receive(&mut buffer, &reply[..n]), 10);
    let n = build_table_read_reply(1, b"ab", &mut reply).expect("built");
    assert_eq!(transfer.receive(&mut buffer, &reply[..n]), 10);
    assert_eq!((transfer.count(), transfer.offset(), buffer), (4, 0, [0xA5; 4]));
    // A fragment is put once; the same one again is 10.
    let n = build_table_read_reply(0, b"ab", &mut reply).expect("built");
    assert_eq!(transfer.receive(&mut buffer, &reply[..n]), 0);
    assert_eq!(transfer.receive(&mut buffer, &reply[..n]), 10);
    assert_eq!((transfer.offset(), &buffer), (2, b"ab\xA5\xA5"));
    // Another offset goes before too much data.
    let n = build_table_read_reply(9, b"abc", &mut reply).expect("built");
    assert_eq!(transfer.receive(&mut buffer, &reply[..n]), 10);
    // Data past the room closes, also where it falls on the budget's last exchange.
    let mut last = transfer;
    let n = build_table_read_reply(2, b"cde", &mut reply).expect("built");
    assert_eq!(last.receive(&mut buffer, &[]), 2);
    assert_eq!((last.count(), last.state()), (8, State::Open));
    assert_eq!(last.receive(&mut buffer, &reply[..n]), 11);
    assert_eq!((last.count(), last.state()), (9, State::Overflowed));
    assert_eq!(buffer, *b"ab\xA5\xA5");
    // Filling the room is not the end; the empty fragment at the room is.
    let n = build_table_read_reply(2, b"cd", &mut reply).expect("built");
    assert_eq!(transfer.receive(&mut buffer, &reply[..n]), 0);
    assert_eq!((transfer.offset(), transfer.state()), (4, State::Open));
    let n = build_table_read_reply(4, b"", &mut reply).expect("built");
    assert_eq!(transfer.receive(&mut buffer, &reply[..n]), 0);
    assert_eq!((transfer.count(), transfer.state()), (9, State::Done));
    assert_eq!(transfer.receive(&mut [0; 1], &reply[..n]), 16);
    assert_eq!(transfer.request(&mut []), (16, 0));
    assert_eq!(&buffer, b"abcd");
}
