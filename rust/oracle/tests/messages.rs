//! Reading and building against a plain table of the messages.

use oracle::line::Random;
use oracle::message::*;

/// The commands of one end with the body lengths that each may have.
const REQUESTS: [(u8, usize, usize); 7] =
    [(0x01, 2, 2), (0x03, 4, 4), (0x07, 1, 1), (0x0C, 1, 1), (0xF3, 3, 3), (0xE2, 4, 4), (0xE7, 4, 35)];
const REPLIES: [(u8, usize, usize); 4] = [(0x02, 8, 8), (0xE3, 3, 35), (0x4E, 6, 6), (0xE4, 3, 35)];

/// What a request is refused with, rule after rule; 0 where it is read.
fn request_answer(bytes: &[u8]) -> u8 {
    if bytes.len() < 3 {
        return 2;
    }
    if bytes[0] != 0x51 {
        return 3;
    }
    let n = bytes.len() - 3;
    if n > 35 || usize::from(bytes[1]) != 0x80 + n {
        return 4;
    }
    let mut sum = 0x6E;
    for byte in bytes {
        sum ^= byte;
    }
    if sum != 0 {
        return 5;
    }
    if n == 0 {
        return 6;
    }
    match REQUESTS.iter().find(|row| row.0 == bytes[2]) {
        None => 6,
        Some(row) if n < row.1 || n > row.2 => 7,
        Some(_) => 0,
    }
}

fn reply_answer(bytes: &[u8]) -> u8 {
    if bytes.len() < 3 {
        return 2;
    }
    if bytes[0] != 0x6E {
        return 3;
    }
    let flagged = bytes[1] >= 0x80;
    let n = usize::from(bytes[1] & 0x7F);
    if n > 35 || bytes.len() < n + 3 {
        return 4;
    }
    let timing = n > 0 && bytes[2] == 0x4E;
    if flagged == timing {
        return 4;
    }
    let mut sum = 0x50;
    for byte in &bytes[..n + 3] {
        sum ^= byte;
    }
    if sum != 0 {
        return 5;
    }
    if n == 0 {
        return 12;
    }
    match REPLIES.iter().find(|row| row.0 == bytes[2]) {
        None => 6,
        Some(row) if n < row.1 || n > row.2 => 7,
        Some(_) if bytes[2] == 0x02 && (bytes[3] > 1 || bytes[5] > 1) => 7,
        Some(_) if bytes[2] == 0x4E && bytes[3] & 0x3C != 0 => 7,
        Some(_) => 0,
    }
}

fn check_request(bytes: &[u8]) -> u8 {
    let answer = request_answer(bytes);
    match read_request(bytes) {
        Err(refusal) => assert_eq!(refusal, answer, "{bytes:02X?}"),
        Ok(message) => {
            assert_eq!(answer, 0, "{bytes:02X?}");
            // "Building what was read gives that message's bytes again."
            let mut out = [0xA5; 50];
            let length = message.build(&mut out).expect("built");
            assert_eq!(&out[..length], bytes);
            assert!(out[length..].iter().all(|&byte| byte == 0xA5));
        }
    }
    answer
}

fn check_reply(bytes: &[u8]) -> u8 {
    let answer = reply_answer(bytes);
    match read_reply(bytes) {
        Err(refusal) => assert_eq!(refusal, answer, "{bytes:02X?}"),
        Ok(message) => {
            assert_eq!(answer, 0, "{bytes:02X?}");
            // "Building what the post read gives the first n+3 bytes of the slice."
            let mut out = [0xA5; 50];
            let length = message.build(&mut out).expect("built");
            assert_eq!(length, usize::from(bytes[1] & 0x7F) + 3);
            assert_eq!(out[..length], bytes[..length]);
            assert!(out[length..].iter().all(|&byte| byte == 0xA5));
        }
    }
    answer
}

#[test]
fn any_bytes() {
    let mut random = Random::new(2);
    let mut requests = [0; 19];
    let mut replies = [0; 19];
    let mut bytes = [0; 64];
    for _ in 0..1_000_000 {
        let length = random.below(45);
        let slice = &mut bytes[..length];
        random.fill(slice);
        let to_display = random.percent(50);
        // Mostly right: first byte, length byte, command, fields, checksum.
        if length > 0 && random.percent(95) {
            slice[0] = if to_display { 0x51 } else { 0x6E };
        }
        let mut end = length;
        if length >= 3 {
            let mut n = length - 3;
            if !to_display && random.percent(40) {
                n = random.below(n + 1);
            }
            end = n + 3;
            let commands: &[u8] = if to_display {
                &[0x01, 0x03, 0x07, 0x0C, 0xF3, 0xE2, 0xE7, 0x02, 0x4E]
            } else {
                &[0x02, 0xE3, 0x4E, 0xE4, 0x4E, 0x02, 0x01]
            };
            if random.percent(95) && n > 0 {
                slice[2] = commands[random.below(commands.len())];
            }
            if random.percent(60) {
                // A body length that the command may have, where the slice has it.
                let row = REQUESTS.iter().chain(&REPLIES).find(|row| row.0 == slice[2]);
                if let Some(&(_, least, most)) = row {
                    let fit = random.between(least, most);
                    let fits = if to_display { fit < n } else { fit <= length - 3 };
                    if fits {
                        end = fit + 3;
                    }
                }
            }
            n = end - 3;
            if random.percent(95) {
                let plain = !to_display && n > 0 && slice[2] == 0x4E;
                slice[1] = if plain { n as u8 } else { 0x80 | n as u8 };
            }
            if n > 3 && random.percent(70) {
                slice[3] &= 0xC3;
                if slice[2] == 0x02 {
                    slice[3] &= 1;
                    slice[5] &= 1;
                }
            }
            if random.percent(95) {
                let seed = if to_display { 0x6E } else { 0x50 };
                let sum = slice[..end - 1].iter().fold(seed, |sum, byte| sum ^ byte);
                slice[end - 1] = sum;
            }
        }
        let slice = if to_display { &bytes[..end] } else { &bytes[..length] };
        if to_display {
            requests[usize::from(check_request(slice))] += 1;
        } else {
            replies[usize::from(check_reply(slice))] += 1;
        }
        check_request(&bytes[..length]);
        check_reply(&bytes[..length]);
    }
    for number in [0, 2, 3, 4, 5, 6, 7] {
        assert!(requests[number] > 1000, "request {number}: {requests:?}");
        assert!(replies[number] > 1000, "reply {number}: {replies:?}");
    }
    assert!(replies[12] > 100, "{replies:?}");
}

/// Every length byte with every command, at every slice length, checksum right.
#[test]
fn every_length_byte_and_command() {
    for command in 0..=255_u8 {
        for length in 0..=255_u8 {
            for slice_len in [3, 4, 5, 6, 7, 8, 9, 11, 37, 38, 39, 131] {
                let mut bytes = [0_u8; 131];
                bytes[0] = 0x51;
                bytes[1] = length;
                bytes[2] = command;
                let slice = &mut bytes[..slice_len];
                let sum = slice[..slice_len - 1].iter().fold(0x6E, |sum, byte| sum ^ byte);
                slice[slice_len - 1] = sum;
                check_request(slice);

                slice[0] = 0x6E;
                slice[2] = command;
                let end = usize::from(length & 0x7F) + 3;
                if end <= slice_len {
                    let sum = slice[..end - 1].iter().fold(0x50, |sum, byte| sum ^ byte);
                    slice[end - 1] = sum;
                }
                check_reply(slice);
            }
        }
    }
}

/// "Reading what was built gives the same message."
#[test]
fn built_messages_are_read() {
    let mut random = Random::new(3);
    let mut data = [0; 40];
    for _ in 0..200_000 {
        random.fill(&mut data);
        let (code, offset) = (random.byte(), random.word());
        let request = match random.below(7) {
            0 => Request::Get { code },
            1 => Request::Set { code, value: offset },
            2 => Request::Timing,
            3 => Request::Save,
            4 => Request::Capabilities { offset },
            5 => Request::TableRead { code, offset },
            _ => Request::TableWrite { code, offset, data: &data[..random.below(40)] },
        };
        let mut out = [0xA5; 38];
        match request.build(&mut out) {
            Ok(length) => assert_eq!(read_request(&out[..length]), Ok(request)),
            Err(refusal) => {
                assert_eq!((refusal, out), (7, [0xA5; 38]));
                assert!(matches!(request, Request::TableWrite { data, .. } if data.len() > 31));
            }
        }
        let reply = match random.below(4) {
            0 => Reply::Value {
                result: random.below(3) as u8,
                code,
                kind: random.below(3) as u8,
                maximum: random.word(),
                present: random.word(),
            },
            1 => Reply::Timing {
                status: random.byte() & [0xFF, 0xC3][random.below(2)],
                horizontal: random.word(),
                vertical: random.word(),
            },
            2 => Reply::Capabilities { offset, data: &data[..random.below(40)] },
            _ => Reply::Table { offset, data: &data[..random.below(40)] },
        };
        let mut out = [0xA5; 64];
        random.fill(&mut out[38..]);
        let before = out;
        match reply.build(&mut out) {
            Ok(length) => {
                assert_eq!(read_reply(&out), Ok(reply));
                assert_eq!(read_reply(&out[..length]), Ok(reply));
                assert!(read_reply(&out[..length - 1]).is_err());
            }
            Err(refusal) => {
                assert_eq!((refusal, out), (7, before));
                let wrong = match reply {
                    Reply::Value { result, kind, .. } => result > 1 || kind > 1,
                    Reply::Timing { status, .. } => status & 0x3C != 0,
                    Reply::Capabilities { data, .. } | Reply::Table { data, .. } => data.len() > 32,
                };
                assert!(wrong);
            }
        }
        // The output's size is judged before the fields.
        let mut short = [0xA5; 37];
        assert_eq!(request.build(&mut short), Err(1));
        assert_eq!(reply.build(&mut short), Err(1));
        assert_eq!(short, [0xA5; 37]);
    }
}
