//! Transfers as numbers that no call has made: judged like any other, never trusted.
use ddcci as _;

#[repr(C)]
#[derive(Clone, Copy, Debug, PartialEq, Eq)]
struct Numbers {
    size: usize,
    offset: u16,
    budget: u16,
    count: u16,
    phase: u8,
    answer: u8,
}

#[repr(C)]
#[derive(Debug, PartialEq, Eq)]
struct Built {
    answer: u8,
    length: usize,
}

extern "C" {
    fn ddcci_begin(kind: u8, buffer: *const u8, buffer_len: usize, budget: usize) -> Numbers;
    fn ddcci_request(transfer: Numbers, out: *mut u8, out_len: usize) -> Built;
    fn ddcci_receive(
        transfer: Numbers,
        buffer: *mut u8,
        buffer_len: usize,
        reply: *const u8,
        reply_len: usize,
    ) -> Numbers;
}

const BUFFER: usize = 40;
const WRONG_SIZE: u8 = 1;
const UNKNOWN: u8 = 6;
const NOT_WANTED: u8 = 10;
const TOO_LONG: u8 = 11;
const CLOSED: u8 = 16;

const EXHAUSTED: u8 = 0;
const RUNNING: u8 = 1;
const DONE: u8 = 2;
const OVERFLOWED: u8 = 3;

/// The empty table fragment at an offset: the end of the text, if it is the one wanted.
fn end(offset: u16) -> [u8; 6] {
    let [high, low] = offset.to_be_bytes();
    [0x6E, 0x83, 0xE4, high, low, 0x50 ^ 0x6E ^ 0x83 ^ 0xE4 ^ high ^ low]
}

/// What document 01 answers, and the phase and count afterwards, for a transfer of the table and the end at its own
/// offset.
fn expected(n: Numbers, text: u8) -> (u8, u8, u16) {
    let open = n.phase % 4 == RUNNING && n.count < n.budget;
    if n.phase >= 8 {
        return (UNKNOWN, n.phase, n.count);
    }
    if !open {
        return (CLOSED, n.phase, n.count);
    }
    if n.size != BUFFER {
        return (WRONG_SIZE, n.phase, n.count);
    }
    let count = n.count + 1;
    let spent = if count == n.budget { EXHAUSTED } else { RUNNING };
    if text == 0 {
        return (NOT_WANTED, spent, count);
    }
    if usize::from(n.offset) > BUFFER {
        return (TOO_LONG, 4 + OVERFLOWED, count);
    }
    (0, 4 + DONE, count)
}

#[test]
fn numbers_that_no_call_has_made() {
    for phase in 0..=255 {
        for offset in [0, 1, 32, 40, 41, 4095, 4096, 4097, 65535] {
            for (budget, count) in [(0, 0), (1, 0), (1, 1), (2, 1), (5, 9), (65535, 65534), (65535, 65535), (0, 65535)]
            {
                for size in [0, BUFFER, BUFFER + 1, usize::MAX] {
                    let n = Numbers { size, offset, budget, count, phase, answer: 77 };
                    judge(n);
                }
            }
        }
    }
}

fn judge(n: Numbers) {
    let mut buffer = [0xA5; BUFFER];
    let reply = end(n.offset);
    // SAFETY: each pointer and its length are those of one array, and the arrays lie apart; the numbers may be any.
    let after = unsafe { ddcci_receive(n, buffer.as_mut_ptr(), BUFFER, reply.as_ptr(), reply.len()) };
    let (answer, phase, count) = expected(n, n.phase / 4);
    assert_eq!(after, Numbers { phase, count, answer, ..n }, "{n:?}");
    assert_eq!(buffer, [0xA5; BUFFER], "an empty fragment has no byte to store");
    let mut out = [0xA5; 38];
    // SAFETY: pointer and length are those of one array; the numbers may be any.
    let built = unsafe { ddcci_request(n, out.as_mut_ptr(), out.len()) };
    if n.phase < 8 && n.phase % 4 == RUNNING && n.count < n.budget {
        assert_eq!(built, Built { answer: 0, length: if n.phase == RUNNING { 6 } else { 7 } });
    } else {
        let refusal = if n.phase < 8 { CLOSED } else { UNKNOWN };
        assert_eq!(built, Built { answer: refusal, length: 0 });
        assert_eq!(out, [0xA5; 38], "a refusal writes nothing");
    }
}

#[test]
fn unknown_texts() {
    let buffer = [0; BUFFER];
    for kind in 2..=255 {
        // SAFETY: pointer and length are those of one array.
        let n = unsafe { ddcci_begin(kind, buffer.as_ptr(), BUFFER, 10) };
        assert_eq!(n, Numbers { size: 0, offset: 0, budget: 0, count: 0, phase: 8, answer: UNKNOWN });
    }
}
