//! Reading capabilities strings of 300, 600 and 4,096 bytes, and one of 300 with 40 zero bytes behind it, beside two
//! one-pass readers into the same lent buffers: the oracle's, which is tuned, and a plain one.
use crate::measure::{both, line};
use std::hint::black_box;

const ROOM: usize = 512;

/// Lent buffers.
pub struct Lent {
    pub starts: [u16; ROOM],
    pub lengths: [u16; ROOM],
    pub parents: [u16; ROOM],
    pub groups: [u8; ROOM],
}

impl Lent {
    pub fn new() -> Lent {
        Lent { starts: [0; ROOM], lengths: [0; ROOM], parents: [0; ROOM], groups: [0; ROOM] }
    }
}

/// A string in the style of a monitor's, of about this length and at most 512 words.
pub fn text(length: usize) -> Vec<u8> {
    let mut text = b"(prot(monitor)type(LCD)model(P2419H)cmds(01 02 03 07 0C E3 F3)vcp(".to_vec();
    // Long words in a long string, which has room for 512 words only.
    let (words, margin) = if length > 2000 { ("1234567890ABCDEFGHIJKLMN ", 80) } else { ("", 40) };
    let mut code = 0u32;
    while text.len() + margin < length {
        text.extend(format!("{:02X} {words}", code % 256).bytes());
        if code.is_multiple_of(7) {
            text.extend(format!("{:02X}(01 02 04) ", (code * 3) % 256).bytes());
        }
        code += 1;
    }
    text.extend(b"DF)mccs_ver(2.1)mswhql(1))");
    text
}

#[derive(Clone, Copy)]
enum State {
    Before,
    Free,
    Word,
    Gap,
}

/// A reader as one writes it: one loop over the bytes to the last bracket, a state, a stack of the open groups, and the
/// nodes in the lent buffers. Unlike ours it leaves nodes behind where it refuses.
#[inline(never)]
fn plain(text: &[u8], lent: &mut Lent) -> Result<usize, (u8, usize)> {
    let mut count = 0;
    let mut open = [65535u16; 8];
    let mut depth = 0;
    let mut state = State::Before;
    for (at, &byte) in text.iter().enumerate() {
        state = match (state, byte) {
            (State::Before, b'(') => {
                depth = 1;
                State::Free
            }
            (State::Word | State::Gap, b'(') => {
                if depth == open.len() {
                    return Err((15, at));
                }
                open[depth] = count as u16 - 1;
                depth += 1;
                lent.groups[count - 1] = 1;
                State::Free
            }
            (State::Free | State::Word | State::Gap, b')') => {
                depth -= 1;
                if depth == 0 {
                    let behind = text[at + 1..].iter().position(|&byte| byte != 0);
                    return behind.map_or(Ok(count), |zeros| Err((13, at + 1 + zeros)));
                }
                State::Free
            }
            (State::Free, b' ') => State::Free,
            (State::Word | State::Gap, b' ') => State::Gap,
            (State::Word, 0x21..=0x7E) => {
                lent.lengths[count - 1] += 1;
                State::Word
            }
            (State::Free | State::Gap, 0x21..=0x7E) => {
                if count == ROOM {
                    return Err((14, at));
                }
                lent.starts[count] = at as u16;
                lent.lengths[count] = 1;
                lent.parents[count] = open[depth - 1];
                lent.groups[count] = 0;
                count += 1;
                State::Word
            }
            _ => return Err((13, at)),
        };
    }
    Err((13, text.len()))
}

pub fn run() {
    for (length, zeros) in [(300, 0), (300, 40), (600, 0), (4096, 0)] {
        let mut text = text(length);
        let what = match zeros {
            0 => format!("capabilities string of {} bytes", text.len()),
            _ => format!("  {} bytes and {zeros} zero bytes", text.len()),
        };
        text.resize(text.len() + zeros, 0);
        let (mut a, mut b) = (Lent::new(), Lent::new());
        let times = both(
            2_000_000 / length,
            || {
                ddcci::read_capabilities_into(
                    black_box(&text),
                    &mut a.starts,
                    &mut a.lengths,
                    &mut a.parents,
                    &mut a.groups,
                )
            },
            || {
                oracle::capabilities::read_one_pass(
                    black_box(&text),
                    &mut b.starts,
                    &mut b.lengths,
                    &mut b.parents,
                    &mut b.groups,
                )
            },
        );
        line(&what, times);
        let nodes =
            ddcci::read_capabilities_into(&text, &mut a.starts, &mut a.lengths, &mut a.parents, &mut a.groups).unwrap();
        assert_eq!(plain(&text, &mut b).unwrap(), nodes);
        assert_eq!((a.starts, a.lengths, a.parents, a.groups), (b.starts, b.lengths, b.parents, b.groups));
        let times = both(
            2_000_000 / length,
            || {
                ddcci::read_capabilities_into(
                    black_box(&text),
                    &mut a.starts,
                    &mut a.lengths,
                    &mut a.parents,
                    &mut a.groups,
                )
            },
            || plain(black_box(&text), &mut b),
        );
        line("  beside a plain one-pass reader", times);
    }
}
