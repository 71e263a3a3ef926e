//! Many settings in one call, as near to document 02's words as can be, and the
//! calls on which others are compared with it or with each other.

use crate::display::Display;
use crate::line::Random;
use crate::settings::Declaration;

/// The message of a Set: 51, 80+n, "03, code, value H L", check. "6E exclusive-or all bytes of the slice is 0."
fn set_message(code: u8, value: u16) -> [u8; 7] {
    let [high, low] = value.to_be_bytes();
    let check = [0x51, 0x84, 0x03, code, high, low].iter().fold(0x6E, |sum, byte| sum ^ byte);
    [0x51, 0x84, 0x03, code, high, low, check]
}

/// The answer of one Set message, which has no reply and changes no byte of the table.
fn answer_of_set(display: &mut Display, text: &[u8], code: u8, value: u16) -> u8 {
    let (mut table, mut out) = ([0x5A; 1024], [0xA5; 38]);
    let (answer, length) = display.step(text, &mut table, &set_message(code, value), &mut out);
    assert_eq!((length, table, out), (0, [0x5A; 1024], [0xA5; 38]));
    answer
}

/// "It must equal that many Set messages one after the other: the same board afterwards, the same answer at each place,
/// refused ones skipped and the next still tried. An answer buffer shorter than the codes is refused with 1, then more
/// than 64, or unequally many codes and values, with 7; nothing is tried and no answer written."
///
/// The text is the display's own, which each step is lent.
pub fn set_all(display: &mut Display, text: &[u8], codes: &[u8], values: &[u16], answers: &mut [u8]) -> u8 {
    if answers.len() < codes.len() {
        return 1;
    }
    if codes.len() > 64 || codes.len() != values.len() {
        return 7;
    }
    for place in 0..codes.len() {
        answers[place] = answer_of_set(display, text, codes[place], values[place]);
    }
    0
}

/// The declarations of the small calls, a code of each kind: kept; not continuous; read-only; momentary; write-only.
/// In a set the first four differ in the word alone.
pub const SMALL_DECLARATIONS: [Declaration; 5] = {
    const KEPT: Declaration = Declaration {
        code: 0x10,
        readable: true,
        writable: true,
        kind: 0,
        continuous: true,
        maximum: 300,
        present: 50,
    };
    [
        KEPT,
        Declaration { code: 0x50, continuous: false, ..KEPT },
        Declaration { code: 0x90, writable: false, ..KEPT },
        Declaration { code: 0xD0, kind: 1, ..KEPT },
        Declaration { code: 0x11, readable: false, ..KEPT },
    ]
};

/// The codes of the small calls: those declared, one undeclared, and the table's.
pub const SMALL_CODES: [u8; 7] = [0x10, 0x50, 0x90, 0xD0, 0x11, 0x51, 0xF4];

/// The values of the small calls: those around the maximum.
pub const SMALL_VALUES: [u16; 3] = [299, 300, 301];

/// The most values, and the most answers, that a small call is lent.
const SMALL_ROOM: usize = 4;

/// Visits every list of up to so many small settings, with 0 to 4 values and room for 0 to 4 answers. The values are
/// those of the settings, cut or with others behind them.
pub fn every_small_call(most: usize, visit: &mut impl FnMut(&[u8], &[u16], usize)) {
    grow(&mut vec![], &mut vec![], most, visit);
}

fn grow(codes: &mut Vec<u8>, values: &mut Vec<u16>, more: usize, visit: &mut impl FnMut(&[u8], &[u16], usize)) {
    lend_all(codes, values, visit);
    if more == 0 {
        return;
    }
    for (code, value) in SMALL_CODES.iter().flat_map(|&code| SMALL_VALUES.map(|value| (code, value))) {
        codes.push(code);
        values.push(value);
        grow(codes, values, more - 1, visit);
        codes.pop();
        values.pop();
    }
}

/// Visits one list of settings, with every number of values and of answers.
fn lend_all(codes: &[u8], values: &[u16], visit: &mut impl FnMut(&[u8], &[u16], usize)) {
    let mut longer = values.to_vec();
    longer.resize(SMALL_ROOM, SMALL_VALUES[0]);
    for (count, room) in (0..=SMALL_ROOM).flat_map(|count| (0..=SMALL_ROOM).map(move |room| (count, room))) {
        visit(codes, &longer[..count], room);
    }
}

/// Declarations of none to nearly all of the codes, of every kind; some are refused.
pub fn random_declarations(random: &mut Random) -> Vec<Declaration> {
    let share = random.below(101);
    let codes: Vec<u8> = (0..=255).filter(|_| random.percent(share)).collect();
    codes.into_iter().map(|code| random_declaration(random, code)).collect()
}

fn random_declaration(random: &mut Random, code: u8) -> Declaration {
    let maximum = random.word();
    Declaration {
        code,
        readable: random.percent(80),
        writable: random.percent(80),
        kind: u8::from(random.percent(20)) + u8::from(random.percent(2)),
        continuous: random.percent(60),
        maximum,
        present: if random.percent(90) { random.below(usize::from(maximum) + 1) as u16 } else { random.word() },
    }
}

/// A call with 0 to 70 codes, values and answers, mostly so that it is accepted: codes, values, and room for answers.
/// In half of the calls few codes stand many times.
pub fn random_call(random: &mut Random) -> (Vec<u8>, Vec<u16>, usize) {
    let count = random.below(71);
    let few = random.percent(50);
    let codes = (0..count).map(|_| if few { 0xEC + random.below(12) as u8 } else { random.byte() }).collect();
    let value_count = if random.percent(80) { count } else { random.below(71) };
    let values = (0..value_count).map(|_| random.word()).collect();
    let room = if random.percent(80) { random.between(count, 70) } else { random.below(71) };
    (codes, values, room)
}
