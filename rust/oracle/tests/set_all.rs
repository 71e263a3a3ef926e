//! K1, many settings in one call: the paper's sentences, and the call against that many Set messages.

use oracle::display::{Display, Timing};
use oracle::line::Random;
use oracle::set_all_by_definition::{self as definition, every_small_call, random_call, random_declarations};
use oracle::set_all_by_definition::{SMALL_CODES, SMALL_DECLARATIONS};
use oracle::settings::Declaration;
use oracle::{Text, TABLE_LIMIT};

const TEXT: &[u8] = b"(vcp(10 11 50 90 D0 F4))";

/// A display with these declarations, as many as are not refused.
fn display_of(declarations: &[Declaration]) -> Display {
    let (_, mut display) = Display::start(Timing { status: 2, horizontal: 13340, vertical: 6000 }, TEXT, 5);
    for &declaration in declarations {
        display.declare(declaration);
    }
    display
}

/// The same display, with a table of one byte, which was sent, and five bytes of the text sent.
fn with_cursors(mut display: Display) -> Display {
    let (mut table, mut out) = ([0; TABLE_LIMIT], [0; 38]);
    let write = [0x51, 0x85, 0xE7, 0xF4, 0x00, 0x00, 0x41, 0xE8];
    let read_table = [0x51, 0x84, 0xE2, 0xF4, 0x00, 0x00, 0xAD];
    let read = [0x51, 0x83, 0xF3, 0x00, 0x00, 0x4F];
    for message in [&write[..], &read_table, &read] {
        assert_eq!(display.step(TEXT, &mut table, message, &mut out).0, 0);
    }
    display
}

/// The present values of the small codes.
fn present(display: &Display) -> [u16; 7] {
    SMALL_CODES.map(|code| display.settings.present(code))
}

/// "One call that takes a list of codes and values and answers with the number of each": a code of each kind, with its
/// maximum and above it. "Refused ones skipped and the next still tried."
#[test]
fn the_answer_of_each() {
    let mut display = display_of(&SMALL_DECLARATIONS);
    let codes = [0x10, 0x10, 0x50, 0x90, 0xD0, 0xD0, 0x11, 0x11, 0x51, 0xF4, 0x10];
    let values = [301, 300, 65535, 0, 301, 300, 301, 299, 0, 0, 20];
    let mut answers = [0xA5; 11];
    assert_eq!(display.set_all(&codes, &values, &mut answers), 0);
    assert_eq!(answers, [9, 0, 0, 8, 9, 0, 9, 0, 8, 8, 0]);
    // Code 10 is 20, 50 is 65,535; 90 is read-only, D0 is momentary; 11 is 299; 51 and F4 are not declared.
    assert_eq!(present(&display), [20, 65535, 50, 50, 299, 0, 0]);
}

/// The call's own answer is 0 even if each setting is refused, and also if there is none.
#[test]
fn all_refused_and_none() {
    let before = with_cursors(display_of(&SMALL_DECLARATIONS));
    let mut display = before.clone();
    let mut answers = [0xA5; 4];
    assert_eq!(display.set_all(&[0xF4, 0x10, 0x90], &[1, 301, 1], &mut answers), 0);
    assert_eq!((answers, &display), ([8, 9, 8, 0xA5], &before));
    assert_eq!(display.set_all(&[], &[], &mut []), 0);
    assert_eq!(display.set_all(&[], &[], &mut answers), 0);
    assert_eq!((answers, &display), ([8, 9, 8, 0xA5], &before));
}

/// "An answer buffer shorter than the codes is refused with 1, then more than 64, or unequally many codes and values,
/// with 7; nothing is tried and no answer written."
#[test]
fn refused_calls() {
    let before = with_cursors(display_of(&SMALL_DECLARATIONS));
    for (codes, values, room, expected) in [
        (1, 1, 0, 1),
        (64, 64, 63, 1),
        (65, 65, 64, 1),
        (2, 3, 1, 1),
        (70, 1, 69, 1),
        (65, 65, 65, 7),
        (65, 64, 65, 7),
        (65, 65, 100, 7),
        (300, 300, 300, 7),
        (0, 1, 0, 7),
        (1, 0, 1, 7),
        (64, 63, 64, 7),
        (63, 64, 64, 7),
        (1, 65, 1, 7),
    ] {
        let mut display = before.clone();
        let mut answers = vec![0xA5; room];
        assert_eq!(display.set_all(&vec![0x10; codes], &vec![70; values], &mut answers), expected);
        assert!(answers.iter().all(|&byte| byte == 0xA5));
        assert_eq!(display, before, "{codes} codes, {values} values, {room} answers");
    }
    let mut display = before;
    let mut answers = [0xA5; 65];
    assert_eq!(display.set_all(&[0x10; 64], &[70; 64], &mut answers), 0);
    assert_eq!((&answers[..64], answers[64]), (&[0; 64][..], 0xA5));
    assert_eq!(display.settings.present(0x10), 70);
}

/// "The same code twice is allowed; of a kept code the later accepted value stands."
#[test]
fn the_later_accepted_value_stands() {
    for (values, expected, stands) in [
        ([70, 80, 90], [0, 0, 0], 90),
        ([70, 80, 301], [0, 0, 9], 80),
        ([301, 80, 400], [9, 0, 9], 80),
        ([90, 301, 10], [0, 9, 0], 10),
        ([301, 302, 303], [9, 9, 9], 50),
    ] {
        let mut display = display_of(&SMALL_DECLARATIONS);
        let mut answers = [0xA5; 3];
        assert_eq!(display.set_all(&[0x10; 3], &values, &mut answers), 0);
        assert_eq!((answers, display.settings.present(0x10)), (expected, stands));
        assert_eq!(display.settings.saved(0x10), 50);
    }
}

/// Compares the call, in place and by value, with that many messages. Returns its answer.
fn compare(before: &Display, codes: &[u8], values: &[u16], room: usize) -> u8 {
    let (mut expected, mut wanted) = (before.clone(), vec![0xA5; room]);
    let answer = definition::set_all(&mut expected, TEXT, codes, values, &mut wanted);
    let (mut display, mut answers) = (before.clone(), vec![0xA5; room]);
    assert_eq!(display.set_all(codes, values, &mut answers), answer);
    assert_eq!((&answers, &display), (&wanted, &expected), "{codes:02X?} to {values:?}");
    answers.fill(0xA5);
    let (display, by_value) = before.clone().set_all_by_value(codes, values, &mut answers);
    assert_eq!((by_value, &answers, &display), (answer, &wanted, &expected));
    for which in [Text::Capabilities, Text::Table] {
        assert_eq!(display.cursor(which), before.cursor(which));
    }
    assert_eq!((display.timing(), display.table_len()), (before.timing(), before.table_len()));
    assert!((0..=255).all(|code| display.settings.saved(code) == before.settings.saved(code)));
    answer
}

/// All lists of up to 3 settings of 21, with 0 to 4 values and 0 to 4 answers.
#[test]
fn every_small_call_by_the_definition() {
    let before = with_cursors(display_of(&SMALL_DECLARATIONS));
    let mut answers = [0; 8];
    every_small_call(3, &mut |codes, values, room| {
        answers[usize::from(compare(&before, codes, values, room))] += 1;
    });
    // 1 + 21 + 21^2 + 21^3 lists. With n settings n rooms of 5 are too short; of the others 1 number of values in 5 fits.
    assert_eq!(answers[0], 5 + 21 * 4 + 441 * 3 + 9261 * 2);
    assert_eq!(answers[1], 21 * 5 + 441 * 10 + 9261 * 15);
    assert_eq!(answers[7], 4 * answers[0]);
}

#[test]
fn random_calls_by_the_definition() {
    let mut random = Random::new(1);
    let mut answers = [0; 8];
    for _ in 0..300 {
        let mut display = with_cursors(display_of(&random_declarations(&mut random)));
        for _ in 0..30 {
            let (codes, values, room) = random_call(&mut random);
            answers[usize::from(compare(&display, &codes, &values, room))] += 1;
            display.set_all(&codes, &values, &mut vec![0; room]);
        }
    }
    for answer in [0, 1, 7] {
        assert!(answers[answer] > 500, "answer {answer}: {answers:?}");
    }
}
