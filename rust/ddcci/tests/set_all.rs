//! Many settings in one call: the proved call against the oracle's, and against that many exported steps of Set
//! messages. The answers are lent as bytes that no answer has, and every byte is compared.
mod common;
use common::rounds;
use ddcci::{Answer, Declaration, Display, Refusal, Request, Timing, MOST_SETTINGS, OUTPUT_ROOM, TABLE_ROOM};
use oracle::display as slow;
use oracle::line::Random;
use oracle::set_all_by_definition::{every_small_call, random_call, random_declarations, SMALL_DECLARATIONS};
use oracle::settings as slow_settings;

const TEXT: &[u8] = b"(prot(monitor)vcp(10 11 50 90 D0 F4))";

/// What an answer is before the call: a number that the papers' table does not have.
const UNWRITTEN: u8 = 0xA5;

fn number(r: Result<(), Refusal>) -> u8 {
    r.err().map_or(0, Refusal::number)
}

/// The call with room for its answers in the given bytes.
fn set_all(display: &mut Display, codes: &[u8], values: &[u16], answers: &mut [u8]) -> u8 {
    // SAFETY: an answer has the layout of its byte, of which any is one.
    let answers = unsafe { &mut *(std::ptr::from_mut(answers) as *mut [Answer]) };
    number(display.set_all(codes, values, answers))
}

fn ours_of(d: slow_settings::Declaration) -> Declaration {
    let slow_settings::Declaration { code, readable, writable, kind, continuous, maximum, present } = d;
    Declaration { code, readable, writable, kind, continuous, maximum, present }
}

/// The two displays, and the table of ours.
struct Both {
    ours: Display,
    theirs: slow::Display,
    table: [u8; TABLE_ROOM],
}

impl Both {
    /// Both displays, started and declared alike, with texts that were read in part.
    fn new(declarations: &[slow_settings::Declaration]) -> Both {
        let ours = Display::start(Timing { status: 2, horizontal: 13340, vertical: 6000 }, TEXT, 5).unwrap();
        let timing = slow::Timing { status: 2, horizontal: 13340, vertical: 6000 };
        let theirs = slow::Display::start(timing, TEXT, 5).1;
        let mut both = Both { ours, theirs, table: [0; TABLE_ROOM] };
        for &declaration in declarations {
            assert_eq!(number(both.ours.declare(ours_of(declaration))), both.theirs.declare(declaration));
        }
        both.step_alike(&Request::TableWrite { code: 0xF4, offset: 0, data: b"a list of 18 bytes" });
        for offset in [0, 5] {
            both.step_alike(&Request::Text { offset });
            both.step_alike(&Request::TableRead { code: 0xF4, offset });
        }
        both
    }

    /// The same message to both: the same answer, reply and table. Returns the answer.
    fn step_alike(&mut self, request: &Request) -> u8 {
        let message = request.to_bytes().unwrap();
        let (mut x, mut y, mut table) = ([0; OUTPUT_ROOM], [0; OUTPUT_ROOM], self.table);
        let step = self.ours.step(TEXT, &mut self.table, &message, &mut x);
        let (answer, length) = self.theirs.step(TEXT, &mut table, &message, &mut y);
        assert_eq!((number(step.answer), step.length, x, self.table), (answer, length, y, table), "{request:?}");
        answer
    }

    /// Both hold the same of every code, and go on alike in both texts.
    fn hold_the_same(&mut self) {
        for code in 0..=255 {
            self.step_alike(&Request::Get { code });
        }
        for offset in [5, 10, 15, 0] {
            self.step_alike(&Request::Text { offset });
            self.step_alike(&Request::TableRead { code: 0xF4, offset });
        }
        let (mut x, mut y) = ([0; ddcci::LONGEST_PROFILE], [0; ddcci::LONGEST_PROFILE]);
        let written = self.ours.write_profile(&mut x).map_err(Refusal::number);
        assert_eq!(written, oracle::profile::write(&self.theirs.settings, &mut y));
        assert_eq!(x, y);
    }
}

/// As many exported steps of Set messages, after the tests of the lent lengths. Returns the call's answer.
fn set_by_steps(display: &mut Display, codes: &[u8], values: &[u16], answers: &mut [u8]) -> u8 {
    if answers.len() < codes.len() {
        return 1;
    }
    if codes.len() > 64 || codes.len() != values.len() {
        return 7;
    }
    let (mut table, mut out) = ([0x5A; TABLE_ROOM], [0x5A; OUTPUT_ROOM]);
    for ((answer, &code), &value) in answers.iter_mut().zip(codes).zip(values) {
        let message = Request::Set { code, value }.to_bytes().unwrap();
        let step = display.step(TEXT, &mut table, &message, &mut out);
        assert_eq!((step.length, step.found), (0, None));
        *answer = number(step.answer);
    }
    assert_eq!((table, out), ([0x5A; TABLE_ROOM], [0x5A; OUTPUT_ROOM]));
    0
}

/// The call on both displays, and on ours by steps: the same answer, the same answers to every byte, and of ours the
/// same display to every field. Returns the call's answer.
fn set_alike(both: &mut Both, codes: &[u8], values: &[u16], room: usize) -> u8 {
    let before = both.ours.clone();
    let (mut stepped, mut by_steps) = (both.ours.clone(), vec![UNWRITTEN; room]);
    let (mut by_call, mut by_oracle) = (by_steps.clone(), by_steps.clone());
    let answer = set_all(&mut both.ours, codes, values, &mut by_call);
    assert_eq!(answer, set_by_steps(&mut stepped, codes, values, &mut by_steps), "{codes:02X?} to {values:?}");
    assert_eq!(answer, both.theirs.set_all(codes, values, &mut by_oracle), "{codes:02X?} to {values:?}");
    assert_eq!((&by_call, &by_call), (&by_steps, &by_oracle), "{codes:02X?} to {values:?}");
    assert!(both.ours == stepped, "{codes:02X?} to {values:?}");
    let written = if answer == 0 { codes.len() } else { 0 };
    assert!(by_call[..written].iter().all(|byte| [0, 8, 9].contains(byte)));
    assert!(by_call[written..].iter().all(|&byte| byte == UNWRITTEN));
    assert!(answer == 0 || both.ours == before);
    answer
}

/// All lists of up to 3 settings of 21, codes of every kind and values around the maximum, with 0 to 4 values and room
/// for 0 to 4 answers.
#[test]
fn every_small_call_alike() {
    let mut answers = [0usize; 8];
    let started = Both::new(&SMALL_DECLARATIONS);
    let mut both = Both { ours: started.ours.clone(), theirs: started.theirs.clone(), table: started.table };
    every_small_call(3, &mut |codes, values, room| {
        (both.ours, both.theirs) = (started.ours.clone(), started.theirs.clone());
        answers[usize::from(set_alike(&mut both, codes, values, room))] += 1;
        if room == 4 && codes.len() == values.len() && codes.len() < 3 {
            both.hold_the_same();
        }
    });
    // 1 + 21 + 21^2 + 21^3 lists. With n settings n rooms of 5 are too short; of the others 1 number of values in 5 fits.
    assert_eq!(answers[0], 5 + 21 * 4 + 441 * 3 + 9261 * 2);
    assert_eq!(answers[1], 21 * 5 + 441 * 10 + 9261 * 15);
    assert_eq!(answers[7], 4 * answers[0]);
}

/// Calls of 0 to 70 codes, values and answers, on displays with none to nearly all of the codes declared.
#[test]
fn random_calls_alike() {
    let mut answers = [0usize; 8];
    for seed in 0..rounds(300) {
        let mut r = Random::new(seed as u64);
        let mut both = Both::new(&random_declarations(&mut r));
        for _ in 0..20 {
            let (codes, values, room) = random_call(&mut r);
            answers[usize::from(set_alike(&mut both, &codes, &values, room))] += 1;
            if r.percent(20) {
                both.step_alike(&Request::Save);
            }
        }
        both.hold_the_same();
    }
    for answer in [0, 1, 7] {
        assert!(answers[answer] > 300, "answer {answer}: {answers:?}");
    }
}

/// Which number goes first, and that 64 are not too many.
#[test]
fn lent_lengths() {
    assert_eq!(MOST_SETTINGS, 64);
    for (codes, values, room, expected) in [
        (0, 0, 0, 0),
        (0, 0, 70, 0),
        (64, 64, 64, 0),
        (64, 64, 1000, 0),
        (1, 1, 0, 1),
        (64, 64, 63, 1),
        (65, 65, 64, 1),
        (65, 64, 64, 1),
        (2, 3, 1, 1),
        (70_000, 70_000, 69_999, 1),
        (65, 65, 65, 7),
        (65, 64, 65, 7),
        (64, 65, 65, 7),
        (64, 63, 64, 7),
        (0, 1, 0, 7),
        (1, 0, 1, 7),
        (256, 256, 256, 7),
        (65_600, 65_600, 65_600, 7),
    ] {
        let mut both = Both::new(&SMALL_DECLARATIONS);
        let answer = set_alike(&mut both, &vec![0x10; codes], &vec![70; values], room);
        assert_eq!(answer, expected, "{codes} codes, {values} values, {room} answers");
        let present = if answer == 0 && codes > 0 { 70 } else { 50 };
        assert_eq!(both.theirs.settings.present(0x10), present);
        both.hold_the_same();
    }
}

/// "The same code twice is allowed; of a kept code the later accepted value stands."
#[test]
fn the_same_code_twice() {
    for (values, answers, stands) in [
        ([70, 80, 90], [0, 0, 0], 90),
        ([70, 301, 80], [0, 9, 0], 80),
        ([70, 80, 301], [0, 0, 9], 80),
        ([301, 302, 65535], [9, 9, 9], 50),
    ] {
        let mut both = Both::new(&SMALL_DECLARATIONS);
        let mut bytes = [UNWRITTEN; 3];
        assert_eq!(set_all(&mut both.ours, &[0x10; 3], &values, &mut bytes), 0);
        assert_eq!(bytes, answers);
        let get = Request::Get { code: 0x10 }.to_bytes().unwrap();
        let mut out = [0; OUTPUT_ROOM];
        let step = both.ours.step(TEXT, &mut both.table, &get, &mut out);
        let value = ddcci::Reply::Value { result: 0, code: 0x10, kind: 0, max: 300, present: stands };
        assert_eq!(ddcci::Reply::read(&out[..step.length]), Ok(value));
    }
}

/// What each kind of code comes to at its maximum and above it, in the crate's own terms.
#[test]
fn answers_have_results() {
    let mut display = Both::new(&SMALL_DECLARATIONS).ours;
    let codes = [0x10, 0x10, 0x50, 0x90, 0xD0, 0xD0, 0x11, 0x11, 0x51, 0xF4];
    let values = [300, 301, 301, 1, 300, 301, 300, 301, 1, 1];
    let mut answers = [Answer::default(); 11];
    display.set_all(&codes, &values, &mut answers).unwrap();
    let (done, code, value) = (Ok(()), Err(Refusal::CodeNotAllowed), Err(Refusal::ValueTooLarge));
    let wanted = [done, value, done, code, done, value, done, value, code, code, done];
    assert_eq!(answers.map(Answer::result), wanted);
    assert_eq!((answers[0], answers[10]), (Answer::default(), Answer::default()));
    assert!(answers[1] != answers[3] && answers[1] == answers[5]);
    assert_eq!(display.set_all(&codes, &values, &mut answers[..9]), Err(Refusal::WrongSize));
    assert_eq!(display.set_all(&codes, &values[..9], &mut answers), Err(Refusal::WrongField));
    assert_eq!(answers.map(Answer::result), wanted, "a refused call writes no answer");
}
