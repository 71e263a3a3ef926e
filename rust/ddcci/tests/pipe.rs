//! The display program on its pipe (docs/DISPLAY-PIPE.md) against the oracle's display: start, declare, every
//! command, profile write and load, and many settings in one record.
mod common;
use common::{program, rounds};
use oracle::display::{Display, Timing};
use oracle::line::Random;
use oracle::message as slow;
use oracle::profile;
use oracle::settings::Declaration;
use std::io::{Read, Write};
use std::process::{Child, ChildStdin, ChildStdout, Command, Stdio};

struct Pipe {
    child: Child,
    to: Option<ChildStdin>,
    from: ChildStdout,
}

impl Pipe {
    fn start() -> Pipe {
        let mut child = Command::new(program("display_pipe"))
            .stdin(Stdio::piped())
            .stdout(Stdio::piped())
            .stderr(Stdio::piped())
            .spawn()
            .expect("the display program starts");
        let to = child.stdin.take();
        let from = child.stdout.take().unwrap();
        Pipe { child, to, from }
    }

    /// Sends a record and reads the one that comes back.
    fn record(&mut self, kind: u8, body: &[u8]) -> (u8, Vec<u8>) {
        let mut bytes = vec![kind];
        bytes.extend((body.len() as u16).to_le_bytes());
        bytes.extend(body);
        self.to.as_mut().unwrap().write_all(&bytes).unwrap();
        let mut head = [0; 3];
        self.from.read_exact(&mut head).unwrap();
        let mut reply = vec![0; usize::from(u16::from_le_bytes([head[1], head[2]]))];
        self.from.read_exact(&mut reply).unwrap();
        (head[0], reply)
    }

    /// Ends the input; what the program wrote to standard error by its end.
    fn end(mut self) -> String {
        drop(self.to.take());
        let mut text = String::new();
        self.child.stderr.take().unwrap().read_to_string(&mut text).unwrap();
        self.child.wait().unwrap();
        text
    }
}

fn some_message(r: &mut Random) -> Vec<u8> {
    let mut out = [0; 38];
    let code = [0x10, 0x12, 0x60, 0xF4, r.byte()][r.below(5)];
    let offset = if r.percent(70) { r.below(1100) as u16 } else { 0 };
    let mut data = [0; 31];
    r.fill(&mut data);
    let n = match r.below(9) {
        0 => slow::build_get(code, &mut out),
        1 => slow::build_set(code, r.below(300) as u16, &mut out),
        2 => slow::build_timing(&mut out),
        3 => slow::build_save(&mut out),
        4 => slow::build_capabilities([0, 32, 64, offset][r.below(4)], &mut out),
        5 => slow::build_table_read(code, [0, 7, 14, offset][r.below(4)], &mut out),
        6 | 7 => {
            slow::build_table_write(if r.percent(80) { 0xF4 } else { code }, offset, &data[..r.below(32)], &mut out)
        }
        _ => {
            r.fill(&mut out);
            Ok(r.below(38))
        }
    };
    let mut message = out[..n.unwrap()].to_vec();
    if r.percent(10) && !message.is_empty() {
        let at = r.below(message.len());
        message[at] ^= r.byte();
    }
    message
}

fn some_declaration(r: &mut Random) -> (Declaration, [u8; 9]) {
    let d = Declaration {
        code: if r.percent(60) { [0x10, 0x12, 0x60, 0x04, 0xF4][r.below(5)] } else { r.byte() },
        readable: r.percent(70),
        writable: r.percent(70),
        kind: [0, 0, 0, 1, 2][r.below(5)],
        continuous: r.percent(50),
        maximum: r.below(250) as u16,
        present: r.below(250) as u16,
    };
    let (m, p) = (d.maximum.to_le_bytes(), d.present.to_le_bytes());
    let bytes = [d.code, d.readable.into(), d.writable.into(), d.kind, d.continuous.into(), m[0], m[1], p[0], p[1]];
    (d, bytes)
}

fn some_settings(r: &mut Random) -> Vec<(u8, u16)> {
    let count = if r.percent(80) { r.below(12) } else { 60 + r.below(8) };
    let code = |r: &mut Random| if r.percent(80) { [0x10, 0x12, 0x60, 0x04, 0xF4][r.below(5)] } else { r.byte() };
    (0..count).map(|_| (code(r), if r.percent(90) { r.below(300) as u16 } else { r.word() })).collect()
}

/// The body of a record that sets many.
fn body_of(settings: &[(u8, u16)]) -> Vec<u8> {
    settings.iter().flat_map(|&(code, value)| [code, value.to_le_bytes()[0], value.to_le_bytes()[1]]).collect()
}

/// What the record must come to: the settings as Set messages one after the other, unless they are over 64.
fn set_singly(display: &mut Display, text: &[u8], settings: &[(u8, u16)]) -> (u8, Vec<u8>) {
    if settings.len() > 64 {
        return (7, vec![]);
    }
    let mut answers = vec![];
    for &(code, value) in settings {
        let (mut message, mut out) = ([0; 38], [0; 38]);
        let n = slow::build_set(code, value, &mut message).unwrap();
        answers.push(display.step(text, &mut [0; 1024], &message[..n], &mut out).0);
    }
    (0, answers)
}

#[test]
fn random_sessions() {
    let mut r = Random::new(31);
    for _ in 0..rounds(40) {
        let mut pipe = Pipe::start();
        let mut display = Display::empty();
        let mut text: Vec<u8> = vec![];
        let mut table = [0; 1024];
        for step in 0..300 {
            let choice = if step == 0 { 0 } else { r.below(100) };
            match choice {
                0 => {
                    text = vec![b'x'; if r.percent(95) { r.below(200) } else { 4095 + r.below(4) }];
                    r.fill(&mut text);
                    let status = if r.percent(90) { r.byte() & 0xC3 } else { r.byte() };
                    let timing = Timing { status, horizontal: r.word(), vertical: r.word() };
                    let size = if r.percent(90) { r.between(1, 32) } else { r.below(40) };
                    let (h, v) = (timing.horizontal.to_le_bytes(), timing.vertical.to_le_bytes());
                    let mut body = vec![status, h[0], h[1], v[0], v[1], size as u8, 0];
                    body.extend(&text);
                    let (answer, next) = Display::start(timing, &text, size);
                    display = next;
                    if answer != 0 {
                        text.clear();
                    }
                    assert_eq!(pipe.record(1, &body), (answer, vec![]));
                }
                1..=15 => {
                    let (d, body) = some_declaration(&mut r);
                    assert_eq!(pipe.record(2, &body), (display.declare(d), vec![]));
                }
                16..=20 => {
                    let mut out = [0; 2000];
                    let n = profile::write(&display.settings, &mut out).unwrap();
                    assert_eq!(pipe.record(4, &[]), (0, out[..n].to_vec()));
                }
                21..=25 => {
                    let mut out = [0; 2000];
                    let n = profile::write(&display.settings, &mut out).unwrap();
                    let mut sheet = out[..n].to_vec();
                    if r.percent(60) && !sheet.is_empty() {
                        let at = r.below(sheet.len());
                        sheet[at] = r.byte();
                    }
                    if r.percent(20) {
                        sheet.push(r.byte());
                    }
                    let wanted = match profile::load(&mut display.settings, &sheet) {
                        Ok(()) => (0, vec![]),
                        Err((answer, place)) => (answer, (place as u16).to_le_bytes().to_vec()),
                    };
                    assert_eq!(pipe.record(5, &sheet), wanted);
                }
                26..=35 => {
                    let settings = some_settings(&mut r);
                    let wanted = set_singly(&mut display, &text, &settings);
                    assert_eq!(pipe.record(6, &body_of(&settings)), wanted, "{settings:02X?}");
                }
                _ => {
                    let message = some_message(&mut r);
                    let mut out = [0; 38];
                    let (answer, n) = display.step(&text, &mut table, &message, &mut out);
                    assert_eq!(pipe.record(3, &message), (answer, out[..n].to_vec()), "{message:02X?}");
                }
            }
        }
        assert_eq!(pipe.end(), "");
    }
}

/// A display with brightness (10, at most 100, now 50), input (60, any value, now 17), a code to read alone (12) and a
/// momentary one (04).
fn declared() -> Pipe {
    let mut pipe = Pipe::start();
    for body in [
        [0x10, 1, 1, 0, 1, 100, 0, 50, 0],
        [0x60, 1, 1, 0, 0, 0, 0, 17, 0],
        [0x12, 1, 0, 0, 1, 100, 0, 50, 0],
        [0x04, 0, 1, 1, 0, 0, 0, 0, 0],
    ] {
        assert_eq!(pipe.record(2, &body), (0, vec![]));
    }
    pipe
}

/// The present value that a Get of a declared code finds.
fn value(pipe: &mut Pipe, get: [u8; 5]) -> u16 {
    let (answer, reply) = pipe.record(3, &get);
    assert_eq!((answer, &reply[..5]), (0, &[0x6E, 0x88, 0x02, 0x00, get[3]][..]));
    u16::from_be_bytes([reply[8], reply[9]])
}

/// Sends settings in one record to a display of its own. Its answer and reply, and what Get then finds of 10 and of 60.
fn set_many(body: &[u8]) -> (u8, Vec<u8>, u16, u16) {
    let mut pipe = declared();
    let (answer, reply) = pipe.record(6, body);
    let brightness = value(&mut pipe, [0x51, 0x82, 0x01, 0x10, 0xAC]);
    let input = value(&mut pipe, [0x51, 0x82, 0x01, 0x60, 0xDC]);
    assert_eq!(pipe.end(), "");
    (answer, reply, brightness, input)
}

/// Document 02's sentences on many settings in one call, each as a record in literal bytes.
#[test]
fn many_settings_in_one_record() {
    assert_eq!(set_many(&[]), (0, vec![], 50, 17));
    assert_eq!(set_many(&[0x10, 70, 0]), (0, vec![0], 70, 17));
    // the low byte of a value stands first
    assert_eq!(set_many(&[0x60, 0x34, 0x12, 0x10, 0, 1]), (0, vec![0, 9], 50, 0x1234));
    // "refused ones skipped and the next still tried": undeclared, read alone and F4; above the maximum
    let refused = [0x20, 1, 0, 0x10, 70, 0, 0x12, 1, 0, 0xF4, 1, 0, 0x10, 101, 0, 0x60, 15, 0];
    assert_eq!(set_many(&refused), (0, vec![8, 0, 8, 8, 9, 0], 70, 15));
    // "of a kept code the later accepted value stands"
    assert_eq!(set_many(&[0x10, 20, 0, 0x10, 30, 0, 0x10, 101, 0]), (0, vec![0, 0, 9], 30, 17));
    // a momentary code is accepted, and nothing is stored
    assert_eq!(set_many(&[0x04, 1, 0, 0x04, 2, 0]), (0, vec![0, 0], 50, 17));
    // "more than 64 .. with 7; nothing is tried"
    assert_eq!(set_many(&[0x10, 70, 0].repeat(64)), (0, vec![0; 64], 70, 17));
    assert_eq!(set_many(&[0x10, 70, 0].repeat(65)), (7, vec![], 50, 17));
}

/// The empty display refuses every setting; the record's own answer is 0. The longest body is refused as a list.
#[test]
fn many_settings_on_the_empty_display() {
    let mut pipe = Pipe::start();
    assert_eq!(pipe.record(6, &[0x10, 1, 0, 0xF4, 1, 0]), (0, vec![8, 8]));
    assert_eq!(pipe.record(6, &[0; 192]), (0, vec![8; 64]));
    assert_eq!(pipe.record(6, &[0; 65535]), (7, vec![]));
    assert_eq!(pipe.end(), "");
}

#[test]
fn malformed_records_get_one_line_and_a_stop() {
    for (bytes, line) in [
        (
            &[9u8, 0, 0][..],
            "record 1 of kind 9: the kind of a record is 1 (start), 2 (declare), 3 (message), 4 (write the profile), 5 (load a profile) or 6 (set many)\n",
        ),
        (&[7, 0, 0][..], "record 1 of kind 7: the kind of a record is"),
        (&[0, 0, 0][..], "record 1 of kind 0: the kind of a record is"),
        (&[1, 3, 0, 0, 0, 0][..], "a start record needs 7 bytes or more"),
        (&[2, 1, 0, 0][..], "a declare record has 9 bytes"),
        (&[4, 1, 0, 0][..], "a record that asks for the profile has no body"),
        (&[6, 4, 0, 0x10, 70, 0, 0x10][..], "record 1 of kind 6: a record that sets many has 3 bytes a setting\n"),
        (&[6, 2, 0, 0x10, 70][..], "a record that sets many has 3 bytes a setting"),
        (&[6, 3, 0, 0x10, 70][..], "the input ends in the middle of a record"),
        (&[3, 9, 0, 0x51][..], "the input ends in the middle of a record"),
        (&[3, 9][..], "the input ends in the middle of a record"),
    ] {
        let mut pipe = Pipe::start();
        pipe.to.as_mut().unwrap().write_all(bytes).unwrap();
        drop(pipe.to.take());
        let mut out = Vec::new();
        pipe.from.read_to_end(&mut out).unwrap();
        let text = pipe.end();
        assert!(out.is_empty(), "nothing goes back");
        assert!(text.starts_with("display_pipe: ") && text.contains(line) && text.lines().count() == 1, "{text}");
    }
}
