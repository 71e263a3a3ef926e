//! The host program on its pipe (docs/DISPLAY-PIPE.md): joined to the display program, over a noisy line, and on bad
//! input.
mod common;
use common::{program, rounds};
use oracle::display::{Display, Timing};
use oracle::line::Random;
use oracle::settings::Declaration;
use std::fs;
use std::io::{Read, Write};
use std::path::Path;
use std::process::{Child, Command, Stdio};

/// What the host reports where nothing is spoiled. 47 and 48 bytes in fragments of 7: seven of them, and the empty
/// end.
const REPORT: &str = "records exchanged: 23
brightness: 70
capabilities string: 47 bytes in 8 exchanges; beside what was sent: the same, byte for byte
  prot
    monitor
  vcp
    10
    60
      0F
      11
    F4
  mccs_ver
    2.2
call list: 48 bytes in 8 exchanges; beside what was sent: the same, byte for byte
everything held
";

fn spawn(name: &str, stdin: Stdio, stdout: Stdio) -> Child {
    Command::new(program(name)).stdin(stdin).stdout(stdout).stderr(Stdio::piped()).spawn().expect("the program starts")
}

/// What a program wrote to standard error by its end, which is a good one.
fn end(mut child: Child) -> String {
    let mut text = String::new();
    child.stderr.take().unwrap().read_to_string(&mut text).unwrap();
    assert!(child.wait().unwrap().success());
    text
}

/// A record: its first byte and its body. None at the end of the input.
fn read_record(from: &mut impl Read) -> Option<(u8, Vec<u8>)> {
    let mut head = [0; 3];
    if from.read(&mut head[..1]).unwrap() == 0 {
        return None;
    }
    from.read_exact(&mut head[1..]).unwrap();
    let mut body = vec![0; usize::from(u16::from_le_bytes([head[1], head[2]]))];
    from.read_exact(&mut body).unwrap();
    Some((head[0], body))
}

fn record(first: u8, body: &[u8]) -> Vec<u8> {
    let mut bytes = vec![first];
    bytes.extend((body.len() as u16).to_le_bytes());
    bytes.extend(body);
    bytes
}

#[test]
fn joined_directly() {
    let mut display = spawn("display_pipe", Stdio::piped(), Stdio::piped());
    let from_display = Stdio::from(display.stdout.take().unwrap());
    let to_display = Stdio::from(display.stdin.take().unwrap());
    let host = spawn("host_pipe", from_display, to_display);
    assert_eq!(end(host), REPORT);
    assert_eq!(end(display), "");
}

/// What the line makes of a reply: lost, cut, flipped or, with a fourth fate, the last one again.
fn spoil(r: &mut Random, fates: usize, reply: &[u8], last: &[u8]) -> Vec<u8> {
    let mut bytes = reply.to_vec();
    match r.below(fates) {
        0 => bytes.clear(),
        1 => bytes.truncate(r.below(reply.len())),
        2 => {
            let at = r.below(reply.len());
            bytes[at] ^= 1 << r.below(8);
        }
        _ => bytes = last.to_vec(),
    }
    bytes
}

/// How often each command was sent.
#[derive(Default)]
struct Sent {
    get: usize,
    text: usize,
    table: usize,
    all: usize,
}

/// Host and display with the test as the line between them, which spoils that many replies in a hundred by so many
/// fates.
fn over_a_line(seed: u64, noise: usize, fates: usize) -> (String, Sent) {
    let mut r = Random::new(seed);
    let mut display = spawn("display_pipe", Stdio::piped(), Stdio::piped());
    let mut host = spawn("host_pipe", Stdio::piped(), Stdio::piped());
    let mut to_display = display.stdin.take().unwrap();
    let mut from_display = display.stdout.take().unwrap();
    let mut to_host = host.stdin.take().unwrap();
    let mut from_host = host.stdout.take().unwrap();
    let (mut sent, mut last) = (Sent::default(), vec![]);
    while let Some((kind, body)) = read_record(&mut from_host) {
        sent.all += 1;
        match (kind, body.get(2)) {
            (3, Some(0x01)) => sent.get += 1,
            (3, Some(0xF3)) => sent.text += 1,
            (3, Some(0xE2)) => sent.table += 1,
            _ => {}
        }
        to_display.write_all(&record(kind, &body)).unwrap();
        let (answer, reply) = read_record(&mut from_display).unwrap();
        let came =
            if !reply.is_empty() && r.percent(noise) { spoil(&mut r, fates, &reply, &last) } else { reply.clone() };
        if !reply.is_empty() {
            last = reply;
        }
        to_host.write_all(&record(answer, &came)).unwrap();
    }
    drop(to_display);
    assert_eq!(end(display), "");
    (end(host), sent)
}

#[test]
fn a_noisy_line_costs_exchanges_and_nothing_else() {
    let mut most = 0;
    for seed in 0..rounds(60) as u64 {
        let (said, sent) = over_a_line(seed, 35, 4);
        let wanted = REPORT
            .replace("exchanged: 23", &format!("exchanged: {}", sent.all))
            .replace("47 bytes in 8", &format!("47 bytes in {}", sent.text))
            .replace("48 bytes in 8", &format!("48 bytes in {}", sent.table));
        assert_eq!(said, wanted, "seed {seed}");
        assert_eq!(sent.all, 6 + sent.get + sent.text + sent.table);
        most = most.max(sent.text);
    }
    assert!(most > 12, "the line spoils something");
}

#[test]
fn a_line_that_spoils_everything_ends_at_the_budget() {
    let (said, sent) = over_a_line(1, 100, 3);
    let wanted = "records exchanged: 1056
brightness: no value came
capabilities string: 0 bytes in 500 exchanges; beside what was sent: NOT THE SAME
call list: 0 bytes in 500 exchanges; beside what was sent: NOT THE SAME
NOT EVERYTHING HELD
";
    assert_eq!(said, wanted);
    assert_eq!((sent.get, sent.text, sent.table, sent.all), (50, 500, 500, 1056));
}

#[test]
fn bad_input_gets_one_line_and_a_stop() {
    let done = [0, 0, 0];
    for (input, records, line) in [
        (vec![], 1, "reply record 1 did not come, the input had ended: "),
        (vec![0], 1, "reply record 1 ends in the middle: "),
        (vec![0, 3, 0, 1], 1, "reply record 1 ends in the middle: "),
        (vec![0, 1, 0, 1], 1, "reply record 1 has 1 bytes where no reply is due: "),
        (vec![11, 0, 0], 1, "reply record 1 is refused: 11, no room for it: "),
        ([done, [18, 0, 0]].concat(), 2, "reply record 2 is refused: 18, not to be declared: "),
        (vec![255, 0, 0], 1, "reply record 1 is refused: 255, unknown answer: "),
        ([done, done, [0, 39, 0]].concat(), 3, "reply record 3 has 39 bytes, and a reply at most 38: "),
        ([done, done, [0, 255, 255]].concat(), 3, "reply record 3 has 65535 bytes, and a reply at most 38: "),
        (done.repeat(6), 7, "reply record 7 did not come, the input had ended: "),
    ] {
        let mut host = spawn("host_pipe", Stdio::piped(), Stdio::piped());
        let mut to = host.stdin.take().unwrap();
        to.write_all(&input).unwrap();
        drop(to);
        let mut from = host.stdout.take().unwrap();
        let mut sent = 0;
        while read_record(&mut from).is_some() {
            sent += 1;
        }
        let said = end(host);
        assert!(said.starts_with(&format!("host_pipe: {line}")), "{said}");
        assert_eq!((said.lines().count(), sent), (1, records), "{said}");
    }
}

#[test]
fn an_output_that_takes_nothing_gets_one_line_and_a_stop() {
    let full = fs::OpenOptions::new().write(true).open("/dev/full").unwrap();
    let said = end(spawn("host_pipe", Stdio::null(), Stdio::from(full)));
    assert!(said.starts_with("host_pipe: reply record 1 could not be asked for"), "{said}");
    assert_eq!(said.lines().count(), 1);
}

/// The conversation that the gate runs the host on (crates/host_pipe/stdin, stdout) is the one that the oracle's
/// display holds.
#[test]
fn the_recorded_conversation_is_the_oracles() {
    let folder = Path::new(env!("CARGO_MANIFEST_DIR")).join("../../crates/host_pipe");
    let records = fs::read(folder.join("stdout")).unwrap();
    let mut records = &records[..];
    let (mut display, mut text, mut table) = (Display::empty(), vec![], [0; 1024]);
    let mut replies = vec![];
    let word = |b: &[u8]| u16::from_le_bytes([b[0], b[1]]);
    while let Some((kind, body)) = read_record(&mut records) {
        let (answer, reply) = match kind {
            1 => {
                text = body[7..].to_vec();
                let timing = Timing { status: body[0], horizontal: word(&body[1..]), vertical: word(&body[3..]) };
                let (answer, started) = Display::start(timing, &text, word(&body[5..]).into());
                display = started;
                (answer, vec![])
            }
            2 => {
                let d = Declaration {
                    code: body[0],
                    readable: body[1] == 1,
                    writable: body[2] == 1,
                    kind: body[3],
                    continuous: body[4] == 1,
                    maximum: word(&body[5..]),
                    present: word(&body[7..]),
                };
                (display.declare(d), vec![])
            }
            _ => {
                let mut out = [0; 38];
                let (answer, n) = display.step(&text, &mut table, &body, &mut out);
                (answer, out[..n].to_vec())
            }
        };
        replies.extend(record(answer, &reply));
    }
    assert_eq!(replies, fs::read(folder.join("stdin")).unwrap());
    assert_eq!((display.settings.present(0x10), display.table_len()), (70, 48));
}
