//! The day at the water point (`crates/day`), played again by this implementation: every line that the program must
//! write (`crates/day/stdout`) is worked out here, from the same list, the same values and the same rule of the line.

use oracle::call_list as gate;
use oracle::display::{Display, Timing};
use oracle::message::*;
use oracle::settings::Declaration;
use oracle::transfer::{State, Transfer};
use oracle::{capabilities, profile, Text, TABLE_CODE, TABLE_LIMIT};
use std::fmt::Write;
use std::path::Path;

/// The capabilities strings of the two displays: the second one ends with two zero bytes.
const CAPABILITIES: [&[u8]; 2] = [
    b"(prot(monitor)vcp(01 10 12 60(0F 11)F4)mccs_ver(2.2))",
    b"(prot(monitor)vcp(01 10 12 60(0F 11)F4)mccs_ver(2.2))\0\0",
];

/// The meaning of document 01's answer numbers, as the program words it.
fn meaning(answer: u8) -> String {
    let words = match answer {
        0 => "done",
        2 => "too few bytes",
        3 => "first byte wrong",
        4 => "length wrong",
        5 => "check byte wrong",
        9 => "value above the maximum",
        10 => "not the fragment wanted",
        17 => "records broken",
        20 => "household called twice",
        _ => panic!("the day has no answer {answer}"),
    };
    format!("{answer}, {words}")
}

/// The call list: records of kind 32 with a token and a household, four bytes each, little-endian.
fn call_list() -> Vec<u8> {
    let mut list = vec![];
    for i in 0..85u32 {
        list.extend(10u16.to_le_bytes());
        list.extend(32u16.to_le_bytes());
        list.extend((101 + i).to_le_bytes());
        list.extend((2000 + i * 31 % 85).to_le_bytes());
    }
    list
}

#[derive(Clone, Copy, PartialEq)]
enum Fate {
    Good,
    RequestLost,
    ReplyLost,
    Cut,
    Flipped,
    Repeated,
}

/// The line: what came last stays on it, and comes again where a reply is repeated.
struct Line {
    seed: u64,
    last: Vec<u8>,
}

impl Line {
    fn draw(&self) -> Fate {
        [Fate::RequestLost, Fate::ReplyLost, Fate::Cut, Fate::Flipped, Fate::Repeated]
            .get((self.seed >> 12 & 15) as usize)
            .copied()
            .unwrap_or(Fate::Good)
    }

    fn carry(&mut self, fate: Fate, reply: &[u8]) -> Vec<u8> {
        let some = |n: usize| (self.seed >> 3) as usize % n;
        let came = match fate {
            Fate::Good => reply.to_vec(),
            Fate::RequestLost | Fate::ReplyLost => vec![],
            Fate::Cut => reply[..some(reply.len())].to_vec(),
            Fate::Flipped => {
                let mut bytes = reply.to_vec();
                bytes[some(reply.len())] ^= 4;
                bytes
            }
            Fate::Repeated => self.last.clone(),
        };
        if !came.is_empty() {
            self.last = came.clone();
        }
        self.seed = self.seed * 16807 % 2147483647;
        came
    }
}

/// A display at the end of its line.
struct Site {
    capabilities: &'static [u8],
    display: Display,
    table: [u8; TABLE_LIMIT],
    line: Line,
}

impl Site {
    fn send(&mut self, message: &[u8]) -> (u8, Vec<u8>) {
        let mut out = [0; 38];
        let (answer, n) = self.display.step(self.capabilities, &mut self.table, message, &mut out);
        (answer, out[..n].to_vec())
    }

    fn write(&mut self, offset: u16, data: &[u8]) -> u8 {
        let mut m = [0; 38];
        let n = build_table_write(TABLE_CODE, offset, data, &mut m).unwrap();
        self.send(&m[..n]).0
    }

    /// The settings of one call, which must come to what single Set messages come to.
    fn set_all(&mut self, said: &mut String, settings: &[(&str, u8, u16)]) {
        writeln!(said, "    {} settings in one call: {}", settings.len(), meaning(0)).unwrap();
        for &(name, code, value) in settings {
            self.set(said, name, code, value);
        }
    }

    fn set(&mut self, said: &mut String, name: &str, code: u8, value: u16) {
        let mut m = [0; 38];
        let n = build_set(code, value, &mut m).unwrap();
        let answer = self.send(&m[..n]).0;
        writeln!(said, "    Set {name:<12}{value:3}:  {}", meaning(answer)).unwrap();
    }

    fn get(&mut self, said: &mut String, name: &str, code: u8) {
        let mut m = [0; 38];
        let n = build_get(code, &mut m).unwrap();
        let (_, reply) = self.send(&m[..n]);
        let Ok(Reply::Value { present, .. }) = read_reply(&reply) else { panic!("a Get has a value") };
        writeln!(said, "    Get {name:<12}{present:3}").unwrap();
    }

    fn read(&mut self, said: &mut String, text: Text, shown: usize, wanted: &[u8]) {
        let mut buffer = vec![0; 1024];
        let (_, mut transfer) = Transfer::begin(text, buffer.len(), 1500);
        let (mut accepted, mut spoiled) = (0, [0; 6]);
        while transfer.state() == State::Open {
            let mut m = [0; 38];
            let (_, n) = transfer.request(&mut m);
            let (count, before) = (transfer.count() + 1, transfer.offset());
            let fate = self.line.draw();
            let reply = if fate == Fate::RequestLost { vec![] } else { self.send(&m[..n]).1 };
            let came = self.line.carry(fate, &reply);
            let answer = transfer.receive(&mut buffer, &came);
            if answer == 0 {
                accepted += 1;
            } else {
                spoiled[fate as usize] += 1;
            }
            if count <= shown {
                let name = ["good", "request lost", "reply lost", "reply cut", "bit flipped", "last reply again"]
                    [fate as usize];
                let joined = transfer.offset() - before;
                writeln!(said, "{count:7}{before:8}   {name:<18}{:2}{joined:9}   {}", came.len(), meaning(answer))
                    .unwrap();
            }
        }
        assert_eq!((transfer.state(), spoiled[0]), (State::Done, 0), "done, and a good exchange is never refused");
        let [_, requests, replies, cut, flipped, repeated] = spoiled;
        writeln!(
            said,
            "    {} exchanges: {accepted} accepted, the last one the empty end; {} lost, {cut} cut, {flipped} flipped, {repeated} repeated",
            transfer.count(),
            requests + replies
        )
        .unwrap();
        assert_eq!(&buffer[..transfer.offset()], wanted);
        writeln!(said, "    {} bytes read; beside what was written: the same, byte for byte", transfer.offset())
            .unwrap();
    }
}

fn start(said: &mut String, number: usize, size: usize, seed: u64) -> Site {
    let capabilities = CAPABILITIES[number - 1];
    let (answer, mut display) =
        Display::start(Timing { status: 2, horizontal: 13340, vertical: 6000 }, capabilities, size);
    writeln!(said, "  display {number}, which sends fragments of {size} bytes: {}", meaning(answer)).unwrap();
    let mut declare = |code, kind, continuous, maximum, present| {
        display.declare(Declaration { code, readable: kind == 0, writable: true, kind, continuous, maximum, present })
    };
    let answers = [
        declare(0x10, 0, true, 100, 80),
        declare(0x12, 0, true, 100, 50),
        declare(0x60, 0, false, 0, 17),
        declare(0x01, 1, false, 0, 0),
    ];
    assert_eq!(answers, [0; 4]);
    writeln!(said, "    brightness (10), contrast (12), input (60), degauss (01): {}", meaning(answers[3])).unwrap();
    Site { capabilities, display, table: [0; TABLE_LIMIT], line: Line { seed, last: vec![] } }
}

fn write_list(said: &mut String, site: &mut Site, list: &[u8]) {
    let mut messages = 0;
    let parts: Vec<_> = list.chunks(31).collect();
    for (k, part) in parts.iter().enumerate() {
        for _ in 0..if k % 3 == 2 { 2 } else { 1 } {
            assert_eq!(site.write(k as u16 * 31, part), 0);
            messages += 1;
        }
    }
    let stored = site.display.table_len();
    assert_eq!(&site.table[..stored], list);
    writeln!(
        said,
        "    {} writes, every third delivered twice: {messages} messages; {stored} bytes stored; beside the tent's list: the same, byte for byte",
        parts.len()
    )
    .unwrap();
}

/// The gates check what they read; the first one also a copy whose fourth household is the first one's, 2000.
fn gate(said: &mut String, first: bool, list: &[u8]) {
    let entries = gate::judge(list).expect("the list is accepted");
    let entry =
        list.chunks(12).position(|record| record[8..] == 2008u32.to_le_bytes()).expect("household 2008 is called");
    writeln!(
        said,
        "    the gate's check: {}; {entries} households are called once each, household 2008 by entry {entry}",
        meaning(0)
    )
    .unwrap();
    if first {
        let mut copy = list.to_vec();
        copy[entry * 12 + 8..][..4].copy_from_slice(&2000u32.to_le_bytes());
        let (answer, place) = gate::judge(&copy).unwrap_err();
        writeln!(said, "    a copy with household 2000 in place of 2008: {}, at byte {place}", meaning(answer))
            .unwrap();
    }
}

fn tree(said: &mut String, text: &[u8]) {
    let (mut starts, mut lengths, mut parents, mut groups) = ([0; 512], [0; 512], [0; 512], [0; 512]);
    let count = capabilities::read(text, &mut starts, &mut lengths, &mut parents, &mut groups).unwrap();
    for node in 0..count {
        let (mut level, mut at) = (0, parents[node]);
        while at != 65535 {
            level += 1;
            at = parents[usize::from(at)];
        }
        let start = usize::from(starts[node]);
        let word = std::str::from_utf8(&text[start..start + usize::from(lengths[node])]).unwrap();
        writeln!(said, "      {}{word}", "  ".repeat(level)).unwrap();
    }
}

fn dusk(said: &mut String, first: bool, site: &mut Site) {
    let mut m = [0; 38];
    let n = build_save(&mut m).unwrap();
    writeln!(said, "    Save: {}", meaning(site.send(&m[..n]).0)).unwrap();
    let mut sheet = [0; 21];
    let length = profile::write(&site.display.settings, &mut sheet).unwrap();
    writeln!(said, "    the profile has {length} bytes").unwrap();
    for r in sheet.chunks(7).filter(|_| first) {
        let bytes: String = r.iter().map(|b| format!(" {b:02X}")).collect();
        writeln!(said, "     {bytes}   code {:02X}: {}", r[4], u16::from_le_bytes([r[5], r[6]])).unwrap();
    }
    let mut damaged = sheet;
    damaged[9] = 2;
    let (answer, place) = profile::load(&mut site.display.settings, &damaged).unwrap_err();
    writeln!(said, "    a damaged copy is loaded: {}, at byte {place}", meaning(answer)).unwrap();
    site.set(said, "brightness", 0x10, 20);
    profile::load(&mut site.display.settings, &sheet).unwrap();
    writeln!(said, "    the profile is loaded: {}", meaning(0)).unwrap();
    site.get(said, "brightness", 0x10);
    let cleared = site.write(0, &[]);
    writeln!(said, "    the list is cleared, {} bytes are left: {}", site.display.table_len(), meaning(cleared))
        .unwrap();
}

fn day() -> String {
    let mut said = String::from("05:00  the tent starts two displays\n");
    let mut sites = [start(&mut said, 1, 32, 26302), start(&mut said, 2, 7, 20979)];
    let list = call_list();
    for (task, heading) in [
        "05:10  the tent writes the call list: 85 records, at most 31 bytes a message",
        "05:30  the tent sets brightness (at most 100) and input (15 is DisplayPort, 17 is HDMI)",
        "06:00  the gates read the list back over long cables (offsets and sizes in bytes)",
        "12:00  a volunteer reads the capabilities strings over the same cables",
        "18:30  dusk: the settings are saved and the list is cleared",
    ]
    .iter()
    .enumerate()
    {
        writeln!(said, "{heading}").unwrap();
        for (i, site) in sites.iter_mut().enumerate() {
            writeln!(said, "  display {}", i + 1).unwrap();
            match task {
                0 => write_list(&mut said, site, &list),
                1 => {
                    let settings = [
                        ("brightness", 0x10, 70),
                        ("brightness", 0x10, 101),
                        ("input", 0x60, 15),
                        ("degauss", 0x01, 1),
                    ];
                    site.set_all(&mut said, &settings);
                    site.get(&mut said, "brightness", 0x10);
                }
                2 => {
                    if i == 0 {
                        said.push_str("    no. asks at   the line        came   joined   answer\n");
                    }
                    site.read(&mut said, Text::Table, if i == 0 { 8 } else { 0 }, &list);
                    gate(&mut said, i == 0, &list);
                }
                3 => {
                    site.read(&mut said, Text::Capabilities, 0, CAPABILITIES[i]);
                    if i == 0 {
                        tree(&mut said, CAPABILITIES[i]);
                    } else {
                        let words = capabilities::judge(CAPABILITIES[i], 512).expect("zeros behind are accepted");
                        writeln!(said, "    accepted, with {words} words: the two zero bytes at its end make none")
                            .unwrap();
                    }
                }
                _ => dusk(&mut said, i == 0, site),
            }
        }
    }
    said.push_str("everything held\n");
    said
}

#[test]
fn the_day_is_as_the_program_writes_it() {
    let path = Path::new(env!("CARGO_MANIFEST_DIR")).join("../../crates/day/stdout");
    let held = std::fs::read_to_string(&path).expect("crates/day/stdout is there");
    assert_eq!(day(), held);
}
