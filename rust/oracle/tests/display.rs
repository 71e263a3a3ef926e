//! The display against a plain model of document 01's rules, and as a
//! conforming display of demand 3.

use std::collections::BTreeMap;

use oracle::conforming::ConformingDisplay;
use oracle::display::{Display, Timing};
use oracle::line::Random;
use oracle::message::*;
use oracle::profile;
use oracle::settings::Declaration;
use oracle::{Text, TABLE_CODE, TABLE_LIMIT};

#[derive(Clone, Debug)]
struct Setting {
    declaration: Declaration,
    present: u16,
    saved: u16,
}

/// The model: maps and vectors, each rule as the paper writes it.
#[derive(Clone, Debug)]
struct Model {
    settings: BTreeMap<u8, Setting>,
    timing: Timing,
    text: Vec<u8>,
    table: Vec<u8>,
    fragment_size: usize,
    text_place: (usize, usize),
    table_place: (usize, usize),
}

/// What the model expects: the answer, the reply, and the fragment handed back.
struct Expected {
    answer: u8,
    reply: Vec<u8>,
    fragment: Vec<u8>,
}

fn with_checksum(mut bytes: Vec<u8>) -> Vec<u8> {
    let sum = bytes.iter().fold(0x50, |sum, byte| sum ^ byte);
    bytes.push(sum);
    bytes
}

impl Model {
    fn declare(&mut self, declaration: Declaration) -> u8 {
        let Declaration { code, readable, writable, kind, continuous, maximum, present } = declaration;
        let refused = code == 0xF4
            || self.settings.contains_key(&code)
            || kind > 1
            || !(readable || writable)
            || kind == 1 && !writable
            || continuous && present > maximum;
        if refused {
            return 18;
        }
        let setting = Setting { declaration, present, saved: present };
        self.settings.insert(code, setting);
        0
    }

    fn fragment(&mut self, which: Text, asked: usize) -> Expected {
        let (text, place, command) = match which {
            Text::Capabilities => (&self.text, &mut self.text_place, 0xE3),
            Text::Table => (&self.table, &mut self.table_place, 0xE4),
        };
        let (offset, length) = *place;
        let new = if asked == 0 {
            0
        } else if asked == offset {
            offset
        } else if asked == offset + length {
            asked
        } else {
            0
        };
        let piece: Vec<u8> = text[new..].iter().copied().take(self.fragment_size).collect();
        *place = (new, piece.len());
        let mut reply = vec![0x6E, 0x83 + piece.len() as u8, command];
        reply.extend((new as u16).to_be_bytes());
        reply.extend(&piece);
        Expected { answer: 0, reply: with_checksum(reply), fragment: piece }
    }

    fn step(&mut self, message: &[u8]) -> Expected {
        let plain = |answer| Expected { answer, reply: Vec::new(), fragment: Vec::new() };
        let replied = |answer, reply| Expected { answer, reply, fragment: Vec::new() };
        let null = vec![0x6E, 0x80, 0xBE];
        let request = match read_request(message) {
            Ok(request) => request,
            Err(6) => return replied(6, null),
            Err(refusal) => return plain(refusal),
        };
        match request {
            Request::Get { code } => {
                let mut reply = vec![0x6E, 0x88, 0x02];
                match self.settings.get(&code) {
                    Some(setting) if setting.declaration.readable => {
                        reply.extend([0, code, setting.declaration.kind]);
                        reply.extend(setting.declaration.maximum.to_be_bytes());
                        reply.extend(setting.present.to_be_bytes());
                    }
                    _ => reply.extend([1, code, 0, 0, 0, 0, 0]),
                }
                replied(0, with_checksum(reply))
            }
            Request::Set { code, value } => match self.settings.get_mut(&code) {
                Some(setting) if setting.declaration.writable => {
                    if setting.declaration.continuous && value > setting.declaration.maximum {
                        return plain(9);
                    }
                    if setting.declaration.kind == 0 {
                        setting.present = value;
                    }
                    plain(0)
                }
                _ => plain(8),
            },
            Request::Timing => {
                let mut reply = vec![0x6E, 0x06, 0x4E, self.timing.status];
                reply.extend(self.timing.horizontal.to_be_bytes());
                reply.extend(self.timing.vertical.to_be_bytes());
                replied(0, with_checksum(reply))
            }
            Request::Save => {
                for setting in self.settings.values_mut() {
                    setting.saved = setting.present;
                }
                plain(0)
            }
            Request::Capabilities { offset } => self.fragment(Text::Capabilities, usize::from(offset)),
            Request::TableRead { code, offset } => {
                if code != 0xF4 {
                    return replied(8, null);
                }
                self.fragment(Text::Table, usize::from(offset))
            }
            Request::TableWrite { code, offset, data } => {
                let offset = usize::from(offset);
                if code != 0xF4 {
                    return plain(8);
                }
                if offset > self.table.len() {
                    return plain(10);
                }
                if offset + data.len() > 1024 {
                    return plain(11);
                }
                let tail = self.table.get(offset + data.len()..).unwrap_or(&[]).to_vec();
                self.table.truncate(offset);
                self.table.extend(data);
                if offset > 0 {
                    self.table.extend(tail);
                }
                self.table_place = (0, 0);
                plain(0)
            }
        }
    }
}

fn random_declaration(random: &mut Random) -> Declaration {
    Declaration {
        code: match random.below(4) {
            0 => random.byte(),
            1 => 0xF4,
            _ => random.below(24) as u8 * 11,
        },
        readable: random.percent(75),
        writable: random.percent(75),
        kind: [0, 0, 0, 1, 1, 2, 255][random.below(7)],
        continuous: random.percent(60),
        maximum: random.word(),
        present: random.word(),
    }
}

/// An offset that the display may well act on.
fn random_offset(random: &mut Random, place: (usize, usize), length: usize) -> u16 {
    let offset = match random.below(8) {
        0 => 0,
        1 | 2 => place.0,
        3..=5 => place.0 + place.1,
        6 => random.below(length + 2),
        _ => usize::from(random.word()),
    };
    offset as u16
}

fn random_message(random: &mut Random, model: &Model, out: &mut [u8; 64]) -> usize {
    let code = match random.below(3) {
        0 => random.byte(),
        _ => random.below(24) as u8 * 11,
    };
    let table_code = if random.percent(90) { TABLE_CODE } else { code };
    let mut data = [0; 31];
    random.fill(&mut data);
    let built = match random.below(12) {
        0 | 1 => build_get(code, out),
        2 | 3 => build_set(code, random.word(), out),
        4 => build_timing(out),
        5 => build_save(out),
        6 | 7 => {
            let offset = random_offset(random, model.text_place, model.text.len());
            build_capabilities(offset, out)
        }
        8 | 9 => {
            let offset = random_offset(random, model.table_place, model.table.len());
            build_table_read(table_code, offset, out)
        }
        _ => {
            let offset = match random.below(120) {
                0 => 0,
                1..=9 => random.below(model.table.len() + 2),
                10..=19 => usize::from(random.word()),
                _ => model.table.len(),
            };
            let least = [0, 16][random.below(2)];
            let data = &data[..random.between(least, 31)];
            build_table_write(table_code, offset as u16, data, out)
        }
    };
    let mut length = built.expect("built");
    if random.percent(8) {
        match random.below(4) {
            0 => out[random.below(length)] ^= 1 << random.below(8),
            1 => length = random.below(length),
            2 => length += random.below(20),
            _ => {
                // Another command or body length with a right checksum.
                let n = random.below(36);
                random.fill(&mut out[2..n + 2]);
                if random.percent(50) {
                    out[2] = [0x01, 0x03, 0x07, 0x0C, 0xF3, 0xE2, 0xE7][random.below(7)];
                }
                out[0] = 0x51;
                out[1] = 0x80 + n as u8;
                out[n + 2] = out[..n + 2].iter().fold(0x6E, |sum, byte| sum ^ byte);
                length = n + 3;
            }
        }
    }
    length
}

fn assert_same(display: &Display, model: &Model, table: &[u8]) {
    assert_eq!(display.table_len(), model.table.len());
    assert_eq!(table[..model.table.len()], model.table[..]);
    for (which, place) in [(Text::Capabilities, model.text_place), (Text::Table, model.table_place)] {
        let cursor = display.cursor(which);
        assert_eq!((usize::from(cursor.offset), usize::from(cursor.length)), place);
    }
    for code in 0..=255 {
        let setting = model.settings.get(&code);
        assert_eq!(
            display.settings.declaration(code),
            setting.map(|setting| Declaration { present: setting.present, ..setting.declaration })
        );
        assert_eq!(display.settings.saved(code), setting.map_or(0, |setting| setting.saved));
    }
}

#[test]
fn steps_as_the_model() {
    let mut random = Random::new(4);
    let mut answers = [0; 19];
    for round in 0..400 {
        let mut text = vec![0; [0, 1, 5, 40, 100, 4096][random.below(6)]];
        random.fill(&mut text);
        let fragment_size = random.between(1, 32);
        let timing = Timing { status: random.byte() & 0xC3, horizontal: random.word(), vertical: random.word() };
        let (answer, mut display) = Display::start(timing, &text, fragment_size);
        assert_eq!(answer, 0);
        let mut model = Model {
            settings: BTreeMap::new(),
            timing,
            text: text.clone(),
            table: Vec::new(),
            fragment_size,
            text_place: (0, 0),
            table_place: (0, 0),
        };
        for _ in 0..random.below(60) {
            let declaration = random_declaration(&mut random);
            let before = display.clone();
            let answer = display.declare(declaration);
            assert_eq!(answer, model.declare(declaration));
            assert!(answer == 0 || display == before);
        }
        assert_eq!(display.number_declared(), model.settings.len());
        for from in 0..=300 {
            let next = (from..256).map(|code| code as u8).find(|code| model.settings.contains_key(code));
            assert_eq!(display.next_declared(from), next);
        }
        let mut table = [0; TABLE_LIMIT];
        random.fill(&mut table);
        let mut message = [0; 64];
        for _ in 0..800 {
            let length = random_message(&mut random, &model, &mut message);
            let message = &message[..length];
            let mut out = [0xA5; 60];
            let (display_before, table_before) = (display.clone(), table);

            let mut other_table = table;
            let mut other_out = out;
            let by_value = display.clone().step_by_value(&text, &mut other_table, message, &mut other_out);
            let mut handing = display.clone();
            let mut handing_table = table;
            let handed = handing.step_fragment(&text, &mut handing_table, message, &mut [0xA5; 38]);

            let (answer, reply_len) = display.step(&text, &mut table, message, &mut out);
            let expected = model.step(message);
            answers[usize::from(answer)] += 1;
            assert_eq!(answer, expected.answer, "{message:02X?}");
            assert_eq!(out[..reply_len], expected.reply[..]);
            assert!(out[reply_len..].iter().all(|&byte| byte == 0xA5));
            assert_eq!(handed, (answer, reply_len, &expected.fragment[..]));
            assert_eq!(handing, display);
            assert_eq!(by_value, (display.clone(), answer, reply_len));
            assert_eq!((other_table, other_out), (table, out));
            // "A refusal changes no setting, saved value, list or place in a text."
            if answer != 0 {
                assert_eq!(display, display_before);
                assert_eq!(table, table_before);
            }
            // Only a table write writes the table, and only its own bytes.
            match read_request(message) {
                Ok(Request::TableWrite { offset, data, .. }) if answer == 0 => {
                    let start = usize::from(offset);
                    assert_eq!(table[..start], table_before[..start]);
                    let end = start + data.len();
                    assert_eq!(table[end..], table_before[end..]);
                }
                _ => assert_eq!(table, table_before),
            }
            if round % 10 == 0 {
                assert_same(&display, &model, &table);
            }
        }
        assert_same(&display, &model, &table);

        // The profile of these settings, by the model.
        let mut sheet = Vec::new();
        for (&code, setting) in &model.settings {
            let declaration = setting.declaration;
            if declaration.readable && declaration.writable && declaration.kind == 0 {
                sheet.extend([5, 0, 1, 0, code]);
                sheet.extend(setting.saved.to_le_bytes());
            }
        }
        let mut out = vec![0xA5; sheet.len() + 3];
        assert_eq!(profile::write(&display.settings, &mut out), Ok(sheet.len()));
        assert_eq!(out[..sheet.len()], sheet[..]);
        assert_eq!(out[sheet.len()..], [0xA5; 3]);
        let mut loaded = display.settings.clone();
        assert_eq!(profile::load(&mut loaded, &sheet), Ok(()));
        for code in display.settings.profile_codes().iter() {
            assert_eq!(loaded.present(code), display.settings.saved(code));
            assert_eq!(loaded.saved(code), display.settings.saved(code));
        }
    }
    for number in [0, 2, 3, 4, 5, 6, 7, 8, 9, 10, 11] {
        assert!(answers[number] > 50, "answer {number}: {answers:?}");
    }
}

#[test]
fn starts() {
    let bad_timing = Timing { status: 0x04, ..Timing::default() };
    let long = [0; 4097];
    for (timing, text, size, expected) in [
        (bad_timing, &long[..], 0, 18),
        (Timing::default(), &long[..], 0, 11),
        (Timing::default(), &long[..], 1, 11),
        (Timing::default(), &long[..5], 0, 18),
        (Timing::default(), &long[..5], 33, 18),
        (bad_timing, &long[..5], 1, 18),
    ] {
        let (answer, display) = Display::start(timing, text, size);
        assert_eq!((answer, &display), (expected, &Display::empty()));
    }
    let (answer, display) = Display::start(Timing::default(), &long[..4096], 32);
    assert_eq!((answer, display.text_len(), display.fragment_size()), (0, 4096, 32));
    for bit in 0..8 {
        let timing = Timing { status: 1 << bit, ..Timing::default() };
        let reserved = (2..=5).contains(&bit);
        let expected = if reserved { 18 } else { 0 };
        assert_eq!(Display::start(timing, b"", 1).0, expected);
    }
    // Declaring is allowed on the empty display of a refused start.
    let mut empty = Display::empty();
    let declaration =
        Declaration { code: 0x10, readable: true, writable: false, kind: 0, continuous: false, maximum: 0, present: 9 };
    assert_eq!(empty.declare(declaration), 0);
    assert_eq!(empty.declare(declaration), 18);
    assert_eq!(empty.number_declared(), 1);
}

#[test]
fn lent_sizes_before_the_message() {
    let text = b"(vcp(10))";
    let (_, display) = Display::start(Timing::default(), text, 4);
    let mut message = [0; 38];
    let good = build_capabilities(0, &mut message).expect("built");
    let unknown = [0x51, 0x81, 0x99, 0x27];
    for message in [&message[..good], &unknown, &[], &[1, 2, 3, 4]] {
        for (text, table_len, out_len) in [
            (&text[..8], 1024, 38),
            (&text[..], 1023, 38),
            (&text[..], 1025, 38),
            (&text[..], 0, 38),
            (&text[..], 1024, 37),
            (&text[..], 1024, 0),
        ] {
            let mut used = display.clone();
            let mut table = vec![0x5A; table_len];
            let mut out = vec![0xA5; out_len];
            assert_eq!(used.step(text, &mut table, message, &mut out), (1, 0));
            assert_eq!(used, display);
            assert!(table.iter().all(|&byte| byte == 0x5A));
            assert!(out.iter().all(|&byte| byte == 0xA5));
        }
    }
}

/// The display's two texts are those of a conforming display that always picks
/// min(fragment size, bytes left).
#[test]
fn conforms_to_the_fragment_rules() {
    let mut random = Random::new(5);
    for _ in 0..2000 {
        let longest = [3, 40, 300][random.below(3)];
        let mut text = vec![0; random.below(longest)];
        random.fill(&mut text);
        let size = random.between(1, 32);
        let which = [Text::Capabilities, Text::Table][random.below(2)];
        let capabilities: &[u8] = if which == Text::Capabilities { &text } else { b"" };
        let (_, mut display) = Display::start(Timing::default(), capabilities, size);
        let mut table = [0; TABLE_LIMIT];
        let (mut message, mut out) = ([0; 38], [0; 38]);
        if which == Text::Table {
            for (index, data) in text.chunks(31).enumerate() {
                let n = build_table_write(TABLE_CODE, index as u16 * 31, data, &mut message).expect("built");
                let step = display.step(capabilities, &mut table, &message[..n], &mut out);
                assert_eq!(step, (0, 0));
            }
        }
        let mut conforming = ConformingDisplay::new(which, &text, 0, 0);
        for _ in 0..60 {
            let (offset, length) = conforming.place();
            let place = (offset as usize, length as usize);
            let asked = random_offset(&mut random, place, text.len());
            let n = match which {
                Text::Capabilities => build_capabilities(asked, &mut message),
                Text::Table => build_table_read(TABLE_CODE, asked, &mut message),
            }
            .expect("built");
            let mut reply = [0; 38];
            let length = conforming.act(&message[..n], &mut |most| most.min(size), &mut reply);
            let step = display.step(capabilities, &mut table, &message[..n], &mut out);
            assert_eq!(step, (0, length));
            assert_eq!(out[..length], reply[..length]);
        }
    }
}

/// "After 'otherwise go to 0' the second may move on."
#[test]
fn a_request_sent_twice_is_not_harmless() {
    let text = b"abcdefgh";
    let (_, mut display) = Display::start(Timing::default(), text, 2);
    let mut table = [0; TABLE_LIMIT];
    let (mut message, mut out) = ([0; 38], [0; 38]);
    let mut ask = |offset: u16| {
        let n = build_capabilities(offset, &mut message).expect("built");
        let (_, length) = display.step(text, &mut table, &message[..n], &mut out);
        match read_reply(&out[..length]) {
            Ok(Reply::Capabilities { offset, .. }) => offset,
            other => panic!("{other:?}"),
        }
    };
    assert_eq!([ask(0), ask(2), ask(4)], [0, 2, 4]);
    // 2 is neither 4 nor 6: back to 0; then it is 0 + 2.
    assert_eq!([ask(2), ask(2)], [0, 2]);
}
