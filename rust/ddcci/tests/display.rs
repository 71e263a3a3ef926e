//! The display beside the oracle's: the same answers, replies, tables and fragments over random histories of
//! messages, whole and damaged.
mod common;
use common::rounds;
use ddcci::{Asked, Declaration, Display, Request, Step, TextKind, Timing, LONGEST_PROFILE, OUTPUT_ROOM, TABLE_ROOM};
use oracle::display as slow;
use oracle::line::Random;
use oracle::profile;
use oracle::settings as slow_settings;

const TEXT: &[u8] = b"(prot(monitor)type(LCD)cmds(01 02 03 07 0C E2 E3 E7 F3)vcp(10 12 14(05 08) F4))";

fn number<T>(r: Result<T, ddcci::Refusal>) -> u8 {
    r.err().map_or(0, ddcci::Refusal::number)
}

/// Both displays, started and declared alike.
fn started(r: &mut Random) -> (Display, slow::Display) {
    let size = 1 + r.below(32);
    let mut ours = Display::start(Timing { status: 2, horizontal: 13340, vertical: 6000 }, TEXT, size as u16).unwrap();
    let (_, mut theirs) =
        slow::Display::start(slow::Timing { status: 2, horizontal: 13340, vertical: 6000 }, TEXT, size);
    for _ in 0..60 {
        let (code, kind) = (0xE0 + r.below(32) as u8, r.below(3) as u8);
        let (readable, writable, continuous) = (r.below(4) > 0, r.below(4) > 0, r.below(2) > 0);
        let (maximum, present) = (r.below(200) as u16, r.below(200) as u16);
        let answer = number(ours.declare(Declaration { code, readable, writable, kind, continuous, maximum, present }));
        assert_eq!(
            answer,
            theirs.declare(slow_settings::Declaration { code, readable, writable, kind, continuous, maximum, present })
        );
    }
    (ours, theirs)
}

/// A message to the display, now and then with a byte changed or missing.
fn message(r: &mut Random, reached: u16) -> Vec<u8> {
    let data: Vec<u8> = (0..r.below(32)).map(|_| r.below(256) as u8).collect();
    let code = if r.below(4) > 0 { 0xF4 } else { r.below(256) as u8 };
    let offset = if r.below(4) > 0 { reached } else { r.below(1100) as u16 };
    let request = match r.below(9) {
        0 => Request::Get { code: 0xE0 + r.below(32) as u8 },
        1 | 2 => Request::Set { code: 0xE0 + r.below(32) as u8, value: r.below(220) as u16 },
        3 => Request::Timing,
        4 => Request::Save,
        5 => Request::Text { offset },
        6 => Request::TableRead { code, offset },
        _ => Request::TableWrite { code, offset, data: &data },
    };
    let mut bytes = request.to_bytes().unwrap().to_vec();
    let at = r.below(bytes.len());
    match r.below(20) {
        0 => bytes[at] ^= 1 << r.below(8),
        1 => bytes.truncate(at),
        _ => {}
    }
    bytes
}

/// What an accepted message asked for, by the host's reader.
fn asked_by_reading(step: &Step, message: &[u8]) -> Option<Asked> {
    step.answer.ok()?;
    Some(match Request::read(message).ok()? {
        Request::Get { code } => Asked::Get { code },
        Request::Set { code, value } => Asked::Set { code, value },
        Request::Timing => Asked::Timing,
        Request::Save => Asked::Save,
        Request::Text { .. } => Asked::Text,
        Request::TableRead { code, .. } => Asked::TableRead { code },
        Request::TableWrite { code, .. } => Asked::TableWrite { code },
    })
}

#[test]
fn random_histories() {
    let mut r = Random::new(7);
    for _ in 0..rounds(200) {
        let (mut ours, mut theirs) = started(&mut r);
        let (mut a, mut b) = ([0; TABLE_ROOM], [0; TABLE_ROOM]);
        let (mut x, mut y) = ([0xAA; OUTPUT_ROOM], [0xAA; OUTPUT_ROOM]);
        let mut reached = 0;
        for _ in 0..200 {
            let message = message(&mut r, reached);
            let step = ours.step(TEXT, &mut a, &message, &mut x);
            let (answer, length, fragment) = theirs.step_fragment(TEXT, &mut b, &message, &mut y);
            assert_eq!((number(step.answer), step.length), (answer, length), "{message:02X?}");
            assert_eq!(step.asked(&message), asked_by_reading(&step, &message), "{message:02X?}");
            let found = match &step.found {
                None => &[][..],
                Some((TextKind::Capabilities, place)) => &TEXT[place.clone()],
                Some((TextKind::Table, place)) => &a[place.clone()],
            };
            assert_eq!(found, fragment, "{message:02X?}");
            reached = step.found.map_or(0, |(_, place)| place.end as u16);
            assert_eq!((x, a), (y, b), "{message:02X?}");
        }
    }
}

/// A profile, whole or damaged: other values, a byte changed, bytes missing or too many.
fn damaged(r: &mut Random, sheet: &[u8]) -> Vec<u8> {
    let mut bytes = sheet.to_vec();
    for record in bytes.chunks_exact_mut(7) {
        record[5] = r.below(220) as u8;
    }
    let at = r.below(bytes.len() + 1);
    match r.below(6) {
        0 => bytes.truncate(at),
        1 => bytes.extend(sheet.iter().take(1 + r.below(9))),
        2 if at < bytes.len() => bytes[at] ^= 1 << r.below(8),
        3 => bytes = sheet.to_vec(),
        _ => {}
    }
    bytes
}

/// The messages that change settings, the same to both.
fn set_and_save(r: &mut Random, ours: &mut Display, theirs: &mut slow::Display) {
    let (mut table, mut out) = ([0; TABLE_ROOM], [0; OUTPUT_ROOM]);
    for _ in 0..r.below(40) {
        let request = match r.below(8) {
            0 => Request::Save,
            _ => Request::Set { code: 0xE0 + r.below(32) as u8, value: r.below(220) as u16 },
        };
        let message = request.to_bytes().unwrap();
        let step = ours.step(TEXT, &mut table, &message, &mut out);
        assert_eq!(number(step.answer), theirs.step(TEXT, &mut table, &message, &mut out).0);
    }
}

#[test]
fn profiles() {
    let mut r = Random::new(8);
    for _ in 0..rounds(2000) {
        let (mut ours, mut theirs) = started(&mut r);
        set_and_save(&mut r, &mut ours, &mut theirs);
        let (mut x, mut y) = ([0xAA; LONGEST_PROFILE], [0xAA; LONGEST_PROFILE]);
        let room = if r.below(4) > 0 { LONGEST_PROFILE } else { r.below(100) };
        let written = profile::write(&theirs.settings, &mut y[..room]);
        assert_eq!(ours.write_profile(&mut x[..room]).map_err(ddcci::Refusal::number), written);
        assert_eq!(x, y);
        let sheet = damaged(&mut r, &x[..written.unwrap_or(0)]);
        let before = ours.clone();
        let loaded = ours.load_profile(&sheet).map_err(|refused| (refused.refusal.number(), refused.position));
        assert_eq!(loaded, profile::load(&mut theirs.settings, &sheet), "{sheet:02X?}");
        assert!(loaded.is_ok() || ours == before);
        // what was loaded shows in the next profile, and in every Get
        let n = profile::write(&theirs.settings, &mut y).unwrap();
        assert_eq!(ours.write_profile(&mut x), Ok(n));
        assert_eq!(x[..n], y[..n]);
        for code in 0..=255 {
            let message = Request::Get { code }.to_bytes().unwrap();
            let (mut table, mut a, mut b) = ([0; TABLE_ROOM], [0; OUTPUT_ROOM], [0; OUTPUT_ROOM]);
            let _ = ours.step(TEXT, &mut table, &message, &mut a);
            theirs.step(TEXT, &mut table, &message, &mut b);
            assert_eq!(a, b, "{code:02X}");
        }
    }
}

#[test]
fn wrong_sizes_change_nothing() {
    let (mut display, _) = started(&mut Random::new(1));
    let before = display.clone();
    let message = Request::TableWrite { code: 0xF4, offset: 0, data: &[1, 2, 3] }.to_bytes().unwrap();
    for (text, table, out) in [(&TEXT[1..], 1024, 38), (TEXT, 1023, 38), (TEXT, 1025, 38), (TEXT, 1024, 37)] {
        let (mut table, mut out) = (vec![0; table], vec![0; out]);
        let step = display.step(text, &mut table, &message, &mut out);
        assert_eq!((number(step.answer), step.length, step.found), (1, 0, None));
        assert!(display == before && table.iter().chain(&out).all(|&byte| byte == 0));
    }
}

#[test]
fn a_refused_start_has_a_number() {
    let start = |status, text: &[u8], size| number(Display::start(Timing { status, ..Timing::default() }, text, size));
    assert_eq!(start(0x04, TEXT, 32), 18);
    assert_eq!(start(0, &[b'a'; 4097], 32), 11);
    assert_eq!((start(0, TEXT, 0), start(0, TEXT, 33), start(0, &[b'a'; 4096], 32)), (18, 18, 0));
}

/// The number declared and the next declared code, of displays with none to all of the codes.
#[test]
fn declared_codes() {
    let mut r = Random::new(5);
    for round in 0..rounds(60) {
        let mut ours = Display::start(Timing::default(), TEXT, 32).unwrap();
        let (_, mut theirs) = slow::Display::start(slow::Timing { status: 0, horizontal: 0, vertical: 0 }, TEXT, 32);
        for code in 0..=255 {
            if r.percent(100 * round / rounds(59)) {
                let (readable, writable, kind, continuous, maximum, present) = (true, true, 0, false, 9, 5);
                let _ = ours.declare(Declaration { code, readable, writable, kind, continuous, maximum, present });
                let same = slow_settings::Declaration { code, readable, writable, kind, continuous, maximum, present };
                theirs.declare(same);
            }
        }
        assert_eq!(usize::from(ours.declared_count()), theirs.number_declared());
        assert_eq!(ours.declared_codes().count(), theirs.number_declared());
        assert!(ours.declared_codes().all(|code| theirs.next_declared(code.into()) == Some(code)));
        for from in [0..300, 65_000..65_535].into_iter().flatten() {
            assert_eq!(ours.next_declared(from), theirs.next_declared(from), "from {from}");
        }
    }
}
