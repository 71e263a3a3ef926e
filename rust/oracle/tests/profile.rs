//! The settings profile's refusals with their places.

use oracle::line::Random;
use oracle::profile;
use oracle::settings::{Declaration, Settings};

fn settings(codes: &[(u8, bool, u16, u16)]) -> Settings {
    let mut settings = Settings::new();
    for &(code, continuous, maximum, present) in codes {
        let declaration = Declaration { code, readable: true, writable: true, kind: 0, continuous, maximum, present };
        assert_eq!(settings.declare(declaration), 0);
    }
    settings
}

fn record(code: u8, value: u16) -> [u8; 7] {
    let [low, high] = value.to_le_bytes();
    [5, 0, 1, 0, code, low, high]
}

/// Loading gives this; on a refusal nothing changes.
fn load(settings: &Settings, bytes: &[u8], expected: Result<(), (u8, usize)>) {
    let mut loaded = settings.clone();
    assert_eq!(profile::load(&mut loaded, bytes), expected, "{bytes:02X?}");
    if expected.is_err() {
        assert_eq!(loaded, *settings);
    }
}

#[test]
fn refusals_with_places() {
    let three = settings(&[(0x10, true, 100, 50), (0x12, false, 5, 4000), (0x60, true, 9, 0)]);
    let whole = [record(0x10, 99), record(0x12, 65_535), record(0x60, 9)].concat();
    load(&three, &whole, Ok(()));
    // Cut at every length: missing records at the end, or a cut record's start.
    for length in 0..whole.len() {
        load(&three, &whole[..length], Err((17, length / 7 * 7)));
    }
    // Bytes after the last record.
    for extra in 1..20 {
        let mut longer = whole.clone();
        longer.resize(21 + extra, 0x05);
        load(&three, &longer, Err((17, 21)));
    }
    let changed = |at: usize, byte: u8| {
        let mut bytes = whole.clone();
        bytes[at] = byte;
        bytes
    };
    for index in 0..3 {
        for (field, byte, number) in [(0, 4, 17), (0, 6, 17), (1, 1, 17), (2, 2, 17), (3, 1, 17), (4, 0x11, 8)] {
            let place = index * 7;
            load(&three, &changed(place + field, byte), Err((number, place)));
        }
    }
    load(&three, &changed(5, 101), Err((9, 0)));
    load(&three, &changed(6, 1), Err((9, 0)));
    load(&three, &changed(14 + 5, 10), Err((9, 14)));
    // The first bad record decides; inside one, cut goes before code and code before value.
    let mut two = changed(5, 101);
    two[7] = 0;
    load(&three, &two, Err((9, 0)));
    let mut both = changed(4, 0x11);
    both[5] = 101;
    load(&three, &both, Err((8, 0)));
    load(&three, &both[..6], Err((17, 0)));
    // Swapped, repeated and left out codes.
    let swapped = [record(0x12, 1), record(0x10, 1), record(0x60, 1)].concat();
    load(&three, &swapped, Err((8, 0)));
    let repeated = [record(0x10, 1), record(0x10, 1), record(0x60, 1)].concat();
    load(&three, &repeated, Err((8, 7)));
    let left_out = [record(0x10, 1), record(0x60, 1)].concat();
    load(&three, &left_out, Err((8, 7)));
}

#[test]
fn loading_sets_present_and_saved() {
    let mut two = settings(&[(0x00, true, 100, 50), (0xFF, false, 0, 7)]);
    let momentary =
        Declaration { code: 0x20, readable: true, writable: true, kind: 1, continuous: false, maximum: 3, present: 2 };
    let read_only = Declaration { code: 0x21, writable: false, kind: 0, ..momentary };
    let write_only = Declaration { code: 0x22, readable: false, kind: 0, ..momentary };
    for declaration in [momentary, read_only, write_only] {
        assert_eq!(two.declare(declaration), 0);
    }
    assert_eq!(profile::len(&two), 14);
    let sheet = [record(0x00, 3), record(0xFF, 65_535)].concat();
    assert_eq!(profile::load(&mut two, &sheet), Ok(()));
    for (code, value) in [(0x00, 3), (0xFF, 65_535), (0x20, 2), (0x21, 2), (0x22, 2)] {
        assert_eq!((two.present(code), two.saved(code)), (value, value));
    }
    // The saved value is written, not the present one.
    assert_eq!(two.set(0x00, 4), 0);
    let mut out = [0; 14];
    assert_eq!(profile::write(&two, &mut out), Ok(14));
    assert_eq!(out[..], sheet[..]);
    two.save();
    assert_eq!(profile::write(&two, &mut out), Ok(14));
    assert_eq!(out[..7], record(0x00, 4));
}

#[test]
fn no_profile_code() {
    let none = Settings::new();
    let mut out = [0xA5; 4];
    assert_eq!(profile::write(&none, &mut out), Ok(0));
    assert_eq!(profile::write(&none, &mut []), Ok(0));
    assert_eq!(out, [0xA5; 4]);
    load(&none, &[], Ok(()));
    load(&none, &[0], Err((17, 0)));
    load(&none, &record(0x10, 1), Err((17, 0)));
}

#[test]
fn short_outputs() {
    let two = settings(&[(0x10, true, 100, 50), (0x12, false, 5, 4000)]);
    for length in 0..14 {
        let mut out = vec![0xA5; length];
        assert_eq!(profile::write(&two, &mut out), Err(1));
        assert!(out.iter().all(|&byte| byte == 0xA5));
    }
}

/// All 255 codes, and any damage to their profile.
#[test]
fn any_bytes() {
    let mut random = Random::new(6);
    let codes: Vec<_> =
        (0..=255_u8).filter(|&code| code != 0xF4).map(|code| (code, code % 2 == 0, 1000, u16::from(code))).collect();
    let all = settings(&codes);
    let mut sheet = vec![0; 255 * 7];
    assert_eq!(profile::write(&all, &mut sheet), Ok(255 * 7));
    load(&all, &sheet, Ok(()));
    for _ in 0..20_000 {
        let mut bytes = sheet.clone();
        for _ in 0..random.between(1, 3) {
            let at = random.below(bytes.len());
            bytes[at] = random.byte();
        }
        if random.percent(30) {
            bytes.truncate(random.below(bytes.len()));
        }
        // Record by record, as the paper tells it.
        let expected = (|| {
            let mut at = 0;
            for &(code, continuous, maximum, _) in &codes {
                let rest = &bytes[at..];
                if rest.len() < 7 || rest[..4] != [5, 0, 1, 0] {
                    return Err((17, at));
                }
                if rest[4] != code {
                    return Err((8, at));
                }
                let value = u16::from(rest[5]) + 256 * u16::from(rest[6]);
                if continuous && value > maximum {
                    return Err((9, at));
                }
                at += 7;
            }
            if at == bytes.len() {
                Ok(())
            } else {
                Err((17, at))
            }
        })();
        load(&all, &bytes, expected);
    }
}
