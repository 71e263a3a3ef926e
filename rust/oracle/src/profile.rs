//! The settings profile ("settings sheet").
//!
//! "Records: length (2 bytes, little-endian, counting what follows it), kind
//! (2 bytes, little-endian), body. Kind 1: code, saved value (2 bytes,
//! little-endian); so length 5. One for each code that is readable, writable
//! and kept, rising."

use crate::answer;
use crate::settings::Settings;

/// The bytes of one record: its length field and the 5 bytes it counts.
pub const RECORD_LEN: usize = 7;

/// Length 5, kind 1.
const HEAD: [u8; 4] = [5, 0, 1, 0];

/// The length of the profile of these settings.
#[inline]
pub fn len(settings: &Settings) -> usize {
    settings.profile_codes().len() * RECORD_LEN
}

/// Writes the profile: its length, or 1 where the output is too short.
/// Bytes beyond the profile stay.
pub fn write(settings: &Settings, out: &mut [u8]) -> Result<usize, u8> {
    let codes = settings.profile_codes();
    let length = codes.len() * RECORD_LEN;
    let Some(out) = out.get_mut(..length) else {
        return Err(answer::SIZE);
    };
    let (records, _) = out.as_chunks_mut::<RECORD_LEN>();
    for (record, code) in records.iter_mut().zip(codes.iter()) {
        let [low, high] = settings.saved(code).to_le_bytes();
        *record = [HEAD[0], HEAD[1], HEAD[2], HEAD[3], code, low, high];
    }
    Ok(length)
}

/// "Loading sets present and saved of all the sheet's codes, or changes
/// nothing. The first bad record decides: cut, length or kind wrong 17; not the
/// next code 8; value 9; any bytes after the last code's record, or too few
/// records, 17. The place is that record's start, or the end of the sheet when
/// records are missing."
pub fn load(settings: &mut Settings, bytes: &[u8]) -> Result<(), (u8, usize)> {
    let codes = settings.profile_codes();
    let (records, rest) = bytes.as_chunks::<RECORD_LEN>();
    let mut expected = codes.iter();
    let mut place = 0;
    for &[l0, l1, k0, k1, code, low, high] in records {
        let Some(next) = expected.next() else {
            // Bytes after the last code's record.
            return Err((answer::RECORD, place));
        };
        if [l0, l1, k0, k1] != HEAD {
            return Err((answer::RECORD, place));
        }
        if code != next {
            return Err((answer::CODE, place));
        }
        if settings.is_above(code, u16::from_le_bytes([low, high])) {
            return Err((answer::VALUE, place));
        }
        place += RECORD_LEN;
    }
    // A cut record, bytes after the last one, or records missing: all three
    // at the end of the whole records.
    if !rest.is_empty() || expected.next().is_some() {
        return Err((answer::RECORD, place));
    }
    for &[_, _, _, _, code, low, high] in records {
        settings.restore(code, u16::from_le_bytes([low, high]));
    }
    Ok(())
}
