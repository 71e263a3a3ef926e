//! The settings of a display: VCP codes with their values.

use crate::{answer, TABLE_CODE};

/// A set of VCP codes: "four 64-bit words, one bit a code".
#[derive(Clone, Copy, Debug, Default, PartialEq, Eq)]
pub struct CodeSet([u64; 4]);

impl CodeSet {
    /// Whether the code is in the set.
    #[inline]
    pub fn contains(&self, code: u8) -> bool {
        self.0[usize::from(code >> 6)] >> (code & 63) & 1 == 1
    }

    #[inline]
    fn insert(&mut self, code: u8) {
        self.0[usize::from(code >> 6)] |= 1 << (code & 63);
    }

    #[inline]
    fn insert_if(&mut self, code: u8, condition: bool) {
        if condition {
            self.insert(code);
        }
    }

    /// The number of codes: the count of ones.
    #[inline]
    pub fn len(&self) -> usize {
        self.0.iter().map(|word| word.count_ones() as usize).sum()
    }

    /// Whether no code is in the set.
    pub fn is_empty(&self) -> bool {
        self.0 == [0; 4]
    }

    /// The least code not below the given number: trailing zeros of a masked word.
    #[inline]
    pub fn next(&self, from: u16) -> Option<u8> {
        let mut index = usize::from(from >> 6);
        let mut word = self.0.get(index)? & (u64::MAX << (from & 63));
        while word == 0 {
            index += 1;
            word = *self.0.get(index)?;
        }
        Some((index * 64) as u8 + word.trailing_zeros() as u8)
    }

    /// The codes, rising.
    #[inline]
    pub fn iter(&self) -> Codes {
        Codes { words: self.0, index: 0 }
    }

    /// The four words, code 0 being the lowest bit of the first.
    pub fn words(&self) -> [u64; 4] {
        self.0
    }
}

/// The codes of a set, rising.
#[derive(Clone, Debug)]
pub struct Codes {
    words: [u64; 4],
    index: usize,
}

impl Iterator for Codes {
    type Item = u8;

    #[inline]
    fn next(&mut self) -> Option<u8> {
        loop {
            let word = self.words.get_mut(self.index)?;
            if *word != 0 {
                let bit = word.trailing_zeros();
                *word &= *word - 1;
                return Some((self.index * 64) as u8 + bit as u8);
            }
            self.index += 1;
        }
    }
}

/// What is declared of a VCP code.
#[derive(Clone, Copy, Debug, PartialEq, Eq)]
pub struct Declaration {
    /// The VCP code.
    pub code: u8,
    /// Whether Get reads it.
    pub readable: bool,
    /// Whether Set writes it.
    pub writable: bool,
    /// The type: 0 kept, 1 momentary.
    pub kind: u8,
    /// Whether its values are bounded by the maximum.
    pub continuous: bool,
    /// The maximum.
    pub maximum: u16,
    /// The present value.
    pub present: u16,
}

/// "For each code 0 to 255 except F4: declared or not, readable, writable,
/// type, continuous or not, maximum, present, saved."
#[derive(Clone, Debug, PartialEq, Eq)]
pub struct Settings {
    declared: CodeSet,
    readable: CodeSet,
    writable: CodeSet,
    momentary: CodeSet,
    continuous: CodeSet,
    maximum: [u16; 256],
    present: [u16; 256],
    saved: [u16; 256],
}

impl Default for Settings {
    fn default() -> Self {
        Self::new()
    }
}

impl Settings {
    /// No code declared.
    pub fn new() -> Self {
        Self {
            declared: CodeSet::default(),
            readable: CodeSet::default(),
            writable: CodeSet::default(),
            momentary: CodeSet::default(),
            continuous: CodeSet::default(),
            maximum: [0; 256],
            present: [0; 256],
            saved: [0; 256],
        }
    }

    /// "Declaring is refused (18) for F4, a code twice, a type above 1, neither
    /// readable nor writable, momentary and not writable, or continuous with
    /// present above maximum. Saved starts equal to present."
    pub fn declare(&mut self, declaration: Declaration) -> u8 {
        let Declaration { code, readable, writable, kind, continuous, maximum, present } = declaration;
        if code == TABLE_CODE
            || self.declared.contains(code)
            || kind > 1
            || (!readable && !writable)
            || (kind == 1 && !writable)
            || (continuous && present > maximum)
        {
            return answer::NOT_ALLOWED;
        }
        self.declared.insert(code);
        self.readable.insert_if(code, readable);
        self.writable.insert_if(code, writable);
        self.momentary.insert_if(code, kind == 1);
        self.continuous.insert_if(code, continuous);
        let at = usize::from(code);
        self.maximum[at] = maximum;
        self.present[at] = present;
        self.saved[at] = present;
        answer::DONE
    }

    /// The set of declared codes.
    pub fn declared(&self) -> &CodeSet {
        &self.declared
    }

    /// The number declared.
    #[inline]
    pub fn number_declared(&self) -> usize {
        self.declared.len()
    }

    /// The next declared code: the least one not below the given number.
    #[inline]
    pub fn next_declared(&self, from: u16) -> Option<u8> {
        self.declared.next(from)
    }

    /// What is declared of a code, with its present value.
    pub fn declaration(&self, code: u8) -> Option<Declaration> {
        self.declared.contains(code).then(|| Declaration {
            code,
            readable: self.readable.contains(code),
            writable: self.writable.contains(code),
            kind: u8::from(self.momentary.contains(code)),
            continuous: self.continuous.contains(code),
            maximum: self.maximum[usize::from(code)],
            present: self.present[usize::from(code)],
        })
    }

    /// The present value; 0 for an undeclared code.
    #[inline]
    pub fn present(&self, code: u8) -> u16 {
        self.present[usize::from(code)]
    }

    /// The saved value; 0 for an undeclared code.
    #[inline]
    pub fn saved(&self, code: u8) -> u16 {
        self.saved[usize::from(code)]
    }

    /// What Get finds: type, maximum and present of a readable code. A code
    /// undeclared or not readable gives none. (A readable code is declared.)
    #[inline]
    pub fn get(&self, code: u8) -> Option<(u8, u16, u16)> {
        let at = usize::from(code);
        self.readable
            .contains(code)
            .then(|| (u8::from(self.momentary.contains(code)), self.maximum[at], self.present[at]))
    }

    /// "Set: 8 if undeclared, F4 or not writable; 9 if continuous and above the
    /// maximum. Momentary: accepted, nothing stored. Else present is the value."
    #[inline]
    pub fn set(&mut self, code: u8, value: u16) -> u8 {
        // F4 is never declared, and a writable code is declared.
        if !self.writable.contains(code) {
            return answer::CODE;
        }
        if self.is_above(code, value) {
            return answer::VALUE;
        }
        if !self.momentary.contains(code) {
            self.present[usize::from(code)] = value;
        }
        answer::DONE
    }

    /// "Save: every saved value is the present one."
    #[inline]
    pub fn save(&mut self) {
        self.saved = self.present;
    }

    /// Continuous and above the maximum.
    #[inline]
    pub(crate) fn is_above(&self, code: u8, value: u16) -> bool {
        self.continuous.contains(code) && value > self.maximum[usize::from(code)]
    }

    /// The codes of the settings profile: "each code that is readable, writable and kept".
    #[inline]
    pub fn profile_codes(&self) -> CodeSet {
        let mut codes = CodeSet::default();
        for (index, word) in codes.0.iter_mut().enumerate() {
            *word = self.readable.0[index] & self.writable.0[index] & !self.momentary.0[index];
        }
        codes
    }

    /// Loading a profile sets present and saved.
    #[inline]
    pub(crate) fn restore(&mut self, code: u8, value: u16) {
        let at = usize::from(code);
        self.present[at] = value;
        self.saved[at] = value;
    }
}
