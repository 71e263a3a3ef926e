//! A deterministic noisy line for property tests.

/// A small pseudo-random generator (splitmix64).
#[derive(Clone, Debug)]
pub struct Random(u64);

impl Random {
    /// The same seed gives the same numbers.
    pub fn new(seed: u64) -> Self {
        Self(seed)
    }

    /// The next 64 bits.
    pub fn bits(&mut self) -> u64 {
        self.0 = self.0.wrapping_add(0x9E37_79B9_7F4A_7C15);
        let mut mixed = self.0;
        mixed = (mixed ^ (mixed >> 30)).wrapping_mul(0xBF58_476D_1CE4_E5B9);
        mixed = (mixed ^ (mixed >> 27)).wrapping_mul(0x94D0_49BB_1331_11EB);
        mixed ^ (mixed >> 31)
    }

    /// A number below the bound, 0 for the bound 0.
    pub fn below(&mut self, bound: usize) -> usize {
        ((u128::from(self.bits()) * bound as u128) >> 64) as usize
    }

    /// A number from the first to the last, both included.
    pub fn between(&mut self, first: usize, last: usize) -> usize {
        first + self.below(last - first + 1)
    }

    /// True that many times in a hundred.
    pub fn percent(&mut self, times: usize) -> bool {
        self.below(100) < times
    }

    /// A byte.
    pub fn byte(&mut self) -> u8 {
        self.bits() as u8
    }

    /// A 16-bit number, small ones and edges more often.
    pub fn word(&mut self) -> u16 {
        match self.below(4) {
            0 => self.bits() as u16,
            1 => self.below(8) as u16,
            2 => u16::MAX - self.below(3) as u16,
            _ => self.below(300) as u16,
        }
    }

    /// Fills with bytes.
    pub fn fill(&mut self, bytes: &mut [u8]) {
        for byte in bytes {
            *byte = self.byte();
        }
    }
}

/// The most bytes that a line carries at once.
pub const CARRY_LIMIT: usize = 64;

/// What the line did with a reply.
#[derive(Clone, Copy, Debug, PartialEq, Eq)]
pub enum Fate {
    /// Delivered as it was.
    Delivered,
    /// Delivered with other bytes behind it.
    Padded,
    /// Lost: nothing comes.
    Lost,
    /// An earlier reply comes instead.
    Repeated,
    /// Only the beginning comes.
    Cut,
    /// Some bits are flipped.
    Flipped,
    /// Kept back; what was kept back before comes instead.
    Swapped,
    /// Other bytes come.
    Noise,
}

#[derive(Clone, Copy, Debug)]
struct Carried {
    bytes: [u8; CARRY_LIMIT],
    length: usize,
}

impl Carried {
    fn new(bytes: &[u8]) -> Self {
        let mut carried = Self { bytes: [0; CARRY_LIMIT], length: bytes.len().min(CARRY_LIMIT) };
        carried.bytes[..carried.length].copy_from_slice(&bytes[..carried.length]);
        carried
    }
}

/// A line that loses, repeats, cuts, flips and swaps replies.
#[derive(Clone, Debug)]
pub struct NoisyLine {
    random: Random,
    noise: usize,
    earlier: [Carried; 2],
    kept_back: Carried,
}

impl NoisyLine {
    /// A line that spoils about that many replies in a hundred.
    pub fn new(seed: u64, noise: usize) -> Self {
        Self { random: Random::new(seed), noise, earlier: [Carried::new(&[]); 2], kept_back: Carried::new(&[]) }
    }

    /// Carries a reply, or an empty slice where the display sent none. Gives
    /// what was done and the number of bytes that came.
    pub fn carry(&mut self, reply: &[u8], out: &mut [u8; CARRY_LIMIT]) -> (Fate, usize) {
        let random = &mut self.random;
        let mut sent = Carried::new(reply);
        let fate = if random.percent(self.noise) {
            [Fate::Lost, Fate::Repeated, Fate::Cut, Fate::Flipped, Fate::Swapped, Fate::Noise][random.below(6)]
        } else if random.percent(20) {
            Fate::Padded
        } else {
            Fate::Delivered
        };
        let original = sent;
        match fate {
            Fate::Delivered => {}
            Fate::Padded => {
                let length = random.between(sent.length, CARRY_LIMIT);
                random.fill(&mut sent.bytes[sent.length..length]);
                sent.length = length;
            }
            Fate::Lost => sent.length = 0,
            Fate::Repeated => sent = self.earlier[random.below(2)],
            Fate::Cut => sent.length = random.below(sent.length),
            Fate::Flipped => {
                for _ in 0..random.between(1, 3) {
                    if sent.length > 0 {
                        let at = random.below(sent.length);
                        sent.bytes[at] ^= 1 << random.below(8);
                    }
                }
            }
            Fate::Swapped => std::mem::swap(&mut sent, &mut self.kept_back),
            Fate::Noise => {
                sent.length = random.below(CARRY_LIMIT);
                let length = sent.length;
                random.fill(&mut sent.bytes[..length]);
            }
        }
        if original.length > 0 {
            self.earlier = [original, self.earlier[0]];
        }
        out[..sent.length].copy_from_slice(&sent.bytes[..sent.length]);
        (fate, sent.length)
    }
}
