//! Where the driver's choices come from: drawn from a seed, or read from bytes that a fuzzer made.

/// A source of numbers.
pub enum Source<'a> {
    /// The state of a drawn sequence.
    Drawn(u64),
    /// The bytes that are left; after them it gives 0.
    Read(&'a [u8]),
}

impl Source<'_> {
    /// The sequence of one input of a run.
    pub fn drawn(seed: u64, input: u64) -> Source<'static> {
        let mut mixed = Source::Drawn(seed ^ input.wrapping_mul(0xD1B5_4A32_D192_ED03));
        let state = mixed.draw() ^ seed.rotate_left(32);
        Source::Drawn(state)
    }

    /// The next 64 bits of a drawn sequence: a counter, its bits mixed twice.
    fn draw(&mut self) -> u64 {
        let Source::Drawn(state) = self else { return 0 };
        *state = state.wrapping_add(0x9E37_79B9_7F4A_7C15);
        let mut bits = *state;
        bits = (bits ^ (bits >> 30)).wrapping_mul(0xBF58_476D_1CE4_E5B9);
        bits = (bits ^ (bits >> 27)).wrapping_mul(0x94D0_49BB_1331_11EB);
        bits ^ (bits >> 31)
    }

    /// The next number of so many bytes, 1 to 4.
    fn number(&mut self, bytes: usize) -> u32 {
        if let Source::Read(rest) = self {
            let (now, later) = rest.split_at(bytes.min(rest.len()));
            *rest = later;
            return now.iter().rev().fold(0, |sum, &byte| sum << 8 | u32::from(byte));
        }
        (self.draw() >> (64 - 8 * bytes)) as u32
    }

    /// Is nothing left to read?
    pub fn ended(&self) -> bool {
        matches!(self, Source::Read([]))
    }

    /// Any word.
    pub fn word(&mut self) -> u32 {
        self.number(4)
    }

    /// A number below a bound above 0.
    pub fn below(&mut self, bound: usize) -> usize {
        let bytes = match bound {
            0..=256 => 1,
            257..=65536 => 2,
            _ => 4,
        };
        self.number(bytes) as usize % bound
    }

    /// A number from low to high, both among them.
    pub fn within(&mut self, low: usize, high: usize) -> usize {
        low + self.below(high - low + 1)
    }

    /// Yes, once in so many.
    pub fn once_in(&mut self, many: usize) -> bool {
        self.below(many) == many - 1
    }

    /// One of some things.
    pub fn pick<T: Copy>(&mut self, of: &[T]) -> T {
        of[self.below(of.len())]
    }

    /// A word that is often near an edge.
    pub fn edgy(&mut self) -> u32 {
        match self.below(8) {
            0 => 0,
            1 => 1,
            2 => u32::MAX,
            3 => self.below(18) as u32,
            4 => self.below(600) as u32,
            5 => 1 << self.below(32),
            6 => u32::MAX - self.below(20) as u32,
            _ => self.word(),
        }
    }
}
