//! Random values, thick around every boundary; the same for the same seed.

pub struct Rng(u64);

/// One past the largest integer.
pub const END: u64 = 1 << 62;
/// The number of version 2 (RFC 9369).
pub const VERSION_2: u32 = 0x6b33_43cf;

impl Rng {
    /// The values of one case: the same whichever other cases are made.
    pub fn new(seed: u64, case: u64) -> Self {
        let mut mixed = Self(seed);
        Self(mixed.bits() ^ case.wrapping_mul(0xd134_2543_de82_ef95))
    }

    /// splitmix64
    pub fn bits(&mut self) -> u64 {
        self.0 = self.0.wrapping_add(0x9e37_79b9_7f4a_7c15);
        let mut z = self.0;
        z = (z ^ (z >> 30)).wrapping_mul(0xbf58_476d_1ce4_e5b9);
        z = (z ^ (z >> 27)).wrapping_mul(0x94d0_49bb_1331_11eb);
        z ^ (z >> 31)
    }

    pub fn below(&mut self, n: u64) -> u64 {
        self.bits() % n
    }

    pub fn one_in(&mut self, n: u64) -> bool {
        self.below(n) == 0
    }

    pub fn pick<T: Copy>(&mut self, from: &[T]) -> T {
        from[self.below(from.len() as u64) as usize]
    }

    pub fn bytes(&mut self, n: usize) -> Vec<u8> {
        (0..n).map(|_| self.bits() as u8).collect()
    }

    /// Any number: small, within two of a power of two, of any magnitude.
    pub fn any(&mut self) -> u64 {
        match self.below(3) {
            0 => self.below(70),
            1 => {
                let e = self.pick(&[6, 7, 8, 14, 15, 16, 30, 31, 32, 60, 61, 62, 63]);
                (1 << e) + self.below(5) - 2
            }
            _ => {
                let shift = self.below(64);
                self.bits() >> shift
            }
        }
    }

    /// An integer as frames have it, of each size about as often.
    pub fn integer(&mut self) -> u64 {
        let ends = [1 << 6, 1 << 14, 1 << 30, END];
        let end = self.pick(&ends);
        match self.below(4) {
            0 => end - 1 - self.below(3),
            1 if end < END => end + self.below(3),
            _ => self.below(end),
        }
    }

    /// An integer in one of the forms that hold it, mostly the shortest.
    pub fn integer_form(&mut self) -> Vec<u8> {
        let x = self.integer();
        self.form(x)
    }

    /// This integer in one of the forms that hold it, mostly the shortest.
    pub fn form(&mut self, x: u64) -> Vec<u8> {
        let least = [1 << 6, 1 << 14, 1 << 30].iter().filter(|&&end| x >= end).count() as u64;
        let tag = if self.one_in(4) { least + self.below(4 - least) } else { least };
        let n = 1 << tag;
        let top = tag << 6 << (8 * (n - 1));
        (x | top).to_be_bytes()[8 - n..].to_vec()
    }

    /// A length: short, at times some hundreds, rarely thousands (three of them make a record that replay can hold).
    pub fn length(&mut self, short: u64) -> usize {
        let end = match self.below(20_000) {
            0 => 20_000,
            1..100 => 600,
            _ => short,
        };
        self.below(end) as usize
    }

    /// A number within two of n.
    pub fn near(&mut self, n: usize) -> usize {
        (n + self.below(5) as usize).saturating_sub(2)
    }

    /// A place in a slice of this length: inside, at its end, a little past it, anywhere at all.
    pub fn place(&mut self, len: usize) -> u64 {
        match self.below(8) {
            0 => len as u64,
            1 => len as u64 + 1 + self.below(3),
            2 if self.one_in(3) => self.any(),
            2 if self.one_in(2) => u64::MAX - self.below(4),
            _ => self.below(len as u64 + 1),
        }
    }

    /// A copy that is cut, changed in a byte, or neither.
    pub fn damaged(&mut self, mut b: Vec<u8>) -> Vec<u8> {
        if self.one_in(4) {
            b.truncate(self.below(b.len() as u64 + 1) as usize);
        }
        if self.one_in(8) && !b.is_empty() {
            let at = self.below(b.len() as u64) as usize;
            b[at] = self.bits() as u8;
        }
        b
    }
}
