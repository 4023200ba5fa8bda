//! The numbers of 1-RTT packets that are skipped (RFC 9000, 21.4), as a generator of PCG XSH RR 64/32 draws them.

const MULTIPLIER: u64 = 6_364_136_223_846_793_005;

/// The word of a state.
fn word(state: u64) -> u32 {
    let shifted = ((state >> 18) ^ state) >> 27;
    (shifted as u32).rotate_right((state >> 59) as u32)
}

struct Pcg {
    state: u64,
    increment: u64,
}

impl Pcg {
    /// Its 16 bytes are four words of another such generator, of one increment for all seeds.
    fn new(mut seed: u64) -> Self {
        let mut half = || {
            seed = seed.wrapping_mul(MULTIPLIER).wrapping_add(11_634_580_027_462_260_723);
            u64::from(word(seed))
        };
        let state = half() | half() << 32;
        let increment = half() | half() << 32 | 1;
        let state = state.wrapping_add(increment).wrapping_mul(MULTIPLIER).wrapping_add(increment);
        Pcg { state, increment }
    }

    fn next(&mut self) -> u64 {
        let mut half = || {
            let found = word(self.state);
            self.state = self.state.wrapping_mul(MULTIPLIER).wrapping_add(self.increment);
            u64::from(found)
        };
        half() | half() << 32
    }

    /// From low on, below high: the upper half of a product, to which a second word may carry.
    fn draw(&mut self, low: u64, high: u64) -> u64 {
        let range = high - low;
        let product = u128::from(self.next()) * u128::from(range);
        let (above, below) = ((product >> 64) as u64, product as u64);
        let carries = below > range.wrapping_neg() && {
            let second = u128::from(self.next()) * u128::from(range);
            below.checked_add((second >> 64) as u64).is_none()
        };
        low + above + u64::from(carries)
    }
}

/// The number that is skipped next, and the one that was skipped last.
pub struct Skips {
    words: Pcg,
    exponent: u32,
    pub next: u64,
    pub last: Option<u64>,
}

impl Skips {
    pub fn new(seed: u64) -> Self {
        let mut words = Pcg::new(seed);
        let next = words.draw(0, 64);
        Skips { words, exponent: 6, next, last: None }
    }

    /// The next one was skipped, and the number behind it given out.
    pub fn pass(&mut self) {
        self.last = Some(self.next);
        let low = (1 << self.exponent).max(self.next + 2);
        self.exponent += 1;
        self.next = self.words.draw(low, 1 << self.exponent);
    }
}
