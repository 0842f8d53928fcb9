//! The driver's generator: splitmix64 in sequence. Only whole-number arithmetic and exact steps to floats, so
//! that a number gives the same file on every machine.

const GOLDEN: u64 = 0x9E37_79B9_7F4A_7C15;

/// splitmix64 of one number: document 01's hash before its last shift and division.
pub fn splitmix(index: u64) -> u64 {
    let mut z = index.wrapping_add(GOLDEN);
    z = (z ^ (z >> 30)).wrapping_mul(0xBF58_476D_1CE4_E5B9);
    z = (z ^ (z >> 27)).wrapping_mul(0x94D0_49BB_1331_11EB);
    z ^ (z >> 31)
}

/// The top 53 bits as a fraction in [0, 1); exact.
pub fn fraction(bits: u64) -> f64 {
    (bits >> 11) as f64 / (1u64 << 53) as f64
}

pub struct Rng {
    state: u64,
}

impl Rng {
    pub fn new(number: u64) -> Self {
        Self { state: number }
    }

    pub fn next(&mut self) -> u64 {
        let out = splitmix(self.state);
        self.state = self.state.wrapping_add(GOLDEN);
        out
    }

    /// A number below `most`; 0 if `most` is 0.
    pub fn below(&mut self, most: usize) -> usize {
        if most == 0 { 0 } else { (self.next() % most as u64) as usize }
    }

    /// A number from `low` to `high`, both included.
    pub fn between(&mut self, low: usize, high: usize) -> usize {
        low + self.below(high.saturating_sub(low) + 1)
    }

    /// In (0, 1].
    pub fn weight(&mut self) -> f64 {
        1.0 - fraction(self.next())
    }

    /// In [-1, 1).
    pub fn signed(&mut self) -> f64 {
        2.0 * fraction(self.next()) - 1.0
    }

    /// True once in `among`.
    pub fn once_in(&mut self, among: usize) -> bool {
        self.below(among) == 0
    }

    pub fn pick<T: Copy>(&mut self, from: &[T]) -> T {
        from[self.below(from.len())]
    }

    /// Two to the power of `low` to `high`, subnormals included; built from bits because a power function may round.
    pub fn power_of_two(&mut self, low: i32, high: i32) -> f64 {
        let span = (high - low) as usize;
        power_of_two(low + self.below(span + 1) as i32)
    }

    /// Fisher and Yates.
    pub fn shuffle<T>(&mut self, list: &mut [T]) {
        for i in (1..list.len()).rev() {
            list.swap(i, self.below(i + 1));
        }
    }
}

/// Two to the power `e`, `e` from -1074 to 1023.
pub fn power_of_two(e: i32) -> f64 {
    if e >= -1022 { f64::from_bits(((e + 1023) as u64) << 52) } else { f64::from_bits(1u64 << (e + 1074)) }
}

#[cfg(test)]
mod tests {
    use super::*;

    #[test]
    fn powers_are_exact() {
        assert_eq!(power_of_two(0), 1.0);
        assert_eq!(power_of_two(-1074), f64::from_bits(1));
        assert_eq!(power_of_two(-1022), f64::MIN_POSITIVE);
        assert_eq!(power_of_two(1023), f64::MAX / (2.0 - f64::EPSILON));
    }

    #[test]
    fn the_hash_is_document_000s() {
        for index in [0, 1, 61, u64::MAX, 0x61C8_8646_80B5_83EB] {
            assert_eq!(fraction(splitmix(index)) - 0.5, judge::kernels::splitmix_unit(index));
        }
        // Document 01, number 1.
        assert_eq!(fraction(splitmix(0x61C8_8646_80B5_83EB)) - 0.5, -0.5);
    }
}
