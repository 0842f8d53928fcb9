//! Floats as the papers write them: 16 lower-case hex digits of the bits, every NaN alike.

use std::fmt::Write;

pub const NAN_BITS: u64 = 0x7ff8_0000_0000_0000;

/// The bits of `x`; compiled code may give a NaN any payload and sign, so one stands for all.
pub fn canonical(x: f64) -> u64 {
    if x.is_nan() { NAN_BITS } else { x.to_bits() }
}

/// Whether two lists have the same bits, a NaN being any NaN.
pub fn same(a: &[f64], b: &[f64]) -> bool {
    a.len() == b.len() && a.iter().zip(b).all(|(&x, &y)| canonical(x) == canonical(y))
}

/// Hex bits joined by commas.
pub fn join(numbers: &[f64]) -> String {
    let mut text = String::with_capacity(17 * numbers.len());
    for (i, &x) in numbers.iter().enumerate() {
        if i > 0 {
            text.push(',');
        }
        // Writing to a String cannot fail.
        let _ = write!(text, "{:016x}", canonical(x));
    }
    text
}

/// Exactly 16 lower-case hex digits.
pub fn parse(text: &str) -> Option<f64> {
    let digits = text.bytes().all(|b| matches!(b, b'0'..=b'9' | b'a'..=b'f'));
    if text.len() != 16 || !digits {
        return None;
    }
    u64::from_str_radix(text, 16).ok().map(f64::from_bits)
}

/// A list of such numbers joined by commas; the empty text is the empty list.
pub fn parse_list(text: &str) -> Option<Vec<f64>> {
    if text.is_empty() {
        return Some(Vec::new());
    }
    text.split(',').map(parse).collect()
}

/// FNV-1a, 64 bits, over the little-endian bytes of each number's canonical bits.
pub fn digest(numbers: &[f64]) -> u64 {
    let mut hash = 0xcbf2_9ce4_8422_2325_u64;
    for &x in numbers {
        for byte in canonical(x).to_le_bytes() {
            hash = (hash ^ u64::from(byte)).wrapping_mul(0x0000_0100_0000_01b3);
        }
    }
    hash
}

/// The `row=` lines of a seed.
pub fn rows(seed: &[f64], d: usize) -> String {
    seed.chunks(d).map(|row| format!("row={}\n", join(row))).collect()
}

#[cfg(test)]
mod tests {
    use super::*;

    #[test]
    fn every_nan_is_written_alike() {
        let odd = f64::from_bits(0xfff0_0000_0000_0001);
        assert_eq!(join(&[odd, -0.0, 1.0]), "7ff8000000000000,8000000000000000,3ff0000000000000");
    }

    #[test]
    fn zeros_of_either_sign_and_lengths_differ() {
        assert!(same(&[f64::NAN, 1.0], &[-f64::NAN, 1.0]));
        assert!(!same(&[0.0], &[-0.0]));
        assert!(!same(&[0.0], &[0.0, 0.0]));
    }

    #[test]
    fn only_sixteen_lower_case_digits_are_read() {
        assert_eq!(parse("3ff0000000000000"), Some(1.0));
        for bad in ["", "3ff000000000000", "3FF0000000000000", "+ff0000000000000", "3ff00000000000000"] {
            assert_eq!(parse(bad), None, "{bad:?}");
        }
    }

    #[test]
    fn digest_of_nothing_and_of_zero() {
        assert_eq!(digest(&[]), 0xcbf2_9ce4_8422_2325);
        // Eight zero bytes: the offset basis times the prime to the eighth.
        let prime: u64 = 0x0000_0100_0000_01b3;
        assert_eq!(digest(&[0.0]), 0xcbf2_9ce4_8422_2325_u64.wrapping_mul(prime.wrapping_pow(8)));
    }
}
