//! The stamp, the users' word for the checksum of a text: a polynomial in 31 over the weights of
//! its bytes, modulo 2 to the 32.

/// The weight of a byte, by the rule of the module book.
pub fn weight(byte: u8) -> u32 {
    (40_503 * u32::from(byte) + 12_345) % 65_536
}

/// The stamp of a text.
pub fn stamp(text: &[u8]) -> u32 {
    from(0, text)
}

/// The stamp that `sum` becomes over a further text: pieces one after the other give the whole's.
pub fn from(sum: u32, text: &[u8]) -> u32 {
    text.iter().fold(sum, |sum, &byte| sum.wrapping_mul(31).wrapping_add(weight(byte)))
}

#[cfg(test)]
mod tests {
    use super::*;

    #[test]
    fn printed_weights() {
        let weights = [0, 1, 2, 255].map(weight);
        assert_eq!(weights, [12_345, 52_848, 27_815, 51_458]);
    }

    #[test]
    fn printed_stamps() {
        assert_eq!(stamp(b""), 0);
        assert_eq!(stamp(b"0"), 55_945);
        assert_eq!(stamp(b"0\n"), 1_758_454);
        assert_eq!(from(stamp(b"0"), b"\n"), 1_758_454);
    }

    #[test]
    fn sums_past_the_top_start_again_from_zero() {
        assert_eq!(from(u32::MAX, b"\0"), 12_345 - 31);
    }
}
