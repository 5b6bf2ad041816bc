//! DIVF's quotient, for a step and for the ends of its range.

/// The nearest whole number to i / o, a half going up; o is not 0. The rest is compared with what it lacks to o, so
/// that nothing is doubled, and numbers of 32 bits are divided in 32 bits.
#[inline]
pub fn nearest(i: u64, o: u64) -> u64 {
    let rest = i % o;
    i / o + u64::from(rest >= o - rest)
}

#[cfg(test)]
mod tests {
    use super::*;

    #[test]
    fn every_remainder() {
        for o in 1..=40 {
            for i in 0..=200 {
                assert_eq!(nearest(i, o), (2 * i + o) / (2 * o), "{i} by {o}");
            }
        }
    }

    #[test]
    fn the_greatest_numbers() {
        const MAX: u64 = u32::MAX as u64;
        assert_eq!(nearest(MAX, 1), MAX);
        assert_eq!(nearest(MAX, 2), 1 << 31);
        assert_eq!(nearest(MAX, MAX), 1);
        assert_eq!(nearest((MAX - 1) / 2, MAX), 0);
        assert_eq!(nearest(MAX.div_ceil(2), MAX), 1);
        assert_eq!(nearest(u64::MAX, u64::MAX), 1);
        assert_eq!(nearest(u64::MAX, 1), u64::MAX);
    }
}
