//! Sequence numbers. SN counts modulo 64, PS and PR modulo 16; both moduli divide 256, so a
//! subtraction that wraps at 256 is right for both.

/// How far `to` is ahead of `from` on the link (SN).
#[inline]
pub fn link_distance(from: u8, to: u8) -> u8 {
    to.wrapping_sub(from) % 64
}

/// The SN after this one.
#[inline]
pub fn link_next(number: u8) -> u8 {
    number.wrapping_add(1) % 64
}

/// How far `to` is ahead of `from` in the flow window (PS, PR).
#[inline]
pub fn packet_distance(from: u8, to: u8) -> u8 {
    to.wrapping_sub(from) % 16
}

/// The PS after this one.
#[inline]
pub fn packet_next(number: u8) -> u8 {
    number.wrapping_add(1) % 16
}

#[cfg(test)]
mod tests {
    use super::*;

    #[test]
    fn distances_wrap() {
        assert_eq!(link_distance(62, 1), 3);
        assert_eq!(link_distance(1, 62), 61);
        assert_eq!(packet_distance(14, 1), 3);
        assert_eq!((link_next(63), packet_next(15)), (0, 0));
    }

    #[test]
    fn distances_agree_with_the_difference_modulo() {
        for from in 0..=255u8 {
            for to in 0..=255u8 {
                let true_difference = i32::from(to) - i32::from(from);
                assert_eq!(
                    i32::from(link_distance(from, to)),
                    true_difference.rem_euclid(64)
                );
                assert_eq!(
                    i32::from(packet_distance(from, to)),
                    true_difference.rem_euclid(16)
                );
            }
        }
    }
}
