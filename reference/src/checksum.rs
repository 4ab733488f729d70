//! The checksum (01, "Octets").

/// Where the header keeps the checksum: the third 16-bit word.
const FIELD_WORD: usize = 2;

/// "Complement of the one's complement sum of 16-bit words, its field taken as 0, an odd last
/// octet paired with a zero."
pub fn checksum(octets: &[u8]) -> u16 {
    let sum = octets
        .chunks(2)
        .enumerate()
        .filter(|(index, _)| *index != FIELD_WORD)
        .map(|(_, pair)| u16::from_be_bytes([pair[0], pair.get(1).copied().unwrap_or(0)]))
        .fold(0, ones_complement_add);
    !sum
}

/// Addition with the carry brought round to the low end.
fn ones_complement_add(left: u16, right: u16) -> u16 {
    let (sum, carry) = left.overflowing_add(right);
    sum + u16::from(carry)
}

/// Puts the right checksum into the field of a message that has one.
pub fn seal(octets: &mut [u8]) {
    let value = checksum(octets);
    octets[4..6].copy_from_slice(&value.to_be_bytes());
}

#[cfg(test)]
mod tests {
    use super::*;

    #[test]
    fn carry_comes_round() {
        assert_eq!(ones_complement_add(0xFFFF, 0x0001), 0x0001);
        assert_eq!(ones_complement_add(0xFFFF, 0xFFFF), 0xFFFF);
        assert_eq!(ones_complement_add(0x8000, 0x8000), 0x0001);
        assert_eq!(ones_complement_add(0, 0), 0);
    }

    #[test]
    fn field_is_taken_as_zero() {
        let mut octets = [2, 5, 0, 2, 0, 0, 0, 7, 0, 1];
        let bare = checksum(&octets);
        octets[4] = 0xAB;
        octets[5] = 0xCD;
        assert_eq!(checksum(&octets), bare);
        assert_eq!(bare, 0xFDF0);
    }

    #[test]
    fn odd_octet_is_the_high_half() {
        assert_eq!(checksum(&[0x12]), !0x1200);
        assert_eq!(checksum(&[0, 0, 0, 0, 0xFF, 0xFF, 0x12]), !0x1200);
    }

    #[test]
    fn short_slices_have_a_sum_too() {
        assert_eq!(checksum(&[]), 0xFFFF);
        assert_eq!(checksum(&[1, 2, 3]), !(0x0102 + 0x0300));
        assert_eq!(checksum(&[1, 2, 3, 4, 9]), !(0x0102 + 0x0304));
    }

    #[test]
    fn longest_message_of_all_ones() {
        // 1,023 words of FFFF besides the field: the one's complement sum stays FFFF.
        assert_eq!(checksum(&[0xFF; 2048]), 0x0000);
    }

    #[test]
    fn seal_makes_the_field_right() {
        let mut octets = vec![2, 3, 0, 0, 0, 0, 0, 7, 0, 0, 0, 0x1E, 0, 0x78];
        seal(&mut octets);
        assert_eq!(&octets[4..6], &[0xFD, 0x5F]);
    }
}
