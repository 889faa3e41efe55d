//! The check octets: CRC-CCITT.

/// "generator x^16 + x^12 + x^5 + 1, lowest bit first, preset FFFF": what the octets leave in the register.
pub fn left_by(octets: &[u8]) -> u16 {
    // Lowest bit first, the generator's x^12, x^5 and 1 stand at bits 3, 10 and 15.
    const GENERATOR: u16 = 1 << 3 | 1 << 10 | 1 << 15;
    let bits = octets.iter().flat_map(|octet| (0..8).map(move |i| u16::from(*octet >> i & 1)));
    bits.fold(0xFFFF, |register, bit| {
        let falls_out = (register ^ bit) & 1 == 1;
        register >> 1 ^ if falls_out { GENERATOR } else { 0 }
    })
}

/// "a good unit leaves F0B8".
pub fn is_right(octets: &[u8]) -> bool {
    left_by(octets) == 0xF0B8
}

/// "two check octets (the complement, low octet first)".
pub fn check_octets(content: &[u8]) -> [u8; 2] {
    (!left_by(content)).to_le_bytes()
}

#[cfg(test)]
mod tests {
    use super::*;

    #[test]
    fn known_value_of_the_nine_digits() {
        assert_eq!(check_octets(b"123456789"), 0x906Eu16.to_le_bytes());
    }

    #[test]
    fn a_unit_with_its_check_octets_is_right() {
        for length in 0..300usize {
            let mut unit: Vec<u8> = (0..length).map(|i| (i * i * 7 + length) as u8).collect();
            unit.extend(check_octets(&unit.clone()));
            assert!(is_right(&unit));
            unit[length / 2] ^= 0x10;
            assert!(!is_right(&unit));
        }
    }
}
