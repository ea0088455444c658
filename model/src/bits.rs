//! Bytes as bits and back. Every byte on the line goes least significant bit
//! first, so every list of bits here is in that order.

/// The eight bits of a byte, least significant first.
pub fn bits_of_byte(byte: u8) -> [bool; 8] {
    let mut bits = [false; 8];
    let mut rest = byte;
    for bit in &mut bits {
        *bit = rest % 2 == 1;
        rest /= 2;
    }
    bits
}

/// All bits of some bytes, in the order in which they go over the line.
pub fn bits_of(bytes: &[u8]) -> Vec<bool> {
    bytes.iter().flat_map(|&byte| bits_of_byte(byte)).collect()
}

/// The byte that eight bits make. Panics if there are not eight.
pub fn byte_of(bits: &[bool]) -> u8 {
    assert_eq!(bits.len(), 8, "a byte has eight bits");
    let mut byte = 0;
    let mut weight = 1u16;
    for &bit in bits {
        if bit {
            byte += weight;
        }
        weight *= 2;
    }
    byte as u8
}

/// The bytes that a list of bits makes. Panics if bits are left over.
pub fn bytes_of(bits: &[bool]) -> Vec<u8> {
    bits.chunks(8).map(byte_of).collect()
}

/// The two bytes of an address as they are sent: low byte, then high byte.
pub fn low_high(number: u16) -> [u8; 2] {
    [(number % 256) as u8, (number / 256) as u8]
}
