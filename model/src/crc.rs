//! The two CRCs, as remainders of a division of polynomials over two elements.
//!
//! `coefficient[k]` belongs to x^k. Taking in a bit multiplies the remainder
//! by x, adds the bit times x to the degree, and divides again.
//!
//! A remainder is written as a number with the highest power in bit 0. That
//! is the end that leaves the register first, and a number goes over the line
//! least significant bit first.

use crate::bits::{bits_of_byte, low_high};

/// The powers below x^16 in x^16 + x^15 + x^2 + 1.
const LOWER_POWERS_16: [usize; 3] = [15, 2, 0];

/// The powers below x^8 in x^8 + x^5 + x^4 + 1.
const LOWER_POWERS_8: [usize; 3] = [5, 4, 0];

fn take_bit(coefficient: &mut [bool], lower_powers: &[usize], bit: bool) {
    let degree = coefficient.len();
    let overflow = coefficient[degree - 1] != bit;
    for power in (1..degree).rev() {
        coefficient[power] = coefficient[power - 1];
    }
    coefficient[0] = false;
    if overflow {
        for &power in lower_powers {
            coefficient[power] = !coefficient[power];
        }
    }
}

/// The CRC-16 generator.
#[derive(Clone, Debug, PartialEq, Eq)]
pub struct Crc16 {
    coefficient: [bool; 16],
}

impl Crc16 {
    /// The generator with all zeroes in it.
    pub fn cleared() -> Crc16 {
        Crc16 {
            coefficient: [false; 16],
        }
    }

    /// The generator after a number was put into it without shifting.
    pub fn loaded(number: u16) -> Crc16 {
        let mut generator = Crc16::cleared();
        for place in 0..16 {
            generator.coefficient[15 - place] = (number >> place) & 1 == 1;
        }
        generator
    }

    pub fn take_bit(&mut self, bit: bool) {
        take_bit(&mut self.coefficient, &LOWER_POWERS_16, bit);
    }

    pub fn take_byte(&mut self, byte: u8) {
        for bit in bits_of_byte(byte) {
            self.take_bit(bit);
        }
    }

    pub fn take_bytes(&mut self, bytes: &[u8]) {
        for &byte in bytes {
            self.take_byte(byte);
        }
    }

    /// What the register holds, not complemented.
    pub fn number(&self) -> u16 {
        let mut number = 0;
        for place in 0..16 {
            if self.coefficient[15 - place] {
                number |= 1 << place;
            }
        }
        number
    }

    /// The two bytes that go over the line: complemented, low byte first.
    pub fn sent(&self) -> [u8; 2] {
        low_high(!self.number())
    }
}

/// The CRC-16 of some bytes from a cleared generator, not complemented.
pub fn crc16(bytes: &[u8]) -> u16 {
    let mut generator = Crc16::cleared();
    generator.take_bytes(bytes);
    generator.number()
}

/// The two bytes sent as the CRC-16 of some bytes.
pub fn crc16_sent(bytes: &[u8]) -> [u8; 2] {
    let mut generator = Crc16::cleared();
    generator.take_bytes(bytes);
    generator.sent()
}

/// The two bytes sent as the CRC-16 of one byte that was taken in after an
/// address had been loaded.
pub fn crc16_sent_after_loading(address: u16, byte: u8) -> [u8; 2] {
    let mut generator = Crc16::loaded(address);
    generator.take_byte(byte);
    generator.sent()
}

/// The CRC-8 of some bytes from a cleared generator.
pub fn crc8(bytes: &[u8]) -> u8 {
    let mut coefficient = [false; 8];
    for &byte in bytes {
        for bit in bits_of_byte(byte) {
            take_bit(&mut coefficient, &LOWER_POWERS_8, bit);
        }
    }
    let mut number = 0;
    for place in 0..8 {
        if coefficient[7 - place] {
            number |= 1 << place;
        }
    }
    number
}
