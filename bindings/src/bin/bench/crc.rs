//! Three programs for the CRC-16 in Rust, none of them with a table of its
//! own.

use std::hint::black_box;

const POLYNOMIAL: u16 = 0xA001;

/// The plain loop: the byte into the register, then eight shifts. Recent LLVM
/// knows this loop and makes a table of it by itself.
pub fn plain(mut register: u16, bytes: &[u8]) -> u16 {
    for &byte in bytes {
        register ^= u16::from(byte);
        for _ in 0..8 {
            register = if register & 1 == 1 {
                (register >> 1) ^ POLYNOMIAL
            } else {
                register >> 1
            };
        }
    }
    register
}

/// A bit at a time, as on the bus: the register's low bit against the data
/// bit.
pub fn serial(mut register: u16, bytes: &[u8]) -> u16 {
    for &byte in bytes {
        for place in 0..8 {
            let bit = u16::from(byte >> place & 1);
            let turned = (register ^ bit) & 1 == 1;
            register >>= 1;
            if turned {
                register ^= POLYNOMIAL;
            }
        }
    }
    register
}

/// The plain loop with that idiom switched off: the polynomial comes out of
/// `black_box` once for each buffer, so that the compiler does not know it and
/// can make no table. The loop itself has nothing in it that slows it down.
pub fn plain_without_idiom(mut register: u16, bytes: &[u8]) -> u16 {
    let polynomial = black_box(POLYNOMIAL);
    for &byte in bytes {
        register ^= u16::from(byte);
        for _ in 0..8 {
            register = if register & 1 == 1 {
                (register >> 1) ^ polynomial
            } else {
                register >> 1
            };
        }
    }
    register
}
