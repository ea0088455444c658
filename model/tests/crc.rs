//! The CRCs against published values and against a shift register.

use ds2505_model::crc::{crc16, crc16_sent, crc16_sent_after_loading, crc8, Crc16};
use ds2505_model::random::Generator;

/// The usual right-shifting register, as a second way to the same number.
fn shifted_16(start: u16, bytes: &[u8]) -> u16 {
    let mut register = start;
    for &byte in bytes {
        register ^= u16::from(byte);
        for _ in 0..8 {
            let out = register & 1;
            register >>= 1;
            if out == 1 {
                register ^= 0xA001;
            }
        }
    }
    register
}

fn shifted_8(bytes: &[u8]) -> u8 {
    let mut register = 0u8;
    for &byte in bytes {
        register ^= byte;
        for _ in 0..8 {
            let out = register & 1;
            register >>= 1;
            if out == 1 {
                register ^= 0x8C;
            }
        }
    }
    register
}

#[test]
fn published_crc8() {
    assert_eq!(crc8(&[0x02, 0x1C, 0xB8, 0x01, 0x00, 0x00, 0x00]), 0xA2);
    // Shifting in the CRC as well leaves zero.
    assert_eq!(crc8(&[0x02, 0x1C, 0xB8, 0x01, 0x00, 0x00, 0x00, 0xA2]), 0);
    assert_eq!(crc8(&[0; 7]), 0);
}

#[test]
fn published_crc16() {
    let mut generator = Crc16::loaded(0x90F1);
    generator.take_byte(0x75);
    assert_eq!(generator.number(), 0x6390);

    assert_eq!(crc16(b"123456789"), 0xBB3D);
    assert_eq!(crc16_sent(b"123456789"), [0xC2, 0x44]);
    assert_eq!(u16::from_le_bytes(crc16_sent(b"123456789")), 0x44C2);
}

#[test]
fn crc16_of_nothing() {
    assert_eq!(crc16_sent(&[]), [0xFF, 0xFF]);
}

#[test]
fn crc16_with_its_complement_leaves_a_constant() {
    let mut generator = Generator::new(1);
    for length in 0..40 {
        let mut bytes: Vec<u8> = (0..length).map(|_| generator.byte()).collect();
        bytes.extend(crc16_sent(&bytes));
        assert_eq!(crc16(&bytes), 0xB001);
    }
}

#[test]
fn both_ways_agree() {
    let mut generator = Generator::new(2);
    for _ in 0..5000 {
        let length = generator.below(50);
        let bytes: Vec<u8> = (0..length).map(|_| generator.byte()).collect();
        assert_eq!(crc16(&bytes), shifted_16(0, &bytes));
        assert_eq!(crc8(&bytes), shifted_8(&bytes));
    }
}

#[test]
fn loading_is_not_shifting() {
    for number in 0..=0xFFFF {
        let loaded = Crc16::loaded(number);
        assert_eq!(loaded.number(), number);
    }
    for address in 0..0x800u16 {
        for byte in [0x00, 0x5A, 0xFF] {
            let sent = crc16_sent_after_loading(address, byte);
            assert_eq!(u16::from_le_bytes(sent), !shifted_16(address, &[byte]));
        }
    }
    let shifted = crc16_sent(&[0x01, 0x02, 0x5A]);
    assert_ne!(crc16_sent_after_loading(0x0201, 0x5A), shifted);
}

/// The table that Application Note 27 prints for its CRC-8 program.
const PUBLISHED_CRC8: [u8; 256] = [
    0, 94, 188, 226, 97, 63, 221, 131, 194, 156, 126, 32, 163, 253, 31, 65, //
    157, 195, 33, 127, 252, 162, 64, 30, 95, 1, 227, 189, 62, 96, 130, 220, //
    35, 125, 159, 193, 66, 28, 254, 160, 225, 191, 93, 3, 128, 222, 60, 98, //
    190, 224, 2, 92, 223, 129, 99, 61, 124, 34, 192, 158, 29, 67, 161, 255, //
    70, 24, 250, 164, 39, 121, 155, 197, 132, 218, 56, 102, 229, 187, 89, 7, //
    219, 133, 103, 57, 186, 228, 6, 88, 25, 71, 165, 251, 120, 38, 196, 154, //
    101, 59, 217, 135, 4, 90, 184, 230, 167, 249, 27, 69, 198, 152, 122, 36, //
    248, 166, 68, 26, 153, 199, 37, 123, 58, 100, 134, 216, 91, 5, 231, 185, //
    140, 210, 48, 110, 237, 179, 81, 15, 78, 16, 242, 172, 47, 113, 147, 205, //
    17, 79, 173, 243, 112, 46, 204, 146, 211, 141, 111, 49, 178, 236, 14, 80, //
    175, 241, 19, 77, 206, 144, 114, 44, 109, 51, 209, 143, 12, 82, 176, 238, //
    50, 108, 142, 208, 83, 13, 239, 177, 240, 174, 76, 18, 145, 207, 45, 115, //
    202, 148, 118, 40, 171, 245, 23, 73, 8, 86, 180, 234, 105, 55, 213, 139, //
    87, 9, 235, 181, 54, 104, 138, 212, 149, 203, 41, 119, 244, 170, 72, 22, //
    233, 183, 85, 11, 136, 214, 52, 106, 43, 117, 151, 201, 74, 20, 246, 168, //
    116, 42, 200, 150, 21, 75, 169, 247, 182, 232, 10, 84, 215, 137, 107, 53,
];

#[test]
fn crc8_of_each_byte_is_as_published() {
    for (byte, &published) in (0..=255).zip(&PUBLISHED_CRC8) {
        assert_eq!(crc8(&[byte]), published);
    }
}
