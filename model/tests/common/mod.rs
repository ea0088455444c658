//! Talking to a chip by bytes, for the tests.
#![allow(dead_code)]

use ds2505_model::bits::{bits_of, bits_of_byte, byte_of};
use ds2505_model::chip::{Chip, Event};
use ds2505_model::memory::{blank_image, DATA_LENGTH};

pub const NUMBER: [u8; 8] = [0x0B, 0x11, 0x22, 0x33, 0x44, 0x55, 0x66, 0x77];

pub fn chip_with(image: Vec<u8>) -> Chip {
    Chip::power_up(NUMBER, image).unwrap()
}

pub fn blank_chip() -> Chip {
    chip_with(blank_image())
}

/// The place in the image of a status address.
pub fn status(address: usize) -> usize {
    DATA_LENGTH + address
}

/// The place in the image of a page's redirection byte.
pub fn redirection(page: usize) -> usize {
    status(0x100 + page)
}

/// Clears the bit of a page in the field that begins at a status address.
pub fn clear_bit(image: &mut [u8], field: usize, page: usize) {
    image[status(field + page / 8)] &= !(1u8 << (page % 8));
}

/// Sends bits while the chip is taking, when the line shows what is sent.
pub fn send_bits(chip: &mut Chip, bits: &[bool]) {
    for &bit in bits {
        assert_eq!(chip.event(Event::Slot(bit)), bit);
    }
}

pub fn send(chip: &mut Chip, bytes: &[u8]) {
    send_bits(chip, &bits_of(bytes));
}

pub fn read_byte(chip: &mut Chip) -> u8 {
    let bits: Vec<bool> = (0..8).map(|_| chip.event(Event::Slot(true))).collect();
    byte_of(&bits)
}

pub fn read(chip: &mut Chip, count: usize) -> Vec<u8> {
    (0..count).map(|_| read_byte(chip)).collect()
}

/// Reset, Skip ROM and the given bytes.
pub fn begin(chip: &mut Chip, bytes: &[u8]) {
    assert!(!chip.event(Event::Reset));
    send(chip, &[0xCC]);
    send(chip, bytes);
}

pub fn assert_silent(chip: &mut Chip) {
    let image = chip.image.clone();
    for byte in [0x33, 0xCC, 0x00, 0xF0, 0xFF] {
        send_bits(chip, &bits_of_byte(byte));
        assert!(chip.event(Event::Pulse));
    }
    assert_eq!(read(chip, 40), [0xFF; 40]);
    assert_eq!(chip.image, image);
}
