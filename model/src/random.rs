//! A small generator of numbers for tests, and images made with it.

use crate::memory::{
    blank_image, DATA_LENGTH, DATA_PROTECTION, IMAGE_LENGTH, REDIRECTION, REDIRECTION_PROTECTION,
    USED_BITMAP,
};

/// Xorshift with 64 bits. The same seed gives the same numbers.
#[derive(Clone, Debug)]
pub struct Generator {
    state: u64,
}

impl Generator {
    pub fn new(seed: u64) -> Generator {
        // The state 0 would stay 0.
        Generator {
            state: seed.wrapping_mul(0x9E37_79B9_7F4A_7C15) | 1,
        }
    }

    pub fn number(&mut self) -> u64 {
        self.state ^= self.state << 13;
        self.state ^= self.state >> 7;
        self.state ^= self.state << 17;
        self.state
    }

    /// A number from 0 to below the limit.
    pub fn below(&mut self, limit: u64) -> u64 {
        (self.number() >> 11) % limit
    }

    pub fn bit(&mut self) -> bool {
        self.below(2) == 1
    }

    /// True once in so many times.
    pub fn once_in(&mut self, times: u64) -> bool {
        self.below(times) == 0
    }

    pub fn byte(&mut self) -> u8 {
        self.below(256) as u8
    }

    pub fn bytes<const N: usize>(&mut self) -> [u8; N] {
        std::array::from_fn(|_| self.byte())
    }
}

/// An image in which every byte, gaps too, may be anything.
pub fn any_image(generator: &mut Generator) -> Vec<u8> {
    (0..IMAGE_LENGTH).map(|_| generator.byte()).collect()
}

/// An image like that of a chip in use: some pages written, some marked used,
/// some protected, some redirected inside or outside, anything in the gaps.
/// How common each is differs from image to image.
pub fn used_image(generator: &mut Generator) -> Vec<u8> {
    let mut image = blank_image();
    for place in &mut image[DATA_LENGTH..] {
        if generator.once_in(4) {
            *place = generator.byte();
        }
    }
    let written = 1 + generator.below(8);
    let marked = 1 + generator.below(8);
    let data_protected = 1 + generator.below(8);
    let redirection_protected = 1 + generator.below(16);
    let redirected = 1 + generator.below(6);
    let outside = 2 + generator.below(30);
    for field in [DATA_PROTECTION, REDIRECTION_PROTECTION, USED_BITMAP] {
        let start = DATA_LENGTH + usize::from(field);
        image[start..start + 8].fill(0xFF);
    }
    for page in 0..64usize {
        let mut clear_bit = |field: u16| {
            image[DATA_LENGTH + usize::from(field) + page / 8] &= !(1 << (page % 8));
        };
        if generator.once_in(marked) {
            clear_bit(USED_BITMAP);
        }
        if generator.once_in(data_protected) {
            clear_bit(DATA_PROTECTION);
        }
        if generator.once_in(redirection_protected) {
            clear_bit(REDIRECTION_PROTECTION);
        }
        let byte = if !generator.once_in(redirected) {
            0xFF
        } else if generator.once_in(outside) {
            generator.below(192) as u8
        } else {
            255 - (1 + generator.below(63)) as u8
        };
        image[DATA_LENGTH + usize::from(REDIRECTION) + page] = byte;
        if generator.once_in(written) {
            for byte in &mut image[32 * page..32 * page + 32] {
                *byte = generator.byte();
            }
        }
    }
    image
}

/// A blank image in which the pages in the list lead each to the next.
pub fn chain_image(pages: &[u8]) -> Vec<u8> {
    let mut image = blank_image();
    for pair in pages.windows(2) {
        image[DATA_LENGTH + usize::from(REDIRECTION) + usize::from(pair[0])] = 255 - pair[1];
    }
    image
}
