//! A tray of plugs to read.

use ds2505_model::memory::{blank_image, DATA_LENGTH, PAGE_COUNT, REDIRECTION, USED_BITMAP};
use ds2505_model::random::Generator;

pub const PLUGS: usize = 100;

/// How many pages a plug has.
pub const PAGES: u8 = PAGE_COUNT as u8;

/// Page `old` is superseded by page `new`.
fn supersede(image: &mut [u8], old: usize, new: usize) {
    image[DATA_LENGTH + usize::from(REDIRECTION) + old] = 255 - new as u8;
    image[DATA_LENGTH + usize::from(USED_BITMAP) + new / 8] &= !(1 << (new % 8));
}

/// The images of all plugs. Each has values on every page; some of the pages 1
/// to 20 are superseded by pages 21 to 40, and some of these by pages 41 to 60.
pub fn images() -> Vec<Vec<u8>> {
    let mut generator = Generator::new(4);
    let mut plug = |_| {
        let mut image = blank_image();
        for byte in &mut image[..DATA_LENGTH] {
            *byte = generator.byte();
        }
        for page in 1..=20 {
            if generator.once_in(2) {
                supersede(&mut image, page, page + 20);
                if generator.once_in(2) {
                    supersede(&mut image, page + 20, page + 40);
                }
            }
        }
        image
    };
    (0..PLUGS).map(&mut plug).collect()
}
