//! The image: where things are, what the gaps do, what the bits mean.
//!
//! Apart from `check_image`, functions that take an image expect it to have
//! been checked.

use crate::bits::bits_of;
use crate::refusal::{Reason, Refusal};

pub const PAGE_COUNT: usize = 64;
pub const PAGE_LENGTH: usize = 32;
pub const DATA_LENGTH: usize = PAGE_COUNT * PAGE_LENGTH;
pub const STATUS_LENGTH: usize = 320;
pub const IMAGE_LENGTH: usize = DATA_LENGTH + STATUS_LENGTH;

/// Where the three bit fields and the redirection bytes begin in status.
pub const DATA_PROTECTION: u16 = 0x000;
pub const REDIRECTION_PROTECTION: u16 = 0x020;
pub const USED_BITMAP: u16 = 0x040;
pub const REDIRECTION: u16 = 0x100;

/// The number of bytes in each bit field: one bit for each page.
const BIT_FIELD_LENGTH: u16 = 8;

/// The number of a page, 0 to 63.
#[derive(Clone, Copy, Debug, PartialEq, Eq, PartialOrd, Ord)]
pub struct Page(u8);

/// A byte at 100h to 13Fh.
#[derive(Clone, Copy, Debug, PartialEq, Eq)]
pub struct RedirectionByte(pub u8);

/// An address in data, 000h to 7FFh.
#[derive(Clone, Copy, Debug, PartialEq, Eq)]
pub struct DataAddress(u16);

/// An address in status, 000h to 13Fh.
#[derive(Clone, Copy, Debug, PartialEq, Eq)]
pub struct StatusAddress(u16);

/// What a status address is for.
#[derive(Clone, Copy, Debug, PartialEq, Eq)]
pub enum StatusMeaning {
    DataProtection,
    RedirectionProtection,
    UsedBitmap,
    Redirection(Page),
    Gap,
}

impl Page {
    pub fn new(number: u8) -> Option<Page> {
        if usize::from(number) < PAGE_COUNT {
            Some(Page(number))
        } else {
            None
        }
    }

    /// All pages, rising.
    pub fn all() -> impl Iterator<Item = Page> {
        (0..PAGE_COUNT as u8).map(Page)
    }

    pub fn number(self) -> u8 {
        self.0
    }

    pub fn first_address(self) -> DataAddress {
        DataAddress(u16::from(self.0) * PAGE_LENGTH as u16)
    }

    pub fn redirection_address(self) -> StatusAddress {
        StatusAddress(REDIRECTION + u16::from(self.0))
    }
}

impl RedirectionByte {
    /// The byte that names a page number.
    pub fn naming(page: Page) -> RedirectionByte {
        RedirectionByte(255 - page.0)
    }

    /// The number that this byte names, which may be above 63. None for FFh,
    /// which says that the page itself is valid.
    pub fn names(self) -> Option<u8> {
        if self.0 == 0xFF {
            None
        } else {
            Some(255 - self.0)
        }
    }
}

impl DataAddress {
    pub fn new(number: u16) -> Option<DataAddress> {
        if usize::from(number) < DATA_LENGTH {
            Some(DataAddress(number))
        } else {
            None
        }
    }

    pub fn number(self) -> u16 {
        self.0
    }

    pub fn page(self) -> Page {
        Page((self.0 / PAGE_LENGTH as u16) as u8)
    }

    pub fn next(self) -> Option<DataAddress> {
        DataAddress::new(self.0 + 1)
    }
}

impl StatusAddress {
    pub fn new(number: u16) -> Option<StatusAddress> {
        if usize::from(number) < STATUS_LENGTH {
            Some(StatusAddress(number))
        } else {
            None
        }
    }

    /// All status addresses, rising.
    pub fn all() -> impl Iterator<Item = StatusAddress> {
        (0..STATUS_LENGTH as u16).map(StatusAddress)
    }

    pub fn number(self) -> u16 {
        self.0
    }

    pub fn next(self) -> Option<StatusAddress> {
        StatusAddress::new(self.0 + 1)
    }

    pub fn meaning(self) -> StatusMeaning {
        match self.0 {
            0x000..=0x007 => StatusMeaning::DataProtection,
            0x020..=0x027 => StatusMeaning::RedirectionProtection,
            0x040..=0x047 => StatusMeaning::UsedBitmap,
            0x100..=0x13F => StatusMeaning::Redirection(Page((self.0 - REDIRECTION) as u8)),
            _ => StatusMeaning::Gap,
        }
    }

    /// The place of this address in the image.
    fn place(self) -> usize {
        DATA_LENGTH + usize::from(self.0)
    }
}

/// Refusal 1 unless the image has its length.
pub fn check_image(image: &[u8]) -> Result<(), Refusal> {
    if image.len() == IMAGE_LENGTH {
        Ok(())
    } else {
        Err(Refusal::without_state(Reason::ImageLength))
    }
}

/// Refusal 3 unless the number is that of a page.
pub fn check_page(number: u8) -> Result<Page, Refusal> {
    Page::new(number).ok_or(Refusal::without_state(Reason::PageNumber))
}

pub fn data_byte(image: &[u8], address: DataAddress) -> u8 {
    image[usize::from(address.0)]
}

/// A status byte as the chip reads it: FFh in a gap, whatever the image holds.
pub fn status_byte(image: &[u8], address: StatusAddress) -> u8 {
    if address.meaning() == StatusMeaning::Gap {
        0xFF
    } else {
        image[address.place()]
    }
}

/// The page's own 32 bytes.
pub fn page_bytes(image: &[u8], page: Page) -> &[u8] {
    let start = usize::from(page.first_address().0);
    &image[start..start + PAGE_LENGTH]
}

pub fn redirection_byte(image: &[u8], page: Page) -> RedirectionByte {
    RedirectionByte(status_byte(image, page.redirection_address()))
}

/// The bit of a page in one of the three bit fields: the field's 64 bits in
/// line order, counted from its first byte's least significant bit, have the
/// page's number as their place.
fn field_bit(image: &[u8], field: u16, page: Page) -> bool {
    let start = StatusAddress(field).place();
    let bits = bits_of(&image[start..start + usize::from(BIT_FIELD_LENGTH)]);
    bits[usize::from(page.0)]
}

pub fn data_protected(image: &[u8], page: Page) -> bool {
    !field_bit(image, DATA_PROTECTION, page)
}

pub fn redirection_protected(image: &[u8], page: Page) -> bool {
    !field_bit(image, REDIRECTION_PROTECTION, page)
}

pub fn marked_used(image: &[u8], page: Page) -> bool {
    !field_bit(image, USED_BITMAP, page)
}

/// What a pulse does to a data byte.
pub fn program_data(image: &mut [u8], address: DataAddress, byte: u8) {
    if !data_protected(image, address.page()) {
        image[usize::from(address.0)] &= byte;
    }
}

/// What a pulse does to a status byte.
pub fn program_status(image: &mut [u8], address: StatusAddress, byte: u8) {
    let allowed = match address.meaning() {
        StatusMeaning::Gap => false,
        StatusMeaning::Redirection(page) => !redirection_protected(image, page),
        StatusMeaning::DataProtection
        | StatusMeaning::RedirectionProtection
        | StatusMeaning::UsedBitmap => true,
    };
    if allowed {
        image[address.place()] &= byte;
    }
}

/// An image with every byte FFh, as of a chip never written to.
pub fn blank_image() -> Vec<u8> {
    vec![0xFF; IMAGE_LENGTH]
}
