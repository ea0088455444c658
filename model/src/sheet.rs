//! The stored sheet and the list of a stored chip.

use crate::free::{free_count, redirected_count, redirected_pages};
use crate::memory::{check_image, StatusAddress, StatusMeaning, DATA_LENGTH, IMAGE_LENGTH};
use crate::refusal::{Reason, Refusal};
use crate::walk::{walk, Final, Verdict};

const NUMBER_OFFSET: usize = 16;
const DATA_OFFSET: usize = 24;
const SHEET_LENGTH: usize = DATA_OFFSET + IMAGE_LENGTH;

/// What a sheet stores.
#[derive(Clone, Debug, PartialEq, Eq)]
pub struct Sheet {
    pub number: [u8; 8],
    pub image: Vec<u8>,
}

/// The sixteen bytes before the registration number: page count, where the
/// number, the data and the status begin, the total, and six zeroes.
fn header() -> Vec<u8> {
    let words: [u16; 5] = [64, 16, 24, 2072, 2392];
    let mut bytes: Vec<u8> = words.into_iter().flat_map(u16::to_le_bytes).collect();
    bytes.extend([0; 6]);
    bytes
}

fn gaps_are_blank(image: &[u8]) -> bool {
    StatusAddress::all()
        .filter(|address| address.meaning() == StatusMeaning::Gap)
        .all(|address| image[DATA_LENGTH + usize::from(address.number())] == 0xFF)
}

/// Reads a sheet. Refusal 12.
pub fn parse(bytes: &[u8]) -> Result<Sheet, Refusal> {
    let faulty = Refusal::without_state(Reason::Sheet);
    if bytes.len() != SHEET_LENGTH || bytes[..NUMBER_OFFSET] != header() {
        return Err(faulty);
    }
    let number = bytes[NUMBER_OFFSET..DATA_OFFSET]
        .try_into()
        .expect("the number has eight bytes");
    let image = bytes[DATA_OFFSET..].to_vec();
    if !gaps_are_blank(&image) {
        return Err(faulty);
    }
    Ok(Sheet { number, image })
}

/// Writes a sheet. Refusal 1 for the image's length, then 12 if a gap holds
/// something other than FFh, because the sheet would be faulty.
pub fn write(number: [u8; 8], image: &[u8]) -> Result<Vec<u8>, Refusal> {
    check_image(image)?;
    if !gaps_are_blank(image) {
        return Err(Refusal::without_state(Reason::Sheet));
    }
    Ok([&header()[..], &number, image].concat())
}

/// The list of an image. Refusal 1.
pub fn list_of_image(image: &[u8]) -> Result<String, Refusal> {
    let mut text = String::from("pages 64\n");
    for page in redirected_pages(image)? {
        let line = match walk(image, page)? {
            Verdict::Final(Final {
                page: reached,
                hops,
            }) => format!("{page} final {reached} hops {hops}\n"),
            Verdict::Loop => format!("{page} loop\n"),
            Verdict::Outside(number) => format!("{page} outside {number}\n"),
        };
        text.push_str(&line);
    }
    let redirected = redirected_count(image)?;
    let free = free_count(image)?;
    text.push_str(&format!("redirected {redirected} free {free}\n"));
    Ok(text)
}

/// All that the list program writes for what it was given.
pub fn list(bytes: &[u8]) -> String {
    match parse(bytes).and_then(|sheet| list_of_image(&sheet.image)) {
        Ok(text) => text,
        Err(refusal) => format!("sheet refused {}\n", refusal.number()),
    }
}
