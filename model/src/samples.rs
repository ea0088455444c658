//! Stored sheets: the samples that are shipped, and many more to be listed.

use crate::chip::WriteMode;
use crate::crc::crc8;
use crate::lookup::Header;
use crate::memory::{
    blank_image, Page, StatusAddress, StatusMeaning, DATA_LENGTH, PAGE_LENGTH, REDIRECTION,
    USED_BITMAP,
};
use crate::publisher;
use crate::random::{any_image, chain_image, used_image, Generator};
use crate::sheet;

/// The registration number of the samples: family 0Bh and a CRC-8 that agrees.
pub fn number() -> [u8; 8] {
    let mut bytes = [0x0B, 0x25, 0x05, 0x00, 0x19, 0x84, 0x07, 0];
    bytes[7] = crc8(&bytes[..7]);
    bytes
}

pub(crate) fn redirect(image: &mut [u8], page: usize, byte: u8) {
    image[DATA_LENGTH + usize::from(REDIRECTION) + page] = byte;
}

fn mark_used(image: &mut [u8], page: usize) {
    image[DATA_LENGTH + usize::from(USED_BITMAP) + page / 8] &= !(1 << (page % 8));
}

/// Writes a page's own 32 bytes.
pub(crate) fn put_page(image: &mut [u8], page: usize, bytes: &[u8; PAGE_LENGTH]) {
    image[PAGE_LENGTH * page..PAGE_LENGTH * (page + 1)].copy_from_slice(bytes);
}

/// A page that begins with these values, two bytes each, and is blank after
/// them.
pub(crate) fn row_of_values(values: &[i16]) -> [u8; PAGE_LENGTH] {
    let mut page = [0xFF; PAGE_LENGTH];
    for (bytes, value) in page.chunks_exact_mut(2).zip(values) {
        bytes.copy_from_slice(&value.to_le_bytes());
    }
    page
}

/// A page of sixteen values, two bytes each, signed tenths of a degree.
fn variations(band: i16, year: i16) -> [u8; 32] {
    let mut page = [0; 32];
    for (column, bytes) in page.chunks_exact_mut(2).enumerate() {
        let value = 120 * band - 35 * column as i16 + 3 * year;
        bytes.copy_from_slice(&value.to_le_bytes());
    }
    page
}

/// 01's example: all FFh but for FDh as page 1's redirection byte.
fn example() -> Vec<u8> {
    let mut image = blank_image();
    redirect(&mut image, 1, 0xFD);
    image
}

/// Twelve bands, written in the first year; the first four of them superseded
/// in each of the three years after it.
fn three_years() -> Vec<u8> {
    let mut image = blank_image();
    for band in 1..=12usize {
        image[32 * band..32 * band + 32].copy_from_slice(&variations(band as i16, 0));
        mark_used(&mut image, band);
    }
    for year in 1..=3 {
        for band in 1..=4 {
            let new_bytes = variations(band, year);
            image = publisher::update(&image, &new_bytes, band as u8, WriteMode::Ordinary, None)
                .expect("there is a free page")
                .image;
        }
    }
    image
}

/// The same with a loop and a page that leads outside.
fn damaged() -> Vec<u8> {
    let mut image = three_years();
    redirect(&mut image, 5, 255 - 6);
    redirect(&mut image, 6, 255 - 5);
    redirect(&mut image, 7, 255 - 200);
    image
}

/// The navigator's plug: eight bands, the first superseded once, and a byte on
/// page 5 that names page 200.
fn navigator() -> Vec<u8> {
    let mut image = blank_image();
    for band in 1..=8usize {
        put_page(&mut image, band, &variations(band as i16, 0));
        mark_used(&mut image, band);
    }
    let mut image = publisher::update(&image, &variations(1, 1), 1, WriteMode::Ordinary, None)
        .expect("there is a free page")
        .image;
    redirect(&mut image, 5, 0x37);
    image
}

/// Every page used.
fn full() -> Vec<u8> {
    let mut image = blank_image();
    (0..64).for_each(|page| mark_used(&mut image, page));
    image
}

/// The header of the plug for looking up: six rows of 2.5 degrees from 60.0
/// degrees north, twelve columns.
pub(crate) fn variation_header() -> Header {
    Header {
        columns: 12,
        southern_edge: 600,
        row_height: 25,
        pages: (2..=7).filter_map(Page::new).collect(),
    }
}

/// A row of that plug in a year: from west in the first column to east in the
/// last, the more so the further north. The northernmost row has no value in
/// its last column.
pub(crate) fn variation_row(row: i16, year: i16) -> [u8; PAGE_LENGTH] {
    let mut values: Vec<i16> = (0..12)
        .map(|column| (34 + 3 * row) * column - 187 - 11 * row + 2 * year)
        .collect();
    if row == 5 {
        values[11] = 0x7FFF;
    }
    row_of_values(&values)
}

/// A plug as a planner gets it: the header on page 1, a row on each of pages 2
/// to 7, and the third row superseded once.
pub(crate) fn variation() -> Vec<u8> {
    let mut image = blank_image();
    put_page(&mut image, 1, &variation_header().bytes());
    for row in 0..6 {
        put_page(&mut image, row + 2, &variation_row(row as i16, 0));
    }
    (1..=7).for_each(|page| mark_used(&mut image, page));
    publisher::update(&image, &variation_row(2, 1), 4, WriteMode::Ordinary, None)
        .expect("there is a free page")
        .image
}

pub(crate) fn stored(image: &[u8]) -> Vec<u8> {
    sheet::write(number(), image).expect("the image can be stored")
}

/// The samples that are shipped, by name.
pub fn shipped() -> Vec<(&'static str, Vec<u8>)> {
    let mut samples = listed();
    samples.push(("variation", stored(&variation())));
    samples.push(("navigator", stored(&navigator())));
    samples
}

/// The samples that show the list.
fn listed() -> Vec<(&'static str, Vec<u8>)> {
    vec![
        ("blank", stored(&blank_image())),
        ("example", stored(&example())),
        ("three-years", stored(&three_years())),
        ("damaged", stored(&damaged())),
        ("full", stored(&full())),
    ]
}

/// An image with FFh at each gap, as a sheet must have it.
pub(crate) fn gaps_blank(mut image: Vec<u8>) -> Vec<u8> {
    for address in StatusAddress::all().filter(|a| a.meaning() == StatusMeaning::Gap) {
        image[DATA_LENGTH + usize::from(address.number())] = 0xFF;
    }
    image
}

/// Many sheets to be listed: shipped ones, chains of several lengths with
/// their three ends, used and random images, and faulty ones of all kinds.
pub fn cases() -> Vec<Vec<u8>> {
    let mut generator = Generator::new(12);
    let mut cases: Vec<Vec<u8>> = listed().into_iter().map(|(_, sheet)| sheet).collect();
    for length in [1usize, 2, 9, 62, 63] {
        let pages: Vec<u8> = (0..=length as u8).collect();
        for last in [0xFF, 255 - 1, 255 - 200] {
            let mut image = chain_image(&pages);
            redirect(&mut image, length, last);
            cases.push(stored(&image));
        }
    }
    for _ in 0..20 {
        cases.push(stored(&gaps_blank(used_image(&mut generator))));
        cases.push(stored(&gaps_blank(any_image(&mut generator))));
    }
    let right = stored(&three_years());
    for length in [0, 1, 15, 16, 23, 24, 2071, 2391] {
        cases.push(right[..length].to_vec());
    }
    cases.push([&right[..], &[0xFF]].concat());
    cases.push([&right[..], &right[..600]].concat());
    for place in (0..16).chain([
        24 + DATA_LENGTH + 8,
        24 + DATA_LENGTH + 0x48,
        24 + DATA_LENGTH + 0xFF,
    ]) {
        let mut sheet = right.clone();
        sheet[place] ^= 0x10;
        cases.push(sheet);
    }
    cases.push(vec![0; right.len()]);
    cases.push(vec![0xFF; right.len()]);
    cases.push((0..right.len()).map(|_| generator.byte()).collect());
    cases
}

/// The cases as the program that lists several sheets reads them: each after
/// its length, and FFFFh at the end.
pub fn cases_input() -> Vec<u8> {
    let mut bytes = Vec::new();
    for sheet in cases() {
        bytes.extend((sheet.len() as u16).to_le_bytes());
        bytes.extend(sheet);
    }
    bytes.extend([0xFF; 2]);
    bytes
}

/// What that program must write.
pub fn cases_output() -> String {
    cases().iter().map(|sheet| sheet::list(sheet)).collect()
}
