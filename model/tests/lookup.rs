//! The variation by latitude and column, the year's change, and their lines.

mod common;

use std::collections::BTreeMap;

use common::{clear_bit, redirection, status, NUMBER};
use ds2505_model::chip::WriteMode::{self, Ordinary, Quick};
use ds2505_model::lookup::{change, change_line, line, sheet_value, value, Header};
use ds2505_model::lookup_cases;
use ds2505_model::memory::{blank_image, Page};
use ds2505_model::publisher::{update, Outcome, Published, Publisher};
use ds2505_model::random::{any_image, used_image, Generator};
use ds2505_model::refusal::{Reason, Refusal, StateBack};
use ds2505_model::samples::shipped;
use ds2505_model::sheet;

/// A value, or the number of a refusal and the page number given back with it.
type Told = Result<i32, (u8, Option<u8>)>;

const NO_VALUE: Told = Err((19, None));
const NO_COLUMN: Told = Err((18, None));
const NO_ROW: Told = Err((17, None));
const FAULTY: Told = Err((16, None));
const LOOP: Told = Err((4, None));

fn told(answer: Result<i32, Refusal>) -> Told {
    answer.map_err(|refusal| {
        assert_eq!(refusal.state, StateBack::None);
        (refusal.number(), refusal.page_given_back())
    })
}

fn ask(image: &[u8], latitude: i32, column: u32) -> Told {
    told(value(image, latitude, column))
}

fn put(image: &mut [u8], page: usize, bytes: &[u8; 32]) {
    image[32 * page..32 * page + 32].copy_from_slice(bytes);
}

/// A header with these words and page numbers, whatever they are.
fn header(rows: u16, columns: u16, edge: i16, height: u16, pages: &[u8]) -> [u8; 32] {
    let mut page = [0xFF; 32];
    page[0..2].copy_from_slice(&rows.to_le_bytes());
    page[2..4].copy_from_slice(&columns.to_le_bytes());
    page[4..6].copy_from_slice(&edge.to_le_bytes());
    page[6..8].copy_from_slice(&height.to_le_bytes());
    page[8..10].copy_from_slice(&[0, 0]);
    page[10..10 + pages.len()].copy_from_slice(pages);
    page
}

/// Which value a plug holds on a page in a column: different for each two.
fn value_on(page: u8, column: u32) -> i32 {
    20 * i32::from(page) + column as i32 - 700
}

/// A plug with this first page, and on all others the values that tell the
/// page and the column.
fn plug(first: &[u8; 32]) -> Vec<u8> {
    let mut image = blank_image();
    for page in 0..64u8 {
        let mut bytes = [0; 32];
        for column in 0..16 {
            let value = value_on(page, column) as i16;
            bytes[2 * column as usize..][..2].copy_from_slice(&value.to_le_bytes());
        }
        put(&mut image, usize::from(page), &bytes);
    }
    put(&mut image, 1, first);
    image
}

/// Each page in the list leads to the next.
fn lead(image: &mut [u8], pages: &[u8]) {
    for pair in pages.windows(2) {
        image[redirection(usize::from(pair[0]))] = 255 - pair[1];
    }
}

/// Whether a page is a sound header, byte by byte.
fn sound(page: &[u8]) -> bool {
    let rows = usize::from(page[0]);
    let pages_end = 10 + rows;
    page[1] == 0
        && rows > 0
        && rows < 16
        && page[3] == 0
        && page[2] > 0
        && page[2] < 17
        && (page[6] > 0 || page[7] > 0)
        && page[8] == 0
        && page[9] == 0
        && (10..32).all(|place| match place < pages_end {
            true => page[place] < 64,
            false => page[place] == 0xFF,
        })
}

/// The final page of a chain, by counting.
fn follow(image: &[u8], start: u8) -> Result<usize, (u8, Option<u8>)> {
    let mut here = usize::from(start);
    for _ in 0..64 {
        match image[redirection(here)] {
            0xFF => return Ok(here),
            byte if byte < 192 => return Err((5, Some(255 - byte))),
            byte => here = usize::from(255 - byte),
        }
    }
    Err((4, None))
}

/// The lookup once more, the row by dividing.
fn looked_up(image: &[u8], latitude: i32, column: u32) -> Told {
    if image.len() != 2368 {
        return Err((1, None));
    }
    let first = 32 * follow(image, 1)?;
    let header = &image[first..first + 32];
    if !sound(header) {
        return FAULTY;
    }
    let edge = i64::from(i16::from_le_bytes([header[4], header[5]]));
    let height = i64::from(u16::from_le_bytes([header[6], header[7]]));
    let row = (i64::from(latitude) - edge).div_euclid(height);
    if row < 0 || row >= i64::from(header[0]) {
        return NO_ROW;
    }
    if column >= u32::from(header[2]) {
        return NO_COLUMN;
    }
    let place = 32 * follow(image, header[10 + row as usize])? + 2 * column as usize;
    match i16::from_le_bytes([image[place], image[place + 1]]) {
        value @ -1800..=1799 => Ok(i32::from(value)),
        _ => NO_VALUE,
    }
}

/// Counts of each number, 0 for a value.
fn number_of(told: Told) -> u8 {
    told.map_or_else(|(number, _)| number, |_| 0)
}

#[test]
fn by_hand() {
    let mut image = blank_image();
    image[32..64].copy_from_slice(&[
        2, 0, 3, 0, 0xD4, 0xFE, 150, 0, 0, 0, 63, 0, 255, 255, 255, 255, //
        255, 255, 255, 255, 255, 255, 255, 255, 255, 255, 255, 255, 255, 255, 255, 255,
    ]);
    // Rows from -30.0 to -15.0 on page 63 and from there to 0.0 on page 0.
    image[32 * 63..32 * 63 + 6].copy_from_slice(&[0x85, 0xFF, 0x07, 0x07, 0xFF, 0x7F]);
    image[..6].copy_from_slice(&[0xF8, 0xF8, 0x08, 0x07, 0xFF, 0xFF]);
    assert_eq!(ask(&image, -301, 0), NO_ROW);
    assert_eq!(ask(&image, -300, 0), Ok(-123));
    assert_eq!(ask(&image, -151, 1), Ok(1799));
    assert_eq!(ask(&image, -151, 2), NO_VALUE);
    assert_eq!(ask(&image, -150, 0), Ok(-1800));
    assert_eq!(ask(&image, -1, 1), NO_VALUE);
    assert_eq!(ask(&image, -1, 2), Ok(-1));
    assert_eq!(ask(&image, -1, 3), NO_COLUMN);
    assert_eq!(ask(&image, 0, 0), NO_ROW);
}

#[test]
fn image_length() {
    let image = plug(&header(1, 1, 0, 1, &[2]));
    assert_eq!(ask(&image, 0, 0), Ok(value_on(2, 0)));
    for length in [0, 1, 32, 64, 2048, 2367, 2369, 2392, 8704] {
        let mut other = image.clone();
        other.resize(length, 0xFF);
        assert_eq!(ask(&other, 0, 0), Err((1, None)));
    }
}

/// Faults in the order in which they are told, each by itself and in every
/// combination: the first of them is told. Chains loop or lead outside.
#[test]
fn order_of_refusals() {
    for looped in [false, true] {
        let chain = |number| match looped {
            true => LOOP,
            false => Err((5, Some(number))),
        };
        let faults: [Told; 7] = [
            Err((1, None)),
            chain(200),
            FAULTY,
            NO_ROW,
            NO_COLUMN,
            chain(100),
            NO_VALUE,
        ];
        for present in 0..1 << 7 {
            let has = |fault: usize| present >> fault & 1 == 1;
            let mut image = plug(&header(3, 4, -100, 50, &[9, 8, 7]));
            let (mut latitude, mut column) = (-50, 3);
            if has(1) {
                lead(&mut image, if looped { &[1, 30, 1] } else { &[1, 30, 200] });
            }
            if has(2) {
                image[32 + 9] = 1;
                image[32 * 30 + 9] = 1;
            }
            if has(3) {
                latitude = 50;
            }
            if has(4) {
                column = 4;
            }
            if has(5) {
                lead(&mut image, if looped { &[8, 8] } else { &[8, 20, 100] });
            }
            if has(6) {
                for page in [8, 20] {
                    image[32 * page + 6..][..4].copy_from_slice(&[0xFF, 0x7F, 0xFF, 0x7F]);
                }
            }
            if has(0) {
                image.pop();
            }
            let expected = (0..7)
                .find(|&fault| has(fault))
                .map_or(Ok(value_on(8, 3)), |fault| faults[fault]);
            assert_eq!(ask(&image, latitude, column), expected, "{present:07b}");
        }
    }
}

/// Row by row: the lower edge is in, the upper one is not.
#[test]
fn edges_of_rows() {
    let pages: [u8; 15] = std::array::from_fn(|row| 63 - 4 * row as u8);
    for edge in [i16::MIN, -900, -256, -1, 0, 1, 255, 600, i16::MAX] {
        for height in [1, 2, 150, 255, 256, 257, 0x7FFF, 0x8000, 0xFFFF] {
            for rows in 1..=15u8 {
                let count = usize::from(rows);
                let header = header(rows.into(), 5, edge, height, &pages[..count]);
                let image = plug(&header);
                let first = i32::from(edge);
                let height = i32::from(height);
                for (row, &page) in (0..).zip(&pages[..count]) {
                    let lower = first + row * height;
                    let there = Ok(value_on(page, 4));
                    assert_eq!(ask(&image, lower, 4), there);
                    assert_eq!(ask(&image, lower + height / 2, 4), there);
                    assert_eq!(ask(&image, lower + height - 1, 4), there);
                    assert_eq!(ask(&image, lower, 5), NO_COLUMN);
                }
                let end = first + i32::from(rows) * height;
                for latitude in [i32::MIN, i32::MIN + 1, first - 2, first - 1] {
                    assert_eq!(ask(&image, latitude, 4), NO_ROW);
                }
                for latitude in [end, end + 1, end + 65536, i32::MAX - 1, i32::MAX] {
                    assert_eq!(ask(&image, latitude, 4), NO_ROW);
                    assert_eq!(ask(&image, latitude, 5), NO_ROW);
                }
            }
        }
    }
}

/// Every latitude from well below the rows to well above them.
#[test]
fn every_latitude() {
    let image = plug(&header(4, 1, -37, 23, &[5, 6, 7, 8]));
    let mut counts = [0; 4];
    for latitude in -70000..70000 {
        match ask(&image, latitude, 0) {
            Ok(value) => {
                let row = (value - value_on(5, 0)) / 20;
                assert_eq!(row, (latitude + 37).div_euclid(23));
                counts[row as usize] += 1;
            }
            refused => assert_eq!(refused, NO_ROW),
        }
    }
    assert_eq!(counts, [23; 4]);
}

#[test]
fn columns() {
    for columns in 1..=16u32 {
        let image = plug(&header(2, columns as u16, 0, 10, &[2, 3]));
        for column in 0..columns {
            assert_eq!(ask(&image, 10, column), Ok(value_on(3, column)));
        }
        for column in (columns..300).chain([
            0xFFFF,
            0x10000,
            0x10000 + columns - 1,
            0x7FFF_FFFF,
            0x8000_0000,
            u32::MAX - 1,
            u32::MAX,
        ]) {
            assert_eq!(ask(&image, 10, column), NO_COLUMN);
        }
    }
}

/// Each byte of sound headers, replaced by each of the 256.
#[test]
fn every_byte_of_a_header() {
    let numbers: Vec<u8> = (40..55).collect();
    for (rows, columns, edge, height) in [
        (1, 1, 0, 1),
        (6, 12, 600, 150),
        (14, 16, -900, 0x100),
        (15, 16, i16::MIN, 0xFFFF),
    ] {
        let right = header(rows, columns, edge, height, &numbers[..usize::from(rows)]);
        let mut image = plug(&right);
        let mut faulty = 0;
        for place in 0..32 {
            for byte in 0..=0xFF {
                image[32 + place] = byte;
                let page = &image[32..64];
                let read = Header::read(page);
                assert_eq!(read.is_some(), sound(page), "{place} {byte}");
                if let Some(read) = read {
                    assert_eq!(read.bytes(), page);
                } else {
                    faulty += 1;
                }
                for latitude in [edge.into(), i32::from(edge) + i32::from(height), 0, -1] {
                    for column in [0, u32::from(columns) - 1, columns.into()] {
                        let answer = ask(&image, latitude, column);
                        assert_eq!(answer, looked_up(&image, latitude, column));
                        assert_eq!(answer == FAULTY, !sound(&image[32..64]));
                    }
                }
            }
            image[32 + place] = right[place];
        }
        // The two counts, their high bytes and the two zeroes leave at most
        // sixteen choices each, a byte of the tail one.
        assert!(
            faulty > 6 * 240 + 255 * (22 - usize::from(rows)),
            "{faulty}"
        );
    }
}

/// Each word of a header, replaced by each of the 65,536.
#[test]
fn every_word_of_a_header() {
    let right = header(2, 3, -5, 10, &[2, 3]);
    let mut image = plug(&right);
    for place in [0, 2, 4, 6, 8] {
        for word in 0..=0xFFFFu16 {
            image[32 + place..34 + place].copy_from_slice(&word.to_le_bytes());
            let sound = match place {
                // Another count would not fit the two numbers.
                0 => word == 2,
                2 => (1..=16).contains(&word),
                4 => true,
                6 => word != 0,
                _ => word == 0,
            };
            assert_eq!(ask(&image, 0, 0) != FAULTY, sound);
        }
        image[32..64].copy_from_slice(&right);
    }
}

/// Counts with as many page numbers as they say, as far as the page goes.
#[test]
fn counts_of_a_header() {
    let numbers: Vec<u8> = (20..42).collect();
    for rows in 0..=22u16 {
        for columns in [0, 1, 16, 17, 256, 257, 0xFFFF] {
            for height in [0, 1, 0xFFFF] {
                let numbers = &numbers[..usize::from(rows)];
                let page = header(rows, columns, 0, height, numbers);
                let right = (1..=15).contains(&rows) && (1..=16).contains(&columns) && height >= 1;
                let expected = if right { Ok(value_on(20, 0)) } else { FAULTY };
                assert_eq!(ask(&plug(&page), 0, 0), expected);
            }
        }
    }
    for rows in [23, 24, 255, 256, 257, 0x010F, 0x8001, 0xFFFF] {
        assert_eq!(ask(&plug(&header(rows, 1, 0, 1, &numbers)), 0, 0), FAULTY);
    }
    assert_eq!(ask(&blank_image(), 0, 0), FAULTY);
    assert_eq!(ask(&plug(&[0; 32]), 0, 0), FAULTY);
}

#[test]
fn page_numbers_of_a_header() {
    for rows in 1..=15usize {
        let numbers = vec![5; rows];
        for place in 0..rows {
            for (number, right) in [
                (0, true),
                (1, true),
                (62, true),
                (63, true),
                (64, false),
                (127, false),
                (128, false),
                (191, false),
                (254, false),
                (255, false),
            ] {
                let mut numbers = numbers.clone();
                numbers[place] = number;
                let image = plug(&header(rows as u16, 2, 0, 1, &numbers));
                for (row, &page) in (0..).zip(&numbers) {
                    let answer = ask(&image, row, 1);
                    if !right {
                        assert_eq!(answer, FAULTY);
                    } else if page != 1 {
                        assert_eq!(answer, Ok(value_on(page, 1)));
                    } else {
                        // The header itself as a row: its second word.
                        assert_eq!(answer, Ok(2));
                    }
                }
            }
        }
        for place in 10 + rows..32 {
            for byte in [0x00, 0x05, 0x3F, 0x40, 0x7F, 0xFE] {
                let mut page = header(rows as u16, 2, 0, 1, &numbers);
                page[place] = byte;
                assert_eq!(ask(&plug(&page), 0, 0), FAULTY);
            }
        }
    }
}

/// All 65,536 values, in the first column and the last of a page.
#[test]
fn every_value() {
    let mut image = plug(&header(1, 16, 0, 1, &[63]));
    for column in [0, 15] {
        let place = 32 * 63 + 2 * column as usize;
        let mut right = 0;
        for bits in 0..=0xFFFFu16 {
            image[place..place + 2].copy_from_slice(&bits.to_le_bytes());
            let number = i32::from(bits) - if bits < 0x8000 { 0 } else { 0x10000 };
            let expected = if (-1800..1800).contains(&number) {
                right += 1;
                Ok(number)
            } else {
                NO_VALUE
            };
            assert_eq!(ask(&image, 0, column), expected);
        }
        assert_eq!(right, 3600);
        for (bits, expected) in [
            (0xF8F8, Ok(-1800)),
            (0xF8F7, NO_VALUE),
            (0x0707, Ok(1799)),
            (0x0708, NO_VALUE),
            (0x7FFF, NO_VALUE),
            (0xFFFF, Ok(-1)),
        ] {
            image[place..place + 2].copy_from_slice(&u16::to_le_bytes(bits));
            assert_eq!(ask(&image, 0, column), expected);
        }
    }
}

/// Values out of range, or none, in the other columns don't matter.
#[test]
fn other_values_do_not_count() {
    let mut image = plug(&header(2, 8, 0, 1, &[10, 11]));
    let other = [0xFF, 0x7F].repeat(16);
    for column in 0..8u32 {
        let place = 2 * column as usize;
        let mut page: [u8; 32] = other.clone().try_into().unwrap();
        page[place..place + 2].copy_from_slice(&[0x34, 0x02]);
        put(&mut image, 10, &page);
        for asked in 0..8 {
            let expected = if asked == column { Ok(0x234) } else { NO_VALUE };
            assert_eq!(ask(&image, 0, asked), expected);
        }
    }
}

/// The header and each row at the end of chains of every length.
#[test]
fn chains() {
    let header = header(2, 4, 0, 1, &[0, 2]);
    for hops in 0..63u8 {
        // From page 1 to the header, and from page 0 to a row.
        let pages: Vec<u8> = (1..=1 + hops).collect();
        let last = usize::from(1 + hops);
        let mut image = plug(&[0xFF; 32]);
        lead(&mut image, &pages);
        put(&mut image, last, &header);
        assert_eq!(ask(&image, 0, 3), Ok(value_on(0, 3)));
        let second = if hops == 0 { Ok(value_on(2, 1)) } else { Ok(4) };
        assert_eq!(ask(&image, 1, 1), second);
        for (byte, expected) in [
            (255 - 1, LOOP),
            (255 - last as u8, LOOP),
            (255 - 64, Err((5, Some(64)))),
            (255 - 200, Err((5, Some(200)))),
            (0, Err((5, Some(255)))),
        ] {
            image[redirection(last)] = byte;
            assert_eq!(ask(&image, 0, 3), expected);
            assert_eq!(ask(&image, i32::MIN, u32::MAX), expected);
        }

        let mut image = plug(&header);
        let pages: Vec<u8> = [0].into_iter().chain(2..2 + hops).collect();
        lead(&mut image, &pages);
        let last = pages[pages.len() - 1];
        assert_eq!(ask(&image, 0, 3), Ok(value_on(last, 3)));
        for (byte, expected) in [
            (255 - 1, Ok(2)),
            (255 - pages[pages.len() / 2], LOOP),
            (255 - 64, Err((5, Some(64)))),
            (255 - 200, Err((5, Some(200)))),
            (0, Err((5, Some(255)))),
        ] {
            // Page 0 can't be named: FFh would make the page final.
            if byte == 0xFF {
                continue;
            }
            image[redirection(usize::from(last))] = byte;
            assert_eq!(ask(&image, 0, 0), expected);
            assert_eq!(ask(&image, 0, 4), NO_COLUMN);
            assert_eq!(ask(&image, 2, 0), NO_ROW);
        }
    }
}

/// The longest chain of all, from page 0 over page 1 to page 63, which is the
/// header and, for each row, the row.
#[test]
fn the_longest_chain() {
    let mut image = plug(&[0xFF; 32]);
    let pages: Vec<u8> = (0..64).collect();
    lead(&mut image, &pages);
    put(&mut image, 63, &header(2, 4, -9, 5, &[0, 1]));
    for latitude in [-9, -4] {
        for (column, word) in (0..).zip([2, 4, -9, 5]) {
            assert_eq!(ask(&image, latitude, column), Ok(word));
        }
    }
    lead(&mut image, &[63, 1]);
    assert_eq!(ask(&image, -9, 0), LOOP);
    lead(&mut image, &[63, 200]);
    assert_eq!(ask(&image, -9, 0), Err((5, Some(200))));
}

/// A chain of the row not asked for doesn't matter.
#[test]
fn chains_of_other_rows() {
    let mut image = plug(&header(3, 4, 0, 1, &[9, 8, 7]));
    lead(&mut image, &[9, 10, 9]);
    lead(&mut image, &[8, 99]);
    assert_eq!(ask(&image, 0, 0), LOOP);
    assert_eq!(ask(&image, 1, 0), Err((5, Some(99))));
    assert_eq!(ask(&image, 2, 0), Ok(value_on(7, 0)));
}

/// The lookup by hand and the model's on plugs in use and on any bytes.
#[test]
fn two_lookups_agree() {
    let mut generator = Generator::new(60);
    let mut seen = BTreeMap::new();
    for round in 0..3000 {
        let mut image = if round % 8 == 0 {
            any_image(&mut generator)
        } else {
            used_image(&mut generator)
        };
        let rows = generator.below(17) as usize;
        let columns = generator.below(18) as u16;
        let edge = generator.number() as i16 / 16;
        let height = generator.below(200) as u16;
        let numbers: Vec<u8> = (0..rows).map(|_| generator.below(65) as u8).collect();
        if let Ok(last) = follow(&image, 1) {
            if !generator.once_in(30) {
                let page = header(rows as u16, columns, edge, height, &numbers);
                put(&mut image, last, &page);
            }
        }
        for page in 0..64 {
            if generator.bit() && follow(&image, 1) != Ok(page) {
                for column in 0..16 {
                    let value = generator.below(4000) as i16 - 2000;
                    image[32 * page + 2 * column..][..2].copy_from_slice(&value.to_le_bytes());
                }
            }
        }
        for _ in 0..20 {
            let within = generator.below(u64::from(height) * rows as u64 + 40) as i32 - 20;
            let latitude = i32::from(edge) + within;
            let column = generator.below(18) as u32;
            let answer = ask(&image, latitude, column);
            assert_eq!(answer, looked_up(&image, latitude, column));
            *seen.entry(number_of(answer)).or_insert(0) += 1;
        }
    }
    let kinds: Vec<u8> = seen.keys().copied().collect();
    assert_eq!(kinds, [0, 4, 5, 16, 17, 18, 19], "{seen:?}");
    assert!(seen.values().all(|&count| count > 400), "{seen:?}");
}

/// Gaps, protection and the used-page bitmap have no say.
#[test]
fn other_status_does_not_count() {
    let mut image = plug(&header(2, 4, 0, 1, &[9, 8]));
    lead(&mut image, &[8, 30]);
    for fill in [0x00, 0x5A, 0xFF] {
        image[status(0x000)..status(0x100)].fill(fill);
        assert_eq!(ask(&image, 0, 2), Ok(value_on(9, 2)));
        assert_eq!(ask(&image, 1, 3), Ok(value_on(30, 3)));
    }
}

/// New less old by three questions.
fn folded(old: i32, new: i32) -> i32 {
    let difference = new - old;
    if difference > 1799 {
        difference - 3600
    } else if difference < -1800 {
        difference + 3600
    } else {
        difference
    }
}

#[test]
fn every_change() {
    for old in -1800..=1799 {
        for new in -1800..=1799 {
            let change = change(old, new).unwrap();
            assert!((-1800..=1799).contains(&change));
            assert_eq!((new - old - change) % 3600, 0);
            assert_eq!(change, folded(old, new));
        }
    }
}

#[test]
fn changes_by_hand() {
    for (old, new, expected) in [
        (0, 0, 0),
        (-123, -118, 5),
        (5, 0, -5),
        (1799, -1800, 1),
        (-1800, 1799, -1),
        (0, -1800, -1800),
        (-1800, 0, -1800),
        (-900, 900, -1800),
        (900, -900, -1800),
        (-900, 899, 1799),
        (900, -901, 1799),
        (-1800, -1, 1799),
        (-1, 1799, -1800),
        (1799, -1, -1800),
        (1799, 0, -1799),
        (-1800, -1800, 0),
        (1799, 1799, 0),
    ] {
        assert_eq!(told(change(old, new)), Ok(expected), "{old} {new}");
    }
}

/// A value out of range on either side.
#[test]
fn no_change() {
    let outside = [
        i32::MIN,
        i32::MIN + 1,
        -0x10000,
        -0x8000,
        -3600,
        -1802,
        -1801,
        1800,
        1801,
        3600,
        0x7FFE,
        0x7FFF,
        0xFFFF,
        i32::MAX - 1,
        i32::MAX,
    ];
    for one in outside {
        for other in outside.into_iter().chain(-1800..=1799) {
            assert_eq!(told(change(one, other)), NO_VALUE);
            assert_eq!(told(change(other, one)), NO_VALUE);
        }
    }
}

/// How many events an update has, and which of them is the visible one.
fn events(mode: WriteMode) -> (usize, usize) {
    match mode {
        Ordinary => (1222, 1213),
        Quick => (678, 669),
    }
}

/// All that a plug can be asked around its rows, and past its columns.
fn all_answers(image: &[u8], latitudes: &[i32], columns: u32) -> Vec<Told> {
    let mut answers = Vec::new();
    for &latitude in latitudes {
        answers.extend((0..=columns).map(|column| ask(image, latitude, column)));
    }
    answers
}

/// A plug of four rows of ten tenths, its pages marked used, the second row
/// two hops away.
fn plug_to_update() -> Vec<u8> {
    let mut image = plug(&header(4, 12, -20, 10, &[2, 3, 4, 5]));
    lead(&mut image, &[3, 9, 20]);
    for page in 0..64 {
        if page < 12 || page == 20 {
            clear_bit(&mut image, 0x040, page);
        } else {
            put(&mut image, page, &[0xFF; 32]);
        }
    }
    image
}

fn cut_everywhere(page: u8, new: &[u8; 32], pages: Published, mode: WriteMode) {
    let image = plug_to_update();
    let latitudes = [-21, -20, -11, -10, -1, 0, 9, 10, 19, 20];
    let before = all_answers(&image, &latitudes, 12);
    // What it must be afterwards, without a publisher.
    let mut moved = image.clone();
    put(&mut moved, pages.t.into(), new);
    lead(&mut moved, &[pages.l, pages.t]);
    let after = all_answers(&moved, &latitudes, 12);
    assert_ne!(before, after);
    let (all, visible) = events(mode);
    for cut in 0..=all {
        let run = update(&image, new, page, mode, Some(cut)).unwrap();
        assert_eq!((run.outcome, run.events), (Outcome::Cut, cut));
        let now = all_answers(&run.image, &latitudes, 12);
        assert_eq!(now, *if cut < visible { &before } else { &after }, "{cut}");
    }
    let whole = update(&image, new, page, mode, None).unwrap();
    assert_eq!(whole.outcome, Outcome::Published(pages));
    assert_eq!(all_answers(&whole.image, &latitudes, 12), after);
}

/// A row, superseded: each column gives the old value or the new one, and the
/// other rows what they gave.
#[test]
fn a_row_superseded_and_cut() {
    let mut new: [u8; 32] = std::array::from_fn(|place| [7 * place as u8, 3][place % 2]);
    new[8..10].copy_from_slice(&[0xFF, 0x7F]);
    for mode in [Ordinary, Quick] {
        cut_everywhere(2, &new, Published { l: 2, t: 12 }, mode);
        cut_everywhere(3, &new, Published { l: 20, t: 12 }, mode);
    }
}

/// The same with the header, after which other rows are covered.
#[test]
fn the_header_superseded_and_cut() {
    let new = header(3, 11, -10, 7, &[5, 4, 3]);
    for mode in [Ordinary, Quick] {
        cut_everywhere(1, &new, Published { l: 1, t: 12 }, mode);
    }
}

/// A row's page that was never written to nor marked used is a free one: the
/// publisher may take it, and it gave -1 before.
#[test]
fn a_row_that_is_blank() {
    let mut image = blank_image();
    put(&mut image, 1, &header(2, 16, 0, 1, &[5, 2]));
    assert_eq!(ask(&image, 1, 15), Ok(-1));
    let publisher = Publisher::start(&image, &[7; 32], 5, Ordinary).unwrap();
    assert_eq!(publisher.pages(), Published { l: 5, t: 2 });
}

#[test]
fn from_sheets() {
    let image = plug(&header(2, 4, 0, 1, &[9, 8]));
    let right = sheet::write(NUMBER, &image).unwrap();
    assert_eq!(told(sheet_value(&right, 1, 3)), Ok(value_on(8, 3)));
    assert_eq!(told(sheet_value(&right, 2, 4)), NO_ROW);
    let faulty = Err((12, None));
    for length in [0, 1, 23, 24, 2391] {
        assert_eq!(told(sheet_value(&right[..length], 1, 3)), faulty);
    }
    assert_eq!(
        told(sheet_value(&[&right[..], &[0xFF]].concat(), 1, 3)),
        faulty
    );
    for place in (0..16).chain([24 + status(0x008), 24 + status(0x0FF)]) {
        let mut other = right.clone();
        other[place] ^= 1;
        // 12 comes before everything else.
        other[24 + redirection(1)] = 0xFE;
        assert_eq!(told(sheet_value(&other, 2, 4)), faulty);
    }
}

#[test]
fn lines() {
    let refused = |reason| Err(Refusal::without_state(reason));
    assert_eq!(line(Ok(-123)), "variation -123\n");
    assert_eq!(line(Ok(0)), "variation 0\n");
    assert_eq!(change_line(Ok(-5)), "change -5\n");
    for (reason, text) in [
        (Reason::ImageLength, "refused 1 image length\n"),
        (Reason::Loop, "refused 4 loop\n"),
        (Reason::Outside(200), "refused 5 outside 200\n"),
        (Reason::Sheet, "refused 12 sheet faulty\n"),
        (Reason::Header, "refused 16 header faulty\n"),
        (Reason::Latitude, "refused 17 latitude in no row\n"),
        (Reason::Column, "refused 18 column too large\n"),
        (Reason::NoValue, "refused 19 no value\n"),
    ] {
        assert_eq!(line(refused(reason)), text);
        assert_eq!(change_line(refused(reason)), text);
    }
}

/// The shipped plug, with some of its values written out.
#[test]
fn the_shipped_plug() {
    let samples = shipped();
    let (_, sheet) = samples
        .iter()
        .find(|(name, _)| *name == "variation")
        .unwrap();
    for (latitude, column, text) in [
        (599, 0, "refused 17 latitude in no row\n"),
        (600, 0, "variation -187\n"),
        (624, 11, "variation 187\n"),
        (625, 0, "variation -198\n"),
        // The third row was superseded, by two tenths to the east.
        (650, 0, "variation -207\n"),
        (674, 11, "variation 233\n"),
        (725, 10, "variation 248\n"),
        (725, 11, "refused 19 no value\n"),
        (749, 12, "refused 18 column too large\n"),
        (750, 12, "refused 17 latitude in no row\n"),
    ] {
        assert_eq!(line(sheet_value(sheet, latitude, column)), text);
    }
    let image = sheet::parse(sheet).unwrap().image;
    let numbers: Vec<u8> = Header::read(&image[32..64])
        .unwrap()
        .pages
        .into_iter()
        .map(Page::number)
        .collect();
    assert_eq!(numbers, [2, 3, 4, 5, 6, 7]);
    // What the superseded page itself still holds.
    assert_eq!(image[32 * 4..32 * 4 + 2], i16::to_le_bytes(-209));
}

/// The next bytes of an input.
fn take<const N: usize>(input: &mut &[u8]) -> [u8; N] {
    let (first, rest) = input.split_at(N);
    *input = rest;
    first.try_into().unwrap()
}

/// The stored input, taken apart as its program does, gives the stored output,
/// also by the lookup above; every answer is in it often.
#[test]
fn stored_cases() {
    let bytes = lookup_cases::input();
    assert!(bytes.len() < 500_000);
    let mut input = &bytes[..];
    let mut text = String::new();
    let mut seen: BTreeMap<u8, usize> = BTreeMap::new();
    loop {
        let length = u16::from_le_bytes(take(&mut input));
        if length == 0xFFFF {
            break;
        }
        assert!(length <= 4000);
        let (sheet, rest) = input.split_at(usize::from(length));
        input = rest;
        for _ in 0..u16::from_le_bytes(take(&mut input)) {
            let latitude = i32::from_le_bytes(take(&mut input));
            let column = u32::from_le_bytes(take(&mut input));
            let answer = sheet_value(sheet, latitude, column);
            text += &line(answer);
            let by_hand = match sheet::parse(sheet) {
                Ok(sheet) => looked_up(&sheet.image, latitude, column),
                Err(refusal) => Err((refusal.number(), None)),
            };
            assert_eq!(told(answer), by_hand);
            *seen.entry(number_of(by_hand)).or_insert(0) += 1;
        }
    }
    let mut changes = 0;
    while !input.is_empty() {
        let old = i32::from_le_bytes(take(&mut input));
        let new = i32::from_le_bytes(take(&mut input));
        text += &change_line(change(old, new));
        changes += usize::from(change(old, new).is_ok());
    }
    assert!(text == lookup_cases::output());
    let lines = text.lines().count();
    assert!(lines < 8000);
    assert!(changes > 500);
    let kinds: Vec<u8> = seen.keys().copied().collect();
    assert_eq!(kinds, [0, 4, 5, 12, 16, 17, 18, 19], "{seen:?}");
    for often in [0, 16, 17, 18, 19] {
        assert!(100 * seen[&often] >= 3 * lines, "{seen:?}");
    }
    assert!(seen.values().all(|&count| count >= 60), "{seen:?}");
}
