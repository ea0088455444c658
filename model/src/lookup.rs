//! The variation at a latitude and in a column, and the year's change.
//!
//! The final page of page 1's chain is the header; it names a page for each
//! row, and the final page of that one's chain holds the row's values. All
//! values, edges and heights are in tenths of a degree.

use crate::bits::low_high;
use crate::memory::{check_image, check_page, page_bytes, Page, PAGE_LENGTH};
use crate::refusal::{Reason, Refusal};
use crate::sheet;
use crate::walk::{walk_from, Verdict};

const HEADER_PAGE: u8 = 1;
const MOST_ROWS: usize = 15;
const MOST_COLUMNS: u16 = 16;

/// Where the page numbers of the rows begin in the header.
const ROW_PAGES: usize = 10;

/// Half a turn and a whole one.
const HALF_TURN: i32 = 1800;
const TURN: i32 = 3600;

/// What a header says.
#[derive(Clone, Debug, PartialEq, Eq)]
pub struct Header {
    pub columns: u16,
    pub southern_edge: i16,
    pub row_height: u16,
    /// One for each row, the southernmost first.
    pub pages: Vec<Page>,
}

/// The 16-bit number at a place, low byte first.
fn word(bytes: &[u8], place: usize) -> u16 {
    u16::from(bytes[place]) + 256 * u16::from(bytes[place + 1])
}

impl Header {
    /// The page that says this.
    pub fn bytes(&self) -> [u8; PAGE_LENGTH] {
        let words = [
            self.pages.len() as u16,
            self.columns,
            self.southern_edge as u16,
            self.row_height,
            0,
        ];
        let mut bytes: Vec<u8> = words.into_iter().flat_map(low_high).collect();
        bytes.extend(self.pages.iter().map(|page| page.number()));
        bytes.resize(PAGE_LENGTH, 0xFF);
        bytes.try_into().expect("the rows fit into the page")
    }

    /// What a page says, if it is a sound header: its counts and its height
    /// are in their ranges, its rows have pages of the chip, and nothing else
    /// is in it than what is written for these.
    pub fn read(bytes: &[u8]) -> Option<Header> {
        let rows = usize::from(word(bytes, 0));
        if !(1..=MOST_ROWS).contains(&rows) {
            return None;
        }
        let numbers = &bytes[ROW_PAGES..ROW_PAGES + rows];
        let header = Header {
            columns: word(bytes, 2),
            southern_edge: word(bytes, 4) as i16,
            row_height: word(bytes, 6),
            pages: numbers
                .iter()
                .map(|&number| Page::new(number))
                .collect::<Option<Vec<Page>>>()?,
        };
        let sound = (1..=MOST_COLUMNS).contains(&header.columns)
            && header.row_height >= 1
            && header.bytes() == bytes;
        sound.then_some(header)
    }

    /// The lower edge of a row. The row after the last begins at the last
    /// one's upper edge.
    pub fn lower_edge(&self, row: usize) -> i64 {
        i64::from(self.southern_edge) + i64::from(self.row_height) * row as i64
    }

    /// The page of the row that covers a latitude.
    fn row_page(&self, latitude: i32) -> Option<Page> {
        let latitude = i64::from(latitude);
        (0..self.pages.len())
            .find(|&row| self.lower_edge(row) <= latitude && latitude < self.lower_edge(row + 1))
            .map(|row| self.pages[row])
    }

    /// The place of a column's value in the page of its row.
    fn place(&self, column: u32) -> Option<usize> {
        (0..self.columns)
            .find(|&c| u32::from(c) == column)
            .map(|c| 2 * usize::from(c))
    }
}

/// The bytes of the final page of a page's chain. Refusals 4 and 5.
fn final_bytes(image: &[u8], page: Page) -> Result<&[u8], Refusal> {
    match walk_from(image, page) {
        Verdict::Final(reached) => Ok(page_bytes(image, check_page(reached.page)?)),
        Verdict::Loop => Err(Refusal::without_state(Reason::Loop)),
        Verdict::Outside(number) => Err(Refusal::without_state(Reason::Outside(number))),
    }
}

/// A value, or refusal 19. 7FFFh, which means that there is none, is out of
/// range like other numbers.
fn within_range(value: i32) -> Result<i32, Refusal> {
    if (-HALF_TURN..HALF_TURN).contains(&value) {
        Ok(value)
    } else {
        Err(Refusal::without_state(Reason::NoValue))
    }
}

/// The variation at a latitude and in a column. Refusals 1, 4 or 5 of page 1,
/// 16, 17, 18, 4 or 5 of the row's page, and 19, in this order.
pub fn value(image: &[u8], latitude: i32, column: u32) -> Result<i32, Refusal> {
    let refused = Refusal::without_state;
    check_image(image)?;
    let first = final_bytes(image, check_page(HEADER_PAGE)?)?;
    let header = Header::read(first).ok_or(refused(Reason::Header))?;
    let page = header.row_page(latitude).ok_or(refused(Reason::Latitude))?;
    let place = header.place(column).ok_or(refused(Reason::Column))?;
    let values = final_bytes(image, page)?;
    within_range(i32::from(word(values, place) as i16))
}

/// The year's change: the new value less the old one, the short way round.
/// Refusal 19.
pub fn change(old: i32, new: i32) -> Result<i32, Refusal> {
    let difference = within_range(new)? - within_range(old)?;
    Ok((difference + HALF_TURN).rem_euclid(TURN) - HALF_TURN)
}

/// The variation from a stored sheet. Refusal 12, then those of its image.
pub fn sheet_value(sheet: &[u8], latitude: i32, column: u32) -> Result<i32, Refusal> {
    value(&sheet::parse(sheet)?.image, latitude, column)
}

/// The line for a refusal of a lookup.
fn refusal_line(refusal: Refusal) -> String {
    let words = match refusal.reason {
        Reason::ImageLength => String::from("image length"),
        Reason::Loop => String::from("loop"),
        Reason::Outside(number) => format!("outside {number}"),
        Reason::Sheet => String::from("sheet faulty"),
        Reason::Header => String::from("header faulty"),
        Reason::Latitude => String::from("latitude in no row"),
        Reason::Column => String::from("column too large"),
        Reason::NoValue => String::from("no value"),
        other => panic!("a lookup is not refused for {other:?}"),
    };
    format!("refused {} {words}\n", refusal.number())
}

/// The line for a value that was looked up.
pub fn line(answer: Result<i32, Refusal>) -> String {
    match answer {
        Ok(value) => format!("variation {value}\n"),
        Err(refusal) => refusal_line(refusal),
    }
}

/// The line for a change.
pub fn change_line(answer: Result<i32, Refusal>) -> String {
    match answer {
        Ok(change) => format!("change {change}\n"),
        Err(refusal) => refusal_line(refusal),
    }
}
