//! What the program `program_demo` must write: a plug listed, two of its pages
//! read over the bus, and one of them superseded with the power cut in between.

use crate::chip::{Chip, WriteMode};
use crate::memory::{check_page, redirection_byte, PAGE_COUNT, PAGE_LENGTH};
use crate::page_read::{read_page, PageReading};
use crate::publisher::{update, Publisher};
use crate::refusal::{Reason, Refusal};
use crate::sheet::{self, Sheet};
use crate::walk::Final;

/// The page that is asked for, and the page that is superseded.
const ASKED: u8 = 5;
const SUPERSEDED: u8 = 1;

const NEW_PAGE: [u8; PAGE_LENGTH] = [0x22; PAGE_LENGTH];

fn refusal_text(refusal: Refusal) -> String {
    let number = refusal.number();
    match refusal.reason {
        Reason::Outside(page) => format!("refused {number} outside {page}"),
        Reason::Loop => format!("refused {number} loop"),
        _ => format!("refused {number}"),
    }
}

fn end_text(result: Result<Final, Refusal>) -> String {
    match result {
        Ok(Final { page, hops }) => format!("final {page} hops {hops}"),
        Err(refusal) => refusal_text(refusal),
    }
}

fn redirection_line(image: &[u8], page: u8) -> String {
    let byte = redirection_byte(image, check_page(page).expect("the chip has the page"));
    let names = match byte.names() {
        Some(number) => format!("names page {number}"),
        None => String::from("names no page"),
    };
    let last = PAGE_COUNT - 1;
    format!(
        "page {page}: redirection byte {:02x}h {names}, the last page is {last}\n",
        byte.0
    )
}

fn read(number: [u8; 8], image: &[u8], page: u8) -> PageReading {
    let mut chip = Chip::power_up(number, image.to_vec()).expect("the image has its length");
    read_page(&mut chip, page).expect("the chip has the page")
}

fn read_line(sheet: &Sheet, page: u8) -> String {
    let reading = read(sheet.number, &sheet.image, page);
    let end = end_text(reading.result);
    format!(
        "page {page} read over the bus: {end}, after {} events\n",
        reading.events
    )
}

/// The page read over the bus after an update that was cut after so many
/// events.
fn read_after(sheet: &Sheet, events: usize) -> PageReading {
    let run = update(
        &sheet.image,
        &NEW_PAGE,
        SUPERSEDED,
        WriteMode::Ordinary,
        Some(events),
    )
    .expect("the update starts");
    read(sheet.number, &run.image, SUPERSEDED)
}

fn after_line(words: String, reading: &PageReading, old: &PageReading) -> String {
    let which = if reading.buffer == old.buffer {
        "the old page"
    } else if reading.buffer == NEW_PAGE {
        "the new page"
    } else {
        "neither page"
    };
    let end = end_text(reading.result);
    format!("update of page {SUPERSEDED}, {words}: {end}, {which}\n")
}

fn update_lines(sheet: &Sheet) -> String {
    let image = &sheet.image;
    let publisher = match Publisher::start(image, &NEW_PAGE, SUPERSEDED, WriteMode::Ordinary) {
        Ok(publisher) => publisher,
        Err(refusal) => return format!("update of page {SUPERSEDED}: {}\n", refusal_text(refusal)),
    };
    let whole = publisher.planned_events().len();
    let old = read(sheet.number, image, SUPERSEDED);
    let mut text = String::new();
    let line = |events: usize| {
        let words = format!("cut after event {events}");
        after_line(words, &read_after(sheet, events), &old)
    };
    // Every cut is tried, up to the first after which another page is read.
    if let Some(visible) = (1..=whole).find(|&k| read_after(sheet, k).buffer != old.buffer) {
        text.push_str(&line(visible - 1));
        text.push_str(&line(visible));
    }
    let words = format!("all {whole} events");
    text.push_str(&after_line(words, &read_after(sheet, whole), &old));
    text
}

/// All that the program writes for what it was given.
pub fn text(bytes: &[u8]) -> String {
    match sheet::parse(bytes) {
        Err(_) => sheet::list(bytes),
        Ok(stored) => [
            redirection_line(&stored.image, ASKED),
            sheet::list(bytes),
            read_line(&stored, ASKED),
            read_line(&stored, SUPERSEDED),
            update_lines(&stored),
        ]
        .concat(),
    }
}
