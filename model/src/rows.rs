//! The rows of the test tray that are run, those of 01 without a star and those
//! that M-100, M-101 and M-104 added, in plain text. The proved library must
//! write the same (`bindings/tests/rows.rs`).

use crate::bits::{bits_of, bytes_of};
use crate::chip::{Chip, Event, MemoryCommand, WriteMode};
use crate::crc::crc8;
use crate::memory::{
    blank_image, check_page, page_bytes, DATA_LENGTH, DATA_PROTECTION, REDIRECTION_PROTECTION,
    USED_BITMAP,
};
use crate::notes;
use crate::number_read::read_number;
use crate::publisher::{update, Outcome};
use crate::random::chain_image;
use crate::refusal::Refusal;
use crate::walk::{walk, Final, Verdict};

/// What a row of the quick mode begins with.
fn mode_text(mode: WriteMode) -> &'static str {
    match mode {
        WriteMode::Ordinary => "",
        WriteMode::Quick => "quick, ",
    }
}

fn refusal_text(refusal: Refusal) -> String {
    let number = refusal.number();
    match refusal.page_given_back() {
        Some(page) => format!("refused {number} with {page}"),
        None => format!("refused {number}"),
    }
}

fn walk_text(image: &[u8], page: u8) -> String {
    match walk(image, page) {
        Ok(Verdict::Final(Final { page, hops })) => format!("final {page} hops {hops}"),
        Ok(Verdict::Loop) => String::from("loop"),
        Ok(Verdict::Outside(number)) => format!("outside {number}"),
        Err(refusal) => refusal_text(refusal),
    }
}

/// Each byte with a space before it.
fn bytes_text(bytes: &[u8]) -> String {
    bytes.iter().map(|byte| format!(" {byte:02x}")).collect()
}

fn send(chip: &mut Chip, bytes: &[u8]) {
    for bit in bits_of(bytes) {
        chip.event(Event::Slot(bit));
    }
}

fn read_text(chip: &mut Chip, count: usize) -> String {
    let bits: Vec<bool> = (0..8 * count)
        .map(|_| chip.event(Event::Slot(true)))
        .collect();
    bytes_text(&bytes_of(&bits))
}

/// Reset, Skip ROM and these bytes.
fn begin(chip: &mut Chip, bytes: &[u8]) {
    chip.event(Event::Reset);
    send(chip, &[0xCC]);
    send(chip, bytes);
}

/// What is read from a data address by Read Memory.
fn held(chip: &mut Chip, address: u8) -> String {
    begin(chip, &[0xF0, address, 0x00]);
    read_text(chip, 1)
}

/// A chip with bytes at data addresses 000h, 025h, 045h, 065h and 7FFh; page 3,
/// where 065h is, is protected.
fn plug() -> Chip {
    let mut image = blank_image();
    for (address, byte) in [
        (0x000, 0x3C),
        (0x025, 0xF0),
        (0x045, 0x5A),
        (0x065, 0x5A),
        (0x7FF, 0x5A),
    ] {
        image[address] = byte;
    }
    image[DATA_LENGTH] = !(1 << 3);
    Chip::power_up([0; 8], image).expect("the image has its length")
}

/// What is read after a start address: a byte, its CRC, then ones; ones alone
/// where the memory does not have the address; with bits set that the chip
/// drops, what follows the address without them.
fn reads() -> String {
    let mut text = String::new();
    for (name, command, start) in [
        ("read memory", 0xF0, 0x07FFu16),
        ("read memory", 0xF0, 0x0800),
        ("read memory", 0xF0, 0xFFFF),
        ("extended read", 0xA5, 0x0800),
        ("read status", 0xAA, 0x013F),
        ("read status", 0xAA, 0x0140),
        ("read status", 0xAA, 0x093F),
        ("read status", 0xAA, 0x0940),
    ] {
        let mut chip = plug();
        let [low, high] = start.to_le_bytes();
        begin(&mut chip, &[command, low, high]);
        let read = read_text(&mut chip, 5);
        text += &format!("{name} from {start:04x}:{read}\n");
    }
    text
}

/// Bytes written, read back, and then read by Read Memory; the last two with a
/// bit of the start address set that the chip drops. A quick write has no CRC.
fn writes() -> String {
    let mut text = String::new();
    for (words, mode, start, sent) in [
        ("0f over f0", WriteMode::Quick, 0x0025u16, 0x0F),
        ("ff over 5a", WriteMode::Quick, 0x0045, 0xFF),
        ("0f over a protected 5a", WriteMode::Quick, 0x0065, 0x0F),
        ("0f over f0 from 0825", WriteMode::Quick, 0x0825, 0x0F),
        ("0f over f0 from 0825", WriteMode::Ordinary, 0x0825, 0x0F),
    ] {
        let mut chip = plug();
        let [low, high] = start.to_le_bytes();
        let command = MemoryCommand::WriteMemory(mode).byte();
        begin(&mut chip, &[command, low, high, sent]);
        let (with, crc) = match mode {
            WriteMode::Ordinary => (", crc", read_text(&mut chip, 2)),
            WriteMode::Quick => ("", String::new()),
        };
        chip.event(Event::Pulse);
        let back = read_text(&mut chip, 1);
        let held = held(&mut chip, low);
        let quick = mode_text(mode);
        text += &format!("{quick}{words}{with}, read back, read:{crc}{back}{held}\n");
    }
    text
}

/// Two bytes by a quick write from a start address: the second beyond the
/// last address, or both, or the start with a bit set that the chip drops.
fn quick_starts() -> String {
    let mut text = String::new();
    for (place, command, start) in [
        ("", 0xF3, 0x07FFu16),
        ("", 0xF3, 0x0800),
        ("in status ", 0xF5, 0x013F),
        ("in status ", 0xF5, 0x0140),
        ("in status ", 0xF5, 0x093F),
    ] {
        let mut chip = plug();
        let [low, high] = start.to_le_bytes();
        begin(&mut chip, &[command, low, high]);
        let mut back = String::new();
        for sent in [0x0F, 0x33] {
            send(&mut chip, &[sent]);
            chip.event(Event::Pulse);
            back += &read_text(&mut chip, 1);
        }
        text += &format!("quick, 0f and 33 {place}from {start:04x}, read back:{back}\n");
    }
    text
}

/// A quick write of 0Fh over 5Ah with its pulse after so many slots of data: one
/// short, the whole byte, and one slot more; then the byte is read.
fn quick_pulses() -> String {
    let mut text = String::new();
    for slots in [7, 8, 9] {
        let mut chip = plug();
        begin(&mut chip, &[0xF3, 0x45, 0x00]);
        for &bit in &bits_of(&[0x0F, 0xFF])[..slots] {
            chip.event(Event::Slot(bit));
        }
        chip.event(Event::Pulse);
        let held = held(&mut chip, 0x45);
        text += &format!("quick, 0f over 5a, pulse after {slots} slots, read:{held}\n");
    }
    text
}

fn zero_number() -> String {
    let number = [0; 8];
    let mut chip = Chip::power_up(number, blank_image()).expect("the image has its length");
    let end = match read_number(&mut chip).0 {
        Ok(_) => String::from("accepted"),
        Err(refusal) => refusal_text(refusal),
    };
    let crc = bytes_text(&[crc8(&number[..7])]);
    format!("eight zero bytes as a number: crc-8{crc}, {end}\n")
}

/// Page 0 holds 11h in every byte, and is superseded by 22h in every byte. The
/// cut comes before and after the pulse that makes this visible.
fn cuts(mode: WriteMode, pulse: usize) -> String {
    let quick = mode_text(mode);
    let mut text = String::new();
    for (events, final_page) in [(pulse - 1, 0), (pulse, 1)] {
        let mut image = blank_image();
        image[..32].fill(0x11);
        let left = update(&image, &[0x22; 32], 0, mode, Some(events))
            .expect("there is a free page")
            .image;
        let verdict = walk_text(&left, 0);
        let page = check_page(final_page).expect("there is such a page");
        let bytes = bytes_text(page_bytes(&left, page));
        text += &format!("{quick}cut after event {events}: page 0 {verdict},{bytes}\n");
    }
    text
}

fn update_text(image: &[u8], page: u8, mode: WriteMode) -> String {
    match update(image, &[0x22; 32], page, mode, None).map(|run| run.outcome) {
        Ok(Outcome::Published(pages)) => format!("L = {}, T = {}", pages.l, pages.t),
        Ok(Outcome::Cut) => String::from("cut"),
        Ok(Outcome::Refused(refusal)) | Err(refusal) => refusal_text(refusal),
    }
}

fn updates(mode: WriteMode) -> String {
    let quick = mode_text(mode);
    let mut image = blank_image();
    let zero = update_text(&image, 0, mode);
    let one = update_text(&image, 1, mode);
    let bitmap = DATA_LENGTH + usize::from(USED_BITMAP);
    // Pages 2 to 63 are marked used.
    image[bitmap..bitmap + 8].fill(0x00);
    image[bitmap] = 0x03;
    let full = update_text(&image, 1, mode);
    format!(
        "{quick}blank image, p = 0: {zero}\n\
         {quick}blank image, p = 1: {one}\n\
         {quick}the same with pages 2 to 63 marked used, p = 1: {full}\n"
    )
}

/// Page 5 names page 9, with these fields' bits of these pages cleared.
fn led_text(words: &str, cleared: &[(u16, u8)], mode: WriteMode) -> String {
    let quick = mode_text(mode);
    let mut image = chain_image(&[5, 9]);
    for &(field, page) in cleared {
        image[DATA_LENGTH + usize::from(field) + usize::from(page / 8)] &= !(1 << (page % 8));
    }
    let end = update_text(&image, 5, mode);
    format!("{quick}page 5 naming 9, {words}, p = 5: {end}\n")
}

/// L is 9, and T is 1 where that is free.
fn protected(mode: WriteMode) -> String {
    let data = |page| (DATA_PROTECTION, page);
    let redirection = |page| (REDIRECTION_PROTECTION, page);
    [
        led_text("nothing protected", &[], mode),
        led_text("data of 5 protected", &[data(5)], mode),
        led_text("data of 1 protected", &[data(1)], mode),
        led_text("data of 9 protected", &[data(9)], mode),
        led_text("redirection byte of 9 protected", &[redirection(9)], mode),
        led_text("both of 9 protected", &[data(9), redirection(9)], mode),
    ]
    .concat()
}

/// All rows, a line each.
pub fn text() -> String {
    [
        reads(),
        writes(),
        quick_starts(),
        quick_pulses(),
        zero_number(),
        cuts(WriteMode::Ordinary, 1213),
        updates(WriteMode::Ordinary),
        protected(WriteMode::Ordinary),
        cuts(WriteMode::Quick, 669),
        updates(WriteMode::Quick),
        protected(WriteMode::Quick),
        notes::text(),
    ]
    .concat()
}
