//! The rows of the statement's test tray that are run (those without a star and
//! those that later requests added) and Application Note 27's values, by the
//! proved library, a line of plain text each. `rows.txt` has them as the second
//! model writes them.

use plug::{crc16, crc8, page, update, walk, Chip, Event, NumberRead, Refusal, Verdict, WriteMode};

/// What stands before a page's data in the image, and the addresses of the
/// status table that the rows speak of.
const STATUS: usize = 2048;
const DATA_PROTECTION: usize = 0x000;
const REDIRECTION_PROTECTION: usize = 0x020;
const USED_PAGES: usize = 0x040;
const REDIRECTIONS: usize = 0x100;

const BLANK: [u8; plug::IMAGE_SIZE] = [0xFF; plug::IMAGE_SIZE];

// ---- text

/// Each byte with a space before it.
fn bytes_text(bytes: &[u8]) -> String {
    bytes.iter().map(|byte| format!(" {byte:02x}")).collect()
}

fn refusal_text(refusal: Refusal) -> String {
    match refusal.value {
        Some(value) => format!("refused {} with {value}", refusal.number),
        None => format!("refused {}", refusal.number),
    }
}

/// What a row of the quick mode begins with.
fn mode_text(mode: WriteMode) -> &'static str {
    match mode {
        WriteMode::Ordinary => "",
        WriteMode::Quick => "quick, ",
    }
}

// ---- a chip on the line

/// A chip, its image, and what has been read of it.
struct Line {
    chip: Chip,
    image: [u8; plug::IMAGE_SIZE],
    read: String,
}

impl Line {
    /// Bytes at data addresses 000h, 025h, 045h, 065h and 7FFh; page 3, where
    /// 065h is, is protected.
    fn new() -> Line {
        let mut image = BLANK;
        image[0x000] = 0x3C;
        image[0x025] = 0xF0;
        image[0x045] = 0x5A;
        image[0x065] = 0x5A;
        image[0x7FF] = 0x5A;
        image[STATUS + DATA_PROTECTION] = 0xF7;
        Line {
            chip: Chip::power_up(&[0; 8]),
            image,
            read: String::new(),
        }
    }

    fn event(mut self, event: Event) -> Line {
        self.chip.event(event, &mut self.image).unwrap();
        self
    }

    /// Slots with these bits, and their replies.
    fn slots(&mut self, bits: impl Iterator<Item = bool>) -> Vec<bool> {
        bits.map(|bit| self.chip.event(Event::Slot(bit), &mut self.image).unwrap())
            .collect()
    }

    fn bits(mut self, bits: &[bool]) -> Line {
        self.slots(bits.iter().copied());
        self
    }

    fn send(mut self, bytes: &[u8]) -> Line {
        for byte in bytes {
            self.slots((0..8).map(|k| byte >> k & 1 == 1));
        }
        self
    }

    fn read(mut self, count: usize) -> Line {
        for _ in 0..count {
            let replies = self.slots((0..8).map(|_| true));
            let byte = (0..8).map(|k| u8::from(replies[k]) << k).sum();
            self.read += &bytes_text(&[byte]);
        }
        self
    }

    /// Reset, Skip ROM and these bytes.
    fn begin(self, bytes: &[u8]) -> Line {
        self.event(Event::Reset).send(&[0xCC]).send(bytes)
    }

    fn row(self, words: &str) -> String {
        format!("{words}:{}\n", self.read)
    }
}

/// A byte, its CRC, then ones; ones alone where the memory does not have the
/// address; and the same with bits set that the chip drops.
fn reads() -> String {
    let row = |words: &str, command: u8, start: u16| {
        let [low, high] = start.to_le_bytes();
        let line = Line::new().begin(&[command, low, high]).read(5);
        line.row(&format!("{words} from {start:04x}"))
    };
    [
        row("read memory", 0xF0, 0x07FF),
        row("read memory", 0xF0, 0x0800),
        row("read memory", 0xF0, 0xFFFF),
        row("extended read", 0xA5, 0x0800),
        row("read status", 0xAA, 0x013F),
        row("read status", 0xAA, 0x0140),
        row("read status", 0xAA, 0x093F),
        row("read status", 0xAA, 0x0940),
    ]
    .concat()
}

/// Bytes written, read back, and then read by Read Memory; the last two with a
/// bit of the start address set that the chip drops.
fn writes() -> String {
    let quick = |words: &str, start: u16, byte: u8| {
        let [low, high] = start.to_le_bytes();
        let line = Line::new().begin(&[0xF3, low, high, byte]);
        let line = line.event(Event::Pulse).read(1);
        let line = line.begin(&[0xF0, low, 0x00]).read(1);
        line.row(&format!("quick, {words}, read back, read"))
    };
    let ordinary = Line::new().begin(&[0x0F, 0x25, 0x08, 0x0F]).read(2);
    let ordinary = ordinary.event(Event::Pulse).read(1);
    let ordinary = ordinary.begin(&[0xF0, 0x25, 0x00]).read(1);
    [
        quick("0f over f0", 0x0025, 0x0F),
        quick("ff over 5a", 0x0045, 0xFF),
        quick("0f over a protected 5a", 0x0065, 0x0F),
        quick("0f over f0 from 0825", 0x0825, 0x0F),
        ordinary.row("0f over f0 from 0825, crc, read back, read"),
    ]
    .concat()
}

/// Two bytes by a quick write: the second beyond the last address, or both, or
/// the start with a bit set that the chip drops.
fn quick_starts() -> String {
    let row = |place: &str, command: u8, start: u16| {
        let [low, high] = start.to_le_bytes();
        let line = Line::new().begin(&[command, low, high]);
        let line = line.send(&[0x0F]).event(Event::Pulse).read(1);
        let line = line.send(&[0x33]).event(Event::Pulse).read(1);
        line.row(&format!("quick, 0f and 33 {place}from {start:04x}, read back"))
    };
    [
        row("", 0xF3, 0x07FF),
        row("", 0xF3, 0x0800),
        row("in status ", 0xF5, 0x013F),
        row("in status ", 0xF5, 0x0140),
        row("in status ", 0xF5, 0x093F),
    ]
    .concat()
}

/// The pulse comes one slot early, in its place, and one slot late; then the
/// byte is read.
fn quick_pulses() -> String {
    let data = [true, true, true, true, false, false, false, false, true];
    let row = |slots: usize| {
        let line = Line::new().begin(&[0xF3, 0x45, 0x00]).bits(&data[..slots]);
        let line = line.event(Event::Pulse).begin(&[0xF0, 0x45, 0x00]).read(1);
        line.row(&format!("quick, 0f over 5a, pulse after {slots} slots, read"))
    };
    [row(7), row(8), row(9)].concat()
}

// ---- the number

fn zero_number() -> String {
    let number = [0; 8];
    let (mut chip, mut image) = (Chip::power_up(&number), BLANK);
    let (mut master, mut reply) = (NumberRead::start(), true);
    let end = loop {
        match master.call(reply) {
            Ok(plug::Answer::Event(event)) => reply = chip.event(event, &mut image).unwrap(),
            Ok(plug::Answer::End(_)) => break String::from("accepted"),
            Err(refusal) => break refusal_text(refusal),
        }
    };
    let crc = bytes_text(&[crc8(0, &number[..7])]);
    format!("eight zero bytes as a number: crc-8{crc}, {end}\n")
}

// ---- updates

/// A page that is superseded by 22h in every byte, cut after so many events.
fn updated(
    image: &mut [u8],
    from: u8,
    mode: WriteMode,
    events: u32,
) -> Result<plug::Published, Refusal> {
    update(image, &[0; 8], &[0x22; 32], from, mode, events)
}

/// Page 0 holds 11h in every byte; then the page where it ends is told.
fn cut(mode: WriteMode, events: u32) -> String {
    let mut image = BLANK;
    image[..32].fill(0x11);
    updated(&mut image, 0, mode, events).unwrap();
    let Ok(Verdict::Final(end)) = walk(&image, 0) else {
        panic!("the chain from page 0 ends");
    };
    let bytes = bytes_text(&page(&image, end.page).unwrap());
    let quick = mode_text(mode);
    let (at, hops) = (end.page, end.hops);
    format!("{quick}cut after event {events}: page 0 final {at} hops {hops},{bytes}\n")
}

/// A whole update; in the quick mode it has fewer events.
fn whole(mode: WriteMode, words: &str, from: u8, mut image: [u8; plug::IMAGE_SIZE]) -> String {
    let end = match updated(&mut image, from, mode, 1222) {
        Ok(pages) => format!("L = {}, T = {}", pages.l, pages.t),
        Err(refusal) => refusal_text(refusal),
    };
    format!("{}{words}, p = {from}: {end}\n", mode_text(mode))
}

fn full() -> [u8; plug::IMAGE_SIZE] {
    let mut image = BLANK;
    image[STATUS + USED_PAGES..][..8].fill(0x00);
    image[STATUS + USED_PAGES] = 0x03;
    image
}

/// Page 5 names page 9, so that L is 9, and T is 1 where that is free. The
/// bytes of the status table are those of pages 0 to 7 and of pages 8 to 15.
fn led(mode: WriteMode, words: &str, data: [u8; 2], redirections: u8) -> String {
    let mut image = BLANK;
    image[STATUS + REDIRECTIONS + 5] = !9;
    image[STATUS + DATA_PROTECTION..][..2].copy_from_slice(&data);
    image[STATUS + REDIRECTION_PROTECTION + 1] = redirections;
    whole(mode, &format!("page 5 naming 9, {words}"), 5, image)
}

/// The visible event is the one after which the cut leaves the new page.
fn updates(mode: WriteMode, visible: u32) -> String {
    [
        cut(mode, visible - 1),
        cut(mode, visible),
        whole(mode, "blank image", 0, BLANK),
        whole(mode, "blank image", 1, BLANK),
        whole(mode, "the same with pages 2 to 63 marked used", 1, full()),
        led(mode, "nothing protected", [0xFF, 0xFF], 0xFF),
        led(mode, "data of 5 protected", [0xDF, 0xFF], 0xFF),
        led(mode, "data of 1 protected", [0xFD, 0xFF], 0xFF),
        led(mode, "data of 9 protected", [0xFF, 0xFD], 0xFF),
        led(mode, "redirection byte of 9 protected", [0xFF, 0xFF], 0xFD),
        led(mode, "both of 9 protected", [0xFF, 0xFD], 0xFD),
    ]
    .concat()
}

// ---- Application Note 27

/// What each byte makes of a cleared register, sixteen to a line.
fn table(words: &str, entry: impl Fn(u8) -> String) -> String {
    let mut text = format!("{words} of each single byte, 16 to a row:\n");
    for byte in 0..=255 {
        text += &entry(byte);
        if byte % 16 == 15 {
            text += "\n";
        }
    }
    text
}

fn notes() -> String {
    let word = |crc: u16| format!(" {crc:04x}");
    let published = [0x02, 0x1C, 0xB8, 0x01, 0x00, 0x00, 0x00];
    let digits = b"123456789";
    [
        table("crc-8", |byte| bytes_text(&[crc8(0, &[byte])])),
        table("crc-16", |byte| word(crc16(0, &[byte]))),
        format!("crc-8 of 02 1c b8 01 00 00 00:{}\n", bytes_text(&[crc8(0, &published)])),
        format!("crc-16 register 90f1 after byte 75:{}\n", word(crc16(0x90F1, &[0x75]))),
        format!("crc-8 of 123456789:{}\n", bytes_text(&[crc8(0, digits)])),
        format!("crc-16 of 123456789:{}\n", word(crc16(0, digits))),
    ]
    .concat()
}

#[test]
fn the_library_writes_the_rows_of_the_second_model() {
    let rows = [
        reads(),
        writes(),
        quick_starts(),
        quick_pulses(),
        zero_number(),
        updates(WriteMode::Ordinary, 1213),
        updates(WriteMode::Quick, 669),
        notes(),
    ]
    .concat();
    let expected = include_str!("rows.txt");
    for (row, wanted) in rows.lines().zip(expected.lines()) {
        assert_eq!(row, wanted);
    }
    assert_eq!(rows.lines().count(), expected.lines().count());
}
