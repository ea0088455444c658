//! The chip, event by event.

mod common;

use common::{
    assert_silent, begin, blank_chip, chip_with, clear_bit, read, read_byte, redirection, send,
    send_bits, status, NUMBER,
};
use ds2505_model::bits::{bits_of, bits_of_byte};
use ds2505_model::chip::{Chip, Event, Stage};
use ds2505_model::crc::{crc16_sent, crc16_sent_after_loading};
use ds2505_model::memory::blank_image;
use ds2505_model::random::{any_image, used_image, Generator};

const ROM_COMMANDS: [u8; 4] = [0x33, 0x55, 0xF0, 0xCC];
const MEMORY_COMMANDS: [u8; 7] = [0xF0, 0xAA, 0xA5, 0x0F, 0x55, 0xF3, 0xF5];

/// The write commands for each memory, the ordinary one first.
const WRITE_MEMORY: [u8; 2] = [0x0F, 0xF3];
const WRITE_STATUS: [u8; 2] = [0x55, 0xF5];

/// How many slots of CRC there are between a byte to write and its pulse.
fn crc_slots(command: u8) -> usize {
    match command {
        0x0F | 0x55 => 16,
        0xF3 | 0xF5 => 0,
        _ => panic!("not a write command"),
    }
}

/// Reset, Skip ROM, the write command, a start address and a byte, then the
/// slots of the CRC: all that arms a chip.
fn events_to_arm(command: u8, start: u16, byte: u8) -> Vec<Event> {
    let [low, high] = start.to_le_bytes();
    let sent = bits_of(&[0xCC, command, low, high, byte]);
    let mut events = vec![Event::Reset];
    events.extend(sent.into_iter().map(Event::Slot));
    events.extend(vec![Event::Slot(true); crc_slots(command)]);
    events
}

/// Status bytes as the chip must read them.
fn visible_status(image: &[u8]) -> Vec<u8> {
    (0..320)
        .map(|address| match address {
            0x000..=0x007 | 0x020..=0x027 | 0x040..=0x047 | 0x100..=0x13F => image[status(address)],
            _ => 0xFF,
        })
        .collect()
}

#[test]
fn power_up_needs_a_whole_image() {
    for length in [0, 1, 2367, 2369, 2392] {
        let refusal = Chip::power_up(NUMBER, vec![0xFF; length]).unwrap_err();
        assert_eq!(refusal.number(), 1);
    }
}

#[test]
fn silent_until_reset() {
    let mut chip = blank_chip();
    assert_eq!(chip.stage, Stage::Silent);
    assert_silent(&mut chip);
    assert!(!chip.event(Event::Reset));
    assert!(!chip.event(Event::Reset));
    send(&mut chip, &[0x33]);
    assert_eq!(read(&mut chip, 8), NUMBER);
}

#[test]
fn power_loss_at_any_moment() {
    let mut image = blank_image();
    image[32 * 3..32 * 4].fill(0x96);
    for (command, armed_at) in [(0x0F, 57), (0xF3, 41)] {
        let mut events = events_to_arm(command, 0x60, 0x21);
        assert_eq!(events.len(), armed_at);
        events.push(Event::Pulse);
        events.extend([Event::Slot(true); 8]);
        for count in 0..=events.len() {
            let mut chip = chip_with(image.clone());
            for &event in &events[..count] {
                chip.event(event);
            }
            let before = chip.image.clone();
            assert!(chip.event(Event::PowerLoss));
            assert_eq!(chip.image, before);
            assert_silent(&mut chip);
            assert!(!chip.event(Event::Reset));
            let pulsed = count > armed_at;
            assert_eq!(before[0x60], if pulsed { 0x96 & 0x21 } else { 0x96 });
        }
    }
}

#[test]
fn read_number() {
    let mut chip = blank_chip();
    chip.event(Event::Reset);
    send(&mut chip, &[0x33]);
    assert_eq!(read(&mut chip, 8), NUMBER);
    // A memory command may follow.
    send(&mut chip, &[0xA5, 0x00, 0x00]);
    assert_eq!(read_byte(&mut chip), 0xFF);
    assert_eq!(read(&mut chip, 2), crc16_sent(&[0xA5, 0x00, 0x00, 0xFF]));
}

#[test]
fn any_bytes_as_number() {
    let mut generator = Generator::new(10);
    for _ in 0..50 {
        let number: [u8; 8] = generator.bytes();
        let mut chip = Chip::power_up(number, blank_image()).unwrap();
        chip.event(Event::Reset);
        send(&mut chip, &[0x33]);
        assert_eq!(read(&mut chip, 8), number);
    }
}

#[test]
fn match_number() {
    let mut chip = blank_chip();
    chip.event(Event::Reset);
    send(&mut chip, &[0x55]);
    send(&mut chip, &NUMBER);
    send(&mut chip, &[0xF0, 0xFF, 0x07]);
    assert_eq!(read_byte(&mut chip), 0xFF);
    assert_eq!(read(&mut chip, 2), crc16_sent(&[0xF0, 0xFF, 0x07, 0xFF]));

    for wrong in 0..64 {
        let mut bits = bits_of(&NUMBER);
        bits[wrong] = !bits[wrong];
        let mut chip = blank_chip();
        chip.event(Event::Reset);
        send(&mut chip, &[0x55]);
        send_bits(&mut chip, &bits[..wrong]);
        assert_ne!(chip.stage, Stage::Silent);
        send_bits(&mut chip, &bits[wrong..=wrong]);
        assert_eq!(chip.stage, Stage::Silent);
        assert_silent(&mut chip);
    }
}

#[test]
fn search_number() {
    let number = bits_of(&NUMBER);
    let search = |wrong: Option<usize>| {
        let mut chip = blank_chip();
        chip.event(Event::Reset);
        send(&mut chip, &[0xF0]);
        for (place, &bit) in number.iter().enumerate() {
            assert_eq!(chip.event(Event::Slot(true)), bit);
            assert_eq!(chip.event(Event::Slot(true)), !bit);
            let choice = if wrong == Some(place) { !bit } else { bit };
            assert_eq!(chip.event(Event::Slot(choice)), choice);
            if wrong == Some(place) {
                assert_eq!(chip.stage, Stage::Silent);
                assert_silent(&mut chip);
                return chip;
            }
        }
        chip
    };
    let mut chip = search(None);
    send(&mut chip, &[0xAA, 0x3F, 0x01]);
    assert_eq!(read_byte(&mut chip), 0xFF);
    assert_eq!(read(&mut chip, 2), crc16_sent(&[0xAA, 0x3F, 0x01, 0xFF]));
    for wrong in 0..64 {
        search(Some(wrong));
    }
}

#[test]
fn unknown_commands_silence() {
    for byte in 0..=0xFF {
        let mut chip = blank_chip();
        chip.event(Event::Reset);
        send(&mut chip, &[byte]);
        assert_eq!(chip.stage == Stage::Silent, !ROM_COMMANDS.contains(&byte));
        let mut chip = blank_chip();
        begin(&mut chip, &[byte]);
        let known = MEMORY_COMMANDS.contains(&byte);
        assert_eq!(chip.stage == Stage::Silent, !known);
        if !known {
            assert_silent(&mut chip);
        }
    }
}

#[test]
fn start_addresses_keep_eleven_bits() {
    for command in MEMORY_COMMANDS {
        let last: u16 = match command {
            0xAA | 0x55 | 0xF5 => 0x13F,
            _ => 0x7FF,
        };
        for address in [
            0, 0x13F, 0x140, 0x7FF, 0x800, 0x93F, 0x940, 0x1000, 0x8000, 0xF93F, 0xFFFF,
        ] {
            let after = |address: u16| {
                let mut chip = blank_chip();
                begin(&mut chip, &[command]);
                let bits = bits_of(&address.to_le_bytes());
                send_bits(&mut chip, &bits[..15]);
                assert_ne!(chip.stage, Stage::Silent);
                send_bits(&mut chip, &bits[15..]);
                chip.stage
            };
            let kept = address % 0x800;
            assert_eq!(after(address), after(kept));
            assert_eq!(after(address) == Stage::Silent, kept > last);
        }
    }
}

/// The CRC is over the address as the chip keeps it, so a master that compares
/// it with the address as sent finds out, exactly if a bit was dropped.
#[test]
fn dropped_bits_are_noticed() {
    let mut generator = Generator::new(100);
    let image = used_image(&mut generator);
    for high in 0..=0xFF {
        let kept = high % 8;
        let fits = |crc: Vec<u8>, command: u8, low: u8, bytes: &[u8]| {
            let over = |high: u8| crc16_sent(&[&[command, low, high], bytes].concat());
            assert_eq!(crc, over(kept));
            crc == over(high)
        };
        let mut chip = chip_with(image.clone());
        begin(&mut chip, &[0xF0, 0xF0, high]);
        let bytes = read(&mut chip, 0x800 - (usize::from(kept) * 256 + 0xF0));
        assert_eq!(fits(read(&mut chip, 2), 0xF0, 0xF0, &bytes), high < 8);
        begin(&mut chip, &[0xA5, 0xE5, high]);
        let byte = read(&mut chip, 1);
        assert_eq!(fits(read(&mut chip, 2), 0xA5, 0xE5, &byte), high < 8);
        begin(&mut chip, &[0x0F, 0x21, high, 0x5A]);
        assert_eq!(fits(read(&mut chip, 2), 0x0F, 0x21, &[0x5A]), high < 8);
        // The status memory has addresses up to 13Fh: from any other the chip
        // is silent and sends no CRC.
        if kept < 2 {
            begin(&mut chip, &[0xAA, 0x3C, high]);
            let bytes = read(&mut chip, 4);
            assert_eq!(fits(read(&mut chip, 2), 0xAA, 0x3C, &bytes), high < 8);
            begin(&mut chip, &[0x55, 0x02, high, 0xFE]);
            assert_eq!(fits(read(&mut chip, 2), 0x55, 0x02, &[0xFE]), high < 8);
        } else {
            begin(&mut chip, &[0xAA, 0x3C, high]);
            assert_silent(&mut chip);
            begin(&mut chip, &[0x55, 0x02, high, 0xFE]);
            assert_silent(&mut chip);
        }
    }
}

/// A chip that a status address silences sends no CRC, and a master reads ones.
/// These never pass for a block of status bytes, but for some addresses and
/// bytes they are the CRC that the master of a write expects.
#[test]
fn ones_in_place_of_a_crc() {
    let silenced = || (0..=0xFFFF_u16).filter(|address| address % 0x800 >= 0x140);
    let sent_as_ones = |bytes: &[u8]| crc16_sent(bytes) == [0xFF, 0xFF];
    let blocks = silenced().filter(|address| {
        let [low, high] = address.to_le_bytes();
        let mut bytes = vec![0xAA, low, high];
        bytes.resize(3 + 8 - usize::from(low % 8), 0xFF);
        sent_as_ones(&bytes)
    });
    assert_eq!(blocks.count(), 0);
    let writes = silenced().flat_map(|address| {
        let [low, high] = address.to_le_bytes();
        (0..=0xFF).filter(move |&byte| sent_as_ones(&[0x55, low, high, byte]))
    });
    assert_eq!(writes.count(), 256);
}

#[test]
fn read_memory_from_its_last_byte() {
    let mut image = blank_image();
    image[0x7FF] = 0x3C;
    let mut chip = chip_with(image);
    begin(&mut chip, &[0xF0, 0xFF, 0x07]);
    assert_eq!(read_byte(&mut chip), 0x3C);
    assert_eq!(read(&mut chip, 2), crc16_sent(&[0xF0, 0xFF, 0x07, 0x3C]));
    assert_silent(&mut chip);
    // Start 0800h: a read from 0000h, with that address in the CRC.
    begin(&mut chip, &[0xF0, 0x00, 0x08]);
    let data = read(&mut chip, 0x800);
    assert_eq!(data, chip.image[..0x800]);
    let crc = crc16_sent(&[&[0xF0, 0x00, 0x00], &data[..]].concat());
    assert_eq!(read(&mut chip, 2), crc);
    assert_silent(&mut chip);
}

#[test]
fn read_memory() {
    let mut generator = Generator::new(11);
    for _ in 0..40 {
        let image = any_image(&mut generator);
        let start = generator.below(0x800) as u16;
        let [low, high] = start.to_le_bytes();
        let mut chip = chip_with(image.clone());
        begin(&mut chip, &[0xF0, low, high]);
        let data = &image[usize::from(start)..0x800];
        assert_eq!(read(&mut chip, data.len()), data);
        let crc = crc16_sent(&[&[0xF0, low, high], data].concat());
        assert_eq!(read(&mut chip, 2), crc);
        assert_silent(&mut chip);
    }
}

#[test]
fn read_status_from_everywhere() {
    let mut generator = Generator::new(12);
    let image = any_image(&mut generator);
    let visible = visible_status(&image);
    for start in 0..0x140usize {
        let [low, high] = (start as u16).to_le_bytes();
        let mut chip = chip_with(image.clone());
        begin(&mut chip, &[0xAA, low, high]);
        let end = start / 8 * 8 + 8;
        assert_eq!(read(&mut chip, end - start), visible[start..end]);
        let first = [&[0xAA, low, high], &visible[start..end]].concat();
        assert_eq!(read(&mut chip, 2), crc16_sent(&first));
        for bytes in visible[end..].chunks(8) {
            assert_eq!(read(&mut chip, 8), bytes);
            assert_eq!(read(&mut chip, 2), crc16_sent(bytes));
        }
        assert_silent(&mut chip);
        assert_eq!(chip.image, image);
    }
}

#[test]
fn extended_read() {
    let mut generator = Generator::new(13);
    let mut starts: Vec<usize> = vec![0, 1, 31, 32, 0x7DF, 0x7E0, 0x7FF];
    starts.extend((0..20).map(|_| generator.below(0x800) as usize));
    for start in starts {
        let image = any_image(&mut generator);
        let [low, high] = (start as u16).to_le_bytes();
        let mut chip = chip_with(image.clone());
        begin(&mut chip, &[0xA5, low, high]);
        let first_page = start / 32;
        for page in first_page..64 {
            let byte = image[redirection(page)];
            assert_eq!(read_byte(&mut chip), byte);
            let from = if page == first_page {
                assert_eq!(read(&mut chip, 2), crc16_sent(&[0xA5, low, high, byte]));
                start
            } else {
                assert_eq!(read(&mut chip, 2), crc16_sent(&[byte]));
                32 * page
            };
            let data = &image[from..32 * page + 32];
            assert_eq!(read(&mut chip, data.len()), data);
            assert_eq!(read(&mut chip, 2), crc16_sent(data));
        }
        assert_silent(&mut chip);
    }
}

/// Writes bytes from a start address, checking CRCs where there are any, and
/// gives what was read back of each.
fn write(chip: &mut Chip, command: u8, start: u16, bytes: &[u8]) -> Vec<u8> {
    let [low, high] = start.to_le_bytes();
    begin(chip, &[command, low, high]);
    let mut held = Vec::new();
    for (offset, &byte) in bytes.iter().enumerate() {
        send(chip, &[byte]);
        if crc_slots(command) > 0 {
            let crc = if offset == 0 {
                crc16_sent(&[command, low, high, byte])
            } else {
                crc16_sent_after_loading(start + offset as u16, byte)
            };
            assert_eq!(read(chip, 2), crc);
        }
        assert!(chip.event(Event::Pulse));
        held.push(read_byte(chip));
    }
    held
}

#[test]
fn write_is_and() {
    let mut image = blank_image();
    image[0x40] = 0xF0;
    image[0x41] = 0x5A;
    image[0x60] = 0x5A;
    clear_bit(&mut image, 0x000, 3);
    let mut expected = image.clone();
    expected[0x40] = 0x00;
    expected[0x42] = 0x3C;
    for command in WRITE_MEMORY {
        let mut chip = chip_with(image.clone());
        assert_eq!(
            write(&mut chip, command, 0x40, &[0x0F, 0xFF, 0x3C]),
            [0x00, 0x5A, 0x3C]
        );
        assert_eq!(write(&mut chip, command, 0x60, &[0x0F, 0x0F]), [0x5A, 0xFF]);
        assert_eq!(chip.image, expected);
    }
}

/// Bits cleared by either mode stay cleared for the other.
#[test]
fn one_mode_over_the_other() {
    for [first, second] in [[0x0F, 0xF3], [0xF3, 0x0F]] {
        let mut chip = blank_chip();
        assert_eq!(write(&mut chip, first, 0x40, &[0x5A, 0xC3]), [0x5A, 0xC3]);
        assert_eq!(write(&mut chip, second, 0x40, &[0x0F, 0x99]), [0x0A, 0x81]);
        assert_eq!(chip.image[0x40..0x42], [0x0A, 0x81]);
    }
}

#[test]
fn write_runs_over_a_protected_page() {
    let mut image = blank_image();
    clear_bit(&mut image, 0x000, 5);
    for command in WRITE_MEMORY {
        let mut chip = chip_with(image.clone());
        let held = write(&mut chip, command, 32 * 5 - 1, &[0x00; 34]);
        assert_eq!(held[0], 0x00);
        assert_eq!(held[1..33], [0xFF; 32]);
        assert_eq!(held[33], 0x00);
    }
}

#[test]
fn write_runs_over_a_protected_redirection_byte() {
    let mut image = blank_image();
    image[redirection(10)] = 0xF7;
    clear_bit(&mut image, 0x020, 10);
    let mut expected = image.clone();
    expected[redirection(9)] = 0x12;
    expected[redirection(11)] = 0x56;
    for command in WRITE_STATUS {
        let mut chip = chip_with(image.clone());
        let held = write(&mut chip, command, 0x109, &[0x12, 0x34, 0x56]);
        assert_eq!(held, [0x12, 0xF7, 0x56]);
        assert_eq!(chip.image, expected);
    }
}

#[test]
fn write_does_not_follow_redirection() {
    let mut image = blank_image();
    image[redirection(1)] = 0xFD;
    let mut expected = image.clone();
    expected[0x20] = 0x12;
    for command in WRITE_MEMORY {
        let mut chip = chip_with(image.clone());
        assert_eq!(write(&mut chip, command, 0x20, &[0x12]), [0x12]);
        assert_eq!(chip.image, expected);
    }
}

#[test]
fn write_to_the_last_addresses() {
    for [memory, status_memory] in [[0x0F, 0x55], [0xF3, 0xF5]] {
        let mut chip = blank_chip();
        assert_eq!(write(&mut chip, memory, 0x7FE, &[0x12, 0x34]), [0x12, 0x34]);
        assert_eq!(chip.stage, Stage::Silent);
        assert_silent(&mut chip);
        assert_eq!(chip.image[0x7FE..0x800], [0x12, 0x34]);
        assert_eq!(
            write(&mut chip, status_memory, 0x13E, &[0x56, 0x78]),
            [0x56, 0x78]
        );
        assert_eq!(chip.stage, Stage::Silent);
        assert_silent(&mut chip);
        assert_eq!(chip.image[status(0x13E)..], [0x56, 0x78]);
        assert_eq!(chip.image[..0x7FE], blank_image()[..0x7FE]);
    }
}

#[test]
fn write_all_of_status() {
    let mut generator = Generator::new(14);
    for round in 0..12 {
        let image = any_image(&mut generator);
        let bytes: Vec<u8> = (0..320).map(|_| generator.byte()).collect();
        let mut chip = chip_with(image.clone());
        let held = write(&mut chip, WRITE_STATUS[round % 2], 0x000, &bytes);
        let mut expected = image.clone();
        for address in 0..320 {
            let allowed = match address {
                0x000..=0x007 | 0x020..=0x027 | 0x040..=0x047 => true,
                // The protection bits written a moment ago count already.
                0x100..=0x13F => {
                    let page = address - 0x100;
                    (expected[status(0x020 + page / 8)] >> (page % 8)) & 1 == 1
                }
                _ => false,
            };
            if allowed {
                expected[status(address)] &= bytes[address];
            }
        }
        assert_eq!(chip.image, expected);
        assert_eq!(held, visible_status(&expected));
        assert_silent(&mut chip);
    }
}

#[test]
fn the_next_address_is_loaded_not_shifted() {
    let mut chip = blank_chip();
    write(&mut chip, 0x0F, 0x0FF, &[0x11]);
    send(&mut chip, &[0x22]);
    let crc = read(&mut chip, 2);
    assert_eq!(crc, crc16_sent_after_loading(0x0100, 0x22));
    assert_ne!(crc, crc16_sent(&[0x00, 0x01, 0x22]));
}

#[test]
fn slot_when_armed_silences() {
    for command in [WRITE_MEMORY, WRITE_STATUS].concat() {
        for bit in [false, true] {
            let mut chip = blank_chip();
            for event in events_to_arm(command, 0x000, 0x00) {
                chip.event(event);
            }
            assert!(matches!(chip.stage, Stage::Armed { .. }));
            assert_eq!(chip.event(Event::Slot(bit)), bit);
            assert_eq!(chip.stage, Stage::Silent);
            assert!(chip.event(Event::Pulse));
            assert_eq!(chip.image, blank_image());
            assert_silent(&mut chip);
        }
    }
}

/// Pulses before each event change nothing but for the one on the armed chip.
#[test]
fn pulses_when_not_armed() {
    for command in WRITE_MEMORY {
        let events = events_to_arm(command, 0x000, 0xA0);
        for count in 0..events.len() {
            let mut chip = blank_chip();
            let mut other = blank_chip();
            for &event in &events[..count] {
                chip.event(event);
                other.event(event);
            }
            for _ in 0..3 {
                assert!(chip.event(Event::Pulse));
                assert_eq!(chip, other);
            }
        }
        // The second of two pulses falls into the reading back.
        let mut chip = blank_chip();
        for &event in &events {
            chip.event(event);
        }
        chip.event(Event::Pulse);
        chip.event(Event::Pulse);
        assert_eq!(read_byte(&mut chip), 0xA0);
        send(&mut chip, &[0x0B]);
        if crc_slots(command) > 0 {
            assert_eq!(read(&mut chip, 2), crc16_sent_after_loading(1, 0x0B));
        }
        assert!(matches!(chip.stage, Stage::Armed { .. }));
        assert_eq!(chip.image[..2], [0xA0, 0xFF]);
    }
}

/// A whole session of each quick command: the chip is armed after the eighth
/// bit of a byte and at no other moment, for the first byte and for later
/// ones.
#[test]
fn quick_write_is_armed_after_the_eighth_bit() {
    let bytes = [0x21, 0xF0, 0x5A];
    for (command, start, place) in [(0xF3, 0x25, 0x25), (0xF5, 0x105, status(0x105))] {
        let mut chip = blank_chip();
        let mut expected = blank_image();
        begin(&mut chip, &[command]);
        send(&mut chip, &u16::to_le_bytes(start));
        for (offset, &byte) in bytes.iter().enumerate() {
            for bit in bits_of_byte(byte) {
                // A pulse before the eighth bit changes nothing.
                let before = chip.clone();
                assert!(chip.event(Event::Pulse));
                assert_eq!(chip, before);
                assert_eq!(chip.event(Event::Slot(bit)), bit);
            }
            assert!(matches!(chip.stage, Stage::Armed { .. }));
            // A ninth slot in place of the pulse silences.
            for bit in [false, true] {
                let mut other = chip.clone();
                assert_eq!(other.event(Event::Slot(bit)), bit);
                assert_silent(&mut other);
            }
            assert_eq!(chip.image, expected);
            assert!(chip.event(Event::Pulse));
            expected[place + offset] = byte;
            assert_eq!(chip.image, expected);
            assert_eq!(read_byte(&mut chip), byte);
        }
        assert!(!chip.event(Event::Reset));
        assert_eq!(chip.image, expected);
    }
}

/// Nothing on the bus tells of dropped bits before the byte read back, and
/// this tells only what the address without them holds.
#[test]
fn quick_write_does_not_tell_of_dropped_bits() {
    let mut image = blank_image();
    image[0x25] = 0x5A;
    for high in (0x08..=0xF8).step_by(8) {
        for (command, low, place) in [(0xF3, 0x25, 0x25), (0xF5, 0x40, status(0x40))] {
            let mut chip = chip_with(image.clone());
            let mut kept = chip_with(image.clone());
            begin(&mut chip, &[command, low, high]);
            begin(&mut kept, &[command, low, 0x00]);
            assert_eq!(chip, kept);
            let expected = image[place] & 0x0F;
            send(&mut chip, &[0x0F]);
            assert!(chip.event(Event::Pulse));
            assert_eq!(read_byte(&mut chip), expected);
            let differing: Vec<usize> = (0..2368)
                .filter(|&at| chip.image[at] != image[at])
                .collect();
            assert_eq!(differing, [place]);
            assert_eq!(chip.image[place], expected);
        }
    }
}

/// A quick write without the sixteen slots of CRC does what an ordinary one
/// does with them.
#[test]
fn quick_writes_equal_ordinary_writes() {
    let mut generator = Generator::new(101);
    for _ in 0..400 {
        let image = used_image(&mut generator);
        let ([ordinary, quick], length) = if generator.bit() {
            (WRITE_MEMORY, 0x800)
        } else {
            (WRITE_STATUS, 0x140)
        };
        let start = generator.below(length);
        let many = 1 + generator.below(40).min(length - 1 - start);
        let bytes: Vec<u8> = (0..many).map(|_| generator.byte()).collect();
        let after = |command| {
            let mut chip = chip_with(image.clone());
            let held = write(&mut chip, command, start as u16, &bytes);
            (chip.image, held, chip.stage == Stage::Silent)
        };
        assert_eq!(after(quick), after(ordinary));
        assert_eq!(after(quick).2, start + many == length);
    }
}

#[test]
fn sending_goes_on_whatever_the_master_does() {
    let mut generator = Generator::new(15);
    let image = any_image(&mut generator);
    for command in [0xF0, 0xAA, 0xA5] {
        let mut plain = chip_with(image.clone());
        let mut pulled = chip_with(image.clone());
        begin(&mut plain, &[command, 0x10, 0x00]);
        begin(&mut pulled, &[command, 0x10, 0x00]);
        for _ in 0..20_000 {
            let master = generator.bit();
            let own = plain.event(Event::Slot(true));
            assert_eq!(pulled.event(Event::Slot(master)), master && own);
            assert_eq!(plain.stage, pulled.stage);
        }
    }
    // CRC and reading back of a write as well.
    for command in WRITE_MEMORY {
        let mut chip = blank_chip();
        begin(&mut chip, &[command, 0x00, 0x00, 0xA5]);
        for _ in 0..crc_slots(command) {
            assert!(!chip.event(Event::Slot(false)));
        }
        chip.event(Event::Pulse);
        for _ in 0..8 {
            assert!(!chip.event(Event::Slot(false)));
        }
        send_bits(&mut chip, &bits_of_byte(0x0F));
        if crc_slots(command) > 0 {
            assert_eq!(read(&mut chip, 2), crc16_sent_after_loading(1, 0x0F));
        }
        assert!(matches!(chip.stage, Stage::Armed { .. }));
        assert_eq!(chip.image[0], 0xA5);
    }
}

/// Sessions made of likely and unlikely pieces: no event makes a bit 1, gaps
/// stay, protected bytes stay, and only pulses change anything.
#[test]
fn random_events() {
    let mut generator = Generator::new(16);
    let mut changes = 0;
    for _ in 0..300 {
        let image = used_image(&mut generator);
        let mut chip = chip_with(image.clone());
        for _ in 0..60 {
            let mut events = Vec::new();
            if !generator.once_in(8) {
                events.push(Event::Reset);
            }
            let mut bytes = vec![0xCC];
            if generator.once_in(6) {
                bytes[0] = generator.byte();
            }
            let command = MEMORY_COMMANDS[generator.below(7) as usize];
            bytes.push(command);
            bytes.extend((generator.below(0x900) as u16).to_le_bytes());
            bytes.push(generator.byte());
            events.extend(bits_of(&bytes).into_iter().map(Event::Slot));
            if ![0xF3, 0xF5].contains(&command) {
                events.extend([Event::Slot(true); 16]);
            }
            events.push(Event::Pulse);
            events.extend([Event::Slot(true); 8]);
            for _ in 0..generator.below(60) {
                events.push(match generator.below(10) {
                    0 => Event::Pulse,
                    1 => Event::PowerLoss,
                    _ => Event::Slot(generator.bit()),
                });
            }
            if generator.once_in(6) {
                let dropped = generator.below(events.len() as u64) as usize;
                events.remove(dropped);
            }
            for event in events {
                let before = chip.image.clone();
                let armed = matches!(chip.stage, Stage::Armed { .. });
                let reply = chip.event(event);
                match event {
                    Event::Reset => assert!(!reply),
                    Event::Pulse | Event::PowerLoss => assert!(reply),
                    Event::Slot(bit) => assert!(bit || !reply),
                }
                if chip.image != before {
                    assert!(armed && event == Event::Pulse);
                    changes += 1;
                    let differing: Vec<usize> = (0..2368)
                        .filter(|&at| chip.image[at] != before[at])
                        .collect();
                    assert_eq!(differing.len(), 1);
                    let at = differing[0];
                    assert_eq!(chip.image[at] & before[at], chip.image[at]);
                    if at < 2048 {
                        let page = at / 32;
                        assert_eq!((before[status(page / 8)] >> (page % 8)) & 1, 1);
                    } else if at >= status(0x100) {
                        let page = at - status(0x100);
                        assert_eq!((before[status(0x20 + page / 8)] >> (page % 8)) & 1, 1);
                    }
                }
            }
        }
        for address in 0..320 {
            if !matches!(address, 0x000..=0x007 | 0x020..=0x027 | 0x040..=0x047 | 0x100..=0x13F) {
                assert_eq!(chip.image[status(address)], image[status(address)]);
            }
        }
    }
    assert!(changes > 1000, "{changes}");
}
