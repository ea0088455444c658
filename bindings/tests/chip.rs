//! The chip against the second model's, and against the benchmark's.

mod common;

#[path = "../src/bin/bench/plain.rs"]
mod plain;

use common::{crc_slots, session, some_number, to_model, write_commands, MODES};
use ds2505_model::bits::bits_of;
use ds2505_model::chip::Chip as ModelChip;
use ds2505_model::memory::blank_image;
use ds2505_model::random::{any_image, used_image, Generator};
use plug::{chip_run, Chip, Event, Refusal, WriteMode};

/// Image number `round` of a test: one of the two kinds.
fn image(g: &mut Generator, round: usize) -> Vec<u8> {
    if round % 2 == 0 {
        any_image(g)
    } else {
        used_image(g)
    }
}

fn model_run(number: [u8; 8], events: &[Event], image: &[u8]) -> (Vec<bool>, Vec<u8>) {
    let mut chip = ModelChip::power_up(number, image.to_vec()).unwrap();
    let replies = events
        .iter()
        .map(|&event| chip.event(to_model(event)))
        .collect();
    (replies, chip.image)
}

#[test]
fn whole_runs() {
    let mut g = Generator::new(100);
    let mut changed = 0;
    for round in 0..15_000 {
        let before = image(&mut g, round);
        let number = some_number(&mut g);
        let events = session(&mut g, number);
        let (replies, after) = model_run(number, &events, &before);

        let mut proved = before.clone();
        assert_eq!(
            chip_run(&number, &events, &mut proved),
            Ok(replies.clone()),
            "round {round}"
        );
        assert_eq!(proved, after, "round {round}");
        changed += usize::from(after != before);

        let codes: Vec<u8> = events.iter().map(|event| event.code()).collect();
        let mut plain_image: [u8; plain::IMAGE_LENGTH] = before.try_into().unwrap();
        let mut plain_replies = vec![7; codes.len()];
        plain::run(number, &codes, &mut plain_image, &mut plain_replies);
        assert!(plain_replies
            .iter()
            .zip(&replies)
            .all(|(&byte, &bit)| byte == u8::from(bit)));
        assert_eq!(plain_image[..], after);
    }
    assert!(changed > 1000, "{changed}");
}

/// A write of three bytes: its events up to the last slot of the third byte
/// read back.
fn write_events(mode: WriteMode, command: u8, address: u16, byte: u8) -> Vec<Event> {
    let [low, high] = address.to_le_bytes();
    let mut events = vec![Event::Reset];
    events.extend(
        bits_of(&[0xCC, command, low, high])
            .into_iter()
            .map(Event::Slot),
    );
    for byte in [byte, 0x5A, 0x0F] {
        events.extend(bits_of(&[byte]).into_iter().map(Event::Slot));
        events.extend(vec![Event::Slot(true); crc_slots(mode)]);
        events.push(Event::Pulse);
        events.extend([Event::Slot(true); 8]);
    }
    events
}

/// Writes with one event too many or one too few, of each kind and at every
/// place; and in the slots of the other mode. A chip is armed after the CRC in
/// the ordinary mode and after the eighth data bit in the quick mode, and at no
/// other place does a pulse change anything.
#[test]
fn writes_with_one_wrong_event() {
    let mut g = Generator::new(104);
    let number = some_number(&mut g);
    for mode in MODES {
        for (command, address) in write_commands(mode).into_iter().zip([0x123, 0x105]) {
            let mut sessions = Vec::new();
            for other in MODES {
                sessions.push(write_events(other, command, address, 0xA7));
            }
            let right = write_events(mode, command, address, 0xA7);
            for place in 0..=right.len() {
                for event in [
                    Event::Pulse,
                    Event::Slot(false),
                    Event::Slot(true),
                    Event::Reset,
                    Event::PowerLoss,
                ] {
                    let mut events = right.clone();
                    events.insert(place, event);
                    sessions.push(events);
                }
                if place < right.len() {
                    let mut events = right.clone();
                    events.remove(place);
                    sessions.push(events);
                }
            }
            let before = blank_image();
            for events in sessions {
                let (replies, after) = model_run(number, &events, &before);
                let mut proved = before.clone();
                assert_eq!(chip_run(&number, &events, &mut proved), Ok(replies));
                assert_eq!(proved, after);
            }

            // The first pulse comes after 41 events and the CRC.
            let pulse = 1 + 8 * 5 + crc_slots(mode);
            for place in 0..=pulse {
                let mut events = right[..place].to_vec();
                events.push(Event::Pulse);
                let mut image = before.clone();
                chip_run(&number, &events, &mut image).unwrap();
                assert_eq!(image != before, place == pulse);
            }
        }
    }
}

/// Pieces of any length, none and one included, give what the whole gives.
#[test]
fn pieces() {
    let mut g = Generator::new(101);
    for round in 0..4000 {
        let before = image(&mut g, round);
        let number = some_number(&mut g);
        let events = session(&mut g, number);
        let mut whole_image = before.clone();
        let whole = chip_run(&number, &events, &mut whole_image).unwrap();
        let mut at_once = Chip::power_up(&number);
        let mut at_once_image = before.clone();
        assert_eq!(
            at_once.events(&events, &mut at_once_image).as_ref(),
            Ok(&whole)
        );
        assert_eq!(at_once_image, whole_image);

        let longest = [1, 3, 40, 3000][g.below(4) as usize];
        let mut chip = Chip::power_up(&number);
        let mut image = before;
        let mut replies = Vec::new();
        let mut rest = &events[..];
        while !rest.is_empty() {
            let length = g.below(longest + 1).min(rest.len() as u64) as usize;
            replies.extend(chip.events(&rest[..length], &mut image).unwrap());
            rest = &rest[length..];
        }
        assert_eq!(replies, whole, "round {round}");
        assert_eq!(image, whole_image);
        assert_eq!(chip, at_once);
    }
}

/// Every event by itself, against the model all along.
#[test]
fn event_by_event() {
    let mut g = Generator::new(102);
    for round in 0..1500 {
        let mut image = image(&mut g, round);
        let number = some_number(&mut g);
        let mut model = ModelChip::power_up(number, image.clone()).unwrap();
        let mut chip = Chip::power_up(&number);
        for event in session(&mut g, number) {
            let reply = model.event(to_model(event));
            assert_eq!(chip.event(event, &mut image), Ok(reply));
            if event == Event::Pulse {
                assert_eq!(image, model.image);
            }
        }
        assert_eq!(image, model.image);
    }
}

/// Every single command byte after every ROM function, and every start address
/// near an end.
#[test]
fn all_commands_and_ends() {
    let mut g = Generator::new(103);
    let before = any_image(&mut g);
    let number = some_number(&mut g);
    let mut sessions = Vec::new();
    let read_events = |bytes: &[u8]| {
        let mut events = vec![Event::Reset];
        events.extend(bits_of(bytes).into_iter().map(Event::Slot));
        for _ in 0..3 {
            events.extend([Event::Slot(true); 16]);
            events.push(Event::Pulse);
            events.extend([Event::Slot(true); 8 + 300]);
        }
        events
    };
    for byte in 0..=255 {
        sessions.push(read_events(&[byte]));
        sessions.push(read_events(&[0xCC, byte, 0x00, 0x00]));
    }
    for address in (0x7F0..0x810u16).chain(0x130..0x150).chain([0, 0xFFFF]) {
        let [low, high] = address.to_le_bytes();
        for command in [0xF0, 0xAA, 0xA5] {
            sessions.push(read_events(&[0xCC, command, low, high]));
        }
        for mode in MODES {
            for command in write_commands(mode) {
                sessions.push(write_events(mode, command, address, 0x5A));
            }
        }
    }
    for events in sessions {
        let (replies, after) = model_run(number, &events, &before);
        let mut proved = before.clone();
        assert_eq!(chip_run(&number, &events, &mut proved), Ok(replies));
        assert_eq!(proved, after);
    }
}

fn byte_of(replies: &[bool]) -> u8 {
    (0..8).map(|place| u8::from(replies[place]) << place).sum()
}

/// The rows of the test tray that a chip shows.
#[test]
fn tray() {
    let number = [0x0B, 1, 2, 3, 4, 5, 6, 7];
    let read = |image: &mut [u8], bytes: &[u8], slots: usize| {
        let mut events = vec![Event::Reset];
        events.extend(bits_of(bytes).into_iter().map(Event::Slot));
        let sent = events.len();
        events.extend(std::iter::repeat_n(Event::Slot(true), slots));
        let replies = chip_run(&number, &events, image).unwrap();
        replies[sent..].to_vec()
    };

    // Start 07FFh: one byte, then CRC. Start 0800h: a read from 0000h.
    let mut image = blank_image();
    image[0x7FF] = 0x3C;
    let replies = read(&mut image, &[0xCC, 0xF0, 0xFF, 0x07], 32);
    let crc = !plug::crc16(0, &[0xF0, 0xFF, 0x07, 0x3C]);
    assert_eq!(byte_of(&replies), 0x3C);
    assert_eq!(
        [byte_of(&replies[8..]), byte_of(&replies[16..])],
        crc.to_le_bytes()
    );
    assert_eq!(byte_of(&replies[24..]), 0xFF);
    image[0] = 0x96;
    let from_0800 = read(&mut image, &[0xCC, 0xF0, 0x00, 0x08], 8 * 2050);
    let from_0000 = read(&mut image, &[0xCC, 0xF0, 0x00, 0x00], 8 * 2050);
    assert_eq!(byte_of(&from_0800), 0x96);
    assert_eq!(from_0800, from_0000);
    // A status address that is too high even so: silent.
    let replies = read(&mut image, &[0xCC, 0xAA, 0x40, 0x09], 32);
    assert_eq!(replies, [true; 32]);

    // In either mode, 0Fh over F0h gives 00h; FFh over 5Ah gives 5Ah; over a
    // protected 5Ah, 0Fh gives 5Ah.
    for (old, sent, protected, new) in [
        (0xF0, 0x0F, false, 0x00),
        (0x5A, 0xFF, false, 0x5A),
        (0x5A, 0x0F, true, 0x5A),
    ] {
        for mode in MODES {
            let mut image = blank_image();
            image[0x123] = old;
            if protected {
                common::clear_bit(&mut image, 0x000, 0x123 / 32);
            }
            let mut events = write_events(mode, write_commands(mode)[0], 0x123, sent);
            // The first byte only: its pulse, and eight slots.
            events.truncate(1 + 8 * 5 + crc_slots(mode) + 1 + 8);
            let replies = chip_run(&number, &events, &mut image).unwrap();
            assert_eq!(byte_of(&replies[replies.len() - 8..]), new);
            assert_eq!(image[0x123], new);
        }
    }
}

#[test]
fn wrong_images() {
    for length in [0, 1, 2367, 2369, 2392] {
        let mut image = vec![0xA5; length];
        let refused = Refusal {
            number: 1,
            value: None,
        };
        assert_eq!(chip_run(&[0; 8], &[Event::Reset], &mut image), Err(refused));
        let mut chip = Chip::power_up(&[0; 8]);
        let before = chip;
        assert_eq!(chip.event(Event::Reset, &mut image), Err(refused));
        assert_eq!(chip, before);
        assert_eq!(image, vec![0xA5; length]);
    }
}
