//! Chip sessions in great number against the second model: well-formed ones,
//! the same with events changed, and anything; on images and numbers of any
//! bytes. What is compared: every reply, and the image that is left.

mod common;

use common::{any_event, session, to_model};
use ds2505_model::bits::bits_of;
use ds2505_model::chip::Chip as ModelChip;
use ds2505_model::memory::blank_image;
use ds2505_model::random::{any_image, used_image, Generator};
use plug::{chip_run, Chip, Event};

/// The events that each test sends at the least.
const EVENTS: usize = 5_000_000;

fn some_image(g: &mut Generator) -> Vec<u8> {
    match g.below(5) {
        0 | 1 => any_image(g),
        2 => blank_image(),
        _ => used_image(g),
    }
}

/// What was sent, and how much of it did something.
#[derive(Default)]
struct Sent {
    sessions: usize,
    events: usize,
    /// Replies of 0 to a read slot: the chip was sending.
    zeros: usize,
    /// Sessions that altered the image.
    changed: usize,
}

impl Sent {
    /// One session as a run; now and then also in pieces.
    fn session(&mut self, g: &mut Generator, number: [u8; 8], events: &[Event]) {
        let before = some_image(g);
        let mut model = ModelChip::power_up(number, before.clone()).unwrap();
        let replies: Vec<bool> = events.iter().map(|&e| model.event(to_model(e))).collect();

        let mut image = before.clone();
        let told = chip_run(&number, events, &mut image).unwrap();
        let place = told.iter().zip(&replies).position(|(a, b)| a != b);
        assert_eq!(place, None, "session {}: {events:?}", self.sessions);
        assert!(
            image == model.image,
            "session {}: {events:?}",
            self.sessions
        );

        if self.sessions % 16 == 0 {
            let mut pieces = before.clone();
            let mut chip = Chip::power_up(&number);
            let mut again = Vec::new();
            for piece in events.chunks(1 + g.below(50) as usize) {
                again.extend(chip.events(piece, &mut pieces).unwrap());
            }
            assert!(again == replies && pieces == image);
        }
        self.sessions += 1;
        self.events += events.len();
        self.zeros += events
            .iter()
            .zip(&replies)
            .filter(|&(&event, &reply)| event == Event::Slot(true) && !reply)
            .count();
        self.changed += usize::from(image != before);
    }

    fn assert_enough(&self, zeros: usize, changed: usize) {
        assert!(self.events >= EVENTS, "{}", self.events);
        assert!(self.zeros >= zeros, "{}", self.zeros);
        assert!(self.changed >= changed, "{}", self.changed);
        println!(
            "{} sessions, {} events, {} zeros read, {} images changed",
            self.sessions, self.events, self.zeros, self.changed
        );
    }
}

/// Transactions one after the other, mostly well-formed.
#[test]
fn well_formed() {
    let mut g = Generator::new(800);
    let mut sent = Sent::default();
    while sent.events < EVENTS {
        let number = g.bytes();
        let events = session(&mut g, number);
        sent.session(&mut g, number, &events);
    }
    sent.assert_enough(400_000, 700);
}

/// Events turned round, put in, left out, repeated or exchanged.
fn mutate(g: &mut Generator, events: &mut Vec<Event>) {
    for _ in 0..1 + g.below(6) {
        if events.is_empty() {
            return;
        }
        let place = g.below(events.len() as u64) as usize;
        match g.below(6) {
            0 => {
                events[place] = match events[place] {
                    Event::Slot(bit) => Event::Slot(!bit),
                    _ => any_event(g),
                }
            }
            1 => events.insert(place, any_event(g)),
            2 => {
                events.remove(place);
            }
            3 => {
                let end = (place + 1 + g.below(40) as usize).min(events.len());
                let copy = events[place..end].to_vec();
                events.splice(place..place, copy);
            }
            4 => {
                let end = (place + 1 + g.below(40) as usize).min(events.len());
                events.drain(place..end);
            }
            _ => {
                let other = g.below(events.len() as u64) as usize;
                events.swap(place, other);
            }
        }
    }
}

#[test]
fn mutated() {
    let mut g = Generator::new(801);
    let mut sent = Sent::default();
    while sent.events < EVENTS {
        let number = g.bytes();
        let mut events = session(&mut g, number);
        mutate(&mut g, &mut events);
        sent.session(&mut g, number, &events);
    }
    sent.assert_enough(300_000, 500);
}

/// Anything at all, or anything after a reset, Skip ROM and up to three bytes,
/// the first of them mostly a command.
#[test]
fn anything() {
    const COMMANDS: [u8; 7] = [0xF0, 0xAA, 0xA5, 0x0F, 0x55, 0xF3, 0xF5];
    let mut g = Generator::new(802);
    let mut sent = Sent::default();
    while sent.events < EVENTS {
        let number = g.bytes();
        let mut events = Vec::new();
        for _ in 0..1 + g.below(8) {
            if !g.once_in(4) {
                events.push(Event::Reset);
                let mut bytes = vec![0xCC];
                bytes.push(match g.below(8) {
                    0 => g.byte(),
                    which => COMMANDS[which as usize - 1],
                });
                bytes.extend((0..g.below(3)).map(|_| g.byte()));
                events.extend(bits_of(&bytes).into_iter().map(Event::Slot));
            }
            // Pulses, resets and power losses once in so many events, or none.
            let rare = [4, 20, 60, 1000][g.below(4) as usize];
            for _ in 0..g.below(400) {
                events.push(match g.below(rare * 3) {
                    0 => any_event(&mut g),
                    1 | 2 => Event::Pulse,
                    _ => Event::Slot(g.bit()),
                });
            }
        }
        sent.session(&mut g, number, &events);
    }
    sent.assert_enough(100_000, 80);
}
