//! What the tests share: the second model's terms as those of the interface,
//! images, plugs with rows of values, sessions for a chip, and replies for a
//! master.
#![allow(dead_code)]

use ds2505_model as model;
use ds2505_model::bits::{bits_of, bits_of_byte};
use ds2505_model::crc::crc8;
use ds2505_model::memory::{blank_image, StatusAddress, StatusMeaning, DATA_LENGTH};
use ds2505_model::random::{any_image, chain_image, used_image, Generator};
use plug::{Answer, Event, Final, Published, Refusal, Verdict, WriteMode};

// ---- the model's terms

pub fn to_model(event: Event) -> model::chip::Event {
    match event {
        Event::Slot(bit) => model::chip::Event::Slot(bit),
        Event::Reset => model::chip::Event::Reset,
        Event::Pulse => model::chip::Event::Pulse,
        Event::PowerLoss => model::chip::Event::PowerLoss,
    }
}

pub fn from_model(event: model::chip::Event) -> Event {
    match event {
        model::chip::Event::Slot(bit) => Event::Slot(bit),
        model::chip::Event::Reset => Event::Reset,
        model::chip::Event::Pulse => Event::Pulse,
        model::chip::Event::PowerLoss => Event::PowerLoss,
    }
}

pub fn mode_of_model(mode: WriteMode) -> model::chip::WriteMode {
    match mode {
        WriteMode::Ordinary => model::chip::WriteMode::Ordinary,
        WriteMode::Quick => model::chip::WriteMode::Quick,
    }
}

pub fn refusal(refusal: model::refusal::Refusal) -> Refusal {
    Refusal {
        number: u32::from(refusal.number()),
        value: refusal.page_given_back(),
    }
}

pub fn reached(reached: model::walk::Final) -> Final {
    Final {
        page: reached.page,
        hops: reached.hops,
    }
}

pub fn verdict(verdict: model::walk::Verdict) -> Verdict {
    match verdict {
        model::walk::Verdict::Final(end) => Verdict::Final(reached(end)),
        model::walk::Verdict::Loop => Verdict::Loop,
        model::walk::Verdict::Outside(number) => Verdict::Outside(number),
    }
}

pub fn published(pages: model::publisher::Published) -> Published {
    Published {
        l: pages.l,
        t: pages.t,
    }
}

pub fn same<T>(value: T) -> T {
    value
}

/// What a call of the model tells, in the interface's terms.
pub fn told<T, U>(
    answer: model::refusal::Answer<T>,
    end: impl Fn(T) -> U,
) -> Result<Answer<U>, Refusal> {
    match answer {
        model::refusal::Answer::Event(event) => Ok(Answer::Event(from_model(event))),
        model::refusal::Answer::End(value) => Ok(Answer::End(end(value))),
        model::refusal::Answer::Refused(reason) => Err(refusal(reason)),
    }
}

// ---- the two modes

pub const MODES: [WriteMode; 2] = [WriteMode::Ordinary, WriteMode::Quick];

/// How many events a whole update has.
pub fn all_events(mode: WriteMode) -> usize {
    match mode {
        WriteMode::Ordinary => 1222,
        WriteMode::Quick => 678,
    }
}

/// Which event, counted from 1, makes the new page visible.
pub fn naming_pulse(mode: WriteMode) -> usize {
    match mode {
        WriteMode::Ordinary => 1213,
        WriteMode::Quick => 669,
    }
}

/// How many slots of CRC there are between a byte to write and its pulse.
pub fn crc_slots(mode: WriteMode) -> usize {
    match mode {
        WriteMode::Ordinary => 16,
        WriteMode::Quick => 0,
    }
}

/// The command that writes data in a mode, and the one that writes status.
pub fn write_commands(mode: WriteMode) -> [u8; 2] {
    match mode {
        WriteMode::Ordinary => [0x0F, 0x55],
        WriteMode::Quick => [0xF3, 0xF5],
    }
}

pub fn start_model(
    image: &[u8],
    new: &[u8],
    page: u8,
    mode: WriteMode,
) -> Result<model::publisher::Publisher, model::refusal::Refusal> {
    model::publisher::Publisher::start(image, new, page, mode_of_model(mode))
}

// ---- images

/// The place in an image of a status address.
pub fn status(address: usize) -> usize {
    DATA_LENGTH + address
}

pub fn clear_bit(image: &mut [u8], field: usize, page: usize) {
    image[status(field + page / 8)] &= !(1u8 << (page % 8));
}

/// Writes a page's own 32 bytes.
pub fn put_page(image: &mut [u8], page: u8, bytes: &[u8; 32]) {
    let place = 32 * usize::from(page);
    image[place..place + 32].copy_from_slice(bytes);
}

/// Each page in the list leads to the next number.
pub fn lead(image: &mut [u8], numbers: &[u8]) {
    for pair in numbers.windows(2) {
        image[status(0x100 + usize::from(pair[0]))] = 255 - pair[1];
    }
}

/// The header of rows with these pages.
pub fn header_of(
    columns: u16,
    southern_edge: i16,
    row_height: u16,
    pages: &[u8],
) -> model::lookup::Header {
    let page = |&number: &u8| model::memory::Page::new(number).expect("it is a page");
    model::lookup::Header {
        columns,
        southern_edge,
        row_height,
        pages: pages.iter().map(page).collect(),
    }
}

/// The value that a plug holds on a page in a column: a different one for each
/// two, of both signs.
pub fn value_on(page: u8, column: u32) -> i16 {
    20 * i16::from(page) + column as i16 - 700
}

/// A plug with this first page, and those values on all others.
pub fn plug(first: &[u8; 32]) -> Vec<u8> {
    let mut image = blank_image();
    for page in 0..64 {
        let value = |column: u32| value_on(page, column).to_le_bytes();
        let bytes: Vec<u8> = (0..16).flat_map(value).collect();
        put_page(&mut image, page, &bytes.try_into().unwrap());
    }
    put_page(&mut image, 1, first);
    image
}

/// Makes the gaps of an image FFh, as a sheet must have them.
pub fn blank_gaps(image: &mut [u8]) {
    for address in StatusAddress::all() {
        if address.meaning() == StatusMeaning::Gap {
            image[status(usize::from(address.number()))] = 0xFF;
        }
    }
}

/// An image of one of several kinds.
pub fn some_image(g: &mut Generator) -> Vec<u8> {
    match g.below(8) {
        0 | 1 => any_image(g),
        2 => blank_image(),
        3 => {
            // A chain through pages in any order, with data at its end.
            let mut pages: Vec<u8> = (1..64).collect();
            for place in (1..pages.len()).rev() {
                pages.swap(place, g.below(place as u64 + 1) as usize);
            }
            pages.truncate(2 + g.below(62) as usize);
            let mut image = chain_image(&pages);
            let last = usize::from(*pages.last().unwrap());
            image[32 * last..32 * last + 32].copy_from_slice(&g.bytes::<32>());
            image
        }
        _ => used_image(g),
    }
}

/// An image on which a page can be updated, in either mode, and that page.
pub fn image_to_update(g: &mut Generator) -> (Vec<u8>, u8) {
    loop {
        let image = some_image(g);
        let page = g.below(64) as u8;
        if MODES
            .iter()
            .all(|&mode| start_model(&image, &[0; 32], page, mode).is_ok())
        {
            return (image, page);
        }
    }
}

// ---- numbers

/// A number with the right CRC-8, and mostly the right family.
pub fn sound_number(g: &mut Generator) -> [u8; 8] {
    let mut number: [u8; 8] = g.bytes();
    if !g.once_in(4) {
        number[0] = 0x0B;
    }
    number[7] = crc8(&number[..7]);
    number
}

pub fn some_number(g: &mut Generator) -> [u8; 8] {
    if g.once_in(4) {
        g.bytes()
    } else {
        sound_number(g)
    }
}

// ---- sessions

/// An event of any kind, slots mostly.
pub fn any_event(g: &mut Generator) -> Event {
    match g.below(40) {
        0 => Event::Reset,
        1 => Event::PowerLoss,
        2 | 3 => Event::Pulse,
        _ => Event::Slot(g.bit()),
    }
}

fn send(events: &mut Vec<Event>, bytes: &[u8]) {
    events.extend(bits_of(bytes).into_iter().map(Event::Slot));
}

/// Read slots, now and then all of them with the master's bit anything.
fn read(g: &mut Generator, events: &mut Vec<Event>, slots: usize) {
    if g.once_in(6) {
        events.extend((0..slots).map(|_| Event::Slot(g.bit())));
    } else {
        events.extend((0..slots).map(|_| Event::Slot(true)));
    }
}

/// A ROM command and what belongs to it, mostly well-formed.
fn add_selection(g: &mut Generator, number: [u8; 8], events: &mut Vec<Event>) {
    let mut bits = bits_of(&number);
    if g.once_in(6) {
        let wrong = g.below(64) as usize;
        bits[wrong] = !bits[wrong];
    }
    match g.below(12) {
        0 => {
            send(events, &[0x33]);
            read(g, events, 64);
        }
        1 | 2 => {
            send(events, &[0x55]);
            events.extend(bits.into_iter().map(Event::Slot));
        }
        3 | 4 => {
            send(events, &[0xF0]);
            for bit in bits {
                read(g, events, 2);
                events.push(Event::Slot(bit));
            }
        }
        5 => send(events, &[g.byte()]),
        _ => send(events, &[0xCC]),
    }
}

/// An address, often near an end of something.
fn some_address(g: &mut Generator, status: bool) -> u16 {
    match g.below(9) {
        0 => g.below(0x1_0000) as u16,
        1 => [0x000, 0x7FF, 0x800, 0x13F, 0x140, 0x0FF, 0x100, 0xFFFF][g.below(8) as usize],
        2 => 0x7C0 + g.below(0x44) as u16,
        3 => 0x120 + g.below(0x24) as u16,
        // With any of the five bits that the chip drops.
        4 => (0x800 * g.below(32) + g.below(0x148)) as u16,
        _ if status => g.below(0x140) as u16,
        _ => g.below(0x800) as u16,
    }
}

/// A memory command and what belongs to it, mostly well-formed.
fn add_memory_command(g: &mut Generator, events: &mut Vec<Event>) {
    let command = match g.below(22) {
        0 => g.byte(),
        1..=3 => 0xF0,
        4..=6 => 0xAA,
        7..=9 => 0xA5,
        10..=12 => 0x0F,
        13..=15 => 0x55,
        16..=18 => 0xF3,
        _ => 0xF5,
    };
    let status = matches!(command, 0xAA | 0x55 | 0xF5);
    let address = some_address(g, status).to_le_bytes();
    send(events, &[command, address[0], address[1]]);
    let mode = MODES
        .into_iter()
        .find(|&mode| write_commands(mode).contains(&command));
    match mode {
        Some(mode) => {
            for _ in 0..1 + g.below(20) {
                let byte = if g.once_in(3) {
                    g.byte()
                } else {
                    !(1 << g.below(8))
                };
                events.extend(bits_of_byte(byte).map(Event::Slot));
                // Now and then the slots of the other mode.
                let slots = crc_slots(mode);
                let slots = if g.once_in(40) { 16 - slots } else { slots };
                read(g, events, slots);
                if !g.once_in(20) {
                    events.push(Event::Pulse);
                }
                if g.once_in(20) {
                    events.push(Event::Pulse);
                }
                read(g, events, 8);
                if g.once_in(30) {
                    events.push(any_event(g));
                }
            }
        }
        None => {
            let slots = match g.below(30) {
                0 => 8 * 2600,
                1..=6 => g.below(4000),
                _ => g.below(600),
            };
            read(g, events, slots as usize);
            if g.once_in(8) {
                events.push(Event::Pulse);
                read(g, events, 20);
            }
        }
    }
}

/// Events for a chip with this number: transactions, mostly well-formed, some
/// cut short, and stretches of anything.
pub fn session(g: &mut Generator, number: [u8; 8]) -> Vec<Event> {
    let mut events = Vec::new();
    for _ in 0..1 + g.below(5) {
        if g.once_in(10) {
            events.extend((0..g.below(200)).map(|_| any_event(g)));
            continue;
        }
        let begin = events.len();
        if !g.once_in(12) {
            events.push(Event::Reset);
        }
        add_selection(g, number, &mut events);
        add_memory_command(g, &mut events);
        if g.once_in(6) {
            // Cut short somewhere.
            let length = g.below((events.len() - begin) as u64 + 1) as usize;
            events.truncate(begin + length);
        }
        if g.once_in(10) {
            events.push(Event::PowerLoss);
        }
    }
    events
}

// ---- replies

/// How the replies for a master are made from those of the line.
pub enum Damage {
    None,
    /// The reply with this number, counted from 0, is turned round.
    At(usize),
    /// One reply in so many is turned round.
    OnceIn(u64),
    /// Nothing of the line is left. After a reset the reply is 1 once in so
    /// many times.
    Random(u64),
}

pub fn some_damage(g: &mut Generator, length: usize) -> Damage {
    match g.below(8) {
        0 | 1 => Damage::None,
        2..=5 => Damage::At(g.below(length as u64) as usize),
        6 => Damage::OnceIn(1 + g.below(2000)),
        _ => Damage::Random(1 + g.below(40)),
    }
}

impl Damage {
    /// The reply number `place` of a line that shows `line` after `event`.
    pub fn reply(&self, g: &mut Generator, place: usize, event: Event, line: bool) -> bool {
        match *self {
            Damage::None => line,
            Damage::At(wrong) => line != (place == wrong),
            Damage::OnceIn(times) => line != g.once_in(times),
            Damage::Random(times) if event == Event::Reset => g.once_in(times),
            Damage::Random(_) => g.bit(),
        }
    }
}
