//! Packed states: which bytes are accepted, that refused ones change nothing,
//! and that accepted ones lead to accepted ones only.
//!
//! The four tests of bytes below are written from the tables of
//! docs/C-INTERFACE.md and docs/RANGES.md.

mod common;

use common::{
    all_events, any_event, crc_slots, image_to_update, mode_of_model, session, some_image,
    some_number, sound_number, start_model, status, to_model, write_commands, MODES,
};
use ds2505_model::bits::bits_of_byte;
use ds2505_model::chip::{Chip as ModelChip, Stage, Target};
use ds2505_model::crc::{crc16, crc8, Crc16};
use ds2505_model::memory::{DataAddress, StatusAddress};
use ds2505_model::random::{any_image, Generator};
use plug::{calls, Answer, Chip, Event, Publisher, WriteMode};

/// A state's enum, then, from `place` on, its other fields, and after the
/// front its array.
fn packed<const SIZE: usize>(
    tagged: &[u8],
    place: usize,
    fields: &[u8],
    rest: &[u8],
) -> [u8; SIZE] {
    let mut state = [0; SIZE];
    state[..tagged.len()].copy_from_slice(tagged);
    state[place..][..fields.len()].copy_from_slice(fields);
    state[16..].copy_from_slice(rest);
    state
}

fn chip_state(stage: &[u8], number: &[u8; 8]) -> [u8; 24] {
    packed(stage, 12, &[], number)
}

fn number_state(phase: &[u8], number: &[u8; 8]) -> [u8; 24] {
    packed(phase, 8, &[], number)
}

fn page_state(phase: &[u8], [page, hops]: [u8; 2], bytes: &[u8; 32]) -> [u8; 48] {
    packed(phase, 8, &[page, hops], bytes)
}

/// `fields` are L, T, T's bitmap byte and the mode.
fn publisher_state(stage: &[u8], fields: [u8; 4], new: &[u8; 32]) -> [u8; 48] {
    packed(stage, 8, &fields, new)
}

/// The number of a mode in a state.
fn mode_number(mode: WriteMode) -> u8 {
    match mode {
        WriteMode::Ordinary => 0,
        WriteMode::Quick => 1,
    }
}

fn zeros(bytes: &[u8]) -> bool {
    bytes.iter().all(|&byte| byte == 0)
}

fn data_address(low: u8, high: u8) -> bool {
    u16::from_le_bytes([low, high]) < 0x800
}

fn status_address(low: u8, high: u8) -> bool {
    u16::from_le_bytes([low, high]) < 0x140
}

fn is_byte(left: u8) -> bool {
    (1..=8).contains(&left)
}

fn is_crc(left: u8) -> bool {
    (1..=16).contains(&left)
}

/// A memory and an address in it, to the end.
fn is_target(bytes: &[u8]) -> bool {
    match *bytes {
        [0, low, high, ref rest @ ..] => data_address(low, high) && zeros(rest),
        [1, low, high, ref rest @ ..] => status_address(low, high) && zeros(rest),
        _ => false,
    }
}

fn is_incoming(bytes: &[u8]) -> bool {
    match *bytes {
        [0, ref rest @ ..] => zeros(rest),
        [1, command, ref rest @ ..] => command < 7 && zeros(rest),
        [2, command, _, ref rest @ ..] => command < 7 && zeros(rest),
        [3, mode, ref target @ ..] => mode < 2 && is_target(target),
        _ => false,
    }
}

fn is_outgoing(left: u8, bytes: &[u8]) -> bool {
    match *bytes {
        [0 | 4 | 6, low, high, ref rest @ ..] => {
            is_byte(left) && data_address(low, high) && zeros(rest)
        }
        [1, ref rest @ ..] => is_crc(left) && zeros(rest),
        [2, low, high, ref rest @ ..] => is_byte(left) && status_address(low, high) && zeros(rest),
        [3, low, high, ref rest @ ..] => is_crc(left) && status_address(low, high) && zeros(rest),
        [5 | 7, low, high, ref rest @ ..] => is_crc(left) && data_address(low, high) && zeros(rest),
        [8, _, ref target @ ..] => is_crc(left) && is_target(target),
        [9, mode, ref target @ ..] => is_byte(left) && mode < 2 && is_target(target),
        _ => false,
    }
}

fn is_chip_state(state: &[u8]) -> bool {
    let (stage, fields) = state[..16].split_at(12);
    zeros(fields)
        && match *stage {
            [0, ref rest @ ..] => zeros(rest),
            [1, count, _, ref rest @ ..] => count < 8 && zeros(rest),
            [2, step, bit, ref rest @ ..] => step < 5 && bit < 64 && zeros(rest),
            [3, count, _, _, _, ref incoming @ ..] => count < 8 && is_incoming(incoming),
            [4, left, _, _, _, _, ref outgoing @ ..] => is_outgoing(left, outgoing),
            [5, _, mode, ref target @ ..] => mode < 2 && is_target(target),
            _ => false,
        }
}

fn is_number_state(state: &[u8]) -> bool {
    let (phase, fields) = state[..16].split_at(8);
    let number = &state[16..];
    let sound = crc8(&number[..7]) == number[7] && number[0] == 0x0B;
    zeros(fields)
        && match *phase {
            [0 | 1, ref rest @ ..] => zeros(rest),
            [2, bit, ref rest @ ..] => bit < 8 && zeros(rest),
            [3, byte, left, _, ref rest @ ..] => byte < 8 && is_byte(left) && zeros(rest),
            [4 | 5, ref rest @ ..] => sound && zeros(rest),
            [6, 13..=15, ref rest @ ..] => zeros(rest),
            _ => false,
        }
}

fn is_page_state(state: &[u8]) -> bool {
    let (phase, fields) = state[..16].split_at(8);
    let placed = fields[0] < 64 && fields[1] < 64 && zeros(&fields[2..]);
    placed
        && match *phase {
            [0 | 1 | 4 | 5, ref rest @ ..] => zeros(rest),
            [2, bit, ref rest @ ..] => bit < 32 && zeros(rest),
            [3, left, _, _, 0, ref rest @ ..] => is_byte(left) && zeros(rest),
            [3, left, _, _, 1, _, ref rest @ ..] => is_crc(left) && zeros(rest),
            [3, left, _, _, 2, k, ref rest @ ..] => is_byte(left) && k < 32 && zeros(rest),
            [3, left, _, _, 3, ref rest @ ..] => is_crc(left) && zeros(rest),
            [6, 3 | 4 | 6 | 13, ref rest @ ..] => zeros(rest),
            [6, 5, k, ref rest @ ..] => k > 63 && zeros(rest),
            _ => false,
        }
}

fn is_publisher_state(state: &[u8]) -> bool {
    let (stage, fields) = state[..16].split_at(8);
    let Some(&mode) = MODES.iter().find(|&&mode| mode_number(mode) == fields[3]) else {
        return false;
    };
    let placed = fields[0] < 64 && fields[1] < 64 && zeros(&fields[4..]);
    placed
        && match *stage {
            [0, low, high, 0 | 1, ref rest @ ..] => {
                let told = u16::from_le_bytes([low, high]);
                usize::from(told) <= all_events(mode) && zeros(rest)
            }
            [1, ref rest @ ..] => zeros(rest),
            [2, 1 | 3 | 4 | 7 | 8 | 10 | 13, ref rest @ ..] => zeros(rest),
            [2, 6, ref rest @ ..] => mode == WriteMode::Ordinary && zeros(rest),
            [2, 5, k, ref rest @ ..] => k > 63 && zeros(rest),
            [2, 9 | 20, page, ref rest @ ..] => page < 64 && zeros(rest),
            _ => false,
        }
}

/// A machine with its state in bytes.
struct Machine {
    name: &'static str,
    is_state: fn(&[u8]) -> bool,
    /// One step on a state. Panics if a refusal changed any buffer.
    step: fn(&mut Generator, &mut [u8]) -> u32,
    /// The codes of steps on accepted states.
    codes: &'static [u32],
}

fn mark(length: usize) -> Vec<u8> {
    (0..length).map(|place| 0xA0 | (place as u8 % 16)).collect()
}

const CHIP: Machine = Machine {
    name: "chip",
    is_state: is_chip_state,
    step: |g, state| {
        let mut image = mark(2368);
        let events: Vec<u8> = (0..1 + g.below(3)).map(|_| any_event(g).code()).collect();
        let mut replies = mark(events.len());
        let before = state.to_vec();
        let code = calls::chip_events(state, &events, &mut image, &mut replies);
        if code != 0 {
            assert_eq!(state, before);
            assert_eq!(image, mark(2368));
            assert_eq!(replies, mark(events.len()));
        } else {
            assert!(replies.iter().all(|&reply| reply < 2));
        }
        code
    },
    codes: &[0],
};

const NUMBER: Machine = Machine {
    name: "number read",
    is_state: is_number_state,
    step: |g, state| {
        let mut answer = mark(16);
        let before = state.to_vec();
        let code = calls::number_call(state, u32::from(g.bit()), &mut answer);
        if code != 0 {
            assert_eq!(answer, mark(16));
        }
        if code == 2 {
            assert_eq!(state, before);
        }
        code
    },
    codes: &[0, 13, 14, 15],
};

const PAGE: Machine = Machine {
    name: "page read",
    is_state: is_page_state,
    step: |g, state| {
        let mut answer = mark(16);
        let mut buffer = mark(32);
        let before = state.to_vec();
        let code = calls::page_call(state, u32::from(g.bit()), &mut buffer, &mut answer);
        if code != 0 {
            assert_eq!(buffer, mark(32));
            let from = if code == 5 { 2 } else { 0 };
            assert_eq!(answer[from..], mark(16)[from..]);
        }
        if code == 2 {
            assert_eq!(state, before);
        }
        code
    },
    // 3 comes only from stopped states that no call hands back.
    codes: &[0, 3, 4, 5, 6, 13],
};

const PUBLISHER: Machine = Machine {
    name: "publisher",
    is_state: is_publisher_state,
    step: |g, state| {
        let mut answer = mark(16);
        let before = state.to_vec();
        let code = calls::publisher_call(state, u32::from(g.bit()), &mut answer);
        if code != 0 {
            let from = if [5, 9, 20].contains(&code) { 2 } else { 0 };
            assert_eq!(answer[from..], mark(16)[from..]);
        }
        if code == 2 {
            assert_eq!(state, before);
        }
        code
    },
    // Those that a start gives come only from stopped states that no call
    // hands back.
    codes: &[0, 1, 3, 4, 5, 6, 7, 8, 9, 10, 13, 20],
};

/// A state is accepted exactly where the tables say so, and then leads to
/// accepted ones.
fn assert_judged(g: &mut Generator, machine: &Machine, state: &[u8]) -> bool {
    let mut state = state.to_vec();
    let accepted = (machine.is_state)(&state);
    let code = (machine.step)(g, &mut state);
    if !accepted {
        assert_eq!(code, 2, "{}: {state:?}", machine.name);
        return false;
    }
    assert!(machine.codes.contains(&code), "{}: {state:?}", machine.name);
    for _ in 0..3 {
        assert!((machine.is_state)(&state), "{}: {state:?}", machine.name);
        let code = (machine.step)(g, &mut state);
        assert!(machine.codes.contains(&code), "{}: {state:?}", machine.name);
    }
    true
}

/// Each byte of some states damaged: every other value for a few states, some
/// for the others.
fn assert_damaged(g: &mut Generator, machine: &Machine, states: &[Vec<u8>]) {
    let mut accepted = [0usize; 2];
    for (round, state) in states.iter().enumerate() {
        assert!(assert_judged(g, machine, state));
        for place in 0..state.len() {
            let values: Vec<u8> = if round % 8 == 0 {
                (0..=255).collect()
            } else {
                vec![
                    state[place] ^ (1 << g.below(8)),
                    state[place].wrapping_add(1),
                    state[place].wrapping_sub(1),
                    g.byte(),
                    0,
                    255,
                ]
            };
            for value in values {
                let mut damaged = state.clone();
                damaged[place] = value;
                accepted[usize::from(assert_judged(g, machine, &damaged))] += 1;
            }
        }
    }
    assert!(accepted.iter().all(|&count| count > 1000), "{accepted:?}");
}

/// States with fields of any values, most of them 0 or small.
fn assert_made_up(g: &mut Generator, machine: &Machine, length: usize) {
    let mut accepted = [0usize; 2];
    for _ in 0..60_000 {
        let mut state = vec![0; length];
        let sparse = 1 + g.below(8);
        for (place, byte) in state.iter_mut().enumerate() {
            *byte = match place {
                0 => g.below(8) as u8,
                16.. => g.byte(),
                _ if !g.once_in(sparse) => 0,
                1 => g.below(22) as u8,
                4..7 => g.below(11) as u8,
                7 | 8 | 11 if g.bit() => g.below(3) as u8,
                _ if g.once_in(2) => g.below(18) as u8,
                _ => g.byte(),
            };
        }
        if length == 24 && g.bit() {
            state[16..].copy_from_slice(&sound_number(g));
        }
        accepted[usize::from(assert_judged(g, machine, &state))] += 1;
    }
    assert!(accepted.iter().all(|&count| count > 1000), "{accepted:?}");
}

#[test]
fn chip_states() {
    let mut g = Generator::new(600);
    let mut states = Vec::new();
    for _ in 0..150 {
        let number = some_number(&mut g);
        let mut image = some_image(&mut g);
        let mut chip = Chip::power_up(&number);
        let events = session(&mut g, number);
        let length = g.below(events.len() as u64 + 1) as usize;
        chip.events(&events[..length], &mut image).unwrap();
        states.push(chip.bytes().to_vec());
    }
    assert_damaged(&mut g, &CHIP, &states);
    assert_made_up(&mut g, &CHIP, 24);
}

/// A state stored in the middle of a session and taken up again, with another
/// image too: what the chip does depends on these bytes and the image alone.
#[test]
fn chip_states_taken_up_again() {
    let mut g = Generator::new(601);
    for _ in 0..500 {
        let number = some_number(&mut g);
        let mut image = some_image(&mut g);
        let mut model = ModelChip::power_up(number, image.clone()).unwrap();
        let events = session(&mut g, number);
        let middle = g.below(events.len() as u64 + 1) as usize;
        let (first, rest) = events.split_at(middle);
        let mut chip = Chip::power_up(&number);
        chip.events(first, &mut image).unwrap();
        let mut again = Chip::of_bytes(*chip.bytes());
        let replies = again.events(rest, &mut image).unwrap();
        let all: Vec<bool> = events
            .iter()
            .map(|&event| model.event(to_model(event)))
            .collect();
        assert_eq!(replies, all[middle..]);
        assert_eq!(image, model.image);
    }
}

#[test]
fn number_states() {
    let mut g = Generator::new(602);
    let mut states = Vec::new();
    for _ in 0..150 {
        let mut model = ModelChip::power_up(some_number(&mut g), vec![0xFF; 2368]).unwrap();
        let mut state = vec![0; 24];
        assert_eq!(calls::number_start(&mut state), 0);
        let mut reply = 1;
        for _ in 0..g.below(80) {
            let mut answer = [0; 16];
            calls::number_call(&mut state, reply, &mut answer);
            if let Some(event) = Event::of_code(answer[0]) {
                reply = u32::from(model.event(to_model(event)));
            }
        }
        states.push(state);
    }
    assert_damaged(&mut g, &NUMBER, &states);
    assert_made_up(&mut g, &NUMBER, 24);
}

#[test]
fn page_states() {
    let mut g = Generator::new(603);
    let mut states = Vec::new();
    for _ in 0..150 {
        let mut model = ModelChip::power_up([0; 8], some_image(&mut g)).unwrap();
        let mut state = vec![0; 48];
        assert_eq!(calls::page_start(g.below(64) as u32, &mut state), 0);
        let mut reply = 1;
        for _ in 0..g.below(700) {
            let mut answer = [0xFF; 16];
            calls::page_call(&mut state, reply, &mut [0; 32], &mut answer);
            if let Some(event) = Event::of_code(answer[0]) {
                reply = u32::from(model.event(to_model(event)) != g.once_in(2000));
            }
        }
        states.push(state);
    }
    assert_damaged(&mut g, &PAGE, &states);
    assert_made_up(&mut g, &PAGE, 48);
}

/// The refusals by which a reading master can be stopped, of all numbers that
/// there are: those of the variation are none of them.
#[test]
fn stopped_states_of_reading_masters() {
    let mut g = Generator::new(609);
    let number: [u8; 8] = g.bytes();
    let page: [u8; 32] = g.bytes();
    for which in 0..=255 {
        for value in 0..=255 {
            let stop = [6, which, value];
            let mut state = number_state(&stop, &number);
            let expected = match (which, value) {
                (13..=15, 0) => which,
                _ => 2,
            };
            let code = (NUMBER.step)(&mut g, &mut state);
            assert_eq!(code, u32::from(expected), "{which} {value}");

            let mut state = page_state(&stop, [0, 0], &page);
            let expected = match (which, value) {
                (3 | 4 | 6 | 13, 0) | (5, 64..) => which,
                _ => 2,
            };
            let code = (PAGE.step)(&mut g, &mut state);
            assert_eq!(code, u32::from(expected), "{which} {value}");
        }
    }
}

/// Every state of the chip in a quick write: no event leaves it as it is. With
/// an address or a number one too high it is none.
#[test]
fn quick_chip_states() {
    let mut g = Generator::new(605);
    let number: [u8; 8] = g.bytes();
    let judge = |stage: &[u8], accepted: bool| {
        let state = chip_state(stage, &number);
        let mut after = state;
        let mut image = mark(2368);
        let code = calls::chip_events(&mut after, &[], &mut image, &mut []);
        assert_eq!(code, if accepted { 0 } else { 2 }, "{state:?}");
        assert_eq!(after, state);
        assert_eq!(image, mark(2368));
        assert_eq!(is_chip_state(&state), accepted);
    };
    for command in 3..10 {
        for count in 0..9 {
            let [register, low, crc_low, crc_high] = g.bytes();
            let shift = [3, count, register, crc_low, crc_high];
            let accepted = command < 7 && count < 8;
            judge(&[&shift[..], &[1, command]].concat(), accepted);
            judge(&[&shift[..], &[2, command, low]].concat(), accepted);
        }
    }
    let faulty = [(1, 2), (2, 0), (2, 1), (255, 0)].map(|(mode, memory)| (mode, memory, 0));
    for (mode, memory, limit) in [(1, 0, 0x800), (1, 1, 0x140)].into_iter().chain(faulty) {
        for address in 0..=limit {
            let [low, high] = u16::to_le_bytes(address);
            let target = [memory, low, high];
            let inside = address < limit;
            for count in 0..=9 {
                let [register, x, crc_low, crc_high] = g.bytes();
                // A byte comes in; it is read back.
                let incoming = [3, count, register, crc_low, crc_high, 3, mode];
                judge(&[&incoming[..], &target].concat(), inside && count < 8);
                let read_back = [4, count, register, x, crc_low, crc_high, 9, mode];
                judge(
                    &[&read_back[..], &target].concat(),
                    inside && is_byte(count),
                );
            }
            judge(&[&[5, g.byte(), mode][..], &target].concat(), inside);
        }
    }
}

/// Events, and the stage of the chip before each.
#[derive(Default)]
struct Traced {
    events: Vec<Event>,
    stages: Vec<Vec<u8>>,
}

impl Traced {
    fn byte_in(&mut self, byte: u8, crc: u16, incoming: &[u8]) {
        let [low, high] = crc.to_le_bytes();
        let mut register = 0;
        for (count, bit) in (0..).zip(bits_of_byte(byte)) {
            let shift = [3, count, register, low, high];
            self.stages.push([&shift[..], incoming].concat());
            self.events.push(Event::Slot(bit));
            register = register >> 1 | u8::from(bit) << 7;
        }
    }

    fn bits_out(&mut self, bits: u16, count: u8, crc: u16, outgoing: &[u8]) {
        let [low, high] = crc.to_le_bytes();
        for sent in 0..count {
            let [next, after] = (bits >> sent).to_le_bytes();
            let shift = [4, count - sent, next, after, low, high];
            self.stages.push([&shift[..], outgoing].concat());
            self.events.push(Event::Slot(true));
        }
    }
}

/// A write from the first bit of its command on, on a chip whose bytes are all
/// FFh. `memory` is 0 for data, 1 for status.
fn traced_write(mode: WriteMode, memory: u8, address: u16, bytes: &[u8]) -> Traced {
    let mut traced = Traced::default();
    let command = write_commands(mode)[usize::from(memory)];
    let [low, high] = address.to_le_bytes();
    let number = 3 + memory + 2 * mode_number(mode);
    let mode_byte = mode_number(mode);
    traced.byte_in(command, 0, &[0]);
    traced.byte_in(low, crc16(&[command]), &[1, number]);
    traced.byte_in(high, crc16(&[command, low]), &[2, number, low]);
    let mut crc = Crc16::cleared();
    crc.take_bytes(&[command, low, high]);
    for (place, &byte) in (address..).zip(bytes) {
        if place > address {
            crc = Crc16::loaded(place);
        }
        let [low, high] = place.to_le_bytes();
        let incoming = [3, mode_byte, memory, low, high];
        traced.byte_in(byte, crc.number(), &incoming);
        if mode == WriteMode::Ordinary {
            crc.take_byte(byte);
            let sent = [8, byte, memory, low, high];
            traced.bits_out(!crc.number(), 16, crc.number(), &sent);
        }
        traced
            .stages
            .push(vec![5, byte, mode_byte, memory, low, high]);
        traced.events.push(Event::Pulse);
        let back = [9, mode_byte, memory, low, high];
        traced.bits_out(u16::from(byte), 8, crc16(&[byte]), &back);
    }
    traced
}

/// A write in each mode has the bytes of the tables before every event, and in
/// the quick mode no CRC is sent.
#[test]
fn every_chip_state_of_a_write() {
    let mut g = Generator::new(609);
    for mode in MODES {
        for (memory, address) in [(0, 0x000), (0, 0x123), (0, 0x7FC), (1, 0x100), (1, 0x13C)] {
            let bytes: [u8; 4] = g.bytes();
            let number = some_number(&mut g);
            let traced = traced_write(mode, memory, address, &bytes);
            assert_eq!(traced.events.len(), 24 + 4 * (17 + crc_slots(mode)));
            let mut image = vec![0xFF; 2368];
            let mut chip = Chip::power_up(&number);
            let mut before = vec![Event::Reset];
            before.extend(bits_of_byte(0xCC).map(Event::Slot));
            chip.events(&before, &mut image).unwrap();
            for (&event, stage) in traced.events.iter().zip(&traced.stages) {
                assert_eq!(*chip.bytes(), chip_state(stage, &number), "{mode:?}");
                chip.event(event, &mut image).unwrap();
            }
        }
    }
}

/// Armed for every address in either mode, against the model: the pulse, the
/// byte read back, and a further byte.
#[test]
fn armed_chips() {
    let mut g = Generator::new(606);
    let targets: Vec<Target> = (0..0x800)
        .map(|address| Target::Data(DataAddress::new(address).unwrap()))
        .chain((0..0x140).map(|address| Target::Status(StatusAddress::new(address).unwrap())))
        .collect();
    for mode in MODES {
        let before = any_image(&mut g);
        for &target in &targets {
            let byte = g.byte();
            let (memory, first) = match target {
                Target::Data(address) => (0, address.number()),
                Target::Status(address) => (1, address.number()),
            };
            let [low, high] = first.to_le_bytes();
            let armed = [5, byte, mode_number(mode), memory, low, high];
            let number: [u8; 8] = g.bytes();
            let mut chip = Chip::of_bytes(chip_state(&armed, &number));
            let mut model = ModelChip::power_up(number, before.clone()).unwrap();
            model.stage = Stage::Armed {
                mode: mode_of_model(mode),
                target,
                byte,
            };
            let mut events = vec![Event::Pulse];
            events.extend([Event::Slot(true); 8]);
            events.extend(bits_of_byte(g.byte()).map(Event::Slot));
            events.extend(vec![Event::Slot(true); crc_slots(mode)]);
            events.push(Event::Pulse);
            events.extend([Event::Slot(true); 8]);
            let expected: Vec<bool> = events
                .iter()
                .map(|&event| model.event(to_model(event)))
                .collect();
            let mut image = before.clone();
            assert_eq!(chip.events(&events, &mut image), Ok(expected));
            assert_eq!(image, model.image);
        }
    }
}

#[test]
fn publisher_states() {
    let mut g = Generator::new(604);
    for mode in MODES {
        let mut states = Vec::new();
        for _ in 0..100 {
            let (image, page) = image_to_update(&mut g);
            let mut model = ModelChip::power_up([0; 8], image.clone()).unwrap();
            let new: [u8; 32] = g.bytes();
            let mut publisher = Publisher::start(&image, &new, page, mode).unwrap();
            let mut reply = true;
            for _ in 0..g.below(all_events(mode) as u64 + 80) {
                if let Ok(Answer::Event(event)) = publisher.call(reply) {
                    reply = model.event(to_model(event)) != g.once_in(4000);
                }
            }
            states.push(publisher.bytes().to_vec());
        }
        assert_damaged(&mut g, &PUBLISHER, &states);
    }
    assert_made_up(&mut g, &PUBLISHER, 48);
}

/// Every state of an update on a good line has the bytes of the tables, and
/// bytes made from the tables go on as the update does.
#[test]
fn every_publisher_state_of_an_update() {
    let mut g = Generator::new(607);
    for round in 0..6 {
        let mode = MODES[round % 2];
        let (image, page) = image_to_update(&mut g);
        let new: [u8; 32] = g.bytes();
        let model = start_model(&image, &new, page, mode).unwrap();
        let pages = model.pages();
        let plan = model.planned_events();
        assert_eq!(plan.len(), all_events(mode));
        let used = image[status(0x040 + usize::from(pages.t) / 8)];
        let fields = [pages.l, pages.t, used, mode_number(mode)];
        let running = |told: usize, good: bool| {
            let [low, high] = (told as u16).to_le_bytes();
            publisher_state(&[0, low, high, u8::from(good)], fields, &new)
        };
        let stopped = |refusal: u32| publisher_state(&[2, refusal as u8], fields, &new);
        let done = publisher_state(&[1], fields, &new);

        let mut chip = ModelChip::power_up([0; 8], image.clone()).unwrap();
        let mut publisher = Publisher::start(&image, &new, page, mode).unwrap();
        let mut reply = g.bit();
        let mut refused = [0usize; 16];
        for told in 0..=plan.len() {
            assert_eq!(*publisher.bytes(), running(told, true), "{mode:?}");
            let expected = match plan.get(told) {
                Some(&event) => Ok(Answer::Event(common::from_model(event))),
                None => Ok(Answer::End(common::published(pages))),
            };
            let after = if told < plan.len() {
                running(told + 1, true)
            } else {
                done
            };
            let mut made = Publisher::of_bytes(running(told, true));
            assert_eq!(made.call(reply), expected);
            assert_eq!(*made.bytes(), after);
            // An earlier bit of the CRC or byte has differed: refused after the
            // last one.
            let mut wrong = Publisher::of_bytes(running(told, false));
            match wrong.call(reply) {
                Err(refusal) => {
                    refused[refusal.number as usize] += 1;
                    assert_eq!(*wrong.bytes(), stopped(refusal.number));
                }
                answer => assert_eq!(answer, expected),
            }
            assert_eq!(publisher.call(reply), expected);
            assert_eq!(*publisher.bytes(), after);
            if let Some(&event) = plan.get(told) {
                reply = chip.event(event);
            }
        }
        // 34 bytes are written.
        let crcs = match mode {
            WriteMode::Ordinary => 34,
            WriteMode::Quick => 0,
        };
        assert_eq!([refused[6], refused[7]], [crcs, 34]);
        assert_eq!(refused.iter().sum::<usize>(), crcs + 34);
    }
}

/// The mode in a publisher's bytes: two are there, each with its own count of
/// events, and no quick publisher is stopped by a CRC.
#[test]
fn modes_of_publisher_states() {
    let mut g = Generator::new(608);
    let new: [u8; 32] = g.bytes();
    let mut code = |mode: u8, stage: &[u8]| {
        let mut state = publisher_state(stage, [5, 9, 0xFF, mode], &new);
        let accepted = is_publisher_state(&state);
        let code = (PUBLISHER.step)(&mut g, &mut state);
        assert_eq!(accepted, code != 2, "{state:?}");
        code
    };
    for mode in MODES {
        let all = all_events(mode) as u16;
        let number = mode_number(mode);
        for told in (0..=all + 300).chain([u16::MAX]) {
            let [low, high] = told.to_le_bytes();
            // Only the last reply of a CRC or byte and a reset stop a running
            // state whose bits have agreed so far.
            let answered = code(number, &[0, low, high, 1]);
            assert_eq!(answered == 2, told > all, "{mode:?}, {told}");
            assert!([0, 2, 7, 13].contains(&answered) || (number, answered) == (0, 6));
        }
        assert_eq!(code(number, &[1]), 0);
        for which in 0..=255 {
            let expected = match which {
                1 | 3 | 4 | 7 | 8 | 9 | 10 | 13 | 20 => u32::from(which),
                6 if mode == WriteMode::Ordinary => 6,
                _ => 2,
            };
            assert_eq!(code(number, &[2, which]), expected, "{mode:?}, {which}");
            let outside = code(number, &[2, 5, which]);
            assert_eq!(outside, if which > 63 { 5 } else { 2 });
            for protection in [9, 20] {
                let expected = if which > 63 { 2 } else { protection };
                let protected = code(number, &[2, protection, which]);
                assert_eq!(protected, u32::from(expected));
            }
        }
        let stages: [&[u8]; 4] = [&[0, 0, 0, 1], &[0, 100, 0, 0], &[1], &[2, 7]];
        for stage in stages {
            assert_ne!(code(number, stage), 2);
            for other in 2..=255 {
                assert_eq!(code(other, stage), 2, "mode {other}");
            }
        }
    }
}
