//! The session that the chips are timed on, as events in bytes.

use ds2505_model::bits::bits_of;
use plug::Event;

fn send(events: &mut Vec<Event>, bytes: &[u8]) {
    events.extend(bits_of(bytes).into_iter().map(Event::Slot));
}

fn read(events: &mut Vec<Event>, bytes: usize) {
    events.extend(std::iter::repeat_n(Event::Slot(true), 8 * bytes));
}

/// Reset, Skip ROM, a command and its address.
fn begin(events: &mut Vec<Event>, command: u8, address: u16) {
    let [low, high] = address.to_le_bytes();
    events.push(Event::Reset);
    send(events, &[0xCC, command, low, high]);
}

/// A write of some bytes: for each the byte, its CRC, the pulse and the byte
/// read back.
fn write(events: &mut Vec<Event>, command: u8, address: u16, bytes: &[u8]) {
    begin(events, command, address);
    for &byte in bytes {
        send(events, &[byte]);
        read(events, 2);
        events.push(Event::Pulse);
        read(events, 1);
    }
}

/// All of memory read, all of it read with redirection bytes, single pages so
/// too, all of status read, and 256 data bytes and 72 status bytes written.
pub fn session() -> Vec<Event> {
    let mut events = Vec::new();
    begin(&mut events, 0xF0, 0);
    read(&mut events, 2048 + 2 + 1);
    begin(&mut events, 0xA5, 0);
    read(&mut events, 64 * (1 + 2 + 32 + 2) + 1);
    for page in (0..64).step_by(4) {
        begin(&mut events, 0xA5, 32 * page);
        read(&mut events, 1 + 2 + 32 + 2);
    }
    begin(&mut events, 0xAA, 0);
    read(&mut events, 40 * (8 + 2) + 1);
    let bytes: Vec<u8> = (0..=255).collect();
    write(&mut events, 0x0F, 0x200, &bytes);
    write(&mut events, 0x55, 0x040, &bytes[120..128]);
    write(&mut events, 0x55, 0x100, &bytes[192..]);
    begin(&mut events, 0xF0, 0x200);
    read(&mut events, 256);
    events.push(Event::Reset);
    events
}
