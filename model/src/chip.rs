//! The chip: events in, replies out.
//!
//! When it is the chip's turn, the bits that it will send are put in a list
//! together with what comes after them. Nothing can change the image while
//! they are being sent, because only a pulse on an armed chip does that.

use std::collections::VecDeque;

use crate::bits::{bits_of, bits_of_byte, byte_of, low_high};
use crate::crc::{crc16_sent, Crc16};
use crate::memory::{
    check_image, data_byte, page_bytes, program_data, program_status, redirection_byte,
    status_byte, DataAddress, Page, StatusAddress, DATA_LENGTH, PAGE_LENGTH,
};
use crate::refusal::Refusal;

/// The bits of a start address that the chip keeps.
const KEPT_ADDRESS_BITS: u16 = 0x07FF;

/// What can happen to a chip.
#[derive(Clone, Copy, Debug, PartialEq, Eq)]
pub enum Event {
    Reset,
    /// A slot with the master's bit. With 1 it is a read slot.
    Slot(bool),
    Pulse,
    PowerLoss,
}

/// How a byte is written: each memory has two write commands.
#[derive(Clone, Copy, Debug, PartialEq, Eq)]
pub enum WriteMode {
    /// 0Fh and 55h: the CRC is sent before the pulse.
    Ordinary,
    /// F3h and F5h, the sheet's speed-programming mode: no CRC is sent.
    Quick,
}

/// A memory command that the chip knows.
#[derive(Clone, Copy, Debug, PartialEq, Eq)]
pub enum MemoryCommand {
    ReadMemory,
    ReadStatus,
    ExtendedRead,
    WriteMemory(WriteMode),
    WriteStatus(WriteMode),
}

impl MemoryCommand {
    pub fn of_byte(byte: u8) -> Option<MemoryCommand> {
        match byte {
            0xF0 => Some(MemoryCommand::ReadMemory),
            0xAA => Some(MemoryCommand::ReadStatus),
            0xA5 => Some(MemoryCommand::ExtendedRead),
            0x0F => Some(MemoryCommand::WriteMemory(WriteMode::Ordinary)),
            0x55 => Some(MemoryCommand::WriteStatus(WriteMode::Ordinary)),
            0xF3 => Some(MemoryCommand::WriteMemory(WriteMode::Quick)),
            0xF5 => Some(MemoryCommand::WriteStatus(WriteMode::Quick)),
            _ => None,
        }
    }

    pub fn byte(self) -> u8 {
        match self {
            MemoryCommand::ReadMemory => 0xF0,
            MemoryCommand::ReadStatus => 0xAA,
            MemoryCommand::ExtendedRead => 0xA5,
            MemoryCommand::WriteMemory(WriteMode::Ordinary) => 0x0F,
            MemoryCommand::WriteStatus(WriteMode::Ordinary) => 0x55,
            MemoryCommand::WriteMemory(WriteMode::Quick) => 0xF3,
            MemoryCommand::WriteStatus(WriteMode::Quick) => 0xF5,
        }
    }
}

/// The byte that a write is aimed at.
#[derive(Clone, Copy, Debug, PartialEq, Eq)]
pub enum Target {
    Data(DataAddress),
    Status(StatusAddress),
}

impl Target {
    fn address(self) -> u16 {
        match self {
            Target::Data(address) => address.number(),
            Target::Status(address) => address.number(),
        }
    }

    /// The target one address higher, if there is one.
    fn next(self) -> Option<Target> {
        match self {
            Target::Data(address) => address.next().map(Target::Data),
            Target::Status(address) => address.next().map(Target::Status),
        }
    }
}

/// What the chip is doing. `taken` is what has come in so far of what it is
/// waiting for.
#[derive(Clone, Debug, PartialEq, Eq)]
pub enum Stage {
    /// Waits for a reset. The ones after the end of a read are this as well.
    Silent,
    RomCommand {
        taken: Vec<bool>,
    },
    /// Compares the master's bits with the number.
    Match {
        taken: Vec<bool>,
    },
    /// Waits for the master's bit at one of the 64 places.
    SearchChoice {
        place: usize,
    },
    MemoryCommand {
        taken: Vec<bool>,
    },
    Address {
        command: MemoryCommand,
        taken: Vec<bool>,
    },
    /// Waits for a byte to write. The generator already holds what goes
    /// before the byte; in a quick write nothing of it is ever sent.
    WriteByte {
        mode: WriteMode,
        target: Target,
        generator: Crc16,
        taken: Vec<bool>,
    },
    Armed {
        mode: WriteMode,
        target: Target,
        byte: u8,
    },
    Sending {
        bits: VecDeque<bool>,
        after: After,
    },
}

/// What follows when all bits have been sent.
#[derive(Clone, Copy, Debug, PartialEq, Eq)]
pub enum After {
    Ones,
    MemoryCommand,
    SearchChoice {
        place: usize,
    },
    /// The next eight bytes of status and their CRC.
    StatusPage {
        from: StatusAddress,
    },
    /// Data from an address to the end of its page and their CRC.
    PageData {
        from: DataAddress,
    },
    /// The redirection byte of a later page in an extended read and its CRC.
    PageRedirection {
        page: Page,
    },
    /// The CRC of an ordinary write was sent.
    Armed {
        target: Target,
        byte: u8,
    },
    /// The address rises after a byte was read back.
    WriteNext {
        mode: WriteMode,
        written: Target,
    },
}

/// A chip: its number, its image and its stage.
#[derive(Clone, Debug, PartialEq, Eq)]
pub struct Chip {
    pub number: [u8; 8],
    pub image: Vec<u8>,
    pub stage: Stage,
}

impl Chip {
    /// A chip that has just got power: silent until a reset. Refusal 1.
    pub fn power_up(number: [u8; 8], image: Vec<u8>) -> Result<Chip, Refusal> {
        check_image(&image)?;
        Ok(Chip {
            number,
            image,
            stage: Stage::Silent,
        })
    }

    /// Takes an event and gives the reply.
    pub fn event(&mut self, event: Event) -> bool {
        match event {
            Event::Reset => {
                self.stage = Stage::RomCommand { taken: Vec::new() };
                false
            }
            Event::PowerLoss => {
                self.stage = Stage::Silent;
                true
            }
            Event::Pulse => {
                if let Stage::Armed { mode, target, byte } = self.stage {
                    self.program(mode, target, byte);
                }
                true
            }
            Event::Slot(master) => master & self.slot(master),
        }
    }

    /// Takes the master's bit of a slot and gives the chip's own bit.
    fn slot(&mut self, master: bool) -> bool {
        let stage = std::mem::replace(&mut self.stage, Stage::Silent);
        let (own, next) = match stage {
            Stage::Sending { mut bits, after } => {
                let own = bits.pop_front().expect("there is a bit left to send");
                let next = if bits.is_empty() {
                    self.after_sending(after)
                } else {
                    Stage::Sending { bits, after }
                };
                (own, next)
            }
            other => (true, self.after_taking(other, master)),
        };
        self.stage = next;
        own
    }

    /// The stage after a slot in which the chip was not sending.
    fn after_taking(&self, stage: Stage, bit: bool) -> Stage {
        match stage {
            Stage::Silent => Stage::Silent,
            Stage::Armed { .. } => Stage::Silent,
            Stage::RomCommand { mut taken } => {
                taken.push(bit);
                if taken.len() < 8 {
                    Stage::RomCommand { taken }
                } else {
                    self.begin_rom_command(byte_of(&taken))
                }
            }
            Stage::Match { mut taken } => {
                let number = bits_of(&self.number);
                taken.push(bit);
                if !number.starts_with(&taken) {
                    Stage::Silent
                } else if taken == number {
                    Stage::MemoryCommand { taken: Vec::new() }
                } else {
                    Stage::Match { taken }
                }
            }
            Stage::SearchChoice { place } => {
                let number = bits_of(&self.number);
                if bit != number[place] {
                    Stage::Silent
                } else if place == 63 {
                    Stage::MemoryCommand { taken: Vec::new() }
                } else {
                    self.search_place(place + 1)
                }
            }
            Stage::MemoryCommand { mut taken } => {
                taken.push(bit);
                if taken.len() < 8 {
                    return Stage::MemoryCommand { taken };
                }
                match MemoryCommand::of_byte(byte_of(&taken)) {
                    Some(command) => Stage::Address {
                        command,
                        taken: Vec::new(),
                    },
                    None => Stage::Silent,
                }
            }
            Stage::Address { command, mut taken } => {
                taken.push(bit);
                if taken.len() < 16 {
                    return Stage::Address { command, taken };
                }
                let low = u16::from(byte_of(&taken[..8]));
                let high = u16::from(byte_of(&taken[8..]));
                self.begin_memory_command(command, high * 256 + low)
            }
            Stage::WriteByte {
                mode,
                target,
                mut generator,
                mut taken,
            } => {
                taken.push(bit);
                if taken.len() < 8 {
                    return Stage::WriteByte {
                        mode,
                        target,
                        generator,
                        taken,
                    };
                }
                let byte = byte_of(&taken);
                generator.take_byte(byte);
                match mode {
                    WriteMode::Ordinary => send(&generator.sent(), After::Armed { target, byte }),
                    WriteMode::Quick => Stage::Armed { mode, target, byte },
                }
            }
            Stage::Sending { .. } => unreachable!("a sending chip takes nothing"),
        }
    }

    fn begin_rom_command(&self, command: u8) -> Stage {
        match command {
            0x33 => send(&self.number, After::MemoryCommand),
            0x55 => Stage::Match { taken: Vec::new() },
            0xF0 => self.search_place(0),
            0xCC => Stage::MemoryCommand { taken: Vec::new() },
            _ => Stage::Silent,
        }
    }

    /// One of the 64 places of a search: the bit, then its complement.
    fn search_place(&self, place: usize) -> Stage {
        let bit = bits_of(&self.number)[place];
        Stage::Sending {
            bits: VecDeque::from([bit, !bit]),
            after: After::SearchChoice { place },
        }
    }

    /// The stage after the last bit of an address. The chip sets the five
    /// highest bits to 0 before address counter and CRC generator get them.
    fn begin_memory_command(&self, command: MemoryCommand, sent: u16) -> Stage {
        let number = sent & KEPT_ADDRESS_BITS;
        let [low, high] = low_high(number);
        let heading = [command.byte(), low, high];
        match command {
            MemoryCommand::ReadMemory => match DataAddress::new(number) {
                Some(from) => self.read_memory(&heading, from),
                None => Stage::Silent,
            },
            MemoryCommand::ReadStatus => match StatusAddress::new(number) {
                Some(from) => self.read_status(&heading, from),
                None => Stage::Silent,
            },
            MemoryCommand::ExtendedRead => match DataAddress::new(number) {
                Some(from) => {
                    self.read_redirection(&heading, from.page(), After::PageData { from })
                }
                None => Stage::Silent,
            },
            MemoryCommand::WriteMemory(mode) => match DataAddress::new(number) {
                Some(address) => first_write(mode, &heading, Target::Data(address)),
                None => Stage::Silent,
            },
            MemoryCommand::WriteStatus(mode) => match StatusAddress::new(number) {
                Some(address) => first_write(mode, &heading, Target::Status(address)),
                None => Stage::Silent,
            },
        }
    }

    /// Data to the end of memory, then the CRC of heading and data.
    fn read_memory(&self, heading: &[u8], from: DataAddress) -> Stage {
        let data = &self.image[usize::from(from.number())..DATA_LENGTH];
        send_with_crc(heading, data, After::Ones)
    }

    /// Status bytes to the end of a group of eight, then the CRC of heading
    /// and bytes. Later groups have no heading.
    fn read_status(&self, heading: &[u8], from: StatusAddress) -> Stage {
        let mut bytes = Vec::new();
        let mut address = from;
        let after = loop {
            bytes.push(status_byte(&self.image, address));
            let group_done = address.number() % 8 == 7;
            match address.next() {
                None => break After::Ones,
                Some(next) if group_done => break After::StatusPage { from: next },
                Some(next) => address = next,
            }
        };
        send_with_crc(heading, &bytes, after)
    }

    /// The redirection byte of a page, then the CRC of heading and byte.
    fn read_redirection(&self, heading: &[u8], page: Page, after: After) -> Stage {
        let byte = redirection_byte(&self.image, page).0;
        send_with_crc(heading, &[byte], after)
    }

    /// Data to the end of a page, then the CRC of these data.
    fn read_page_data(&self, from: DataAddress) -> Stage {
        let page = from.page();
        let skipped = usize::from(from.number()) % PAGE_LENGTH;
        let data = &page_bytes(&self.image, page)[skipped..];
        let after = match Page::new(page.number() + 1) {
            Some(page) => After::PageRedirection { page },
            None => After::Ones,
        };
        send_with_crc(&[], data, after)
    }

    /// The stage after the last bit of what was being sent.
    fn after_sending(&self, after: After) -> Stage {
        match after {
            After::Ones => Stage::Silent,
            After::MemoryCommand => Stage::MemoryCommand { taken: Vec::new() },
            After::SearchChoice { place } => Stage::SearchChoice { place },
            After::StatusPage { from } => self.read_status(&[], from),
            After::PageData { from } => self.read_page_data(from),
            After::PageRedirection { page } => {
                let from = page.first_address();
                self.read_redirection(&[], page, After::PageData { from })
            }
            After::Armed { target, byte } => Stage::Armed {
                mode: WriteMode::Ordinary,
                target,
                byte,
            },
            After::WriteNext { mode, written } => match written.next() {
                Some(target) => Stage::WriteByte {
                    mode,
                    target,
                    generator: Crc16::loaded(target.address()),
                    taken: Vec::new(),
                },
                None => Stage::Silent,
            },
        }
    }

    /// A pulse on an armed chip: the byte goes in, then the target goes out.
    fn program(&mut self, mode: WriteMode, target: Target, byte: u8) {
        let held = match target {
            Target::Data(address) => {
                program_data(&mut self.image, address, byte);
                data_byte(&self.image, address)
            }
            Target::Status(address) => {
                program_status(&mut self.image, address, byte);
                status_byte(&self.image, address)
            }
        };
        self.stage = Stage::Sending {
            bits: VecDeque::from(bits_of_byte(held)),
            after: After::WriteNext {
                mode,
                written: target,
            },
        };
    }
}

/// The wait for the first byte of a write, whose CRC begins with the heading.
fn first_write(mode: WriteMode, heading: &[u8], target: Target) -> Stage {
    let mut generator = Crc16::cleared();
    generator.take_bytes(heading);
    Stage::WriteByte {
        mode,
        target,
        generator,
        taken: Vec::new(),
    }
}

fn send(bytes: &[u8], after: After) -> Stage {
    Stage::Sending {
        bits: bits_of(bytes).into(),
        after,
    }
}

/// Sends bytes and then the CRC of the heading, which isn't sent, and them.
fn send_with_crc(heading: &[u8], bytes: &[u8], after: After) -> Stage {
    let crc = crc16_sent(&[heading, bytes].concat());
    send(&[bytes, &crc].concat(), after)
}
