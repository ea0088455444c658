//! A plain chip for comparison: a register machine on the same events, cut as
//! the proved one is (silent, in a ROM function, receiving, sending, armed),
//! with counters and shift registers and no heap. It is written from the
//! papers, for speed, and nothing is proved of it.

const DATA_LENGTH: u16 = 2048;
const STATUS_LENGTH: u16 = 320;

/// The image's length.
pub const IMAGE_LENGTH: usize = (DATA_LENGTH + STATUS_LENGTH) as usize;

/// What a CRC-16 register becomes by each byte, from zero.
const TABLE: [u16; 256] = {
    let mut table = [0u16; 256];
    let mut byte = 0;
    while byte < 256 {
        let mut register = byte as u16;
        let mut bit = 0;
        while bit < 8 {
            register = (register >> 1) ^ (0xA001 * (register & 1));
            bit += 1;
        }
        table[byte] = register;
        byte += 1;
    }
    table
};

fn crc(register: u16, byte: u8) -> u16 {
    (register >> 8) ^ TABLE[usize::from(register as u8 ^ byte)]
}

#[derive(Clone, Copy)]
enum Memory {
    Data,
    Status,
}

/// Ordinary writes send a CRC before the pulse, quick ones don't.
#[derive(Clone, Copy)]
enum Mode {
    Ordinary,
    Quick,
}

#[derive(Clone, Copy)]
enum Command {
    ReadMemory,
    ReadStatus,
    ExtendedRead,
    Write(Mode, Memory),
}

#[derive(Clone, Copy)]
enum Incoming {
    Command,
    AddressLow(Command),
    AddressHigh(Command, u8),
    Data(Mode, Memory, u16),
}

#[derive(Clone, Copy)]
enum Outgoing {
    MemoryByte(u16),
    MemoryCrc,
    StatusByte(u16),
    StatusCrc(u16),
    RedirectionByte(u16),
    RedirectionCrc(u16),
    PageByte(u16),
    PageCrc(u16),
    WriteCrc(Memory, u16, u8),
    ReadBack(Mode, Memory, u16),
}

#[derive(Clone, Copy)]
enum Stage {
    Silent,
    RomCommand {
        count: u8,
        register: u8,
    },
    ReadNumber {
        bit: u8,
    },
    Match {
        bit: u8,
    },
    SearchBit {
        bit: u8,
    },
    SearchComplement {
        bit: u8,
    },
    SearchTake {
        bit: u8,
    },
    Receive {
        what: Incoming,
        count: u8,
        register: u8,
        crc: u16,
    },
    Send {
        what: Outgoing,
        left: u8,
        bits: u16,
        crc: u16,
    },
    Armed {
        mode: Mode,
        memory: Memory,
        address: u16,
        byte: u8,
    },
}

fn receive(what: Incoming, crc: u16) -> Stage {
    Stage::Receive {
        what,
        count: 0,
        register: 0,
        crc,
    }
}

/// A byte goes out, and its CRC takes it in.
fn send_byte(what: Outgoing, byte: u8, register: u16) -> Stage {
    Stage::Send {
        what,
        left: 8,
        bits: u16::from(byte),
        crc: crc(register, byte),
    }
}

fn send_crc(what: Outgoing, register: u16) -> Stage {
    Stage::Send {
        what,
        left: 16,
        bits: !register,
        crc: 0,
    }
}

fn is_gap(address: u16) -> bool {
    !matches!(address, 0x000..=0x007 | 0x020..=0x027 | 0x040..=0x047 | 0x100..=0x13F)
}

fn status_byte(image: &[u8; IMAGE_LENGTH], address: u16) -> u8 {
    if is_gap(address) {
        0xFF
    } else {
        image[usize::from(DATA_LENGTH + address)]
    }
}

fn field_bit(image: &[u8; IMAGE_LENGTH], field: u16, page: u16) -> bool {
    image[usize::from(DATA_LENGTH + field + page / 8)] >> (page % 8) & 1 == 1
}

fn target_byte(image: &[u8; IMAGE_LENGTH], memory: Memory, address: u16) -> u8 {
    match memory {
        Memory::Data => image[usize::from(address)],
        Memory::Status => status_byte(image, address),
    }
}

fn program(image: &mut [u8; IMAGE_LENGTH], memory: Memory, address: u16, byte: u8) {
    match memory {
        Memory::Data => {
            if field_bit(image, 0x000, address / 32) {
                image[usize::from(address)] &= byte;
            }
        }
        Memory::Status => {
            let allowed = match address {
                0x100.. => field_bit(image, 0x020, address - 0x100),
                _ => !is_gap(address),
            };
            if allowed {
                image[usize::from(DATA_LENGTH + address)] &= byte;
            }
        }
    }
}

fn redirection(image: &[u8; IMAGE_LENGTH], address: u16, register: u16) -> Stage {
    let byte = image[usize::from(DATA_LENGTH + 0x100 + address / 32)];
    send_byte(Outgoing::RedirectionByte(address), byte, register)
}

fn rom_command(command: u8) -> Stage {
    match command {
        0x33 => Stage::ReadNumber { bit: 0 },
        0x55 => Stage::Match { bit: 0 },
        0xF0 => Stage::SearchBit { bit: 0 },
        0xCC => receive(Incoming::Command, 0),
        _ => Stage::Silent,
    }
}

/// A whole byte is in.
fn received(what: Incoming, byte: u8, register: u16, image: &[u8; IMAGE_LENGTH]) -> Stage {
    // The chip sets the five highest bits of a start address to 0.
    let byte = match what {
        Incoming::AddressHigh(_, _) => byte & 0x07,
        _ => byte,
    };
    let register = crc(register, byte);
    match what {
        Incoming::Command => {
            let command = match byte {
                0xF0 => Command::ReadMemory,
                0xAA => Command::ReadStatus,
                0xA5 => Command::ExtendedRead,
                0x0F => Command::Write(Mode::Ordinary, Memory::Data),
                0x55 => Command::Write(Mode::Ordinary, Memory::Status),
                0xF3 => Command::Write(Mode::Quick, Memory::Data),
                0xF5 => Command::Write(Mode::Quick, Memory::Status),
                _ => return Stage::Silent,
            };
            receive(Incoming::AddressLow(command), register)
        }
        Incoming::AddressLow(command) => receive(Incoming::AddressHigh(command, byte), register),
        Incoming::AddressHigh(command, low) => {
            let address = u16::from_le_bytes([low, byte]);
            let limit = match command {
                Command::ReadStatus | Command::Write(_, Memory::Status) => STATUS_LENGTH,
                _ => DATA_LENGTH,
            };
            if address >= limit {
                return Stage::Silent;
            }
            match command {
                Command::ReadMemory => send_byte(
                    Outgoing::MemoryByte(address),
                    image[usize::from(address)],
                    register,
                ),
                Command::ReadStatus => send_byte(
                    Outgoing::StatusByte(address),
                    status_byte(image, address),
                    register,
                ),
                Command::ExtendedRead => redirection(image, address, register),
                Command::Write(mode, memory) => {
                    receive(Incoming::Data(mode, memory, address), register)
                }
            }
        }
        Incoming::Data(Mode::Ordinary, memory, address) => {
            send_crc(Outgoing::WriteCrc(memory, address, byte), register)
        }
        Incoming::Data(mode, memory, address) => Stage::Armed {
            mode,
            memory,
            address,
            byte,
        },
    }
}

/// The last bit of something is out.
fn sent(what: Outgoing, register: u16, image: &[u8; IMAGE_LENGTH]) -> Stage {
    match what {
        Outgoing::MemoryByte(address) => {
            if address + 1 < DATA_LENGTH {
                let byte = image[usize::from(address + 1)];
                send_byte(Outgoing::MemoryByte(address + 1), byte, register)
            } else {
                send_crc(Outgoing::MemoryCrc, register)
            }
        }
        Outgoing::MemoryCrc => Stage::Silent,
        Outgoing::StatusByte(address) => {
            if address % 8 < 7 {
                let byte = status_byte(image, address + 1);
                send_byte(Outgoing::StatusByte(address + 1), byte, register)
            } else {
                send_crc(Outgoing::StatusCrc(address), register)
            }
        }
        Outgoing::StatusCrc(address) => {
            if address + 1 < STATUS_LENGTH {
                let byte = status_byte(image, address + 1);
                send_byte(Outgoing::StatusByte(address + 1), byte, 0)
            } else {
                Stage::Silent
            }
        }
        Outgoing::RedirectionByte(address) => send_crc(Outgoing::RedirectionCrc(address), register),
        Outgoing::RedirectionCrc(address) => {
            send_byte(Outgoing::PageByte(address), image[usize::from(address)], 0)
        }
        Outgoing::PageByte(address) => {
            if address % 32 < 31 {
                let byte = image[usize::from(address + 1)];
                send_byte(Outgoing::PageByte(address + 1), byte, register)
            } else {
                send_crc(Outgoing::PageCrc(address), register)
            }
        }
        Outgoing::PageCrc(address) => {
            if address + 1 < DATA_LENGTH {
                redirection(image, address + 1, 0)
            } else {
                Stage::Silent
            }
        }
        Outgoing::WriteCrc(memory, address, byte) => Stage::Armed {
            mode: Mode::Ordinary,
            memory,
            address,
            byte,
        },
        Outgoing::ReadBack(mode, memory, address) => {
            let limit = match memory {
                Memory::Data => DATA_LENGTH,
                Memory::Status => STATUS_LENGTH,
            };
            if address + 1 < limit {
                receive(Incoming::Data(mode, memory, address + 1), address + 1)
            } else {
                Stage::Silent
            }
        }
    }
}

/// A slot: the chip's own bit, and the stage after it.
fn slot(stage: Stage, master: bool, number: u64, image: &[u8; IMAGE_LENGTH]) -> (bool, Stage) {
    let number_bit = |bit: u8| number >> bit & 1 == 1;
    match stage {
        Stage::Send {
            what,
            left,
            bits,
            crc,
        } => {
            let next = if left > 1 {
                Stage::Send {
                    what,
                    left: left - 1,
                    bits: bits >> 1,
                    crc,
                }
            } else {
                sent(what, crc, image)
            };
            (bits & 1 == 1, next)
        }
        Stage::Receive {
            what,
            count,
            register,
            crc,
        } => {
            let register = register >> 1 | u8::from(master) << 7;
            let next = if count < 7 {
                Stage::Receive {
                    what,
                    count: count + 1,
                    register,
                    crc,
                }
            } else {
                received(what, register, crc, image)
            };
            (true, next)
        }
        Stage::Silent | Stage::Armed { .. } => (true, Stage::Silent),
        Stage::RomCommand { count, register } => {
            let register = register >> 1 | u8::from(master) << 7;
            let next = if count < 7 {
                Stage::RomCommand {
                    count: count + 1,
                    register,
                }
            } else {
                rom_command(register)
            };
            (true, next)
        }
        Stage::ReadNumber { bit } => {
            let next = if bit < 63 {
                Stage::ReadNumber { bit: bit + 1 }
            } else {
                receive(Incoming::Command, 0)
            };
            (number_bit(bit), next)
        }
        Stage::Match { bit } => {
            let next = if master != number_bit(bit) {
                Stage::Silent
            } else if bit < 63 {
                Stage::Match { bit: bit + 1 }
            } else {
                receive(Incoming::Command, 0)
            };
            (true, next)
        }
        Stage::SearchBit { bit } => (number_bit(bit), Stage::SearchComplement { bit }),
        Stage::SearchComplement { bit } => (!number_bit(bit), Stage::SearchTake { bit }),
        Stage::SearchTake { bit } => {
            let next = if master != number_bit(bit) {
                Stage::Silent
            } else if bit < 63 {
                Stage::SearchBit { bit: bit + 1 }
            } else {
                receive(Incoming::Command, 0)
            };
            (true, next)
        }
    }
}

/// All events on a chip with this number and image, from power-up on. Events
/// and replies are bytes as in the C interface; there are as many replies.
pub fn run(number: [u8; 8], events: &[u8], image: &mut [u8; IMAGE_LENGTH], replies: &mut [u8]) {
    let number = u64::from_le_bytes(number);
    let mut stage = Stage::Silent;
    for (&event, reply) in events.iter().zip(replies) {
        *reply = match event {
            0 | 1 => {
                let (own, next) = slot(stage, event == 1, number, image);
                stage = next;
                event & u8::from(own)
            }
            2 => {
                stage = Stage::RomCommand {
                    count: 0,
                    register: 0,
                };
                0
            }
            3 => {
                if let Stage::Armed {
                    mode,
                    memory,
                    address,
                    byte,
                } = stage
                {
                    program(image, memory, address, byte);
                    stage = Stage::Send {
                        what: Outgoing::ReadBack(mode, memory, address),
                        left: 8,
                        bits: u16::from(target_byte(image, memory, address)),
                        crc: 0,
                    };
                }
                1
            }
            _ => {
                stage = Stage::Silent;
                1
            }
        };
    }
}
