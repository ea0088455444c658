//! The plug and its DS2505 for Rust, over the proved library's C interface.
//!
//! `calls` has the library's functions on slices, with codes and buffers as
//! `include/plug.h` describes them. Over them stand types: events, verdicts,
//! refusals, the chip, the two reading masters and the publisher. Where the C
//! interface has a function for each mode of writing, the mode is an argument.
//! Latitudes, values of the variation and changes are tenths of a degree.

pub mod calls;

mod chip;
mod image;
mod lookup;
mod number_read;
mod page_read;
mod publisher;
mod sheet;

pub use calls::{crc16, crc8};
pub use chip::{chip_run, Chip};
pub use image::{free_page, page, update, walk, Verdict};
pub use lookup::{change, sheet_variation, variation};
pub use number_read::{number_run, NumberRead};
pub use page_read::{page_run, Final, PageRead};
pub use publisher::{publisher_run, Published, Publisher};
pub use sheet::{list, sheet_read, sheet_write};

pub const IMAGE_SIZE: usize = 2368;
pub const SHEET_SIZE: usize = 2392;
pub const NUMBER_SIZE: usize = 8;
pub const PAGE_SIZE: usize = 32;
pub const CHIP_STATE_SIZE: usize = 24;
pub const NUMBER_STATE_SIZE: usize = 24;
pub const PAGE_STATE_SIZE: usize = 48;
pub const PUBLISHER_STATE_SIZE: usize = 48;
pub const ANSWER_SIZE: usize = 16;
pub const LIST_TEXT_SIZE: usize = 1576;

/// In the place of an event's byte, where none is told.
pub const NO_EVENT: u8 = 0xFF;

/// What can happen on the bus.
#[derive(Clone, Copy, Debug, PartialEq, Eq)]
pub enum Event {
    /// A slot with the master's bit. With 1 it is a read slot.
    Slot(bool),
    Reset,
    /// A program pulse.
    Pulse,
    PowerLoss,
}

impl Event {
    /// The byte of an event.
    pub fn code(self) -> u8 {
        match self {
            Event::Slot(bit) => u8::from(bit),
            Event::Reset => 2,
            Event::Pulse => 3,
            Event::PowerLoss => 4,
        }
    }

    /// The event of a byte, if it is that of one.
    pub fn of_code(code: u8) -> Option<Event> {
        match code {
            0 => Some(Event::Slot(false)),
            1 => Some(Event::Slot(true)),
            2 => Some(Event::Reset),
            3 => Some(Event::Pulse),
            4 => Some(Event::PowerLoss),
            _ => None,
        }
    }
}

/// How bytes are written: each memory has two write commands.
#[derive(Clone, Copy, Debug, PartialEq, Eq)]
pub enum WriteMode {
    /// 0Fh and 55h: each byte's CRC is compared before its pulse.
    Ordinary,
    /// F3h and F5h, the data sheet's speed-programming mode, for a firm contact
    /// only: nothing is checked before a pulse, and a wrong byte shows only when
    /// it is read back (7).
    Quick,
}

/// A refusal: its number, and the value that 5, 9 and 20 give back.
#[derive(Clone, Copy, Debug, PartialEq, Eq)]
pub struct Refusal {
    pub number: u32,
    pub value: Option<u8>,
}

impl Refusal {
    /// What the number means.
    pub fn meaning(self) -> &'static str {
        match self.number {
            1 => "the image isn't 2,368 bytes",
            2 => "a state, event or reply is outside its range",
            3 => "page above 63",
            4 => "the chain of redirection bytes never ends",
            5 => "the chain leads to a number above 63",
            6 => "a received CRC-16 differs",
            7 => "a byte read back differs",
            8 => "no free page other than the final one",
            9 => "the final page's redirection byte is protected",
            10 => "a buffer has the wrong length",
            12 => "the stored sheet is faulty",
            13 => "a reset drew the reply 1",
            14 => "the CRC-8 of the number is wrong",
            15 => "the family of the number isn't 0Bh",
            16 => "the header of the rows is faulty",
            17 => "the latitude is in no row",
            18 => "the rows have no such column",
            19 => "a value is 7FFFh or out of range",
            20 => "the final page's data are protected",
            _ => "no refusal of this interface",
        }
    }
}

impl std::fmt::Display for Refusal {
    fn fmt(&self, f: &mut std::fmt::Formatter<'_>) -> std::fmt::Result {
        write!(f, "refused {}: {}", self.number, self.meaning())?;
        match self.value {
            Some(value) => write!(f, " ({value})"),
            None => Ok(()),
        }
    }
}

impl std::error::Error for Refusal {}

/// What a master's call tells when it is not refused.
#[derive(Clone, Copy, Debug, PartialEq, Eq)]
pub enum Answer<T> {
    /// The next event.
    Event(Event),
    /// The end, told again when asked again.
    End(T),
}

/// A master fed a list of replies.
#[derive(Clone, Debug, PartialEq, Eq)]
pub struct Run<T> {
    /// For each call its event, or none where it told none.
    pub events: Vec<Option<Event>>,
    /// What the last call told; with no call at all, the reset to come.
    pub last: Result<Answer<T>, Refusal>,
}

/// A buffer for an answer.
type AnswerBuffer = [u8; ANSWER_SIZE];

fn judged(code: u32) -> Result<(), Refusal> {
    match code {
        0 => Ok(()),
        number => Err(Refusal {
            number,
            value: None,
        }),
    }
}

/// The refusal of a code other than 0, with its value from the answer.
fn refusal(code: u32, answer: &AnswerBuffer) -> Refusal {
    let value = matches!(code, 5 | 9 | 20).then_some(answer[1]);
    Refusal {
        number: code,
        value,
    }
}

/// What a master's call tells; `end` reads the values at an end.
fn told<T>(
    code: u32,
    answer: &AnswerBuffer,
    end: impl Fn(&AnswerBuffer) -> T,
) -> Result<Answer<T>, Refusal> {
    if code != 0 {
        return Err(refusal(code, answer));
    }
    Ok(match Event::of_code(answer[0]) {
        Some(event) => Answer::Event(event),
        None => Answer::End(end(answer)),
    })
}

/// A master fed these replies by a function of the library, which is given
/// their bytes and the buffers for the events and the answer.
fn fed<T>(
    replies: &[bool],
    function: impl FnOnce(&[u8], &mut [u8], &mut [u8]) -> u32,
    end: impl Fn(&AnswerBuffer) -> T,
) -> Run<T> {
    let bytes: Vec<u8> = replies.iter().map(|&reply| u8::from(reply)).collect();
    let mut events = vec![0; replies.len()];
    let mut answer = [0; ANSWER_SIZE];
    let code = function(&bytes, &mut events, &mut answer);
    Run {
        events: events.iter().map(|&byte| Event::of_code(byte)).collect(),
        last: told(code, &answer, end),
    }
}

impl<T> Run<T> {
    /// The run, or the refusal of its start: a code that no call tells.
    fn started(self, by_calls: &[u32]) -> Result<Run<T>, Refusal> {
        match self.last {
            Err(refusal) if !by_calls.contains(&refusal.number) => Err(refusal),
            _ => Ok(self),
        }
    }
}

fn codes(events: &[Event]) -> Vec<u8> {
    events.iter().map(|event| event.code()).collect()
}

fn replies_of(bytes: &[u8]) -> Vec<bool> {
    bytes.iter().map(|&byte| byte == 1).collect()
}
