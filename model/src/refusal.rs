//! Why something is refused, with which number, and what is given back.

use crate::chip::Event;

/// Why something is refused.
#[derive(Clone, Copy, Debug, PartialEq, Eq)]
pub enum Reason {
    /// The image isn't 2,368 bytes.
    ImageLength,
    /// A page above 63 was asked for.
    PageNumber,
    /// The chain of redirection bytes never ends.
    Loop,
    /// The chain leads to this number above 63.
    Outside(u8),
    /// A received CRC-16 differs.
    Crc16,
    /// A byte read back differs.
    ReadBack,
    /// There is no free page other than L.
    NoFreePage,
    /// The redirection byte of L, given here, is protected.
    RedirectionProtected(u8),
    /// The new page, or the buffer for a read page, isn't 32 bytes.
    BufferLength,
    /// The stored sheet is faulty.
    Sheet,
    /// A reset drew the reply 1.
    NoPresence,
    /// The CRC-8 of a registration number is wrong.
    Crc8,
    /// The family of a registration number isn't 0Bh.
    Family,
    /// The header of the rows is faulty.
    Header,
    /// The latitude is in no row.
    Latitude,
    /// The rows have no such column.
    Column,
    /// The value is 7FFFh or out of its range.
    NoValue,
    /// The data of L, given here, are protected.
    DataProtected(u8),
}

/// What happened to a master's state in the refused call.
#[derive(Clone, Copy, Debug, PartialEq, Eq)]
pub enum StateBack {
    /// None is given back.
    None,
    /// The state handed in, unchanged.
    Same,
    /// A stopped one, which gives the same refusal when called again.
    Stopped,
}

/// A refusal. Number 2 has no place here: the states of this model can't be
/// made with a field outside its range.
#[derive(Clone, Copy, Debug, PartialEq, Eq)]
pub struct Refusal {
    pub reason: Reason,
    pub state: StateBack,
}

impl Refusal {
    /// A refusal that gives back no state.
    pub fn without_state(reason: Reason) -> Refusal {
        Refusal {
            reason,
            state: StateBack::None,
        }
    }

    /// A refusal that leaves the state as it was.
    pub fn with_same_state(reason: Reason) -> Refusal {
        Refusal {
            reason,
            state: StateBack::Same,
        }
    }

    /// A refusal that stops a master.
    pub fn with_stopped_state(reason: Reason) -> Refusal {
        Refusal {
            reason,
            state: StateBack::Stopped,
        }
    }

    /// The number of the refusal.
    pub fn number(&self) -> u8 {
        match self.reason {
            Reason::ImageLength => 1,
            Reason::PageNumber => 3,
            Reason::Loop => 4,
            Reason::Outside(_) => 5,
            Reason::Crc16 => 6,
            Reason::ReadBack => 7,
            Reason::NoFreePage => 8,
            Reason::RedirectionProtected(_) => 9,
            Reason::BufferLength => 10,
            Reason::Sheet => 12,
            Reason::NoPresence => 13,
            Reason::Crc8 => 14,
            Reason::Family => 15,
            Reason::Header => 16,
            Reason::Latitude => 17,
            Reason::Column => 18,
            Reason::NoValue => 19,
            Reason::DataProtected(_) => 20,
        }
    }

    /// The page number given back: with 5 the one outside, with 9 and 20 L.
    pub fn page_given_back(&self) -> Option<u8> {
        match self.reason {
            Reason::Outside(number) => Some(number),
            Reason::RedirectionProtected(page) | Reason::DataProtected(page) => Some(page),
            _ => None,
        }
    }
}

/// What a call to a master gives: the next event, the end, or a refusal. An
/// end and a refusal that stops the master are repeated when asked again.
#[derive(Clone, Copy, Debug, PartialEq, Eq)]
pub enum Answer<T> {
    Event(Event),
    End(T),
    Refused(Refusal),
}
