//! The master that reads the registration number.

use crate::bits::{bits_of_byte, bytes_of};
use crate::chip::{Chip, Event};
use crate::crc::crc8;
use crate::refusal::{Answer, Reason, Refusal};

const READ_ROM: u8 = 0x33;
const FAMILY: u8 = 0x0B;

/// A number read under way. The reply at a place is the one that the event at
/// the same place drew.
#[derive(Clone, Debug, PartialEq, Eq)]
pub struct NumberRead {
    sent: Vec<Event>,
    replies: Vec<bool>,
    end: Option<Answer<[u8; 8]>>,
}

/// All 74 events.
pub fn script() -> Vec<Event> {
    let mut events = vec![Event::Reset];
    events.extend(bits_of_byte(READ_ROM).map(Event::Slot));
    events.extend([Event::Slot(true); 64]);
    events.push(Event::Reset);
    events
}

impl NumberRead {
    pub fn start() -> NumberRead {
        NumberRead {
            sent: Vec::new(),
            replies: Vec::new(),
            end: None,
        }
    }

    pub fn call(&mut self, reply: bool) -> Answer<[u8; 8]> {
        if let Some(end) = self.end {
            return end;
        }
        // The first call has no event behind it that could have drawn a reply.
        if !self.sent.is_empty() {
            self.replies.push(reply);
        }
        self.end = self.judge();
        if let Some(end) = self.end {
            return end;
        }
        let event = script()[self.sent.len()];
        self.sent.push(event);
        Answer::Event(event)
    }

    /// The end, if the replies that are in bring one.
    fn judge(&self) -> Option<Answer<[u8; 8]>> {
        let stop = |reason| Some(Answer::Refused(Refusal::with_stopped_state(reason)));
        match self.replies.len() {
            1 if self.replies[0] => stop(Reason::NoPresence),
            73 => {
                let number = self.number();
                if crc8(&number[..7]) != number[7] {
                    stop(Reason::Crc8)
                } else if number[0] != FAMILY {
                    stop(Reason::Family)
                } else {
                    None
                }
            }
            74 if self.replies[73] => stop(Reason::NoPresence),
            74 => Some(Answer::End(self.number())),
            _ => None,
        }
    }

    /// The eight bytes received in the slots after the command.
    fn number(&self) -> [u8; 8] {
        let bytes = bytes_of(&self.replies[9..73]);
        bytes.try_into().expect("64 bits are eight bytes")
    }
}

/// A number read and a chip joined: how it ended, and after how many events.
pub fn read_number(chip: &mut Chip) -> (Result<[u8; 8], Refusal>, usize) {
    let mut master = NumberRead::start();
    let mut reply = true;
    let mut events = 0;
    loop {
        match master.call(reply) {
            Answer::Event(event) => {
                reply = chip.event(event);
                events += 1;
            }
            Answer::End(number) => return (Ok(number), events),
            Answer::Refused(refusal) => return (Err(refusal), events),
        }
    }
}
