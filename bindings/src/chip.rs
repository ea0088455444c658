//! The chip.

use crate::{calls, codes, judged, replies_of, Event, Refusal, CHIP_STATE_SIZE, NUMBER_SIZE};

/// All events on a chip with this number and image, from power-up on: the
/// replies. Refusal 1.
pub fn chip_run(
    number: &[u8; NUMBER_SIZE],
    events: &[Event],
    image: &mut [u8],
) -> Result<Vec<bool>, Refusal> {
    let mut replies = vec![0; events.len()];
    judged(calls::chip_run(number, &codes(events), image, &mut replies))?;
    Ok(replies_of(&replies))
}

/// A chip's state. The image is the caller's and is lent to each call.
#[derive(Clone, Copy, Debug, PartialEq, Eq)]
pub struct Chip {
    state: [u8; CHIP_STATE_SIZE],
}

impl Chip {
    /// Silent until a reset.
    pub fn power_up(number: &[u8; NUMBER_SIZE]) -> Chip {
        let mut state = [0; CHIP_STATE_SIZE];
        judged(calls::chip_power_up(number, &mut state)).expect("the lengths are right");
        Chip { state }
    }

    /// A chip with these bytes as its state; each call judges them.
    pub fn of_bytes(state: [u8; CHIP_STATE_SIZE]) -> Chip {
        Chip { state }
    }

    pub fn bytes(&self) -> &[u8; CHIP_STATE_SIZE] {
        &self.state
    }

    /// Refusals 1 and 2.
    pub fn events(&mut self, events: &[Event], image: &mut [u8]) -> Result<Vec<bool>, Refusal> {
        let mut replies = vec![0; events.len()];
        judged(calls::chip_events(
            &mut self.state,
            &codes(events),
            image,
            &mut replies,
        ))?;
        Ok(replies_of(&replies))
    }

    /// One event. Refusals 1 and 2.
    pub fn event(&mut self, event: Event, image: &mut [u8]) -> Result<bool, Refusal> {
        let mut reply = [0];
        judged(calls::chip_events(
            &mut self.state,
            &[event.code()],
            image,
            &mut reply,
        ))?;
        Ok(reply[0] == 1)
    }
}
