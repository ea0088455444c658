//! The master that reads the registration number.

use crate::{
    calls, fed, judged, told, Answer, AnswerBuffer, Refusal, Run, ANSWER_SIZE, NUMBER_SIZE,
    NUMBER_STATE_SIZE,
};

type Number = [u8; NUMBER_SIZE];

fn number(answer: &AnswerBuffer) -> Number {
    std::array::from_fn(|place| answer[1 + place])
}

/// A read fed these replies.
pub fn number_run(replies: &[bool]) -> Run<Number> {
    fed(replies, calls::number_run, number)
}

/// A number read under way.
#[derive(Clone, Copy, Debug, PartialEq, Eq)]
pub struct NumberRead {
    state: [u8; NUMBER_STATE_SIZE],
}

impl NumberRead {
    pub fn start() -> NumberRead {
        let mut state = [0; NUMBER_STATE_SIZE];
        judged(calls::number_start(&mut state)).expect("the length is right");
        NumberRead { state }
    }

    /// A read with these bytes as its state; each call judges them.
    pub fn of_bytes(state: [u8; NUMBER_STATE_SIZE]) -> NumberRead {
        NumberRead { state }
    }

    pub fn bytes(&self) -> &[u8; NUMBER_STATE_SIZE] {
        &self.state
    }

    /// Refusals 13, 14 and 15 (2 with bytes that are no state).
    pub fn call(&mut self, reply: bool) -> Result<Answer<Number>, Refusal> {
        let mut answer = [0; ANSWER_SIZE];
        let code = calls::number_call(&mut self.state, u32::from(reply), &mut answer);
        told(code, &answer, number)
    }
}
