//! The master that supersedes a page.

use crate::{
    calls, fed, refusal, told, Answer, AnswerBuffer, Refusal, Run, WriteMode, ANSWER_SIZE,
    PUBLISHER_STATE_SIZE,
};

/// The two pages of an update.
#[derive(Clone, Copy, Debug, PartialEq, Eq)]
pub struct Published {
    /// L, the page that is superseded.
    pub l: u8,
    /// T, the page that takes the new bytes.
    pub t: u8,
}

fn published(answer: &AnswerBuffer) -> Published {
    Published {
        l: answer[1],
        t: answer[2],
    }
}

/// An update of a page fed these replies. Refusals of the start (1, 10, 3, 4,
/// 5, 20, 9, 8) come as errors.
pub fn publisher_run(
    image: &[u8],
    new_page: &[u8],
    page: u8,
    mode: WriteMode,
    replies: &[bool],
) -> Result<Run<Published>, Refusal> {
    let run = match mode {
        WriteMode::Ordinary => calls::publisher_run,
        WriteMode::Quick => calls::publisher_run_quick,
    };
    let run = |replies: &[u8], events: &mut [u8], answer: &mut [u8]| {
        run(image, new_page, page.into(), replies, events, answer)
    };
    // 6 in the ordinary mode only.
    fed(replies, run, published).started(&[13, 6, 7])
}

/// An update under way.
#[derive(Clone, Copy, Debug, PartialEq, Eq)]
pub struct Publisher {
    state: [u8; PUBLISHER_STATE_SIZE],
}

impl Publisher {
    /// Refusals 1, 10, 3, 4, 5, 20, 9 and 8, in this order.
    pub fn start(
        image: &[u8],
        new_page: &[u8],
        page: u8,
        mode: WriteMode,
    ) -> Result<Publisher, Refusal> {
        let start = match mode {
            WriteMode::Ordinary => calls::publisher_start,
            WriteMode::Quick => calls::publisher_start_quick,
        };
        let mut state = [0; PUBLISHER_STATE_SIZE];
        let mut answer = [0; ANSWER_SIZE];
        match start(image, new_page, page.into(), &mut state, &mut answer) {
            0 => Ok(Publisher { state }),
            code => Err(refusal(code, &answer)),
        }
    }

    /// An update with these bytes as its state; each call judges them.
    pub fn of_bytes(state: [u8; PUBLISHER_STATE_SIZE]) -> Publisher {
        Publisher { state }
    }

    pub fn bytes(&self) -> &[u8; PUBLISHER_STATE_SIZE] {
        &self.state
    }

    /// In the mode of the state. Refusals 13, 6 (in the ordinary mode only) and
    /// 7 (2 with bytes that are no state).
    pub fn call(&mut self, reply: bool) -> Result<Answer<Published>, Refusal> {
        let mut answer = [0; ANSWER_SIZE];
        let code = calls::publisher_call(&mut self.state, u32::from(reply), &mut answer);
        told(code, &answer, published)
    }
}
