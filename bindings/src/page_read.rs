//! The master that reads a page, following redirection.

use crate::{
    calls, fed, judged, told, Answer, AnswerBuffer, Refusal, Run, ANSWER_SIZE, PAGE_SIZE,
    PAGE_STATE_SIZE,
};

/// The page that a chain ends at, and the count of redirection bytes other
/// than FFh on the way there.
#[derive(Clone, Copy, Debug, PartialEq, Eq)]
pub struct Final {
    pub page: u8,
    pub hops: u8,
}

fn reached(answer: &AnswerBuffer) -> Final {
    Final {
        page: answer[1],
        hops: answer[2],
    }
}

/// A read of a page fed these replies. The buffer gets the page's bytes if one
/// of the calls told Final. Refusal 3 comes as an error.
pub fn page_run(
    page: u8,
    replies: &[bool],
    buffer: &mut [u8; PAGE_SIZE],
) -> Result<Run<Final>, Refusal> {
    let run = |replies: &[u8], events: &mut [u8], answer: &mut [u8]| {
        calls::page_run(page.into(), replies, events, buffer, answer)
    };
    fed(replies, run, reached).started(&[13, 6, 4, 5])
}

/// A page read under way.
#[derive(Clone, Copy, Debug, PartialEq, Eq)]
pub struct PageRead {
    state: [u8; PAGE_STATE_SIZE],
}

impl PageRead {
    /// Refusal 3.
    pub fn start(page: u8) -> Result<PageRead, Refusal> {
        let mut state = [0; PAGE_STATE_SIZE];
        judged(calls::page_start(page.into(), &mut state))?;
        Ok(PageRead { state })
    }

    /// A read with these bytes as its state; each call judges them.
    pub fn of_bytes(state: [u8; PAGE_STATE_SIZE]) -> PageRead {
        PageRead { state }
    }

    pub fn bytes(&self) -> &[u8; PAGE_STATE_SIZE] {
        &self.state
    }

    /// Refusals 10, 13, 6, 4 and 5 (2 with bytes that are no state).
    pub fn call(&mut self, reply: bool, buffer: &mut [u8]) -> Result<Answer<Final>, Refusal> {
        let mut answer = [0; ANSWER_SIZE];
        let code = calls::page_call(&mut self.state, u32::from(reply), buffer, &mut answer);
        told(code, &answer, reached)
    }
}
