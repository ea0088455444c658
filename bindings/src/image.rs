//! What is asked of an image.

use crate::{
    calls, judged, refusal, Final, Published, Refusal, WriteMode, ANSWER_SIZE, NUMBER_SIZE,
    PAGE_SIZE,
};

/// How a walk along redirection bytes ends.
#[derive(Clone, Copy, Debug, PartialEq, Eq)]
pub enum Verdict {
    Final(Final),
    /// The chain never ends.
    Loop,
    /// The first number above 63.
    Outside(u8),
}

/// The walk from a page. Refusals 1 and 3.
pub fn walk(image: &[u8], page: u8) -> Result<Verdict, Refusal> {
    let mut answer = [0; ANSWER_SIZE];
    match calls::walk(image, page.into(), &mut answer) {
        0 => Ok(Verdict::Final(Final {
            page: answer[1],
            hops: answer[2],
        })),
        4 => Ok(Verdict::Loop),
        5 => Ok(Verdict::Outside(answer[1])),
        code => Err(refusal(code, &answer)),
    }
}

/// A page's own 32 bytes. Refusals 1 and 3.
pub fn page(image: &[u8], page: u8) -> Result<[u8; PAGE_SIZE], Refusal> {
    let mut buffer = [0; PAGE_SIZE];
    judged(calls::page(image, page.into(), &mut buffer))?;
    Ok(buffer)
}

/// The lowest free page other than the one given. Refusals 1, 3 and 8.
pub fn free_page(image: &[u8], other: u8) -> Result<u8, Refusal> {
    let mut answer = [0; ANSWER_SIZE];
    match calls::free_page(image, other.into(), &mut answer) {
        0 => Ok(answer[1]),
        code => Err(refusal(code, &answer)),
    }
}

/// A whole update of a page, cut after so many events: L and T. It has 1,222
/// events in the ordinary mode and 678 in the quick one; from 1,213 and from 669
/// on the page reads as the new one. Refusals 1, 10, 3, 4, 5, 20, 9 and 8, in
/// this order.
pub fn update(
    image: &mut [u8],
    number: &[u8; NUMBER_SIZE],
    new_page: &[u8],
    page: u8,
    mode: WriteMode,
    events: u32,
) -> Result<Published, Refusal> {
    let update = match mode {
        WriteMode::Ordinary => calls::update,
        WriteMode::Quick => calls::update_quick,
    };
    let mut answer = [0; ANSWER_SIZE];
    match update(image, number, new_page, page.into(), events, &mut answer) {
        0 => Ok(Published {
            l: answer[1],
            t: answer[2],
        }),
        code => Err(refusal(code, &answer)),
    }
}
