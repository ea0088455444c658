//! The variation at a latitude and a column, and the year's change.

use crate::{calls, refusal, AnswerBuffer, Refusal, ANSWER_SIZE};

/// The tenths in an answer, or the refusal.
fn tenths(code: u32, answer: &AnswerBuffer) -> Result<i16, Refusal> {
    match code {
        0 => Ok(i16::from_le_bytes([answer[1], answer[2]])),
        code => Err(refusal(code, answer)),
    }
}

/// The variation at a latitude and a column. Refusals 1, 4 or 5 of page 1, 16,
/// 17, 18, 4 or 5 of the row's page, and 19, in this order.
pub fn variation(image: &[u8], latitude: i32, column: u32) -> Result<i16, Refusal> {
    let mut answer = [0; ANSWER_SIZE];
    let code = calls::variation(image, latitude, column, &mut answer);
    tenths(code, &answer)
}

/// The same on the image of a stored sheet. Refusals 12, then all but 1 of
/// those above.
pub fn sheet_variation(sheet: &[u8], latitude: i32, column: u32) -> Result<i16, Refusal> {
    let mut answer = [0; ANSWER_SIZE];
    let code = calls::sheet_variation(sheet, latitude, column, &mut answer);
    tenths(code, &answer)
}

/// The change from an old value to a new one, brought into -1800 to 1799 by
/// 3600. Refusal 19.
pub fn change(old: i32, new: i32) -> Result<i16, Refusal> {
    let mut answer = [0; ANSWER_SIZE];
    let code = calls::change(old, new, &mut answer);
    tenths(code, &answer)
}
