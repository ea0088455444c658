//! Stored sheets and their list.

use crate::{
    calls, judged, refusal, Refusal, ANSWER_SIZE, IMAGE_SIZE, LIST_TEXT_SIZE, NUMBER_SIZE,
    SHEET_SIZE,
};

/// The sheet of a number and an image. Refusals 1 and 12.
pub fn sheet_write(number: &[u8; NUMBER_SIZE], image: &[u8]) -> Result<Vec<u8>, Refusal> {
    let mut sheet = vec![0; SHEET_SIZE];
    judged(calls::sheet_write(number, image, &mut sheet))?;
    Ok(sheet)
}

/// The number and the image of a sheet. Refusal 12.
pub fn sheet_read(sheet: &[u8]) -> Result<([u8; NUMBER_SIZE], Vec<u8>), Refusal> {
    let mut number = [0; NUMBER_SIZE];
    let mut image = vec![0; IMAGE_SIZE];
    judged(calls::sheet_read(sheet, &mut number, &mut image))?;
    Ok((number, image))
}

/// The list of a sheet. Refusal 12.
pub fn list(sheet: &[u8]) -> Result<String, Refusal> {
    let mut text = vec![0; LIST_TEXT_SIZE];
    let mut answer = [0; ANSWER_SIZE];
    match calls::list(sheet, &mut text, &mut answer) {
        0 => {
            text.truncate(usize::from(u16::from_le_bytes([answer[1], answer[2]])));
            Ok(String::from_utf8(text).expect("a list is ASCII"))
        }
        code => Err(refusal(code, &answer)),
    }
}
