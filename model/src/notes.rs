//! Application Note 27's values, for a reader to hold against it.

use crate::crc::{crc16, crc8, Crc16};

/// The values of all bytes, 16 to a row.
fn table(value: impl Fn(u8) -> String) -> String {
    let values: Vec<String> = (0..=255).map(value).collect();
    values
        .chunks(16)
        .map(|row| format!(" {}\n", row.join(" ")))
        .collect()
}

pub fn text() -> String {
    let mut register = Crc16::loaded(0x90F1);
    register.take_byte(0x75);
    [
        String::from("crc-8 of each single byte, 16 to a row:\n"),
        table(|byte| format!("{:02x}", crc8(&[byte]))),
        String::from("crc-16 of each single byte, 16 to a row:\n"),
        table(|byte| format!("{:04x}", crc16(&[byte]))),
        format!(
            "crc-8 of 02 1c b8 01 00 00 00: {:02x}\n",
            crc8(&[0x02, 0x1C, 0xB8, 0x01, 0x00, 0x00, 0x00])
        ),
        format!(
            "crc-16 register 90f1 after byte 75: {:04x}\n",
            register.number()
        ),
        format!("crc-8 of 123456789: {:02x}\n", crc8(b"123456789")),
        format!("crc-16 of 123456789: {:04x}\n", crc16(b"123456789")),
    ]
    .concat()
}
