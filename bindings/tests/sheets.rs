//! Stored sheets, their lists, and the CRCs, against the second model.

mod common;

use common::{blank_gaps, refusal, some_image, some_number};
use ds2505_model as model;
use ds2505_model::crc::Crc16;
use ds2505_model::memory::blank_image;
use ds2505_model::random::Generator;
use plug::{calls, crc16, crc8, list, sheet_read, sheet_write, Refusal};

const FAULTY: Refusal = Refusal {
    number: 12,
    value: None,
};

fn assert_same_list(sheet: &[u8]) {
    let text = match list(sheet) {
        Ok(text) => text,
        Err(refusal) => format!("sheet refused {}\n", refusal.number),
    };
    assert_eq!(text, model::sheet::list(sheet));
    let parsed = model::sheet::parse(sheet)
        .map(|sheet| (sheet.number, sheet.image))
        .map_err(refusal);
    assert_eq!(sheet_read(sheet), parsed);
}

#[test]
fn written_and_read_back() {
    let mut g = Generator::new(400);
    let mut accepted = 0;
    for round in 0..4000 {
        let mut image = some_image(&mut g);
        if round % 4 != 0 {
            blank_gaps(&mut image);
        }
        let number = some_number(&mut g);
        let sheet = sheet_write(&number, &image);
        assert_eq!(sheet, model::sheet::write(number, &image).map_err(refusal));
        if let Ok(sheet) = sheet {
            accepted += 1;
            assert_eq!(sheet_read(&sheet), Ok((number, image)));
            assert_same_list(&sheet);
        }
    }
    assert!(accepted > 2500, "{accepted}");
}

/// Every byte of a sheet damaged, in one bit and in all.
#[test]
fn damaged_sheets() {
    let mut g = Generator::new(401);
    for round in 0..3 {
        let mut image = some_image(&mut g);
        blank_gaps(&mut image);
        let sheet = sheet_write(&some_number(&mut g), &image).unwrap();
        let mut refused = 0;
        for place in 0..sheet.len() {
            for damage in [1 << g.below(8), 0xFF] {
                let mut damaged = sheet.clone();
                damaged[place] ^= damage;
                assert_same_list(&damaged);
                refused += usize::from(sheet_read(&damaged) == Err(FAULTY));
            }
        }
        // The header's 16 bytes and 232 gap bytes, each twice.
        assert_eq!(refused, 2 * (16 + 320 - 24 - 64), "round {round}");
    }
}

#[test]
fn sheets_of_other_lengths() {
    let sheet = sheet_write(&[7; 8], &blank_image()).unwrap();
    for length in (0..40).chain(2360..2392) {
        assert_same_list(&sheet[..length]);
        assert_eq!(list(&sheet[..length]), Err(FAULTY));
    }
    for more in 1..40 {
        let longer = [&sheet[..], &vec![0xFF; more]].concat();
        assert_same_list(&longer);
        assert_eq!(list(&longer), Err(FAULTY));
    }
}

/// The list of 01's example, whole; what is after the text stays.
#[test]
fn the_example() {
    let mut image = blank_image();
    image[common::status(0x101)] = 0xFD;
    let sheet = sheet_write(&[0; 8], &image).unwrap();
    let expected = "pages 64\n1 final 2 hops 1\nredirected 1 free 61\n";
    assert_eq!(list(&sheet).as_deref(), Ok(expected));

    let mut text = vec![0xA7; 1600];
    let mut answer = [0xA7; 16];
    assert_eq!(calls::list(&sheet, &mut text, &mut answer), 0);
    assert_eq!(&text[..expected.len()], expected.as_bytes());
    assert!(text[expected.len()..].iter().all(|&byte| byte == 0xA7));
    assert_eq!(answer[..3], [0xFF, expected.len() as u8, 0]);
    assert_eq!(answer[3..], [0xA7; 13]);
}

/// The longest list that there is: every page redirected, with the longest
/// lines.
#[test]
fn the_longest_lists_have_room() {
    let mut image = blank_image();
    for page in 0..64 {
        image[common::status(0x100 + page)] = 255 - 200;
    }
    let sheet = sheet_write(&[0; 8], &image).unwrap();
    assert_same_list(&sheet);
    let pages: Vec<u8> = (0..64).rev().collect();
    let mut image = model::random::chain_image(&pages);
    image[common::status(0x100)] = 0xFF;
    let sheet = sheet_write(&[0; 8], &image).unwrap();
    assert_same_list(&sheet);
}

fn model_crc16(register: u16, bytes: &[u8]) -> u16 {
    let mut generator = Crc16::loaded(register);
    generator.take_bytes(bytes);
    generator.number()
}

#[test]
fn crcs() {
    let mut g = Generator::new(402);
    // Application Note 27.
    assert_eq!(crc8(0, &[0x02, 0x1C, 0xB8, 0x01, 0x00, 0x00, 0x00]), 0xA2);
    assert_eq!(crc16(0x90F1, &[0x75]), 0x6390);
    assert_eq!(crc8(0, &[]), 0);
    assert_eq!(crc16(0, &[]), 0);
    for register in 0..=0xFFFF {
        let byte = [g.byte()];
        assert_eq!(crc16(register, &[]), register);
        assert_eq!(crc16(register, &byte), model_crc16(register, &byte));
    }
    for byte in 0..=255 {
        assert_eq!(crc16(0, &[byte]), model_crc16(0, &[byte]));
        assert_eq!(crc8(0, &[byte]), model::crc::crc8(&[byte]));
        assert_eq!(crc8(byte, &[]), byte);
    }
    for _ in 0..5000 {
        let bytes: Vec<u8> = (0..g.below(300)).map(|_| g.byte()).collect();
        let register = g.below(0x1_0000) as u16;
        assert_eq!(crc16(register, &bytes), model_crc16(register, &bytes));
        assert_eq!(crc8(0, &bytes), model::crc::crc8(&bytes));
        // In two pieces.
        let place = g.below(bytes.len() as u64 + 1) as usize;
        let (first, rest) = bytes.split_at(place);
        assert_eq!(crc16(crc16(register, first), rest), crc16(register, &bytes));
        assert_eq!(crc8(crc8(0, first), rest), crc8(0, &bytes));
    }
}

/// A bit at a time: the register shifts right, and where the bit that leaves
/// it differs from the bit that comes, the polynomial is xored into it.
fn eight_bit_steps(mut register: u16, byte: u8) -> u16 {
    for place in 0..8 {
        let differs = (register ^ u16::from(byte >> place)) & 1;
        register = (register >> 1) ^ (0xA001 * differs);
    }
    register
}

#[test]
fn one_byte_on_every_register() {
    for register in 0..=0xFFFF {
        for byte in 0..=255 {
            assert_eq!(crc16(register, &[byte]), eight_bit_steps(register, byte));
        }
    }
}
