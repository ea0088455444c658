//! The stored sheet and its list.

mod common;

use common::{redirection, status, NUMBER};
use ds2505_model::memory::blank_image;
use ds2505_model::random::{used_image, Generator};
use ds2505_model::sheet::{list, list_of_image, parse, write, Sheet};

/// The front, written out by hand.
const FRONT: [u8; 16] = [
    0x40, 0x00, 0x10, 0x00, 0x18, 0x00, 0x18, 0x08, 0x58, 0x09, 0, 0, 0, 0, 0, 0,
];

fn sheet_of(image: &[u8]) -> Vec<u8> {
    [&FRONT[..], &NUMBER, image].concat()
}

/// Puts FFh into all gaps.
fn blank_gaps(image: &mut [u8]) {
    image[status(0x008)..status(0x020)].fill(0xFF);
    image[status(0x028)..status(0x040)].fill(0xFF);
    image[status(0x048)..status(0x100)].fill(0xFF);
}

#[test]
fn the_example() {
    let mut image = blank_image();
    image[redirection(1)] = 0xFD;
    let sheet = sheet_of(&image);
    assert_eq!(sheet.len(), 2392);
    assert_eq!(
        list(&sheet),
        "pages 64\n1 final 2 hops 1\nredirected 1 free 61\n"
    );
}

#[test]
fn all_line_forms() {
    let mut image = blank_image();
    image[redirection(5)] = 255 - 5;
    image[redirection(7)] = 255 - 200;
    image[redirection(0)] = 255 - 63;
    image[redirection(63)] = 255 - 62;
    let expected = "pages 64\n0 final 62 hops 2\n5 loop\n7 outside 200\n63 final 62 hops 1\n\
                    redirected 4 free 59\n";
    assert_eq!(list(&sheet_of(&image)), expected);
    assert_eq!(list_of_image(&image).unwrap(), expected);
}

#[test]
fn nothing_redirected() {
    let expected = "pages 64\nredirected 0 free 63\n";
    assert_eq!(list(&sheet_of(&blank_image())), expected);
}

#[test]
fn faulty_sheets() {
    let good = sheet_of(&blank_image());
    let refused = |bytes: &[u8]| {
        assert_eq!(list(bytes), "sheet refused 12\n");
        assert_eq!(parse(bytes).unwrap_err().number(), 12);
    };
    refused(&[]);
    refused(&good[..2391]);
    refused(&[&good[..], &[0xFF]].concat());
    refused(&good[..24]);
    for at in 0..2392 {
        for change in [0x01, 0x80, 0xFF] {
            let mut bytes = good.clone();
            bytes[at] ^= change;
            let address = at as i64 - 2072;
            let in_gap = matches!(address, 0x008..=0x01F | 0x028..=0x03F | 0x048..=0x0FF);
            if at < 16 || in_gap {
                refused(&bytes);
            } else {
                let sheet = parse(&bytes).unwrap();
                assert_eq!(sheet.number, bytes[16..24]);
                assert_eq!(sheet.image, bytes[24..]);
            }
        }
    }
}

#[test]
fn writing_and_reading() {
    let mut generator = Generator::new(40);
    for _ in 0..300 {
        let number: [u8; 8] = generator.bytes();
        let mut image = used_image(&mut generator);
        blank_gaps(&mut image);
        let bytes = write(number, &image).unwrap();
        assert_eq!(bytes[..16], FRONT);
        assert_eq!(
            parse(&bytes).unwrap(),
            Sheet {
                number,
                image: image.clone()
            }
        );
        let text = list(&bytes);
        assert_eq!(text, list_of_image(&image).unwrap());
        let redirected = (0..64)
            .filter(|&page| image[redirection(page)] != 0xFF)
            .count();
        assert_eq!(text.lines().count(), redirected + 2);
        assert!(text.starts_with("pages 64\n"));
        assert!(text.ends_with('\n') && !text.ends_with("\n\n"));
    }
}

#[test]
fn writing_refused() {
    assert_eq!(write(NUMBER, &[0xFF; 2367]).unwrap_err().number(), 1);
    assert_eq!(list_of_image(&[0xFF; 2367]).unwrap_err().number(), 1);
    let mut image = blank_image();
    image[status(0x008)] = 0x00;
    assert_eq!(write(NUMBER, &image).unwrap_err().number(), 12);
}
