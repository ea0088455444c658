//! The rows of the test tray in their order, then the counts of events.

mod common;

use common::{
    assert_silent, begin, chip_with, clear_bit, read, read_byte, redirection, send, send_bits,
    NUMBER,
};
use ds2505_model::bits::bits_of;
use ds2505_model::chip::WriteMode::{Ordinary, Quick};
use ds2505_model::chip::{Chip, Event};
use ds2505_model::crc::{crc16_sent, crc8};
use ds2505_model::memory::{blank_image, page_bytes, Page};
use ds2505_model::number_read::read_number;
use ds2505_model::page_read::read_page;
use ds2505_model::publisher::{update, Outcome, Published, Publisher};
use ds2505_model::random::chain_image;
use ds2505_model::walk::{walk, Final, Verdict};

fn final_at(page: u8, hops: u8) -> Verdict {
    Verdict::Final(Final { page, hops })
}

#[test]
fn one_byte_on_page_1() {
    for (byte, verdict) in [
        (0xFD, final_at(2, 1)),
        (0xFE, Verdict::Loop),
        (0xC0, final_at(63, 1)),
        (0xBF, Verdict::Outside(64)),
        (0x00, Verdict::Outside(255)),
        (0x37, Verdict::Outside(200)),
    ] {
        let mut image = blank_image();
        image[redirection(1)] = byte;
        assert_eq!(walk(&image, 1), Ok(verdict));
    }
}

#[test]
fn chain_of_all_pages() {
    let mut image = chain_image(&(0..64).collect::<Vec<u8>>());
    assert_eq!(walk(&image, 0), Ok(final_at(63, 63)));
    image[redirection(63)] = 255 - 1;
    assert_eq!(walk(&image, 0), Ok(Verdict::Loop));
    image[redirection(63)] = 255 - 200;
    assert_eq!(walk(&image, 0), Ok(Verdict::Outside(200)));
}

#[test]
fn writing_over() {
    for (old, sent, protected, left) in [
        (0xF0, 0x0F, false, 0x00),
        (0x5A, 0xFF, false, 0x5A),
        (0x5A, 0x0F, true, 0x5A),
    ] {
        let mut image = blank_image();
        image[0x25] = old;
        if protected {
            clear_bit(&mut image, 0x000, 1);
        }
        let mut chip = chip_with(image.clone());
        begin(&mut chip, &[0x0F, 0x25, 0x00]);
        send(&mut chip, &[sent]);
        assert_eq!(read(&mut chip, 2), crc16_sent(&[0x0F, 0x25, 0x00, sent]));
        chip.event(Event::Pulse);
        assert_eq!(read_byte(&mut chip), left);
        assert_eq!(chip.image[0x25], left);
        // A quick write, also with a bit of the start address that is dropped.
        for high in [0x00, 0x08] {
            let mut chip = chip_with(image.clone());
            begin(&mut chip, &[0xF3, 0x25, high, sent]);
            chip.event(Event::Pulse);
            assert_eq!(read_byte(&mut chip), left);
            assert_eq!(chip.image[0x25], left);
        }
    }
}

#[test]
fn quick_starts_at_the_end_and_beyond() {
    let mut image = blank_image();
    image[0x000] = 0x3C;
    image[0x7FF] = 0x5A;
    for (heading, back) in [
        ([0xF3, 0xFF, 0x07], [0x0A, 0xFF]),
        ([0xF3, 0x00, 0x08], [0x0C, 0x33]),
        ([0xF5, 0x3F, 0x01], [0x0F, 0xFF]),
        ([0xF5, 0x40, 0x01], [0xFF, 0xFF]),
        ([0xF5, 0x3F, 0x09], [0x0F, 0xFF]),
    ] {
        let mut chip = chip_with(image.clone());
        begin(&mut chip, &heading);
        for (sent, back) in [0x0F, 0x33].into_iter().zip(back) {
            send(&mut chip, &[sent]);
            chip.event(Event::Pulse);
            assert_eq!(read_byte(&mut chip), back);
        }
    }
}

#[test]
fn quick_pulses() {
    for (slots, held) in [(7, 0x5A), (8, 0x0A), (9, 0x5A)] {
        let mut image = blank_image();
        image[0x25] = 0x5A;
        let mut chip = chip_with(image);
        begin(&mut chip, &[0xF3, 0x25, 0x00]);
        send_bits(&mut chip, &bits_of(&[0x0F, 0xFF])[..slots]);
        chip.event(Event::Pulse);
        assert_eq!(chip.image[0x25], held);
    }
}

#[test]
fn crc_of_no_bytes() {
    assert_eq!(crc16_sent(&[]), [0xFF, 0xFF]);
}

#[test]
fn starts_at_the_end_and_beyond() {
    let mut chip = chip_with(blank_image());
    begin(&mut chip, &[0xF0, 0xFF, 0x07]);
    assert_eq!(read_byte(&mut chip), 0xFF);
    assert_eq!(read(&mut chip, 2), crc16_sent(&[0xF0, 0xFF, 0x07, 0xFF]));
    assert_silent(&mut chip);
    // Start 0800h is a read from 0000h.
    let mut image = blank_image();
    image[0] = 0x3C;
    let mut chip = chip_with(image);
    begin(&mut chip, &[0xF0, 0x00, 0x08]);
    assert_eq!(read_byte(&mut chip), 0x3C);
    begin(&mut chip, &[0xA5, 0x00, 0x08]);
    assert_eq!(read_byte(&mut chip), 0xFF);
    assert_eq!(read(&mut chip, 2), crc16_sent(&[0xA5, 0x00, 0x00, 0xFF]));
    assert_eq!(read_byte(&mut chip), 0x3C);
}

#[test]
fn eight_zero_bytes_as_number() {
    assert_eq!(crc8(&[0; 7]), 0);
    let mut chip = Chip::power_up([0; 8], blank_image()).unwrap();
    assert_eq!(read_number(&mut chip).0.unwrap_err().number(), 15);
}

#[test]
fn cuts() {
    let mut image = blank_image();
    image[..32].fill(0x11);
    for (mode, cut, page, bytes) in [
        (Ordinary, 1212, 0, [0x11; 32]),
        (Ordinary, 1213, 1, [0x22; 32]),
        (Quick, 668, 0, [0x11; 32]),
        (Quick, 669, 1, [0x22; 32]),
    ] {
        let run = update(&image, &[0x22; 32], 0, mode, Some(cut));
        let left = run.unwrap().image;
        assert_eq!(walk(&left, 0), Ok(final_at(page, page)));
        assert_eq!(page_bytes(&left, Page::new(page).unwrap()), bytes);
        let reading = read_page(&mut chip_with(left), 0).unwrap();
        assert_eq!(reading.result, Ok(Final { page, hops: page }));
        assert_eq!(reading.buffer, bytes);
    }
}

#[test]
fn pages_of_blank_images() {
    let new = [0; 32];
    let mut image = blank_image();
    for page in 2..64 {
        clear_bit(&mut image, 0x040, page);
    }
    for mode in [Ordinary, Quick] {
        for (page, l, t) in [(0, 0, 1), (1, 1, 2)] {
            let run = update(&blank_image(), &new, page, mode, None).unwrap();
            assert_eq!(run.outcome, Outcome::Published(Published { l, t }));
        }
        let refusal = Publisher::start(&image, &new, 1, mode).unwrap_err();
        assert_eq!(refusal.number(), 8);
    }
}

#[test]
fn protected_pages() {
    for mode in [Ordinary, Quick] {
        let started = |protected: &[(usize, usize)]| {
            let mut image = blank_image();
            image[redirection(5)] = 255 - 9;
            for &(field, page) in protected {
                clear_bit(&mut image, field, page);
            }
            Publisher::start(&image, &[0; 32], 5, mode)
                .map(|publisher| publisher.pages())
                .map_err(|refusal| (refusal.number(), refusal.page_given_back()))
        };
        assert_eq!(started(&[]), Ok(Published { l: 9, t: 1 }));
        assert_eq!(started(&[(0x000, 5)]), Ok(Published { l: 9, t: 1 }));
        assert_eq!(started(&[(0x000, 1)]), Ok(Published { l: 9, t: 2 }));
        assert_eq!(started(&[(0x000, 9)]), Err((20, Some(9))));
        assert_eq!(started(&[(0x020, 9)]), Err((9, Some(9))));
        assert_eq!(started(&[(0x000, 9), (0x020, 9)]), Err((20, Some(9))));
    }
}

#[test]
fn counts_of_events() {
    let mut number = NUMBER;
    number[7] = crc8(&number[..7]);
    let mut chip = Chip::power_up(number, blank_image()).unwrap();
    assert_eq!(read_number(&mut chip), (Ok(number), 74));

    assert_eq!(read_page(&mut chip, 9).unwrap().events, 57 + 272 + 1);
    let long = chain_image(&(0..64).collect::<Vec<u8>>());
    assert_eq!(read_page(&mut chip_with(long), 0).unwrap().events, 3921);

    for (mode, lengths, all, visible) in [
        (Ordinary, [66, 1089, 66], 1222, 1213),
        (Quick, [50, 577, 50], 678, 669),
    ] {
        let publisher = Publisher::start(&blank_image(), &[0; 32], 0, mode).unwrap();
        let plan = publisher.planned_events();
        assert_eq!(plan.len(), all);
        let [a, b, c] = lengths;
        let resets: Vec<usize> = (0..all).filter(|&at| plan[at] == Event::Reset).collect();
        assert_eq!(resets, [0, a, a + b, a + b + c]);
        assert_eq!(all, a + b + c + 1);
        let pulses: Vec<usize> = (0..all).filter(|&at| plan[at] == Event::Pulse).collect();
        assert_eq!(pulses.len(), 34);
        // Counted from 1.
        assert_eq!(pulses[33] + 1, visible);
    }
}
