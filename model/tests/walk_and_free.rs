//! Walks, free pages and the bits of the status fields.

mod common;

use common::{clear_bit, redirection, status};
use ds2505_model::free::{free_count, free_page, free_pages, redirected_count, redirected_pages};
use ds2505_model::memory::{
    blank_image, data_protected, marked_used, program_data, program_status, redirection_protected,
    status_byte, DataAddress, Page, StatusAddress, StatusMeaning,
};
use ds2505_model::random::{any_image, chain_image, used_image, Generator};
use ds2505_model::walk::{walk, Final, Verdict};

fn final_at(page: u8, hops: u8) -> Verdict {
    Verdict::Final(Final { page, hops })
}

fn with_byte_on_page_1(byte: u8) -> Vec<u8> {
    let mut image = blank_image();
    image[redirection(1)] = byte;
    image
}

#[test]
fn one_redirection_byte() {
    let verdict = |byte| walk(&with_byte_on_page_1(byte), 1).unwrap();
    assert_eq!(verdict(0xFF), final_at(1, 0));
    assert_eq!(verdict(0xFD), final_at(2, 1));
    assert_eq!(verdict(0xFE), Verdict::Loop);
    assert_eq!(verdict(0xC0), final_at(63, 1));
    assert_eq!(verdict(0xBF), Verdict::Outside(64));
    assert_eq!(verdict(0x00), Verdict::Outside(255));
    assert_eq!(verdict(0x37), Verdict::Outside(200));
    for byte in 0..=0xFF {
        assert_ne!(verdict(byte), final_at(0, 1), "page 0 can't be named");
    }
}

#[test]
fn the_longest_chain() {
    let pages: Vec<u8> = (0..64).collect();
    let mut image = chain_image(&pages);
    for page in 0..64 {
        assert_eq!(walk(&image, page).unwrap(), final_at(63, 63 - page));
    }
    image[redirection(63)] = 255 - 1;
    for page in 0..64 {
        assert_eq!(walk(&image, page).unwrap(), Verdict::Loop);
    }
    image[redirection(63)] = 255 - 200;
    for page in 0..64 {
        assert_eq!(walk(&image, page).unwrap(), Verdict::Outside(200));
    }
}

#[test]
fn walk_refusals() {
    let short = vec![0xFF; 2367];
    assert_eq!(walk(&short, 0).unwrap_err().number(), 1);
    assert_eq!(walk(&short, 64).unwrap_err().number(), 1);
    assert_eq!(walk(&vec![0xFF; 2369], 0).unwrap_err().number(), 1);
    assert_eq!(walk(&[], 0).unwrap_err().number(), 1);
    assert_eq!(walk(&blank_image(), 64).unwrap_err().number(), 3);
    assert_eq!(walk(&blank_image(), 255).unwrap_err().number(), 3);
    assert!(walk(&blank_image(), 63).is_ok());
}

/// The verdict by counting instead of remembering.
fn counted_walk(image: &[u8], start: u8) -> Verdict {
    let mut here = start;
    for hops in 0..64 {
        let byte = image[redirection(usize::from(here))];
        if byte == 0xFF {
            return final_at(here, hops);
        }
        if 255 - byte > 63 {
            return Verdict::Outside(255 - byte);
        }
        here = 255 - byte;
    }
    Verdict::Loop
}

#[test]
fn remembering_and_counting_agree() {
    let mut generator = Generator::new(3);
    let mut seen = [0usize; 3];
    for round in 0..400 {
        let image = if round % 8 == 0 {
            any_image(&mut generator)
        } else {
            used_image(&mut generator)
        };
        for page in 0..64 {
            let verdict = walk(&image, page).unwrap();
            assert_eq!(verdict, counted_walk(&image, page));
            match verdict {
                Verdict::Final(_) => seen[0] += 1,
                Verdict::Loop => seen[1] += 1,
                Verdict::Outside(_) => seen[2] += 1,
            }
        }
    }
    assert!(seen.iter().all(|&count| count > 500), "{seen:?}");
}

#[test]
fn bit_of_a_page() {
    for page in 0..64u8 {
        for (field, read) in [
            (0x000, data_protected as fn(&[u8], Page) -> bool),
            (0x020, redirection_protected),
            (0x040, marked_used),
        ] {
            let mut image = blank_image();
            clear_bit(&mut image, field, usize::from(page));
            for other in Page::all() {
                assert_eq!(read(&image, other), other.number() == page);
            }
        }
    }
}

#[test]
fn gaps() {
    let gap_count = StatusAddress::all()
        .filter(|address| address.meaning() == StatusMeaning::Gap)
        .count();
    // 704 bits of status are there, the rest is gaps.
    assert_eq!(gap_count, 320 - 704 / 8);
    let mut image = vec![0x5A; 2368];
    for address in StatusAddress::all() {
        let before = image.clone();
        if address.meaning() == StatusMeaning::Gap {
            assert_eq!(status_byte(&image, address), 0xFF);
            program_status(&mut image, address, 0x00);
            assert_eq!(image, before);
        } else {
            assert_eq!(status_byte(&image, address), 0x5A);
        }
    }
}

#[test]
fn programming() {
    let address = DataAddress::new(0x123).unwrap();
    let mut image = blank_image();
    image[0x123] = 0xF0;
    program_data(&mut image, address, 0x0F);
    assert_eq!(image[0x123], 0x00);
    image[0x123] = 0x5A;
    program_data(&mut image, address, 0xFF);
    assert_eq!(image[0x123], 0x5A);
    clear_bit(&mut image, 0x000, 0x123 / 32);
    program_data(&mut image, address, 0x0F);
    assert_eq!(image[0x123], 0x5A);

    let mut image = blank_image();
    image[redirection(9)] = 0x5A;
    let address = StatusAddress::new(0x109).unwrap();
    clear_bit(&mut image, 0x020, 9);
    program_status(&mut image, address, 0x0F);
    assert_eq!(image[redirection(9)], 0x5A);
    image[status(0x021)] = 0xFF;
    program_status(&mut image, address, 0x0F);
    assert_eq!(image[redirection(9)], 0x0A);
}

#[test]
fn free_pages_of_a_blank_image() {
    let image = blank_image();
    assert_eq!(free_count(&image).unwrap(), 63);
    assert_eq!(redirected_count(&image).unwrap(), 0);
    assert_eq!(free_page(&image, 0).unwrap(), 1);
    assert_eq!(free_page(&image, 1).unwrap(), 2);
    assert_eq!(free_page(&image, 2).unwrap(), 1);
    assert_eq!(free_page(&image, 64).unwrap_err().number(), 3);
    assert_eq!(free_page(&image[1..], 64).unwrap_err().number(), 1);

    let mut image = blank_image();
    for page in 2..64 {
        clear_bit(&mut image, 0x040, page);
    }
    assert_eq!(free_page(&image, 0).unwrap(), 1);
    assert_eq!(free_page(&image, 1).unwrap_err().number(), 8);
}

#[test]
fn each_thing_against_a_page() {
    let free_with = |change: &dyn Fn(&mut Vec<u8>)| {
        let mut image = blank_image();
        change(&mut image);
        free_pages(&image).unwrap()
    };
    let without = |taken: &[u8]| (1..=63).filter(|page| !taken.contains(page)).collect();

    assert_eq!(
        free_with(&|image| clear_bit(image, 0x040, 7)),
        without(&[7])
    );
    assert_eq!(
        free_with(&|image| clear_bit(image, 0x000, 7)),
        without(&[7])
    );
    // A protected redirection byte is nothing against a page.
    assert_eq!(free_with(&|image| clear_bit(image, 0x020, 7)), without(&[]));
    assert_eq!(free_with(&|image| image[32 * 7] = 0xFE), without(&[7]));
    assert_eq!(free_with(&|image| image[32 * 7 + 31] = 0x7F), without(&[7]));
    assert_eq!(free_with(&|image| image[32 * 8] = 0x7F), without(&[8]));
    // A byte takes its own page and the page that it names.
    assert_eq!(
        free_with(&|image| image[redirection(7)] = 255 - 9),
        without(&[7, 9])
    );
    assert_eq!(
        free_with(&|image| image[redirection(7)] = 255 - 7),
        without(&[7])
    );
    assert_eq!(
        free_with(&|image| image[redirection(0)] = 255 - 9),
        without(&[9])
    );
    assert_eq!(
        free_with(&|image| image[redirection(7)] = 0x00),
        without(&[7])
    );
    assert_eq!(
        free_with(&|image| image[redirection(7)] = 0xBF),
        without(&[7])
    );
    // What the image holds in a gap is nothing against any page.
    assert_eq!(
        free_with(&|image| image[status(0x0FF)] = 0xFE),
        without(&[])
    );
}

#[test]
fn free_pages_one_by_one() {
    let mut generator = Generator::new(4);
    let mut found = 0;
    for _ in 0..600 {
        let image = used_image(&mut generator);
        let bit = |field: usize, page: usize| (image[status(field + page / 8)] >> (page % 8)) & 1;
        let expected: Vec<u8> = (1..64usize)
            .filter(|&page| {
                bit(0x040, page) == 1
                    && image[32 * page..32 * page + 32]
                        .iter()
                        .all(|&byte| byte == 0xFF)
                    && bit(0x000, page) == 1
                    && image[redirection(page)] == 0xFF
                    && (0..64).all(|other| usize::from(!image[redirection(other)]) != page)
            })
            .map(|page| page as u8)
            .collect();
        found += expected.len();
        assert_eq!(
            free_pages(&image).unwrap().into_iter().collect::<Vec<u8>>(),
            expected
        );
        assert_eq!(free_count(&image).unwrap(), expected.len());
        for other_than in 0..64u8 {
            let lowest = expected.iter().find(|&&page| page != other_than);
            assert_eq!(free_page(&image, other_than).ok(), lowest.copied());
        }
        let redirected = (0..64).filter(|&page| image[redirection(page)] != 0xFF);
        assert_eq!(
            redirected_count(&image).unwrap(),
            redirected.clone().count()
        );
        assert!(redirected_pages(&image)
            .unwrap()
            .into_iter()
            .map(usize::from)
            .eq(redirected));
    }
    assert!(found > 1000, "{found}");
}
