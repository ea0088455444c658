//! Walk, page, free page and whole updates against the second model.

mod common;

use common::{
    all_events, clear_bit, image_to_update, mode_of_model, naming_pulse, published, refusal,
    some_image, start_model, status, verdict, MODES,
};
use ds2505_model as model;
use ds2505_model::memory::blank_image;
use ds2505_model::random::{chain_image, Generator};
use plug::{free_page, page, update, walk, Final, Published, Refusal, Verdict, WriteMode};

/// Every page number there is, pages above 63 too.
#[test]
fn walk_page_and_free_page() {
    let mut g = Generator::new(200);
    let mut verdicts = [0usize; 3];
    for _ in 0..1500 {
        let image = some_image(&mut g);
        for number in 0..=255 {
            let walked = walk(&image, number);
            assert_eq!(
                walked,
                model::walk::walk(&image, number)
                    .map(verdict)
                    .map_err(refusal)
            );
            match walked {
                Ok(Verdict::Final(_)) => verdicts[0] += 1,
                Ok(Verdict::Loop) => verdicts[1] += 1,
                Ok(Verdict::Outside(_)) => verdicts[2] += 1,
                Err(_) => {}
            }
            if number < 64 || number % 37 == 0 {
                let expected = model::memory::check_page(number)
                    .map(|page| model::memory::page_bytes(&image, page).to_vec())
                    .map_err(refusal);
                assert_eq!(page(&image, number).map(|bytes| bytes.to_vec()), expected);
                assert_eq!(
                    free_page(&image, number),
                    model::free::free_page(&image, number).map_err(refusal)
                );
            }
        }
    }
    assert!(verdicts.iter().all(|&count| count > 2000), "{verdicts:?}");
}

#[test]
fn tray() {
    // What is on page 1, and how the walk from there ends.
    let rows = [
        (0xFD, Verdict::Final(Final { page: 2, hops: 1 })),
        (0xFE, Verdict::Loop),
        (0xC0, Verdict::Final(Final { page: 63, hops: 1 })),
        (0xBF, Verdict::Outside(64)),
        (0x00, Verdict::Outside(255)),
        (0x37, Verdict::Outside(200)),
    ];
    for (byte, expected) in rows {
        let mut image = blank_image();
        image[status(0x101)] = byte;
        assert_eq!(walk(&image, 1), Ok(expected));
    }
    let pages: Vec<u8> = (0..64).collect();
    let mut image = chain_image(&pages);
    let whole = Verdict::Final(Final { page: 63, hops: 63 });
    assert_eq!(walk(&image, 0), Ok(whole));
    image[status(0x100 + 63)] = 255 - 1;
    assert_eq!(walk(&image, 0), Ok(Verdict::Loop));
    image[status(0x100 + 63)] = 255 - 200;
    assert_eq!(walk(&image, 0), Ok(Verdict::Outside(200)));

    for mode in MODES {
        let mut image = blank_image();
        let new = [0x11; 32];
        let pages_of =
            |image: &[u8], page| update(&mut image.to_vec(), &[0; 8], &new, page, mode, 0);
        assert_eq!(pages_of(&image, 0), Ok(Published { l: 0, t: 1 }));
        assert_eq!(pages_of(&image, 1), Ok(Published { l: 1, t: 2 }));
        for page in 2..64 {
            clear_bit(&mut image, 0x040, page);
        }
        let refused = Refusal {
            number: 8,
            value: None,
        };
        assert_eq!(pages_of(&image, 1), Err(refused));

        // Cut before the pulse that names the new page: old page. After it: new
        // page.
        let mut image = blank_image();
        image[..32].fill(0x42);
        let pulse = naming_pulse(mode) as u32;
        for (cut, end, bytes) in [(pulse - 1, (0, 0), [0x42; 32]), (pulse, (1, 1), new)] {
            let mut left = image.clone();
            update(&mut left, &[0; 8], &new, 0, mode, cut).unwrap();
            let (reached, hops) = end;
            assert_eq!(
                walk(&left, 0),
                Ok(Verdict::Final(Final {
                    page: reached,
                    hops
                }))
            );
            assert_eq!(page(&left, reached), Ok(bytes));
        }
    }
}

/// The proved update cut after so many events, against the model's: the image
/// that it leaves.
fn assert_same_update(
    g: &mut Generator,
    image: &[u8],
    new: &[u8],
    page: u8,
    mode: WriteMode,
    cut: u32,
) -> Vec<u8> {
    let mut left = image.to_vec();
    let told = update(&mut left, &g.bytes(), new, page, mode, cut);
    match start_model(image, new, page, mode) {
        Ok(publisher) => {
            assert_eq!(told, Ok(published(publisher.pages())));
            let cut = Some(cut as usize);
            let run = model::publisher::update(image, new, page, mode_of_model(mode), cut).unwrap();
            assert_eq!(left, run.image, "{mode:?}, cut after {cut:?}");
        }
        Err(reason) => {
            assert_eq!(told, Err(refusal(reason)));
            assert_eq!(left, image);
        }
    }
    left
}

/// What a page reads as.
fn reading(image: &[u8], from: u8) -> (Verdict, Option<[u8; 32]>) {
    let verdict = walk(image, from).unwrap();
    let bytes = match verdict {
        Verdict::Final(end) => Some(page(image, end.page).unwrap()),
        _ => None,
    };
    (verdict, bytes)
}

#[test]
fn updates_cut_after_every_event() {
    let mut g = Generator::new(201);
    let longest: Vec<u8> = (0..63).collect();
    let mut cases = vec![
        (blank_image(), 0),
        (blank_image(), 63),
        (chain_image(&longest), 0),
    ];
    while cases.len() < 8 {
        cases.push(image_to_update(&mut g));
    }
    for (image, page) in cases {
        let new: [u8; 32] = g.bytes();
        let old = reading(&image, page);
        let whole = MODES.map(|mode| {
            let last = all_events(mode) + 3;
            for cut in 0..=last {
                let left = assert_same_update(&mut g, &image, &new, page, mode, cut as u32);
                let now = reading(&left, page);
                if cut < naming_pulse(mode) {
                    assert_eq!(now, old, "{mode:?}, cut after {cut}");
                } else {
                    assert_eq!(now.1, Some(new), "{mode:?}, cut after {cut}");
                }
            }
            assert_same_update(&mut g, &image, &new, page, mode, 5000)
        });
        // Both modes leave the same image.
        assert_eq!(whole[0], whole[1]);
    }
}

#[test]
fn updates_cut_anywhere() {
    let mut g = Generator::new(202);
    let mut ran = 0;
    for round in 0..3000 {
        let (image, page) = if round % 3 == 0 {
            (some_image(&mut g), g.below(70) as u8)
        } else {
            image_to_update(&mut g)
        };
        let new: [u8; 32] = g.bytes();
        ran += usize::from(start_model(&image, &new, page, WriteMode::Ordinary).is_ok());
        for mode in MODES {
            let all = all_events(mode) as u64;
            let cut = match g.below(4) {
                0 => g.below(70),
                1 => all - 72 + g.below(80),
                _ => g.below(all + 8),
            };
            assert_same_update(&mut g, &image, &new, page, mode, cut as u32);
        }
    }
    assert!(ran > 2000, "{ran}");
}

/// One image updated again and again, in both modes by turns, until there is no
/// room.
#[test]
fn updates_until_no_page_is_left() {
    let mut g = Generator::new(203);
    let mut image = blank_image();
    for round in 1..64 {
        let new: [u8; 32] = g.bytes();
        let mode = MODES[usize::from(round) % 2];
        let told = update(&mut image, &g.bytes(), &new, 0, mode, u32::MAX);
        let expected = Published {
            l: round - 1,
            t: round,
        };
        assert_eq!(told, Ok(expected));
        assert_eq!(page(&image, round), Ok(new));
        let end = Final {
            page: round,
            hops: round,
        };
        assert_eq!(walk(&image, 0), Ok(Verdict::Final(end)));
    }
    let refused = Refusal {
        number: 8,
        value: None,
    };
    for mode in MODES {
        assert_eq!(
            update(&mut image, &[0; 8], &[0; 32], 0, mode, 1222),
            Err(refused)
        );
    }
}
