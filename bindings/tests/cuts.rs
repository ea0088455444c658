//! Whole updates, each cut after every number of its events, against the second
//! model: the image that a cut leaves, and what every page then reads as.

mod common;

use common::{
    all_events, image_to_update, mode_of_model, naming_pulse, published, start_model, to_model,
    verdict,
};
use ds2505_model as model;
use ds2505_model::chip::Chip as ModelChip;
use ds2505_model::memory::blank_image;
use ds2505_model::random::{chain_image, Generator};
use plug::{page, update, walk, Answer, Verdict, WriteMode};

/// In each mode.
const UPDATES: usize = 100;

/// The model's image before the first event and after each.
fn images(image: &[u8], new: &[u8], from: u8, mode: WriteMode) -> Vec<Vec<u8>> {
    let mut master = start_model(image, new, from, mode).unwrap();
    let mut chip = ModelChip::power_up([0; 8], image.to_vec()).unwrap();
    let mut images = vec![chip.image.clone()];
    let mut reply = true;
    while let Ok(Answer::Event(event)) = common::told(master.call(reply), published) {
        reply = chip.event(to_model(event));
        images.push(chip.image.clone());
    }
    images
}

/// What every page reads as: its verdict, and under Final that page's bytes.
fn readings(image: &[u8]) -> Vec<(Verdict, Option<[u8; 32]>)> {
    (0..64)
        .map(|number| {
            let walked = walk(image, number).unwrap();
            assert_eq!(Ok(walked), model::walk::walk(image, number).map(verdict));
            let bytes = match walked {
                Verdict::Final(end) => Some(page(image, end.page).unwrap()),
                _ => None,
            };
            (walked, bytes)
        })
        .collect()
}

/// From the visible event on, the page asked for and those that move with it
/// read as T with the new bytes, one hop later; every other page but T as
/// before.
fn assert_moved(
    before: &[(Verdict, Option<[u8; 32]>)],
    after: &[(Verdict, Option<[u8; 32]>)],
    pages: plug::Published,
    new: [u8; 32],
) {
    for (number, (old, now)) in before.iter().zip(after).enumerate() {
        match old.0 {
            _ if number == usize::from(pages.t) => {}
            Verdict::Final(end) if end.page == pages.l => {
                let moved = plug::Final {
                    page: pages.t,
                    hops: end.hops + 1,
                };
                assert_eq!(*now, (Verdict::Final(moved), Some(new)), "page {number}");
            }
            _ => assert_eq!(now, old, "page {number}"),
        }
    }
}

/// All but T.
fn assert_old(
    before: &[(Verdict, Option<[u8; 32]>)],
    after: &[(Verdict, Option<[u8; 32]>)],
    t: u8,
) {
    for (number, (old, now)) in before.iter().zip(after).enumerate() {
        assert!(number == usize::from(t) || now == old, "page {number}");
    }
}

fn cut_everywhere(g: &mut Generator, image: &[u8], from: u8, mode: WriteMode) -> usize {
    let new: [u8; 32] = g.bytes();
    let number = g.bytes();
    let expected = images(image, &new, from, mode);
    assert_eq!(expected.len(), all_events(mode) + 1);
    let pages = published(start_model(image, &new, from, mode).unwrap().pages());
    let before = readings(image);
    let mut changes = 0;
    for (cut, left) in expected.iter().enumerate() {
        let mut proved = image.to_vec();
        let told = update(&mut proved, &number, &new, from, mode, cut as u32);
        assert_eq!(told, Ok(pages));
        assert!(proved == *left, "{mode:?}, cut after {cut}");
        // Only a pulse can have altered anything.
        if cut == 0 || proved != expected[cut - 1] {
            changes += 1;
            let now = readings(&proved);
            if cut < naming_pulse(mode) {
                assert_old(&before, &now, pages.t);
            } else {
                assert_moved(&before, &now, pages, new);
            }
        }
    }
    // The images above are those of events; this is the model's own cut.
    let cut = g.below(expected.len() as u64) as usize;
    let run = model::publisher::update(image, &new, from, mode_of_model(mode), Some(cut)).unwrap();
    assert!(run.image == expected[cut]);
    assert!(changes <= 1 + 34);
    expected.len()
}

/// So many updates in a mode, each cut after every number of events.
fn cut_updates(seed: u64, mode: WriteMode) {
    let mut g = Generator::new(seed);
    let longest: Vec<u8> = (0..63).collect();
    let mut cases = vec![
        (blank_image(), 0),
        (blank_image(), 63),
        (chain_image(&longest), 0),
    ];
    while cases.len() < UPDATES {
        cases.push(image_to_update(&mut g));
    }
    let mut cuts = 0;
    for (image, from) in &cases {
        cuts += cut_everywhere(&mut g, image, *from, mode);
    }
    assert_eq!(cases.len(), UPDATES);
    assert_eq!(cuts, UPDATES * (all_events(mode) + 1));
}

#[test]
fn ordinary_updates_cut_after_every_event() {
    cut_updates(810, WriteMode::Ordinary);
}

#[test]
fn quick_updates_cut_after_every_event() {
    cut_updates(811, WriteMode::Quick);
}
