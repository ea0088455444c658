//! The publisher, alone and joined to a chip, with cuts.

mod common;

use common::{chip_with, clear_bit, redirection, status};
use ds2505_model::bits::bits_of;
use ds2505_model::chip::WriteMode::{Ordinary, Quick};
use ds2505_model::chip::{Event, WriteMode};
use ds2505_model::memory::{blank_image, page_bytes, Page};
use ds2505_model::page_read::read_page;
use ds2505_model::publisher::{update, Outcome, Published, Publisher};
use ds2505_model::random::{any_image, chain_image, used_image, Generator};
use ds2505_model::refusal::{Answer, StateBack};
use ds2505_model::walk::{walk, Final, Verdict};

const MODES: [WriteMode; 2] = [Ordinary, Quick];

/// How many events a whole update has.
fn all_events(mode: WriteMode) -> usize {
    match mode {
        Ordinary => 1222,
        Quick => 678,
    }
}

/// Which event makes the new page visible.
fn naming_pulse(mode: WriteMode) -> usize {
    match mode {
        Ordinary => 1213,
        Quick => 669,
    }
}

/// How many slots of CRC there are between a byte to write and its pulse.
fn crc_slots(mode: WriteMode) -> usize {
    match mode {
        Ordinary => 16,
        Quick => 0,
    }
}

fn new_bytes() -> [u8; 32] {
    std::array::from_fn(|i| (i as u8).wrapping_mul(37) ^ 0x5A)
}

/// What a page reads as: its verdict and, under Final, the bytes there.
type Reading = (Verdict, Vec<u8>);

fn reading(image: &[u8], page: u8) -> Reading {
    let verdict = walk(image, page).unwrap();
    let bytes = match verdict {
        Verdict::Final(reached) => page_bytes(image, Page::new(reached.page).unwrap()).to_vec(),
        _ => Vec::new(),
    };
    (verdict, bytes)
}

fn all_readings(image: &[u8]) -> Vec<Reading> {
    (0..64).map(|page| reading(image, page)).collect()
}

/// The same through a chip and the page read.
fn all_readings_over_the_line(image: &[u8]) -> Vec<Reading> {
    let mut chip = chip_with(image.to_vec());
    (0..64)
        .map(|page| {
            let read = read_page(&mut chip, page).unwrap();
            match read.result {
                Ok(reached) => (Verdict::Final(reached), read.buffer.to_vec()),
                Err(refusal) => match (refusal.number(), refusal.page_given_back()) {
                    (4, None) => (Verdict::Loop, Vec::new()),
                    (5, Some(number)) => (Verdict::Outside(number), Vec::new()),
                    _ => panic!("{refusal:?}"),
                },
            }
        })
        .collect()
}

/// What all pages must read as after an update, from what they read before.
/// The new page itself is what the update writes to, so it reads as written.
fn readings_after(before: &[Reading], pages: Published, new: &[u8]) -> Vec<Reading> {
    before
        .iter()
        .enumerate()
        .map(|(page, (verdict, bytes))| match *verdict {
            Verdict::Final(reached) if reached.page == pages.l => {
                let moved = Final {
                    page: pages.t,
                    hops: reached.hops + 1,
                };
                (Verdict::Final(moved), new.to_vec())
            }
            Verdict::Final(reached) if page == usize::from(pages.t) => {
                assert_eq!(reached.page, pages.t);
                (*verdict, new.to_vec())
            }
            _ => (*verdict, bytes.clone()),
        })
        .collect()
}

fn assert_same_but_for(page: u8, left: &[Reading], right: &[Reading]) {
    for number in 0..64 {
        if number != usize::from(page) {
            assert_eq!(left[number], right[number], "page {number}");
        }
    }
}

#[test]
fn pages_of_a_blank_image() {
    let mut marked = blank_image();
    for page in 2..64 {
        clear_bit(&mut marked, 0x040, page);
    }
    for mode in MODES {
        let pages = |image: &[u8], page| {
            Publisher::start(image, &new_bytes(), page, mode).map(|publisher| publisher.pages())
        };
        assert_eq!(pages(&blank_image(), 0), Ok(Published { l: 0, t: 1 }));
        assert_eq!(pages(&blank_image(), 1), Ok(Published { l: 1, t: 2 }));
        assert_eq!(pages(&blank_image(), 63), Ok(Published { l: 63, t: 1 }));
        assert_eq!(pages(&marked, 0), Ok(Published { l: 0, t: 1 }));
        let refusal = pages(&marked, 1).unwrap_err();
        assert_eq!(refusal.number(), 8);
        assert_eq!(refusal.page_given_back(), None);
        assert_eq!(refusal.state, StateBack::None);
    }
}

#[test]
fn whole_plan_by_hand() {
    let mut image = blank_image();
    // 20 leads to 21; pages 1 to 9 aren't free.
    image[redirection(20)] = 255 - 21;
    for page in 1..10 {
        clear_bit(&mut image, 0x040, page);
    }
    let new = new_bytes();
    for (mode, write_memory, write_status, lengths) in [
        (Ordinary, 0x0F, 0x55, [66, 1089, 66]),
        (Quick, 0xF3, 0xF5, [50, 577, 50]),
    ] {
        let publisher = Publisher::start(&image, &new, 20, mode).unwrap();
        assert_eq!(publisher.pages(), Published { l: 21, t: 10 });

        let mut expected = Vec::new();
        let sent = |events: &mut Vec<Event>, bytes: &[u8]| {
            events.extend(bits_of(bytes).into_iter().map(Event::Slot));
        };
        let checked = |events: &mut Vec<Event>| {
            events.extend(vec![Event::Slot(true); crc_slots(mode)]);
            events.push(Event::Pulse);
            events.extend([Event::Slot(true); 8]);
        };
        expected.push(Event::Reset);
        sent(&mut expected, &[0xCC, write_status, 0x41, 0x00]);
        sent(&mut expected, &[0b1111_1011]);
        checked(&mut expected);
        assert_eq!(expected.len(), lengths[0]);
        expected.push(Event::Reset);
        sent(&mut expected, &[0xCC, write_memory, 0x40, 0x01]);
        for byte in new {
            sent(&mut expected, &[byte]);
            checked(&mut expected);
        }
        assert_eq!(expected.len(), lengths[0] + lengths[1]);
        expected.push(Event::Reset);
        sent(&mut expected, &[0xCC, write_status, 0x15, 0x01, 255 - 10]);
        checked(&mut expected);
        assert_eq!(expected.len(), lengths.iter().sum());
        expected.push(Event::Reset);
        assert_eq!(expected.len(), all_events(mode));
        assert_eq!(expected[naming_pulse(mode) - 1], Event::Pulse);
        assert_eq!(publisher.planned_events(), expected);
    }
}

#[test]
fn a_whole_run() {
    let image = blank_image();
    let new = new_bytes();
    let mut expected = image.clone();
    expected[32..64].copy_from_slice(&new);
    expected[status(0x040)] = 0xFD;
    expected[redirection(0)] = 0xFE;
    for mode in MODES {
        let run = update(&image, &new, 0, mode, None).unwrap();
        assert_eq!(run.outcome, Outcome::Published(Published { l: 0, t: 1 }));
        assert_eq!(run.events, all_events(mode));
        assert_eq!(run.image, expected);
    }
}

#[test]
fn cut_around_the_naming_pulse() {
    let mut image = blank_image();
    image[..32].fill(0x42);
    let new = new_bytes();
    let old_reading = (Verdict::Final(Final { page: 0, hops: 0 }), vec![0x42; 32]);
    let new_reading = (Verdict::Final(Final { page: 1, hops: 1 }), new.to_vec());
    for mode in MODES {
        let pulse = naming_pulse(mode);
        let old = update(&image, &new, 0, mode, Some(pulse - 1)).unwrap();
        assert_eq!((old.outcome, old.events), (Outcome::Cut, pulse - 1));
        assert_eq!(reading(&old.image, 0), old_reading);
        let done = update(&image, &new, 0, mode, Some(pulse)).unwrap();
        assert_eq!((done.outcome, done.events), (Outcome::Cut, pulse));
        assert_eq!(reading(&done.image, 0), new_reading);
    }
}

/// Images on which updates are cut, with the page that is asked for.
fn images_to_cut(generator: &mut Generator) -> Vec<(Vec<u8>, u8)> {
    let mut images = vec![(blank_image(), 0), (blank_image(), 1), (blank_image(), 63)];
    // The longest chain that leaves a free page.
    let pages: Vec<u8> = (0..63).collect();
    images.push((chain_image(&pages), 0));
    images.push((chain_image(&pages), 62));
    while images.len() < 12 {
        let image = if images.len() % 3 == 0 {
            // Data anywhere and any gaps, but a clean status field otherwise.
            let mut image = any_image(generator);
            for range in [0x000..0x008, 0x020..0x028, 0x040..0x048, 0x100..0x140] {
                image[status(range.start)..status(range.end)].fill(0xFF);
            }
            image[32 * 44..32 * 45].fill(0xFF);
            image[redirection(7)] = 255 - 8;
            image[redirection(9)] = 255 - 8;
            image
        } else {
            used_image(generator)
        };
        let page = generator.below(64) as u8;
        if Publisher::start(&image, &new_bytes(), page, Ordinary).is_ok() {
            images.push((image, page));
        }
    }
    images
}

fn cut_after_every_event(mode: WriteMode) {
    let mut generator = Generator::new(50);
    for (image, page) in images_to_cut(&mut generator) {
        let new: [u8; 32] = generator.bytes();
        let publisher = Publisher::start(&image, &new, page, mode).unwrap();
        let pages = publisher.pages();
        let before = all_readings(&image);
        assert_eq!(all_readings_over_the_line(&image), before);
        let after = readings_after(&before, pages, &new);
        let mut last_image = image.clone();
        for cut in 0..=all_events(mode) {
            let run = update(&image, &new, page, mode, Some(cut)).unwrap();
            assert_eq!((run.outcome, run.events), (Outcome::Cut, cut));
            let now = all_readings(&run.image);
            if cut < naming_pulse(mode) {
                assert_same_but_for(pages.t, &now, &before);
                // The page being written stays final for itself all along.
                assert_eq!(now[usize::from(pages.t)].0, before[usize::from(pages.t)].0);
            } else {
                assert_eq!(now, after);
            }
            if run.image != last_image {
                assert_eq!(all_readings_over_the_line(&run.image), now);
            }
            last_image = run.image;
        }
        let whole = update(&image, &new, page, mode, None).unwrap();
        assert_eq!(whole.outcome, Outcome::Published(pages));
        assert_eq!(whole.events, all_events(mode));
        assert_eq!(whole.image, last_image);
        // A cut that lies beyond the last event never comes.
        let beyond = Some(all_events(mode) + 1);
        assert_eq!(update(&image, &new, page, mode, beyond).unwrap(), whole);
    }
}

#[test]
fn cuts_after_every_event() {
    cut_after_every_event(Ordinary);
}

#[test]
fn quick_cuts_after_every_event() {
    cut_after_every_event(Quick);
}

/// After a cut the update can be done again, with another page if the first
/// was already marked.
#[test]
fn again_after_a_cut() {
    let image = blank_image();
    let new = new_bytes();
    for [first, second] in [[Ordinary; 2], [Quick; 2], [Quick, Ordinary]] {
        for cut in (0..=all_events(first)).step_by(13) {
            let left = update(&image, &new, 5, first, Some(cut)).unwrap().image;
            let run = update(&left, &new, 5, second, None).unwrap();
            let marked = cut >= 42 + crc_slots(first);
            let named = cut >= naming_pulse(first);
            let expected = Published {
                l: if named { 1 } else { 5 },
                t: if marked { 2 } else { 1 },
            };
            assert_eq!(run.outcome, Outcome::Published(expected));
            assert_eq!(reading(&run.image, 5).1, new);
        }
    }
}

/// Updates of one page in turn by either mode until no free page is left.
#[test]
fn until_no_page_is_left() {
    let mut image = blank_image();
    for round in 1..64u8 {
        let new = [round; 32];
        let mode = MODES[usize::from(round) % 2];
        let run = update(&image, &new, 0, mode, None).unwrap();
        let expected = Published {
            l: round - 1,
            t: round,
        };
        assert_eq!(run.outcome, Outcome::Published(expected));
        image = run.image;
        let reached = Final {
            page: round,
            hops: round,
        };
        assert_eq!(reading(&image, 0), (Verdict::Final(reached), new.to_vec()));
    }
    for mode in MODES {
        let refusal = update(&image, &[0; 32], 0, mode, None).unwrap_err();
        assert_eq!(refusal.number(), 8);
    }
}

#[test]
fn new_bytes_may_be_blank() {
    for mode in MODES {
        let run = update(&blank_image(), &[0xFF; 32], 0, mode, None).unwrap();
        assert_eq!(run.outcome, Outcome::Published(Published { l: 0, t: 1 }));
        assert_eq!(run.events, all_events(mode));
    }
}

#[test]
fn order_of_refusals() {
    let number = |image: &[u8], new: &[u8], page: u8| {
        let [refusal, quick] =
            MODES.map(|mode| Publisher::start(image, new, page, mode).unwrap_err());
        assert_eq!(refusal, quick);
        assert_eq!(refusal.state, StateBack::None);
        (refusal.number(), refusal.page_given_back())
    };
    let good = [0u8; 32];
    // No free page at all, so that 8 would be told last.
    let mut image = blank_image();
    for page in 0..64 {
        clear_bit(&mut image, 0x040, page);
        clear_bit(&mut image, 0x020, page);
        clear_bit(&mut image, 0x000, page);
    }
    image[redirection(1)] = 0xFE;
    image[redirection(2)] = 0x37;
    image[redirection(3)] = 255 - 4;
    assert_eq!(number(&image[1..], &good[1..], 64), (1, None));
    assert_eq!(number(&image, &good[1..], 64), (10, None));
    assert_eq!(number(&image, &[0; 33], 64), (10, None));
    assert_eq!(number(&image, &good, 64), (3, None));
    assert_eq!(number(&image, &good, 1), (4, None));
    assert_eq!(number(&image, &good, 2), (5, Some(200)));
    // It is the final page's protection that counts, that of its data first.
    let only_3 = 0b0000_1000;
    let only_4 = 0b0001_0000;
    assert_eq!(number(&image, &good, 3), (20, Some(4)));
    image[status(0x000)] = only_3;
    assert_eq!(number(&image, &good, 3), (20, Some(4)));
    image[status(0x020)] = only_4;
    assert_eq!(number(&image, &good, 3), (20, Some(4)));
    image[status(0x000)] = only_4;
    image[status(0x020)] = 0;
    assert_eq!(number(&image, &good, 3), (9, Some(4)));
    image[status(0x020)] = only_3;
    assert_eq!(number(&image, &good, 3), (9, Some(4)));
    image[status(0x020)] = only_4;
    assert_eq!(number(&image, &good, 3), (8, None));
}

/// Page 5 leads to 9, and page 1 is free. Protected data of the page that
/// would be superseded close it; those of no other page do, the page asked for
/// and the free page included.
#[test]
fn a_protected_band_is_closed() {
    let mut open = blank_image();
    open[redirection(5)] = 255 - 9;
    for mode in MODES {
        let pages = |image: &[u8]| {
            let start = Publisher::start(image, &new_bytes(), 5, mode);
            assert_eq!(
                update(image, &new_bytes(), 5, mode, None).map(|run| run.outcome),
                start
                    .as_ref()
                    .map(|publisher| Outcome::Published(publisher.pages()))
                    .map_err(|refusal| *refusal)
            );
            start.map(|publisher| publisher.pages())
        };
        assert_eq!(pages(&open), Ok(Published { l: 9, t: 1 }));
        for protected in 0..64 {
            let mut image = open.clone();
            clear_bit(&mut image, 0x000, protected);
            match protected {
                9 => {
                    let refusal = pages(&image).unwrap_err();
                    assert_eq!(refusal.number(), 20);
                    assert_eq!(refusal.page_given_back(), Some(9));
                    assert_eq!(refusal.state, StateBack::None);
                }
                1 => assert_eq!(pages(&image), Ok(Published { l: 9, t: 2 })),
                _ => assert_eq!(pages(&image), Ok(Published { l: 9, t: 1 })),
            }
        }
    }
}

/// An update of a page whose old data are protected goes on from the page that
/// took its place; that page can be protected in its turn.
#[test]
fn closed_after_an_update() {
    for mode in MODES {
        let mut image = update(&blank_image(), &[0x22; 32], 5, mode, None)
            .unwrap()
            .image;
        clear_bit(&mut image, 0x000, 5);
        let run = update(&image, &[0x33; 32], 5, mode, None).unwrap();
        assert_eq!(run.outcome, Outcome::Published(Published { l: 1, t: 2 }));
        let mut image = run.image;
        clear_bit(&mut image, 0x000, 2);
        let refusal = update(&image, &[0x44; 32], 5, mode, None).unwrap_err();
        assert_eq!((refusal.number(), refusal.page_given_back()), (20, Some(2)));
        assert_eq!(reading(&image, 5).1, [0x33; 32]);
    }
}

/// On any input the start refuses, or names the same pages, in either mode.
#[test]
fn starts_are_the_same_in_either_mode() {
    let mut generator = Generator::new(102);
    let mut answers = std::collections::BTreeMap::new();
    for _ in 0..6000 {
        let mut image = used_image(&mut generator);
        let mut new = generator.bytes::<32>().to_vec();
        let mut page = generator.below(64) as u8;
        match generator.below(20) {
            0 => image.resize(generator.below(2400) as usize, 0xFF),
            1 => new.resize(generator.below(40) as usize, 0xFF),
            2 => page = generator.byte(),
            3 => image = any_image(&mut generator),
            _ => {}
        }
        let [ordinary, quick] = MODES.map(|mode| {
            Publisher::start(&image, &new, page, mode).map(|publisher| publisher.pages())
        });
        assert_eq!(ordinary, quick);
        let number = ordinary.map_or_else(|refusal| refusal.number(), |_| 0);
        *answers.entry(number).or_insert(0) += 1;
    }
    let kinds: Vec<u8> = answers.keys().copied().collect();
    assert_eq!(kinds, [0, 1, 3, 4, 5, 8, 9, 10, 20], "{answers:?}");
    assert!(answers.values().all(|&count| count > 100), "{answers:?}");
}

/// A run in which one reply is turned round, or kept if `wrong` is 0.
fn run_with_wrong_reply(
    image: &[u8],
    page: u8,
    mode: WriteMode,
    wrong: usize,
) -> (Answer<Published>, usize, Vec<u8>) {
    let mut chip = chip_with(image.to_vec());
    let mut publisher = Publisher::start(image, &new_bytes(), page, mode).unwrap();
    let mut reply = false;
    let mut events = 0;
    loop {
        match publisher.call(reply) {
            Answer::Event(event) => {
                events += 1;
                reply = chip.event(event) != (events == wrong);
            }
            end => {
                for reply in [false, true, false] {
                    assert_eq!(publisher.call(reply), end);
                }
                return (end, events, chip.image);
            }
        }
    }
}

fn wrong_at_every_reply(mode: WriteMode, begins: [usize; 4]) {
    let image = blank_image();
    let before = all_readings(&image);
    let pages = Published { l: 3, t: 1 };
    let after = readings_after(&before, pages, &new_bytes());
    // The places of the pulse and of the last bit read back among the events
    // of a byte.
    let pulse = 8 + crc_slots(mode) + 1;
    let last = pulse + 8;
    for wrong in 0..=all_events(mode) {
        let (end, events, left) = run_with_wrong_reply(&image, 3, mode, wrong);
        // Where the write begins that the wrong reply belongs to, and the
        // place in it.
        let begun = begins.into_iter().filter(|&begin| begin < wrong);
        let begin = begun.max().unwrap_or(0);
        let place = wrong - begin;
        let stop = if wrong == 0 || (2..=33).contains(&place) {
            None
        } else if place == 1 {
            Some((13, begin + 1))
        } else {
            let byte_begin = begin + 33 + (place - 34) / last * last;
            let in_byte = (place - 34) % last + 1;
            if in_byte <= 8 || in_byte == pulse {
                None
            } else if in_byte < pulse {
                Some((6, byte_begin + 24))
            } else {
                Some((7, byte_begin + last))
            }
        };
        match stop {
            None => {
                assert_eq!(end, Answer::End(pages), "{wrong}");
                assert_eq!(events, all_events(mode));
            }
            Some((number, at)) => {
                let Answer::Refused(refusal) = end else {
                    panic!("{end:?}");
                };
                assert_eq!((refusal.number(), events), (number, at), "{wrong}");
                assert_eq!(refusal.state, StateBack::Stopped);
            }
        }
        let now = all_readings(&left);
        if events < naming_pulse(mode) {
            assert_same_but_for(1, &now, &before);
        } else {
            assert_eq!(now, after);
        }
    }
}

#[test]
fn every_single_wrong_reply() {
    wrong_at_every_reply(Ordinary, [0, 66, 66 + 1089, 66 + 1089 + 66]);
    wrong_at_every_reply(Quick, [0, 50, 50 + 577, 50 + 577 + 50]);
}

/// Joined to a chip whose replies are turned round now and then. What comes
/// out is a part of the plan from its beginning, and the end is repeated.
/// Gives the numbers of all refusals met, and 0 for a good end.
fn ends_under_hostile_replies(mode: WriteMode) -> Vec<u8> {
    let mut generator = Generator::new(51);
    let mut stops = std::collections::BTreeSet::new();
    for round in 0..3000 {
        let image = used_image(&mut generator);
        let page = generator.below(64) as u8;
        let new: [u8; 32] = generator.bytes();
        let Ok(mut publisher) = Publisher::start(&image, &new, page, mode) else {
            continue;
        };
        let plan = publisher.planned_events();
        let mut chip = chip_with(image);
        let mut events = 0;
        let mut reply = generator.bit();
        // Some rounds lie in every reply, some in few.
        let lies = [1, 2, 50, 400, 3000][round % 5];
        let end = loop {
            match publisher.call(reply) {
                Answer::Event(event) => {
                    assert_eq!(event, plan[events]);
                    events += 1;
                    reply = chip.event(event) != generator.once_in(lies);
                }
                end => break end,
            }
        };
        match end {
            Answer::End(_) => {
                assert_eq!(events, all_events(mode));
                stops.insert(0);
            }
            Answer::Refused(refusal) => {
                assert_eq!(refusal.state, StateBack::Stopped);
                stops.insert(refusal.number());
            }
            Answer::Event(_) => unreachable!(),
        }
        assert!(events <= all_events(mode));
        for _ in 0..3 {
            assert_eq!(publisher.call(generator.bit()), end);
        }
    }
    stops.into_iter().collect()
}

#[test]
fn hostile_replies() {
    assert_eq!(ends_under_hostile_replies(Ordinary), [0, 6, 7, 13]);
    assert_eq!(ends_under_hostile_replies(Quick), [0, 7, 13]);
}

/// On a chip whose image isn't the one that was lent, the byte read back
/// tells: here the new page was written to in the meantime.
#[test]
fn another_image_than_the_true_one() {
    let lent = blank_image();
    for (mode, noticed) in [(Ordinary, 66 + 33 + 3 * 33), (Quick, 50 + 33 + 3 * 17)] {
        let mut publisher = Publisher::start(&lent, &[0xFF; 32], 0, mode).unwrap();
        let mut other = blank_image();
        other[32 + 2] = 0x7F;
        let mut chip = chip_with(other);
        let mut reply = true;
        let mut events = 0;
        let refusal = loop {
            match publisher.call(reply) {
                Answer::Event(event) => {
                    events += 1;
                    reply = chip.event(event);
                }
                Answer::Refused(refusal) => break refusal,
                Answer::End(_) => panic!("not noticed"),
            }
        };
        assert_eq!(refusal.number(), 7);
        assert_eq!(events, noticed);
    }
}

/// The bitmap byte read back must be the old one with the bit cleared.
#[test]
fn other_marks_stay() {
    let mut image = blank_image();
    image[status(0x040)] = 0b0101_0101;
    for mode in MODES {
        let run = update(&image, &new_bytes(), 0, mode, None).unwrap();
        assert_eq!(run.outcome, Outcome::Published(Published { l: 0, t: 2 }));
        assert_eq!(run.image[status(0x040)], 0b0101_0001);
    }
}

/// Random images: an update that starts goes through, and what the pages read
/// afterwards follows from what they read before. A quick update leaves the
/// same image.
#[test]
fn random_updates() {
    let mut generator = Generator::new(52);
    let mut outcomes = std::collections::BTreeMap::new();
    for _ in 0..3000 {
        let image = used_image(&mut generator);
        let page = generator.below(64) as u8;
        let new: [u8; 32] = generator.bytes();
        let quick = update(&image, &new, page, Quick, None);
        match update(&image, &new, page, Ordinary, None) {
            Ok(run) => {
                *outcomes.entry(0).or_insert(0) += 1;
                let quick = quick.unwrap();
                assert_eq!(quick.events, all_events(Quick));
                assert_eq!((&quick.image, quick.outcome), (&run.image, run.outcome));
                let Outcome::Published(pages) = run.outcome else {
                    panic!("{:?}", run.outcome);
                };
                assert_eq!(run.events, all_events(Ordinary));
                let after = readings_after(&all_readings(&image), pages, &new);
                assert_eq!(all_readings(&run.image), after);
            }
            Err(refusal) => {
                *outcomes.entry(refusal.number()).or_insert(0) += 1;
                assert_eq!(quick.unwrap_err(), refusal);
            }
        }
    }
    let kinds: Vec<u8> = outcomes.keys().copied().collect();
    assert_eq!(kinds, [0, 4, 5, 8, 9, 20], "{outcomes:?}");
    assert!(outcomes.values().all(|&count| count > 40), "{outcomes:?}");
}
