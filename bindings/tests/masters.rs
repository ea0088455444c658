//! The masters against the second model's: fed the replies of a good line, of
//! a damaged one and of none; as runs and step by step; and joined to a chip.

mod common;

use common::{
    all_events, any_event, image_to_update, mode_of_model, naming_pulse, published, reached,
    refusal, same, session, some_damage, some_image, some_number, sound_number, start_model,
    to_model, told, Damage, MODES,
};
use ds2505_model as model;
use ds2505_model::chip::Chip as ModelChip;
use ds2505_model::crc::crc16_sent;
use ds2505_model::random::Generator;
use plug::{
    number_run, page_run, publisher_run, Answer, Chip, Event, Final, NumberRead, PageRead,
    Published, Publisher, Refusal, Verdict, WriteMode,
};

/// Room for a count of each code.
const CODES: usize = 21;

/// How a call ended, in the terms that the tests count by.
fn code<T>(told: &Result<Answer<T>, Refusal>) -> u32 {
    match told {
        Ok(_) => 0,
        Err(refusal) => refusal.number,
    }
}

/// The replies that a master gets until its end and for a few calls more, and
/// what each call of the model tells. The first reply is anything.
fn replies_of<T: Copy>(
    g: &mut Generator,
    damage: &Damage,
    chip: &mut ModelChip,
    mut call: impl FnMut(bool) -> Result<Answer<T>, Refusal>,
) -> (Vec<bool>, Vec<Result<Answer<T>, Refusal>>) {
    let mut replies = vec![g.bit()];
    let mut answers = Vec::new();
    let mut more = g.below(5);
    loop {
        let answer = call(*replies.last().unwrap());
        answers.push(answer);
        let reply = match answer {
            Ok(Answer::Event(event)) => {
                let line = chip.event(to_model(event));
                damage.reply(g, replies.len() - 1, event, line)
            }
            _ if more == 0 => return (replies, answers),
            _ => {
                more -= 1;
                g.bit()
            }
        };
        replies.push(reply);
    }
}

/// The events of all calls, none where a call told none.
fn events_of<T: Copy>(answers: &[Result<Answer<T>, Refusal>]) -> Vec<Option<Event>> {
    answers
        .iter()
        .map(|answer| match *answer {
            Ok(Answer::Event(event)) => Some(event),
            _ => None,
        })
        .collect()
}

/// Some lengths of a list: all of it, none, and a few between.
fn some_lengths(g: &mut Generator, whole: usize) -> [usize; 5] {
    let mut lengths = [whole, 0, 1, 0, 0];
    for length in &mut lengths[3..] {
        *length = g.below(whole as u64 + 1) as usize;
    }
    lengths
}

/// What the last of so many calls told; with none, the reset to come.
fn last_of<T: Copy>(answers: &[Result<Answer<T>, Refusal>]) -> Result<Answer<T>, Refusal> {
    answers
        .last()
        .copied()
        .unwrap_or(Ok(Answer::Event(Event::Reset)))
}

#[test]
fn number_reads() {
    let mut g = Generator::new(300);
    let mut seen = [0usize; CODES];
    for _ in 0..6000 {
        let mut chip = ModelChip::power_up(some_number(&mut g), vec![0xFF; 2368]).unwrap();
        for event in session(&mut g, chip.number).into_iter().take(300) {
            chip.event(to_model(event));
        }
        let damage = some_damage(&mut g, 74);
        let mut master = model::number_read::NumberRead::start();
        let (replies, answers) = replies_of(&mut g, &damage, &mut chip, |reply| {
            told(master.call(reply), same)
        });
        let events = events_of(&answers);
        seen[code(answers.last().unwrap()) as usize] += 1;

        for length in some_lengths(&mut g, replies.len()) {
            let run = number_run(&replies[..length]);
            assert_eq!(run.events, events[..length]);
            assert_eq!(run.last, last_of(&answers[..length]));
        }
        let mut proved = NumberRead::start();
        for (&reply, answer) in replies.iter().zip(&answers) {
            assert_eq!(proved.call(reply), *answer);
        }
    }
    for number in [0, 13, 14, 15] {
        assert!(seen[number] > 100, "{seen:?}");
    }
}

/// Replies made so that CRCs agree, though no chip with one image gives them:
/// other redirection bytes at each visit.
fn consistent_line(g: &mut Generator, page: u8) -> Vec<bool> {
    use ds2505_model::bits::bits_of;
    let mut line = vec![g.bit()];
    let mut page = page;
    let leave = 1 + g.below(300);
    let end = 1 + g.below(300);
    loop {
        let byte = if g.once_in(end) {
            0xFF
        } else if g.once_in(leave) {
            g.below(192) as u8
        } else {
            255 - 1 - g.below(63) as u8
        };
        let address = (u16::from(page) * 32).to_le_bytes();
        let crc = crc16_sent(&[0xA5, address[0], address[1], byte]);
        line.push(false);
        line.extend((0..32).map(|_| g.bit()));
        line.extend(bits_of(&[byte, crc[0], crc[1]]));
        page = 255 - byte;
        if byte == 0xFF {
            let data: [u8; 32] = g.bytes();
            line.extend(bits_of(&data));
            line.extend(bits_of(&crc16_sent(&data)));
            line.push(g.once_in(10));
        }
        // The reader has ended by now, at the latest after 64 visits.
        if byte == 0xFF || page > 63 || line.len() > 57 * 64 {
            line.extend((0..4).map(|_| g.bit()));
            return line;
        }
    }
}

/// One page read, fed these replies, against what the model told.
fn assert_same_page_read(
    g: &mut Generator,
    page: u8,
    replies: &[bool],
    answers: &[Result<Answer<plug::Final>, Refusal>],
    buffers: &[[u8; 32]],
    before: [u8; 32],
) {
    let events = events_of(answers);
    for length in some_lengths(g, replies.len()) {
        let mut buffer = before;
        let run = page_run(page, &replies[..length], &mut buffer).unwrap();
        assert_eq!(run.events, events[..length]);
        assert_eq!(run.last, last_of(&answers[..length]));
        let expected = if length == 0 {
            before
        } else {
            buffers[length - 1]
        };
        assert_eq!(buffer, expected);
    }
    let mut proved = PageRead::start(page).unwrap();
    let mut buffer = before;
    for ((&reply, answer), after) in replies.iter().zip(answers).zip(buffers) {
        if g.once_in(50) {
            // A wrong buffer uses up nothing.
            let mut wrong = vec![0x5A; [0, 31, 33][g.below(3) as usize]];
            let state = proved;
            let refused = Refusal {
                number: 10,
                value: None,
            };
            assert_eq!(proved.call(g.bit(), &mut wrong), Err(refused));
            assert_eq!(proved, state);
            assert!(wrong.iter().all(|&byte| byte == 0x5A));
        }
        assert_eq!(proved.call(reply, &mut buffer), *answer);
        assert_eq!(buffer, *after);
    }
}

#[test]
fn page_reads() {
    let mut g = Generator::new(301);
    let mut seen = [0usize; CODES];
    for _ in 0..5000 {
        let mut chip = ModelChip::power_up(g.bytes(), some_image(&mut g)).unwrap();
        for event in session(&mut g, chip.number).into_iter().take(300) {
            chip.event(to_model(event));
        }
        let page = g.below(64) as u8;
        let damage = some_damage(&mut g, 700);
        let before: [u8; 32] = g.bytes();
        let mut buffer = before;
        let mut buffers = Vec::new();
        let mut master = model::page_read::PageRead::start(page).unwrap();
        let (replies, answers) = replies_of(&mut g, &damage, &mut chip, |reply| {
            let answer = told(master.call(reply, &mut buffer), reached);
            buffers.push(buffer);
            answer
        });
        seen[code(answers.last().unwrap()) as usize] += 1;
        assert_same_page_read(&mut g, page, &replies, &answers, &buffers, before);
    }
    for number in [0, 4, 5, 6, 13] {
        assert!(seen[number] > 30, "{seen:?}");
    }
}

#[test]
fn page_reads_on_lines_with_right_crcs() {
    let mut g = Generator::new(302);
    let mut seen = [0usize; CODES];
    let mut longest = 0;
    for _ in 0..2500 {
        let page = g.below(64) as u8;
        let replies = consistent_line(&mut g, page);
        let before: [u8; 32] = g.bytes();
        let mut buffer = before;
        let mut buffers = Vec::new();
        let mut master = model::page_read::PageRead::start(page).unwrap();
        let answers: Vec<_> = replies
            .iter()
            .map(|&reply| {
                let answer = told(master.call(reply, &mut buffer), reached);
                buffers.push(buffer);
                answer
            })
            .collect();
        seen[code(answers.last().unwrap()) as usize] += 1;
        longest = longest.max(events_of(&answers).iter().flatten().count());
        assert_same_page_read(&mut g, page, &replies, &answers, &buffers, before);
    }
    for number in [0, 4, 5, 13] {
        assert!(seen[number] > 10, "{seen:?}");
    }
    assert!((57 * 64..=3921).contains(&longest), "{longest}");
}

/// The codes that a publisher's calls tell in a mode.
fn publisher_codes(mode: WriteMode) -> &'static [usize] {
    match mode {
        WriteMode::Ordinary => &[0, 6, 7, 13],
        WriteMode::Quick => &[0, 7, 13],
    }
}

#[test]
fn publishers() {
    let mut g = Generator::new(303);
    for mode in MODES {
        let mut seen = [0usize; CODES];
        for _ in 0..3000 {
            let (image, page) = image_to_update(&mut g);
            let new: [u8; 32] = g.bytes();
            let mut chip = ModelChip::power_up(g.bytes(), image.clone()).unwrap();
            let damage = some_damage(&mut g, all_events(mode));
            let mut master = start_model(&image, &new, page, mode).unwrap();
            let (replies, answers) = replies_of(&mut g, &damage, &mut chip, |reply| {
                told(master.call(reply), published)
            });
            let events = events_of(&answers);
            seen[code(answers.last().unwrap()) as usize] += 1;

            for length in some_lengths(&mut g, replies.len()) {
                let run = publisher_run(&image, &new, page, mode, &replies[..length]).unwrap();
                assert_eq!(run.events, events[..length]);
                assert_eq!(run.last, last_of(&answers[..length]));
            }
            let mut proved = Publisher::start(&image, &new, page, mode).unwrap();
            for (&reply, answer) in replies.iter().zip(&answers) {
                assert_eq!(proved.call(reply), *answer);
            }
        }
        for (number, &count) in seen.iter().enumerate() {
            if publisher_codes(mode).contains(&number) {
                assert!(count > 15, "{mode:?}: {seen:?}");
            } else {
                assert_eq!(count, 0, "{mode:?}: {seen:?}");
            }
        }
    }
}

/// Every single wrong reply of a number read and of a page read with two hops.
#[test]
fn every_single_wrong_reply_to_a_reader() {
    let mut g = Generator::new(309);
    let mut number = sound_number(&mut g);
    number[0] = 0x0B;
    number[7] = plug::crc8(0, &number[..7]);
    let image = model::random::chain_image(&[3, 60, 17]);
    for wrong in 0..74 {
        let mut chip = ModelChip::power_up(number, image.clone()).unwrap();
        let mut master = model::number_read::NumberRead::start();
        let (replies, answers) = replies_of(&mut g, &Damage::At(wrong), &mut chip, |reply| {
            told(master.call(reply), same)
        });
        let run = number_run(&replies);
        assert_eq!(run.events, events_of(&answers));
        assert_eq!(run.last, *answers.last().unwrap());
    }
    for wrong in 0..57 * 3 + 273 {
        let mut chip = ModelChip::power_up(number, image.clone()).unwrap();
        let before: [u8; 32] = g.bytes();
        let mut buffer = before;
        let mut buffers = Vec::new();
        let mut master = model::page_read::PageRead::start(3).unwrap();
        let (replies, answers) = replies_of(&mut g, &Damage::At(wrong), &mut chip, |reply| {
            let answer = told(master.call(reply, &mut buffer), reached);
            buffers.push(buffer);
            answer
        });
        assert_same_page_read(&mut g, 3, &replies, &answers, &buffers, before);
    }
}

/// Every single wrong reply of one update in each mode.
#[test]
fn every_single_wrong_reply_to_a_publisher() {
    let mut g = Generator::new(304);
    let (image, page) = image_to_update(&mut g);
    let new: [u8; 32] = g.bytes();
    for mode in MODES {
        let mut seen = [0usize; CODES];
        for wrong in 0..all_events(mode) {
            let mut chip = ModelChip::power_up([0; 8], image.clone()).unwrap();
            let mut master = start_model(&image, &new, page, mode).unwrap();
            let (replies, answers) = replies_of(&mut g, &Damage::At(wrong), &mut chip, |reply| {
                told(master.call(reply), published)
            });
            let run = publisher_run(&image, &new, page, mode, &replies).unwrap();
            assert_eq!(run.events, events_of(&answers));
            assert_eq!(run.last, *answers.last().unwrap());
            seen[code(&run.last) as usize] += 1;
        }
        // 34 bytes are read back, with a CRC before each in the ordinary mode,
        // and there are 4 resets.
        let crc_bits = match mode {
            WriteMode::Ordinary => 34 * 16,
            WriteMode::Quick => 0,
        };
        assert_eq!([seen[6], seen[7], seen[13]], [crc_bits, 34 * 8, 4]);
        let rest = all_events(mode) - crc_bits - 34 * 8 - 4;
        assert_eq!(seen[0], rest);
    }
}

/// A byte that the bus changes on its way to the chip. The chip's CRC shows it
/// before the pulse in the ordinary mode, and the chip stays as it was. In the
/// quick mode it is written, and shows only when it is read back.
#[test]
fn a_byte_changed_on_its_way_to_the_chip() {
    let mut g = Generator::new(310);
    let image = ds2505_model::memory::blank_image();
    let new: [u8; 32] = g.bytes();
    for mode in MODES {
        // Each bit of the first byte of the second write, which takes T's first
        // byte: two writes' heads and one written byte come before it.
        let crc = common::crc_slots(mode);
        let first = 33 + 8 + crc + 1 + 8 + 33;
        for wrong in first..first + 8 {
            let mut chip = Chip::power_up(&[0; 8]);
            let mut proved_image = image.clone();
            let mut model = ModelChip::power_up([0; 8], image.clone()).unwrap();
            let mut master = Publisher::start(&image, &new, 0, mode).unwrap();
            let mut other = start_model(&image, &new, 0, mode).unwrap();
            let mut reply = true;
            let mut events = 0;
            let end = loop {
                let answer = master.call(reply);
                assert_eq!(answer, told(other.call(reply), published));
                let event = match answer {
                    Ok(Answer::Event(event)) => event,
                    Ok(Answer::End(pages)) => panic!("{pages:?}"),
                    Err(refusal) => break refusal.number,
                };
                let event = match event {
                    Event::Slot(bit) if events == wrong => Event::Slot(!bit),
                    event => event,
                };
                reply = chip.event(event, &mut proved_image).unwrap();
                assert_eq!(reply, model.event(to_model(event)));
                events += 1;
            };
            assert_eq!(proved_image, model.image);
            let byte = new[0] ^ 1 << (wrong - first);
            match mode {
                WriteMode::Ordinary => {
                    assert_eq!((end, events), (6, first + 8 + 16));
                    assert_eq!(proved_image[32], 0xFF);
                }
                WriteMode::Quick => {
                    assert_eq!((end, events), (7, first + 8 + 1 + 8));
                    assert_eq!(proved_image[32], byte);
                }
            }
        }
    }
}

/// Starts on images and pages of all kinds: the refusals.
#[test]
fn starts() {
    let mut g = Generator::new(305);
    let mut seen = [0usize; CODES];
    for _ in 0..6000 {
        let mut image = some_image(&mut g);
        if g.once_in(20) {
            image.pop();
        }
        let new = vec![0x33; if g.once_in(20) { 31 } else { 32 }];
        let page = g.below(70) as u8;
        for mode in MODES {
            let expected = start_model(&image, &new, page, mode)
                .map(|publisher| published(publisher.pages()))
                .map_err(refusal);
            seen[expected.map_or_else(|refusal| refusal.number as usize, |_| 0)] += 1;
            let started = Publisher::start(&image, &new, page, mode);
            assert_eq!(started.map(|_| ()), expected.map(|_| ()));
            let run = publisher_run(&image, &new, page, mode, &[]);
            let nothing_told = expected.map(|_| Ok(Answer::Event(Event::Reset)));
            assert_eq!(run.map(|run| run.last), nothing_told);
            // The refusals are those of a whole update too, which leaves the
            // image.
            let mut left = image.clone();
            assert_eq!(
                plug::update(&mut left, &[0; 8], &new, page, mode, 0),
                expected
            );
            assert_eq!(left, image);
        }

        assert_eq!(
            PageRead::start(page).map(|_| ()),
            model::page_read::PageRead::start(page)
                .map(|_| ())
                .map_err(refusal)
        );
        assert_eq!(
            page_run(page, &[true], &mut [0; 32]).map(|_| ()),
            PageRead::start(page).map(|_| ())
        );
    }
    for number in [0, 1, 3, 4, 5, 8, 9, 10, 20] {
        assert!(seen[number] > 60, "{seen:?}");
    }
}

/// Page 5 leads to 9, and page 1 is free. Protected data of 9 close it, in every
/// entry and either mode, and leave image and state; those of no other page do,
/// the page asked for and the free page included.
#[test]
fn a_protected_band_is_closed() {
    let new = [0x33; 32];
    let mut open = ds2505_model::random::chain_image(&[5, 9]);
    open[32 * 9..32 * 10].fill(0x11);
    for mode in MODES {
        for protected in (0..64).map(Some).chain([None]) {
            let mut image = open.clone();
            if let Some(page) = protected {
                common::clear_bit(&mut image, 0x000, page);
            }
            let expected = match protected {
                Some(9) => Err(Refusal {
                    number: 20,
                    value: Some(9),
                }),
                Some(1) => Ok(Published { l: 9, t: 2 }),
                _ => Ok(Published { l: 9, t: 1 }),
            };
            let begun = expected.map(|_| ());
            assert_eq!(Publisher::start(&image, &new, 5, mode).map(|_| ()), begun);
            let run = publisher_run(&image, &new, 5, mode, &[true; 3]);
            assert_eq!(run.map(|_| ()), begun);
            let mut left = image.clone();
            let whole = all_events(mode) as u32;
            let updated = plug::update(&mut left, &[0; 8], &new, 5, mode, whole);
            assert_eq!(updated, expected, "{mode:?}, {protected:?} protected");
            match updated {
                Ok(pages) => assert_eq!(
                    plug::walk(&left, 5),
                    Ok(Verdict::Final(Final {
                        page: pages.t,
                        hops: 2
                    }))
                ),
                Err(_) => assert_eq!(left, image),
            }
        }
    }
}

// ---- joined to a chip, both through the interface

/// A chip as the last session left it, and its image.
fn some_chip(g: &mut Generator, number: [u8; 8], image: &mut [u8]) -> Chip {
    let mut chip = Chip::power_up(&number);
    let events: Vec<Event> = (0..g.below(200)).map(|_| any_event(g)).collect();
    chip.events(&events, image).unwrap();
    chip
}

#[test]
fn joined_number_reads() {
    let mut g = Generator::new(306);
    for _ in 0..2000 {
        let mut image = some_image(&mut g);
        let number = if g.once_in(8) {
            [0; 8]
        } else {
            sound_number(&mut g)
        };
        let mut chip = some_chip(&mut g, number, &mut image);
        let mut master = NumberRead::start();
        let mut reply = g.bit();
        let mut events = 0;
        let end = loop {
            match master.call(reply) {
                Ok(Answer::Event(event)) => {
                    reply = chip.event(event, &mut image).unwrap();
                    events += 1;
                }
                Ok(Answer::End(number)) => break Ok(number),
                Err(refusal) => break Err(refusal),
            }
        };
        let mut other = ModelChip::power_up(number, image.clone()).unwrap();
        let (expected, count) = model::number_read::read_number(&mut other);
        assert_eq!(end, expected.map_err(refusal));
        assert_eq!(events, count);
        if number == [0; 8] {
            assert_eq!(end.unwrap_err().number, 15);
        }
    }
}

#[test]
fn joined_page_reads() {
    let mut g = Generator::new(307);
    for round in 0..60 {
        let mut image = some_image(&mut g);
        let number = g.bytes();
        let mut chip = some_chip(&mut g, number, &mut image);
        let mut other = ModelChip::power_up(number, image.clone()).unwrap();
        // Every page of some images, a few pages of the others.
        for page in (0..64).filter(|page| round < 12 || page % 9 == round % 9) {
            let mut master = PageRead::start(page).unwrap();
            let mut buffer = [0; 32];
            let mut reply = g.bit();
            let mut events = 0;
            let end = loop {
                match master.call(reply, &mut buffer) {
                    Ok(Answer::Event(event)) => {
                        reply = chip.event(event, &mut image).unwrap();
                        events += 1;
                    }
                    Ok(Answer::End(end)) => break Ok(end),
                    Err(refusal) => break Err(refusal),
                }
            };
            let expected = model::page_read::read_page(&mut other, page).unwrap();
            assert_eq!(end, expected.result.map(reached).map_err(refusal));
            assert_eq!(buffer, expected.buffer);
            assert_eq!(events, expected.events);
        }
        assert_eq!(image, other.image);
    }
}

#[test]
fn joined_publishers() {
    let mut g = Generator::new(308);
    for round in 0..800 {
        let mode = MODES[round % 2];
        let (mut image, page) = image_to_update(&mut g);
        let number = g.bytes();
        let mut chip = Chip::power_up(&number);
        let new: [u8; 32] = g.bytes();
        let cut = if round % 8 < 2 {
            None
        } else {
            Some(g.below(all_events(mode) as u64 + 1) as usize)
        };
        let expected =
            model::publisher::update(&image, &new, page, mode_of_model(mode), cut).unwrap();
        let mut master = Publisher::start(&image, &new, page, mode).unwrap();
        let mut reply = g.bit();
        let mut events = 0;
        let end = loop {
            if cut == Some(events) {
                chip.event(Event::PowerLoss, &mut image).unwrap();
                break None;
            }
            match master.call(reply) {
                Ok(Answer::Event(event)) => {
                    reply = chip.event(event, &mut image).unwrap();
                    events += 1;
                    if events == naming_pulse(mode) {
                        assert_eq!(event, Event::Pulse);
                    }
                }
                Ok(Answer::End(pages)) => break Some(pages),
                Err(refusal) => panic!("{refusal}"),
            }
        };
        let expected_end = match expected.outcome {
            model::publisher::Outcome::Published(pages) => Some(published(pages)),
            model::publisher::Outcome::Cut => None,
            model::publisher::Outcome::Refused(refusal) => panic!("{refusal:?}"),
        };
        assert_eq!(end, expected_end);
        assert_eq!(events, expected.events);
        assert_eq!(events, cut.unwrap_or(all_events(mode)));
        assert_eq!(image, expected.image);
    }
}
