//! The page read, alone and joined to a chip.

mod common;

use common::{chip_with, redirection};
use ds2505_model::bits::bits_of;
use ds2505_model::chip::{Chip, Event};
use ds2505_model::crc::crc16_sent;
use ds2505_model::memory::{blank_image, page_bytes, Page};
use ds2505_model::page_read::{read_page, PageRead};
use ds2505_model::random::{any_image, chain_image, used_image, Generator};
use ds2505_model::refusal::{Answer, Refusal, StateBack};
use ds2505_model::walk::{walk, Final, Verdict};

const MARK: [u8; 32] = [0xE7; 32];

fn number_of_stop(refusal: Refusal) -> u8 {
    assert_eq!(refusal.state, StateBack::Stopped);
    refusal.number()
}

#[test]
fn start_takes_pages_up_to_63() {
    assert!(PageRead::start(63).is_ok());
    for page in 64..=255 {
        let refusal = PageRead::start(page).unwrap_err();
        assert_eq!(refusal.number(), 3);
        assert_eq!(refusal.state, StateBack::None);
    }
}

#[test]
fn one_page() {
    let mut image = blank_image();
    let data: Vec<u8> = (100..132).collect();
    image[32 * 40..32 * 41].copy_from_slice(&data);
    let mut chip = chip_with(image.clone());
    let reading = read_page(&mut chip, 40).unwrap();
    assert_eq!(reading.result, Ok(Final { page: 40, hops: 0 }));
    assert_eq!(reading.buffer[..], data);
    assert_eq!(reading.events, 57 + 272 + 1);
    assert_eq!(chip.image, image);
}

#[test]
fn events_of_a_visit() {
    let mut master = PageRead::start(40).unwrap();
    let mut chip = chip_with(blank_image());
    let mut buffer = MARK;
    let mut reply = true;
    let mut events = Vec::new();
    while let Answer::Event(event) = master.call(reply, &mut buffer) {
        events.push(event);
        reply = chip.event(event);
    }
    let mut expected = vec![Event::Reset];
    expected.extend(
        bits_of(&[0xCC, 0xA5, 0x00, 0x05])
            .into_iter()
            .map(Event::Slot),
    );
    expected.extend([Event::Slot(true); 8 + 16 + 256 + 16]);
    expected.push(Event::Reset);
    assert_eq!(events, expected);
}

#[test]
fn longest_chain() {
    let pages: Vec<u8> = (0..64).collect();
    let mut image = chain_image(&pages);
    image[32 * 63..32 * 64].fill(0x77);
    let reading = read_page(&mut chip_with(image.clone()), 0).unwrap();
    assert_eq!(reading.result, Ok(Final { page: 63, hops: 63 }));
    assert_eq!(reading.buffer, [0x77; 32]);
    assert_eq!(reading.events, 3921);

    image[redirection(63)] = 255 - 1;
    let reading = read_page(&mut chip_with(image.clone()), 0).unwrap();
    assert_eq!(number_of_stop(reading.result.unwrap_err()), 4);
    assert_eq!(reading.buffer, [0; 32]);
    assert_eq!(reading.events, 64 * 57);

    // As the 64th byte, one that names a page outside still says so.
    image[redirection(63)] = 255 - 200;
    let reading = read_page(&mut chip_with(image), 0).unwrap();
    let refusal = reading.result.unwrap_err();
    assert_eq!(number_of_stop(refusal), 5);
    assert_eq!(refusal.page_given_back(), Some(200));
    assert_eq!(reading.events, 64 * 57);
}

#[test]
fn shortest_loop_and_shortest_way_outside() {
    let mut image = blank_image();
    image[redirection(1)] = 0xFE;
    image[redirection(2)] = 0xBF;
    image[redirection(3)] = 255 - 2;
    let reading = read_page(&mut chip_with(image.clone()), 1).unwrap();
    assert_eq!(number_of_stop(reading.result.unwrap_err()), 4);
    // Only the 64th byte shows that the chain never ends.
    assert_eq!(reading.events, 64 * 57);
    let reading = read_page(&mut chip_with(image.clone()), 2).unwrap();
    assert_eq!(reading.result.unwrap_err().page_given_back(), Some(64));
    assert_eq!(reading.events, 57);
    let reading = read_page(&mut chip_with(image), 3).unwrap();
    assert_eq!(reading.result.unwrap_err().page_given_back(), Some(64));
    assert_eq!(reading.events, 2 * 57);
}

#[test]
fn joined_reader_equals_walk() {
    let mut generator = Generator::new(30);
    let mut seen = [0usize; 3];
    for round in 0..120 {
        let image = if round % 6 == 0 {
            any_image(&mut generator)
        } else {
            used_image(&mut generator)
        };
        // One chip for all pages: a read leaves nothing behind that matters.
        let mut chip = Chip::power_up(generator.bytes(), image.clone()).unwrap();
        for page in 0..64 {
            let reading = read_page(&mut chip, page).unwrap();
            assert!(reading.events <= 3921);
            match walk(&image, page).unwrap() {
                Verdict::Final(reached) => {
                    seen[0] += 1;
                    assert_eq!(reading.result, Ok(reached));
                    let bytes = page_bytes(&image, Page::new(reached.page).unwrap());
                    assert_eq!(reading.buffer[..], *bytes);
                    let visits = usize::from(reached.hops) + 1;
                    assert_eq!(reading.events, 57 * visits + 273);
                }
                Verdict::Loop => {
                    seen[1] += 1;
                    assert_eq!(number_of_stop(reading.result.unwrap_err()), 4);
                    assert_eq!(reading.buffer, [0; 32]);
                    assert_eq!(reading.events, 57 * 64);
                }
                Verdict::Outside(number) => {
                    seen[2] += 1;
                    let refusal = reading.result.unwrap_err();
                    assert_eq!(number_of_stop(refusal), 5);
                    assert_eq!(refusal.page_given_back(), Some(number));
                    assert_eq!(reading.buffer, [0; 32]);
                    assert_eq!(reading.events % 57, 0);
                }
            }
        }
        assert_eq!(chip.image, image);
    }
    assert!(seen.iter().all(|&count| count > 100), "{seen:?}");
}

/// A run over a chip in which one reply is turned round. Gives the last
/// answer, the count of events and the buffer.
fn run_with_wrong_reply(
    image: &[u8],
    page: u8,
    wrong_event: usize,
) -> (Answer<Final>, usize, [u8; 32]) {
    let mut chip = chip_with(image.to_vec());
    let mut master = PageRead::start(page).unwrap();
    let mut buffer = MARK;
    let mut reply = false;
    let mut events = 0;
    loop {
        match master.call(reply, &mut buffer) {
            Answer::Event(event) => {
                events += 1;
                reply = chip.event(event) != (events == wrong_event);
            }
            end => return (end, events, buffer),
        }
    }
}

#[test]
fn every_single_wrong_reply() {
    let mut image = blank_image();
    image[redirection(5)] = 255 - 9;
    image[32 * 9..32 * 10].copy_from_slice(&std::array::from_fn::<u8, 32, _>(|i| i as u8 * 7));
    let whole = 2 * 57 + 273;
    for wrong in 1..=whole {
        let (end, events, buffer) = run_with_wrong_reply(&image, 5, wrong);
        // Where in its visit the wrong reply is, and where the visit begins.
        let (place, begin) = if wrong <= 57 {
            (wrong, 0)
        } else {
            (wrong - 57, 57)
        };
        let expected_stop = match place {
            1 => Some((13, begin + 1)),
            2..=33 => None,
            34..=57 => Some((6, begin + 57)),
            58..=329 => Some((6, begin + 329)),
            330 => Some((13, begin + 330)),
            _ => unreachable!(),
        };
        match expected_stop {
            Some((number, at)) => {
                let Answer::Refused(refusal) = end else {
                    panic!("{end:?}");
                };
                assert_eq!(number_of_stop(refusal), number);
                assert_eq!(events, at);
                assert_eq!(buffer, MARK);
            }
            None => {
                assert_eq!(end, Answer::End(Final { page: 9, hops: 1 }));
                assert_eq!(events, whole);
                assert_eq!(buffer[..], image[32 * 9..32 * 10]);
            }
        }
    }
}

/// A wrong CRC is told even when the byte would mean Loop or Outside.
#[test]
fn crc_comes_before_outside_and_loop() {
    let mut image = blank_image();
    image[redirection(1)] = 0x00;
    image[redirection(2)] = 0xFD;
    let (end, events, _) = run_with_wrong_reply(&image, 1, 50);
    assert!(matches!(end, Answer::Refused(refusal) if refusal.number() == 6));
    assert_eq!(events, 57);
    let (end, events, _) = run_with_wrong_reply(&image, 2, 64 * 57);
    assert!(matches!(end, Answer::Refused(refusal) if refusal.number() == 6));
    assert_eq!(events, 64 * 57);
}

#[test]
fn buffer_is_written_once() {
    let mut image = blank_image();
    image[32..64].fill(0x31);
    let mut chip = chip_with(image);
    let mut master = PageRead::start(1).unwrap();
    let mut reply = true;
    let mut buffer = MARK;
    let mut events = 0;
    let end = loop {
        match master.call(reply, &mut buffer) {
            Answer::Event(event) => {
                assert_eq!(buffer, MARK);
                events += 1;
                reply = chip.event(event);
            }
            end => break end,
        }
    };
    assert_eq!(events, 330);
    assert_eq!(end, Answer::End(Final { page: 1, hops: 0 }));
    assert_eq!(buffer, [0x31; 32]);
    let mut buffer = MARK;
    for reply in [false, true, true] {
        assert_eq!(master.call(reply, &mut buffer), end);
        assert_eq!(buffer, MARK);
    }
}

/// Calls with a buffer of a wrong length, put in at any place, change nothing.
#[test]
fn wrong_buffers() {
    let mut generator = Generator::new(31);
    let mut image = blank_image();
    image[redirection(5)] = 255 - 9;
    image[32 * 9..32 * 10].fill(0x5C);
    for bad_end in [false, true] {
        let mut chip = chip_with(image.clone());
        let mut master = PageRead::start(5).unwrap();
        let mut reply = true;
        let mut buffer = MARK;
        let mut ends = 0;
        while ends < 5 {
            for length in [0, 1, 31, 33, 64] {
                let before = master.clone();
                let mut wrong = vec![0xE7; length];
                let Answer::Refused(refusal) = master.call(generator.bit(), &mut wrong) else {
                    panic!("a wrong buffer was taken");
                };
                assert_eq!(refusal.number(), 10);
                assert_eq!(refusal.state, StateBack::Same);
                assert_eq!(master, before);
                assert_eq!(wrong, vec![0xE7; length]);
            }
            match master.call(reply, &mut buffer) {
                Answer::Event(event) => {
                    reply = chip.event(event);
                    if bad_end && matches!(event, Event::Reset) {
                        reply = true;
                    }
                }
                Answer::End(reached) => {
                    assert!(!bad_end);
                    assert_eq!(reached, Final { page: 9, hops: 1 });
                    assert_eq!(buffer, [0x5C; 32]);
                    ends += 1;
                }
                Answer::Refused(refusal) => {
                    assert!(bad_end);
                    assert_eq!(number_of_stop(refusal), 13);
                    ends += 1;
                }
            }
        }
    }
}

#[test]
fn random_replies() {
    let mut generator = Generator::new(32);
    for _ in 0..20_000 {
        let mut master = PageRead::start(generator.below(64) as u8).unwrap();
        let mut buffer = MARK;
        let mut events = 0;
        let mut after_reset = false;
        loop {
            let reply = if after_reset {
                generator.once_in(8)
            } else {
                generator.bit()
            };
            match master.call(reply, &mut buffer) {
                Answer::Event(event) => {
                    events += 1;
                    after_reset = event == Event::Reset;
                }
                Answer::End(_) => break,
                Answer::Refused(refusal) => {
                    assert!([4, 5, 6, 13].contains(&number_of_stop(refusal)));
                    assert_eq!(buffer, MARK);
                    break;
                }
            }
            assert!(events <= 3921);
        }
    }
}

/// A line with right CRCs on which a page's redirection byte is another one
/// each time it is read. The outcome follows from the bytes in their order.
#[test]
fn right_crcs_with_changing_bytes() {
    let mut generator = Generator::new(33);
    let mut most_events = 0;
    let mut outcomes = [0usize; 3];
    for round in 0..600 {
        let mut visited: Vec<u8> = Vec::new();
        let start = generator.below(64) as u8;
        let stay = 1 + generator.below(400);
        let leave = 1 + generator.below(400);
        let mut master = PageRead::start(start).unwrap();
        let mut buffer = MARK;
        let mut page = start;
        let mut events = 0;
        // The line's replies still to come, one for each event.
        let mut line: std::collections::VecDeque<bool> = Default::default();
        let mut final_byte = false;
        let data: [u8; 32] = generator.bytes();
        let end = loop {
            let reply = if events == 0 {
                generator.bit()
            } else {
                line.pop_front().unwrap()
            };
            match master.call(reply, &mut buffer) {
                Answer::Event(event) => {
                    events += 1;
                    if event == Event::Reset && !final_byte {
                        let byte = match round {
                            // The longest possible run, for certain.
                            0 if visited.len() == 63 => 0xFF,
                            0 => 255 - 1 - generator.below(63) as u8,
                            // One byte more, which is Loop or Outside.
                            1 => 255 - 1 - generator.below(63) as u8,
                            2 if visited.len() == 63 => generator.below(192) as u8,
                            2 => 255 - 1 - generator.below(63) as u8,
                            _ if generator.once_in(stay) => 0xFF,
                            _ if generator.once_in(leave) => generator.below(192) as u8,
                            _ => 255 - 1 - generator.below(63) as u8,
                        };
                        let address = (u16::from(page) * 32).to_le_bytes();
                        let crc = crc16_sent(&[0xA5, address[0], address[1], byte]);
                        line.push_back(false);
                        line.extend((0..32).map(|_| generator.bit()));
                        line.extend(bits_of(&[byte, crc[0], crc[1]]));
                        if byte == 0xFF {
                            line.extend(bits_of(&data));
                            line.extend(bits_of(&crc16_sent(&data)));
                            line.push_back(false);
                            final_byte = true;
                        }
                        visited.push(byte);
                        page = 255 - byte;
                    }
                }
                end => break end,
            }
        };
        assert!(events <= 3921);
        most_events = most_events.max(events);
        let hops = visited.iter().filter(|&&byte| byte != 0xFF).count();
        let last = *visited.last().unwrap();
        if last == 0xFF {
            outcomes[0] += 1;
            let reached = if hops == 0 {
                start
            } else {
                255 - visited[hops - 1]
            };
            let expected = Final {
                page: reached,
                hops: hops as u8,
            };
            assert_eq!(end, Answer::End(expected));
            assert_eq!(buffer, data);
            assert_eq!(events, 57 * (hops + 1) + 273);
        } else {
            let Answer::Refused(refusal) = end else {
                panic!("{end:?}");
            };
            assert_eq!(buffer, MARK);
            assert_eq!(events, 57 * hops);
            if 255 - last > 63 {
                outcomes[1] += 1;
                assert_eq!(number_of_stop(refusal), 5);
                assert_eq!(refusal.page_given_back(), Some(255 - last));
            } else {
                outcomes[2] += 1;
                assert_eq!(number_of_stop(refusal), 4);
                assert_eq!(hops, 64);
            }
        }
    }
    assert_eq!(most_events, 3921);
    assert!(outcomes.iter().all(|&count| count > 20), "{outcomes:?}");
}
