//! The number read.

mod common;

use common::NUMBER;
use ds2505_model::bits::bits_of;
use ds2505_model::chip::{Chip, Event};
use ds2505_model::crc::crc8;
use ds2505_model::memory::blank_image;
use ds2505_model::number_read::{read_number, script, NumberRead};
use ds2505_model::random::Generator;
use ds2505_model::refusal::{Answer, StateBack};

fn good_number() -> [u8; 8] {
    let mut number = NUMBER;
    number[7] = crc8(&number[..7]);
    number
}

/// Calls a master with a list of replies, the first call's included, and
/// gives what the last call gave and how many events came.
fn run(replies: &[bool]) -> (Answer<[u8; 8]>, usize) {
    let mut master = NumberRead::start();
    let mut events = 0;
    let mut last = None;
    for &reply in replies {
        let answer = master.call(reply);
        if let Answer::Event(event) = answer {
            assert_eq!(event, script()[events]);
            events += 1;
        }
        last = Some(answer);
    }
    (last.unwrap(), events)
}

/// The replies of a chip with this number to the 74 events, after the reply
/// of the first call.
fn replies_for(number: [u8; 8]) -> Vec<bool> {
    let mut replies = vec![true, false];
    replies.extend(bits_of(&[0x33]));
    replies.extend(bits_of(&number));
    replies.push(false);
    replies
}

fn refused_with(answer: Answer<[u8; 8]>) -> u8 {
    match answer {
        Answer::Refused(refusal) => {
            assert_eq!(refusal.state, StateBack::Stopped);
            assert_eq!(refusal.page_given_back(), None);
            refusal.number()
        }
        other => panic!("not refused but {other:?}"),
    }
}

#[test]
fn seventy_four_events() {
    let events = script();
    assert_eq!(events.len(), 74);
    assert_eq!(events[0], Event::Reset);
    assert_eq!(events[73], Event::Reset);
    let mut chip = Chip::power_up(good_number(), blank_image()).unwrap();
    assert_eq!(read_number(&mut chip), (Ok(good_number()), 74));
    assert_eq!(chip.image, blank_image());
    assert_eq!(
        run(&replies_for(good_number())),
        (Answer::End(good_number()), 74)
    );
}

#[test]
fn eight_zero_bytes() {
    let mut chip = Chip::power_up([0; 8], blank_image()).unwrap();
    let (result, events) = read_number(&mut chip);
    assert_eq!(result.unwrap_err().number(), 15);
    // No closing reset after a failed check.
    assert_eq!(events, 73);
}

#[test]
fn crc_before_family() {
    let mut number = good_number();
    number[0] = 0x0C;
    let replies = replies_for(number);
    let (answer, events) = run(&replies[..74]);
    assert_eq!((refused_with(answer), events), (14, 73));
    number[7] = crc8(&number[..7]);
    let (answer, events) = run(&replies_for(number)[..74]);
    assert_eq!((refused_with(answer), events), (15, 73));
    // A wrong first byte is noticed only when all 64 bits are in.
    let (answer, _) = run(&replies_for(number)[..73]);
    assert_eq!(answer, Answer::Event(Event::Slot(true)));
}

#[test]
fn every_wrong_bit_of_the_number() {
    for wrong in 0..64 {
        let mut replies = replies_for(good_number());
        replies[10 + wrong] = !replies[10 + wrong];
        let (answer, events) = run(&replies);
        assert_eq!((refused_with(answer), events), (14, 73));
    }
}

#[test]
fn reset_replies() {
    let mut replies = replies_for(good_number());
    replies[1] = true;
    let (answer, events) = run(&replies[..2]);
    assert_eq!((refused_with(answer), events), (13, 1));
    let mut replies = replies_for(good_number());
    replies[74] = true;
    let (answer, events) = run(&replies);
    assert_eq!((refused_with(answer), events), (13, 74));
}

#[test]
fn replies_not_looked_at() {
    let mut generator = Generator::new(20);
    for _ in 0..100 {
        let mut replies = replies_for(good_number());
        replies[0] = generator.bit();
        for reply in &mut replies[2..10] {
            *reply = generator.bit();
        }
        assert_eq!(run(&replies), (Answer::End(good_number()), 74));
    }
}

#[test]
fn ends_are_repeated() {
    let mut generator = Generator::new(21);
    for wrong in 0..75 {
        let mut replies = replies_for(good_number());
        replies[wrong] = !replies[wrong];
        let mut master = NumberRead::start();
        let mut answer = Answer::Event(Event::Pulse);
        for &reply in &replies {
            answer = master.call(reply);
        }
        assert!(!matches!(answer, Answer::Event(_)));
        let stopped = master.clone();
        for _ in 0..20 {
            assert_eq!(master.call(generator.bit()), answer);
            assert_eq!(master, stopped);
        }
    }
}

#[test]
fn hostile_replies() {
    let mut generator = Generator::new(22);
    for _ in 0..20_000 {
        let mut master = NumberRead::start();
        let mut events = 0;
        let end = loop {
            let reply = if events == 1 {
                generator.once_in(4)
            } else {
                generator.bit()
            };
            match master.call(reply) {
                Answer::Event(_) => events += 1,
                end => break end,
            }
            assert!(events <= 74);
        };
        match end {
            Answer::End(number) => {
                assert_eq!(number[0], 0x0B);
                assert_eq!(crc8(&number), 0);
            }
            other => assert!([13, 14, 15].contains(&refused_with(other))),
        }
    }
}
