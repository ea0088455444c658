//! Masters on lines that no chip is on: replies that are always the same, mostly
//! the same or coin flips, with and without a presence after each reset; and
//! page reads whose buffer has the wrong length at every call. Each against the
//! second model.

mod common;

use common::{image_to_update, published, reached, same, start_model, told, MODES};
use ds2505_model as model;
use ds2505_model::random::Generator;
use plug::{
    number_run, page_run, publisher_run, Answer, Event, NumberRead, PageRead, Publisher, Refusal,
    Run,
};

/// Replies to one kind of event: always 0, always 1, or 1 once in so many times.
#[derive(Clone, Copy, Debug)]
enum Reply {
    Zero,
    One,
    OneIn(u64),
}

impl Reply {
    fn draw(self, g: &mut Generator) -> bool {
        match self {
            Reply::Zero => false,
            Reply::One => true,
            Reply::OneIn(times) => g.once_in(times),
        }
    }
}

/// What follows a reset, and what follows any other event.
const LINES: [(Reply, Reply); 9] = [
    (Reply::Zero, Reply::Zero),
    (Reply::One, Reply::One),
    (Reply::Zero, Reply::One),
    (Reply::One, Reply::Zero),
    (Reply::OneIn(2), Reply::OneIn(2)),
    (Reply::Zero, Reply::OneIn(2)),
    (Reply::Zero, Reply::OneIn(40)),
    (Reply::OneIn(40), Reply::OneIn(40)),
    (Reply::OneIn(40), Reply::One),
];

/// The replies of a line to a master until its end and for three calls more, and
/// what each call of the model told.
fn on_line<T: Copy>(
    g: &mut Generator,
    line: (Reply, Reply),
    mut call: impl FnMut(bool) -> Result<Answer<T>, Refusal>,
) -> (Vec<bool>, Vec<Result<Answer<T>, Refusal>>) {
    let mut replies = Vec::new();
    let mut answers = Vec::new();
    let mut last = Event::Slot(true);
    let mut after_end = 0;
    while after_end < 4 {
        let reply = match last {
            Event::Reset => line.0.draw(g),
            _ => line.1.draw(g),
        };
        let answer = call(reply);
        replies.push(reply);
        answers.push(answer);
        match answer {
            Ok(Answer::Event(event)) => last = event,
            _ => after_end += 1,
        }
    }
    (replies, answers)
}

/// A run tells what the calls told.
fn assert_run<T: Copy + PartialEq + std::fmt::Debug>(
    run: Run<T>,
    answers: &[Result<Answer<T>, Refusal>],
) {
    let events: Vec<_> = answers
        .iter()
        .map(|answer| match *answer {
            Ok(Answer::Event(event)) => Some(event),
            _ => None,
        })
        .collect();
    assert_eq!(run.events, events);
    assert_eq!(run.last, *answers.last().unwrap());
}

#[test]
fn number_reads() {
    let mut g = Generator::new(830);
    let mut reads = 0;
    for line in LINES {
        for _ in 0..200 {
            let mut other = model::number_read::NumberRead::start();
            let (replies, answers) = on_line(&mut g, line, |reply| told(other.call(reply), same));
            let mut master = NumberRead::start();
            for (&reply, answer) in replies.iter().zip(&answers) {
                assert_eq!(master.call(reply), *answer, "{line:?}");
            }
            assert_run(number_run(&replies), &answers);
            reads += 1;
        }
    }
    assert_eq!(reads, 1800);
}

#[test]
fn page_reads() {
    let mut g = Generator::new(831);
    let mut reads = 0;
    for line in LINES {
        for round in 0..200 {
            let page = g.below(64) as u8;
            let mut other = model::page_read::PageRead::start(page).unwrap();
            let mut expected = [0xA5; 32];
            let (replies, answers) = on_line(&mut g, line, |reply| {
                told(other.call(reply, &mut expected), reached)
            });
            let mut master = PageRead::start(page).unwrap();
            let mut buffer = [0xA5; 32];
            for (&reply, answer) in replies.iter().zip(&answers) {
                // Every length but 32 is refused and uses nothing up.
                let mut wrong = vec![0x5A; (round + 33) % 65];
                if wrong.len() != 32 {
                    let before = master;
                    let refused = master.call(reply, &mut wrong);
                    assert_eq!(refused.unwrap_err().number, 10);
                    assert!(master == before && wrong.iter().all(|&byte| byte == 0x5A));
                }
                assert_eq!(master.call(reply, &mut buffer), *answer, "{line:?}");
            }
            assert_eq!(buffer, expected);
            let mut again = [0xA5; 32];
            assert_run(page_run(page, &replies, &mut again).unwrap(), &answers);
            assert_eq!(again, expected);
            reads += 1;
        }
    }
    assert_eq!(reads, 1800);
}

#[test]
fn updates() {
    let mut g = Generator::new(832);
    let mut updates = 0;
    for line in LINES {
        for round in 0..200 {
            let mode = MODES[round % 2];
            let (image, page) = image_to_update(&mut g);
            let new: [u8; 32] = g.bytes();
            let mut other = start_model(&image, &new, page, mode).unwrap();
            let (replies, answers) =
                on_line(&mut g, line, |reply| told(other.call(reply), published));
            let mut master = Publisher::start(&image, &new, page, mode).unwrap();
            for (&reply, answer) in replies.iter().zip(&answers) {
                assert_eq!(master.call(reply), *answer, "{line:?}");
            }
            let run = publisher_run(&image, &new, page, mode, &replies).unwrap();
            assert_run(run, &answers);
            updates += 1;
        }
    }
    assert_eq!(updates, 1800);
}
