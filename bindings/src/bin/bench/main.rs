//! The proved library against the second model and against plain Rust.
//!
//! `cargo run --release --offline --bin bench`. Every figure is a ratio of two
//! times of one run: the best of many repetitions, in which all programs take
//! turns. Before anything is timed, all programs must give the same results.

mod crc;
mod plain;
mod session;
mod tray;

use std::hint::black_box;
use std::time::{Duration, Instant};

use ds2505_model::chip::Chip;
use ds2505_model::page_read::{read_page, PageReading};
use ds2505_model::publisher::{update, Outcome, Run};
use ds2505_model::random::{chain_image, used_image, Generator};
use ds2505_model::walk::Final;
use plug::{
    calls, Published, WriteMode, ANSWER_SIZE, CHIP_STATE_SIZE, NO_EVENT, PAGE_SIZE, PAGE_STATE_SIZE,
};

const NUMBER: [u8; 8] = [0x0B, 0x11, 0x22, 0x33, 0x44, 0x55, 0x66, 0x77];

/// A program that is timed.
struct Timed<'a> {
    name: &'a str,
    run: Box<dyn FnMut() + 'a>,
}

fn timed<'a>(name: &'a str, run: impl FnMut() + 'a) -> Timed<'a> {
    Timed {
        name,
        run: Box::new(run),
    }
}

/// Lets all programs take turns on the same work, so many events or bytes, and
/// prints for each its best time and speed, and for each but the first how many
/// times as fast as it the first is.
fn compare(title: &str, work: usize, unit: &str, repetitions: usize, mut programs: Vec<Timed>) {
    let mut best = vec![Duration::MAX; programs.len()];
    for _ in 0..repetitions {
        for (program, best) in programs.iter_mut().zip(&mut best) {
            let start = Instant::now();
            (program.run)();
            *best = start.elapsed().min(*best);
        }
    }
    println!();
    println!("{title}");
    println!(
        "  {:<48} {:>12} {:>17} {:>22}",
        "program",
        "best time",
        format!("million {unit}/s"),
        "the first is"
    );
    for (place, (program, time)) in programs.iter().zip(&best).enumerate() {
        let micros = time.as_secs_f64() * 1e6;
        let speed = work as f64 / micros;
        print!("  {:<48} {micros:>9.1} us {speed:>17.1}", program.name);
        if place == 0 {
            println!();
        } else {
            let ratio = time.as_secs_f64() / best[0].as_secs_f64();
            println!(" {ratio:>9.2} times as fast");
        }
    }
}

fn model_event(event: plug::Event) -> ds2505_model::chip::Event {
    use ds2505_model::chip::Event;
    match event {
        plug::Event::Slot(bit) => Event::Slot(bit),
        plug::Event::Reset => Event::Reset,
        plug::Event::Pulse => Event::Pulse,
        plug::Event::PowerLoss => Event::PowerLoss,
    }
}

/// (a) A whole session on a chip.
fn chips() {
    let mut generator = Generator::new(1);
    let image = used_image(&mut generator);
    let session = session::session();
    let bytes: Vec<u8> = session.iter().map(|event| event.code()).collect();
    let events: Vec<_> = session.iter().map(|&event| model_event(event)).collect();

    let proved = |replies: &mut [u8]| {
        let mut image = image.clone();
        assert_eq!(calls::chip_run(&NUMBER, &bytes, &mut image, replies), 0);
        image
    };
    let model = |replies: &mut [u8]| {
        let mut chip = Chip::power_up(NUMBER, image.clone()).unwrap();
        for (&event, reply) in events.iter().zip(replies) {
            *reply = u8::from(chip.event(event));
        }
        chip.image
    };
    let plain = |replies: &mut [u8]| {
        let mut image: [u8; plain::IMAGE_LENGTH] = image[..].try_into().unwrap();
        plain::run(NUMBER, &bytes, &mut image, replies);
        image.to_vec()
    };

    let mut replies = vec![0; bytes.len()];
    let left = proved(&mut replies);
    for other in [&model as &dyn Fn(&mut [u8]) -> Vec<u8>, &plain] {
        let mut other_replies = vec![0; bytes.len()];
        assert_eq!(other(&mut other_replies), left);
        assert_eq!(other_replies, replies);
    }

    let mut buffers = [replies.clone(), replies.clone(), replies];
    let [first, second, third] = &mut buffers;
    compare(
        &format!("(a) chip: one session of {} events", bytes.len()),
        bytes.len(),
        "events",
        1000,
        vec![
            timed("proved: plug_chip_run", || {
                black_box(proved(black_box(first)));
            }),
            timed("second model", || {
                black_box(model(black_box(second)));
            }),
            timed("plain register machine in Rust", || {
                black_box(plain(black_box(third)));
            }),
        ],
    );
}

/// A page read joined to a chip, both step by step through the C interface:
/// the answer, the page, and the events and the replies of all calls.
struct Joined {
    answer: [u8; ANSWER_SIZE],
    buffer: [u8; PAGE_SIZE],
    events: Vec<u8>,
    replies: Vec<u8>,
}

impl Joined {
    fn new() -> Joined {
        Joined {
            answer: [0; ANSWER_SIZE],
            buffer: [0; PAGE_SIZE],
            events: Vec::with_capacity(4096),
            replies: Vec::with_capacity(4096),
        }
    }

    /// Reads the page, event by event.
    fn read(&mut self, page: u8, image: &mut [u8]) {
        let mut chip = [0; CHIP_STATE_SIZE];
        let mut reader = [0; PAGE_STATE_SIZE];
        let mut reply = [1];
        self.events.clear();
        self.replies.clear();
        assert_eq!(calls::chip_power_up(&NUMBER, &mut chip), 0);
        assert_eq!(calls::page_start(page.into(), &mut reader), 0);
        loop {
            let code = calls::page_call(
                &mut reader,
                reply[0].into(),
                &mut self.buffer,
                &mut self.answer,
            );
            assert_eq!(code, 0);
            self.replies.push(reply[0]);
            if self.answer[0] == NO_EVENT {
                return;
            }
            let event = [self.answer[0]];
            self.events.push(event[0]);
            let code = calls::chip_events(&mut chip, &event, image, &mut reply);
            assert_eq!(code, 0);
        }
    }

    /// The second model must have read the same.
    fn check(&self, reading: &PageReading) {
        let Ok(end) = reading.result else {
            panic!("{:?}", reading.result);
        };
        assert_eq!(self.answer[..3], [NO_EVENT, end.page, end.hops]);
        assert_eq!(self.buffer, reading.buffer);
        assert_eq!(self.events.len(), reading.events);
    }

    /// The same events and replies as two runs, each given what the other told
    /// before: whether both tell it again.
    fn runs(&self, page: u8, image: &mut [u8], told: &mut Told) -> bool {
        let drawn = &mut told.replies[..self.events.len()];
        let sent = &mut told.events[..self.replies.len()];
        let chip = calls::chip_run(&NUMBER, &self.events, image, drawn);
        let master = calls::page_run(
            page.into(),
            &self.replies,
            sent,
            &mut told.buffer,
            &mut told.answer,
        );
        assert_eq!((chip, master), (0, 0));
        drawn[..] == self.replies[1..] && sent[..self.events.len()] == self.events[..]
    }
}

/// Room for what two runs tell.
struct Told {
    replies: Vec<u8>,
    events: Vec<u8>,
    buffer: [u8; PAGE_SIZE],
    answer: [u8; ANSWER_SIZE],
}

impl Told {
    fn new() -> Told {
        Told {
            replies: vec![0; 4096],
            events: vec![0; 4096],
            buffer: [0; PAGE_SIZE],
            answer: [0; ANSWER_SIZE],
        }
    }
}

/// (b) A page read over a chain of eight hops.
fn page_reads() {
    let chain = [5, 17, 3, 40, 22, 63, 8, 31, 50];
    let mut image = chain_image(&chain);
    for (place, byte) in image[32 * 50..32 * 51].iter_mut().enumerate() {
        *byte = (place as u8).wrapping_mul(37) ^ 0x5A;
    }
    let mut chip = Chip::power_up(NUMBER, image.clone()).unwrap();
    let mut joined = Joined::new();
    joined.read(5, &mut image);
    let reading = read_page(&mut chip, 5).unwrap();
    assert_eq!(reading.result, Ok(Final { page: 50, hops: 8 }));
    joined.check(&reading);

    let mut recorded = Joined::new();
    recorded.read(5, &mut image);
    let mut told = Told::new();
    let mut runs_image = image.clone();
    assert!(recorded.runs(5, &mut runs_image, &mut told));

    compare(
        &format!(
            "(b) page read over 8 hops, joined to a chip: {} events",
            reading.events
        ),
        reading.events,
        "events",
        6000,
        vec![
            timed("proved: plug_page_call, plug_chip_events", || {
                joined.read(black_box(5), &mut image);
                black_box(&joined.buffer);
            }),
            timed("second model: reader and chip", || {
                black_box(read_page(&mut chip, black_box(5)).unwrap());
            }),
            timed("proved, as runs: plug_page_run, _chip_run", || {
                black_box(recorded.runs(black_box(5), &mut runs_image, &mut told));
            }),
        ],
    );
}

/// (f) Every page of every plug of a tray.
fn trays() {
    let images = tray::images();
    let mut chips: Vec<Chip> = images
        .iter()
        .map(|image| Chip::power_up(NUMBER, image.clone()).unwrap())
        .collect();
    let mut told = Told::new();
    let mut recorded = Vec::new();
    let mut events = 0;
    for (image, chip) in images.iter().zip(&mut chips) {
        let mut image = image.clone();
        for page in 0..tray::PAGES {
            let mut joined = Joined::new();
            joined.read(page, &mut image);
            joined.check(&read_page(chip, page).unwrap());
            assert!(joined.runs(page, &mut image, &mut told));
            events += joined.events.len();
            recorded.push(joined);
        }
    }

    let mut joined = Joined::new();
    let mut joined_images = images.clone();
    let mut runs_images = images;
    compare(
        &format!(
            "(f) a tray of {} plugs, every page read: {events} events",
            tray::PLUGS
        ),
        events,
        "events",
        20,
        vec![
            timed("proved, as runs: plug_page_run, _chip_run", || {
                for (image, reads) in runs_images
                    .iter_mut()
                    .zip(recorded.chunks(tray::PAGES.into()))
                {
                    for (page, read) in (0..tray::PAGES).zip(reads) {
                        black_box(read.runs(page, image, &mut told));
                    }
                }
            }),
            timed("proved: plug_page_call, plug_chip_events", || {
                for image in &mut joined_images {
                    for page in 0..tray::PAGES {
                        joined.read(page, image);
                        black_box(&joined.buffer);
                    }
                }
            }),
            timed("second model: reader and chip", || {
                for chip in &mut chips {
                    for page in 0..tray::PAGES {
                        black_box(read_page(chip, page).unwrap());
                    }
                }
            }),
        ],
    );
}

/// A page to update: the image, and the new bytes for page 5.
struct Update {
    image: Vec<u8>,
    new: [u8; PAGE_SIZE],
}

impl Update {
    fn some() -> Update {
        Update {
            image: chain_image(&[5, 17, 3, 40]),
            new: Generator::new(2).bytes(),
        }
    }

    fn proved(&self, mode: WriteMode) -> (Vec<u8>, Published) {
        let mut image = self.image.clone();
        let page = black_box(5);
        let pages = plug::update(&mut image, &NUMBER, &self.new, page, mode, 1222).unwrap();
        (image, pages)
    }

    fn model(&self, mode: WriteMode) -> Run {
        let mode = match mode {
            WriteMode::Ordinary => ds2505_model::chip::WriteMode::Ordinary,
            WriteMode::Quick => ds2505_model::chip::WriteMode::Quick,
        };
        update(&self.image, &self.new, black_box(5), mode, None).unwrap()
    }

    /// Both must give the same: how many events there are.
    fn events(&self, mode: WriteMode) -> usize {
        let (left, pages) = self.proved(mode);
        let run = self.model(mode);
        let Outcome::Published(expected) = run.outcome else {
            panic!("{:?}", run.outcome);
        };
        assert_eq!((pages.l, pages.t), (expected.l, expected.t));
        assert_eq!(left, run.image);
        run.events
    }
}

/// (c) A whole update.
fn updates() {
    let page = Update::some();
    let events = page.events(WriteMode::Ordinary);
    compare(
        &format!("(c) whole update of a page: {events} events"),
        events,
        "events",
        6000,
        vec![
            timed("proved: plug_update", || {
                black_box(page.proved(WriteMode::Ordinary));
            }),
            timed("second model: publisher and chip", || {
                black_box(page.model(WriteMode::Ordinary));
            }),
        ],
    );
}

/// (e) A whole quick update, against an ordinary one too. The speed is that of
/// the new bytes, since the events are not as many.
fn quick_updates() {
    let page = Update::some();
    let quick = page.events(WriteMode::Quick);
    let ordinary = page.events(WriteMode::Ordinary);
    compare(
        &format!("(e) whole quick update of a page: {quick} events"),
        PAGE_SIZE,
        "bytes",
        6000,
        vec![
            timed("proved: plug_update_quick", || {
                black_box(page.proved(WriteMode::Quick));
            }),
            timed("second model: quick publisher and chip", || {
                black_box(page.model(WriteMode::Quick));
            }),
            timed(&format!("proved: plug_update, {ordinary} events"), || {
                black_box(page.proved(WriteMode::Ordinary));
            }),
        ],
    );
}

/// A program for the CRC-16: the register after some bytes.
type Crc<'a> = &'a dyn Fn(u16, &[u8]) -> u16;

/// (d) The CRC-16 of 1 MiB in buffers of 64 KiB.
fn crcs() {
    let mut generator = Generator::new(3);
    let bytes: Vec<u8> = (0..1 << 20).map(|_| generator.byte()).collect();
    let whole = |crc: Crc| {
        bytes
            .chunks(1 << 16)
            .fold(0, |register, buffer| crc(register, black_box(buffer)))
    };
    let programs: [(&str, Crc); 4] = [
        ("proved: plug_crc16", &calls::crc16),
        (
            "plain loop in Rust, which LLVM makes a table of",
            &crc::plain,
        ),
        ("bit-serial program in Rust", &crc::serial),
        (
            "plain loop in Rust, the polynomial hidden",
            &crc::plain_without_idiom,
        ),
    ];
    let expected = ds2505_model::crc::crc16(&bytes);
    for (name, crc) in programs {
        assert_eq!(whole(crc), expected, "{name}");
    }
    compare(
        "(d) CRC-16 of 1 MiB in buffers of 64 KiB",
        bytes.len(),
        "bytes",
        60,
        programs
            .iter()
            .map(|&(name, crc)| {
                timed(name, move || {
                    black_box(whole(crc));
                })
            })
            .collect(),
    );
}

fn main() {
    println!("{}, release profile", env!("PLUG_RUSTC"));
    chips();
    page_reads();
    updates();
    crcs();
    quick_updates();
    trays();
}
