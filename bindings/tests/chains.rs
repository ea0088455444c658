//! Every chain of pages, from no redirection byte to 64, with each end that it
//! can have: walk, reader, publisher's start and lookup of pages, against the
//! second model and against what the chain was made to be.

mod common;

use common::{reached, refusal, start_model, status, verdict, MODES};
use ds2505_model as model;
use ds2505_model::chip::Chip as ModelChip;
use ds2505_model::random::{chain_image, Generator};
use plug::{free_page, page_run, walk, Answer, Chip, Final, PageRead, Publisher, Refusal, Verdict};

/// All pages, 0 first, since no byte names it: rising, falling, or drawn.
fn orders(g: &mut Generator) -> Vec<Vec<u8>> {
    let rising: Vec<u8> = (1..64).collect();
    let falling: Vec<u8> = (1..64).rev().collect();
    let mut drawn = rising.clone();
    for place in (1..drawn.len()).rev() {
        drawn.swap(place, g.below(place as u64 + 1) as usize);
    }
    [rising, falling, drawn]
        .into_iter()
        .map(|rest| [vec![0], rest].concat())
        .collect()
}

/// What a walk that ends so is to a reader or a publisher.
fn end_of(verdict: Verdict) -> Result<Final, Refusal> {
    match verdict {
        Verdict::Final(end) => Ok(end),
        Verdict::Loop => Err(Refusal {
            number: 4,
            value: None,
        }),
        Verdict::Outside(number) => Err(Refusal {
            number: 5,
            value: Some(number),
        }),
    }
}

/// The walk from every page of the chain, page k of them ending so.
fn assert_walks(image: &[u8], pages: &[u8], end: impl Fn(usize) -> Verdict) {
    for (k, &number) in pages.iter().enumerate() {
        let walked = walk(image, number);
        assert_eq!(walked, Ok(end(k)), "page {number} of {pages:?}");
        let expected = model::walk::walk(image, number).map(verdict);
        assert_eq!(walked, expected.map_err(refusal));
    }
}

/// The read of the first page by a master on a chip, both through the
/// interface, and as a run; and what the publisher and the free page say.
fn assert_reads(g: &mut Generator, image: &mut [u8], first: u8, verdict: Verdict) -> usize {
    let data: [u8; 32] = g.bytes();
    if let Verdict::Final(end) = verdict {
        let place = 32 * usize::from(end.page);
        image[place..place + 32].copy_from_slice(&data);
    }
    let mut chip = Chip::power_up(&[0; 8]);
    let mut left = image.to_vec();
    let mut master = PageRead::start(first).unwrap();
    let mut buffer = [0xA5; 32];
    let mut replies = vec![g.bit()];
    let mut events = 0;
    let end = loop {
        match master.call(*replies.last().unwrap(), &mut buffer) {
            Ok(Answer::Event(event)) => {
                replies.push(chip.event(event, &mut left).unwrap());
                events += 1;
            }
            Ok(Answer::End(end)) => break Ok(end),
            Err(refusal) => break Err(refusal),
        }
    };
    assert_eq!(end, end_of(verdict));
    assert_eq!(buffer, if end.is_ok() { data } else { [0xA5; 32] });
    assert!(events <= 3921 && left == image);

    let mut other = ModelChip::power_up([0; 8], image.to_vec()).unwrap();
    let reading = model::page_read::read_page(&mut other, first).unwrap();
    assert_eq!(end, reading.result.map(reached).map_err(refusal));
    assert_eq!(events, reading.events);

    let mut again = [0xA5; 32];
    let run = page_run(first, &replies, &mut again).unwrap();
    assert_eq!(run.last, end.map(Answer::End));
    assert_eq!(again, buffer);

    for mode in MODES {
        let started = Publisher::start(image, &data, first, mode).map(|_| ());
        let expected = start_model(image, &data, first, mode).map(|_| ());
        assert_eq!(started, expected.map_err(refusal));
        if let Err(refusal) = end {
            assert_eq!(started, Err(refusal));
        }
    }
    let free = model::free::free_page(image, first).map_err(refusal);
    assert_eq!(free_page(image, first), free);
    events
}

#[test]
fn chains_of_every_length_with_each_end() {
    let mut g = Generator::new(820);
    // How many of each end, by walks and by reads.
    let mut walks = [0usize; 3];
    let mut reads = [0usize; 3];
    let mut events = 0;
    let mut longest = 0;
    for order in orders(&mut g) {
        for length in 0..=64usize {
            // The pages that hold the redirection bytes.
            let pages = &order[..length];
            // Final: the last byte names a further page.
            if length < 64 {
                let pages = &order[..=length];
                let last = pages[length];
                let end = |k: usize| {
                    Verdict::Final(Final {
                        page: last,
                        hops: (length - k) as u8,
                    })
                };
                let mut image = chain_image(pages);
                assert_walks(&image, pages, end);
                walks[0] += 1;
                let count = assert_reads(&mut g, &mut image, 0, end(0));
                assert_eq!(count, 57 * (length + 1) + 272 + 1);
                reads[0] += 1;
                events += count;
                longest = longest.max(count);
            }
            if length == 0 {
                continue;
            }
            let last = status(0x100 + usize::from(pages[length - 1]));
            let mut image = chain_image(pages);
            // Loop: it names each page of the chain that can be named.
            for (k, &back) in pages.iter().enumerate().skip(1) {
                image[last] = 255 - back;
                assert_walks(&image, pages, |_| Verdict::Loop);
                walks[1] += 1;
                if k == 1 || k == length - 1 {
                    let count = assert_reads(&mut g, &mut image, 0, Verdict::Loop);
                    assert_eq!(count, 57 * 64);
                    reads[1] += 1;
                    events += count;
                }
            }
            // Outside: it names each number that is no page.
            for number in 64..=255u8 {
                image[last] = 255 - number;
                assert_walks(&image, pages, |_| Verdict::Outside(number));
                walks[2] += 1;
                if number % 64 == length as u8 % 64 {
                    let count = assert_reads(&mut g, &mut image, 0, Verdict::Outside(number));
                    assert_eq!(count, 57 * length);
                    reads[2] += 1;
                    events += count;
                }
            }
        }
    }
    // 64 lengths with a final page; a byte can name 63 pages, page 0 none.
    assert_eq!(walks, [3 * 64, 3 * (63 * 64 / 2), 3 * 64 * 192]);
    assert_eq!(reads, [3 * 64, 3 * (2 * 63 - 1), 3 * 64 * 3]);
    assert_eq!(longest, 3921);
    println!("{walks:?} chains walked, {reads:?} read, {events} events");
}
