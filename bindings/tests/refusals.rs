//! What each function refuses, in which order, and that a refusal changes no
//! buffer but the answer's value.
//!
//! A function is tried as a call on a list of buffers. Its faults are listed in
//! the order in which the header has them judged; each is a way to spoil the
//! call. Whatever faults a call has, the code must be that of the first.

mod common;

use std::cmp::Ordering;

use common::{clear_bit, header_of, lead, plug, put_page, status, value_on};
use ds2505_model::chip::Chip as ModelChip;
use ds2505_model::memory::blank_image;
use ds2505_model::random::Generator;
use plug::{calls, Event};

/// A call: its buffers in the order of the header, and what else it is given.
#[derive(Clone, Debug, PartialEq, Eq)]
struct Call {
    buffers: Vec<Vec<u8>>,
    /// A page or a reply, of which every number is judged.
    small: u32,
    /// A latitude, or the old value of a change.
    tenths: i32,
    column: u32,
    new_value: i32,
}

impl Call {
    fn new(buffers: Vec<Vec<u8>>, small: u32) -> Call {
        Call {
            buffers,
            small,
            tenths: 0,
            column: 0,
            new_value: 0,
        }
    }
}

type Spoil = fn(&mut Call);

struct Fault {
    code: u32,
    /// The value put into the answer, and which buffer that is.
    value: Option<(usize, u8)>,
    spoil: Spoil,
    /// Faults with the same group number, which stand together, exclude each
    /// other; 0 is no group.
    group: u32,
}

fn fault(code: u32, spoil: Spoil) -> Fault {
    Fault {
        code,
        value: None,
        spoil,
        group: 0,
    }
}

/// The place of a code in the order that all functions share: 1, 2, 10, and
/// then the others.
fn rank(code: u32) -> u32 {
    match code {
        1 => 0,
        2 => 1,
        10 => 2,
        _ => 3,
    }
}

/// Numbers that no byte holds. Cut down to a byte they would be right: a page
/// of the chip, the page of the call, a reply; or the last page number of all.
const PAST_A_BYTE: [u32; 7] = [
    256,
    257,
    256 + PAGE as u32,
    0x1_0000,
    0x1_0001,
    0x8000_0000 + PAGE as u32,
    u32::MAX,
];

/// Every set of faults, each by the first of them. Where a page or a reply is
/// one of the faults, it is tried with the numbers past a byte too.
fn assert_order(name: &str, function: impl Fn(&mut Call) -> u32, good: &Call, faults: &[Fault]) {
    let ranks: Vec<u32> = faults.iter().map(|fault| rank(fault.code)).collect();
    assert!(ranks.is_sorted(), "{name}: another order than 1, 2, 10");
    assert_eq!(function(&mut good.clone()), 0, "{name}: a good call");
    for set in 1u32..1 << faults.len() {
        let chosen: Vec<&Fault> = faults
            .iter()
            .enumerate()
            .filter(|&(place, _)| set >> place & 1 == 1)
            .map(|(_, fault)| fault)
            .collect();
        let mut groups: Vec<u32> = chosen.iter().map(|fault| fault.group).collect();
        groups.retain(|&group| group != 0);
        let grouped = groups.len();
        groups.dedup();
        if groups.len() < grouped {
            continue;
        }
        let mut call = good.clone();
        for fault in &chosen {
            (fault.spoil)(&mut call);
        }
        let mut numbers = vec![call.small];
        if call.small != good.small {
            numbers.extend(PAST_A_BYTE);
        }
        for small in numbers {
            let mut call = Call {
                small,
                ..call.clone()
            };
            let mut expected = call.clone();
            if let Some((buffer, value)) = chosen[0].value {
                expected.buffers[buffer][..2].copy_from_slice(&[0xFF, value]);
            }
            let code = function(&mut call);
            assert_eq!(code, chosen[0].code, "{name}, faults {set:b}, {small}");
            assert!(
                call == expected,
                "{name}, faults {set:b}, {small}: a buffer changed"
            );
        }
    }
}

/// One buffer with every length from 0 to some past the right one; the
/// contents of the right length are kept as far as they go.
fn assert_lengths(
    name: &str,
    function: impl Fn(&mut Call) -> u32,
    good: &Call,
    buffer: usize,
    code: impl Fn(usize, usize) -> u32,
) {
    let right = good.buffers[buffer].len();
    for length in 0..=right + 70 {
        let expected = code(length, right);
        let mut call = good.clone();
        call.buffers[buffer].resize(length, 0xFF);
        let before = call.clone();
        assert_eq!(
            function(&mut call),
            expected,
            "{name}, buffer {buffer} of length {length}"
        );
        if expected != 0 {
            assert!(call == before, "{name}, buffer {buffer} of length {length}");
        }
    }
}

/// Any length but the right one draws this code.
fn other_lengths(code: u32) -> impl Fn(usize, usize) -> u32 {
    move |length, right| if length == right { 0 } else { code }
}

/// Events or replies of another length than the buffer beside them: longer
/// ones are padded with FFh, which is no event and no reply.
fn other_counts(length: usize, right: usize) -> u32 {
    match length.cmp(&right) {
        Ordering::Less => 10,
        Ordering::Equal => 0,
        Ordering::Greater => 2,
    }
}

fn shorten(call: &mut Call, buffer: usize) {
    call.buffers[buffer].pop();
}

fn lengthen(call: &mut Call, buffer: usize) {
    call.buffers[buffer].push(0xFF);
}

// ---- good calls

const NUMBER: [u8; 8] = [0x0B, 1, 2, 3, 4, 5, 6, 0];
const PAGE: usize = 5;

fn image() -> Vec<u8> {
    let mut g = Generator::new(500);
    let mut image = blank_image();
    image[..32].copy_from_slice(&g.bytes::<32>());
    image[status(0x100 + PAGE)] = 255 - 9;
    image
}

/// Bytes that no function would write there.
fn mark(length: usize) -> Vec<u8> {
    (0..length).map(|place| 0xA0 | (place as u8 % 16)).collect()
}

fn events() -> Vec<u8> {
    let mut events = vec![Event::Reset; 1];
    events.extend([0, 0, 1, 1, 0, 0, 1, 1].map(|bit| Event::Slot(bit == 1)));
    events.extend([Event::Pulse, Event::PowerLoss]);
    events.iter().map(|event| event.code()).collect()
}

fn chip_state() -> Vec<u8> {
    let mut state = vec![0; 24];
    assert_eq!(calls::chip_power_up(&NUMBER, &mut state), 0);
    let mut replies = [0; 5];
    let code = calls::chip_events(&mut state, &events()[..5], &mut image(), &mut replies);
    assert_eq!(code, 0);
    state
}

fn number_state(calls: &[u8]) -> Vec<u8> {
    let mut state = vec![0; 24];
    assert_eq!(calls::number_start(&mut state), 0);
    for &reply in calls {
        assert_eq!(
            calls::number_call(&mut state, reply.into(), &mut [0; 16]),
            0
        );
    }
    state
}

fn page_state(calls: &[u8]) -> Vec<u8> {
    let mut state = vec![0; 48];
    assert_eq!(calls::page_start(PAGE as u32, &mut state), 0);
    for &reply in calls {
        let code = calls::page_call(&mut state, reply.into(), &mut [0; 32], &mut [0; 16]);
        assert_eq!(code, 0);
    }
    state
}

fn publisher_state(start: PublisherStart, calls: &[u8]) -> Vec<u8> {
    let mut state = vec![0; 48];
    let code = start(&image(), &[0x3C; 32], PAGE as u32, &mut state, &mut [0; 16]);
    assert_eq!(code, 0);
    for &reply in calls {
        assert_eq!(
            calls::publisher_call(&mut state, reply.into(), &mut [0; 16]),
            0
        );
    }
    state
}

/// A plug whose header is on page 30 and whose row for -5.0 degrees is on page
/// 20, both behind one redirection byte.
fn plug_with_rows() -> Vec<u8> {
    let header = header_of(4, -100, 50, &[9, 8, 7]).bytes();
    let mut image = plug(&[0; 32]);
    put_page(&mut image, 30, &header);
    lead(&mut image, &[1, 30]);
    lead(&mut image, &[8, 20]);
    image
}

/// The call for the last column of that row.
fn variation_call(buffer: Vec<u8>) -> Call {
    Call {
        tenths: -50,
        column: 3,
        ..Call::new(vec![buffer, mark(16)], 0)
    }
}

/// The replies of a chip to a whole page read.
fn page_replies() -> Vec<u8> {
    let mut chip = ModelChip::power_up(NUMBER, image()).unwrap();
    let mut master = ds2505_model::page_read::PageRead::start(PAGE as u8).unwrap();
    let mut replies = vec![1];
    while let ds2505_model::refusal::Answer::Event(event) =
        master.call(*replies.last().unwrap() == 1, &mut [0; 32])
    {
        replies.push(u8::from(chip.event(event)));
    }
    replies
}

// ---- the functions of which there is one for each mode

type Update = fn(&mut [u8], &[u8], &[u8], u32, u32, &mut [u8]) -> u32;
type PublisherRun = fn(&[u8], &[u8], u32, &[u8], &mut [u8], &mut [u8]) -> u32;
type PublisherStart = fn(&[u8], &[u8], u32, &mut [u8], &mut [u8]) -> u32;

const UPDATES: [(&str, Update); 2] = [
    ("update", calls::update),
    ("update_quick", calls::update_quick),
];

const PUBLISHER_RUNS: [(&str, PublisherRun); 2] = [
    ("publisher_run", calls::publisher_run),
    ("publisher_run_quick", calls::publisher_run_quick),
];

const PUBLISHER_STARTS: [(&str, PublisherStart); 2] = [
    ("publisher_start", calls::publisher_start),
    ("publisher_start_quick", calls::publisher_start_quick),
];

// ---- the functions, on the buffers of a call

/// The buffers of a call, which has as many as are asked for.
fn many<const MANY: usize>(buffers: &mut [Vec<u8>]) -> &mut [Vec<u8>; MANY] {
    buffers.try_into().expect("so many buffers")
}

fn chip_run(call: &mut Call) -> u32 {
    let [number, events, image, replies] = many(&mut call.buffers);
    calls::chip_run(number, events, image, replies)
}

fn chip_power_up(call: &mut Call) -> u32 {
    let [number, state] = many(&mut call.buffers);
    calls::chip_power_up(number, state)
}

fn chip_events(call: &mut Call) -> u32 {
    let [state, events, image, replies] = many(&mut call.buffers);
    calls::chip_events(state, events, image, replies)
}

fn walk(call: &mut Call) -> u32 {
    let [image, answer] = many(&mut call.buffers);
    calls::walk(image, call.small, answer)
}

fn page(call: &mut Call) -> u32 {
    let [image, buffer] = many(&mut call.buffers);
    calls::page(image, call.small, buffer)
}

fn free_page(call: &mut Call) -> u32 {
    let [image, answer] = many(&mut call.buffers);
    calls::free_page(image, call.small, answer)
}

fn update(function: Update) -> impl Fn(&mut Call) -> u32 {
    move |call| {
        let [image, number, new, answer] = many(&mut call.buffers);
        function(image, number, new, call.small, 1300, answer)
    }
}

fn number_run(call: &mut Call) -> u32 {
    let [replies, events, answer] = many(&mut call.buffers);
    calls::number_run(replies, events, answer)
}

fn number_start(call: &mut Call) -> u32 {
    calls::number_start(&mut call.buffers[0])
}

fn number_call(call: &mut Call) -> u32 {
    let [state, answer] = many(&mut call.buffers);
    calls::number_call(state, call.small, answer)
}

fn page_run(call: &mut Call) -> u32 {
    let [replies, events, buffer, answer] = many(&mut call.buffers);
    calls::page_run(call.small, replies, events, buffer, answer)
}

fn page_start(call: &mut Call) -> u32 {
    calls::page_start(call.small, &mut call.buffers[0])
}

fn page_call(call: &mut Call) -> u32 {
    let [state, buffer, answer] = many(&mut call.buffers);
    calls::page_call(state, call.small, buffer, answer)
}

fn publisher_run(function: PublisherRun) -> impl Fn(&mut Call) -> u32 {
    move |call| {
        let [image, new, replies, events, answer] = many(&mut call.buffers);
        function(image, new, call.small, replies, events, answer)
    }
}

fn publisher_start(function: PublisherStart) -> impl Fn(&mut Call) -> u32 {
    move |call| {
        let [image, new, state, answer] = many(&mut call.buffers);
        function(image, new, call.small, state, answer)
    }
}

fn publisher_call(call: &mut Call) -> u32 {
    let [state, answer] = many(&mut call.buffers);
    calls::publisher_call(state, call.small, answer)
}

fn sheet_write(call: &mut Call) -> u32 {
    let [number, image, sheet] = many(&mut call.buffers);
    calls::sheet_write(number, image, sheet)
}

fn sheet_read(call: &mut Call) -> u32 {
    let [sheet, number, image] = many(&mut call.buffers);
    calls::sheet_read(sheet, number, image)
}

fn list(call: &mut Call) -> u32 {
    let [sheet, text, answer] = many(&mut call.buffers);
    calls::list(sheet, text, answer)
}

fn variation(call: &mut Call) -> u32 {
    let [image, answer] = many(&mut call.buffers);
    calls::variation(image, call.tenths, call.column, answer)
}

fn sheet_variation(call: &mut Call) -> u32 {
    let [sheet, answer] = many(&mut call.buffers);
    calls::sheet_variation(sheet, call.tenths, call.column, answer)
}

fn change(call: &mut Call) -> u32 {
    calls::change(call.tenths, call.new_value, &mut call.buffers[0])
}

// ---- faults that several functions have

/// The image's redirection bytes make the page's chain a loop.
fn make_loop(call: &mut Call, image: usize) {
    call.buffers[image][status(0x100 + 9)] = 255 - PAGE as u8;
}

fn make_outside(call: &mut Call, image: usize) {
    call.buffers[image][status(0x100 + 9)] = 255 - 200;
}

fn protect_data(call: &mut Call, image: usize) {
    clear_bit(&mut call.buffers[image], 0x000, 9);
}

fn protect_redirection(call: &mut Call, image: usize) {
    clear_bit(&mut call.buffers[image], 0x020, 9);
}

fn use_all(call: &mut Call, image: usize) {
    for page in 0..64 {
        clear_bit(&mut call.buffers[image], 0x040, page);
    }
}

/// 3, 4, 5, 20, 9 and 8 of a call whose first buffer is the image.
fn update_faults(answer: usize) -> [Fault; 6] {
    [
        fault(3, |call| call.small = 64),
        Fault {
            group: 1,
            ..fault(4, |call| make_loop(call, 0))
        },
        Fault {
            group: 1,
            value: Some((answer, 200)),
            ..fault(5, |call| make_outside(call, 0))
        },
        Fault {
            value: Some((answer, 9)),
            ..fault(20, |call| protect_data(call, 0))
        },
        Fault {
            value: Some((answer, 9)),
            ..fault(9, |call| protect_redirection(call, 0))
        },
        fault(8, |call| use_all(call, 0)),
    ]
}

/// 4 and 5 of page 1, 16, 17, 18, 4 and 5 of the row's page, and 19 of a call
/// for the variation, with the image from this place on in its first buffer.
fn variation_faults<const FROM: usize>() -> [Fault; 8] {
    [
        Fault {
            group: 1,
            ..fault(4, |call| lead(&mut call.buffers[0][FROM..], &[30, 1]))
        },
        Fault {
            group: 1,
            value: Some((1, 200)),
            ..fault(5, |call| lead(&mut call.buffers[0][FROM..], &[30, 200]))
        },
        fault(16, |call| call.buffers[0][FROM + 32 * 30 + 9] = 1),
        fault(17, |call| call.tenths = 50),
        fault(18, |call| call.column = 4),
        Fault {
            group: 2,
            ..fault(4, |call| lead(&mut call.buffers[0][FROM..], &[20, 8]))
        },
        Fault {
            group: 2,
            value: Some((1, 100)),
            ..fault(5, |call| lead(&mut call.buffers[0][FROM..], &[20, 100]))
        },
        fault(19, |call| {
            let place = FROM + 32 * 20 + 2 * 3;
            call.buffers[0][place..place + 2].copy_from_slice(&[0xFF, 0x7F]);
        }),
    ]
}

fn with(mut faults: Vec<Fault>, more: impl IntoIterator<Item = Fault>) -> Vec<Fault> {
    faults.extend(more);
    faults
}

#[test]
fn the_chip() {
    let events = events();
    let replies = mark(events.len());
    let good = Call::new(
        vec![NUMBER.to_vec(), events.clone(), image(), replies.clone()],
        0,
    );
    let faults = [
        fault(1, |call| lengthen(call, 2)),
        fault(2, |call| call.buffers[1][7] = 5),
        fault(10, |call| shorten(call, 0)),
        fault(10, |call| shorten(call, 3)),
    ];
    assert_order("chip_run", chip_run, &good, &faults);
    assert_lengths("chip_run", chip_run, &good, 0, other_lengths(10));
    assert_lengths("chip_run", chip_run, &good, 2, other_lengths(1));
    assert_lengths("chip_run", chip_run, &good, 3, other_lengths(10));
    assert_lengths("chip_run", chip_run, &good, 1, other_counts);

    let good = Call::new(vec![chip_state(), events, image(), replies], 0);
    let faults = [
        fault(1, |call| shorten(call, 2)),
        fault(2, |call| call.buffers[0][13] = 1),
        fault(2, |call| call.buffers[1][7] = 255),
        fault(10, |call| lengthen(call, 3)),
    ];
    assert_order("chip_events", chip_events, &good, &faults);
    assert_lengths("chip_events", chip_events, &good, 0, other_lengths(2));
    assert_lengths("chip_events", chip_events, &good, 1, other_counts);
    assert_lengths("chip_events", chip_events, &good, 2, other_lengths(1));
    assert_lengths("chip_events", chip_events, &good, 3, other_lengths(10));

    let good = Call::new(vec![NUMBER.to_vec(), mark(24)], 0);
    let faults = [
        fault(10, |call| shorten(call, 0)),
        fault(10, |call| lengthen(call, 1)),
    ];
    assert_order("chip_power_up", chip_power_up, &good, &faults);
    for buffer in 0..2 {
        assert_lengths(
            "chip_power_up",
            chip_power_up,
            &good,
            buffer,
            other_lengths(10),
        );
    }
}

#[test]
fn the_image() {
    let good = Call::new(vec![image(), mark(16)], PAGE as u32);
    let faults = [
        fault(1, |call| shorten(call, 0)),
        fault(10, |call| lengthen(call, 1)),
        fault(3, |call| call.small = 64),
        Fault {
            group: 1,
            ..fault(4, |call| make_loop(call, 0))
        },
        Fault {
            group: 1,
            value: Some((1, 200)),
            ..fault(5, |call| make_outside(call, 0))
        },
    ];
    assert_order("walk", walk, &good, &faults);
    assert_lengths("walk", walk, &good, 0, other_lengths(1));
    assert_lengths("walk", walk, &good, 1, other_lengths(10));

    let faults = [
        fault(1, |call| lengthen(call, 0)),
        fault(10, |call| shorten(call, 1)),
        fault(3, |call| call.small = 255),
        fault(8, |call| use_all(call, 0)),
    ];
    assert_order("free_page", free_page, &good, &faults);
    assert_lengths("free_page", free_page, &good, 0, other_lengths(1));
    assert_lengths("free_page", free_page, &good, 1, other_lengths(10));

    let good = Call::new(vec![image(), mark(32)], PAGE as u32);
    let faults = [
        fault(1, |call| shorten(call, 0)),
        fault(10, |call| lengthen(call, 1)),
        fault(3, |call| call.small = 64),
    ];
    assert_order("page", page, &good, &faults);
    assert_lengths("page", page, &good, 0, other_lengths(1));
    assert_lengths("page", page, &good, 1, other_lengths(10));

    let new = mark(32);
    let good = Call::new(vec![image(), NUMBER.to_vec(), new, mark(16)], PAGE as u32);
    let faults = with(
        vec![
            fault(1, |call| lengthen(call, 0)),
            fault(10, |call| shorten(call, 3)),
            fault(10, |call| lengthen(call, 1)),
            fault(10, |call| shorten(call, 2)),
        ],
        update_faults(3),
    );
    for (name, function) in UPDATES {
        assert_order(name, update(function), &good, &faults);
        assert_lengths(name, update(function), &good, 0, other_lengths(1));
        for buffer in 1..4 {
            assert_lengths(name, update(function), &good, buffer, other_lengths(10));
        }
    }
}

#[test]
fn the_number_read() {
    let replies = vec![1, 0, 0, 1, 1, 0, 1];
    let good = Call::new(vec![replies, mark(7), mark(16)], 0);
    let faults = [
        fault(2, |call| call.buffers[0][6] = 2),
        fault(10, |call| shorten(call, 2)),
        fault(10, |call| lengthen(call, 1)),
    ];
    assert_order("number_run", number_run, &good, &faults);
    assert_lengths("number_run", number_run, &good, 0, other_counts);
    assert_lengths("number_run", number_run, &good, 1, other_lengths(10));
    assert_lengths("number_run", number_run, &good, 2, other_lengths(10));

    let good = Call::new(vec![mark(24)], 0);
    assert_lengths("number_start", number_start, &good, 0, other_lengths(10));

    let good = Call::new(vec![number_state(&[1, 0, 1, 1]), mark(16)], 1);
    let faults = [
        fault(2, |call| call.small = 2),
        fault(2, |call| call.buffers[0][0] = 7),
        fault(10, |call| lengthen(call, 1)),
    ];
    assert_order("number_call", number_call, &good, &faults);
    assert_lengths("number_call", number_call, &good, 0, other_lengths(2));
    assert_lengths("number_call", number_call, &good, 1, other_lengths(10));
}

#[test]
fn the_page_read() {
    let replies = page_replies();
    let length = replies.len();
    let good = Call::new(vec![replies, mark(length), mark(32), mark(16)], PAGE as u32);
    let faults = [
        fault(2, |call| call.buffers[0][200] = 255),
        fault(10, |call| shorten(call, 3)),
        fault(10, |call| shorten(call, 1)),
        fault(10, |call| lengthen(call, 2)),
        fault(3, |call| call.small = 64),
    ];
    assert_order("page_run", page_run, &good, &faults);
    assert_lengths("page_run", page_run, &good, 0, other_counts);
    assert_lengths("page_run", page_run, &good, 1, other_lengths(10));
    assert_lengths("page_run", page_run, &good, 2, other_lengths(10));
    assert_lengths("page_run", page_run, &good, 3, other_lengths(10));

    let good = Call::new(vec![mark(48)], PAGE as u32);
    let faults = [
        fault(10, |call| shorten(call, 0)),
        fault(3, |call| call.small = 64),
    ];
    assert_order("page_start", page_start, &good, &faults);
    assert_lengths("page_start", page_start, &good, 0, other_lengths(10));

    let good = Call::new(vec![page_state(&[1, 0, 0, 0]), mark(32), mark(16)], 0);
    let faults = [
        fault(2, |call| call.small = 255),
        fault(2, |call| call.buffers[0][8] = 64),
        fault(10, |call| shorten(call, 2)),
        fault(10, |call| shorten(call, 1)),
    ];
    assert_order("page_call", page_call, &good, &faults);
    assert_lengths("page_call", page_call, &good, 0, other_lengths(2));
    assert_lengths("page_call", page_call, &good, 1, other_lengths(10));
    assert_lengths("page_call", page_call, &good, 2, other_lengths(10));
}

#[test]
fn the_publisher() {
    let replies = vec![1, 0, 1, 1, 0];
    let good = Call::new(
        vec![image(), mark(32), replies, mark(5), mark(16)],
        PAGE as u32,
    );
    let faults = with(
        vec![
            fault(1, |call| shorten(call, 0)),
            fault(2, |call| call.buffers[2][4] = 2),
            fault(10, |call| lengthen(call, 4)),
            fault(10, |call| shorten(call, 3)),
            fault(10, |call| lengthen(call, 1)),
        ],
        update_faults(4),
    );
    for (name, function) in PUBLISHER_RUNS {
        let run = publisher_run(function);
        assert_order(name, &run, &good, &faults);
        assert_lengths(name, &run, &good, 0, other_lengths(1));
        assert_lengths(name, &run, &good, 2, other_counts);
        for buffer in [1, 3, 4] {
            assert_lengths(name, &run, &good, buffer, other_lengths(10));
        }
    }

    let good = Call::new(vec![image(), mark(32), mark(48), mark(16)], PAGE as u32);
    let faults = with(
        vec![
            fault(1, |call| lengthen(call, 0)),
            fault(10, |call| shorten(call, 3)),
            fault(10, |call| lengthen(call, 2)),
            fault(10, |call| shorten(call, 1)),
        ],
        update_faults(3),
    );
    for (name, function) in PUBLISHER_STARTS {
        let start = publisher_start(function);
        assert_order(name, &start, &good, &faults);
        assert_lengths(name, &start, &good, 0, other_lengths(1));
        for buffer in 1..4 {
            assert_lengths(name, &start, &good, buffer, other_lengths(10));
        }
    }

    for (name, function) in PUBLISHER_STARTS {
        let name = format!("publisher_call after {name}");
        let good = Call::new(vec![publisher_state(function, &[1, 0]), mark(16)], 0);
        let faults = [
            fault(2, |call| call.small = 2),
            fault(2, |call| call.buffers[0][9] = 64),
            fault(2, |call| call.buffers[0][11] = 2),
            fault(10, |call| lengthen(call, 1)),
        ];
        assert_order(&name, publisher_call, &good, &faults);
        assert_lengths(&name, publisher_call, &good, 0, other_lengths(2));
        assert_lengths(&name, publisher_call, &good, 1, other_lengths(10));
    }
}

/// Every page number above 63, through all functions that update.
#[test]
fn pages_above_63() {
    for page in 64..=255 {
        let image_and_new = || vec![image(), mark(32)];
        let refused = |function: &dyn Fn(&mut Call) -> u32, buffers: Vec<Vec<u8>>| {
            let mut call = Call::new(buffers, page);
            let before = call.clone();
            assert_eq!(function(&mut call), 3);
            assert!(call == before);
        };
        for (_, function) in UPDATES {
            let buffers = vec![image(), NUMBER.to_vec(), mark(32), mark(16)];
            refused(&update(function), buffers);
        }
        for (_, function) in PUBLISHER_RUNS {
            let more = [vec![1, 0, 1], mark(3), mark(16)];
            let buffers = [image_and_new(), more.to_vec()].concat();
            refused(&publisher_run(function), buffers);
        }
        for (_, function) in PUBLISHER_STARTS {
            let buffers = [image_and_new(), vec![mark(48), mark(16)]].concat();
            refused(&publisher_start(function), buffers);
        }
    }
}

#[test]
fn the_sheet() {
    let good = Call::new(vec![NUMBER.to_vec(), image(), mark(2392)], 0);
    let faults = [
        fault(1, |call| shorten(call, 1)),
        fault(10, |call| lengthen(call, 0)),
        fault(10, |call| lengthen(call, 2)),
        fault(12, |call| call.buffers[1][status(0x050)] = 0xFE),
    ];
    assert_order("sheet_write", sheet_write, &good, &faults);
    assert_lengths("sheet_write", sheet_write, &good, 0, other_lengths(10));
    assert_lengths("sheet_write", sheet_write, &good, 1, other_lengths(1));
    assert_lengths("sheet_write", sheet_write, &good, 2, other_lengths(10));

    let mut sheet = vec![0; 2392];
    assert_eq!(calls::sheet_write(&NUMBER, &image(), &mut sheet), 0);
    let good = Call::new(vec![sheet.clone(), mark(8), mark(2368)], 0);
    let faults = [
        fault(1, |call| lengthen(call, 2)),
        fault(10, |call| shorten(call, 1)),
        fault(12, |call| call.buffers[0][3] = 1),
    ];
    assert_order("sheet_read", sheet_read, &good, &faults);
    assert_lengths("sheet_read", sheet_read, &good, 0, other_lengths(12));
    assert_lengths("sheet_read", sheet_read, &good, 1, other_lengths(10));
    assert_lengths("sheet_read", sheet_read, &good, 2, other_lengths(1));

    let good = Call::new(vec![sheet, mark(1576), mark(16)], 0);
    let faults = [
        fault(10, |call| shorten(call, 2)),
        fault(10, |call| shorten(call, 1)),
        fault(12, |call| shorten(call, 0)),
    ];
    assert_order("list", list, &good, &faults);
    assert_lengths("list", list, &good, 0, other_lengths(12));
    // A longer buffer for the text will do.
    let for_text = |length, right| if length < right { 10 } else { 0 };
    assert_lengths("list", list, &good, 1, for_text);
    assert_lengths("list", list, &good, 2, other_lengths(10));
}

#[test]
fn the_variation() {
    let good = variation_call(plug_with_rows());
    let faults = with(
        vec![
            fault(1, |call| lengthen(call, 0)),
            fault(10, |call| shorten(call, 1)),
        ],
        variation_faults::<0>(),
    );
    assert_order("variation", variation, &good, &faults);
    assert_lengths("variation", variation, &good, 0, other_lengths(1));
    assert_lengths("variation", variation, &good, 1, other_lengths(10));

    let mut sheet = vec![0; 2392];
    let code = calls::sheet_write(&NUMBER, &plug_with_rows(), &mut sheet);
    assert_eq!(code, 0);
    let good = variation_call(sheet);
    for spoil in [
        (|call| shorten(call, 0)) as Spoil,
        |call| lengthen(call, 0),
        |call| call.buffers[0][3] = 1,
        |call| call.buffers[0][24 + status(0x0FF)] = 0xFE,
    ] {
        let faults = with(
            vec![fault(10, |call| lengthen(call, 1)), fault(12, spoil)],
            variation_faults::<24>(),
        );
        assert_order("sheet_variation", sheet_variation, &good, &faults);
    }
    assert_lengths(
        "sheet_variation",
        sheet_variation,
        &good,
        0,
        other_lengths(12),
    );
    assert_lengths(
        "sheet_variation",
        sheet_variation,
        &good,
        1,
        other_lengths(10),
    );

    let good = Call {
        tenths: 1799,
        new_value: -1800,
        ..Call::new(vec![mark(16)], 0)
    };
    for spoil in [
        (|call| call.tenths = 1800) as Spoil,
        |call| call.new_value = -1801,
        |call| (call.tenths, call.new_value) = (0x7FFF, i32::MIN),
    ] {
        let faults = [fault(10, |call| shorten(call, 0)), fault(19, spoil)];
        assert_order("change", change, &good, &faults);
    }
    assert_lengths("change", change, &good, 0, other_lengths(10));
}

/// Bytes that are no event or no reply, at every place of a call.
#[test]
fn bytes_that_are_no_event_or_reply() {
    for byte in 5..=255 {
        for place in [0, 4, 10] {
            let mut events = events();
            events[place] = byte;
            let mut call = Call::new(vec![NUMBER.to_vec(), events, image(), mark(11)], 0);
            let before = call.clone();
            assert_eq!(chip_run(&mut call), 2);
            assert!(call == before);
            call.buffers[0] = chip_state();
            let before = call.clone();
            assert_eq!(chip_events(&mut call), 2);
            assert!(call == before);
        }
    }
    for byte in 2..=255 {
        for place in [0, 3, 6] {
            let mut replies = vec![0; 7];
            replies[place] = byte;
            let mut call = Call::new(vec![replies.clone(), mark(7), mark(16)], 0);
            let before = call.clone();
            assert_eq!(number_run(&mut call), 2);
            assert!(call == before);
            let mut call = Call::new(vec![replies.clone(), mark(7), mark(32), mark(16)], 5);
            let before = call.clone();
            assert_eq!(page_run(&mut call), 2);
            assert!(call == before);
            for (_, function) in PUBLISHER_RUNS {
                let buffers = vec![image(), mark(32), replies.clone(), mark(7), mark(16)];
                let mut call = Call::new(buffers, 5);
                let before = call.clone();
                assert_eq!(publisher_run(function)(&mut call), 2);
                assert!(call == before);
            }
        }
        for calls in [&[][..], &[1], &[1, 0]] {
            let mut call = Call::new(vec![number_state(calls), mark(16)], byte.into());
            let before = call.clone();
            assert_eq!(number_call(&mut call), 2);
            assert!(call == before);
            let mut call = Call::new(vec![page_state(calls), mark(32), mark(16)], byte.into());
            let before = call.clone();
            assert_eq!(page_call(&mut call), 2);
            assert!(call == before);
            for (_, start) in PUBLISHER_STARTS {
                let mut call =
                    Call::new(vec![publisher_state(start, calls), mark(16)], byte.into());
                let before = call.clone();
                assert_eq!(publisher_call(&mut call), 2);
                assert!(call == before);
            }
        }
    }
}

/// What a call writes and what it leaves: the answer past its values, the
/// buffer of a page until Final.
#[test]
fn what_accepted_calls_write() {
    let mut call = Call::new(vec![image(), mark(16)], PAGE as u32);
    assert_eq!(walk(&mut call), 0);
    assert_eq!(call.buffers[0], image());
    assert_eq!(call.buffers[1][..3], [0xFF, 9, 1]);
    assert_eq!(call.buffers[1][3..], mark(16)[3..]);

    let mut call = Call::new(vec![image(), mark(16)], PAGE as u32);
    assert_eq!(free_page(&mut call), 0);
    assert_eq!(call.buffers[1][..2], [0xFF, 1]);
    assert_eq!(call.buffers[1][2..], mark(16)[2..]);

    for (_, function) in PUBLISHER_STARTS {
        let mut call = Call::new(vec![image(), mark(32), mark(48), mark(16)], PAGE as u32);
        assert_eq!(publisher_start(function)(&mut call), 0);
        assert_eq!(call.buffers[..2], [image(), mark(32)]);
        assert_eq!(call.buffers[3][0], 0xFF);
        assert_eq!(call.buffers[3][1..], mark(16)[1..]);
    }

    for (_, function) in UPDATES {
        let buffers = vec![image(), NUMBER.to_vec(), mark(32), mark(16)];
        let mut call = Call::new(buffers, PAGE as u32);
        assert_eq!(update(function)(&mut call), 0);
        assert_eq!(call.buffers[3][..3], [0xFF, 9, 1]);
        assert_eq!(call.buffers[3][3..], mark(16)[3..]);
    }

    let [low, high] = value_on(20, 3).to_le_bytes();
    let mut sheet = vec![0; 2392];
    let code = calls::sheet_write(&NUMBER, &plug_with_rows(), &mut sheet);
    assert_eq!(code, 0);
    for (function, buffer) in [
        (variation as fn(&mut Call) -> u32, plug_with_rows()),
        (sheet_variation, sheet),
    ] {
        let mut call = variation_call(buffer.clone());
        assert_eq!(function(&mut call), 0);
        assert_eq!(call.buffers[0], buffer);
        assert_eq!(call.buffers[1][..3], [0xFF, low, high]);
        assert_eq!(call.buffers[1][3..], mark(16)[3..]);
    }

    let mut call = Call {
        tenths: 1700,
        new_value: -1701,
        ..Call::new(vec![mark(16)], 0)
    };
    assert_eq!(change(&mut call), 0);
    assert_eq!(call.buffers[0][..3], [0xFF, 199, 0]);
    assert_eq!(call.buffers[0][3..], mark(16)[3..]);

    // The start of an update in a run: a reset, then CCh and the command.
    let mut runs = Vec::new();
    for (_, function) in PUBLISHER_RUNS {
        let mut replies = vec![0; 18];
        replies[0] = 1;
        let buffers = vec![image(), mark(32), replies, mark(18), mark(16)];
        let mut call = Call::new(buffers, PAGE as u32);
        assert_eq!(publisher_run(function)(&mut call), 0);
        assert_eq!(call.buffers[0], image());
        assert_eq!(call.buffers[4][1..], mark(16)[1..]);
        let bit = |place: usize| call.buffers[3][place];
        let byte = |from: usize| (0..8).fold(0, |sum, place| sum | bit(from + place) << place);
        runs.push([bit(0), byte(1), byte(9)]);
    }
    assert_eq!(runs, [[2, 0xCC, 0x55], [2, 0xCC, 0xF5]]);

    // A run with no reply tells the reset to come and writes nothing else.
    let mut call = Call::new(vec![vec![], vec![], mark(32), mark(16)], PAGE as u32);
    assert_eq!(page_run(&mut call), 0);
    assert_eq!(call.buffers[2], mark(32));
    assert_eq!(call.buffers[3][0], 2);
    assert_eq!(call.buffers[3][1..], mark(16)[1..]);

    // A whole page read, call by call.
    let mut state = page_state(&[]);
    let mut buffer = mark(32);
    let mut answer = mark(16);
    let replies = page_replies();
    for (place, &reply) in replies.iter().enumerate() {
        assert_eq!(buffer, mark(32));
        answer.copy_from_slice(&mark(16));
        let code = calls::page_call(&mut state, reply.into(), &mut buffer, &mut answer);
        assert_eq!(code, 0);
        let values = if place + 1 < replies.len() { 1 } else { 3 };
        assert_eq!(answer[values..], mark(16)[values..]);
    }
    assert_eq!(answer[..3], [0xFF, 9, 1]);
    assert_eq!(buffer, image()[32 * 9..32 * 10]);
    let mut again = mark(32);
    for reply in [0, 1, 0] {
        answer.copy_from_slice(&mark(16));
        assert_eq!(
            calls::page_call(&mut state, reply, &mut again, &mut answer),
            0
        );
        assert_eq!(answer[..3], [0xFF, 9, 1]);
        assert_eq!(again, mark(32));
    }

    // A refusal told by a call stops the master, and it tells the same again.
    let mut state = number_state(&[0]);
    answer.copy_from_slice(&mark(16));
    assert_eq!(calls::number_call(&mut state, 1, &mut answer), 13);
    assert_eq!(answer, mark(16));
    let stopped = state.clone();
    assert_eq!(calls::number_call(&mut state, 0, &mut answer), 13);
    assert_eq!(state, stopped);

    // In a run it comes with the events of the calls before it.
    let mut events = mark(4);
    let code = calls::number_run(&[0, 1, 0, 0], &mut events, &mut answer);
    assert_eq!((code, &events[..]), (13, &[2, 0xFF, 0xFF, 0xFF][..]));
    assert_eq!(answer, mark(16));
}
