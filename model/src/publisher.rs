//! The publisher: it supersedes a page by writing a free one and then naming
//! it.
//!
//! Everything is known at the start: each event, each CRC, which a quick write
//! does without, and each byte that must be read back. So the start writes the
//! whole plan down, and later calls only go through it.

use crate::bits::{bits_of, bits_of_byte, byte_of, low_high};
use crate::chip::{Chip, Event, MemoryCommand, WriteMode};
use crate::crc::{crc16_sent, crc16_sent_after_loading};
use crate::free::free_page;
use crate::memory::{
    check_image, check_page, data_byte, data_protected, redirection_byte, redirection_protected,
    status_byte, DataAddress, Page, RedirectionByte, StatusAddress, PAGE_LENGTH, USED_BITMAP,
};
use crate::refusal::{Answer, Reason, Refusal};
use crate::walk::{walk_from, Verdict};

const SKIP_ROM: u8 = 0xCC;

/// The two pages of an update that went through.
#[derive(Clone, Copy, Debug, PartialEq, Eq)]
pub struct Published {
    /// L, the page that was superseded.
    pub l: u8,
    /// T, the page that holds the new bytes.
    pub t: u8,
}

/// What is looked at when the reply to an event is in.
#[derive(Clone, Debug, PartialEq, Eq)]
enum Check {
    Nothing,
    /// This reply must be 0.
    Presence,
    /// The last 16 replies must be these.
    Crc(Vec<bool>),
    /// The last eight replies must be these.
    ReadBack(Vec<bool>),
}

#[derive(Clone, Debug, PartialEq, Eq)]
struct Step {
    event: Event,
    check: Check,
}

/// An update under way.
#[derive(Clone, Debug, PartialEq, Eq)]
pub struct Publisher {
    pages: Published,
    plan: Vec<Step>,
    sent: Vec<Event>,
    replies: Vec<bool>,
    end: Option<Answer<Published>>,
}

/// A byte to write: what is sent, and what the target holds before.
struct ByteToWrite {
    sent: u8,
    old: u8,
}

fn add_reset(plan: &mut Vec<Step>) {
    plan.push(Step {
        event: Event::Reset,
        check: Check::Presence,
    });
}

fn add_sent_bytes(plan: &mut Vec<Step>, bytes: &[u8]) {
    for bit in bits_of(bytes) {
        plan.push(Step {
            event: Event::Slot(bit),
            check: Check::Nothing,
        });
    }
}

/// Read slots, one for each expected bit, with a check after the last.
fn add_read_slots(plan: &mut Vec<Step>, slots: usize, check: Check) {
    for _ in 1..slots {
        plan.push(Step {
            event: Event::Slot(true),
            check: Check::Nothing,
        });
    }
    plan.push(Step {
        event: Event::Slot(true),
        check,
    });
}

/// One write: reset, Skip ROM, command, address, then each byte with its CRC,
/// its pulse and its reading back. A quick write has no CRC.
fn add_write(
    plan: &mut Vec<Step>,
    mode: WriteMode,
    command: u8,
    address: u16,
    bytes: &[ByteToWrite],
) {
    let [low, high] = low_high(address);
    add_reset(plan);
    add_sent_bytes(plan, &[SKIP_ROM, command, low, high]);
    for (offset, byte) in bytes.iter().enumerate() {
        add_sent_bytes(plan, &[byte.sent]);
        if mode == WriteMode::Ordinary {
            let crc = if offset == 0 {
                crc16_sent(&[command, low, high, byte.sent])
            } else {
                crc16_sent_after_loading(address + offset as u16, byte.sent)
            };
            add_read_slots(plan, 16, Check::Crc(bits_of(&crc)));
        }
        plan.push(Step {
            event: Event::Pulse,
            check: Check::Nothing,
        });
        let held = byte.old & byte.sent;
        add_read_slots(plan, 8, Check::ReadBack(bits_of_byte(held).to_vec()));
    }
}

fn make_plan(image: &[u8], new_bytes: &[u8], l: Page, t: Page, mode: WriteMode) -> Vec<Step> {
    let mut plan = Vec::new();
    let write_memory = MemoryCommand::WriteMemory(mode).byte();
    let write_status = MemoryCommand::WriteStatus(mode).byte();

    // The bits of the whole bitmap as sent, 0 for T only; one byte of it goes
    // out.
    let mut marks = [true; 64];
    marks[usize::from(t.number())] = false;
    let mark_place = usize::from(t.number()) / 8;
    let mark = byte_of(&marks[8 * mark_place..8 * mark_place + 8]);
    let mark_address = USED_BITMAP + mark_place as u16;
    let held = StatusAddress::new(mark_address).expect("the bitmap is in status");
    add_write(
        &mut plan,
        mode,
        write_status,
        mark_address,
        &[ByteToWrite {
            sent: mark,
            old: status_byte(image, held),
        }],
    );

    let first = t.first_address().number();
    let bytes: Vec<ByteToWrite> = (first..)
        .zip(new_bytes)
        .map(|(address, &sent)| ByteToWrite {
            sent,
            old: data_byte(
                image,
                DataAddress::new(address).expect("the page is in data"),
            ),
        })
        .collect();
    add_write(&mut plan, mode, write_memory, first, &bytes);

    add_write(
        &mut plan,
        mode,
        write_status,
        l.redirection_address().number(),
        &[ByteToWrite {
            sent: RedirectionByte::naming(t).0,
            old: redirection_byte(image, l).0,
        }],
    );

    add_reset(&mut plan);
    plan
}

impl Publisher {
    /// Refusals 1, 10, 3, 4, 5, 20, 9 and 8, in this order, in either mode.
    pub fn start(
        image: &[u8],
        new_bytes: &[u8],
        page: u8,
        mode: WriteMode,
    ) -> Result<Publisher, Refusal> {
        check_image(image)?;
        if new_bytes.len() != PAGE_LENGTH {
            return Err(Refusal::without_state(Reason::BufferLength));
        }
        let asked = check_page(page)?;
        let l = match walk_from(image, asked) {
            Verdict::Loop => return Err(Refusal::without_state(Reason::Loop)),
            Verdict::Outside(number) => {
                return Err(Refusal::without_state(Reason::Outside(number)))
            }
            Verdict::Final(reached) => check_page(reached.page)?,
        };
        if data_protected(image, l) {
            return Err(Refusal::without_state(Reason::DataProtected(l.number())));
        }
        if redirection_protected(image, l) {
            return Err(Refusal::without_state(Reason::RedirectionProtected(
                l.number(),
            )));
        }
        let t = check_page(free_page(image, l.number())?)?;
        Ok(Publisher {
            pages: Published {
                l: l.number(),
                t: t.number(),
            },
            plan: make_plan(image, new_bytes, l, t, mode),
            sent: Vec::new(),
            replies: Vec::new(),
            end: None,
        })
    }

    /// All events of the plan.
    pub fn planned_events(&self) -> Vec<Event> {
        self.plan.iter().map(|step| step.event).collect()
    }

    /// L and T, known from the start.
    pub fn pages(&self) -> Published {
        self.pages
    }

    pub fn call(&mut self, reply: bool) -> Answer<Published> {
        if let Some(end) = self.end {
            return end;
        }
        // The first call has no event behind it that could have drawn a reply.
        if !self.sent.is_empty() {
            self.replies.push(reply);
        }
        self.end = self.judge();
        if let Some(end) = self.end {
            return end;
        }
        let event = self.plan[self.sent.len()].event;
        self.sent.push(event);
        Answer::Event(event)
    }

    fn judge(&self) -> Option<Answer<Published>> {
        let stop = |reason| Some(Answer::Refused(Refusal::with_stopped_state(reason)));
        // Before the first event there is nothing to judge.
        let last = self.replies.len().checked_sub(1)?;
        match &self.plan[last].check {
            Check::Presence if self.replies[last] => return stop(Reason::NoPresence),
            Check::Crc(expected) if !self.replies.ends_with(expected) => {
                return stop(Reason::Crc16)
            }
            Check::ReadBack(expected) if !self.replies.ends_with(expected) => {
                return stop(Reason::ReadBack)
            }
            _ => {}
        }
        if self.replies.len() == self.plan.len() {
            Some(Answer::End(self.pages))
        } else {
            None
        }
    }
}

/// How an update on a chip with its true image came out.
#[derive(Clone, Copy, Debug, PartialEq, Eq)]
pub enum Outcome {
    Published(Published),
    Refused(Refusal),
    /// Power was lost after the asked number of events.
    Cut,
}

/// A whole run of the publisher on a chip.
#[derive(Clone, Debug, PartialEq, Eq)]
pub struct Run {
    /// The image that the run left.
    pub image: Vec<u8>,
    /// How many events reached the chip, a power loss not counted.
    pub events: usize,
    pub outcome: Outcome,
}

/// The publisher joined to a chip with the given image. With a cut, one power
/// loss follows that many events; a cut after more events than there are in
/// the run never comes. Refusals of the start come as errors.
pub fn update(
    image: &[u8],
    new_bytes: &[u8],
    page: u8,
    mode: WriteMode,
    cut_after: Option<usize>,
) -> Result<Run, Refusal> {
    let mut publisher = Publisher::start(image, new_bytes, page, mode)?;
    let mut chip = Chip::power_up([0; 8], image.to_vec())?;
    let mut reply = true;
    let mut events = 0;
    let outcome = loop {
        if cut_after == Some(events) {
            chip.event(Event::PowerLoss);
            break Outcome::Cut;
        }
        match publisher.call(reply) {
            Answer::Event(event) => {
                reply = chip.event(event);
                events += 1;
            }
            Answer::End(pages) => break Outcome::Published(pages),
            Answer::Refused(refusal) => break Outcome::Refused(refusal),
        }
    };
    Ok(Run {
        image: chip.image,
        events,
        outcome,
    })
}
