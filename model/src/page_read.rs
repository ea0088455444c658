//! The master that reads a page, following redirection.

use crate::bits::{bits_of, byte_of, bytes_of, low_high};
use crate::chip::{Chip, Event};
use crate::crc::crc16_sent;
use crate::memory::{check_page, Page, RedirectionByte, PAGE_COUNT, PAGE_LENGTH};
use crate::refusal::{Answer, Reason, Refusal};
use crate::walk::Final;

const SKIP_ROM: u8 = 0xCC;
const EXTENDED_READ: u8 = 0xA5;

/// Events of one visited page up to the CRC of its redirection byte.
const VISIT_EVENTS: usize = 57;

/// Events up to the data's CRC of a page that is read.
const READ_EVENTS: usize = VISIT_EVENTS + 272;

/// A page read under way.
#[derive(Clone, Debug, PartialEq, Eq)]
pub struct PageRead {
    /// The page being visited.
    page: Page,
    /// The redirection bytes other than FFh received so far, one for each
    /// page visited before this one.
    followed: Vec<RedirectionByte>,
    /// All events that this visit may need.
    script: Vec<Event>,
    /// The events of this visit so far, and the replies that they drew.
    sent: Vec<Event>,
    replies: Vec<bool>,
    end: Option<Answer<Final>>,
}

/// What to do when the replies that are in have been looked at.
enum Decision {
    GoOn,
    Visit(Page),
    End(Answer<Final>),
}

/// The bytes that the master sends in a visit after Skip ROM.
fn heading(page: Page) -> [u8; 3] {
    let [low, high] = low_high(page.first_address().number());
    [EXTENDED_READ, low, high]
}

/// The events of a visit to a page. A visit to a redirected page stops after
/// the first 57; the last is the closing reset.
fn script(page: Page) -> Vec<Event> {
    let mut events = vec![Event::Reset];
    let command = [&[SKIP_ROM][..], &heading(page)].concat();
    events.extend(bits_of(&command).into_iter().map(Event::Slot));
    events.extend([Event::Slot(true); 24]);
    events.extend([Event::Slot(true); 272]);
    events.push(Event::Reset);
    events
}

impl PageRead {
    /// Refusal 3.
    pub fn start(page: u8) -> Result<PageRead, Refusal> {
        let page = check_page(page)?;
        Ok(PageRead {
            page,
            followed: Vec::new(),
            script: script(page),
            sent: Vec::new(),
            replies: Vec::new(),
            end: None,
        })
    }

    /// A buffer of the wrong length draws refusal 10 before anything else is
    /// looked at, even on a master that has ended. The reply isn't taken then,
    /// so the call can be made again with it.
    pub fn call(&mut self, reply: bool, buffer: &mut [u8]) -> Answer<Final> {
        if buffer.len() != PAGE_LENGTH {
            return Answer::Refused(Refusal::with_same_state(Reason::BufferLength));
        }
        if let Some(end) = self.end {
            return end;
        }
        // The first call of all has no event behind it. When a later visit
        // begins, its reset is sent in the very call that ended the last one.
        if !self.sent.is_empty() {
            self.replies.push(reply);
        }
        match self.judge() {
            Decision::GoOn => {}
            Decision::Visit(page) => {
                self.page = page;
                self.script = script(page);
                self.sent.clear();
                self.replies.clear();
            }
            Decision::End(end) => {
                if let Answer::End(_) = end {
                    buffer.copy_from_slice(&self.data());
                }
                self.end = Some(end);
                return end;
            }
        }
        let event = self.script[self.sent.len()];
        self.sent.push(event);
        Answer::Event(event)
    }

    fn judge(&mut self) -> Decision {
        let stop = |reason| Decision::End(Answer::Refused(Refusal::with_stopped_state(reason)));
        match self.replies.len() {
            1 if self.replies[0] => stop(Reason::NoPresence),
            VISIT_EVENTS => {
                let byte = byte_of(&self.replies[33..41]);
                let received = bytes_of(&self.replies[41..57]);
                let checked = [&heading(self.page)[..], &[byte]].concat();
                if received != crc16_sent(&checked) {
                    return stop(Reason::Crc16);
                }
                let redirection = RedirectionByte(byte);
                let Some(number) = redirection.names() else {
                    return Decision::GoOn;
                };
                let Some(named) = Page::new(number) else {
                    return stop(Reason::Outside(number));
                };
                self.followed.push(redirection);
                if self.followed.len() == PAGE_COUNT {
                    // 64 pages with a byte other than FFh: one was met twice.
                    stop(Reason::Loop)
                } else {
                    Decision::Visit(named)
                }
            }
            READ_EVENTS => {
                let received = bytes_of(&self.replies[READ_EVENTS - 16..READ_EVENTS]);
                if received != crc16_sent(&self.data()) {
                    stop(Reason::Crc16)
                } else {
                    Decision::GoOn
                }
            }
            n if n == READ_EVENTS + 1 => {
                if self.replies[READ_EVENTS] {
                    stop(Reason::NoPresence)
                } else {
                    Decision::End(Answer::End(Final {
                        page: self.page.number(),
                        hops: self.followed.len() as u8,
                    }))
                }
            }
            _ => Decision::GoOn,
        }
    }

    /// The data bytes received in this visit.
    fn data(&self) -> Vec<u8> {
        bytes_of(&self.replies[VISIT_EVENTS..READ_EVENTS - 16])
    }
}

/// How a page read joined to a chip went.
#[derive(Clone, Debug, PartialEq, Eq)]
pub struct PageReading {
    pub result: Result<Final, Refusal>,
    /// The caller's buffer, all zeroes before the read.
    pub buffer: [u8; PAGE_LENGTH],
    pub events: usize,
}

/// A page read and a chip joined. Refusal 3 from the start comes as an error.
pub fn read_page(chip: &mut Chip, page: u8) -> Result<PageReading, Refusal> {
    let mut master = PageRead::start(page)?;
    let mut buffer = [0; PAGE_LENGTH];
    let mut reply = true;
    let mut events = 0;
    loop {
        let result = match master.call(reply, &mut buffer) {
            Answer::Event(event) => {
                reply = chip.event(event);
                events += 1;
                continue;
            }
            Answer::End(reached) => Ok(reached),
            Answer::Refused(refusal) => Err(refusal),
        };
        return Ok(PageReading {
            result,
            buffer,
            events,
        });
    }
}
