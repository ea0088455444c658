//! A second model of the DS2505 chip, of the masters that talk to it, of the
//! publisher that supersedes a page, of the stored sheet with its list, and of
//! the variation looked up by latitude and column.
//!
//! It is meant to be run side by side with another program and compared. So
//! it prefers the plainest method to the quickest: CRCs are remainders of
//! polynomial divisions, a walk keeps the set of pages it has seen, free pages
//! are found by taking sets away from each other, the chip prepares whole
//! runs of bits before it sends them, the masters keep what they sent and
//! received and look at it again when enough has come in, and a header is
//! sound when its fields, written anew, give the same page.

pub mod bits;
pub mod chip;
pub mod crc;
pub mod demo;
pub mod free;
pub mod lookup;
pub mod lookup_cases;
pub mod memory;
pub mod notes;
pub mod number_read;
pub mod page_read;
pub mod publisher;
pub mod random;
pub mod refusal;
pub mod rows;
pub mod samples;
pub mod sheet;
pub mod stored;
pub mod walk;
