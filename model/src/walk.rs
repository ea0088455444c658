//! The walk along redirection bytes.

use std::collections::BTreeSet;

use crate::memory::{check_image, check_page, redirection_byte, Page};
use crate::refusal::Refusal;

/// Where a walk ends.
#[derive(Clone, Copy, Debug, PartialEq, Eq)]
pub enum Verdict {
    Final(Final),
    /// The chain never ends.
    Loop,
    /// The first number above 63.
    Outside(u8),
}

/// The page that a walk ends at, and the count of redirection bytes other
/// than FFh on the way there.
#[derive(Clone, Copy, Debug, PartialEq, Eq)]
pub struct Final {
    pub page: u8,
    pub hops: u8,
}

/// The walk from a page of a checked image. A chain never ends exactly when
/// it comes back to a page that it has been to.
pub fn walk_from(image: &[u8], start: Page) -> Verdict {
    let mut seen = BTreeSet::new();
    let mut here = start;
    loop {
        if seen.contains(&here) {
            return Verdict::Loop;
        }
        let Some(number) = redirection_byte(image, here).names() else {
            return Verdict::Final(Final {
                page: here.number(),
                // Every page seen before this one had a byte other than FFh.
                hops: seen.len() as u8,
            });
        };
        let Some(named) = Page::new(number) else {
            return Verdict::Outside(number);
        };
        seen.insert(here);
        here = named;
    }
}

/// The walk from a page. Refusals 1 and 3, in this order.
pub fn walk(image: &[u8], page: u8) -> Result<Verdict, Refusal> {
    check_image(image)?;
    let start = check_page(page)?;
    Ok(walk_from(image, start))
}
