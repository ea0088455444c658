//! Free pages and redirected pages, as sets.

use std::collections::BTreeSet;

use crate::memory::{
    check_image, check_page, data_protected, marked_used, page_bytes, redirection_byte, Page,
};
use crate::refusal::{Reason, Refusal};

/// The pages with a redirection byte other than FFh.
pub fn redirected_pages(image: &[u8]) -> Result<BTreeSet<u8>, Refusal> {
    check_image(image)?;
    Ok(Page::all()
        .filter(|&page| redirection_byte(image, page).names().is_some())
        .map(Page::number)
        .collect())
}

/// The free pages: those from 1 to 63 that are left when every page with
/// something against it has been taken away.
pub fn free_pages(image: &[u8]) -> Result<BTreeSet<u8>, Refusal> {
    check_image(image)?;
    let mut free: BTreeSet<u8> = (1..=63).collect();
    for page in Page::all() {
        if let Some(named) = redirection_byte(image, page).names() {
            free.remove(&page.number());
            free.remove(&named);
        }
        if marked_used(image, page) {
            free.remove(&page.number());
        }
        if data_protected(image, page) {
            free.remove(&page.number());
        }
        if page_bytes(image, page) != [0xFF; 32] {
            free.remove(&page.number());
        }
    }
    Ok(free)
}

/// The lowest free page other than the given one. Refusals 1, 3 and 8, in
/// this order.
pub fn free_page(image: &[u8], other_than: u8) -> Result<u8, Refusal> {
    let mut free = free_pages(image)?;
    check_page(other_than)?;
    free.remove(&other_than);
    free.first()
        .copied()
        .ok_or(Refusal::without_state(Reason::NoFreePage))
}

/// How many pages are redirected.
pub fn redirected_count(image: &[u8]) -> Result<usize, Refusal> {
    Ok(redirected_pages(image)?.len())
}

/// How many pages are free.
pub fn free_count(image: &[u8]) -> Result<usize, Refusal> {
    Ok(free_pages(image)?.len())
}
