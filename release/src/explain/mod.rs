//! A page for each number that the project gives: what it means in the words of the text form, why it is a fault, what to
//! do, and a smallest example that gives it.

mod declarations;
pub mod example;
mod generations;
pub mod hint;
mod layouts;
mod refusals;
mod releases;
mod requests;

use example::Example;

/// What is said of a number.
pub struct Page {
    pub number: u32,
    pub means: &'static str,
    pub why: &'static str,
    pub cure: &'static str,
    pub example: Example,
}

/// All pages, in the order of their numbers.
pub fn pages() -> impl Iterator<Item = &'static Page> {
    let parts: [&'static [Page]; 7] = [
        &refusals::PAGES,
        &releases::PAGES,
        &declarations::PAGES,
        &declarations::BIT_FIELD_RELEASES,
        &layouts::PAGES,
        &generations::PAGES,
        &requests::PAGES,
    ];
    parts.into_iter().flatten()
}

pub fn page(number: u32) -> Option<&'static Page> {
    pages().find(|page| page.number == number)
}
