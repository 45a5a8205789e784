//! The largest section files: the longest answer, the most numbers, the most bytes.

use page::{Section, SectionFile};

use crate::lists::spread;
use crate::random::Random;
use crate::text::{plain_text, LONGEST_TEXT};

/// The most numbers that each section after the heading may have.
const MOST_NUMBERS: usize = 512;

/// The day with the longest answer: station 2's trains leave in the last seconds allowed.
///
/// Their 48 arrivals have eight digits, and no day has more of those: a train of the other
/// station arrives no later than they leave.
pub fn longest_judged_day() -> Vec<u8> {
    let section = Section {
        objective: 2,
        running: 10_000,
        headway: 1,
        one: vec![10_000; 48],
        two: vec![10_000; 48],
    };
    let twos = 9_999_953..=10_000_000;
    let ones = twos.clone().map(|second| second - 47 - section.running);
    let recorded: Vec<u32> = ones.chain(twos).collect();
    plain_text(&section, &recorded)
}

/// A file whose sections are full: refused for its many trains or for lengths that fit no rows.
pub fn full_file(random: &mut Random, largest: i64) -> SectionFile {
    let section = Section {
        objective: 1 + random.below(4) as u32,
        running: 10,
        headway: 2,
        one: spread(random, MOST_NUMBERS, -largest, largest),
        two: spread(random, MOST_NUMBERS, -largest, largest),
    };
    let recorded = (0..MOST_NUMBERS).map(|_| random.between(0, largest) as u32);
    let recorded = recorded.collect();
    SectionFile { section, recorded }
}

/// The text filled with spaces to as many bytes as a file may have.
pub fn filled(mut text: Vec<u8>) -> Vec<u8> {
    text.resize(LONGEST_TEXT, b' ');
    text
}
