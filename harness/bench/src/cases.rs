//! The timed sections: random ones, the same in every run.

use compare::check::lists;
use compare::largest::{filled, full_file};
use compare::random::Random;
use compare::sections::section_of;
use compare::text::{file_text, plain_text};
use linked::Lists;
use page::Section;

use crate::plain;

/// A section with its plan, which the judge accepts.
pub struct Case {
    section: Section,
    pub departures: Vec<u32>,
}

/// Distinct sections a size.
const SECTIONS: usize = 8;

pub fn sizes(objective: u32) -> &'static [usize] {
    if objective < 3 {
        &[1, 6, 12, 24, 48]
    } else {
        &[1, 6, 12]
    }
}

/// Sections with so many trains at each station; both sides must agree on all of them.
pub fn cases(objective: u32, trains: usize) -> Vec<Case> {
    let mut random = Random::new(u64::from(objective) * 100 + trains as u64);
    let mut make = || {
        checked(
            section_of(&mut random, objective, trains, trains),
            2 * trains,
        )
    };
    (0..SECTIONS).map(|_| make()).collect()
}

/// The files that ask for the sections' plans.
pub fn files(cases: &[Case]) -> Vec<Vec<u8>> {
    let texts = cases.iter().map(|case| plain_text(&case.section, &[]));
    texts.collect()
}

/// Files of 512 numbers in each section, mostly of nine digits, and of all the bytes allowed.
pub fn full_files() -> Vec<Vec<u8>> {
    let mut random = Random::new(512);
    let files = (0..SECTIONS).map(|_| full_file(&mut random, 999_999_999));
    files.map(|file| filled(file_text(&file))).collect()
}

pub fn longest(files: &[Vec<u8>]) -> &[u8] {
    let longest = files.iter().max_by_key(|text| text.len());
    longest.expect("a kind has at least one file")
}

fn checked(section: Section, trains: usize) -> Case {
    let mut departures = vec![u32::MAX; trains];
    let mut expected = vec![u32::MAX; trains];
    let lists = lists(&section);
    let planned = linked::plan(lists, &mut departures);
    assert_eq!(planned, plain::plan(lists, &mut expected));
    assert_eq!(departures, expected);
    let judged = linked::judge(lists, &departures);
    assert_eq!(judged, plain::judge(lists, &departures));
    assert_eq!(judged, planned, "a plan is judged at its own value");
    Case {
        section,
        departures,
    }
}

impl Case {
    pub fn lists(&self) -> Lists<'_> {
        lists(&self.section)
    }
}
