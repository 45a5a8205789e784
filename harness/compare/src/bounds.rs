//! Texts with a number or a length at each bound and one beyond it.

use page::Section;

use crate::check::Input;
use crate::spoil::EDGES;
use crate::text::{plain_text, LONGEST_TEXT};

const RUNNING: u32 = 10;

/// A row of one step that costs nothing.
const FREE_ROW: [i32; 17] = [1, 0, 0, 0, 0, 0, 0, 0, 0, 0, 0, 0, 0, 0, 0, 0, 0];
/// A row that uses all of its steps.
pub const FULL_ROW: [i32; 17] = [8, 0, 9, 10, 11, 12, 20, 22, 30, 0, 0, 1, 2, 3, 5, 8, 13];

pub fn bound_inputs() -> Vec<Input> {
    let sections = [number_edges(), row_edges(), heading_edges(), count_edges()].concat();
    let planned = sections.iter().map(|section| plain_text(section, &[]));
    let full = full_texts().into_iter().chain(crowded_texts());
    let texts = planned.chain(departure_edges()).chain(long_texts());
    texts.chain(full).map(Input::Text).collect()
}

fn section(objective: u32, one: &[i32], two: &[i32]) -> Section {
    Section {
        objective,
        running: RUNNING,
        headway: 2,
        one: one.to_vec(),
        two: two.to_vec(),
    }
}

/// Each edge as a due time and as a weight, at either station.
fn number_edges() -> Vec<Section> {
    let at_both = |number: i32| {
        [1, 2].map(|objective| {
            [
                section(objective, &[3, number], &[4]),
                section(objective, &[3], &[4, number]),
            ]
        })
    };
    EDGES.into_iter().flat_map(at_both).flatten().collect()
}

/// Each edge in each of the 17 places of a row, first train or last.
fn row_edges() -> Vec<Section> {
    let mut sections = Vec::new();
    for (place, number) in (0..17).flat_map(|place| EDGES.map(|number| (place, number))) {
        for whole in [FREE_ROW, FULL_ROW] {
            let mut row = whole;
            row[place] = number;
            sections.push(section(3, &[row, FREE_ROW].concat(), &FULL_ROW));
            sections.push(section(4, &FREE_ROW, &[FULL_ROW, row].concat()));
        }
    }
    sections
}

fn heading_edges() -> Vec<Section> {
    let objectives = [0, 1, 2, 3, 4, 5, i32::MAX as u32, u32::MAX];
    let runnings = [0, 1, 2, 3, 9_999, 10_000, 10_001, u32::MAX];
    let mut sections: Vec<Section> = objectives.map(|o| section(o, &[1], &[1])).to_vec();
    for running in runnings {
        for headway in [0, 1, running.saturating_sub(1), running, u32::MAX] {
            let mut odd = section(2, &[1], &[1]);
            (odd.running, odd.headway) = (running, headway);
            sections.push(odd);
        }
    }
    sections
}

/// Counts of trains and of numbers, and lists that are no multiple of 17.
fn count_edges() -> Vec<Section> {
    let mut sections = Vec::new();
    for count in [0, 1, 47, 48, 49, 511, 512, 513] {
        for objective in 1..=4 {
            let list = vec![1; count];
            sections.push(section(objective, &list, &[]));
            sections.push(section(objective, &[], &list));
            sections.push(section(objective, &[1], &list));
        }
    }
    for count in [0, 11, 12, 13, 30] {
        let list = FULL_ROW.repeat(count);
        sections.push(section(3, &list, &FREE_ROW));
        sections.push(section(4, &FREE_ROW, &list));
        sections.push(section(4, &list, &list));
    }
    sections
}

fn departure_edges() -> Vec<Vec<u8>> {
    let single = section(2, &[1], &[]);
    let pair = section(2, &[1], &[1]);
    let latest = [
        0,
        9_999_999,
        10_000_000,
        10_000_001,
        i32::MAX as u32,
        1 << 31,
        u32::MAX,
    ];
    let singles = latest.map(|departure| plain_text(&single, &[departure]));
    let pairs = [9, 10, 11].map(|departure| plain_text(&pair, &[0, departure]));
    let counts = [0, 1, 3, 512, 513].map(|count| plain_text(&pair, &vec![0; count]));
    [&singles[..], &pairs, &counts].concat()
}

/// A readable text filled with blanks to each length about the longest one.
fn long_texts() -> Vec<Vec<u8>> {
    let text = plain_text(&section(2, &[1, 1], &[5]), &[]);
    let padded = |length: usize| [text.clone(), vec![b' '; length - text.len()]].concat();
    let mut texts: Vec<Vec<u8>> = [16_383, 16_384, 16_385, 20_000].map(padded).to_vec();
    texts.extend([Vec::new(), vec![b' '; 16_384], vec![b'\n'; 16_385]]);
    texts
}

/// All three sections full, and one of them with a number too many.
fn full_texts() -> Vec<Vec<u8>> {
    let full = [1, 2, 3, 4].map(|objective| text_of_counts(objective, [512, 512, 512]));
    let over = [[513, 512, 512], [512, 513, 512], [512, 512, 513]];
    let over = over.map(|counts| text_of_counts(2, counts));
    [&full[..], &over].concat()
}

/// More numbers behind a file: to 1,543 in all, which a full one has by itself, to 1,544, or to
/// as many as the bytes allow.
fn crowded_texts() -> Vec<Vec<u8>> {
    let full = text_of_counts(2, [512, 512, 512]);
    let pair = text_of_counts(2, [1, 1, 0]);
    let numbers_of_pair = 9;
    let room = |text: &[u8]| (LONGEST_TEXT - text.len()) / 2;
    let behind = [
        (&full, 1),
        (&full, room(&full)),
        (&pair, 1_543 - numbers_of_pair),
        (&pair, 1_544 - numbers_of_pair),
        (&pair, room(&pair)),
    ];
    let texts = behind.map(|(text, more)| [&text[..], &b"7 ".repeat(more)].concat());
    texts.to_vec()
}

/// A file with so many numbers in each section after the heading.
fn text_of_counts(objective: u32, [one, two, recorded]: [usize; 3]) -> Vec<u8> {
    let section = section(objective, &vec![7; one], &vec![-7; two]);
    plain_text(&section, &vec![7; recorded])
}
