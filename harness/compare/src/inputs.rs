//! Random inputs of every kind.

use page::Section;

use crate::check::Input;
use crate::damage::{damage, pad};
use crate::largest::full_file;
use crate::random::Random;
use crate::recorded::{any_departures, train_counts};
use crate::sections::{any_section, Size};
use crate::spoil::spoil;
use crate::text::{loose_text, plain_text, LONGEST_TEXT};

pub fn any_input(random: &mut Random) -> Input {
    match random.below(100) {
        0..=19 => {
            let section = section_to_plan(random);
            Input::Text(planning_text(random, &section))
        }
        20..=29 => {
            let section = section_to_judge(random);
            Input::Text(judging_text(random, &section))
        }
        30..=47 => damaged_text(random),
        48 => Input::Text(full_text(random)),
        49 => Input::Text(crowded_text(random)),
        50..=59 => spoiled_text(random),
        60..=69 => {
            let section = section_to_judge(random);
            let departures = any_departures(random, &section);
            Input::Judge(section, departures)
        }
        70..=79 => spoiled_call(random),
        _ => plan_call(random),
    }
}

/// Few are largest: one takes the page's search a thousand times as long as a small one.
fn section_to_plan(random: &mut Random) -> Section {
    let size = match random.below(100) {
        0 => Size::Largest,
        1..=9 => Size::Middle,
        _ => Size::Small,
    };
    any_section(random, size)
}

fn section_to_judge(random: &mut Random) -> Section {
    let size = random.pick(&[Size::Small, Size::Small, Size::Middle, Size::Largest]);
    any_section(random, size)
}

fn planning_text(random: &mut Random, section: &Section) -> Vec<u8> {
    let mut text = any_layout(random, section, &[]);
    if random.one_in(50) {
        pad(random, &mut text);
    }
    text
}

fn judging_text(random: &mut Random, section: &Section) -> Vec<u8> {
    let departures = any_departures(random, section);
    any_layout(random, section, &departures)
}

fn any_layout(random: &mut Random, section: &Section, recorded: &[u32]) -> Vec<u8> {
    if random.one_in(2) {
        plain_text(section, recorded)
    } else {
        loose_text(random, section, recorded)
    }
}

fn damaged_text(random: &mut Random) -> Input {
    let section = any_section(random, Size::Small);
    let mut text = match random.below(2) {
        0 => planning_text(random, &section),
        _ => judging_text(random, &section),
    };
    damage(random, &mut text);
    Input::Text(text)
}

fn full_text(random: &mut Random) -> Vec<u8> {
    let largest = random.pick(&[1, 9, 9_999, 999_999]);
    let file = full_file(random, largest);
    any_layout(random, &file.section, &file.recorded)
}

/// A full file with more numbers behind it, up to as many as the bytes allow.
fn crowded_text(random: &mut Random) -> Vec<u8> {
    let mut text = full_text(random);
    let room = (LONGEST_TEXT.saturating_sub(text.len()) / 2).max(1);
    let any = 1 + random.below(room);
    let more = random.pick(&[1, 2, any, room]);
    text.extend(b" 7".repeat(more));
    text
}

fn spoiled_text(random: &mut Random) -> Input {
    let (section, departures) = spoiled_section(random);
    let recorded = if random.one_in(2) {
        &departures
    } else {
        &[][..]
    };
    Input::Text(any_layout(random, &section, recorded))
}

fn spoiled_call(random: &mut Random) -> Input {
    let (section, departures) = spoiled_section(random);
    if random.one_in(2) {
        Input::Plan(section, departures)
    } else {
        Input::Judge(section, departures)
    }
}

/// A section spoiled in a place or two, with departures that mostly fit it.
fn spoiled_section(random: &mut Random) -> (Section, Vec<u32>) {
    let mut section = any_section(random, Size::Small);
    let mut departures = any_departures(random, &section);
    for _ in 0..random.pick(&[0, 1, 1, 2]) {
        spoil(random, &mut section);
    }
    if random.one_in(4) {
        departures.resize(random.below(departures.len() + 3), 7);
    } else if random.one_in(2) {
        let (ones, twos) = train_counts(&section);
        departures.resize(ones + twos, 7);
    }
    (section, departures)
}

/// The departures hold something else before the call, and now and then too few or many.
fn plan_call(random: &mut Random) -> Input {
    let section = section_to_plan(random);
    let (ones, twos) = train_counts(&section);
    let count = if random.one_in(10) {
        random.below(100)
    } else {
        ones + twos
    };
    let before = (0..count).map(|_| random.between(0, i64::from(u32::MAX)) as u32);
    let before = before.collect();
    Input::Plan(section, before)
}
