//! Random sections that are accepted.

use page::Section;

use crate::lists::{due_times, rows, weights, Times};
use crate::random::Random;

/// How many trains a section has.
#[derive(Clone, Copy, Debug, PartialEq, Eq)]
pub enum Size {
    /// Few enough to try every order of the day.
    Small,
    Middle,
    /// At least one station has as many trains as it may.
    Largest,
}

pub fn numbers_a_train(objective: u32) -> usize {
    if objective < 3 {
        1
    } else {
        17
    }
}

pub fn most_trains_a_station(objective: u32) -> usize {
    if objective < 3 {
        48
    } else {
        12
    }
}

pub fn any_section(random: &mut Random, size: Size) -> Section {
    let objective = 1 + random.below(4) as u32;
    let (one, two) = counts(random, most_trains_a_station(objective), size);
    section_of(random, objective, one, two)
}

/// A random section with these counts of trains.
pub fn section_of(random: &mut Random, objective: u32, one: usize, two: usize) -> Section {
    let times = any_times(random);
    Section {
        objective,
        running: times.running,
        headway: times.headway,
        one: list(random, objective, one, times),
        two: list(random, objective, two, times),
    }
}

fn list(random: &mut Random, objective: u32, count: usize, times: Times) -> Vec<i32> {
    match objective {
        1 => due_times(random, count, times),
        2 => weights(random, count),
        _ => rows(random, count, times),
    }
}

fn any_times(random: &mut Random) -> Times {
    let any = random.between(2, 10_000) as u32;
    let few = random.between(2, 12) as u32;
    let running = random.pick(&[2, 3, 10_000, few, few, few, any]);
    let within = random.between(1, i64::from(running) - 1) as u32;
    let headway = random.pick(&[1, running - 1, running.div_ceil(2), within, within]);
    Times {
        running,
        headway: headway.min(running - 1),
    }
}

/// Two counts, not both 0.
fn counts(random: &mut Random, most: usize, size: Size) -> (usize, usize) {
    let limit = match size {
        Size::Small => 4,
        Size::Middle => most * 7 / 24,
        Size::Largest => most,
    };
    let some = 1 + random.below(limit);
    let other = match size {
        Size::Largest => random.pick(&[most, most, most - 1, 0, some]),
        _ => random.below(limit + 1),
    };
    let full = if size == Size::Largest { most } else { some };
    random.pick(&[(full, other), (other, full)])
}
