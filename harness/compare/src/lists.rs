//! Random train lists that keep their rules, with many equal numbers and many ties.

use std::collections::BTreeSet;

use crate::random::Random;

const LARGEST_TIME: i64 = 1_000_000;
const STEPS_A_ROW: usize = 8;

/// The times that a row's starts are set against.
#[derive(Clone, Copy)]
pub struct Times {
    pub running: u32,
    pub headway: u32,
}

pub fn due_times(random: &mut Random, count: usize, times: Times) -> Vec<i32> {
    let p = i64::from(times.running);
    let spans = [
        (0, 0),
        (0, 3),
        (-5, 5),
        (0, 4 * p),
        (p, 20 * p),
        (-LARGEST_TIME, LARGEST_TIME),
    ];
    if random.one_in(8) {
        return picked(random, count, &[-1_000_000, 0, 1_000_000]);
    }
    let (least, most) = random.pick(&spans);
    spread(random, count, least, most)
}

pub fn weights(random: &mut Random, count: usize) -> Vec<i32> {
    if random.one_in(8) {
        return picked(random, count, &[0, 1, 10_000]);
    }
    let equal = random.between(0, 10_000);
    let spans = [(0, 0), (equal, equal), (0, 1), (0, 3), (1, 10), (0, 10_000)];
    let (least, most) = random.pick(&spans);
    spread(random, count, least, most)
}

pub fn rows(random: &mut Random, count: usize, times: Times) -> Vec<i32> {
    let largest_rise = random.pick(&[1, 1, 3, 1_000, 125_000]);
    let one_row = |_| row(random, times, largest_rise);
    (0..count).flat_map(one_row).collect()
}

fn picked(random: &mut Random, count: usize, choices: &[i32]) -> Vec<i32> {
    (0..count).map(|_| random.pick(choices)).collect()
}

/// So many numbers from `least` to `most`.
pub fn spread(random: &mut Random, count: usize, least: i64, most: i64) -> Vec<i32> {
    (0..count)
        .map(|_| random.between(least, most) as i32)
        .collect()
}

fn row(random: &mut Random, times: Times, largest_rise: i64) -> Vec<i32> {
    let used = 1 + random.below(STEPS_A_ROW);
    let mut starts = BTreeSet::from([0]);
    while starts.len() < used {
        starts.insert(start(random, times));
    }
    let mut row = vec![0; 1 + 2 * STEPS_A_ROW];
    row[0] = used as i32;
    let mut cost = 0;
    for (step, start) in starts.into_iter().enumerate() {
        cost += random.between(0, largest_rise);
        row[1 + step] = start as i32;
        row[1 + STEPS_A_ROW + step] = cost as i32;
    }
    row
}

/// Mostly a second at which some train arrives, or one beside it.
fn start(random: &mut Random, times: Times) -> i64 {
    if random.one_in(6) {
        return random.between(0, LARGEST_TIME);
    }
    let changes = random.between(0, 8);
    let headways = random.between(0, 8);
    let departure = changes * i64::from(times.running) + headways * i64::from(times.headway);
    let beside = random.pick(&[0, 0, 0, 1, -1]);
    (departure + i64::from(times.running) + beside).min(LARGEST_TIME)
}
