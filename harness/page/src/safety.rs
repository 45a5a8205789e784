//! When a schedule is safe: R1, R2 and R3 for every pair of trains.

use crate::day::Day;

/// The first pair that breaks a rule: smallest first number, then smallest second.
pub fn first_conflict(day: &Day, departures: &[i64]) -> Option<(usize, usize)> {
    let count = departures.len();
    let mut pairs = (0..count).flat_map(|i| (i + 1..count).map(move |j| (i, j)));
    pairs.find(|&(i, j)| !is_pair_safe(day, departures, i, j))
}

/// Train `i` stands before train `j` in train number order.
fn is_pair_safe(day: &Day, departures: &[i64], i: usize, j: usize) -> bool {
    let (here, there) = (day.trains[i].station, day.trains[j].station);
    let apart = (departures[i] - departures[j]).abs() >= day.gap(here, there);
    let ordered = here != there || departures[i] < departures[j];
    apart && (ordered || !day.objective.has_rows())
}
