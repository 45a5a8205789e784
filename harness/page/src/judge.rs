//! The judge: recorded departures to their value or the first refusal.

use crate::day::Day;
use crate::refusal::{Outcome, Refusal};
use crate::safety::first_conflict;
use crate::section::Section;

const LATEST_DEPARTURE: u32 = 10_000_000;

pub fn judge(section: &Section, recorded: &[u32]) -> Outcome {
    let day = Day::accept(section)?;
    if recorded.len() != day.trains.len() {
        return Err(Refusal::plain(7));
    }
    if let Some(train) = recorded.iter().position(|&d| d > LATEST_DEPARTURE) {
        return Err(Refusal::of_train(8, train));
    }
    let departures: Vec<i64> = recorded.iter().map(|&d| i64::from(d)).collect();
    match first_conflict(&day, &departures) {
        Some((first, second)) => Err(Refusal::of_pair(9, first, second)),
        None => Ok(day.value(&departures)),
    }
}
