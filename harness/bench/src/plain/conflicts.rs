//! Refusals 8 and 9 of the judge.

use linked::Lists;

use super::costs::Objective;
use super::refusals::{refused, Refusal};

pub fn check_late(departures: &[u32]) -> Result<(), Refusal> {
    match departures.iter().position(|&d| d > 10_000_000) {
        Some(train) => Err(refused(8, train, 0)),
        None => Ok(()),
    }
}

/// Every pair of trains, in the order of their numbers.
pub fn check_pairs(objective: Objective, lists: Lists, departures: &[u32]) -> Result<(), Refusal> {
    let ones = lists.one.len() / objective.numbers_a_train();
    for (i, &departure) in departures.iter().enumerate() {
        let later = departures.iter().enumerate().skip(i + 1);
        for (j, &other) in later {
            let same = (i < ones) == (j < ones);
            let gap = if same { lists.headway } else { lists.running };
            let unordered = same && objective.has_rows() && departure >= other;
            if departure.abs_diff(other) < gap || unordered {
                return Err(refused(9, i, j));
            }
        }
    }
    Ok(())
}
