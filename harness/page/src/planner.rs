//! The planner: the lists to the best departures and their value.

use crate::day::Day;
use crate::refusal::{Outcome, Refusal};
use crate::schedule::earliest_schedule;
use crate::search::Search;
use crate::section::Section;
use crate::station::Station;

/// Sets every departure where accepted and none where refused.
pub fn plan(section: &Section, departures: &mut [u32]) -> Outcome {
    plan_with(section, departures, |day| Search::new(day).best_order())
}

/// A plan whose order of the day is chosen by `choose`.
pub fn plan_with(
    section: &Section,
    departures: &mut [u32],
    choose: impl Fn(&Day) -> Vec<Station>,
) -> Outcome {
    let day = Day::accept(section)?;
    if departures.len() != day.trains.len() {
        return Err(Refusal::plain(7));
    }
    let schedule = earliest_schedule(&day, &choose(&day));
    for (place, &departure) in departures.iter_mut().zip(&schedule) {
        *place = u32::try_from(departure).expect("96 gaps of 10,000 seconds fit");
    }
    Ok(day.value(&schedule))
}
