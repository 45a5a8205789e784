//! The product's own tables in plain Rust, to be timed beside it.
//!
//! Same algorithm, same checks, same order of work; no proofs and no unsafe code. What runs
//! for every cell is marked to be inlined: left to the compiler, it takes more than twice as long.

mod changes;
mod clock;
mod conflicts;
mod costs;
mod counts;
mod day;
mod refusals;
mod rests;

use linked::{Handed, Lists};

use changes::Changes;
use costs::Objective;
use counts::Counts;
use day::Day;
use refusals::{refused, Refusal};
use rests::Rests;

#[inline(never)]
pub fn plan(lists: Lists, departures: &mut [u32]) -> Handed {
    handed(try_plan(lists, departures))
}

#[inline(never)]
pub fn judge(lists: Lists, departures: &[u32]) -> Handed {
    handed(try_judge(lists, departures))
}

fn try_plan(lists: Lists, departures: &mut [u32]) -> Result<i64, Refusal> {
    let objective = refusals::accepted(lists, departures.len())?;
    let day = Day::new(objective, lists);
    if objective.has_rows() {
        let mut changes = Changes::new();
        changes.fill(&day);
        Ok(write_best(&day, &changes, departures))
    } else {
        let mut counts = Counts::new();
        counts.fill(&day);
        Ok(write_best(&day, &counts, departures))
    }
}

/// Walks the best day and writes its departures, station 2's right after station 1's.
fn write_best(day: &Day, rests: &impl Rests, departures: &mut [u32]) -> i64 {
    let goal = rests::goal(day, rests);
    let times = rests::walk(day, rests, goal);
    let (ones, twos) = departures.split_at_mut(day.queues[0].count());
    for (part, (queue, times)) in [ones, twos].into_iter().zip(day.queues.iter().zip(&times)) {
        for (&place, &time) in queue.places().iter().zip(times) {
            part[place] = time;
        }
    }
    goal
}

fn try_judge(lists: Lists, departures: &[u32]) -> Result<i64, Refusal> {
    let objective = refusals::accepted(lists, departures.len())?;
    conflicts::check_late(departures)?;
    conflicts::check_pairs(objective, lists, departures)?;
    Ok(total(objective, lists, departures))
}

fn total(objective: Objective, lists: Lists, departures: &[u32]) -> i64 {
    let width = objective.numbers_a_train();
    let trains = lists
        .one
        .chunks_exact(width)
        .chain(lists.two.chunks_exact(width));
    let costs = trains
        .zip(departures)
        .map(|(figures, departure)| objective.cost(figures, departure + lists.running));
    costs
        .reduce(|total, cost| objective.joined(total, cost))
        .unwrap_or(0)
}

fn handed(outcome: Result<i64, Refusal>) -> Handed {
    let (value, refusal) = match outcome {
        Ok(value) => (value, refused(0, 0, 0)),
        Err(refusal) => (0, refusal),
    };
    Handed {
        number: refusal.number,
        value,
        first: refusal.first,
        second: refusal.second,
    }
}
