//! What one train asks for, and the cost of an arrival under it.

use crate::objective::Objective;

#[derive(Clone, Debug)]
pub enum Need {
    Due(i64),
    Weight(i64),
    /// The used steps of a row, first to last.
    Row(Vec<Step>),
}

#[derive(Clone, Copy, Debug)]
pub struct Step {
    start: i64,
    cost: i64,
}

const LARGEST_TIME: i64 = 1_000_000;
const LARGEST_WEIGHT: i64 = 10_000;
const LARGEST_COST: i64 = 1_000_000;
const STEPS_A_ROW: usize = 8;

impl Need {
    /// Reads one train's numbers; `None` where they break their rule (refusal 6).
    pub fn read(objective: Objective, numbers: &[i32]) -> Option<Need> {
        let only = i64::from(numbers[0]);
        match objective {
            Objective::LargestLateness => (-LARGEST_TIME..=LARGEST_TIME)
                .contains(&only)
                .then_some(Need::Due(only)),
            Objective::WeightedArrivals => (0..=LARGEST_WEIGHT)
                .contains(&only)
                .then_some(Need::Weight(only)),
            Objective::SumOfCosts | Objective::LargestCost => read_row(numbers).map(Need::Row),
        }
    }

    pub fn cost(&self, arrival: i64) -> i64 {
        match self {
            Need::Due(due) => arrival - due,
            Need::Weight(weight) => weight * arrival,
            Need::Row(steps) => cost_of_steps(steps, arrival),
        }
    }
}

/// The last step whose start is not after the arrival; the first start is 0, so there is one.
fn cost_of_steps(steps: &[Step], arrival: i64) -> i64 {
    let reached = steps.iter().rev().find(|step| step.start <= arrival);
    reached.expect("the first step starts at second 0").cost
}

fn read_row(row: &[i32]) -> Option<Vec<Step>> {
    let used = usize::try_from(row[0]).ok()?;
    if !(1..=STEPS_A_ROW).contains(&used) {
        return None;
    }
    let (starts, costs) = row[1..].split_at(STEPS_A_ROW);
    let mut blanks = starts[used..].iter().chain(&costs[used..]);
    let steps: Vec<Step> = starts.iter().zip(costs).take(used).map(step).collect();
    (blanks.all(|&blank| blank == 0) && are_lawful(&steps)).then_some(steps)
}

fn step((&start, &cost): (&i32, &i32)) -> Step {
    Step {
        start: i64::from(start),
        cost: i64::from(cost),
    }
}

/// Starts ascend strictly from 0 and costs never fall, both within their bounds.
fn are_lawful(steps: &[Step]) -> bool {
    steps[0].start == 0
        && steps.windows(2).all(|w| w[0].start < w[1].start)
        && steps.windows(2).all(|w| w[0].cost <= w[1].cost)
        && steps.iter().all(|s| s.start <= LARGEST_TIME)
        && steps.iter().all(|s| (0..=LARGEST_COST).contains(&s.cost))
}
