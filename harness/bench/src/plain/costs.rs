//! The objectives and what an arrival costs under them.

#[derive(Clone, Copy, PartialEq, Eq)]
pub enum Objective {
    LargestLateness,
    WeightedArrivals,
    SumOfCosts,
    LargestCost,
}

use Objective::{LargestCost, LargestLateness, SumOfCosts, WeightedArrivals};

impl Objective {
    pub fn numbered(number: u32) -> Option<Objective> {
        match number {
            1 => Some(LargestLateness),
            2 => Some(WeightedArrivals),
            3 => Some(SumOfCosts),
            4 => Some(LargestCost),
            _ => None,
        }
    }

    pub fn has_rows(self) -> bool {
        matches!(self, SumOfCosts | LargestCost)
    }

    pub fn numbers_a_train(self) -> usize {
        if self.has_rows() {
            17
        } else {
            1
        }
    }

    #[inline(always)]
    pub fn cost(self, figures: &[i32], arrival: u32) -> i64 {
        match self {
            LargestLateness => i64::from(arrival) - i64::from(figures[0]),
            WeightedArrivals => i64::from(figures[0]) * i64::from(arrival),
            SumOfCosts | LargestCost => cost_of_row(figures, arrival),
        }
    }

    #[inline]
    pub fn joined(self, left: i64, right: i64) -> i64 {
        match self {
            LargestLateness | LargestCost => left.max(right),
            WeightedArrivals | SumOfCosts => left + right,
        }
    }
}

/// The cost of the last used step whose start is not after the arrival; starts ascend.
fn cost_of_row(row: &[i32], arrival: u32) -> i64 {
    let used = row[0] as usize;
    let (starts, costs) = row[1..].split_at(8);
    let starts = starts[..used].iter();
    let reached = starts.filter(|&&start| start as u32 <= arrival).count();
    i64::from(costs[reached - 1])
}
