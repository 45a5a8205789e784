//! The four objectives: what a list holds for each train and how costs make a value.

#[derive(Clone, Copy, Debug, PartialEq, Eq)]
pub enum Objective {
    LargestLateness,
    WeightedArrivals,
    SumOfCosts,
    LargestCost,
}

impl Objective {
    pub fn numbered(number: u32) -> Option<Objective> {
        match number {
            1 => Some(Objective::LargestLateness),
            2 => Some(Objective::WeightedArrivals),
            3 => Some(Objective::SumOfCosts),
            4 => Some(Objective::LargestCost),
            _ => None,
        }
    }

    /// Objectives 3 and 4: a row a train, and trains of one station leave in list order.
    pub fn has_rows(self) -> bool {
        matches!(self, Objective::SumOfCosts | Objective::LargestCost)
    }

    pub fn numbers_a_train(self) -> usize {
        if self.has_rows() {
            17
        } else {
            1
        }
    }

    pub fn most_trains_a_station(self) -> usize {
        if self.has_rows() {
            12
        } else {
            48
        }
    }

    /// Puts two values together: their sum or the larger of them.
    pub fn gather(self, left: i64, right: i64) -> i64 {
        match self {
            Objective::WeightedArrivals | Objective::SumOfCosts => left + right,
            Objective::LargestLateness | Objective::LargestCost => left.max(right),
        }
    }
}
