//! Refusal numbers and the places that go with them.

#[derive(Clone, Copy, Debug, PartialEq, Eq)]
pub struct Refusal {
    pub number: u32,
    pub first: u32,
    pub second: u32,
}

/// The value where the call is accepted.
pub type Outcome = Result<i64, Refusal>;

impl Refusal {
    /// A refusal that names no train.
    pub fn plain(number: u32) -> Refusal {
        Refusal::of_pair(number, 0, 0)
    }

    pub fn of_train(number: u32, train: usize) -> Refusal {
        Refusal::of_pair(number, train, 0)
    }

    pub fn of_pair(number: u32, first: usize, second: usize) -> Refusal {
        Refusal {
            number,
            first: first as u32,
            second: second as u32,
        }
    }
}
