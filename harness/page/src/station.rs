//! The two ends of the line.

#[derive(Clone, Copy, Debug, PartialEq, Eq, Hash)]
pub enum Station {
    One,
    Two,
}

/// Dictionary order: 1 before 2.
pub const STATIONS: [Station; 2] = [Station::One, Station::Two];

impl Station {
    pub fn index(self) -> usize {
        self as usize
    }

    pub fn number(self) -> usize {
        self as usize + 1
    }
}
