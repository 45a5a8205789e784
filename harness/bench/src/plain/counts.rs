//! The table of objectives 1 and 2, by the trains left at each station.

use super::clock::Clock;
use super::day::{Day, MOST_TRAINS};
use super::rests::{best, Rests};

#[derive(Clone, Copy)]
struct Cell {
    /// The best from second 0 after station 1's train, and after station 2's.
    after: [i64; 2],
    /// How much more the rest costs for each second that all of it is later.
    rate: i64,
}

const EMPTY: Cell = Cell {
    after: [0, 0],
    rate: 0,
};

pub struct Counts {
    cells: [[Cell; MOST_TRAINS + 1]; MOST_TRAINS + 1],
}

impl Counts {
    pub fn new() -> Counts {
        Counts {
            cells: [[EMPTY; MOST_TRAINS + 1]; MOST_TRAINS + 1],
        }
    }

    pub fn fill(&mut self, day: &Day) {
        for ones in 0..=day.queues[0].count() {
            for twos in 0..=day.queues[1].count() {
                self.cells[ones][twos] = self.cell(day, [ones, twos]);
            }
        }
    }

    fn cell(&self, day: &Day, left: [usize; 2]) -> Cell {
        let next = day.next_trains(left);
        let after = [0, 1].map(|station| {
            let clock = Clock {
                last: Some((station, 0)),
                changes: 0,
                left,
                value: 0,
            };
            best(day, self, clock, next)
        });
        Cell {
            after,
            rate: self.rate(day, left, next),
        }
    }

    fn rate(&self, day: &Day, left: [usize; 2], next: [Option<&[i32]>; 2]) -> i64 {
        let [ones, twos] = left;
        let (figures, fewer) = match next {
            [Some(figures), _] => (figures, &self.cells[ones - 1][twos]),
            [None, Some(figures)] => (figures, &self.cells[ones][twos - 1]),
            [None, None] => return 0,
        };
        let slope = day.objective.cost(figures, 1) - day.objective.cost(figures, 0);
        day.objective.joined(slope, fewer.rate)
    }
}

impl Rests for Counts {
    fn rest(&self, clock: Clock) -> i64 {
        let [ones, twos] = clock.left;
        let cell = &self.cells[ones][twos];
        let (station, departure) = clock.last.unwrap_or((0, 0));
        cell.after[station] + cell.rate * i64::from(departure)
    }
}
