//! The table of objectives 3 and 4, by the trains left and the changes of station so far.

use super::clock::Clock;
use super::day::Day;
use super::rests::{best, Rests};

const MOST_ROWS: usize = 12;

/// By the changes so far, the best after station 1's train and after station 2's.
type Cell = [[i64; 2]; 2 * MOST_ROWS];

pub struct Changes {
    cells: [[Cell; MOST_ROWS + 1]; MOST_ROWS + 1],
}

impl Changes {
    pub fn new() -> Changes {
        Changes {
            cells: [[[[0; 2]; 2 * MOST_ROWS]; MOST_ROWS + 1]; MOST_ROWS + 1],
        }
    }

    pub fn fill(&mut self, day: &Day) {
        for ones in 0..=day.queues[0].count() {
            for twos in 0..=day.queues[1].count() {
                self.fill_cell(day, [ones, twos]);
            }
        }
    }

    fn fill_cell(&mut self, day: &Day, left: [usize; 2]) {
        let next = day.next_trains(left);
        let [ones, twos] = left;
        let gone = day.queues[0].count() + day.queues[1].count() - (ones + twos);
        for changes in 0..gone {
            let departure = seconds(day, changes, gone);
            let after = [0, 1].map(|station| {
                let clock = Clock {
                    last: Some((station, departure)),
                    changes,
                    left,
                    value: 0,
                };
                best(day, self, clock, next)
            });
            self.cells[ones][twos][changes] = after;
        }
    }
}

/// The departure of the last of `gone` trains with so many changes among them.
fn seconds(day: &Day, changes: usize, gone: usize) -> u32 {
    changes as u32 * day.running + (gone - 1 - changes) as u32 * day.headway
}

impl Rests for Changes {
    fn rest(&self, clock: Clock) -> i64 {
        let [ones, twos] = clock.left;
        let station = clock.last.map_or(0, |(station, _)| station);
        self.cells[ones][twos][clock.changes][station]
    }
}
