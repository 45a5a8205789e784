//! What is planned for: the objective, the times and both stations' trains in their order.

use std::cmp::Reverse;

use linked::Lists;

use super::costs::Objective;

pub const MOST_TRAINS: usize = 48;

pub struct Day<'a> {
    pub objective: Objective,
    pub running: u32,
    pub headway: u32,
    pub queues: [Queue<'a>; 2],
}

/// A station's list and the places of its trains, in the station's own order.
pub struct Queue<'a> {
    list: &'a [i32],
    width: usize,
    count: usize,
    places: [usize; MOST_TRAINS],
}

impl<'a> Day<'a> {
    pub fn new(objective: Objective, lists: Lists<'a>) -> Day<'a> {
        Day {
            objective,
            running: lists.running,
            headway: lists.headway,
            queues: [lists.one, lists.two].map(|list| Queue::new(objective, list)),
        }
    }

    /// The figures of each station's next train, by how many are left there.
    pub fn next_trains(&self, left: [usize; 2]) -> [Option<&'a [i32]>; 2] {
        [self.queues[0].next(left[0]), self.queues[1].next(left[1])]
    }
}

impl<'a> Queue<'a> {
    fn new(objective: Objective, list: &'a [i32]) -> Queue<'a> {
        let width = objective.numbers_a_train();
        let count = list.len() / width;
        let mut places = std::array::from_fn(|place| place);
        match objective {
            Objective::LargestLateness => places[..count].sort_by_key(|&place| list[place]),
            Objective::WeightedArrivals => {
                places[..count].sort_by_key(|&place| Reverse(list[place]));
            }
            Objective::SumOfCosts | Objective::LargestCost => {}
        }
        Queue {
            list,
            width,
            count,
            places,
        }
    }

    pub fn count(&self) -> usize {
        self.count
    }

    pub fn places(&self) -> &[usize] {
        &self.places[..self.count]
    }

    fn next(&self, left: usize) -> Option<&'a [i32]> {
        if left == 0 {
            return None;
        }
        let at = self.places[self.count - left] * self.width;
        Some(&self.list[at..at + self.width])
    }
}
