//! The best order of the day, by remembering the best rest of the day after each moment.
//!
//! A moment is exact: how many trains each station has sent, and which station sent the
//! last one at which second. Every departure and cost after it is then decided by the rest
//! of the order alone, so no value ever has to be shifted from one time to another.

use std::collections::HashMap;

use crate::day::Day;
use crate::station::{Station, STATIONS};

#[derive(Clone, Copy, PartialEq, Eq, Hash)]
struct Moment {
    sent: [usize; 2],
    last: Option<(Station, i64)>,
}

const START: Moment = Moment {
    sent: [0, 0],
    last: None,
};

pub struct Search<'a> {
    day: &'a Day,
    queues: [Vec<usize>; 2],
    /// The best value of the trains still to leave.
    best_rests: HashMap<Moment, i64>,
}

impl<'a> Search<'a> {
    pub fn new(day: &'a Day) -> Search<'a> {
        Search {
            day,
            queues: STATIONS.map(|station| day.queue(station)),
            best_rests: HashMap::new(),
        }
    }

    /// The dictionary-first order among those whose schedule has the best value.
    ///
    /// A better rest never makes a worse day, so a beginning can still reach the day's best
    /// value exactly when it does so with its best rest. 1 is kept wherever that holds.
    pub fn best_order(&mut self) -> Vec<Station> {
        let mut moment = START;
        let mut so_far = None;
        let mut order = Vec::new();
        let best = self.best_rest(START).expect("a day has at least one train");
        while let Some((station, next, value)) = self.first_that_reaches(best, moment, so_far) {
            order.push(station);
            moment = next;
            so_far = Some(value);
        }
        order
    }

    /// The first station that can go on to the day's best value; `None` at the day's end.
    fn first_that_reaches(
        &mut self,
        best: i64,
        moment: Moment,
        so_far: Option<i64>,
    ) -> Option<(Station, Moment, i64)> {
        for station in STATIONS {
            let Some((next, cost)) = self.send(moment, station) else {
                continue;
            };
            let value = self.gather(so_far, cost);
            let rest = self.best_rest(next);
            if self.gather(rest, value) == best {
                return Some((station, next, value));
            }
        }
        None
    }

    /// The best value of the trains still to leave; `None` when all have left.
    fn best_rest(&mut self, moment: Moment) -> Option<i64> {
        if let Some(&known) = self.best_rests.get(&moment) {
            return Some(known);
        }
        let mut best: Option<i64> = None;
        for station in STATIONS {
            if let Some((next, cost)) = self.send(moment, station) {
                let rest = self.best_rest(next);
                let value = self.gather(rest, cost);
                best = Some(best.map_or(value, |b| b.min(value)));
            }
        }
        if let Some(best) = best {
            self.best_rests.insert(moment, best);
        }
        best
    }

    /// Sends the station's next train as early as allowed: the moment after, and its cost.
    ///
    /// Only the last departure counts: any earlier one is at least a headway before it, and
    /// a running time before it where the stations differ.
    fn send(&self, moment: Moment, station: Station) -> Option<(Moment, i64)> {
        let at = station.index();
        let train = *self.queues[at].get(moment.sent[at])?;
        let departure = match moment.last {
            None => 0,
            Some((last, second)) => second + self.day.gap(last, station),
        };
        let mut sent = moment.sent;
        sent[at] += 1;
        let next = Moment {
            sent,
            last: Some((station, departure)),
        };
        Some((next, self.day.cost(train, departure)))
    }

    fn gather(&self, some: Option<i64>, value: i64) -> i64 {
        some.map_or(value, |s| self.day.objective.gather(s, value))
    }
}
