//! From an order of the whole day to its schedule.

use crate::day::Day;
use crate::station::{Station, STATIONS};

/// Departures in train number order: the first train leaves at 0, each later one as early
/// as R1 and R2 allow against all trains sent before it.
pub fn earliest_schedule(day: &Day, order: &[Station]) -> Vec<i64> {
    let mut queues = STATIONS.map(|station| day.queue(station).into_iter());
    let mut departures = vec![0; day.trains.len()];
    let mut sent: Vec<(Station, i64)> = Vec::new();
    for &station in order {
        let waits = sent
            .iter()
            .map(|&(earlier, d)| d + day.gap(earlier, station));
        let departure = waits.max().unwrap_or(0);
        let train = queues[station.index()].next();
        departures[train.expect("the order sends no more trains than there are")] = departure;
        sent.push((station, departure));
    }
    departures
}
