//! The best of the rest of a day, and the walk that keeps to it.

use super::clock::Clock;
use super::day::{Day, MOST_TRAINS};

/// A table of best values.
pub trait Rests {
    /// The best value of the trains that are left after this clock.
    fn rest(&self, clock: Clock) -> i64;
}

/// What the day comes to at best: the value so far with the best of the rest.
#[inline(always)]
fn whole(day: &Day, rests: &impl Rests, clock: Clock) -> i64 {
    if clock.left == [0, 0] {
        return clock.value;
    }
    day.objective.joined(clock.value, rests.rest(clock))
}

/// The best of the rest from a clock whose stations' next trains are given.
#[inline(always)]
pub fn best(day: &Day, rests: &impl Rests, clock: Clock, next: [Option<&[i32]>; 2]) -> i64 {
    let through =
        |station: usize, figures: &[i32]| whole(day, rests, clock.alone(day, station, figures));
    match next {
        [Some(one), Some(two)] => through(0, one).min(through(1, two)),
        [Some(one), None] => through(0, one),
        [None, Some(two)] => through(1, two),
        [None, None] => 0,
    }
}

fn begin(day: &Day) -> Clock {
    Clock {
        last: None,
        changes: 0,
        left: [day.queues[0].count(), day.queues[1].count()],
        value: 0,
    }
}

/// The best value of the whole day.
pub fn goal(day: &Day, rests: &impl Rests) -> i64 {
    let clock = begin(day);
    best(day, rests, clock, day.next_trains(clock.left))
}

/// Each station's departures as its trains leave, station 1's wherever the goal stays in reach.
pub fn walk(day: &Day, rests: &impl Rests, goal: i64) -> [[u32; MOST_TRAINS]; 2] {
    let mut times = [[0; MOST_TRAINS]; 2];
    let mut sent = [0, 0];
    let mut clock = begin(day);
    while let Some(next) = step(day, rests, goal, clock) {
        clock = next;
        if let Some((station, departure)) = clock.last {
            times[station][sent[station]] = departure;
            sent[station] += 1;
        }
    }
    times
}

fn step(day: &Day, rests: &impl Rests, goal: i64, clock: Clock) -> Option<Clock> {
    let [one, two] = day.next_trains(clock.left);
    if let Some(figures) = one {
        let after = clock.next(day, 0, figures);
        if two.is_none() || whole(day, rests, after) <= goal {
            return Some(after);
        }
    }
    two.map(|figures| clock.next(day, 1, figures))
}
