//! Recorded departures: safe ones, tight or with waiting, and ones a little off.

use page::Section;

use crate::random::Random;
use crate::sections::numbers_a_train;

const LATEST_DEPARTURE: i64 = 10_000_000;

pub fn train_counts(section: &Section) -> (usize, usize) {
    let width = numbers_a_train(section.objective);
    (section.one.len() / width, section.two.len() / width)
}

/// Departures for an accepted section, safe about half the time.
pub fn any_departures(random: &mut Random, section: &Section) -> Vec<u32> {
    let longest_wait = random.pick(&[0, 0, 1, 5, 20_000]);
    let mut departures = safe_departures(random, section, longest_wait);
    if random.one_in(2) {
        disturb(random, &mut departures);
    }
    departures.into_iter().map(as_departure).collect()
}

fn as_departure(second: i64) -> u32 {
    second.clamp(0, i64::from(u32::MAX)) as u32
}

/// A random order of the day, each train up to `longest_wait` seconds after it could leave.
fn safe_departures(random: &mut Random, section: &Section, longest_wait: i64) -> Vec<i64> {
    let (ones, _) = train_counts(section);
    let order = random_order(random, section);
    let mut departures = vec![0; order.len()];
    let mut now = random.between(0, longest_wait);
    let mut last = None;
    for train in order {
        let at_two = train >= ones;
        now += match last {
            None => 0,
            Some(before) if before == at_two => i64::from(section.headway),
            Some(_) => i64::from(section.running),
        };
        now += random.between(0, longest_wait);
        departures[train] = now;
        last = Some(at_two);
    }
    departures
}

/// Train numbers in the order they leave; under rows each station keeps its list order.
fn random_order(random: &mut Random, section: &Section) -> Vec<usize> {
    let (ones, twos) = train_counts(section);
    let mut at_one: Vec<usize> = (0..ones).collect();
    let mut at_two: Vec<usize> = (ones..ones + twos).collect();
    if section.objective < 3 {
        random.shuffle(&mut at_one);
        random.shuffle(&mut at_two);
    }
    let mut turns: Vec<bool> = (0..ones + twos).map(|train| train >= ones).collect();
    random.shuffle(&mut turns);
    let mut queues = [at_one.into_iter(), at_two.into_iter()];
    let next = |turn: bool| queues[usize::from(turn)].next();
    turns.into_iter().filter_map(next).collect()
}

fn disturb(random: &mut Random, departures: &mut [i64]) {
    let train = random.below(departures.len());
    match random.below(5) {
        0 => departures[train] += random.pick(&[-1, 1]),
        1 => departures.swap(train, 0),
        2 => departures[train] = random.between(0, departures[train] + 20),
        3 => shift_to_the_limit(random, departures),
        _ => departures[train] = random.pick(&[LATEST_DEPARTURE + 1, i64::from(u32::MAX)]),
    }
}

/// Moves the whole schedule so that its last departure is about the latest one allowed.
fn shift_to_the_limit(random: &mut Random, departures: &mut [i64]) {
    let last = departures.iter().copied().max().unwrap_or(0);
    let shift = LATEST_DEPARTURE + random.pick(&[0, 0, 1]) - last;
    for departure in departures {
        *departure += shift;
    }
}
