//! A section that passed refusals 1 to 6, with its trains in train number order.

use std::cmp::Reverse;

use crate::need::Need;
use crate::objective::Objective;
use crate::refusal::Refusal;
use crate::section::Section;
use crate::station::Station;

#[derive(Clone, Debug)]
pub struct Day {
    pub objective: Objective,
    pub running: i64,
    pub headway: i64,
    pub trains: Vec<Train>,
}

#[derive(Clone, Debug)]
pub struct Train {
    pub station: Station,
    pub need: Need,
}

impl Day {
    /// Tries refusals 1 to 6 in their order.
    pub fn accept(section: &Section) -> Result<Day, Refusal> {
        let objective = Objective::numbered(section.objective).ok_or(Refusal::plain(1))?;
        check_times(section)?;
        check_lengths(section, objective)?;
        Ok(Day {
            objective,
            running: i64::from(section.running),
            headway: i64::from(section.headway),
            trains: read_trains(section, objective)?,
        })
    }

    /// How far apart two departures must be: R1 for one station, R2 for two.
    pub fn gap(&self, earlier: Station, later: Station) -> i64 {
        if earlier == later {
            self.headway
        } else {
            self.running
        }
    }

    /// The cost of one train's arrival when it leaves at this second.
    pub fn cost(&self, train: usize, departure: i64) -> i64 {
        self.trains[train].need.cost(departure + self.running)
    }

    /// The value of a whole schedule, in train number order.
    pub fn value(&self, departures: &[i64]) -> i64 {
        let costs = departures.iter().enumerate().map(|(i, &d)| self.cost(i, d));
        let value = costs.reduce(|left, right| self.objective.gather(left, right));
        value.expect("a day has at least one train")
    }

    /// The numbers of one station's trains in that station's own order.
    pub fn queue(&self, station: Station) -> Vec<usize> {
        let all = 0..self.trains.len();
        let mut queue: Vec<usize> = all.filter(|&i| self.trains[i].station == station).collect();
        // The sort is stable, so equal ones stay in list order.
        queue.sort_by_key(|&i| match self.trains[i].need {
            Need::Due(due) => (due, Reverse(0)),
            Need::Weight(weight) => (0, Reverse(weight)),
            Need::Row(_) => (0, Reverse(0)),
        });
        queue
    }
}

fn check_times(section: &Section) -> Result<(), Refusal> {
    let running_fits = (2..=10_000).contains(&section.running);
    if running_fits && (1..section.running).contains(&section.headway) {
        Ok(())
    } else {
        Err(Refusal::plain(2))
    }
}

/// Refusals 3, 4 and 5.
fn check_lengths(section: &Section, objective: Objective) -> Result<(), Refusal> {
    let width = objective.numbers_a_train();
    let lengths = [section.one.len(), section.two.len()];
    let most = objective.most_trains_a_station();
    if lengths.iter().any(|length| length % width != 0) {
        Err(Refusal::plain(3))
    } else if lengths == [0, 0] {
        Err(Refusal::plain(4))
    } else if lengths.iter().any(|length| length / width > most) {
        Err(Refusal::plain(5))
    } else {
        Ok(())
    }
}

/// Refusal 6 names the first train whose numbers break their rule.
fn read_trains(section: &Section, objective: Objective) -> Result<Vec<Train>, Refusal> {
    let width = objective.numbers_a_train();
    let ones = section.one.chunks(width).map(|n| (Station::One, n));
    let twos = section.two.chunks(width).map(|n| (Station::Two, n));
    let all = ones.chain(twos).enumerate();
    all.map(|(i, (station, numbers))| {
        let need = Need::read(objective, numbers).ok_or(Refusal::of_train(6, i))?;
        Ok(Train { station, need })
    })
    .collect()
}
