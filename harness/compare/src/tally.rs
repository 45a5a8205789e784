//! Counts what was seen, so that a run that missed an outcome does not pass.

use std::collections::BTreeMap;
use std::fmt;

use page::Outcome;

#[derive(Clone, Copy, Debug, PartialEq, Eq, PartialOrd, Ord)]
pub enum Call {
    Text,
    Plan,
    Judge,
}

/// How an input ended; accepted ones by their objective.
#[derive(Clone, Copy, Debug, PartialEq, Eq, PartialOrd, Ord)]
pub enum Ending {
    Planned(u32),
    Judged(u32),
    Unreadable,
    Refused(u32),
}

#[derive(Clone, Copy, Debug, PartialEq, Eq, PartialOrd, Ord)]
pub struct Seen {
    pub ending: Ending,
    pub call: Call,
}

#[derive(Default)]
pub struct Tally {
    counts: BTreeMap<Seen, u64>,
}

const CALLS: [Call; 3] = [Call::Text, Call::Plan, Call::Judge];

impl Ending {
    pub fn of_outcome(outcome: Outcome, accepted: Ending) -> Ending {
        match outcome {
            Ok(_) => accepted,
            Err(refusal) => Ending::Refused(refusal.number),
        }
    }

    /// The ending of a printed answer, from its first two words.
    pub fn of_answer(answer: &str, objective: u32) -> Ending {
        let mut words = answer.split_whitespace();
        match words.next() {
            Some("planned") => Ending::Planned(objective),
            Some("judged") => Ending::Judged(objective),
            Some("refused") => {
                let number = words.next().and_then(|word| word.parse().ok());
                Ending::Refused(number.expect("a refusal has its number"))
            }
            _ => Ending::Unreadable,
        }
    }

    fn all() -> impl Iterator<Item = Ending> {
        let accepted = (1..=4)
            .map(Ending::Planned)
            .chain((1..=4).map(Ending::Judged));
        accepted
            .chain([Ending::Unreadable])
            .chain((1..=9).map(Ending::Refused))
    }

    /// Whether this kind of call can end so.
    fn can_follow(self, call: Call) -> bool {
        match (self, call) {
            (Ending::Planned(_), Call::Judge) => false,
            (Ending::Judged(_), Call::Plan) => false,
            (Ending::Unreadable, call) => call == Call::Text,
            (Ending::Refused(number), Call::Plan) => number <= 7,
            _ => true,
        }
    }
}

impl fmt::Display for Ending {
    fn fmt(&self, f: &mut fmt::Formatter) -> fmt::Result {
        match self {
            Ending::Planned(objective) => write!(f, "planned, objective {objective}"),
            Ending::Judged(objective) => write!(f, "judged, objective {objective}"),
            Ending::Unreadable => write!(f, "unreadable"),
            Ending::Refused(number) => write!(f, "refused {number}"),
        }
    }
}

impl Tally {
    pub fn add(&mut self, seen: Seen) {
        *self.counts.entry(seen).or_default() += 1;
    }

    pub fn total(&self) -> u64 {
        self.counts.values().sum()
    }

    /// Every ending that some call can have and that none had.
    pub fn missing(&self) -> Vec<Seen> {
        let pairs = Ending::all().flat_map(|ending| CALLS.map(|call| Seen { ending, call }));
        pairs
            .filter(|seen| seen.ending.can_follow(seen.call) && self.count(*seen) == 0)
            .collect()
    }

    fn count(&self, seen: Seen) -> u64 {
        self.counts.get(&seen).copied().unwrap_or(0)
    }
}

impl fmt::Display for Tally {
    fn fmt(&self, f: &mut fmt::Formatter) -> fmt::Result {
        writeln!(f, "{:<22}{:>10}{:>10}{:>10}", "", "text", "plan", "judge")?;
        for ending in Ending::all() {
            write!(f, "{:<22}", ending.to_string())?;
            for call in CALLS {
                write!(f, "{:>10}", self.count(Seen { ending, call }))?;
            }
            writeln!(f)?;
        }
        Ok(())
    }
}
