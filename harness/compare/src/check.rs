//! Gives one input to both sides and compares what they hand back.

use linked::{Handed, Lists};
use page::{Outcome, Section};

use crate::recorded::train_counts;
use crate::tally::{Call, Ending, Seen};

/// One question for both sides.
#[derive(Clone, Debug)]
pub enum Input {
    Text(Vec<u8>),
    /// The departures as they stand before the call.
    Plan(Section, Vec<u32>),
    Judge(Section, Vec<u32>),
}

/// Two answers that should have been equal.
#[derive(Debug)]
pub struct Difference {
    pub sides: [(&'static str, String); 2],
}

/// At most this many trains and the plan is also found by trying every order.
const FEW_TRAINS: usize = 8;

pub fn check(input: &Input) -> Result<Seen, Difference> {
    match input {
        Input::Text(text) => check_text(text),
        Input::Plan(section, departures) => check_plan(section, departures),
        Input::Judge(section, departures) => check_judge(section, departures),
    }
}

pub fn check_text(text: &[u8]) -> Result<Seen, Difference> {
    let expected = String::from_utf8_lossy(&page::answer_text(text)).into_owned();
    let answered = String::from_utf8_lossy(&linked::answer_text(text)).into_owned();
    same("page", &expected, "linked", &answered)?;
    let objective = page::read(text).map_or(0, |file| file.section.objective);
    Ok(Seen {
        call: Call::Text,
        ending: Ending::of_answer(&expected, objective),
    })
}

fn check_plan(section: &Section, before: &[u32]) -> Result<Seen, Difference> {
    let mut expected = before.to_vec();
    let outcome = page::plan(section, &mut expected);
    let mut answered = before.to_vec();
    let handed = linked::plan(lists(section), &mut answered);
    let wanted = (as_handed(outcome), expected);
    same("page", &wanted, "linked", &(handed, answered))?;
    let (ones, twos) = train_counts(section);
    if outcome.is_ok() && ones + twos <= FEW_TRAINS {
        let mut tried = before.to_vec();
        let every = page::plan_by_every_order(section, &mut tried);
        same("page", &wanted, "every order", &(as_handed(every), tried))?;
    }
    Ok(Seen {
        call: Call::Plan,
        ending: Ending::of_outcome(outcome, Ending::Planned(section.objective)),
    })
}

fn check_judge(section: &Section, departures: &[u32]) -> Result<Seen, Difference> {
    let outcome = page::judge(section, departures);
    let handed = linked::judge(lists(section), departures);
    same("page", &as_handed(outcome), "linked", &handed)?;
    Ok(Seen {
        call: Call::Judge,
        ending: Ending::of_outcome(outcome, Ending::Judged(section.objective)),
    })
}

fn same<T: PartialEq + std::fmt::Debug>(
    left_name: &'static str,
    left: &T,
    right_name: &'static str,
    right: &T,
) -> Result<(), Difference> {
    if left == right {
        return Ok(());
    }
    let sides = [
        (left_name, format!("{left:?}")),
        (right_name, format!("{right:?}")),
    ];
    Err(Difference { sides })
}

pub fn lists(section: &Section) -> Lists<'_> {
    Lists {
        objective: section.objective,
        running: section.running,
        headway: section.headway,
        one: &section.one,
        two: &section.two,
    }
}

/// What a call must hand back for an outcome of the page.
fn as_handed(outcome: Outcome) -> Handed {
    match outcome {
        Ok(value) => Handed {
            number: 0,
            value,
            first: 0,
            second: 0,
        },
        Err(refusal) => Handed {
            number: refusal.number,
            value: 0,
            first: refusal.first,
            second: refusal.second,
        },
    }
}
