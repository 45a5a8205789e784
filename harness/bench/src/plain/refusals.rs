//! Refusals 1 to 7, in their order.

use linked::Lists;

use super::costs::Objective;

pub struct Refusal {
    pub number: u32,
    pub first: u32,
    pub second: u32,
}

pub fn refused(number: u32, first: usize, second: usize) -> Refusal {
    Refusal {
        number,
        first: first as u32,
        second: second as u32,
    }
}

/// The objective of a call that nothing is wrong with so far.
pub fn accepted(lists: Lists, departures: usize) -> Result<Objective, Refusal> {
    let objective = Objective::numbered(lists.objective).ok_or(refused(1, 0, 0))?;
    if !(2..=10_000).contains(&lists.running) || !(1..lists.running).contains(&lists.headway) {
        return Err(refused(2, 0, 0));
    }
    check_lengths(objective, lists)?;
    let width = objective.numbers_a_train();
    let mut trains = lists
        .one
        .chunks_exact(width)
        .chain(lists.two.chunks_exact(width));
    if let Some(train) = trains.position(|figures| !is_lawful(objective, figures)) {
        return Err(refused(6, train, 0));
    }
    if departures != (lists.one.len() + lists.two.len()) / width {
        return Err(refused(7, 0, 0));
    }
    Ok(objective)
}

fn check_lengths(objective: Objective, lists: Lists) -> Result<(), Refusal> {
    let width = objective.numbers_a_train();
    let most = if objective.has_rows() { 12 } else { 48 };
    let (one, two) = (lists.one.len(), lists.two.len());
    if one % width != 0 || two % width != 0 {
        return Err(refused(3, 0, 0));
    }
    if one == 0 && two == 0 {
        return Err(refused(4, 0, 0));
    }
    if one / width > most || two / width > most {
        return Err(refused(5, 0, 0));
    }
    Ok(())
}

fn is_lawful(objective: Objective, figures: &[i32]) -> bool {
    match objective {
        Objective::LargestLateness => (-1_000_000..=1_000_000).contains(&figures[0]),
        Objective::WeightedArrivals => (0..=10_000).contains(&figures[0]),
        Objective::SumOfCosts | Objective::LargestCost => is_row_lawful(figures),
    }
}

fn is_row_lawful(row: &[i32]) -> bool {
    if !(1..=8).contains(&row[0]) {
        return false;
    }
    let used = row[0] as usize;
    let (starts, costs) = row[1..].split_at(8);
    starts[0] == 0
        && costs[0] >= 0
        && starts[..used].windows(2).all(|pair| pair[0] < pair[1])
        && costs[..used].windows(2).all(|pair| pair[0] <= pair[1])
        && starts[used - 1] <= 1_000_000
        && costs[used - 1] <= 1_000_000
        && starts[used..].iter().all(|&start| start == 0)
        && costs[used..].iter().all(|&cost| cost == 0)
}
