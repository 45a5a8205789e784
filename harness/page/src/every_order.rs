//! For small sections: the plan found by trying every order of the day.

use crate::day::Day;
use crate::planner::plan_with;
use crate::refusal::Outcome;
use crate::schedule::earliest_schedule;
use crate::section::Section;
use crate::station::{Station, STATIONS};

pub fn plan_by_every_order(section: &Section, departures: &mut [u32]) -> Outcome {
    plan_with(section, departures, best_of_every_order)
}

/// Orders come in dictionary order and only a strictly better one replaces the best.
fn best_of_every_order(day: &Day) -> Vec<Station> {
    let left = STATIONS.map(|station| day.queue(station).len());
    let mut orders = Vec::new();
    push_orders(&mut Vec::new(), left, &mut orders);
    let values = orders.iter().map(|o| day.value(&earliest_schedule(day, o)));
    let best = values
        .enumerate()
        .min_by_key(|&(place, value)| (value, place));
    let (place, _) = best.expect("a day has at least one order");
    orders.swap_remove(place)
}

fn push_orders(begun: &mut Vec<Station>, left: [usize; 2], orders: &mut Vec<Vec<Station>>) {
    if left == [0, 0] {
        orders.push(begun.clone());
        return;
    }
    for station in STATIONS {
        if left[station.index()] > 0 {
            let mut fewer = left;
            fewer[station.index()] -= 1;
            begun.push(station);
            push_orders(begun, fewer, orders);
            begun.pop();
        }
    }
}
