//! bench [stack [KIB]]
//!
//! Times the linked product beside the same tables in plain Rust, or finds the least stack that
//! the program and `plan` need. With a number: plans in a thread with so little stack.

mod cases;
mod files;
mod plain;
mod program;
mod stack;
mod timing;

use std::env;
use std::hint::black_box;
use std::process::ExitCode;

use linked::{Handed, Lists};

use cases::{cases, sizes, Case};
use timing::alternate;

fn main() -> ExitCode {
    let words: Vec<String> = env::args().skip(1).collect();
    let kib = words.get(1).and_then(|word| word.parse().ok());
    match (words.first().map(String::as_str), words.len(), kib) {
        (None, ..) => print_times(),
        (Some("stack"), 1, _) => stack::print_table(),
        (Some("stack"), 2, Some(kib)) => stack::plan_within(kib),
        _ => {
            eprintln!("usage: bench [stack [KIB]]");
            return ExitCode::from(2);
        }
    }
    ExitCode::SUCCESS
}

fn print_times() {
    println!("Nanoseconds a call, both sides in one run; growth is the proved side's.");
    table("plan", |cases| {
        alternate(
            cases.len(),
            || plan_all(cases, linked::plan),
            || plan_all(cases, plain::plan),
        )
    });
    table("judge", |cases| {
        alternate(
            cases.len(),
            || judge_all(cases, linked::judge),
            || judge_all(cases, plain::judge),
        )
    });
    files::print_table();
    println!("\nCleared by each planning call: proved, the tables of both kinds of objective;");
    println!("plain, only the table of the objective at hand.");
}

/// One row a size; `time` gives the proved side's time and the plain side's.
fn table(name: &str, time: impl Fn(&[Case]) -> [f64; 2]) {
    println!(
        "\n{name:<10}{:>8}{:>12}{:>12}{:>8}{:>8}",
        "trains", "proved", "plain", "ratio", "growth"
    );
    for objective in 1..=4 {
        let mut before = None;
        for &trains in sizes(objective) {
            let [proved, plain] = time(&cases(objective, trains));
            let growth = before.map_or("-".to_string(), |b| format!("{:.2}", proved / b));
            let ratio = proved / plain;
            println!(
                "{:<10}{trains:>8}{proved:>12.0}{plain:>12.0}{ratio:>8.2}{growth:>8}",
                format!("objective {objective}")
            );
            before = Some(proved);
        }
    }
}

fn plan_all(cases: &[Case], plan: impl Fn(Lists, &mut [u32]) -> Handed) {
    let mut departures = [0; 96];
    for case in cases {
        let departures = &mut departures[..case.departures.len()];
        black_box(plan(black_box(case.lists()), departures));
        black_box(&departures);
    }
}

fn judge_all(cases: &[Case], judge: impl Fn(Lists, &[u32]) -> Handed) {
    for case in cases {
        black_box(judge(black_box(case.lists()), black_box(&case.departures)));
    }
}
