//! compare [--seed N] [--seconds N | --count N]

use std::env;
use std::process::ExitCode;
use std::time::{Duration, Instant};

use compare::bounds::bound_inputs;
use compare::check::{check, Input};
use compare::inputs::any_input;
use compare::random::Random;
use compare::report::report_difference;
use compare::tally::Tally;

const USAGE: &str = "usage: compare [--seed N] [--seconds N | --count N]";
const USUAL_COUNT: u64 = 300_000;

/// When to stop making random inputs.
#[derive(Clone, Copy)]
enum Limit {
    Count(u64),
    Time(Duration),
}

struct Options {
    seed: u64,
    limit: Limit,
}

fn main() -> ExitCode {
    let Some(options) = read_options(env::args().skip(1)) else {
        eprintln!("{USAGE}");
        return ExitCode::from(2);
    };
    let mut tally = Tally::default();
    match first_difference(&options, &mut tally) {
        Some(input) => {
            println!("a difference after {} equal inputs", tally.total());
            if let Err(error) = report_difference(input) {
                println!("the file could not be written: {error}");
            }
            ExitCode::FAILURE
        }
        None => conclude(&tally),
    }
}

fn read_options(mut words: impl Iterator<Item = String>) -> Option<Options> {
    let mut options = Options {
        seed: 1,
        limit: Limit::Count(USUAL_COUNT),
    };
    while let Some(word) = words.next() {
        let number: u64 = words.next()?.parse().ok()?;
        match word.as_str() {
            "--seed" => options.seed = number,
            "--seconds" => options.limit = Limit::Time(Duration::from_secs(number)),
            "--count" => options.limit = Limit::Count(number),
            _ => return None,
        }
    }
    Some(options)
}

/// Checks the bounds, then random inputs up to the limit.
fn first_difference(options: &Options, tally: &mut Tally) -> Option<Input> {
    let mut random = Random::new(options.seed);
    let begun = Instant::now();
    let within = |made: u64| match options.limit {
        Limit::Count(count) => made < count,
        Limit::Time(time) => begun.elapsed() < time,
    };
    let numbers = (0..).take_while(|&made| within(made));
    let inputs = numbers.map(|_| any_input(&mut random));
    for input in bound_inputs().into_iter().chain(inputs) {
        match check(&input) {
            Ok(seen) => tally.add(seen),
            Err(_) => return Some(input),
        }
    }
    None
}

/// No difference was found; the run still fails where some outcome was never seen.
fn conclude(tally: &Tally) -> ExitCode {
    print!("{tally}");
    let missing = tally.missing();
    for seen in &missing {
        println!("never seen: {} by {:?}", seen.ending, seen.call);
    }
    println!("{} inputs, 0 differences", tally.total());
    if missing.is_empty() {
        ExitCode::SUCCESS
    } else {
        ExitCode::FAILURE
    }
}
