//! The least stack under which the program answers the largest inputs, its memory, and the least
//! stack of a thread in which `plan` answers.

use std::env;
use std::process::{Command, Stdio};
use std::thread;

use compare::bounds::FULL_ROW;
use compare::largest::{filled, longest_judged_day};
use compare::text::plain_text;
use page::Section;

use crate::cases::{cases, files, full_files, longest};
use crate::{plan_all, program};

const STEP: usize = 4;
/// The start of the stack is placed at random, so one run that answers says little of a limit.
const RUNS: usize = 60;

pub fn print_table() {
    println!(
        "Stack: the least limit in KiB, by steps of {STEP}, at which all of {RUNS} runs answer"
    );
    println!("rightly, without an environment. Memory: the most KiB resident at once.\n");
    println!("{:<42}{:>8}{:>8}", "file", "stack", "memory");
    for (name, text) in largest_inputs() {
        let limit = least_limit(&text);
        let memory = most_memory(&text);
        println!("{name:<42}{limit:>8}{memory:>8}");
    }
    println!("{:<42}{:>8}", "plan alone, in a thread", least_thread());
}

/// Plans the largest sections in a thread with so much stack. Too little ends the process.
pub fn plan_within(kib: usize) {
    let sizes = [(1, 48), (2, 48), (3, 12), (4, 12)];
    let largest = sizes.map(|(objective, trains)| cases(objective, trains));
    let planned = move || {
        for cases in &largest {
            plan_all(cases, linked::plan);
        }
    };
    let thread = thread::Builder::new().stack_size(kib * 1024).spawn(planned);
    let ended = thread.expect("a thread").join();
    ended.expect("the thread ends");
}

fn least_thread() -> usize {
    let this = env::current_exe().expect("the path of this program");
    let plans = |kib: usize| {
        let mut child = Command::new(&this);
        child
            .args(["stack", &kib.to_string()])
            .stderr(Stdio::null());
        child.status().is_ok_and(|status| status.success())
    };
    let mut limits = (STEP..).step_by(STEP);
    let least = limits.find(|&kib| (0..RUNS).all(|_| plans(kib)));
    least.expect("it plans with the usual stack")
}

fn least_limit(text: &[u8]) -> usize {
    let right = page::answer_text(text);
    assert_eq!(program::answer(text), right);
    let answers = |limit| program::answer_within(limit, text).is_ok_and(|answer| answer == right);
    let mut limits = (STEP..).step_by(STEP);
    let least = limits.find(|&limit| (0..RUNS).all(|_| answers(limit)));
    least.expect("it answers at the usual limit")
}

/// The most of as many runs: it differs with where the system places things.
fn most_memory(text: &[u8]) -> usize {
    let runs = (0..RUNS).map(|_| program::most_resident(text).expect("a system with /proc"));
    runs.fold(0, usize::max)
}

fn largest_inputs() -> Vec<(&'static str, Vec<u8>)> {
    let plan_48 = |objective| longest(&files(&cases(objective, 48))).to_vec();
    let full = longest(&full_files()).to_vec();
    vec![
        ("objective 1, 48 + 48 trains", plan_48(1)),
        ("objective 2, 48 + 48 trains", plan_48(2)),
        ("objective 3, 12 + 12 rows of eight steps", full_rows(3)),
        ("objective 4, 12 + 12 rows of eight steps", full_rows(4)),
        ("judged, 96 departures", longest_judged_day()),
        ("objective 1, 16,384 bytes", filled(plan_48(1))),
        ("512 numbers in each section, refused", full),
    ]
}

#[test]
fn the_largest_inputs_are_answered_with_256_kib() {
    for (name, text) in largest_inputs() {
        let answer = program::answer_within(256, &text);
        assert_eq!(answer.ok(), Some(page::answer_text(&text)), "{name}");
    }
}

fn full_rows(objective: u32) -> Vec<u8> {
    let section = Section {
        objective,
        running: 10,
        headway: 2,
        one: FULL_ROW.repeat(12),
        two: FULL_ROW.repeat(12),
    };
    plain_text(&section, &[])
}
