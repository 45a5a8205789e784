//! Times section files: from text to text, and the program as a whole.

use std::hint::black_box;

use compare::largest::filled;
use linked::LONGEST_ANSWER;

use crate::cases::{cases, files, full_files, longest, Case};
use crate::timing::{alone, alternate};
use crate::{plan_all, program};

pub fn print_table() {
    println!("\nText to text: the files of a kind, in turns with plan alone on the same sections.");
    println!("Whole program: the longest of them, from the program's start to its end.\n");
    println!(
        "{:<42}{:>8}{:>10}{:>14}{:>15}",
        "files", "bytes", "plan", "text to text", "whole program"
    );
    for (objective, trains) in [(1, 48), (2, 48), (3, 12), (4, 12)] {
        let cases = cases(objective, trains);
        let name = format!("objective {objective}, {trains} + {trains} trains");
        print_planned(&name, &cases, &files(&cases));
    }
    for objective in [1, 2] {
        let cases = cases(objective, 48);
        let files: Vec<Vec<u8>> = files(&cases).into_iter().map(filled).collect();
        let name = format!("objective {objective}, 48 + 48 trains and spaces");
        print_planned(&name, &cases, &files);
    }
    print_unplanned("512 numbers in each section, refused", &full_files());
    print_unplanned("no byte at all", &[Vec::new()]);
}

fn print_planned(name: &str, cases: &[Case], files: &[Vec<u8>]) {
    let mut answer = [0; LONGEST_ANSWER];
    let [text, plan] = alternate(
        files.len(),
        || answer_all(files, &mut answer),
        || plan_all(cases, linked::plan),
    );
    print_row(name, files, &format!("{plan:.0}"), text);
}

fn print_unplanned(name: &str, files: &[Vec<u8>]) {
    let mut answer = [0; LONGEST_ANSWER];
    let text = alone(files.len(), || answer_all(files, &mut answer));
    print_row(name, files, "-", text);
}

fn print_row(name: &str, files: &[Vec<u8>], plan: &str, text: f64) {
    let longest = longest(files);
    let bytes = longest.len();
    let whole = program_time(longest);
    println!("{name:<42}{bytes:>8}{plan:>10}{text:>14.0}{whole:>15.0}");
}

fn answer_all(files: &[Vec<u8>], answer: &mut [u8]) {
    for text in files {
        black_box(linked::answer_text_into(black_box(text), answer));
        black_box(&answer);
    }
}

/// Nanoseconds for one run of the program on a text.
fn program_time(text: &[u8]) -> f64 {
    let expected = linked::answer_text(text);
    alone(1, || {
        assert_eq!(program::answer(text), expected);
    })
}
