//! Says what differed, and keeps a text that shows it again.

use std::fs;
use std::io;

use page::Section;

use crate::check::{check, check_text, Difference, Input};
use crate::shrink::shrink;
use crate::text::plain_text;

const DIFFERENCE_FILE: &str = "difference.section";

/// Shrinks the input, prints it with both answers and keeps a text that shows the difference.
pub fn report_difference(input: Input) -> io::Result<()> {
    let input = shrink(input);
    print_input(&input);
    if let Err(difference) = check(&input) {
        print_answers(&difference);
    }
    match input {
        Input::Text(text) => keep(&text),
        Input::Plan(section, _) => keep_if_differing(&plain_text(&section, &[])),
        Input::Judge(section, recorded) => keep_if_differing(&plain_text(&section, &recorded)),
    }
}

fn print_input(input: &Input) {
    match input {
        Input::Text(text) => println!("text:\n{}", String::from_utf8_lossy(text)),
        Input::Plan(section, lent) => {
            print_section("plan", section);
            println!("departures lent: {lent:?}");
        }
        Input::Judge(section, recorded) => {
            print_section("judge", section);
            println!("departures recorded: {recorded:?}");
        }
    }
}

fn print_section(call: &str, section: &Section) {
    println!("a call of {call}, objective {}", section.objective);
    println!("p {}, β {}", section.running, section.headway);
    println!("station 1: {:?}", section.one);
    println!("station 2: {:?}", section.two);
}

fn print_answers(difference: &Difference) {
    for (name, answer) in &difference.sides {
        println!("{name}: {answer}");
    }
}

/// Keeps a call's text only if it differs too. It need not: a file cannot lend a wrong count of
/// departures, nor hold a number above 2,147,483,647.
fn keep_if_differing(text: &[u8]) -> io::Result<()> {
    match check_text(text) {
        Ok(_) => {
            println!("not written: as a section file it does not differ");
            Ok(())
        }
        Err(difference) => {
            println!("as a section file:");
            print_answers(&difference);
            keep(text)
        }
    }
}

fn keep(text: &[u8]) -> io::Result<()> {
    fs::write(DIFFERENCE_FILE, text)?;
    println!("written to {DIFFERENCE_FILE}");
    Ok(())
}
