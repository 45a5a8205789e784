//! What the program prints for a section file.

use std::fmt::Write;

use crate::day::Day;
use crate::judge::judge;
use crate::planner::plan;
use crate::reader::read;
use crate::refusal::Refusal;
use crate::section::SectionFile;
use crate::station::Station;

pub fn answer_text(text: &[u8]) -> Vec<u8> {
    let answer = match read(text) {
        None => "unreadable\n".to_string(),
        Some(file) => answer_file(&file).unwrap_or_else(refused_line),
    };
    answer.into_bytes()
}

fn answer_file(file: &SectionFile) -> Result<String, Refusal> {
    let section = &file.section;
    let day = Day::accept(section)?;
    if file.recorded.is_empty() {
        let mut departures = vec![0; day.trains.len()];
        let value = plan(section, &mut departures)?;
        Ok(schedule_lines("planned", value, &day, &departures))
    } else {
        let value = judge(section, &file.recorded)?;
        Ok(schedule_lines("judged", value, &day, &file.recorded))
    }
}

fn refused_line(refusal: Refusal) -> String {
    format!(
        "refused {} {} {}\n",
        refusal.number, refusal.first, refusal.second
    )
}

fn schedule_lines(outcome: &str, value: i64, day: &Day, departures: &[u32]) -> String {
    let mut lines = format!("{outcome} {value}\n");
    let mut places = [0; 2];
    for (train, &departure) in day.trains.iter().zip(departures) {
        let place = &mut places[train.station.index()];
        push_train(&mut lines, train.station, *place, departure, day.running);
        *place += 1;
    }
    lines
}

/// One train's line: its station, its place in that station's list, departure, arrival.
fn push_train(lines: &mut String, station: Station, place: usize, departure: u32, running: i64) {
    let arrival = i64::from(departure) + running;
    writeln!(lines, "{} {place} {departure} {arrival}", station.number())
        .expect("writing to a string cannot fail");
}
