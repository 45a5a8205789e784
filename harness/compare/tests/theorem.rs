//! For tiny sections the planned value is the best over all safe schedules, waiting included.

use compare::check::lists;
use compare::random::Random;
use compare::recorded::train_counts;
use compare::sections::section_of;
use page::Section;

/// A section of one to four trains whose whole day fits into a dozen seconds.
fn tiny_section(random: &mut Random) -> Section {
    let objective = 1 + random.below(4) as u32;
    let one = random.below(3);
    let two = match one {
        0 => 1 + random.below(2),
        _ => random.below(3),
    };
    let mut section = section_of(random, objective, one, two);
    section.running = random.between(2, 3) as u32;
    section.headway = random.between(1, i64::from(section.running) - 1) as u32;
    section
}

/// The best value that the judge gives to any departures up to `latest`.
fn best_judged(section: &Section, departures: &mut [u32], from: usize, latest: u32) -> Option<i64> {
    if from == departures.len() {
        return page::judge(section, departures).ok();
    }
    let mut best: Option<i64> = None;
    for second in 0..=latest {
        departures[from] = second;
        let judged = best_judged(section, departures, from + 1, latest);
        best = [best, judged].into_iter().flatten().min();
    }
    best
}

#[test]
fn no_safe_schedule_is_better_than_the_plan() {
    let mut random = Random::new(22);
    for _ in 0..400 {
        let section = tiny_section(&mut random);
        let (ones, twos) = train_counts(&section);
        let mut departures = vec![0; ones + twos];
        let planned = linked::plan(lists(&section), &mut departures);
        let latest = section.running * (ones + twos) as u32;
        let best = best_judged(&section, &mut departures, 0, latest);
        assert_eq!(
            (planned.number, Some(planned.value)),
            (0, best),
            "{section:?}"
        );
    }
}
