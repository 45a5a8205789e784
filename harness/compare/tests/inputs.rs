//! Bounds and random inputs give the same answers on both sides, and nothing goes unseen.

use compare::bounds::bound_inputs;
use compare::check::{check, Input};
use compare::inputs::any_input;
use compare::random::Random;
use compare::sections::{most_trains_a_station, section_of};
use compare::tally::Tally;
use page::Section;

fn check_all(inputs: impl Iterator<Item = Input>) -> Tally {
    let mut tally = Tally::default();
    for input in inputs {
        match check(&input) {
            Ok(seen) => tally.add(seen),
            Err(difference) => panic!("{input:?}\n{difference:?}"),
        }
    }
    tally
}

#[test]
fn bounds_agree() {
    check_all(bound_inputs().into_iter());
}

#[test]
fn random_inputs_agree_and_every_outcome_is_seen() {
    let mut random = Random::new(20);
    let tally = check_all((0..20_000).map(|_| any_input(&mut random)));
    assert_eq!(tally.missing(), []);
}

#[test]
fn the_largest_sections_agree() {
    let mut random = Random::new(21);
    for objective in [1, 2, 3, 4].repeat(5) {
        let most = most_trains_a_station(objective);
        let section = section_of(&mut random, objective, most, most);
        check_all(std::iter::once(Input::Plan(section, vec![7; 2 * most])));
    }
}

#[test]
fn lists_of_millions_of_numbers_agree() {
    let lengths = [(5_000_000, 0), (0, 5_000_000), (1_700_000, 1_700_000)];
    for (objective, (one, two)) in (0..=5).flat_map(|o| lengths.map(|l| (o, l))) {
        let section = Section {
            objective,
            running: 10,
            headway: 2,
            one: vec![1; one],
            two: vec![1; two],
        };
        let recorded = vec![7; 3_400_000];
        let calls = [
            Input::Plan(section.clone(), recorded.clone()),
            Input::Judge(section, recorded),
        ];
        check_all(calls.into_iter());
    }
}
