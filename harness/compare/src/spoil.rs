//! Spoils an accepted section in one place, so that mostly it is refused.

use page::Section;

use crate::random::Random;
use crate::sections::{most_trains_a_station, numbers_a_train};

/// Numbers at a bound of some rule or one beyond it.
pub const EDGES: [i32; 17] = [
    i32::MIN,
    -1_000_001,
    -1_000_000,
    -1,
    0,
    1,
    2,
    7,
    8,
    9,
    9_999,
    10_000,
    10_001,
    999_999,
    1_000_000,
    1_000_001,
    i32::MAX,
];

pub fn spoil(random: &mut Random, section: &mut Section) {
    match random.below(9) {
        0 => section.objective = random.pick(&[0, 5, 6, 255, 1 << 31, u32::MAX]),
        1 => section.running = random.pick(&[0, 1, 2, 10_000, 10_001, u32::MAX]),
        2 => spoil_headway(random, section),
        3 => spoil_length(random, section),
        4 => too_many_trains(random, section),
        5 => *some_list(random, section) = Vec::new(),
        6 => (section.one, section.two) = (Vec::new(), Vec::new()),
        _ => spoil_number(random, section),
    }
}

fn some_list<'a>(random: &mut Random, section: &'a mut Section) -> &'a mut Vec<i32> {
    if random.one_in(2) {
        &mut section.one
    } else {
        &mut section.two
    }
}

fn spoil_headway(random: &mut Random, section: &mut Section) {
    let p = section.running;
    // p may be spoiled already, to 0 or to the largest number.
    let (below, above) = (p.wrapping_sub(1), p.wrapping_add(1));
    section.headway = random.pick(&[0, 1, below, p, above, u32::MAX]);
}

/// One number too many or too few: no multiple of 17 where there are rows.
fn spoil_length(random: &mut Random, section: &mut Section) {
    let extra = random.pick(&EDGES);
    let shorter = random.one_in(2);
    let list = some_list(random, section);
    if shorter {
        list.pop();
    } else {
        list.push(extra);
    }
}

/// As many trains as a station may have, or one more, or about as many as a file holds.
fn too_many_trains(random: &mut Random, section: &mut Section) {
    let most = most_trains_a_station(section.objective);
    let width = numbers_a_train(section.objective);
    let count = random.pick(&[most, most + 1, 512 / width, 512 / width + 1, 1_000]);
    let list = some_list(random, section);
    let train = list.get(..width).unwrap_or(&[]).to_vec();
    *list = train.repeat(count);
}

fn spoil_number(random: &mut Random, section: &mut Section) {
    let number = random.pick(&EDGES);
    let list = some_list(random, section);
    if !list.is_empty() {
        let place = random.below(list.len());
        list[place] = number;
    }
}
