//! Damages the text of a section file.

use crate::random::Random;
use crate::text::LONGEST_TEXT;

const ODD_BYTES: [u8; 16] = [
    b'\t', b'\r', b'+', b'-', b'0', b'1', b'9', b' ', b'\n', b'/', b':', b'.', b'x', 0, 0x80, 0xff,
];

const ODD_WORDS: [&str; 18] = [
    "0",
    "-0",
    "00",
    "01",
    "-01",
    "+1",
    "-",
    "--1",
    "1-",
    "2147483647",
    "2147483648",
    "-2147483648",
    "-2147483649",
    "4294967296",
    "4294967297",
    "18446744073709551617",
    "512",
    "513",
];

pub fn damage(random: &mut Random, text: &mut Vec<u8>) {
    for _ in 0..random.pick(&[1, 1, 1, 2, 4]) {
        damage_once(random, text);
    }
}

fn damage_once(random: &mut Random, text: &mut Vec<u8>) {
    let place = random.below(text.len() + 1);
    match random.below(9) {
        0 | 1 => text.insert(place, random.pick(&ODD_BYTES)),
        2 => text.truncate(place),
        3 | 4 => replace_word(random, text),
        5 => append_word(random, text),
        6 => pad(random, text),
        _ => damage_byte(random, text, place),
    }
}

/// Flips a bit of one byte, drops it, doubles it or puts an odd one in its place.
fn damage_byte(random: &mut Random, text: &mut Vec<u8>, place: usize) {
    let Some(&byte) = text.get(place) else {
        return;
    };
    match random.below(4) {
        0 => text[place] = byte ^ (1 << random.below(8)),
        1 => text.insert(place, byte),
        2 => text[place] = random.pick(&ODD_BYTES),
        _ => {
            text.remove(place);
        }
    }
}

fn replace_word(random: &mut Random, text: &mut Vec<u8>) {
    let word = random.pick(&ODD_WORDS).as_bytes().to_vec();
    let mut words: Vec<Vec<u8>> = text.split(|&b| b == b' ').map(<[u8]>::to_vec).collect();
    let place = random.below(words.len());
    words[place] = word;
    *text = words.join(&b' ');
}

fn append_word(random: &mut Random, text: &mut Vec<u8>) {
    text.push(random.pick(b" \n"));
    text.extend_from_slice(random.pick(&ODD_WORDS).as_bytes());
}

/// Fills the text with blanks to about the longest length allowed.
pub fn pad(random: &mut Random, text: &mut Vec<u8>) {
    let length = LONGEST_TEXT + random.pick(&[0, 0, 1]);
    let blank = random.pick(b" \n");
    let missing = length.saturating_sub(text.len());
    let at = random.pick(&[0, text.len()]);
    text.splice(at..at, std::iter::repeat_n(blank, missing));
}
