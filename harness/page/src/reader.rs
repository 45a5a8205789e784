//! The reader of a section file; `None` stands for `unreadable`.

use crate::section::{Section, SectionFile};

const LONGEST_TEXT: usize = 16_384;
const MOST_NUMBERS: usize = 512;

pub fn read(text: &[u8]) -> Option<SectionFile> {
    if text.len() > LONGEST_TEXT {
        return None;
    }
    let words = text.split(|byte| matches!(byte, b' ' | b'\n'));
    let words = words.filter(|word| !word.is_empty());
    let numbers: Vec<i32> = words.map(read_number).collect::<Option<_>>()?;
    let (heading, rest) = split_counted(&numbers)?;
    let (one, rest) = split_counted(rest)?;
    let (two, rest) = split_counted(rest)?;
    let (recorded, rest) = split_counted(rest)?;
    let &[objective, running, headway] = unsigned(heading)?.as_slice() else {
        return None;
    };
    let section = Section {
        objective,
        running,
        headway,
        one: one.to_vec(),
        two: two.to_vec(),
    };
    let recorded = unsigned(recorded)?;
    rest.is_empty().then_some(SectionFile { section, recorded })
}

/// One decimal number of 32 signed bits: no plus, no leading zero, no "-0".
fn read_number(word: &[u8]) -> Option<i32> {
    let digits = word.strip_prefix(b"-").unwrap_or(word);
    let is_decimal = digits.iter().all(u8::is_ascii_digit);
    let first_is_zero = digits.first() == Some(&b'0');
    if !is_decimal || (first_is_zero && word != b"0") {
        return None;
    }
    std::str::from_utf8(word).ok()?.parse().ok()
}

/// Splits off one section: its count, then that many numbers.
fn split_counted(numbers: &[i32]) -> Option<(&[i32], &[i32])> {
    let (&count, rest) = numbers.split_first()?;
    let count = usize::try_from(count).ok()?;
    if count > MOST_NUMBERS {
        return None;
    }
    rest.split_at_checked(count)
}

/// The numbers of a section where no minus may stand.
fn unsigned(numbers: &[i32]) -> Option<Vec<u32>> {
    numbers.iter().map(|&n| u32::try_from(n).ok()).collect()
}
