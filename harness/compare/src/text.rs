//! Section files as text, plainly or loosely laid out.

use page::{Section, SectionFile};

use crate::random::Random;

/// The most bytes that a section file may have.
pub const LONGEST_TEXT: usize = 16_384;

/// One section of the file a line.
pub fn plain_text(section: &Section, recorded: &[u32]) -> Vec<u8> {
    let lines = lines(section, recorded).map(|line| line.join(" ") + "\n");
    lines.concat().into_bytes()
}

pub fn file_text(file: &SectionFile) -> Vec<u8> {
    plain_text(&file.section, &file.recorded)
}

/// The same numbers with any spaces and line ends before, between and after them.
pub fn loose_text(random: &mut Random, section: &Section, recorded: &[u32]) -> Vec<u8> {
    let mut text = String::new();
    if random.one_in(2) {
        text += blanks(random);
    }
    for word in lines(section, recorded).concat() {
        text += &word;
        text += blanks(random);
    }
    if random.one_in(2) {
        text.truncate(text.trim_end().len());
    }
    text.into_bytes()
}

fn blanks(random: &mut Random) -> &'static str {
    random.pick(&[" ", " ", " ", "\n", "  ", " \n", "\n\n", "\n  \n "])
}

/// Each section of the file as words, its count first.
fn lines(section: &Section, recorded: &[u32]) -> [Vec<String>; 4] {
    let heading = [section.objective, section.running, section.headway];
    [
        counted(&heading),
        counted(&section.one),
        counted(&section.two),
        counted(recorded),
    ]
}

fn counted<T: ToString>(numbers: &[T]) -> Vec<String> {
    let count = numbers.len().to_string();
    let numbers = numbers.iter().map(T::to_string);
    std::iter::once(count).chain(numbers).collect()
}
