//! Makes a differing input smaller while the difference remains.

use page::{Section, SectionFile};

use crate::check::{check, Input};
use crate::recorded::train_counts;
use crate::sections::numbers_a_train;
use crate::text::file_text;

/// Takes the first smaller input that still differs, again and again.
pub fn shrink(mut input: Input) -> Input {
    while let Some(smaller) = first_smaller(&input) {
        input = smaller;
    }
    input
}

/// A call or a readable text loses a train, any other text some of its bytes.
fn first_smaller(input: &Input) -> Option<Input> {
    match input {
        Input::Text(text) => match page::read(text) {
            Some(file) => first_differing(shorter_texts(&file, text.len()).map(Input::Text)),
            None => first_differing(fewer_bytes(text).map(Input::Text)),
        },
        Input::Plan(section, departures) => {
            let fewer = fewer_trains(section, departures);
            first_differing(fewer.map(|file| Input::Plan(file.section, file.recorded)))
        }
        Input::Judge(section, departures) => {
            let fewer = fewer_trains(section, departures);
            first_differing(fewer.map(|file| Input::Judge(file.section, file.recorded)))
        }
    }
}

fn first_differing(mut candidates: impl Iterator<Item = Input>) -> Option<Input> {
    candidates.find(|candidate| check(candidate).is_err())
}

/// The file plainly laid out, then without each train, where that is below `length` bytes.
fn shorter_texts(file: &SectionFile, length: usize) -> impl Iterator<Item = Vec<u8>> + '_ {
    let plain = std::iter::once_with(|| file_text(file));
    let fewer = fewer_trains(&file.section, &file.recorded).map(|fewer| file_text(&fewer));
    let texts = plain.chain(fewer);
    texts.filter(move |text| text.len() < length)
}

/// The text without each half, then without each quarter and so on, down to single bytes.
fn fewer_bytes(text: &[u8]) -> impl Iterator<Item = Vec<u8>> + '_ {
    let widths = std::iter::successors(Some(text.len() / 2), |width| Some(width / 2));
    let parts = widths.take_while(|&width| width > 0).flat_map(|width| {
        let starts = (0..=text.len() - width).step_by(width);
        starts.map(move |at| (at, at + width))
    });
    parts.map(|(from, to)| [&text[..from], &text[to..]].concat())
}

/// The section without each train in turn.
fn fewer_trains<'a>(
    section: &'a Section,
    recorded: &'a [u32],
) -> impl Iterator<Item = SectionFile> + 'a {
    let (ones, twos) = train_counts(section);
    (0..ones + twos).map(|train| without_train(section, recorded, train))
}

/// The section without one train and its departure.
fn without_train(section: &Section, recorded: &[u32], train: usize) -> SectionFile {
    let (ones, _) = train_counts(section);
    let width = numbers_a_train(section.objective);
    let mut section = section.clone();
    let (list, place) = if train < ones {
        (&mut section.one, train)
    } else {
        (&mut section.two, train - ones)
    };
    list.drain(place * width..(place + 1) * width);
    let mut recorded = recorded.to_vec();
    if train < recorded.len() {
        recorded.remove(train);
    }
    SectionFile { section, recorded }
}
