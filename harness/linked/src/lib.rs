//! The product, linked as a static library, behind safe functions.

mod declared;

/// No answer of the program is longer than this.
pub const LONGEST_ANSWER: usize = 8192;

/// The heading and the two stations' lists of a call.
#[derive(Clone, Copy, Debug)]
pub struct Lists<'a> {
    pub objective: u32,
    /// The running time p.
    pub running: u32,
    /// The headway β.
    pub headway: u32,
    pub one: &'a [i32],
    pub two: &'a [i32],
}

/// What a call hands back: number 0 and the value, or the refusal number and its places.
#[derive(Clone, Copy, Debug, PartialEq, Eq)]
pub struct Handed {
    pub number: u32,
    pub value: i64,
    pub first: u32,
    pub second: u32,
}

/// Set before each call, so that a place left unwritten is seen.
const UNWRITTEN: Handed = Handed {
    number: u32::MAX,
    value: i64::MIN,
    first: u32::MAX,
    second: u32::MAX,
};

/// The whole answer to a section file's text.
pub fn answer_text(text: &[u8]) -> Vec<u8> {
    let mut answer = vec![0; LONGEST_ANSWER];
    let length = answer_text_into(text, &mut answer);
    answer.truncate(length);
    answer
}

/// Writes as much of the answer as `out` holds and gives the whole answer's length.
pub fn answer_text_into(text: &[u8], out: &mut [u8]) -> usize {
    // SAFETY: both pointers come with the lengths of live slices, and `out` is ours alone.
    unsafe {
        declared::pulpmitten_answer_text(text.as_ptr(), text.len(), out.as_mut_ptr(), out.len())
    }
}

pub fn plan(lists: Lists, departures: &mut [u32]) -> Handed {
    let mut handed = UNWRITTEN;
    // SAFETY: each pointer comes with the length of a live slice or points to one number,
    // and all that is written to is borrowed by this call alone.
    handed.number = unsafe {
        declared::pulpmitten_plan(
            lists.objective,
            lists.running,
            lists.headway,
            lists.one.as_ptr(),
            lists.one.len(),
            lists.two.as_ptr(),
            lists.two.len(),
            departures.as_mut_ptr(),
            departures.len(),
            &mut handed.value,
            &mut handed.first,
            &mut handed.second,
        )
    };
    handed
}

pub fn judge(lists: Lists, departures: &[u32]) -> Handed {
    let mut handed = UNWRITTEN;
    // SAFETY: as for `plan`; the departures are only read.
    handed.number = unsafe {
        declared::pulpmitten_judge(
            lists.objective,
            lists.running,
            lists.headway,
            lists.one.as_ptr(),
            lists.one.len(),
            lists.two.as_ptr(),
            lists.two.len(),
            departures.as_ptr(),
            departures.len(),
            &mut handed.value,
            &mut handed.first,
            &mut handed.second,
        )
    };
    handed
}
