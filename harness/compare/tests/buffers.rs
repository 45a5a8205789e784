//! How an answer is written into a buffer of any length.

use compare::largest::longest_judged_day;
use linked::{answer_text_into, LONGEST_ANSWER};

const UNTOUCHED: u8 = 0xa5;

/// Lends the first `length` bytes of a longer room, so that a byte written past them is seen.
fn check_buffer(text: &[u8], answer: &[u8], length: usize) {
    let mut room = vec![UNTOUCHED; length + LONGEST_ANSWER];
    let count = answer_text_into(text, &mut room[..length]);
    assert_eq!(count, answer.len(), "a buffer of {length} bytes");
    let (written, rest) = room.split_at(count.min(length));
    assert_eq!(written, &answer[..written.len()]);
    let touched = rest.iter().position(|&byte| byte != UNTOUCHED);
    assert_eq!(touched, None, "a buffer of {length} bytes");
}

#[test]
fn a_buffer_holds_the_first_bytes_and_the_rest_stays() {
    for case in page::WORKED {
        let answer = case.answer.as_bytes();
        for length in (0..=answer.len() + 3).chain([LONGEST_ANSWER]) {
            check_buffer(case.text.as_bytes(), answer, length);
        }
    }
}

#[test]
fn the_longest_answer_fits() {
    let text = longest_judged_day();
    let answer = page::answer_text(&text);
    assert!(answer.starts_with(b"judged "));
    let whole = answer.len();
    assert!(whole < LONGEST_ANSWER, "{whole} bytes");
    for length in [LONGEST_ANSWER, whole + 1, whole, whole - 1, 0] {
        check_buffer(&text, &answer, length);
    }
}
