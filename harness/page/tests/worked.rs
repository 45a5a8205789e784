//! The page's implementation gives the page's own worked answers.

#[test]
fn every_worked_section_has_its_answer() {
    for case in page::WORKED {
        let answer = page::answer_text(case.text.as_bytes());
        let answer = String::from_utf8(answer).expect("answers are plain text");
        assert_eq!(answer, case.answer, "section {}", case.name);
    }
}
