//! The linked product gives the page's worked answers.

#[test]
fn every_worked_section_has_its_answer() {
    for case in page::WORKED {
        let answer = linked::answer_text(case.text.as_bytes());
        let answer = String::from_utf8(answer).expect("answers are plain text");
        assert_eq!(answer, case.answer, "section {}", case.name);
    }
}
