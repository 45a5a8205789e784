//! The sections worked by hand on the rules page, as section files and their answers.

/// A worked section: its name, the file's text and what the program prints.
pub struct Worked {
    pub name: &'static str,
    pub text: &'static str,
    pub answer: &'static str,
}

const fn worked(name: &'static str, text: &'static str, answer: &'static str) -> Worked {
    Worked { name, text, answer }
}

pub const WORKED: &[Worked] = &[
    worked("A", "3 2 10 2\n1 5\n0\n0", "planned 50\n1 0 0 10\n"),
    worked("B", "3 2 10 2\n2 1 3\n0\n0", "planned 42\n1 0 2 12\n1 1 0 10\n"),
    worked("C", "3 2 10 2\n1 1\n1 1\n0", "planned 30\n1 0 0 10\n2 0 10 20\n"),
    worked("D", "3 2 10 2\n2 1 1\n1 5\n0", "planned 92\n1 0 10 20\n1 1 12 22\n2 0 0 10\n"),
    worked("E", "3 2 10 2\n4 1 1 1 1\n1 3\n0", "planned 122\n1 0 10 20\n1 1 12 22\n1 2 14 24\n1 3 16 26\n2 0 0 10\n"),
    worked("F", "3 1 10 2\n2 30 12\n1 25\n0", "planned -2\n1 0 2 12\n1 1 0 10\n2 0 12 22\n"),
    worked("G", "3 1 10 2\n2 0 100\n1 50\n0", "planned 10\n1 0 0 10\n1 1 2 12\n2 0 12 22\n"),
    worked("H", "3 1 10 2\n1 -5\n0\n0", "planned 15\n1 0 0 10\n"),
    worked("I", "3 3 10 2\n17 2 0 15 0 0 0 0 0 0 0 100 0 0 0 0 0 0\n17 2 0 15 0 0 0 0 0 0 0 40 0 0 0 0 0 0\n0", "planned 40\n1 0 0 10\n2 0 10 20\n"),
    worked("J", "3 2 10 2\n1 1\n1 1\n2 0 9", "refused 9 0 1\n"),
    worked("K", "3 2 10 2\n1 1\n1 1\n2 5 15", "judged 40\n1 0 5 15\n2 0 15 25\n"),
    worked("L", "3 2 10 2\n2 1 3\n0\n2 2 0", "judged 42\n1 0 2 12\n1 1 0 10\n"),
    worked("M", "3 2 10 10\n1 1\n1 1\n0", "refused 2 0 0\n"),
    worked("I, start 20", "3 3 10 2\n17 2 0 15 0 0 0 0 0 0 0 100 0 0 0 0 0 0\n17 2 0 20 0 0 0 0 0 0 0 40 0 0 0 0 0 0\n0", "planned 40\n1 0 0 10\n2 0 10 20\n"),
    worked("I, start 21", "3 3 10 2\n17 2 0 15 0 0 0 0 0 0 0 100 0 0 0 0 0 0\n17 2 0 21 0 0 0 0 0 0 0 40 0 0 0 0 0 0\n0", "planned 0\n1 0 0 10\n2 0 10 20\n"),
    worked("list order", "3 3 10 2\n34 1 0 0 0 0 0 0 0 0 0 0 0 0 0 0 0 0 1 0 0 0 0 0 0 0 0 0 0 0 0 0 0 0 0\n0\n2 2 0", "refused 9 0 1\n"),
    worked("least times", "3 2 2 1\n1 1\n1 1\n0", "planned 6\n1 0 0 2\n2 0 2 4\n"),
    worked("running time 1", "3 2 1 0\n1 1\n1 1\n0", "refused 2 0 0\n"),
    worked("largest weight", "3 2 10 2\n1 10000\n0\n0", "planned 100000\n1 0 0 10\n"),
    worked("weight too large", "3 2 10 2\n1 10001\n0\n0", "refused 6 0 0\n"),
    worked("latest departure", "3 2 10 2\n1 1\n0\n1 10000000", "judged 10000010\n1 0 10000000 10000010\n"),
    worked("departure too late", "3 2 10 2\n1 1\n0\n1 10000001", "refused 8 0 0\n"),
    worked("unknown objective", "3 0 10 2\n0\n0\n0", "refused 1 0 0\n"),
    worked("empty text", "", "unreadable\n"),
];
