//! A section as it is given, before any rule has been applied to it.

/// The heading and the two stations' lists.
#[derive(Clone, Debug, PartialEq, Eq)]
pub struct Section {
    pub objective: u32,
    /// The running time p.
    pub running: u32,
    /// The headway β.
    pub headway: u32,
    /// Station 1's list.
    pub one: Vec<i32>,
    /// Station 2's list.
    pub two: Vec<i32>,
}

/// What a section file holds; without recorded departures it asks for a plan.
#[derive(Clone, Debug, PartialEq, Eq)]
pub struct SectionFile {
    pub section: Section,
    pub recorded: Vec<u32>,
}
