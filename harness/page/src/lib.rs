//! The rules page of the section planner, written a second time and on its own, in Rust.
//!
//! It is meant to be plainly right rather than fast: the product is compared with it.

mod answer;
mod day;
mod every_order;
mod judge;
mod need;
mod objective;
mod planner;
mod reader;
mod refusal;
mod safety;
mod schedule;
mod search;
mod section;
mod station;
mod worked;

pub use answer::answer_text;
pub use every_order::plan_by_every_order;
pub use judge::judge;
pub use planner::plan;
pub use reader::read;
pub use refusal::{Outcome, Refusal};
pub use section::{Section, SectionFile};
pub use worked::{Worked, WORKED};
