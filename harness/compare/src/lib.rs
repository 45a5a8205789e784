//! Compares the linked product with the rules page's second implementation on many inputs.

pub mod bounds;
pub mod check;
pub mod damage;
pub mod inputs;
pub mod largest;
pub mod lists;
pub mod random;
pub mod recorded;
pub mod report;
pub mod sections;
pub mod shrink;
pub mod spoil;
pub mod tally;
pub mod text;
