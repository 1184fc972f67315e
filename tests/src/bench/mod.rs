//! The benchmark: the cases, their time side by side, a table to compare with later, and
//! the deepest stack.

pub mod cases;
pub mod measure;
pub mod places;
pub mod purges;
pub mod report;
pub mod saved;
pub mod sides;
pub mod stack;
pub mod texts;
