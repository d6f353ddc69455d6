//! Byte strings of every sort, and the proved library held against the plain implementation on each.

pub mod differ;
pub mod generate;
pub mod random;
pub mod side;
pub mod text;
