//! What a call has to answer and leave, worked out without the library; and cases to ask it for.

pub mod case;
#[cfg(test)]
mod differences;
pub mod generate;
pub mod headed;
pub mod lending;
pub mod operations;
pub mod oracle;
pub mod outcome;
pub mod recipe_edges;
pub mod recipes;
pub mod refusals;
pub mod rng;
pub mod shapes;
pub mod sheet_edges;
pub mod sheets;
pub mod values;
pub mod words;
