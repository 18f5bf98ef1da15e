//! A stand-in for the source's module `ppl`: a variable is its number.

use std::fmt::{Display, Formatter, Result};

#[derive(Copy, Clone, Debug, PartialEq, Eq)]
pub struct Var(pub usize);

impl Var {
    pub fn id(self) -> usize {
        self.0
    }
}

impl Display for Var {
    fn fmt(&self, f: &mut Formatter<'_>) -> Result {
        write!(f, "x{}", self.0)
    }
}
