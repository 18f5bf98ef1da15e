//! The table of operations: how a call looks, what refuses it, and what the source answers.

use crate::case::Case;
use crate::oracle::{self, Given};
use crate::refusals::{self, Gate};

/// What a number handed to an operation means; the cases are drawn by it.
#[derive(Copy, Clone, PartialEq, Eq)]
pub enum Kind {
    /// a variable of the first operand, or of what is made
    Variable,
    /// an order, n or k: compared with the limit of the variable before it, or of variable 0
    Order,
    /// an index, that of the variable with the number's position
    Index,
    /// how many limits follow
    Vars,
    Limit,
    /// a 32-bit number
    Constant,
    /// a 32-bit number, small ones and those of many bits
    Exponent,
    /// a float's bits
    Float,
    /// the bits of a total that a tail is a part of
    Total,
    /// the bits of a wanted chance; in many cases a running sum of the first operand or one of its neighbours
    Wanted,
    /// the bits of the source's own exp, or log, of the first operand's constant term
    Exp,
    Log,
}

#[derive(Copy, Clone, PartialEq, Eq)]
pub enum Gives {
    Polynomial,
    Float,
    Line,
}

pub struct Operation {
    pub name: &'static str,
    /// the number of the operation in a stored sample
    pub code: u8,
    pub operands: usize,
    pub scratch: bool,
    /// whether a call makes many products, so that its cases have to be smaller
    pub many: bool,
    pub gives: Gives,
    pub numbers: &'static [Kind],
    pub gate: fn(&Case) -> Gate,
    pub source: fn(&Case) -> Given,
}

impl Operation {
    pub fn gives_polynomial(&self) -> bool {
        self.gives == Gives::Polynomial
    }

    /// How many floats a reading writes; `least` writes a word, which is taken for a float's bits.
    pub fn cells(&self) -> usize {
        match self.gives {
            Gives::Polynomial => 0,
            Gives::Float => 1,
            Gives::Line => 2,
        }
    }
}

type GateOf = fn(&Case) -> Gate;
type SourceOf = fn(&Case) -> Given;

const fn row(name: &'static str, code: u8, numbers: &'static [Kind], gate: GateOf, source: SourceOf) -> Operation {
    Operation { name, code, operands: 0, scratch: false, many: false, gives: Gives::Polynomial, numbers, gate, source }
}

/// An operation of one operand that gives a polynomial.
const fn one(row: Operation) -> Operation {
    Operation { operands: 1, ..row }
}

/// An operation of two operands, with scratch.
const fn two(row: Operation) -> Operation {
    Operation { operands: 2, scratch: true, ..row }
}

/// An operation of one operand, with scratch.
const fn worked(row: Operation) -> Operation {
    Operation { operands: 1, scratch: true, ..row }
}

const fn many(row: Operation) -> Operation {
    Operation { many: true, ..row }
}

const fn read(row: Operation) -> Operation {
    Operation { operands: 1, gives: Gives::Float, ..row }
}

use Kind::{Constant, Exp, Exponent, Float, Index, Limit, Log, Order, Total, Variable, Vars, Wanted};
const INDEX: &[Kind] = &[Index, Index, Index, Index];
const LIMITS: &[Kind] = &[Vars, Limit, Limit, Limit, Limit];
const CONSTANT_LIMITS: &[Kind] = &[Constant, Vars, Limit, Limit, Limit, Limit];
const VARIABLE_LIMITS: &[Kind] = &[Variable, Float, Vars, Limit, Limit, Limit, Limit];

pub static OPERATIONS: &[Operation] = &[
    row("zero", 16, &[], refusals::bare, oracle::zero),
    row("one", 17, &[], refusals::bare, oracle::one),
    row("from_u32", 11, &[Constant], refusals::bare, oracle::from_u32),
    row("zero_with", 10, LIMITS, refusals::zero_with, oracle::zero_with),
    row("from_u32_with", 12, CONSTANT_LIMITS, refusals::from_u32_with, oracle::from_u32_with),
    row("var_with_degrees_p1", 15, VARIABLE_LIMITS, refusals::var_with_degrees_p1, oracle::var_with_degrees_p1),
    row("var", 14, &[Variable, Float, Limit], refusals::var, oracle::var),
    row("var_at_zero", 13, &[Variable, Limit], refusals::var, oracle::var_at_zero),
    read(row("coefficient", 20, INDEX, refusals::coefficient, oracle::coefficient)),
    read(row("constant_term", 21, &[], refusals::reading, oracle::constant_term)),
    read(row("evaluate_all_one", 22, &[], refusals::reading, oracle::evaluate_all_one)),
    Operation { gives: Gives::Line, ..read(row("extract_linear", 23, &[], refusals::reading, oracle::extract_linear)) },
    read(row("tail", 24, &[Order, Total], refusals::tail, oracle::tail)),
    read(row("least", 25, &[Wanted], refusals::least, oracle::least)),
    one(row("taylor_polynomial", 3, &[Variable, Order], refusals::taylor_polynomial, oracle::taylor_polynomial)),
    one(row("coefficients_of_term", 4, &[Variable, Order], refusals::coefficients_of_term, oracle::coefficients_of_term)),
    one(row("negate", 0, &[], refusals::negate, oracle::negate)),
    two(row("add", 1, &[], refusals::sum, oracle::add)),
    two(row("subtract", 2, &[], refusals::sum, oracle::subtract)),
    two(row("multiply", 5, &[], refusals::product, oracle::multiply)),
    two(row("divide", 6, &[], refusals::quotient, oracle::divide)),
    worked(row("exp", 7, &[Exp], refusals::series, oracle::exp)),
    worked(row("log", 8, &[Log], refusals::series, oracle::log)),
    many(worked(row("pow", 30, &[Exponent], refusals::pow, oracle::pow))),
    one(row("derivative", 31, &[Variable, Order], refusals::shift, oracle::derivative)),
    one(row("taylor_expansion_of_coeff", 32, &[Variable, Order], refusals::shift, oracle::taylor_expansion_of_coeff)),
    one(row("shift_down", 33, &[Variable, Order], refusals::shift, oracle::shift_down)),
    many(two(row("subst_var", 34, &[Variable], refusals::subst_var, oracle::subst_var))),
];

pub fn named(name: &str) -> Option<&'static Operation> {
    OPERATIONS.iter().find(|op| op.name == name)
}

pub fn numbered(code: u8) -> Option<&'static Operation> {
    OPERATIONS.iter().find(|op| op.code == code)
}

/// Names the first that is no operation.
pub fn known(names: &[impl AsRef<str>]) -> Result<(), String> {
    match names.iter().map(AsRef::as_ref).find(|name| named(name).is_none()) {
        None => Ok(()),
        Some(name) => {
            let all: Vec<&str> = OPERATIONS.iter().map(|op| op.name).collect();
            Err(format!("there is no operation '{name}'; there are: {}", all.join(", ")))
        }
    }
}
