//! What the check of a recipe answers, from document 01's 'Recipes' and 'Refusal numbers'; and what its steps give, by
//! the source; from document 02 edition 1's power of zero (W7) and where a run stops (W13).

use crate::case::Case;
use crate::headed;
use crate::operations::named;
use crate::oracle::{taken, Given};
use crate::refusals::{self, below_limit, Refusal, PLACE};
use crate::words::{Fault, Header, COUNT};

#[derive(Clone)]
pub struct Recipe {
    pub headers: Vec<u64>,
    /// the inputs' coefficients, end to end
    pub coefficients: Vec<f64>,
    pub steps: Vec<u64>,
    /// any word
    pub edition: u64,
}

impl Recipe {
    /// The same recipe of another edition.
    pub fn of_edition(&self, edition: u64) -> Recipe {
        Recipe { edition, ..self.clone() }
    }
}

/// A refusal at a place.
pub struct Refused {
    pub place: u64,
    pub why: Refusal,
}

impl Refused {
    /// By a number alone.
    pub fn at(number: u64, place: u64) -> Self {
        Refused { place, why: Refusal::by(number) }
    }

    /// A header's fault.
    pub fn header(fault: Fault, place: usize) -> Self {
        Refused { place: place as u64, why: fault.into() }
    }
}

/// As a program prints it.
impl std::fmt::Display for Refused {
    fn fmt(&self, f: &mut std::fmt::Formatter) -> std::fmt::Result {
        let Refusal { number, fault } = &self.why;
        write!(f, "refused {number} {} {} {}", self.place, fault.variable, fault.cause)
    }
}

/// A header and the coefficients that it stores.
pub type Value = (Header, Vec<f64>);

/// The fields of a step word.
#[derive(Copy, Clone, Default)]
pub struct Step {
    pub kind: u64,
    pub a: u64,
    pub b: u64,
    pub variable: u64,
    pub n: u64,
    pub spare: u64,
}

/// Which of a, b, variable and n a kind uses; kinds 12 to 15 are none.
const USES: [[bool; 4]; 12] = {
    const NO: bool = false;
    const YES: bool = true;
    [
        [NO, NO, NO, YES],
        [YES, NO, NO, NO],
        [YES, YES, NO, NO],
        [YES, YES, NO, NO],
        [YES, YES, NO, NO],
        [YES, YES, NO, NO],
        [YES, NO, NO, YES],
        [YES, NO, YES, YES],
        [YES, NO, YES, YES],
        [YES, NO, YES, YES],
        [YES, YES, YES, NO],
        [YES, NO, NO, NO],
    ]
};

impl Step {
    pub fn read(word: u64) -> Step {
        let field = |from: u32, bits: u32| word >> from & ((1 << bits) - 1);
        Step {
            kind: field(60, 4),
            a: field(54, 6),
            b: field(48, 6),
            variable: field(46, 2),
            n: field(14, 32),
            spare: field(0, 14),
        }
    }

    pub fn word(&self) -> u64 {
        self.kind << 60 | self.a << 54 | self.b << 48 | self.variable << 46 | self.n << 14 | self.spare
    }

    /// What its kind uses.
    pub fn uses(kind: u64) -> Option<[bool; 4]> {
        USES.get(kind as usize).copied()
    }

    /// Test 7 at a place.
    fn is_formed(&self, place: usize) -> bool {
        let Some([a, b, variable, n]) = Step::uses(self.kind) else { return false };
        let early = |used: bool, x: u64| if used { x < place as u64 } else { x == 0 };
        let idle = |used: bool, x: u64| used || x == 0;
        early(a, self.a) && early(b, self.b) && idle(variable, self.variable) && idle(n, self.n) && self.spare == 0
    }

    /// A power of zero, which edition 1 keeps apart.
    fn is_idle(&self, edition: u64) -> bool {
        edition == 1 && self.kind == 6 && self.n == 0
    }

    /// What it announces, or the number of its refusal, known what the places before it announce.
    fn announced(&self, known: &[Header], edition: u64) -> Result<Header, u64> {
        if !self.is_formed(known.len()) {
            return Err(7);
        }
        let at = |p: u64| known.get(p as usize).copied().unwrap_or(Header::new(&[], &[]));
        let (a, b) = (at(self.a), at(self.b));
        let told = match self.kind {
            0 => Header::new(&[], &[]),
            1 => a,
            2 | 3 => refusals::announced_sum(&a, &b),
            4 => refusals::announced_product(&a, &b),
            5 => refusals::announced_quotient(&a, &b),
            6 if self.is_idle(edition) => one_like(&a),
            6 => refusals::announced_power(&a, self.n as usize),
            7..=9 => {
                let v = below_limit(&a, self.variable, self.n).map_err(|refusal| refusal.number)?;
                refusals::announced_shift(&a, v, self.n as usize)
            }
            10 => refusals::announced_substitution(&a, &b, self.variable),
            _ => refusals::announced_series(&a),
        };
        if told.count() <= COUNT {
            Ok(told)
        } else {
            Err(5)
        }
    }

    /// An exponential of a value whose constant term has none: document 02, W13.
    fn stops(&self, values: &[Value]) -> bool {
        self.kind == 11 && !headed::has_head(values[self.a as usize].1[0])
    }

    /// The source's answer, but for a power of zero in edition 1 and the head of an exponential.
    fn value(&self, values: &[Value], edition: u64) -> Value {
        if self.is_idle(edition) {
            return (one_like(&values[self.a as usize].0), vec![1.0]);
        }
        if self.kind == 11 {
            return headed::exponential(&values[self.a as usize]);
        }
        let name = [
            "from_u32",
            "negate",
            "add",
            "subtract",
            "multiply",
            "divide",
            "pow",
            "derivative",
            "taylor_expansion_of_coeff",
            "shift_down",
            "subst_var",
        ][self.kind as usize];
        let op = named(name).expect("an operation");
        let numbers = match self.kind {
            0 | 6 => vec![self.n],
            7..=9 => vec![self.variable, self.n],
            10 => vec![self.variable],
            _ => vec![],
        };
        let operand = |p: u64, used: bool| match used {
            true => (values[p as usize].0.word(), values[p as usize].1.clone()),
            false => (0, vec![]),
        };
        let (ah, a) = operand(self.a, op.operands > 0);
        let (bh, b) = operand(self.b, op.operands > 1);
        match (op.source)(&Case { op, numbers, ah, a, bh, b, out: usize::MAX, scratch: usize::MAX }) {
            Given::Poly(p) => taken(&p),
            Given::Read(..) => unreachable!("no step reads"),
        }
    }
}

/// One with the limits of its operand, and lengths of 1.
fn one_like(a: &Header) -> Header {
    Header { lengths: [1; 4], ..*a }
}

/// Editions 0 and 1 are known.
pub fn is_known(edition: u64) -> bool {
    edition <= 1
}

/// Test 7 of a recipe's sizes.
pub fn right_sizes(inputs: usize, steps: usize) -> bool {
    inputs <= 16 && steps >= 1 && inputs + steps <= 64
}

/// The check on words alone: what every place announces.
pub fn check(headers: &[u64], steps: &[u64], edition: u64) -> Result<Vec<Header>, Refused> {
    if !is_known(edition) || !right_sizes(headers.len(), steps.len()) {
        return Err(Refused::at(7, PLACE));
    }
    let mut known = vec![];
    for word in headers {
        known.push(Header::read(*word).map_err(|fault| Refused::header(fault, known.len()))?);
    }
    for word in steps {
        known.push(Step::read(*word).announced(&known, edition).map_err(|number| Refused::at(number, known.len() as u64))?);
    }
    Ok(known)
}

/// The value of every place of a recipe that the check accepts; or 12 at the first step that stops it.
pub fn values(recipe: &Recipe) -> Result<Vec<Value>, Refused> {
    let mut values: Vec<Value> = vec![];
    let mut at = 0;
    for word in &recipe.headers {
        let header = Header::read(*word).expect("a good header");
        values.push((header, recipe.coefficients[at..at + header.count()].to_vec()));
        at += header.count();
    }
    for word in &recipe.steps {
        let step = Step::read(*word);
        if step.stops(&values) {
            return Err(Refused::at(12, values.len() as u64));
        }
        values.push(step.value(&values, recipe.edition));
    }
    Ok(values)
}
