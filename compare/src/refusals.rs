//! Which calls are refused, by which number, and what the others announce: document 01's 'Announced limits and lengths'
//! and 'Refusal numbers', on plain numbers. The source asserts, panics or goes on where these refuse, so nothing here
//! is from it.

use crate::case::Case;
use crate::oracle;
use crate::words::{Fault, Header, COUNT, LIMIT, VARIABLES};

/// A refusal's number, with the fault that 1 tells (document 02, W5). Its place is 64 in a single operation.
pub struct Refusal {
    pub number: u64,
    pub fault: Fault,
}
pub const PLACE: u64 = 64;

impl Refusal {
    /// By a number alone.
    pub fn by(number: u64) -> Self {
        Refusal { number, fault: Fault { variable: 0, cause: 0 } }
    }
}

impl From<Fault> for Refusal {
    fn from(fault: Fault) -> Self {
        Refusal { number: 1, fault }
    }
}

pub type Gate = Result<Header, Refusal>;

fn demand(holds: bool, number: u64) -> Result<(), Refusal> {
    holds.then_some(()).ok_or(Refusal::by(number))
}

fn good(word: u64) -> Gate {
    Ok(Header::read(word)?)
}

fn is_limit(limit: u64) -> bool {
    (1..=LIMIT).contains(&limit)
}

/// Tests 1 and 2 of one operand.
fn operand(case: &Case) -> Gate {
    let a = good(case.ah)?;
    demand(case.a.len() >= a.count(), 2)?;
    Ok(a)
}

/// Tests 3 and 4: a variable of the polynomial, and a number below its limit.
pub fn below_limit(a: &Header, v: u64, n: u64) -> Result<usize, Refusal> {
    demand(v < a.vars as u64, 3)?;
    demand(n < a.limits[v as usize] as u64, 4)?;
    Ok(v as usize)
}

/// Test 5.
fn lent(case: &Case, announced: Header) -> Gate {
    let count = announced.count();
    demand(count <= COUNT && case.out >= count, 5)?;
    Ok(announced)
}

/// Tests 1, 2, 5 and 6 of two operands; `announce` gives what is announced.
fn pair(case: &Case, announce: impl FnOnce(&Header, &Header) -> Header) -> Gate {
    let (a, b) = (good(case.ah)?, good(case.bh)?);
    demand(case.a.len() >= a.count() && case.b.len() >= b.count(), 2)?;
    worked(case, announce(&a, &b))
}

/// Tests 5 and 6.
fn worked(case: &Case, announced: Header) -> Gate {
    let announced = lent(case, announced)?;
    demand(case.scratch >= 8 * announced.count(), 6)?;
    Ok(announced)
}

/// The smaller limits (a variable that one lacks takes the other's), and lengths by `length` from the limit and the two
/// cut lengths.
fn joined(a: &Header, b: &Header, length: fn(usize, usize, usize) -> usize) -> Header {
    let vars = a.vars.max(b.vars);
    let limits: Vec<usize> = (0..vars)
        .map(|v| match (v < a.vars, v < b.vars) {
            (true, true) => a.limits[v].min(b.limits[v]),
            (true, false) => a.limits[v],
            _ => b.limits[v],
        })
        .collect();
    let cut = |h: &Header, v: usize| h.lengths[v].min(limits[v]);
    let lengths: Vec<usize> = (0..vars).map(|v| length(limits[v], cut(a, v), cut(b, v))).collect();
    Header::new(&limits, &lengths)
}

pub fn announced_sum(a: &Header, b: &Header) -> Header {
    joined(a, b, |_, a, b| a.max(b))
}

pub fn announced_product(a: &Header, b: &Header) -> Header {
    joined(a, b, |limit, a, b| limit.min(a + b - 1))
}

pub fn announced_quotient(a: &Header, b: &Header) -> Header {
    joined(a, b, |limit, a, b| if b == 1 { a } else { limit })
}

pub fn sum(case: &Case) -> Gate {
    pair(case, announced_sum)
}

pub fn product(case: &Case) -> Gate {
    pair(case, announced_product)
}

pub fn quotient(case: &Case) -> Gate {
    pair(case, announced_quotient)
}

/// The limit of each variable, and 1 where the operand's length is 1.
pub fn announced_series(a: &Header) -> Header {
    let mut all = *a;
    for v in 0..all.vars {
        all.lengths[v] = if a.lengths[v] == 1 { 1 } else { a.limits[v] };
    }
    all
}

/// Tests 1, 2, 5 and 6 of one operand.
pub fn series(case: &Case) -> Gate {
    let a = operand(case)?;
    worked(case, announced_series(&a))
}

/// 0 announces one with no variables.
pub fn announced_power(a: &Header, e: usize) -> Header {
    let mut all = if e == 0 { Header::new(&[], &[]) } else { *a };
    for v in 0..all.vars {
        all.lengths[v] = a.limits[v].min(e * (a.lengths[v] - 1) + 1);
    }
    all
}

/// Number e.
pub fn pow(case: &Case) -> Gate {
    let a = operand(case)?;
    worked(case, announced_power(&a, case.numbers[0] as usize))
}

/// The limit less n, the length less n and at least 1.
pub fn announced_shift(a: &Header, v: usize, n: usize) -> Header {
    let mut all = *a;
    all.limits[v] -= n;
    all.lengths[v] = a.lengths[v].saturating_sub(n).max(1);
    all
}

/// Numbers v and n.
pub fn shift(case: &Case) -> Gate {
    let a = operand(case)?;
    let v = below_limit(&a, case.numbers[0], case.numbers[1])?;
    lent(case, announced_shift(&a, v, case.numbers[1] as usize))
}

/// Number v.
pub fn subst_var(case: &Case) -> Gate {
    pair(case, |a, b| announced_substitution(a, b, case.numbers[0]))
}

/// A variable that the first operand lacks leaves it as it is.
pub fn announced_substitution(a: &Header, b: &Header, v: u64) -> Header {
    if v < a.vars as u64 {
        replaced(a, b, v as usize)
    } else {
        *a
    }
}

/// The smaller limits; with p the uncut length of v, lengths of p - 1 times b's and, except in v, a's own.
fn replaced(a: &Header, b: &Header, v: usize) -> Header {
    let more = a.lengths[v] - 1;
    let limits = joined(a, b, |limit, _, _| limit).limits;
    let mut all = joined(a, b, |_, _, b| b);
    for w in 0..all.vars {
        let own = if w == v { 1 } else { a.lengths[w].min(limits[w]) };
        all.lengths[w] = limits[w].min(own + more * (all.lengths[w] - 1));
    }
    all
}

pub fn negate(case: &Case) -> Gate {
    let a = operand(case)?;
    lent(case, a)
}

/// Numbers v and order.
pub fn taylor_polynomial(case: &Case) -> Gate {
    let mut a = operand(case)?;
    let v = below_limit(&a, case.numbers[0], case.numbers[1])?;
    a.lengths[v] = a.lengths[v].min(case.numbers[1] as usize + 1);
    lent(case, a)
}

/// Numbers v and order.
pub fn coefficients_of_term(case: &Case) -> Gate {
    let mut a = operand(case)?;
    let v = below_limit(&a, case.numbers[0], case.numbers[1])?;
    a.lengths[v] = 1;
    lent(case, a)
}

/// A reading announces nothing; what is answered is the operand's header.
pub fn reading(case: &Case) -> Gate {
    operand(case)
}

/// Numbers: an index a variable.
pub fn coefficient(case: &Case) -> Gate {
    let a = operand(case)?;
    demand(case.numbers[a.vars..].iter().all(|i| *i == 0), 3)?;
    demand((0..a.vars).all(|v| case.numbers[v] < a.limits[v] as u64), 4)?;
    Ok(a)
}

/// Numbers k and total.
pub fn tail(case: &Case) -> Gate {
    let a = operand(case)?;
    demand(a.vars == 1, 3)?;
    below_limit(&a, 0, case.numbers[0])?;
    let total = f64::from_bits(case.numbers[1]);
    demand(total.is_finite() && total > 0.0, 4)?;
    Ok(a)
}

/// Number q.
pub fn least(case: &Case) -> Gate {
    let a = operand(case)?;
    demand(a.vars == 1, 3)?;
    demand(oracle::reaching(case).is_some(), 11)?;
    Ok(a)
}

/// Limits given to a constructor: how many, then four numbers. Too many is told before any limit, then the first that
/// is none.
fn given(numbers: &[u64]) -> Gate {
    if numbers[0] > VARIABLES as u64 {
        return Err(Fault::of_none(6).into());
    }
    let limits = &numbers[1..][..numbers[0] as usize];
    if let Some(v) = limits.iter().position(|l| !is_limit(*l)) {
        return Err(Fault::of(v, 6).into());
    }
    let limits: Vec<usize> = limits.iter().map(|l| *l as usize).collect();
    Ok(Header::new(&limits, &vec![1; limits.len()]))
}

/// No number that matters: no variables.
pub fn bare(case: &Case) -> Gate {
    lent(case, Header::new(&[], &[]))
}

/// Numbers: how many limits, then four.
pub fn zero_with(case: &Case) -> Gate {
    lent(case, given(&case.numbers)?)
}

/// Numbers: the constant, how many limits, then four.
pub fn from_u32_with(case: &Case) -> Gate {
    lent(case, given(&case.numbers[1..])?)
}

/// Variable v's limit is `limits[v]`, its length min(2, limit).
fn variable(case: &Case, v: u64, mut header: Header) -> Gate {
    demand(v < header.vars as u64, 3)?;
    header.lengths[v as usize] = header.limits[v as usize].min(2);
    lent(case, header)
}

/// Numbers v, x, how many limits, then four.
pub fn var_with_degrees_p1(case: &Case) -> Gate {
    variable(case, case.numbers[0], given(&case.numbers[2..])?)
}

/// Numbers v, .., limit: every variable up to v has the limit, variable 0 first.
pub fn var(case: &Case) -> Gate {
    let (v, limit) = (case.numbers[0], case.numbers[case.numbers.len() - 1]);
    if !is_limit(limit) {
        return Err(Fault::of(0, 6).into());
    }
    demand(v < VARIABLES as u64, 3)?;
    let limits = vec![limit as usize; v as usize + 1];
    variable(case, v, Header::new(&limits, &vec![1; limits.len()]))
}
