//! The calls in which the results differ on purpose (docs/DIFFERENCES.md), at the smallest input of each: what the
//! source does there, and what is expected here instead. The source's own debug assertions are on.

use crate::case::Case;
use crate::operations::named;
use crate::outcome::{expected, Answer};
use crate::words::{Fault, Header};
use genfer::multivariate_taylor::TaylorPoly;
use genfer::number::F64;
use genfer::ppl::Var;
use ndarray::ArrayD;
use std::panic::{catch_unwind, UnwindSafe};

type Poly = TaylorPoly<F64>;

fn poly(limits: &[usize], lengths: &[usize], values: &[f64]) -> Poly {
    let values = values.iter().map(|x| F64::from(*x)).collect();
    let array = ArrayD::from_shape_vec(lengths.to_vec(), values).expect("as many as the lengths say");
    TaylorPoly::new(array, limits.to_vec())
}

/// Limits, lengths and coefficients of what the source answers; none where it panics.
fn source(call: impl FnOnce() -> Poly + UnwindSafe) -> Option<(Vec<usize>, Vec<usize>, Vec<f64>)> {
    let p = catch_unwind(call).ok()?;
    Some((p.shape().to_vec(), p.array().shape().to_vec(), p.array().iter().map(|x| x.to_f64()).collect()))
}

/// What is expected here, with one place lent: the answer and that place.
fn here(name: &str, head: &Header, a: &[f64], numbers: &[u64]) -> (Answer, f64) {
    let op = named(name).expect("an operation");
    let case = Case { op, numbers: numbers.to_vec(), ah: head.word(), a: a.to_vec(), bh: 0, b: vec![], out: 1, scratch: 0 };
    let outcome = expected(&case);
    (outcome.answer, outcome.out[0])
}

fn done(limits: &[usize], lengths: &[usize]) -> Answer {
    Answer::Done(Header::new(limits, lengths).word())
}

fn refused(number: u64) -> Answer {
    Answer::Refused { number, place: 64, fault: Fault { variable: 0, cause: 0 } }
}

const NONE: Header = Header { vars: 0, limits: [1; 4], lengths: [1; 4] };

#[test]
fn from_u32_with_stores_no_axes() {
    assert_eq!(source(|| Poly::from_u32_with(0, vec![1])), None);
    assert_eq!(here("from_u32_with", &NONE, &[], &[0, 1, 1, 0, 0, 0]), (done(&[1], &[1]), 0.0));
}

#[test]
fn var_at_zero_is_longer_than_a_limit_of_1() {
    assert_eq!(source(|| Poly::var_at_zero(Var(0), 1)), None);
    assert_eq!(here("var_at_zero", &NONE, &[], &[0, 1]), (done(&[1], &[1]), 0.0));
}

#[test]
fn var_with_degrees_p1_is_longer_than_a_limit_of_1() {
    assert_eq!(source(|| Poly::var_with_degrees_p1(Var(0), F64::from(5.0), vec![1])), None);
    let numbers = [0, 5f64.to_bits(), 1, 1, 0, 0, 0];
    assert_eq!(here("var_with_degrees_p1", &NONE, &[], &numbers), (done(&[1], &[1]), 5.0));
}

#[test]
fn coefficients_of_term_takes_any_variable_and_order() {
    let same = source(|| poly(&[], &[], &[5.0]).coefficients_of_term(Var(0), 0));
    assert_eq!(same, Some((vec![], vec![], vec![5.0])));
    assert_eq!(here("coefficients_of_term", &NONE, &[5.0], &[0, 0]).0, refused(3));
    let zero = source(|| poly(&[1], &[1], &[5.0]).coefficients_of_term(Var(0), 1));
    assert_eq!(zero, Some((vec![1], vec![1], vec![0.0])));
    assert_eq!(here("coefficients_of_term", &Header::new(&[1], &[1]), &[5.0], &[0, 1]).0, refused(4));
}

#[test]
fn coefficient_stops_at_the_first_index_past_its_length() {
    let zero = Some((vec![], vec![], vec![0.0]));
    assert_eq!(source(|| poly(&[2, 1], &[1, 1], &[5.0]).coefficient(&[1, 1]).into()), zero);
    assert_eq!(here("coefficient", &Header::new(&[2, 1], &[1, 1]), &[5.0], &[1, 1, 0, 0]).0, refused(4));
    assert_eq!(source(|| poly(&[], &[], &[5.0]).coefficient(&[1]).into()), zero);
    assert_eq!(here("coefficient", &NONE, &[5.0], &[1, 0, 0, 0]).0, refused(3));
}

/// What is expected of b for the variable 0 of a, with one place lent.
fn put(ah: Header, a: &[f64], bh: Header, b: &[f64]) -> (Answer, f64) {
    let op = named("subst_var").expect("an operation");
    let case = Case { op, numbers: vec![0], ah: ah.word(), a: a.to_vec(), bh: bh.word(), b: b.to_vec(), out: 1, scratch: 8 };
    let outcome = expected(&case);
    (outcome.answer, outcome.out[0])
}

#[test]
fn subst_var_keeps_too_much_or_too_few_axes() {
    let uncut = || poly(&[1, 2], &[1, 2], &[1.0, 2.0]).subst_var(Var(0), &Poly::zero_with(vec![1, 1]));
    assert_eq!(source(uncut), None);
    let zero = Header::new(&[1, 1], &[1, 1]);
    assert_eq!(put(Header::new(&[1, 2], &[1, 2]), &[1.0, 2.0], zero, &[0.0]), (done(&[1, 1], &[1, 1]), 1.0));
    let few_axes = || poly(&[1], &[1], &[1.0]).subst_var(Var(0), &Poly::zero_with(vec![1, 1]));
    assert_eq!(source(few_axes), None);
    assert_eq!(put(Header::new(&[1], &[1]), &[1.0], zero, &[0.0]), (done(&[1, 1], &[1, 1]), 1.0));
    let linear = || poly(&[2], &[1], &[1.0]).subst_var(Var(0), &poly(&[2, 1], &[2, 1], &[0.0, 1.0]));
    assert_eq!(source(linear), None);
    let line = Header::new(&[2, 1], &[2, 1]);
    assert_eq!(put(Header::new(&[2], &[1]), &[1.0], line, &[0.0, 1.0]), (done(&[2, 1], &[1, 1]), 1.0));
}
