//! What a call that is not refused answers: the source's own operation on a `TaylorPoly` made from header and
//! coefficients.

use crate::case::Case;
use crate::words::Header;
use genfer::multivariate_taylor::{linear_of, TaylorPoly};
use genfer::number::{Number, F64};
use genfer::ppl::Var;
use ndarray::{ArrayD, Slice};
use num_traits::{One, Zero};

pub type Poly = TaylorPoly<F64>;

/// What the source answers: a polynomial, or a word and the numbers read.
pub enum Given {
    Poly(Poly),
    Read(u64, Vec<f64>),
}

fn poly(word: u64, coefficients: &[f64]) -> Poly {
    let header = Header::read(word).expect("a good header");
    let shape = header.lengths[..header.vars].to_vec();
    let stored = coefficients[..header.count()].iter().map(|x| F64::from(*x)).collect();
    let array = ArrayD::from_shape_vec(shape, stored).expect("as many as the lengths say");
    TaylorPoly::new(array, header.limits[..header.vars].to_vec())
}

fn a(case: &Case) -> Poly {
    poly(case.ah, &case.a)
}

fn b(case: &Case) -> Poly {
    poly(case.bh, &case.b)
}

fn number(case: &Case, i: usize) -> usize {
    case.numbers[i] as usize
}

fn float(case: &Case, i: usize) -> F64 {
    F64::from(f64::from_bits(case.numbers[i]))
}

/// Limits given to a constructor, how many of them first.
fn limits(numbers: &[u64]) -> Vec<usize> {
    numbers[1..][..numbers[0] as usize].iter().map(|l| *l as usize).collect()
}

/// Header and coefficients of a result of the source.
pub fn taken(p: &Poly) -> (Header, Vec<f64>) {
    let header = Header::new(p.shape(), p.array().shape());
    (header, p.array().iter().map(|x| x.to_f64()).collect())
}

pub fn negate(case: &Case) -> Given {
    Given::Poly(-a(case))
}

pub fn add(case: &Case) -> Given {
    Given::Poly(a(case) + b(case))
}

pub fn subtract(case: &Case) -> Given {
    Given::Poly(a(case) - b(case))
}

pub fn multiply(case: &Case) -> Given {
    Given::Poly(a(case) * b(case))
}

pub fn divide(case: &Case) -> Given {
    Given::Poly(a(case) / b(case))
}

pub fn exp(case: &Case) -> Given {
    Given::Poly(a(case).exp())
}

pub fn log(case: &Case) -> Given {
    Given::Poly(a(case).log())
}

pub fn pow(case: &Case) -> Given {
    Given::Poly(a(case).pow(case.numbers[0] as u32))
}

pub fn derivative(case: &Case) -> Given {
    Given::Poly(a(case).derivative(Var(number(case, 0)), number(case, 1)))
}

pub fn taylor_expansion_of_coeff(case: &Case) -> Given {
    Given::Poly(a(case).taylor_expansion_of_coeff(Var(number(case, 0)), number(case, 1)))
}

pub fn shift_down(case: &Case) -> Given {
    Given::Poly(a(case).shift_down(Var(number(case, 0)), number(case, 1)))
}

/// Of a zero, and of a line in v through 0, the source keeps the first operand's axes, and of a zero its lengths too,
/// whatever the smaller limits are (docs/DIFFERENCES.md). These calls are made with the first operand cut to them and
/// with all axes.
pub fn subst_var(case: &Case) -> Given {
    let (v, by) = (Var(number(case, 0)), b(case));
    let header = Header::read(case.ah).expect("a good header");
    let line = matches!(linear_of(&by), Some((c, _, w)) if c.is_zero() && w == v.id());
    if v.id() >= header.vars || !(by.is_zero() || line) {
        return Given::Poly(a(case).subst_var(v, &by));
    }
    Given::Poly(cut(&header, &case.a, &Header::new(by.shape(), by.array().shape())).subst_var(v, &by))
}

/// A polynomial cut to the smaller limits, with an axis for every variable that one of the two has.
fn cut(a: &Header, coefficients: &[f64], b: &Header) -> Poly {
    let vars = a.vars.max(b.vars);
    let limit = |h: &Header, v: usize| if v < h.vars { h.limits[v] } else { usize::MAX };
    let limits: Vec<usize> = (0..vars).map(|v| limit(a, v).min(limit(b, v))).collect();
    let lengths: Vec<usize> = (0..vars).map(|v| a.lengths[v].min(limits[v])).collect();
    let array =
        ArrayD::from_shape_vec(a.lengths[..vars].to_vec(), coefficients[..a.count()].iter().map(|x| F64::from(*x)).collect());
    let array = array.expect("as many as the lengths say");
    TaylorPoly::new(array.slice_each_axis(|ax| Slice::from(0..lengths[ax.axis.index()])).to_owned(), limits)
}

/// The head that the source takes: its own exp or log of a number.
pub fn exp_head(x: f64) -> f64 {
    F64::from(x).exp().to_f64()
}

pub fn log_head(x: f64) -> f64 {
    F64::from(x).log().to_f64()
}

pub fn taylor_polynomial(case: &Case) -> Given {
    Given::Poly(a(case).taylor_polynomial(Var(number(case, 0)), number(case, 1)))
}

pub fn coefficients_of_term(case: &Case) -> Given {
    Given::Poly(a(case).coefficients_of_term(Var(number(case, 0)), number(case, 1)))
}

pub fn zero(_: &Case) -> Given {
    Given::Poly(Poly::zero())
}

pub fn one(_: &Case) -> Given {
    Given::Poly(Poly::one())
}

pub fn from_u32(case: &Case) -> Given {
    Given::Poly(Poly::from_u32(case.numbers[0] as u32))
}

pub fn zero_with(case: &Case) -> Given {
    Given::Poly(Poly::zero_with(limits(&case.numbers)))
}

/// One coefficient under limits: the shape is `zero_with`'s.
fn constant_under(x: F64, limits: Vec<usize>) -> Poly {
    let array = Poly::zero_with(limits.clone()).array().map(|_| x);
    TaylorPoly::new(array, limits)
}

/// With limits the source stores no axes, which its own invariant forbids: what is left of it is the constant
/// (docs/DIFFERENCES.md).
pub fn from_u32_with(case: &Case) -> Given {
    let (c, limits) = (case.numbers[0] as u32, limits(&case.numbers[1..]));
    if limits.is_empty() {
        return Given::Poly(Poly::from_u32_with(c, limits));
    }
    Given::Poly(constant_under(Poly::from_u32(c).constant_term(), limits))
}

pub fn var(case: &Case) -> Given {
    Given::Poly(Poly::var(Var(number(case, 0)), float(case, 1), number(case, 2)))
}

/// At limit 1 the source stores length 2 above it; `var` does not, and has the same values.
pub fn var_at_zero(case: &Case) -> Given {
    let (v, limit) = (Var(number(case, 0)), number(case, 1));
    Given::Poly(if limit == 1 { Poly::var(v, F64::zero(), 1) } else { Poly::var_at_zero(v, limit) })
}

/// At limit 1 the source stores length 2 above it; what is left is x.
pub fn var_with_degrees_p1(case: &Case) -> Given {
    let (v, x, limits) = (number(case, 0), float(case, 1), limits(&case.numbers[2..]));
    if limits[v] == 1 {
        return Given::Poly(constant_under(x, limits));
    }
    Given::Poly(Poly::var_with_degrees_p1(Var(v), x, limits))
}

fn reads(x: F64) -> Given {
    Given::Read(0, vec![x.to_f64()])
}

pub fn coefficient(case: &Case) -> Given {
    let index: Vec<usize> = (0..case.numbers.len()).map(|i| number(case, i)).collect();
    reads(a(case).coefficient(&index))
}

pub fn constant_term(case: &Case) -> Given {
    reads(a(case).constant_term())
}

pub fn evaluate_all_one(case: &Case) -> Given {
    reads(a(case).evaluate_all_one())
}

/// The word is 0 for no, else 1 more than the variable.
pub fn extract_linear(case: &Case) -> Given {
    match linear_of(&a(case)) {
        None => Given::Read(0, vec![0.0, 0.0]),
        Some((c, m, v)) => Given::Read(1 + v as u64, vec![c.to_f64(), m.to_f64()]),
    }
}

/// Not in the source: the total minus the sum that the source makes of coefficients 0 to k, divided by the total.
pub fn tail(case: &Case) -> Given {
    let (sum, total) = (a(case).taylor_polynomial(Var(0), number(case, 0)).evaluate_all_one(), float(case, 1));
    reads((total - sum) / total)
}

/// Not in the source: a walk over all running sums, each made anew; refusals::least has found that one reaches q.
pub fn least(case: &Case) -> Given {
    let k = reaching(case).expect("a sum that reaches q");
    Given::Read(0, vec![f64::from_bits(k)])
}

/// The least k whose running sum is at least q.
pub fn reaching(case: &Case) -> Option<u64> {
    let (count, q) = (Header::read(case.ah).ok()?.count(), f64::from_bits(case.numbers[0]));
    let sums = (0..count).map(|k| case.a[..=k].iter().fold(0.0, |sum, x| sum + x));
    sums.zip(0..).filter(|(sum, _)| *sum >= q).map(|(_, k)| k).min()
}
