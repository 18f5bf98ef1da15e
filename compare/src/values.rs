//! Coefficients: every float that rounds, overflows or has a sign of its own, and the forms that a shortcut recognises.

use crate::rng::Rng;
use crate::words::Header;

pub const SPECIAL: [f64; 26] = [
    0.0,
    -0.0,
    1.0,
    -1.0,
    f64::INFINITY,
    f64::NEG_INFINITY,
    f64::NAN,
    5e-324,
    -5e-324,
    2.225073858507201e-308,
    f64::MIN_POSITIVE,
    f64::MAX,
    f64::MIN,
    1.0 + f64::EPSILON,
    1.0 - f64::EPSILON / 2.0,
    2.0,
    -2.0,
    0.5,
    0.1,
    3.0,
    1e200,
    -1e200,
    1e-200,
    1e308,
    9007199254740992.0,
    0.3333333333333333,
];

/// How an operand's coefficients are drawn.
#[derive(Copy, Clone, PartialEq, Eq)]
enum Pattern {
    Whole,
    Unit,
    Wide,
    Anything,
    Special,
    Sparse,
    Zeros,
    Constant,
    Linear,
    AlmostLinear,
}

/// Each as often as it stands here.
const PATTERNS: [Pattern; 18] = {
    use Pattern::*;
    [
        Whole,
        Whole,
        Whole,
        Unit,
        Unit,
        Unit,
        Wide,
        Wide,
        Anything,
        Special,
        Special,
        Sparse,
        Sparse,
        Zeros,
        Constant,
        Linear,
        Linear,
        AlmostLinear,
    ]
};

fn zero(rng: &mut Rng) -> f64 {
    rng.pick(&[0.0, -0.0])
}

fn unit(rng: &mut Rng) -> f64 {
    (rng.next() >> 11) as f64 / (1u64 << 52) as f64 - 1.0
}

/// Any float: a special one, or one of the usual sizes.
pub fn any(rng: &mut Rng) -> f64 {
    let pattern =
        rng.pick(&[Pattern::Special, Pattern::Special, Pattern::Whole, Pattern::Unit, Pattern::Wide, Pattern::Anything]);
    value(pattern, rng)
}

fn value(pattern: Pattern, rng: &mut Rng) -> f64 {
    match pattern {
        Pattern::Whole => rng.between(0, 18) as f64 - 9.0,
        Pattern::Unit => unit(rng),
        Pattern::Wide => unit(rng) * 2f64.powi(rng.between(0, 200) as i32 - 100),
        Pattern::Anything => f64::from_bits(rng.next()),
        Pattern::Special => rng.pick(&SPECIAL),
        Pattern::Sparse if rng.chance(250) => any(rng),
        _ => zero(rng),
    }
}

/// As many as the header stores.
pub fn coefficients(rng: &mut Rng, header: &Header) -> Vec<f64> {
    let pattern = rng.pick(&PATTERNS);
    let mut values: Vec<f64> = (0..header.count()).map(|_| value(pattern, rng)).collect();
    if pattern == Pattern::Zeros || rng.chance(800) && values.len() > 1 && !is_form(pattern) {
        return values;
    }
    values[0] = if rng.chance(300) { zero(rng) } else { any(rng) };
    if matches!(pattern, Pattern::Linear | Pattern::AlmostLinear) {
        let long: Vec<usize> = (0..header.vars).filter(|v| header.lengths[*v] > 1).collect();
        if !long.is_empty() {
            values[header.step(rng.pick(&long))] = any(rng);
        }
    }
    if pattern == Pattern::AlmostLinear {
        let at = rng.below(values.len());
        values[at] = any(rng);
    }
    values
}

fn is_form(pattern: Pattern) -> bool {
    matches!(pattern, Pattern::Constant | Pattern::Linear | Pattern::AlmostLinear)
}
