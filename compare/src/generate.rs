//! Cases from a seed: every short one, and random ones around each boundary.

use crate::case::Case;
use crate::operations::{Kind, Operation};
use crate::rng::Rng;
use crate::words::{Header, COUNT};
use crate::{oracle, shapes, values};

/// The most places that operands store and a result announces.
#[derive(Copy, Clone)]
pub struct Size {
    pub operand: usize,
    pub announced: usize,
    /// lent places past those needed, and coefficients past those stored
    pub more: usize,
}

/// Most cases are small; a few announce about 4,096 places. Of an operation that makes many products fewer are large.
pub fn size(op: &Operation, rng: &mut Rng) -> Size {
    let most = match rng.below(1000) {
        at if op.many && at < 990 => [16, 32, 64][at % 3],
        at if op.many && at < 998 => 256,
        _ if op.many && rng.chance(900) => 1024,
        0..=249 => 16,
        250..=649 => 64,
        650..=949 => 256,
        950..=995 => 1024,
        _ => COUNT,
    };
    Size { operand: most, announced: most, more: 40 }
}

/// A random case of an operation.
pub fn random(op: &'static Operation, rng: &mut Rng, size: Size) -> Case {
    for _ in 0..20 {
        let (a, b) = operands(op, rng, size);
        let numbers = numbers(op, rng, &a);
        let case = draft(op, rng, (a, b), numbers);
        let announced = announced(&case);
        let seldom = announced == 0 || announced > COUNT;
        if announced <= size.announced && !seldom || seldom && rng.chance(100) {
            return finished(case, rng, size);
        }
    }
    let none = Header::new(&[], &[]);
    let numbers = numbers(op, rng, &none);
    finished(draft(op, rng, (none, none), numbers), rng, size)
}

fn operands(op: &Operation, rng: &mut Rng, size: Size) -> (Header, Header) {
    if size.operand == COUNT && rng.chance(600) {
        let (a, b) = shapes::big(rng);
        return if op.operands == 2 || rng.chance(500) { (a, b) } else { (b, a) };
    }
    let a = shapes::random(rng, size.operand);
    let b = shapes::second(rng, &a, size.operand);
    (a, b)
}

/// Headers, coefficients and numbers, with buffers that nothing is too long for.
fn draft(op: &'static Operation, rng: &mut Rng, heads: (Header, Header), numbers: Vec<u64>) -> Case {
    let mut operand = |header: &Header, there: bool| match there {
        true => (header.word(), values::coefficients(rng, header)),
        false => (0, vec![]),
    };
    let (ah, a) = operand(&heads.0, op.operands > 0);
    let (bh, b) = operand(&heads.1, op.operands > 1);
    let numbers = op.numbers.iter().zip(numbers).map(|(kind, number)| head(*kind, &a, rng).unwrap_or(number)).collect();
    Case { op, numbers, ah, a, bh, b, out: usize::MAX, scratch: usize::MAX }
}

/// The head of exp or log, from the constant term; a wanted chance, mostly about a running sum.
fn head(kind: Kind, a: &[f64], rng: &mut Rng) -> Option<u64> {
    match kind {
        Kind::Wanted => rng.chance(600).then(|| about_sum(a, rng)),
        Kind::Exp => Some(oracle::exp_head(a[0]).to_bits()),
        Kind::Log => Some(oracle::log_head(a[0]).to_bits()),
        _ => None,
    }
}

/// The running sum of some first coefficients, or a float next to it.
fn about_sum(a: &[f64], rng: &mut Rng) -> u64 {
    let sum = a.iter().take(rng.between(1, a.len().max(1))).fold(0.0, |sum, x| sum + x).to_bits();
    rng.pick(&[sum, sum, sum.wrapping_add(1), sum.wrapping_sub(1)])
}

/// The count that a draft announces, 0 where its numbers are refused, one more than 4,096 where that count is above it.
fn announced(case: &Case) -> usize {
    match (case.op.gate)(case) {
        Ok(header) => header.count(),
        Err(refusal) if refusal.number == 5 => COUNT + 1,
        Err(_) => 0,
    }
}

/// Buffers as long as needed, longer or one short; in some cases a header, or the number of coefficients, is spoilt.
fn finished(mut case: Case, rng: &mut Rng, size: Size) -> Case {
    let needed = match announced(&case) {
        count if count > COUNT => rng.below(3),
        count => count,
    };
    if case.op.operands > 0 && rng.chance(350) {
        spoil(&mut case, rng, size);
    }
    case.out = lent(rng, needed, size.more);
    case.scratch = if case.op.scratch { lent(rng, 8 * needed, size.more) } else { 0 };
    if !case.op.gives_polynomial() {
        case.out = case.op.cells();
    }
    case
}

fn lent(rng: &mut Rng, needed: usize, more: usize) -> usize {
    match rng.below(100) {
        0..=49 => needed,
        50..=92 => needed + rng.between(1, more),
        93..=97 => needed.saturating_sub(1),
        _ => rng.below(needed + 1),
    }
}

fn bad(word: u64, rng: &mut Rng) -> u64 {
    shapes::bad(rng, &Header::read(word).expect("a good header"))
}

/// A header, of two operands now and then both, or the number of coefficients.
fn spoil(case: &mut Case, rng: &mut Rng, size: Size) {
    let second = case.op.operands == 2 && rng.chance(500);
    let (word, list) = if second { (&mut case.bh, &mut case.b) } else { (&mut case.ah, &mut case.a) };
    match rng.below(10) {
        0 => {
            *word = bad(*word, rng);
            if case.op.operands == 2 && rng.chance(300) {
                (case.ah, case.bh) = if second { (bad(case.ah, rng), case.bh) } else { (case.ah, bad(case.bh, rng)) };
            }
        }
        1 => list.truncate(list.len() - 1),
        2 if rng.chance(200) => list.clear(),
        _ if size.operand < COUNT && list.len() + 1 >= size.operand => {}
        _ => (0..rng.between(1, size.more.min(4))).for_each(|_| list.push(values::any(rng))),
    }
}

fn numbers(op: &Operation, rng: &mut Rng, a: &Header) -> Vec<u64> {
    op.numbers.iter().fold(vec![], |mut so_far, kind| {
        so_far.push(number(op, rng, a, *kind, &so_far));
        so_far
    })
}

const HUGE: [u64; 6] = [4, 64, 65, 1 << 32, 1 << 63, u64::MAX];

fn number(op: &Operation, rng: &mut Rng, a: &Header, kind: Kind, so_far: &[u64]) -> u64 {
    let last = so_far.last().copied().unwrap_or(0);
    match kind {
        Kind::Variable if op.operands > 0 && a.vars > 0 && rng.chance(900) => rng.below(a.vars) as u64,
        Kind::Variable if rng.chance(950) => rng.below(4) as u64,
        Kind::Order => below_limit(rng, a, if op.numbers.len() > 1 { last } else { 0 }),
        Kind::Index => below_limit(rng, a, so_far.len() as u64),
        Kind::Vars if so_far.len() > 1 && so_far[0] < 4 && rng.chance(900) => rng.between(so_far[0] as usize + 1, 4) as u64,
        Kind::Vars if rng.chance(900) => rng.below(5) as u64,
        Kind::Limit if rng.chance(970) => shapes::limit(rng) as u64,
        Kind::Limit => rng.pick(&[0, 65, u64::MAX, 1 << 32 | 1]),
        Kind::Constant => rng.pick(&[0, 1, 2, 3, u32::MAX, 1 << 31, 0x0123_4567]).into(),
        Kind::Exponent if rng.chance(800) => rng.pick(&[0, 1, 2, 2, 3, 3, 4, 5, 6, 7, 8, 10, 16, 31]),
        Kind::Exponent => rng.pick(&[63, 64, 1 << 31, 0x5555_5555, u32::MAX - 1, u32::MAX]).into(),
        Kind::Float => values::any(rng).to_bits(),
        Kind::Total => total(rng).to_bits(),
        Kind::Wanted => values::any(rng).to_bits(),
        Kind::Exp | Kind::Log => 0,
        _ => rng.pick(&HUGE),
    }
}

/// Mostly finite and above zero: round ones, subnormal ones and the largest, any size; some that are refused.
fn total(rng: &mut Rng) -> f64 {
    match rng.below(10) {
        0..=2 => rng.pick(&[1.0, 2.0, 0.5, 3.0, 1e-3, 1e200]),
        3 | 4 => rng.pick(&[5e-324, 2.225073858507201e-308, f64::MIN_POSITIVE, f64::MAX]),
        5..=7 => values::any(rng).abs(),
        _ => rng.pick(&REFUSED_TOTALS),
    }
}

const REFUSED_TOTALS: [f64; 7] = [0.0, -0.0, -1.0, -5e-324, f64::INFINITY, f64::NEG_INFINITY, f64::NAN];

/// A number around the length and the limit of a variable, seldom at or past the limit; of a missing one mostly 0.
fn below_limit(rng: &mut Rng, a: &Header, v: u64) -> u64 {
    if v >= a.vars as u64 {
        return if rng.chance(970) { 0 } else { rng.pick(&[1, 2, 1 << 32, u64::MAX]) };
    }
    let (limit, length) = (a.limits[v as usize], a.lengths[v as usize]);
    let number = match rng.below(16) {
        0 | 1 => 0,
        2 => 1,
        3..=5 => length - 1,
        6 | 7 => length,
        8 | 9 => limit - 1,
        10..=14 => rng.below(limit),
        _ => return rng.pick(&[limit as u64, limit as u64 + 1, 64, 1 << 32, u64::MAX]),
    };
    if rng.chance(900) {
        number.min(limit - 1) as u64
    } else {
        number as u64
    }
}

/// The numbers that short cases go through.
fn short_numbers(kind: Kind) -> Vec<u64> {
    match kind {
        Kind::Variable => (0..=4).collect(),
        Kind::Order | Kind::Index => (0..=3).collect(),
        Kind::Vars => (0..=5).collect(),
        Kind::Limit => vec![0, 1, 2, 64, 65],
        Kind::Constant => vec![0, 1, u64::from(u32::MAX)],
        Kind::Exponent => vec![0, 1, 2, 3, 6, u64::from(u32::MAX)],
        Kind::Float => [0.0, -0.0, 1.0, f64::NAN].map(f64::to_bits).to_vec(),
        Kind::Total => [1.0, 2.0, 5e-324, f64::MAX].into_iter().chain(REFUSED_TOTALS).map(f64::to_bits).collect(),
        Kind::Wanted => [0.0, -0.0, 0.5, 2.0, f64::INFINITY, f64::NEG_INFINITY, f64::NAN].map(f64::to_bits).to_vec(),
        Kind::Exp | Kind::Log => vec![0],
    }
}

fn number_combinations(op: &Operation) -> Vec<Vec<u64>> {
    op.numbers.iter().fold(vec![vec![]], |all, kind| {
        let choices = short_numbers(*kind);
        all.iter().flat_map(|front| choices.iter().map(|n| [front.as_slice(), &[*n]].concat())).collect()
    })
}

/// Every short case of an operation: all short headers of its operands with all short numbers, each with exact buffers
/// and then, where there are not too many, twice more with other coefficients and buffers.
pub fn short(op: &'static Operation, seed: u64, mut visit: impl FnMut(Case)) {
    let all = shapes::short();
    let firsts = if op.operands > 0 { all.as_slice() } else { &all[..1] };
    let seconds = if op.operands > 1 { all.as_slice() } else { &all[..1] };
    let numbers = number_combinations(op);
    let times = if numbers.len() > 100 { 1 } else { 3 };
    let mut rng = Rng::new(seed, op.code, u64::MAX);
    for a in firsts {
        for b in seconds {
            for numbers in &numbers {
                for time in 0..times {
                    visit(short_case(op, &mut rng, (*a, *b), numbers.clone(), time == 0));
                }
            }
        }
    }
}

fn short_case(op: &'static Operation, rng: &mut Rng, heads: (Header, Header), numbers: Vec<u64>, exact: bool) -> Case {
    let mut case = draft(op, rng, heads, numbers);
    if !exact {
        return finished(case, rng, Size { operand: 64, announced: COUNT, more: 3 });
    }
    let needed = announced(&case);
    case.out = if op.gives_polynomial() { needed } else { op.cells() };
    case.scratch = if op.scratch { 8 * needed } else { 0 };
    case
}
