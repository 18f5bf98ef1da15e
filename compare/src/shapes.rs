//! Headers: all short ones, random ones around the limits, ones whose result has about 4,096 places, and bad words.

use crate::rng::Rng;
use crate::words::{Header, COUNT, VARIABLES};

/// Every header of up to two variables with limits up to 3, and of three and four with limits up to 2.
pub fn short() -> Vec<Header> {
    let mut all = vec![];
    for (vars, most) in [(0, 1), (1, 3), (2, 3), (3, 2), (4, 2)] {
        let fields: Vec<(usize, usize)> = (1..=most).flat_map(|limit| (1..=limit).map(move |n| (limit, n))).collect();
        for number in 0..fields.len().pow(vars) {
            let field = |v: u32| fields[number / fields.len().pow(v) % fields.len()];
            let (limits, lengths): (Vec<usize>, Vec<usize>) = (0..vars).map(field).unzip();
            all.push(Header::new(&limits, &lengths));
        }
    }
    all
}

pub fn limit(rng: &mut Rng) -> usize {
    match rng.below(20) {
        0 => 1,
        1..=4 => 2,
        5..=8 => 3,
        9 => 63,
        10 | 11 => 64,
        12..=17 => rng.between(4, 8),
        _ => rng.between(1, 64),
    }
}

fn length(rng: &mut Rng, limit: usize) -> usize {
    match rng.below(20) {
        0..=7 => limit,
        8..=10 => 1,
        11..=13 => limit.min(2),
        _ => rng.between(1, limit),
    }
}

/// A good header that stores at most so many places.
pub fn random(rng: &mut Rng, most: usize) -> Header {
    let vars = rng.pick(&[0, 1, 1, 1, 1, 1, 2, 2, 2, 2, 2, 2, 3, 3, 3, 3, 4, 4, 4]);
    let limits: Vec<usize> = (0..vars).map(|_| limit(rng)).collect();
    under(rng, &limits, most)
}

/// A header with these limits that stores at most so many places.
fn under(rng: &mut Rng, limits: &[usize], most: usize) -> Header {
    let mut lengths: Vec<usize> = limits.iter().map(|l| length(rng, *l)).collect();
    while lengths.iter().product::<usize>() > most {
        let v = rng.below(lengths.len());
        lengths[v] = lengths[v].div_ceil(2);
    }
    Header::new(limits, &lengths)
}

/// A second operand: of its own shape, with the limits of the first, or with the first's shape.
pub fn second(rng: &mut Rng, a: &Header, most: usize) -> Header {
    match rng.below(10) {
        0..=4 => random(rng, most),
        5..=8 => under(rng, &a.limits[..a.vars], most),
        _ => *a,
    }
}

const BIG: [&[usize]; 16] = [
    &[64, 64],
    &[63, 64],
    &[64, 63],
    &[1, 64, 64],
    &[64, 1, 64],
    &[64, 64, 1],
    &[64, 64, 2],
    &[64, 32, 2],
    &[16, 16, 16],
    &[15, 16, 17],
    &[41, 50, 2],
    &[2, 41, 50],
    &[8, 8, 8, 8],
    &[7, 9, 8, 8],
    &[4, 4, 16, 16],
    &[2, 3, 11, 62],
];

/// Two headers of whose lengths some shape near 4,096 places is made up: each length of it is the larger, or one less
/// than the sum.
pub fn big(rng: &mut Rng) -> (Header, Header) {
    let whole = rng.pick(&BIG);
    for _ in 0..50 {
        let limits: Vec<usize> = whole.iter().map(|n| if rng.chance(500) { 64 } else { *n }).collect();
        let parts: Vec<(usize, usize)> = whole.iter().map(|n| split(rng, *n)).collect();
        let (a, b): (Vec<usize>, Vec<usize>) = parts.into_iter().unzip();
        let (a, b) = (Header::new(&limits, &a), Header::new(&limits, &b));
        if a.count() <= COUNT && b.count() <= COUNT {
            return (a, b);
        }
    }
    (Header::new(&[64, 64], &[64, 64]), Header::new(&[], &[]))
}

fn split(rng: &mut Rng, n: usize) -> (usize, usize) {
    let part = rng.between(1, n);
    rng.pick(&[(n, 1), (n, 1), (1, n), (n, n), (part, n), (part, n + 1 - part)])
}

/// A word near a good one that breaks one rule, or any word.
pub fn bad(rng: &mut Rng, good: &Header) -> u64 {
    let word = good.word();
    let v = rng.below(VARIABLES);
    let bad = match rng.below(6) {
        0 => word | 7 << 61,
        1 => word | 1 << rng.below(13),
        2 => word | 63 << (49 - 12 * v),
        3 => word & !(63 << (55 - 12 * v)) | 1 << (49 - 12 * v),
        4 => Header::new(&[64, 64, 64], &[64, 64, 2]).word(),
        _ => rng.next(),
    };
    if Header::read(bad).is_err() {
        bad
    } else {
        rng.pick(&[word | 1, 5 << 61, u64::MAX])
    }
}
