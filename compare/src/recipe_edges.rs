//! Recipes at the edges of document 01's rules, and of document 02's W7 and W13.

use crate::lending::Lending;
use crate::recipes::{Recipe, Step};
use crate::words::Header;

/// The word of a header in one variable.
pub fn line(limit: usize, length: usize) -> u64 {
    Header::new(&[limit], &[length]).word()
}

fn word(limits: &[usize], lengths: &[usize]) -> u64 {
    Header::new(limits, lengths).word()
}

pub fn step(kind: u64, a: u64, b: u64, variable: u64, n: u64) -> u64 {
    Step { kind, a, b, variable, n, spare: 0 }.word()
}

pub fn constant(n: u64) -> u64 {
    step(0, 0, 0, 0, n)
}

/// Inputs hold 1, 2, 3 .., as many as their headers store; a bad header stores none.
pub fn counting(headers: &[u64], steps: &[u64]) -> Recipe {
    let stored: usize = headers.iter().filter_map(|word| Header::read(*word).ok()).map(|h| h.count()).sum();
    let coefficients = (1..=stored).map(|k| k as f64).collect();
    Recipe { headers: headers.to_vec(), coefficients, steps: steps.to_vec(), edition: 0 }
}

/// All inputs hold these coefficients, end to end.
pub fn holding(headers: &[u64], coefficients: &[f64], steps: &[u64]) -> Recipe {
    Recipe { headers: headers.to_vec(), coefficients: coefficients.to_vec(), steps: steps.to_vec(), edition: 0 }
}

/// So many inputs of one coefficient and so many steps, each of which adds the two places before it.
pub fn many(inputs: usize, steps: usize) -> Recipe {
    let add = |place: usize| match place {
        0 | 1 => constant(1),
        _ => step(2, place as u64 - 1, place as u64 - 2, 0, 0),
    };
    // An operand has 6 bits: a place past 63 names the last two that it can.
    let steps: Vec<u64> = (inputs..inputs + steps).map(|place| add(place.min(64))).collect();
    counting(&vec![0; inputs], &steps)
}

/// 0 to 17 inputs, 0 to 65 steps and more, around 64 places.
pub fn sizes() -> Vec<Recipe> {
    let counts = [(0, 0), (1, 0), (16, 0), (17, 0), (17, 1), (17, 47), (16, 1), (16, 48), (16, 49), (15, 49), (15, 50)];
    let more = [(0, 1), (0, 63), (0, 64), (0, 65), (0, 66), (0, 100), (1, 63), (1, 64), (2, 62), (2, 63), (32, 32)];
    counts.into_iter().chain(more).map(|(inputs, steps)| many(inputs, steps)).collect()
}

/// One input and 63 steps, each on the one before: its double, or turned, shifted, cut, squared ..
pub fn chains() -> Vec<Recipe> {
    let double = |place: u64| step(2, place, place, 0, 0);
    let turn = |place: u64| match place % 6 {
        0 => step(1, place, 0, 0, 0),
        1 => step(4, place, 0, 0, 0),
        2 => step(9, place, 0, 0, 0),
        3 => step(3, 0, place, 0, 0),
        4 => step(5, place, 0, 0, 0),
        _ => step(10, place, 0, 0, 0),
    };
    let over = |f: &dyn Fn(u64) -> u64| (0..63).map(f).collect::<Vec<u64>>();
    let zeroth: Vec<u64> = std::iter::once(constant(1)).chain(over(&double)).collect();
    vec![
        counting(&[line(3, 2)], &over(&double)),
        counting(&[line(4, 3)], &over(&turn)),
        counting(&[line(64, 64)], &(0..63).map(|place| step(9, place, 0, 0, 1)).collect::<Vec<_>>()),
        counting(&[line(64, 64)], &(0..63).map(|place| step(7, place, 0, 0, 1)).collect::<Vec<_>>()),
        counting(&[], &zeroth),
    ]
}

/// The three shifts with n around the limit, below it and far past it; variables that are not there.
pub fn shifts() -> Vec<Recipe> {
    let heads = [word(&[3, 5], &[2, 2]), line(1, 1), line(64, 2), word(&[], &[])];
    let mut all = vec![];
    for kind in 7..=9 {
        for head in heads {
            for variable in 0..4 {
                for n in [0, 1, 2, 3, 4, 5, 63, 64, u64::from(u32::MAX)] {
                    all.push(counting(&[head], &[step(kind, 0, 0, variable, n)]));
                }
            }
        }
    }
    all
}

/// One recipe a step word: two inputs, then a step that is right, then this.
fn behind(words: Vec<u64>) -> Vec<Recipe> {
    let heads = [line(4, 2), word(&[3, 3], &[2, 2])];
    words.into_iter().map(|last| counting(&heads, &[step(4, 0, 1, 0, 0), last])).collect()
}

/// Every kind with what it uses, and with each field that it does not use set: low, high, and in each spare bit.
pub fn fields() -> Vec<Recipe> {
    let mut words = vec![];
    for kind in 0..16 {
        let uses = Step::uses(kind).unwrap_or([false; 4]);
        let right = Step { kind, a: 0, b: u64::from(uses[1]), variable: 0, n: u64::from(uses[3]), spare: 0 };
        words.push(right.word());
        if !uses[0] {
            words.extend([1, 2, 32, 63].map(|a| Step { a, ..right }.word()));
        }
        if !uses[1] {
            words.extend([1, 2, 32, 63].map(|b| Step { b, ..right }.word()));
        }
        if !uses[2] {
            words.extend([1, 2, 3].map(|variable| Step { variable, ..right }.word()));
        }
        if !uses[3] {
            words.extend([1, 2, 1 << 31, u64::from(u32::MAX)].map(|n| Step { n, ..right }.word()));
        }
        words.extend((0..14).map(|bit| Step { spare: 1 << bit, ..right }.word()));
    }
    behind(words)
}

/// Operands that name the last place before, their own, a later one.
pub fn operands() -> Vec<Recipe> {
    let mut words = vec![];
    for kind in 1..=11 {
        for place in [2, 3, 4, 63] {
            words.push(step(kind, place, 0, 0, 0));
            if kind == 10 || (2..=5).contains(&kind) {
                words.push(step(kind, 0, place, 0, 0));
            }
        }
    }
    let mut all = behind(words);
    all.extend((1..=11).map(|kind| counting(&[], &[step(kind, 0, 0, 0, 0)])));
    all
}

/// Words that are no header.
pub fn bad_headers() -> [u64; 8] {
    [
        5 << 61,
        line(3, 2) | 1,
        line(3, 2) | 1 << 12,
        line(3, 4),
        line(3, 2) | 1 << 43,
        line(3, 2) | 1 << 37,
        word(&[64, 64, 2], &[64, 64, 2]),
        u64::MAX,
    ]
}

/// Every cause of document 02, W5, at its edge, in each variable that it can name, beside words that just keep the
/// rule; then words with two faults, of which the first in its order is told.
pub fn faults() -> Vec<u64> {
    let long = |v: usize, limit: usize| {
        let (mut limits, mut lengths) = ([2; 4], [1; 4]);
        (limits[v], lengths[v]) = (limit, limit + 1);
        word(&limits, &lengths)
    };
    let limit = |v: usize, field: u64| field << (55 - 12 * v);
    let length = |v: usize, field: u64| field << (49 - 12 * v);
    let vars = |n: usize| word(&vec![2; n], &vec![1; n]);
    let mut all: Vec<u64> = [4, 5, 6, 7].map(|n| n << 61).to_vec();
    all.extend((0..4).flat_map(|v| [1, 2, 63].map(|l| long(v, l))));
    for n in 0..4 {
        all.extend(
            (n..4)
                .flat_map(|v| [limit(v, 1), limit(v, 63), length(v, 1), limit(v, 1) | length(v, 2)])
                .map(|field| vars(n) | field),
        );
    }
    all.extend((0..13).map(|bit| line(3, 2) | 1 << bit));
    let square = |lengths: &[usize]| word(lengths, lengths);
    all.extend([square(&[64, 64]), square(&[2, 41, 50]), square(&[64, 64, 2]), square(&[64; 4])]);
    let large = square(&[64, 64, 2]);
    all.extend([
        7 << 61 | large | 1,
        word(&[1, 2, 2, 1], &[2, 1, 1, 2]),
        long(3, 1) | 1,
        line(3, 4) | limit(3, 1),
        line(3, 3) | limit(2, 1) | length(3, 1),
        line(3, 3) | length(1, 1) | 1 << 12,
        large | 1,
        large | length(3, 1) | 1,
        vars(2) | length(2, 5),
    ]);
    all
}

/// A bad header at the first, a middle and the last place, also with a wrong step behind it, and with another bad one.
pub fn headers() -> Vec<Recipe> {
    let (good, bad) = (line(3, 1), bad_headers());
    let mut all: Vec<Recipe> = bad.iter().map(|word| counting(&[*word], &[constant(1)])).collect();
    for place in [0, 1, 7, 15] {
        let mut heads = vec![good; 16];
        heads[place] = bad[0];
        all.push(counting(&heads, &[step(12, 0, 0, 0, 0)]));
        heads[15] = bad[1];
        all.push(counting(&heads, &[constant(1)]));
    }
    all.extend(faults().into_iter().map(|word| counting(&[good, word], &[constant(1)])));
    all.push(counting(&[bad[0]; 17], &[constant(1)]));
    all.push(counting(&[bad[0]], &[]));
    all
}

/// What announces 4,096 places and just above, by each kind that can; then what another refusal wins over.
pub fn counts() -> Vec<Recipe> {
    let pair = |kind: u64, a: u64, b: u64| counting(&[a, b], &[constant(7), step(kind, 0, 1, 0, 0)]);
    let wide = |limits: &[usize], a: &[usize], b: &[usize], kind: u64| pair(kind, word(limits, a), word(limits, b));
    let mut all = vec![];
    for kind in [2, 3, 4] {
        all.push(wide(&[64, 64], &[64, 1], &[1, 64], kind));
        all.push(wide(&[41, 50, 2], &[41, 1, 1], &[1, 50, 2], kind));
        all.push(wide(&[64, 64, 2], &[64, 1, 1], &[1, 64, 2], kind));
    }
    all.push(wide(&[64, 64], &[1, 1], &[2, 2], 5));
    all.push(wide(&[41, 50, 2], &[1, 1, 1], &[2, 2, 2], 5));
    all.push(wide(&[41, 50, 2], &[2, 50, 1], &[2, 1, 2], 5));
    all.push(wide(&[64, 64, 2], &[64, 1, 1], &[2, 2, 2], 10));
    all.extend([&[64, 64][..], &[64, 64, 2], &[41, 50, 2]].map(|limits| {
        let head = word(limits, &vec![2; limits.len()]);
        counting(&[head], &[constant(7), exp(0)])
    }));
    for n in [62, 63, u64::from(u32::MAX)] {
        let power = |lengths: &[usize]| counting(&[word(&[64, 64, 2][..lengths.len()], lengths)], &[step(6, 0, 0, 0, n)]);
        all.extend([power(&[2]), power(&[1, 2]), power(&[2, 2, 2])]);
    }
    let heads = [word(&[64, 64, 2], &[64, 1, 1]), word(&[64, 64, 2], &[1, 64, 2])];
    let large = step(4, 0, 1, 0, 0);
    all.push(counting(&heads, &[large, step(15, 0, 0, 0, 0)]));
    all.push(counting(&heads, &[step(15, 0, 0, 0, 0), large]));
    all.push(counting(&heads, &[large | 1]));
    all.push(counting(&heads, &[step(7, 0, 0, 3, 0), large]));
    all
}

/// A recipe of each kind, on values that round, have signs or are no numbers.
pub fn kinds() -> Vec<Recipe> {
    let heads = [line(5, 3), word(&[4, 3], &[2, 2])];
    let rows = [
        [2.0, 3.0, 1.0, 5.0, 6.0, 7.0, 8.0],
        [0.1, -0.3, 1e-9, 0.7, -0.0, 3.3, 1e17],
        [1.0, f64::INFINITY, -0.0, -1.0, f64::NEG_INFINITY, 0.0, 2.0],
        [f64::NAN, 1.0, 2.0, 1.0, -0.0, -0.0, 5e-324],
    ];
    let mut words: Vec<u64> = [0, 1, 2, 9, u64::from(u32::MAX)].map(constant).to_vec();
    words.extend([0, 1, 2, 3, 7, 1 << 31].map(|n| step(6, 0, 0, 0, n)));
    words.extend([step(1, 0, 0, 0, 0), step(1, 1, 0, 0, 0), step(11, 0, 0, 0, 0), step(11, 1, 0, 0, 0)]);
    for kind in 2..=5 {
        words.extend([step(kind, 0, 1, 0, 0), step(kind, 1, 0, 0, 0), step(kind, 1, 1, 0, 0)]);
    }
    for kind in 7..=9 {
        words.extend([0, 1, 2, 3, 4].map(|n| step(kind, 0, 0, 0, n)));
        words.extend([0, 1, 2].map(|n| step(kind, 1, 0, 1, n)));
    }
    for variable in 0..4 {
        words.extend([step(10, 0, 1, variable, 0), step(10, 1, 0, variable, 0)]);
    }
    let each = |row: &[f64]| words.iter().map(|word| holding(&heads, row, &[*word])).collect::<Vec<_>>();
    rows.iter().flat_map(|row| each(row)).collect()
}

/// Idle rooms: a power of zero, alone, in products and sums, and shifted, of operands of every number of variables.
pub fn idle() -> Vec<Recipe> {
    let heads = [line(3, 2), word(&[4, 2], &[2, 2]), word(&[2, 3, 2, 2], &[2, 1, 2, 1]), word(&[], &[]), line(64, 1)];
    let over = |head: u64| {
        let zeroth = step(6, 0, 0, 0, 0);
        let then = [
            step(4, 0, 1, 0, 0),
            step(2, 1, 0, 0, 0),
            step(7, 1, 0, 0, 1),
            step(8, 1, 0, 0, 1),
            step(9, 1, 0, 0, 1),
            step(7, 1, 0, 1, 0),
            step(10, 1, 0, 0, 0),
            step(5, 0, 1, 0, 0),
            step(6, 1, 0, 0, 0),
            step(6, 1, 0, 0, 2),
        ];
        let alone = counting(&[head], &[zeroth]);
        std::iter::once(alone).chain(then.map(|word| counting(&[head], &[zeroth, word]))).collect::<Vec<_>>()
    };
    heads.into_iter().flat_map(over).collect()
}

/// Known editions and others: of idle rooms, of other steps, and of recipes whose sizes or headers are wrong too.
pub fn editions() -> Vec<Recipe> {
    let mut all: Vec<Recipe> = idle().into_iter().flat_map(|r| [r.clone(), r.of_edition(1)]).collect();
    let example = holding(&[line(3, 3)], &[2.0, 3.0, 1.0], &[step(9, 0, 0, 0, 1), step(6, 0, 0, 0, 0)]);
    let spoilt = [counting(&[1], &[constant(1)]), counting(&[], &[]), many(17, 1)];
    let others = [2, 3, 4, 7, 8, 15, 16, 17, 1 << 31, u32::MAX as u64];
    for recipe in std::iter::once(example).chain(spoilt) {
        all.extend(others.map(|edition| recipe.of_edition(edition)));
        all.push(recipe.of_edition(1));
    }
    all.extend(kinds().iter().chain(&chains()).chain(&shifts()).map(|r| r.of_edition(1)));
    all
}

/// The exponential of a place.
fn exp(a: u64) -> u64 {
    step(11, a, 0, 0, 0)
}

/// Constants about the range from -8 to 8.
fn constants() -> Vec<f64> {
    let near = |x: f64| [x.to_bits() - 1, x.to_bits(), x.to_bits() + 1].map(f64::from_bits);
    let small = [0.0, -0.0, 5e-324, -5e-324, f64::MIN_POSITIVE, 2.225073858507201e-308, 1.0, -1.0, 0.1, 5.5, -7.75];
    let out = [9.0, -9.0, 700.0, f64::MAX, f64::MIN, f64::INFINITY, f64::NEG_INFINITY, f64::NAN];
    [&near(8.0)[..], &near(-8.0), &small, &out].concat()
}

/// Exponentials of every shape; of constants about the range, alone and before other coefficients, which may be
/// anything; of a sum that rounds into the range.
fn exponentials_of_inputs() -> Vec<Recipe> {
    let shapes: [(&[usize], &[usize]); 14] = [
        (&[], &[]),
        (&[1], &[1]),
        (&[6], &[1]),
        (&[6], &[4]),
        (&[64], &[2]),
        (&[4, 3], &[1, 1]),
        (&[4, 3], &[2, 1]),
        (&[4, 5], &[1, 4]),
        (&[4, 3], &[3, 2]),
        (&[1, 5], &[1, 3]),
        (&[3, 2, 4], &[2, 1, 3]),
        (&[3, 2, 3], &[2, 2, 2]),
        (&[2, 3, 2, 3], &[2, 2, 1, 3]),
        (&[2, 2, 2, 2], &[1, 2, 2, 2]),
    ];
    let mut all = vec![];
    for (limits, lengths) in shapes {
        let count: usize = lengths.iter().product();
        let cyclic = |row: &[f64]| (0..count).map(|k| row[k % row.len()]).collect::<Vec<f64>>();
        for row in [&[0.3, -0.7, 1.1, 0.2, -1.9, 2.3, 1e-9][..], &[-8.0, 3.0, 1.0, 7.0, 0.5], &[0.0, 0.0, -0.0], &[2.0, 1e200]] {
            all.push(holding(&[word(limits, lengths)], &cyclic(row), &[exp(0)]));
        }
    }
    for c in constants() {
        all.push(holding(&[word(&[], &[])], &[c], &[exp(0)]));
        all.push(holding(&[line(5, 3)], &[c, 1.5, -0.3], &[exp(0)]));
        all.push(holding(&[word(&[2, 3], &[2, 2])], &[0.5, c, c, c], &[exp(0)]));
    }
    let over = [f64::EPSILON, 8.0 * f64::EPSILON, -f64::EPSILON];
    all.extend(over.map(|d| holding(&[0, line(3, 2)], &[d, 8.0, 1.0], &[step(2, 0, 1, 0, 0), exp(2)])));
    all
}

/// Exponentials of exponentials, until one stops; of what a step makes; between other steps.
fn exponentials_of_steps() -> Vec<Recipe> {
    let again = |count: u64| (0..count).map(exp).collect::<Vec<u64>>();
    let mut all = vec![];
    // of the last two the heads are the floats next to 8
    for c in [0.0, -8.0, -1.0, 1.0, 2.0794415416798366, 2.079441541679837] {
        all.extend((2..=6).map(|count| holding(&[line(4, 2)], &[c, 0.25], &again(count))));
    }
    // rooms of Poisson: e^(c v - c), multiplied, and one more of their product
    let rooms = [step(3, 0, 1, 0, 0), exp(4), step(3, 2, 3, 0, 0), exp(6), step(4, 5, 7, 0, 0), exp(8)];
    let heads = [line(12, 2), 0, line(9, 2), 0];
    all.push(holding(&heads, &[0.0, 1.25, 1.25, 0.0, 0.4, 0.4], &rooms));
    all.push(holding(&heads, &[0.0, 7.5, 7.5, 0.0, 8.5, 8.5], &rooms));
    // through a substitution, a shift, a quotient and powers
    let of_steps = [step(10, 0, 1, 0, 0), step(9, 0, 0, 0, 1), step(5, 0, 1, 0, 0), step(6, 0, 0, 0, 0), step(6, 0, 0, 0, 3)];
    for made in of_steps {
        let steps = [made, exp(2), step(4, 3, 1, 0, 0), exp(4)];
        all.push(holding(&[line(5, 3), word(&[4, 3], &[2, 2])], &[0.5, -0.25, 0.125, 0.3, 0.1, -0.2, 0.7], &steps));
    }
    all
}

/// Where an exponential stops: at every step of twelve, alone and with another behind it; one that nobody needs; and
/// what is told before it.
fn stops() -> Vec<Recipe> {
    // inputs: one that has an exponential, one that has none
    let of = |steps: &[u64]| holding(&[line(3, 2), line(3, 2)], &[0.5, 2.0, 8.5, 1.0], steps);
    let mut all = vec![];
    for at in 0..12 {
        let mut steps: Vec<u64> = (0..12).map(|k| if k % 3 == 1 { exp(0) } else { step(4, 0, (k + 1).min(2), 0, 0) }).collect();
        steps[0] = constant(7);
        steps[at] = exp(1);
        all.push(of(&steps));
        steps[11] = exp(1);
        all.push(of(&steps));
    }
    all.push(of(&[exp(1), step(1, 0, 0, 0, 0)]));
    all.push(of(&[exp(0), step(1, 0, 0, 0, 0)]));
    // the check comes first: another refusal behind the step that would stop
    let behind = [step(12, 0, 0, 0, 0), exp(3), exp(0) | 1, step(7, 0, 0, 2, 0), step(7, 0, 0, 0, 3), step(4, 0, 3, 0, 0)];
    all.extend(behind.map(|last| of(&[exp(1), last])));
    all
}

/// Kind 11: document 02, W13. In both editions.
pub fn exponentials() -> Vec<Recipe> {
    let lists = [exponentials_of_inputs(), exponentials_of_steps(), stops()];
    lists.into_iter().flatten().flat_map(|r| [r.clone(), r.of_edition(1)]).collect()
}

/// Buffers as long as a run takes, longer, one short each, several short at once, and none.
pub fn lent(recipe: Recipe) -> Vec<Lending> {
    let exact = Lending::exact(recipe.clone());
    let (pool, words, scratch) = (exact.pool - 1, exact.words - 1, exact.scratch - 1);
    let mut fewer = exact.clone();
    let had = fewer.recipe.coefficients.pop().is_some();
    let mut further = Lending::ample(recipe);
    further.recipe.coefficients.push(99.0);
    let mut all = vec![
        Lending { pool, ..exact.clone() },
        Lending { words, ..exact.clone() },
        Lending { scratch, ..exact.clone() },
        Lending { pool, scratch, ..exact.clone() },
        Lending { words, scratch, ..exact.clone() },
        Lending { pool: 0, words: 0, scratch: 0, ..exact.clone() },
        Lending { scratch: 0, ..exact.clone() },
        further,
        exact,
    ];
    if had {
        all.push(Lending { pool, words, scratch, ..fewer.clone() });
        all.push(fewer);
    }
    all
}

/// Recipes whose buffers are lent in every way.
fn measured() -> Vec<Recipe> {
    let example = holding(&[line(3, 3)], &[2.0, 3.0, 1.0], &[step(9, 0, 0, 0, 1)]);
    let shrinking = counting(&[line(8, 3), word(&[4, 4], &[2, 2])], &[step(4, 0, 1, 0, 0), step(9, 2, 0, 0, 3), constant(4)]);
    let large = {
        let heads = [word(&[64, 64], &[64, 1]), word(&[64, 64], &[1, 64])];
        holding(&heads, &[1.0; 128], &[constant(3), step(4, 0, 1, 0, 0), step(1, 1, 0, 0, 0)])
    };
    let stopping = {
        let steps = [step(4, 0, 1, 0, 0), step(11, 1, 0, 0, 0), step(11, 0, 0, 0, 0), constant(4)];
        holding(&[line(8, 3), word(&[4, 4], &[2, 2])], &[9.0, 1.0, 2.0, 1.0, 2.0, 3.0, 4.0], &steps)
    };
    vec![example, shrinking, large, many(0, 64), many(16, 48), counting(&[], &[constant(5)]), stopping]
}

pub fn all() -> Vec<Lending> {
    let lists = [sizes(), chains(), shifts(), fields(), operands(), headers(), counts(), kinds(), editions(), exponentials()];
    let measured = measured().into_iter().flat_map(lent);
    lists.into_iter().flatten().map(Lending::ample).chain(measured).collect()
}
