//! A run of a recipe beside its operations: 40 steps on values of 16 by 16, and the same 40 operations called one by
//! one through their entries.
#[path = "../../face/taylor.rs"]
#[allow(dead_code)]
mod taylor;

extern "C" {
    fn clock_gettime(clock: i32, time: *mut [i64; 2]) -> i32;
}

/// Seconds that this thread has had of a processor.
fn seconds() -> f64 {
    let mut time = [0; 2];
    let answer = unsafe { clock_gettime(3, &mut time) };
    assert!(answer == 0, "no clock of the thread");
    time[0] as f64 + time[1] as f64 * 1e-9
}

const COUNT: usize = 256;
const STEPS: usize = 40;
/// Two variables, limits and lengths 16.
const HEADER: u64 = 2 << 61 | 0x3cf << 49 | 0x3cf << 37;

/// A step: its kind and operands.
#[derive(Clone, Copy)]
struct Step {
    kind: u64,
    a: usize,
    b: usize,
}

impl Step {
    fn word(self) -> u64 {
        self.kind << 60 | (self.a as u64) << 54 | (self.b as u64) << 48
    }
}

/// 40 steps, each on the one before and an input, of these kinds in turn.
fn recipe(kinds: &[u64]) -> Vec<Step> {
    let step = |i: usize| {
        let kind = kinds[i % kinds.len()];
        Step { kind, a: if i == 0 { 0 } else { i + 1 }, b: if kind == 1 || kind == 11 { 0 } else { i % 2 } }
    };
    (0..STEPS).map(step).collect()
}

/// The value at a place: an input's, or one of the pool.
fn value<'a>(inputs: &'a [f64], pool: &'a [f64], place: usize) -> &'a [f64] {
    if place < 2 { &inputs[COUNT * place..][..COUNT] } else { &pool[COUNT * (place - 2)..][..COUNT] }
}

/// A step's operation by its entry.
fn operate(step: Step, a: &[f64], b: &[f64], out: &mut [f64], scratch: &mut [f64]) {
    let done = match step.kind {
        1 => taylor::negate(HEADER, a, out),
        2 => taylor::add(HEADER, a, HEADER, b, out, scratch),
        3 => taylor::subtract(HEADER, a, HEADER, b, out, scratch),
        11 => taylor::exp(HEADER, a, taylor::exp_constant(a[0]).expect("in range"), out, scratch),
        _ => taylor::multiply(HEADER, a, HEADER, b, out, scratch),
    };
    assert_eq!(done.expect("accepted"), HEADER);
}

fn case(name: &str, kinds: &[u64], rounds: usize, calls: usize) {
    let steps = recipe(kinds);
    let words: Vec<u64> = steps.iter().map(|s| s.word()).collect();
    let mut seed = 1u64;
    let mut next = || {
        seed = seed.wrapping_mul(6364136223846793005).wrapping_add(1442695040888963407);
        (seed >> 11) as f64 / (1u64 << 53) as f64 / 64.0
    };
    let inputs: Vec<f64> = (0..2 * COUNT).map(|_| next()).collect();
    let headers = [HEADER, HEADER];
    let totals = taylor::check(&headers, &words, 0).expect("accepted");
    let (mut pool, mut heads) = (vec![0.0; totals.pool as usize], vec![0; STEPS]);
    let mut scratch = vec![0.0; 8 * totals.largest as usize];
    let mut out = vec![0.0; COUNT];
    let (mut runs, mut singles, mut shares) = (vec![], vec![], vec![]);
    for _ in 0..rounds {
        let start = seconds();
        for _ in 0..calls {
            taylor::run(&headers, &inputs, &words, 0, &mut pool, &mut heads, &mut scratch).expect("done");
        }
        let middle = seconds();
        for _ in 0..calls {
            for &s in &steps {
                operate(s, value(&inputs, &pool, s.a), value(&inputs, &pool, s.b), &mut out, &mut scratch);
            }
        }
        let end = seconds();
        runs.push((middle - start) / calls as f64);
        singles.push((end - middle) / calls as f64);
        shares.push(1.0 - (end - middle) / (middle - start));
    }
    for (i, &s) in steps.iter().enumerate() {
        operate(s, value(&inputs, &pool, s.a), value(&inputs, &pool, s.b), &mut out, &mut scratch);
        assert!(heads[i] == HEADER && out.iter().zip(value(&inputs, &pool, i + 2)).all(|(x, y)| x.to_bits() == y.to_bits()), "step {i} differs");
    }
    let median = |xs: &mut Vec<f64>| {
        xs.sort_by(f64::total_cmp);
        xs[xs.len() / 2]
    };
    println!("| {name} | {:.2} | {:.2} | {:.3} |", median(&mut runs) * 1e6, median(&mut singles) * 1e6, median(&mut shares));
}

fn main() {
    println!("| 40 steps | run us | operations us | share outside |");
    println!("|---|---|---|---|");
    case("multiply, add, subtract, negate in turn", &[4, 2, 3, 1], 21, 20);
    case("multiply alone", &[4], 21, 10);
    case("add alone", &[2], 21, 200);
    case("exp, multiply in turn", &[11, 4], 21, 10);
}
