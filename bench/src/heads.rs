//! The exponential of a constant, called on constants spread over the whole range.
#[path = "../../face/taylor.rs"]
#[allow(dead_code)]
mod taylor;

use std::hint::black_box;

extern "C" {
    fn clock_gettime(clock: i32, time: *mut [i64; 2]) -> i32;
}

/// Seconds that this thread has had of a processor.
fn seconds() -> f64 {
    let mut time = [0; 2];
    let answer = unsafe { clock_gettime(3, &mut time) };
    assert!(answer == 0, "no clock of the thread");
    time[0] as f64 + time[1] as f64 * 1e-9
}

const ROUNDS: usize = 21;
const CALLS: usize = 4096;

fn main() {
    let constants: Vec<f64> = (0..CALLS).map(|k| k as f64 / (CALLS - 1) as f64 * 16.0 - 8.0).collect();
    for &x in &constants {
        let head = taylor::exp_constant(x).expect("in the range");
        assert!((head / x.exp() - 1.0).abs() < 1e-12, "far from the machine's own at {x}");
    }
    assert!(taylor::exp_constant(8.5).is_err(), "outside the range");
    let mut rounds: Vec<f64> = (0..ROUNDS)
        .map(|_| {
            let start = seconds();
            for &x in &constants {
                let _ = black_box(taylor::exp_constant(black_box(x)));
            }
            (seconds() - start) / CALLS as f64 * 1e9
        })
        .collect();
    rounds.sort_by(f64::total_cmp);
    println!("| the exponential of a constant | ns |");
    println!("|---|---|");
    println!("| fastest, median, slowest of {ROUNDS} rounds | {:.0}, {:.0}, {:.0} |", rounds[0], rounds[ROUNDS / 2], rounds[ROUNDS - 1]);
}
