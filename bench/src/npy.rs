//! Reading and writing an array file of 4,096 values, beside a plain memory copy of as many bytes; and the other forms
//! of the same array, 64 by 64, beside rows of f64.
#[path = "../../face/taylor.rs"]
#[allow(dead_code)]
mod taylor;

use std::hint::black_box;

extern "C" {
    fn clock_gettime(clock: i32, time: *mut [i64; 2]) -> i32;
}

/// Seconds that this thread has had of a processor.
fn seconds() -> f64 {
    let mut time = [0; 2];
    let answer = unsafe { clock_gettime(3, &mut time) };
    assert!(answer == 0, "no clock of the thread");
    time[0] as f64 + time[1] as f64 * 1e-9
}

const COUNT: usize = 4096;
const BYTES: usize = 128 + 8 * COUNT;
/// Two variables, limits and lengths 64.
const HEADER: u64 = 2 << 61 | 0xfff << 49 | 0xfff << 37;
const ROUNDS: usize = 21;
const CALLS: usize = 400;

/// A file of version 1.0 with these values one after the other, 64 by 64, as the header says them.
fn file_of(kind: &str, order: &str, data: Vec<u8>) -> Vec<u8> {
    let text = format!("{{'descr': '{kind}', 'fortran_order': {order}, 'shape': (64, 64), }}");
    let mut file = b"\x93NUMPY\x01\x00\x76\x00".to_vec();
    file.extend(format!("{text:<117}\n").bytes());
    file.extend(data);
    file
}

/// Microseconds a call, the median of the rounds.
fn time(mut call: impl FnMut()) -> f64 {
    let mut rounds: Vec<f64> = (0..ROUNDS)
        .map(|_| {
            let start = seconds();
            for _ in 0..CALLS {
                call();
            }
            (seconds() - start) / CALLS as f64 * 1e6
        })
        .collect();
    rounds.sort_by(f64::total_cmp);
    rounds[ROUNDS / 2]
}

fn main() {
    let values: Vec<f64> = (0..COUNT).map(|k| (k as f64 - 2000.5) / 7.0).collect();
    let (mut file, mut out, mut other) = (vec![0u8; BYTES], vec![0.0; COUNT], vec![0.0; COUNT]);
    assert_eq!(taylor::npy_write(HEADER, &values, &mut file).expect("written"), BYTES);
    assert_eq!(taylor::npy_read(&file, &mut out).expect("read"), HEADER);
    assert!(out.iter().zip(&values).all(|(x, y)| x.to_bits() == y.to_bits()), "what was written reads otherwise");
    let copy = time(|| black_box(&mut other).copy_from_slice(black_box(&values)));
    let read = time(|| {
        taylor::npy_read(black_box(&file), black_box(&mut out)).expect("read");
    });
    let write = time(|| {
        taylor::npy_write(HEADER, black_box(&values), black_box(&mut file)).expect("written");
    });
    // one NaN, and every word is tested
    let mut marked = values.clone();
    marked[COUNT - 1] = f64::NAN;
    taylor::npy_write(HEADER, &marked, &mut file).expect("written");
    let judged = time(|| {
        taylor::npy_read(black_box(&file), black_box(&mut out)).expect("read");
    });
    let turned: Vec<f64> = (0..COUNT).map(|k| values[k % 64 * 64 + k / 64]).collect();
    let eight = |xs: &[f64]| xs.iter().flat_map(|x| x.to_le_bytes()).collect();
    let four = |xs: &[f64]| xs.iter().flat_map(|x| (*x as f32).to_le_bytes()).collect();
    let forms = [
        ("columns of f64", file_of("<f8", "True", eight(&turned))),
        ("rows of f32", file_of("<f4", "False", four(&values))),
        ("columns of f32", file_of("<f4", "True", four(&turned))),
    ];
    let others = forms.map(|(name, file)| {
        assert_eq!(taylor::npy_read(&file, &mut out).expect("read"), HEADER);
        let narrow = name.ends_with("f32");
        let right = |x: &f64, y: &f64| x.to_bits() == if narrow { (*y as f32 as f64).to_bits() } else { y.to_bits() };
        assert!(out.iter().zip(&values).all(|(x, y)| right(x, y)), "{name} read otherwise");
        let us = time(|| {
            taylor::npy_read(black_box(&file), black_box(&mut out)).expect("read");
        });
        (name, us)
    });
    let bound = 4.0 * copy + 1.0;
    println!("| 4,096 values | us | of 4 copies and 1 us |");
    println!("|---|---|---|");
    println!("| a memory copy | {copy:.3} | |");
    for (name, us) in [("npy_read", read), ("npy_read, a NaN in it", judged), ("npy_write", write)] {
        println!("| {name} | {us:.3} | {:.2} |", us / bound);
    }
    println!();
    println!("| npy_read of 64 by 64 | us | of rows of f64 |");
    println!("|---|---|---|");
    for (name, us) in others {
        println!("| {name} | {us:.3} | {:.2} |", us / read);
    }
}
