//! The readings by their pointers: the wrappers of face/taylor.rs do not show what a refused call leaves in a float's
//! cell.

use expected::case::Case;

extern "C" {
    fn taylor_coefficient(head: u64, a: *const f64, a_len: usize, i0: u64, i1: u64, i2: u64, i3: u64, value: *mut f64) -> u64;
    fn taylor_constant_term(head: u64, a: *const f64, a_len: usize, value: *mut f64) -> u64;
    fn taylor_evaluate_all_one(head: u64, a: *const f64, a_len: usize, value: *mut f64) -> u64;
    fn taylor_extract_linear(head: u64, a: *const f64, a_len: usize, c: *mut f64, m: *mut f64) -> u64;
    fn taylor_tail(head: u64, a: *const f64, a_len: usize, k: u64, total: f64, value: *mut f64) -> u64;
    fn taylor_least(head: u64, a: *const f64, a_len: usize, q: f64, k: *mut u64) -> u64;
}

/// The word that a reading answers, and its cells written; nothing for what is no reading.
pub fn word(case: &Case, a: &[f64], cells: &mut [f64]) -> Option<u64> {
    let (head, n, len) = (case.ah, &case.numbers, a.len());
    let (a, cells) = (a.as_ptr(), cells.as_mut_ptr());
    // As many cells as the reading writes are lent, and `a` with its length.
    unsafe {
        match case.op.name {
            "coefficient" => Some(taylor_coefficient(head, a, len, n[0], n[1], n[2], n[3], cells)),
            "constant_term" => Some(taylor_constant_term(head, a, len, cells)),
            "evaluate_all_one" => Some(taylor_evaluate_all_one(head, a, len, cells)),
            "extract_linear" => Some(taylor_extract_linear(head, a, len, cells, cells.add(1))),
            "tail" => Some(taylor_tail(head, a, len, n[0], f64::from_bits(n[1]), cells)),
            "least" => Some(taylor_least(head, a, len, f64::from_bits(n[0]), cells.cast())),
            _ => None,
        }
    }
}
