//! The library's functions on a machine that its archive is not for: each call goes to far/serve.c, which makes it
//! under an emulator. The environment says where both are: COMPARE_EMULATOR, COMPARE_SERVE.

use expected::case::Case;
use expected::operations::numbered;
use std::io::{Read, Write};
use std::process::{Child, Command, Stdio};
use std::sync::Mutex;

const NUMBERS: usize = 7;

/// A lent buffer: where it is and how long.
type Lent = (*mut f64, usize);
type Given = (*const f64, usize);
const NONE: Given = (std::ptr::null(), 0);
const NOWHERE: Lent = (std::ptr::null_mut(), 0);

static SERVER: Mutex<Option<Child>> = Mutex::new(None);

fn start() -> Child {
    let path = |name: &str| std::env::var_os(name).unwrap_or_else(|| panic!("no {name}"));
    let mut command = Command::new(path("COMPARE_EMULATOR"));
    let started = command.arg(path("COMPARE_SERVE")).stdin(Stdio::piped()).stdout(Stdio::piped()).spawn();
    started.expect("the emulator starts")
}

/// As many floats as the count says, which the caller of a function below lends for the call.
unsafe fn floats<'a>(given: Given) -> &'a [f64] {
    if given.1 == 0 {
        return &[];
    }
    std::slice::from_raw_parts(given.0, given.1)
}

fn bytes(floats: &[f64]) -> impl Iterator<Item = u8> + '_ {
    floats.iter().flat_map(|x| x.to_bits().to_le_bytes())
}

fn exchange(request: &[u8], answer: &mut [u8]) -> std::io::Result<()> {
    let mut server = SERVER.lock().expect("one thread");
    let server = server.get_or_insert_with(start);
    server.stdin.as_mut().expect("its input").write_all(request)?;
    server.stdout.as_mut().expect("its output").read_exact(answer)
}

/// The far program is gone: the library failed in this call.
fn ended(op: u64, heads: [u64; 2], numbers: &[u64], buffers: [Given; 4]) -> ! {
    let [a, b] = [buffers[0], buffers[1]].map(|given| unsafe { floats(given) }.to_vec());
    let op = numbered(op as u8).expect("an operation of the table");
    let (numbers, out, scratch) = (numbers.to_vec(), buffers[2].1, buffers[3].1);
    let case = Case { op, numbers, ah: heads[0], a, bh: heads[1], b, out, scratch };
    println!("difference: the call did not come back\n{}", case.text());
    std::process::exit(1)
}

/// Sends a call, and writes what comes back to the lent buffers.
fn call(op: u64, heads: [u64; 2], numbers: &[u64], given: [Given; 2], lent: [Lent; 2]) -> u64 {
    let buffers = [given[0], given[1], (lent[0].0.cast_const(), lent[0].1), (lent[1].0.cast_const(), lent[1].1)];
    let mut words = vec![op, heads[0], heads[1]];
    words.extend_from_slice(numbers);
    words.resize(3 + NUMBERS, 0);
    words.extend(buffers.iter().map(|b| b.1 as u64));
    let mut request: Vec<u8> = words.iter().flat_map(|w| w.to_le_bytes()).collect();
    buffers.iter().for_each(|b| request.extend(bytes(unsafe { floats(*b) })));
    let mut answer = vec![0; 8 * (1 + lent[0].1 + lent[1].1)];
    if exchange(&request, &mut answer).is_err() {
        ended(op, heads, numbers, buffers);
    }
    let words: Vec<u64> = answer.chunks_exact(8).map(|b| u64::from_le_bytes(b.try_into().expect("8 bytes"))).collect();
    let (out, scratch) = words[1..].split_at(lent[0].1);
    for ((to, _), from) in lent.into_iter().zip([out, scratch]) {
        // As many places are lent as were sent and came back.
        from.iter().enumerate().for_each(|(i, w)| unsafe { *to.add(i) = f64::from_bits(*w) });
    }
    words[0]
}

fn make(op: u64, numbers: &[u64], out: Lent) -> u64 {
    call(op, [0, 0], numbers, [NONE, NONE], [out, NOWHERE])
}

fn change(op: u64, head: u64, a: Given, numbers: &[u64], out: Lent) -> u64 {
    call(op, [head, 0], numbers, [a, NONE], [out, NOWHERE])
}

type From = *const f64;
type To = *mut f64;

macro_rules! functions {
    ($($name:ident($($argument:ident: $kind:ty),*) $body:expr;)*) => {
        $(#[no_mangle]
        extern "C" fn $name($($argument: $kind),*) -> u64 {
            $body
        })*
    };
}

functions! {
    taylor_zero(out: To, n: usize) make(16, &[], (out, n));
    taylor_one(out: To, n: usize) make(17, &[], (out, n));
    taylor_from_u32(c: u32, out: To, n: usize) make(11, &[c.into()], (out, n));
    taylor_zero_with(vars: u64, l0: u64, l1: u64, l2: u64, l3: u64, out: To, n: usize)
        make(10, &[vars, l0, l1, l2, l3], (out, n));
    taylor_from_u32_with(c: u32, vars: u64, l0: u64, l1: u64, l2: u64, l3: u64, out: To, n: usize)
        make(12, &[c.into(), vars, l0, l1, l2, l3], (out, n));
    taylor_var_with_degrees_p1(v: u64, x: f64, vars: u64, l0: u64, l1: u64, l2: u64, l3: u64, out: To, n: usize)
        make(15, &[v, x.to_bits(), vars, l0, l1, l2, l3], (out, n));
    taylor_var(v: u64, x: f64, limit: u64, out: To, n: usize) make(14, &[v, x.to_bits(), limit], (out, n));
    taylor_var_at_zero(v: u64, limit: u64, out: To, n: usize) make(13, &[v, limit], (out, n));
    taylor_coefficient(head: u64, a: From, na: usize, i0: u64, i1: u64, i2: u64, i3: u64, value: To)
        change(20, head, (a, na), &[i0, i1, i2, i3], (value, 1));
    taylor_constant_term(head: u64, a: From, na: usize, value: To) change(21, head, (a, na), &[], (value, 1));
    taylor_evaluate_all_one(head: u64, a: From, na: usize, value: To) change(22, head, (a, na), &[], (value, 1));
    taylor_extract_linear(head: u64, a: From, na: usize, c: To, m: To) line(head, (a, na), c, m);
    taylor_tail(head: u64, a: From, na: usize, k: u64, total: f64, value: To)
        change(24, head, (a, na), &[k, total.to_bits()], (value, 1));
    taylor_least(head: u64, a: From, na: usize, q: f64, k: *mut u64) change(25, head, (a, na), &[q.to_bits()], (k.cast(), 1));
    taylor_taylor_polynomial(head: u64, a: From, na: usize, v: u64, order: u64, out: To, n: usize)
        change(3, head, (a, na), &[v, order], (out, n));
    taylor_coefficients_of_term(head: u64, a: From, na: usize, v: u64, order: u64, out: To, n: usize)
        change(4, head, (a, na), &[v, order], (out, n));
    taylor_negate(head: u64, a: From, na: usize, out: To, n: usize) change(0, head, (a, na), &[], (out, n));
    taylor_add(ah: u64, a: From, na: usize, bh: u64, b: From, nb: usize, out: To, n: usize, scratch: To, ns: usize)
        call(1, [ah, bh], &[], [(a, na), (b, nb)], [(out, n), (scratch, ns)]);
    taylor_subtract(ah: u64, a: From, na: usize, bh: u64, b: From, nb: usize, out: To, n: usize, scratch: To, ns: usize)
        call(2, [ah, bh], &[], [(a, na), (b, nb)], [(out, n), (scratch, ns)]);
    taylor_multiply(ah: u64, a: From, na: usize, bh: u64, b: From, nb: usize, out: To, n: usize, scratch: To, ns: usize)
        call(5, [ah, bh], &[], [(a, na), (b, nb)], [(out, n), (scratch, ns)]);
    taylor_divide(ah: u64, a: From, na: usize, bh: u64, b: From, nb: usize, out: To, n: usize, scratch: To, ns: usize)
        call(6, [ah, bh], &[], [(a, na), (b, nb)], [(out, n), (scratch, ns)]);
    taylor_exp(head: u64, a: From, na: usize, value: f64, out: To, n: usize, scratch: To, ns: usize)
        call(7, [head, 0], &[value.to_bits()], [(a, na), NONE], [(out, n), (scratch, ns)]);
    taylor_log(head: u64, a: From, na: usize, value: f64, out: To, n: usize, scratch: To, ns: usize)
        call(8, [head, 0], &[value.to_bits()], [(a, na), NONE], [(out, n), (scratch, ns)]);
    taylor_pow(head: u64, a: From, na: usize, e: u32, out: To, n: usize, scratch: To, ns: usize)
        call(30, [head, 0], &[e.into()], [(a, na), NONE], [(out, n), (scratch, ns)]);
    taylor_derivative(head: u64, a: From, na: usize, v: u64, k: u64, out: To, n: usize) change(31, head, (a, na), &[v, k], (out, n));
    taylor_taylor_expansion_of_coeff(head: u64, a: From, na: usize, v: u64, k: u64, out: To, n: usize)
        change(32, head, (a, na), &[v, k], (out, n));
    taylor_shift_down(head: u64, a: From, na: usize, v: u64, k: u64, out: To, n: usize) change(33, head, (a, na), &[v, k], (out, n));
    taylor_subst_var(ah: u64, a: From, na: usize, bh: u64, b: From, nb: usize, v: u64, out: To, n: usize, scratch: To, ns: usize)
        call(34, [ah, bh], &[v], [(a, na), (b, nb)], [(out, n), (scratch, ns)]);
}

/// The two floats of a line lie in one buffer over there.
fn line(head: u64, a: Given, c: To, m: To) -> u64 {
    // Two cells that the caller lends.
    let mut cells = unsafe { [*c, *m] };
    let word = change(23, head, a, &[], (cells.as_mut_ptr(), 2));
    unsafe { (*c, *m) = (cells[0], cells[1]) };
    word
}
