//! The same inputs through four programs: the proved library, plain Rust, plain Rust held to the library's promise, and
//! the Rust module over its stand-ins.
//!
//!     bench                          compares results by bits, then times: a row a case
//!     bench cases                    the names of the cases
//!     bench count PEER CASE CALLS    makes CALLS calls inside `counted`, for an instruction count
mod kept;
#[cfg(module)]
mod module;
mod ours;
mod plain;

use ours::{Aligned, Ours};
use plain::Poly;
use std::hint::black_box;

/// What one case is made of: a polynomial with `lengths` as its limits and lengths, and a right factor, or what is put
/// for its first variable.
struct Case {
    operation: &'static Operation,
    factor: &'static str,
    lengths: &'static [usize],
}

/// How each program makes one call. Another operation is another row of OPERATIONS, with its sizes and factors.
struct Operation {
    name: &'static str,
    sizes: &'static [&'static [usize]],
    factors: &'static [&'static str],
    ours: fn(&mut Ours),
    plain: fn(&mut Plain),
    /// Left out where nobody wrote it.
    kept: Option<fn(&mut Ours)>,
    #[cfg(module)]
    module: fn(&mut module::Module),
}

const OPERATIONS: &[Operation] = &[
    Operation {
        name: "multiply",
        sizes: &[&[16], &[64], &[16, 16], &[64, 64], &[4, 4, 4, 4], &[8, 8, 8, 8]],
        factors: &["dense", "linear", "constant"],
        ours: Ours::multiply,
        plain: |p| plain::multiply(&p.a, &p.b, &mut p.out),
        kept: Some(Ours::multiply_kept),
        #[cfg(module)]
        module: module::Module::multiply,
    },
    Operation {
        name: "pow",
        sizes: &[&[64], &[16, 16]],
        factors: &["10"],
        ours: Ours::pow,
        plain: |p| plain::pow(&p.a, 10, &mut p.out),
        kept: None,
        #[cfg(module)]
        module: module::Module::pow,
    },
    Operation {
        name: "subst_var",
        sizes: &[&[64], &[16, 16]],
        factors: &["horner16"],
        ours: Ours::subst_var,
        plain: |p| plain::subst_var(&p.a, 0, &p.b, &mut p.out),
        kept: None,
        #[cfg(module)]
        module: module::Module::subst_var,
    },
];

/// Operands and result of one case in plain Rust.
struct Plain {
    a: Poly,
    b: Poly,
    out: Poly,
}

/// A program with the operands of one case; `call` makes one call, `answer` tells what the last one gave.
enum Peer {
    Ours(Ours),
    Plain(Plain),
    Kept(Ours),
    #[cfg(module)]
    Module(module::Module),
}

const PEERS: &[&str] = &[
    "ours",
    "plain",
    "kept",
    #[cfg(module)]
    "module",
];

impl Peer {
    /// None where the program has not the operation.
    fn new(name: &str, case: &Case) -> Option<Peer> {
        let (a, b) = case.operands();
        let lent = || Ours::new(&a, &b, case.announced());
        match name {
            "ours" => Some(Peer::Ours(lent())),
            "kept" => case.operation.kept.map(|_| Peer::Kept(lent())),
            "plain" => Some(Peer::Plain(Plain { a, b, out: Poly::default() })),
            #[cfg(module)]
            "module" => Some(Peer::Module(module::Module::new(&a, &b))),
            _ => panic!("no such program: {name}"),
        }
    }

    #[inline(always)]
    fn call(&mut self, operation: &Operation) {
        match self {
            Peer::Ours(p) => (operation.ours)(black_box(p)),
            Peer::Plain(p) => (operation.plain)(black_box(p)),
            Peer::Kept(p) => operation.kept.into_iter().for_each(|call| call(black_box(p))),
            #[cfg(module)]
            Peer::Module(p) => (operation.module)(black_box(p)),
        }
    }

    fn answer(&self) -> (u64, Vec<u64>) {
        match self {
            Peer::Ours(p) => p.answer(),
            Peer::Plain(p) => ours::answer_of(&p.out),
            Peer::Kept(p) => p.answer(),
            #[cfg(module)]
            Peer::Module(p) => ours::answer_of(&p.answer()),
        }
    }
}

/// Numbers between -1 and 1 with all their bits in use, the same in every run.
struct Numbers(u64);

impl Numbers {
    fn next(&mut self) -> f64 {
        self.0 = self.0.wrapping_mul(6364136223846793005).wrapping_add(1442695040888963407);
        ((self.0 >> 11) as f64) / ((1u64 << 52) as f64) - 1.0
    }
}

fn padded(lengths: &[usize]) -> [usize; 4] {
    std::array::from_fn(|v| lengths.get(v).copied().unwrap_or(1))
}

fn filled(vars: usize, limits: [usize; 4], lengths: [usize; 4], numbers: &mut Numbers) -> Poly {
    let coeffs = (0..lengths.iter().product::<usize>()).map(|_| numbers.next()).collect();
    Poly { vars, limits, lengths, coeffs }
}

impl Case {
    fn all() -> Vec<Case> {
        let rows = OPERATIONS.iter().flat_map(|operation| {
            let factors = operation.factors.iter();
            factors.flat_map(move |factor| operation.sizes.iter().map(move |lengths| Case { operation, factor, lengths }))
        });
        rows.collect()
    }

    fn name(&self) -> String {
        let size: Vec<String> = self.lengths.iter().map(|n| n.to_string()).collect();
        format!("{}-{}-{}", self.operation.name, self.factor, size.join("x"))
    }

    /// The announced count of the result, whose limits are those of the left operand.
    fn announced(&self) -> usize {
        self.lengths.iter().product()
    }

    /// The left operand is full, or has 16 rows of its first variable; the right one is full, linear in the first
    /// variable, or a constant, under the same limits. A power has none.
    fn operands(&self) -> (Poly, Poly) {
        let mut numbers = Numbers(7);
        let (vars, limits) = (self.lengths.len(), padded(self.lengths));
        let (left, right) = match self.factor {
            "dense" => (limits, limits),
            "linear" => (limits, [2, 1, 1, 1]),
            "constant" | "10" => (limits, [1, 1, 1, 1]),
            "horner16" => ([16, limits[1], limits[2], limits[3]], limits),
            other => panic!("no such factor: {other}"),
        };
        (filled(vars, limits, left, &mut numbers), filled(vars, limits, right, &mut numbers))
    }
}

/// The calls that an instruction count is taken of.
#[no_mangle]
#[inline(never)]
extern "C" fn counted(peer: &mut Peer, operation: &Operation, calls: u64) {
    for _ in 0..calls {
        peer.call(operation);
    }
}

extern "C" {
    fn clock_gettime(clock: i32, time: *mut [i64; 2]) -> i32;
}

/// Seconds that this thread has had of a processor: other programs' turns are not counted.
fn seconds() -> f64 {
    const THREAD: i32 = 3;
    let mut time = [0; 2];
    // The C library's function writes seconds and nanoseconds, two words on 64-bit Linux.
    let answer = unsafe { clock_gettime(THREAD, &mut time) };
    assert!(answer == 0, "no clock of the thread");
    time[0] as f64 + time[1] as f64 * 1e-9
}

/// Seconds for a call, on average over `calls`.
fn timed(calls: u64, mut call: impl FnMut()) -> f64 {
    let start = seconds();
    for _ in 0..calls {
        call();
    }
    (seconds() - start) / calls as f64
}

fn median(mut xs: Vec<f64>) -> f64 {
    xs.sort_by(f64::total_cmp);
    xs[xs.len() / 2]
}

const ROUNDS: usize = 21;

/// Calls that take about two milliseconds.
fn batch(mut call: impl FnMut()) -> u64 {
    (2e-3 / timed(3, &mut call).max(1e-8)).ceil() as u64
}

/// One row: every program a batch, round after round; medians, and medians of the rounds' own ratios. The last number
/// is what it takes in plain Rust to clear a scratch, which the library's contract asks of it and which the others have
/// not to do.
fn row(case: &Case) -> String {
    let mut peers: Vec<Option<Peer>> = PEERS.iter().map(|p| Peer::new(p, case)).collect();
    let mut first = None;
    for (peer, name) in peers.iter_mut().zip(PEERS) {
        let Some(peer) = peer else { continue };
        peer.call(case.operation);
        let answer = peer.answer();
        assert!(*first.get_or_insert(answer.clone()) == answer, "{}: {name} answers other bits than {}", case.name(), PEERS[0]);
    }
    let mut scratch = Aligned::new(8 * case.announced());
    let mut clear = || black_box(scratch.get_mut()).fill(0.0);
    let calls: Vec<u64> = peers.iter_mut().map(|p| p.as_mut().map_or(0, |p| batch(|| p.call(case.operation)))).collect();
    let clears = batch(&mut clear);
    let rounds: Vec<Vec<f64>> = (0..ROUNDS)
        .map(|_| {
            let peers = peers.iter_mut().zip(&calls);
            let times = peers.map(|(p, &n)| p.as_mut().map_or(f64::NAN, |p| timed(n, || p.call(case.operation))));
            times.collect::<Vec<f64>>().into_iter().chain([timed(clears, &mut clear)]).collect()
        })
        .collect();
    let shown = |x: f64, digits: usize| if x.is_nan() { "-".to_string() } else { format!("{x:.digits$}") };
    let time = |i: usize| shown(1e6 * median(rounds.iter().map(|r| r[i]).collect()), 3);
    let ratio = |i: usize| shown(median(rounds.iter().map(|r| r[i] / r[0]).collect()), 2);
    let n = PEERS.len();
    let cells: Vec<String> = (0..n).map(time).chain((1..n).map(ratio)).chain([time(n)]).collect();
    format!("| {} | {} |", case.name(), cells.join(" | "))
}

fn main() {
    let words: Vec<String> = std::env::args().skip(1).collect();
    let words: Vec<&str> = words.iter().map(String::as_str).collect();
    match words[..] {
        [] => {
            let times: Vec<String> = PEERS.iter().map(|p| format!("{p} us")).collect();
            let ratios: Vec<String> = PEERS[1..].iter().map(|p| format!("{p} / ours")).collect();
            println!("| case | {} | {} | clear us |", times.join(" | "), ratios.join(" | "));
            println!("|{}", "---|".repeat(2 * PEERS.len() + 1));
            Case::all().iter().for_each(|c| println!("{}", row(c)));
        }
        ["cases"] => Case::all().iter().for_each(|c| println!("{}", c.name())),
        ["peers"] => PEERS.iter().for_each(|p| println!("{p}")),
        ["count", peer, name, calls] => {
            let cases = Case::all();
            let case = cases.iter().find(|c| c.name() == name).expect("a case");
            if let Some(mut peer) = Peer::new(peer, case) {
                peer.call(case.operation);
                counted(&mut peer, case.operation, calls.parse().expect("a number of calls"));
            }
        }
        _ => eprintln!("usage: bench | bench cases | bench peers | bench count PEER CASE CALLS"),
    }
}
