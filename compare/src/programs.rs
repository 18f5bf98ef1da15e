//! The program `recipe` on sheets: what it prints, byte by byte, and how it takes input and output that are not as it
//! would like.
//!
//!     programs SEED COUNT WORD ..    COUNT sheets from a seed, then the large and the awkward ones; the words start
//!                                    the program
//!
//! The last line says how many inputs were given and how many answers differ. The exit status is 1 where one does.

use expected::rng::Rng;
use expected::{sheet_edges, sheets};
use std::collections::BTreeMap;
use std::fs::File;
use std::io::{ErrorKind, Read, Write};
use std::process::{Child, ChildStdin, Command, ExitCode, Stdio};
use std::time::{Duration, Instant};

/// No answer takes so long.
const PATIENCE: Duration = Duration::from_secs(20);

fn main() -> ExitCode {
    let arguments: Vec<String> = std::env::args().skip(1).collect();
    let [seed, count, words @ ..] = &arguments[..] else { return usage() };
    let (Ok(seed), Ok(count), false) = (seed.parse(), count.parse(), words.is_empty()) else { return usage() };
    let program = Program { words: words.to_vec() };
    match program.all(seed, count) {
        Ok(differences) => ExitCode::from(u8::from(differences > 0)),
        Err(cause) => {
            eprintln!("{}: {cause}", words.join(" "));
            ExitCode::from(2)
        }
    }
}

fn usage() -> ExitCode {
    eprintln!("programs SEED COUNT WORD ..");
    ExitCode::from(2)
}

struct Program {
    words: Vec<String>,
}

type Result<T> = std::io::Result<T>;

impl Program {
    fn start(&self, output: Stdio) -> Result<Child> {
        Command::new(&self.words[0]).args(&self.words[1..]).stdin(Stdio::piped()).stdout(output).spawn()
    }

    /// What it prints for an input that is written in pieces of so many bytes, with a pause behind each. A program that
    /// is wrong may print before the end of its input: it is read meanwhile.
    fn printed(&self, input: &[u8], piece: usize, pause: Duration) -> Result<Vec<u8>> {
        let mut child = self.start(Stdio::piped())?;
        let (stdin, mut stdout) = (child.stdin.take().expect("its input"), child.stdout.take().expect("its output"));
        let mut printed = vec![];
        std::thread::scope(|scope| {
            let writer = scope.spawn(|| give(stdin, input, piece, pause));
            stdout.read_to_end(&mut printed)?;
            drop(stdout);
            writer.join().expect("no panic")
        })?;
        child.wait()?;
        Ok(printed)
    }

    /// Whether it ends though its output goes nowhere.
    fn ends(&self, input: &[u8], output: Stdio) -> Result<bool> {
        let mut child = self.start(output)?;
        drop(child.stdout.take());
        give(child.stdin.take().expect("its input"), input, input.len(), Duration::ZERO)?;
        let start = Instant::now();
        while start.elapsed() < PATIENCE {
            if child.try_wait()?.is_some() {
                return Ok(true);
            }
            std::thread::sleep(Duration::from_millis(5));
        }
        child.kill()?;
        child.wait()?;
        Ok(false)
    }

    /// How many answers differ.
    fn all(&self, seed: u64, count: u64) -> Result<usize> {
        let start = Instant::now();
        let mut tally = Tally::default();
        for case in 0..count {
            let sheet = sheets::random(&mut Rng::new(seed, b's', case));
            let got = self.printed(&sheet, sheet.len(), Duration::ZERO)?;
            tally.compare(&format!("sheet {case} of seed {seed}"), &sheet, &got);
        }
        println!("{count} sheets ({}), {:.1} s", tally.told(), start.elapsed().as_secs_f64());
        self.large(&mut tally)?;
        self.in_pieces(&mut tally)?;
        self.unwritten(&mut tally)?;
        self.time()?;
        println!("{} inputs: {} differences, {:.1} s", tally.given, tally.differences, start.elapsed().as_secs_f64());
        Ok(tally.differences)
    }

    /// Sheets of up to 65,536 coefficients, right and wrong near their end, and input longer than any sheet.
    fn large(&self, tally: &mut Tally) -> Result<()> {
        for (name, sheet) in sheet_edges::large() {
            let got = self.printed(&sheet, sheet.len(), Duration::ZERO)?;
            println!("{name}: {}", String::from_utf8_lossy(&got).lines().next().unwrap_or_default());
            tally.compare(name, &sheet, &got);
        }
        Ok(())
    }

    /// Input that arrives in pieces.
    fn in_pieces(&self, tally: &mut Tally) -> Result<()> {
        let example = sheet_edges::example();
        for piece in [1, 5, 16, 17, 18, 50] {
            let got = self.printed(&example, piece, Duration::from_millis(2))?;
            tally.compare(&format!("the example in pieces of {piece}"), &example, &got);
        }
        for (name, sheet) in sheet_edges::large() {
            let got = self.printed(&sheet, 40_001, Duration::from_millis(1))?;
            tally.compare(&format!("{name}, in pieces"), &sheet, &got);
        }
        println!(
            "the example in pieces of 1, 5, 16, 17, 18 and 50 bytes, the large ones in pieces of 40,001: {} differences so far",
            tally.differences
        );
        Ok(())
    }

    /// The same, started by a shell that does this first.
    fn after(&self, script: &str) -> Program {
        let shell = ["sh", "-c", &format!("{script} exec \"$@\""), "sh"].map(str::to_string);
        Program { words: [&shell[..], &self.words].concat() }
    }

    /// Output that cannot be written: a full device, none, a pipe that nobody reads, also where that sends no signal.
    fn unwritten(&self, tally: &mut Tally) -> Result<()> {
        let example = sheet_edges::example();
        for sheet in [&example, &sheet_edges::full()] {
            tally.expect("output to a full device: ended", self.ends(sheet, File::create("/dev/full")?.into())?);
            tally.expect("output to a pipe that nobody reads: ended", self.ends(sheet, Stdio::piped())?);
            let told = self.after("trap '' PIPE;").ends(sheet, Stdio::piped())?;
            tally.expect("output to a pipe that nobody reads, without a signal: ended", told);
            tally.expect("output closed: ended", self.after("exec >&-;").ends(sheet, Stdio::null())?);
        }
        Ok(())
    }

    /// The time of a sheet of 2,048 coefficients with an answer of 256, beside the example's.
    fn time(&self) -> Result<()> {
        for (name, sheet) in [("the example", sheet_edges::example()), ("2,048 coefficients in, 256 out", sheet_edges::full())] {
            let mut times = vec![];
            for _ in 0..20 {
                let start = Instant::now();
                self.printed(&sheet, sheet.len(), Duration::ZERO)?;
                times.push(start.elapsed());
            }
            times.sort();
            println!("{name}: {:.1} ms, the median of 20, start of the program and pipes with it", times[10].as_secs_f64() * 1e3);
        }
        Ok(())
    }
}

/// Writes an input and closes it. A program that has read enough may be gone before the end.
fn give(mut stdin: ChildStdin, input: &[u8], piece: usize, pause: Duration) -> Result<()> {
    for part in input.chunks(piece.max(1)) {
        match stdin.write_all(part) {
            Err(cause) if cause.kind() == ErrorKind::BrokenPipe => return Ok(()),
            wrote => wrote?,
        }
        if pause > Duration::ZERO {
            std::thread::sleep(pause);
        }
    }
    Ok(())
}

#[derive(Default)]
struct Tally {
    given: usize,
    differences: usize,
    answers: BTreeMap<String, usize>,
}

impl Tally {
    fn compare(&mut self, name: &str, sheet: &[u8], got: &[u8]) {
        self.given += 1;
        let expected = sheets::printed(sheet);
        let mut words = expected.split_whitespace();
        let (what, number) = (words.next().unwrap_or_default(), words.next().unwrap_or_default());
        *self.answers.entry(if what == "done" { what.to_string() } else { format!("{what} {number}") }).or_default() += 1;
        if got != expected.as_bytes() {
            self.differences += 1;
            println!("difference: {name}\n{}", String::from_utf8_lossy(&sheet[..sheet.len().min(2000)]));
            println!("printed:\n{}expected:\n{expected}", String::from_utf8_lossy(got));
        }
    }

    fn expect(&mut self, what: &str, holds: bool) {
        self.given += 1;
        println!("{what}: {}", if holds { "yes" } else { "NO" });
        self.differences += usize::from(!holds);
    }

    fn told(&self) -> String {
        self.answers.iter().map(|(answer, n)| format!("{n} {answer}")).collect::<Vec<_>>().join(", ")
    }
}
