//! A case: one call of one operation, with the lengths of the buffers lent, and its text.

use crate::operations::{named, numbered, Operation};

pub struct Case {
    pub op: &'static Operation,
    pub numbers: Vec<u64>,
    pub ah: u64,
    pub a: Vec<f64>,
    pub bh: u64,
    pub b: Vec<f64>,
    pub out: usize,
    pub scratch: usize,
}

/// What the buffers hold before a call.
pub const SENTINEL: u64 = 0x3ff0_0000_0000_0001;

pub fn sentinels(count: usize) -> Vec<f64> {
    vec![f64::from_bits(SENTINEL); count]
}

fn hex(words: impl IntoIterator<Item = u64>) -> String {
    words.into_iter().map(|word| format!(" {word:016x}")).collect()
}

impl Case {
    fn rest(&self) -> impl Iterator<Item = u64> + '_ {
        let floats = self.a.iter().chain(&self.b).map(|x| x.to_bits());
        [self.ah, self.bh].into_iter().chain(self.numbers.iter().copied()).chain(floats)
    }

    /// The operation's name, then hex words: lent places of out and scratch, how many numbers and coefficients of a and
    /// b, all of these.
    pub fn text(&self) -> String {
        let sizes = [self.out, self.scratch, self.numbers.len(), self.a.len(), self.b.len()];
        format!("{}{}{}", self.op.name, hex(sizes.map(|n| n as u64)), hex(self.rest()))
    }

    /// A line of a stored sample: the sizes packed into one word. A reading has no lent places.
    pub fn packed(&self) -> String {
        let (out, scratch) = (self.out as u64, self.scratch as u64);
        let out = if self.op.gives_polynomial() { out } else { 0 };
        let sizes = (self.a.len() as u64) << 8 | (self.b.len() as u64) << 16 | out << 24 | scratch << 32;
        let word = u64::from(self.op.code) | sizes | (self.numbers.len() as u64) << 48;
        format!("{word:016x}{}", hex(self.rest()))
    }

    /// A case from either text.
    pub fn read(line: &str) -> Option<Case> {
        let (head, rest) = line.trim().split_once(' ')?;
        let words: Vec<u64> = rest.split(' ').map(|w| u64::from_str_radix(w, 16).ok()).collect::<Option<_>>()?;
        if let Some(op) = named(head) {
            let sizes: Vec<usize> = words.get(..5)?.iter().map(|n| *n as usize).collect();
            return Self::from_parts(op, [sizes[0], sizes[1], sizes[2], sizes[3], sizes[4]], &words[5..]);
        }
        let word = u64::from_str_radix(head, 16).ok()?;
        let byte = |from: u32| (word >> from & 255) as usize;
        let op = numbered(byte(0) as u8)?;
        let out = if op.gives_polynomial() { byte(24) } else { op.cells() };
        Self::from_parts(op, [out, (word >> 32 & 0xffff) as usize, byte(48), byte(8), byte(16)], &words)
    }

    /// From the lengths of out and scratch, how many numbers and coefficients of a and b, and the words that say them.
    fn from_parts(op: &'static Operation, sizes: [usize; 5], words: &[u64]) -> Option<Case> {
        let [out, scratch, n, na, nb] = sizes;
        let cells = op.gives_polynomial() || out == op.cells();
        if words.len() != 2 + n + na + nb || n != op.numbers.len() || !cells {
            return None;
        }
        let (numbers, floats) = words[2..].split_at(n);
        let (a, b) = floats.split_at(na);
        let floats = |words: &[u64]| words.iter().map(|w| f64::from_bits(*w)).collect();
        let (a, b) = (floats(a), floats(b));
        Some(Case { op, numbers: numbers.to_vec(), ah: words[0], a, bh: words[1], b, out, scratch })
    }
}
