//! Header words, limits and lengths, as document 01 gives them ('What a polynomial is here'), and what is wrong with a
//! word, as document 02 tells it (W5).

pub const VARIABLES: usize = 4;
pub const LIMIT: u64 = 64;
pub const COUNT: usize = 4096;

/// Limits and lengths, padded to four variables: a missing one has 1 and 1.
#[derive(Copy, Clone, Debug, PartialEq, Eq)]
pub struct Header {
    pub vars: usize,
    pub limits: [usize; VARIABLES],
    pub lengths: [usize; VARIABLES],
}

/// What is wrong: the variable, 4 for none, and the cause, 1 to 6.
#[derive(Copy, Clone, Debug, PartialEq, Eq)]
pub struct Fault {
    pub variable: u64,
    pub cause: u64,
}

impl Fault {
    /// Of no variable.
    pub fn of_none(cause: u64) -> Self {
        Fault { variable: 4, cause }
    }

    pub fn of(variable: usize, cause: u64) -> Self {
        Fault { variable: variable as u64, cause }
    }
}

impl Header {
    pub fn new(limits: &[usize], lengths: &[usize]) -> Self {
        let mut header = Header { vars: limits.len(), limits: [1; VARIABLES], lengths: [1; VARIABLES] };
        header.limits[..limits.len()].copy_from_slice(limits);
        header.lengths[..lengths.len()].copy_from_slice(lengths);
        header
    }

    /// A word's fields, whether or not it is good.
    fn fields(word: u64) -> Self {
        let field = |from: usize| (word >> from & 63) as usize + 1;
        Header {
            vars: (word >> 61) as usize,
            limits: std::array::from_fn(|v| field(55 - 12 * v)),
            lengths: std::array::from_fn(|v| field(49 - 12 * v)),
        }
    }

    /// The header of a good word: document 01's rules of a header, all of them, in document 02's order.
    pub fn read(word: u64) -> Result<Self, Fault> {
        let header = Self::fields(word);
        if header.vars > VARIABLES {
            return Err(Fault::of_none(1));
        }
        for v in 0..VARIABLES {
            let (limit, length) = (header.limits[v], header.lengths[v]);
            if v >= header.vars && (limit, length) != (1, 1) {
                return Err(Fault::of(v, 3));
            }
            if length > limit {
                return Err(Fault::of(v, 2));
            }
        }
        if word % (1 << 13) > 0 {
            return Err(Fault::of_none(4));
        }
        if header.count() > COUNT {
            return Err(Fault::of_none(5));
        }
        Ok(header)
    }

    pub fn word(&self) -> u64 {
        (0..VARIABLES).fold((self.vars as u64) << 61, |word, v| {
            word | ((self.limits[v] - 1) as u64) << (55 - 12 * v) | ((self.lengths[v] - 1) as u64) << (49 - 12 * v)
        })
    }

    /// The product of the lengths.
    pub fn count(&self) -> usize {
        self.lengths.iter().product()
    }

    /// How far apart two places lie whose indices differ by one in variable v.
    pub fn step(&self, v: usize) -> usize {
        self.lengths[v + 1..].iter().product()
    }
}

/// Bits of a float; every NaN has the same here.
pub fn bits(x: f64) -> u64 {
    if x.is_nan() {
        0x7ff8_0000_0000_0000
    } else {
        x.to_bits()
    }
}
