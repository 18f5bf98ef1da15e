//! A sheet of the program `recipe`: what it has to print for any bytes, and sheets from a seed (document 01, 'Examples
//! to hold').

use crate::recipes::{check, is_known, right_sizes, values, Recipe, Refused, Step};
use crate::refusals::PLACE;
use crate::rng::Rng;
use crate::words::{bits, Header};
use crate::{shapes, values as floats};

/// Lines of a sheet, one after the other.
struct Lines<'a>(&'a [u8]);

impl Lines<'_> {
    /// Sixteen lower-case hex digits and a newline, else 8.
    fn next(&mut self) -> Result<u64, Refused> {
        let bad = || Refused::at(8, PLACE);
        let line = self.0.get(..17).ok_or_else(bad)?;
        let digits = &line[..16];
        if line[16] != b'\n' || !digits.iter().all(|d| matches!(d, b'0'..=b'9' | b'a'..=b'f')) {
            return Err(bad());
        }
        self.0 = &self.0[17..];
        let text = std::str::from_utf8(digits).expect("digits");
        Ok(u64::from_str_radix(text, 16).expect("hex"))
    }

    fn many(&mut self, n: usize) -> Result<Vec<u64>, Refused> {
        (0..n).map(|_| self.next()).collect()
    }
}

/// The recipe of a sheet, or the first refusal in reading order.
fn read(sheet: &[u8]) -> Result<Recipe, Refused> {
    let mut lines = Lines(sheet);
    let first = lines.next()?;
    let (inputs, steps) = ((first >> 56) as usize, (first >> 48 & 255) as usize);
    let edition = first >> 44 & 15;
    if !is_known(edition) || !right_sizes(inputs, steps) || first << 20 != 0 {
        return Err(Refused::at(7, PLACE));
    }
    let (mut headers, mut count) = (vec![], 0);
    for place in 0..inputs {
        let word = lines.next()?;
        count += Header::read(word).map_err(|fault| Refused::header(fault, place))?.count();
        headers.push(word);
    }
    let coefficients = lines.many(count)?.into_iter().map(f64::from_bits).collect();
    let steps = lines.many(steps)?;
    if !lines.0.is_empty() {
        return Err(Refused::at(8, PLACE));
    }
    Ok(Recipe { headers, coefficients, steps, edition })
}

/// The program's own limits: 256 coefficients an input or step, 2,048 for all inputs, 2,048 a pool.
fn is_small(known: &[Header], inputs: usize) -> bool {
    let total = |part: &[Header]| part.iter().map(Header::count).sum::<usize>();
    known.iter().all(|h| h.count() <= 256) && total(&known[..inputs]) <= 2048 && total(&known[inputs..]) <= 2048
}

fn answer(sheet: &[u8]) -> Result<String, Refused> {
    let recipe = read(sheet)?;
    let known = check(&recipe.headers, &recipe.steps, recipe.edition)?;
    if !is_small(&known, recipe.headers.len()) {
        return Err(Refused::at(5, PLACE));
    }
    let (header, coefficients) = values(&recipe)?.pop().expect("a step");
    let lines: String = coefficients.iter().map(|x| format!("{:016x}\n", bits(*x))).collect();
    Ok(format!("done {}\n{:016x}\n{lines}", recipe.steps.len(), header.word()))
}

/// What the program has to print.
pub fn printed(sheet: &[u8]) -> String {
    answer(sheet).unwrap_or_else(|why| format!("{why}\n"))
}

fn text(words: impl IntoIterator<Item = u64>) -> Vec<u8> {
    words.into_iter().flat_map(|word| format!("{word:016x}\n").into_bytes()).collect()
}

/// A recipe: mostly one that is accepted, small values; now and then one header is spoilt.
pub fn recipe(rng: &mut Rng) -> Recipe {
    let many = rng.between(5, 16);
    let inputs = rng.pick(&[0, 1, 1, 2, 2, 3, 4, many]);
    let most = rng.pick(&[8, 16, 16, 32, 64, 256]);
    let heads: Vec<Header> = (0..inputs).map(|_| shapes::random(rng, most)).collect();
    let coefficients = heads.iter().flat_map(|h| floats::coefficients(rng, h)).collect();
    let mut headers: Vec<u64> = heads.iter().map(Header::word).collect();
    let long = rng.between(9, 64 - inputs);
    let count = rng.pick(&[1, 1, 2, 3, 4, 5, 8, long]);
    let edition = rng.pick(&[0, 0, 1]);
    let steps = steps(rng, &headers, count, edition);
    if inputs > 0 && rng.chance(20) {
        let i = rng.below(inputs);
        headers[i] = shapes::bad(rng, &heads[i]);
    }
    Recipe { headers, coefficients, steps, edition }
}

/// The sheet of a recipe.
pub fn sheet(recipe: &Recipe) -> Vec<u8> {
    let first = (recipe.headers.len() as u64) << 56 | (recipe.steps.len() as u64) << 48 | recipe.edition << 44;
    sheet_with(first, recipe)
}

/// The same with another word one.
pub fn sheet_with(first: u64, recipe: &Recipe) -> Vec<u8> {
    let floats = recipe.coefficients.iter().map(|x| x.to_bits());
    let headers = recipe.headers.iter().copied();
    text([first].into_iter().chain(headers).chain(floats).chain(recipe.steps.iter().copied()))
}

/// A sheet of a recipe, of which one word or one byte may be spoilt.
pub fn random(rng: &mut Rng) -> Vec<u8> {
    let mut sheet = sheet(&recipe(rng));
    if rng.chance(15) {
        let at = rng.below(16);
        sheet[at] = rng.pick(b"0123456789abcdef");
    }
    spoil(rng, &mut sheet);
    sheet
}

/// Steps that the check mostly accepts: each of them is drawn again while it is refused, a few times.
fn steps(rng: &mut Rng, headers: &[u64], count: usize, edition: u64) -> Vec<u64> {
    let mut steps: Vec<u64> = vec![];
    for _ in 0..count {
        let place = headers.len() + steps.len();
        for _ in 0..20 {
            steps.push(step(rng, place));
            let small = |known: Vec<Header>| is_small(&known, headers.len());
            if check(headers, &steps, edition).is_ok_and(small) || rng.chance(8) {
                break;
            }
            steps.pop();
        }
        if headers.len() + steps.len() == place {
            steps.push(Step { n: rng.below(9) as u64, ..Step::default() }.word());
        }
    }
    steps
}

/// A step at a place: fields that its kind uses are drawn around what is right, seldom another one.
fn step(rng: &mut Rng, place: usize) -> u64 {
    let kinds = if rng.chance(10) { 16 } else { 12 };
    let kind = rng.below(kinds) as u64;
    let uses = Step::uses(kind).unwrap_or([false; 4]).map(|used| used != rng.chance(2));
    let operand =
        |rng: &mut Rng| if place > 0 && rng.chance(990) { rng.below(place) } else { rng.between(place.min(63), 63) } as u64;
    let mut step = Step { kind, ..Step::default() };
    if uses[0] {
        step.a = operand(rng);
    }
    if uses[1] {
        step.b = operand(rng);
    }
    if uses[2] {
        step.variable = rng.below(4) as u64;
    }
    if uses[3] {
        step.n = rng.pick(&[0, 1, 1, 2, 2, 3, 4, 7, 63, 64, u64::from(u32::MAX)]);
    }
    if rng.chance(3) {
        step.spare = 1 << rng.below(14);
    }
    step.word()
}

/// Now and then: a byte changed, taken away or added, the end cut off.
fn spoil(rng: &mut Rng, sheet: &mut Vec<u8>) {
    let at = rng.below(sheet.len());
    match rng.below(60) {
        0 => sheet[at] = rng.next() as u8,
        1 => sheet[at] = rng.pick(b"AFg/:`\r\n 0"),
        2 => drop(sheet.remove(at)),
        3 => sheet.insert(at, rng.pick(b"0\n \r")),
        4 => sheet.truncate(at),
        5 => sheet.push(rng.pick(b"0\n\0")),
        6 => drop(sheet.pop()),
        _ => {}
    }
}
