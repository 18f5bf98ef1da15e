//! Sheets at the edges of document 01's rules: every refusal of the program `recipe`, each beside what is accepted.

use crate::recipe_edges::{bad_headers, constant, counting, holding, line, many, step};
use crate::recipes::Recipe;
use crate::sheets::{sheet, sheet_with};
use crate::words::Header;
use crate::{recipe_edges, values};

/// The scope document's example, without its last newline.
const EXAMPLE: &str = "\
0101000000000000
2104000000000000
4000000000000000
4008000000000000
3ff0000000000000
9000000000004000";

pub fn example() -> Vec<u8> {
    format!("{EXAMPLE}\n").into_bytes()
}

/// The example with line k in place of its own.
fn with_line(k: usize, text: &str) -> Vec<u8> {
    let mut lines: Vec<&str> = EXAMPLE.lines().collect();
    lines[k] = text;
    (lines.join("\n") + "\n").into_bytes()
}

/// 8: each line with a digit less, one more, in capitals, other bytes, a carriage return, an empty line; ends cut and
/// added to.
fn texts() -> Vec<Vec<u8>> {
    let mut all = vec![vec![], b"\n".to_vec(), b"0".to_vec(), b"0101000000000000".to_vec(), EXAMPLE.as_bytes().to_vec()];
    for (k, word) in EXAMPLE.lines().enumerate() {
        let tail = &word[1..];
        let changed =
            [&word[..15], tail, &format!("{word}0"), &format!("0{word}"), "", &format!("{word}\r"), &format!(" {tail}")];
        all.extend(changed.map(|text| with_line(k, text)));
        all.extend(["A", "F", "g", "`", "/", ":", "@", "G", "-", "\t", "x"].map(|d| with_line(k, &format!("{d}{tail}"))));
        all.extend(["F", "\u{0}", "\n"].map(|d| with_line(k, &format!("{}{d}", &word[..15]))));
    }
    for end in ["0", "\n", "\r\n", " ", "\0", "0101000000000000\n"] {
        all.push([example(), end.as_bytes().to_vec()].concat());
    }
    all.extend((1..=17).map(|cut| example()[..example().len() - cut].to_vec()));
    all.push(EXAMPLE.replace('\n', "\r\n").into_bytes());
    all
}

/// 7 of word one: sizes around their edges, every spare bit, every edition; also with nothing behind it, and with text
/// that is no line.
fn sizes() -> Vec<Vec<u8>> {
    let mut all: Vec<Vec<u8>> = recipe_edges::sizes().iter().map(sheet).collect();
    let recipe = holding(&[line(3, 3)], &[2.0, 3.0, 1.0], &[step(9, 0, 0, 0, 1)]);
    let first = 0x0101 << 48;
    all.extend((0..48).map(|bit| sheet_with(first | 1 << bit, &recipe)));
    let idle = holding(&[line(3, 3)], &[2.0, 3.0, 1.0], &[step(6, 0, 0, 0, 0), step(7, 1, 0, 0, 1)]);
    all.extend((0..16).flat_map(|edition| [&recipe, &idle].map(|r| sheet(&r.of_edition(edition)))));
    for word in
        ["0100000000000000", "1101000000000000", "1031000000000000", "0041000000000000", "ffff000000000000", "0101000000000001"]
    {
        all.push(format!("{word}\n").into_bytes());
        all.push(format!("{word}\nno line").into_bytes());
        all.push(with_line(0, word));
    }
    all
}

/// 1 at each place, before a later malformed line, and where the malformed line comes first.
fn headers() -> Vec<Vec<u8>> {
    let mut all: Vec<Vec<u8>> = recipe_edges::headers().iter().map(sheet).collect();
    for place in 0..16 {
        let mut heads = vec![line(3, 1); 16];
        heads[place] = bad_headers()[place % 8];
        all.push(sheet(&counting(&heads, &[constant(1)])));
        let end = 17 * (place + 2);
        all.push([&all[all.len() - 1][..end], b"no line"].concat());
        all.push(all[all.len() - 1][..end].to_vec());
        all.push(all[all.len() - 1][..end - 1].to_vec());
    }
    all
}

fn word(lengths: &[usize]) -> u64 {
    Header::new(lengths, lengths).word()
}

/// A line that stores six places, times n places of another variable: 6 n are announced, and the value has 2 n.
fn padded_line(n: usize) -> Recipe {
    let heads = [Header::new(&[6, n], &[6, 1]).word(), Header::new(&[6, n], &[1, n]).word()];
    let coefficients = [&[2.0, 3.0, 0.0, 0.0, 0.0, 0.0][..], &vec![0.5; n]].concat();
    holding(&heads, &coefficients, &[step(4, 0, 1, 0, 0)])
}

/// 5 64: 256 an input and a step, and 258 (no lengths multiply to 257); 2,048 for all inputs and for a pool, and one
/// more. Counts are announced ones.
fn limits() -> Vec<Vec<u8>> {
    let wide = word(&[16, 16]);
    let negated = |steps: u64| (0..steps).map(|place| step(1, place, 0, 0, 0)).collect::<Vec<u64>>();
    let mut all = vec![
        counting(&[wide], &[constant(1)]),
        counting(&[word(&[6, 43])], &[constant(1)]),
        counting(&[wide; 8], &[constant(1)]),
        counting(&[&[wide; 8][..], &[0]].concat(), &[constant(1)]),
        counting(&[wide], &negated(8)),
        counting(&[wide], &[negated(8), vec![constant(1)]].concat()),
        counting(&[wide], &[negated(7), vec![step(9, 0, 0, 0, 0), constant(1)]].concat()),
    ];
    let square = |limits: &[usize], a: &[usize], b: &[usize]| {
        let heads = [Header::new(limits, a).word(), Header::new(limits, b).word()];
        counting(&heads, &[step(4, 0, 1, 0, 0), constant(3)])
    };
    all.push(square(&[16, 16], &[16, 1], &[1, 16]));
    all.push(square(&[6, 43], &[6, 1], &[1, 43]));
    all.push(square(&[64, 64], &[64, 1], &[1, 64]));
    all.push(square(&[64, 64, 2], &[64, 1, 1], &[1, 64, 2]));
    all.extend([42, 43].map(padded_line));
    let refused = [step(15, 0, 0, 0, 0), step(7, 0, 0, 3, 0), step(7, 0, 0, 0, 17), step(4, 1, 0, 0, 0)];
    all.extend(refused.map(|last| counting(&[word(&[6, 43])], &[constant(1), last])));
    // an exponential of 256 places and of 258, of a constant that has one and of one that has none
    for limits in [[16, 16], [6, 43]] {
        let head = Header::new(&limits, &[2, 2]).word();
        all.extend([8.0, 8.5].map(|c| holding(&[head], &[c, 0.5, -0.25, 0.125], &[step(11, 0, 0, 0, 0), constant(3)])));
    }
    all.iter().map(sheet).collect()
}

/// A word of a NaN, of an infinity, of a signed zero .. as an input, through the steps that keep or lose it.
fn patterns() -> Vec<Vec<u8>> {
    let nans =
        [0x7ff8_0000_0000_0000, 0xfff8_0000_0000_0000, 0x7ff0_0000_0000_0001, 0x7fff_ffff_ffff_ffff, 0xffff_ffff_ffff_ffff];
    let other = values::SPECIAL.map(f64::to_bits);
    let steps = [step(1, 0, 0, 0, 0), step(2, 0, 1, 0, 0), step(4, 0, 1, 0, 0), step(9, 0, 0, 0, 0), step(6, 0, 0, 0, 1)];
    let heads = [line(3, 3), line(3, 2)];
    let one = |bits: u64, last: u64| sheet(&holding(&heads, &[1.0, f64::from_bits(bits), 2.0, 0.5, -3.0], &[last]));
    nans.into_iter().chain(other).flat_map(|bits| steps.map(|last| one(bits, last))).collect()
}

/// Sheets of the recipes that the run is tried on: each kind, each field, operands, shifts, long chains.
fn runs() -> Vec<Vec<u8>> {
    let lists: [Vec<Recipe>; 8] = [
        recipe_edges::kinds(),
        recipe_edges::shifts(),
        recipe_edges::chains(),
        recipe_edges::operands(),
        recipe_edges::fields(),
        recipe_edges::counts(),
        recipe_edges::editions(),
        recipe_edges::exponentials(),
    ];
    lists.iter().flatten().chain(&[many(16, 48)]).map(sheet).collect()
}

pub fn all() -> Vec<Vec<u8>> {
    let first = vec![example()];
    [first, texts(), sizes(), headers(), limits(), patterns(), runs()].concat()
}

/// 2,048 coefficients in, a pool of 2,048, and an answer of 256.
pub fn full() -> Vec<u8> {
    let steps: Vec<u64> = (0..8).map(|place| step(3, place, (place + 1) % 8, 0, 0)).collect();
    sheet(&counting(&[word(&[16, 16]); 8], &steps))
}

/// 16 inputs of 4,096 coefficients and 48 steps, the longest sheet: refused for its size alone, or for its last step;
/// spoilt near its end; and input longer than any sheet.
pub fn large() -> Vec<(&'static str, Vec<u8>)> {
    let longest = |last: u64| {
        let steps = [vec![constant(1); 47], vec![last]].concat();
        sheet(&holding(&[word(&[64, 64]); 16], &[1.0; 65536], &steps))
    };
    let good = longest(constant(2));
    let spoilt = |at: usize| {
        let mut text = good.clone();
        let end = text.len();
        text[end - at] = b'G';
        text
    };
    vec![
        ("65,536 coefficients", good.clone()),
        ("65,536 coefficients and a wrong last step", longest(step(15, 0, 0, 0, 0))),
        ("65,536 coefficients and a last step of a missing variable", longest(step(7, 0, 0, 2, 0))),
        ("65,536 coefficients and a malformed last line", spoilt(2)),
        ("65,536 coefficients and a malformed last coefficient", spoilt(17 * 48 + 2)),
        ("65,536 coefficients without the last newline", good[..good.len() - 1].to_vec()),
        ("65,536 coefficients and a byte more", [&good[..], b"0"].concat()),
        ("65,536 coefficients twice", [&good[..], &good].concat()),
        ("the example and two million bytes more", [example(), vec![b'0'; 2_000_000]].concat()),
        ("two million bytes that are no line", vec![b'\n'; 2_000_000]),
        ("2,048 coefficients in, 256 out", full()),
    ]
}
