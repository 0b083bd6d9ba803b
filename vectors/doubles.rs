//! Writes the test vectors of the program `doubles`: what this machine's square root, and Rust's `floor`, `ceil`, `max` and `as u64`, answer.
//!
//!     rustc -O vectors/doubles.rs -o target/vectors-doubles && target/vectors-doubles crates/doubles/data
//!
//! A file is a list of words of eight bytes, the lowest first. `roots.bin` has two words a record: the bits of x and of its
//! root. `whole.bin` has six: x, y, floor x, ceil x, max(x, y), x as u64. A NaN that is an answer is written
//! 7FF8000000000000. The random numbers are a fixed sequence, so the files come out the same each time.

use std::fs;

struct Random(u64);

impl Random {
    fn next(&mut self) -> u64 {
        self.0 ^= self.0 << 13;
        self.0 ^= self.0 >> 7;
        self.0 ^= self.0 << 17;
        self.0.wrapping_mul(0x2545_F491_4F6C_DD1D)
    }

    fn below(&mut self, n: u64) -> u64 {
        (self.next() >> 11) % n
    }
}

const TOP: u64 = 1 << 63;
const INFINITE: u64 = 0x7FF0_0000_0000_0000;
const LARGEST: u64 = 0x7FEF_FFFF_FFFF_FFFF;
const SMALLEST_NORMAL: u64 = 0x0010_0000_0000_0000;

/// The bits of a double, one pattern for every NaN.
fn bits(x: f64) -> u64 {
    if x.is_nan() { 0x7FF8_0000_0000_0000 } else { x.to_bits() }
}

fn power(k: i64) -> u64 {
    if k < -1022 { 1 << (k + 1074) } else { ((k + 1023) as u64) << 52 }
}

/// b and the doubles beside it.
fn around(list: &mut Vec<u64>, b: u64) {
    list.extend([b - 1, b, b + 1]);
}

/// Zeros, infinities, NaNs, the ends of the subnormal and the normal range, of both signs.
fn special(nans: &[u64]) -> Vec<u64> {
    let mut list = Vec::new();
    for b in [0, 1, 2, 3, SMALLEST_NORMAL - 1, SMALLEST_NORMAL, SMALLEST_NORMAL + 1, LARGEST - 1, LARGEST, INFINITE] {
        list.extend([b, b | TOP]);
    }
    for b in nans {
        list.extend([*b, *b | TOP]);
    }
    list
}

/// (2r + 1)² · 4^e, cut to 53 digits: its root lies next to the middle between two doubles, those with the digits r and r + 1.
fn near_a_tie(r: u64, e: u64) -> u64 {
    let n = (2 * r as u128 + 1).pow(2);
    let digits = 128 - n.leading_zeros() as u64;
    let m = (n >> (digits - 53)) as u64;
    let field = 2 * e + (digits - 1) % 2 + 1;
    (field << 52) | (m & (SMALLEST_NORMAL - 1))
}

fn roots(g: &mut Random) -> Vec<u64> {
    let mut list = special(&[0x7FF8_0000_0000_0000, INFINITE + 1, LARGEST + 2, 0x7FFF_FFFF_FFFF_FFFF, 0x7FF4_0000_0000_0123]);
    for k in -1074..1024 {
        around(&mut list, power(k));
    }
    for i in 0..1500 {
        let digits = 1 + i % 26;
        let n = ((1 << (digits - 1)) + g.below(1 << (digits - 1))) as f64;
        let scale = f64::from_bits(power(2 * (g.below(900) as i64 - 450)));
        around(&mut list, (n * n * scale).to_bits());
    }
    for _ in 0..1500 {
        let r = (1 << 52) + g.below(1 << 52);
        around(&mut list, near_a_tie(r, g.below(1022)));
    }
    for _ in 0..2000 {
        let digits = 1 + g.below(52);
        list.push((1 << (digits - 1)) + g.below(1 << (digits - 1)));
    }
    for _ in 0..200 {
        list.push(g.below(INFINITE) | TOP);
    }
    while list.len() < 20480 {
        list.push(1 + g.below(LARGEST));
    }
    list
}

fn whole(g: &mut Random) -> Vec<u64> {
    let mut list = special(&[0x7FF8_0000_0000_0000, 0x7FFF_FFFF_FFFF_FFFF]);
    let sign = |g: &mut Random| g.below(2) << 63;
    for k in -3..67 {
        for s in [0, TOP] {
            around(&mut list, power(k) | s);
        }
    }
    for _ in 0..600 {
        let digits = g.below(53);
        let n = ((1u64 << digits) + g.below(1 << digits)) as f64;
        let s = sign(g);
        around(&mut list, n.to_bits() | s);
        around(&mut list, (n + 0.5).to_bits() | s);
    }
    for _ in 0..200 {
        let s = sign(g);
        list.push((1 + g.below(SMALLEST_NORMAL - 1)) | s);
    }
    while list.len() < 4500 {
        let (field, s) = (1015 + g.below(80), sign(g));
        list.push((field << 52) | g.below(1 << 52) | s);
    }
    while list.len() < 5120 {
        list.push(g.next() % INFINITE | sign(g));
    }
    list
}

/// Each in the place of another, by chance.
fn mixed(mut list: Vec<u64>, g: &mut Random) -> Vec<u64> {
    for i in (1..list.len()).rev() {
        list.swap(i, g.below(i as u64 + 1) as usize);
    }
    list
}

fn write(path: &str, words: &[u64]) {
    let bytes: Vec<u8> = words.iter().flat_map(|w| w.to_le_bytes()).collect();
    fs::write(path, bytes).unwrap();
}

fn main() {
    let folder = std::env::args().nth(1).expect("the folder to write to");
    let g = &mut Random(0x9E37_79B9_7F4A_7C15);
    let list = roots(g);
    let words: Vec<u64> = list.iter().flat_map(|&b| [b, bits(f64::from_bits(b).sqrt())]).collect();
    write(&format!("{folder}/roots.bin"), &words);

    let list = whole(g);
    let list = mixed(list, g);
    let mut words = Vec::new();
    for (i, &b) in list.iter().enumerate() {
        let x = f64::from_bits(b);
        // of two zeros Rust may answer either
        let y = (1..).map(|k| f64::from_bits(list[(i + k) % list.len()])).find(|y| !(x == 0.0 && *y == 0.0)).unwrap();
        words.extend([b, y.to_bits(), bits(x.floor()), bits(x.ceil()), bits(x.max(y)), x as u64]);
    }
    write(&format!("{folder}/whole.bin"), &words);
}
