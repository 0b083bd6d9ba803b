//! Nanoseconds a square root: the proved `sqrt`, the proved root by digits, and the machine's own. bench/run builds and runs it.

use std::hint::black_box;
use std::time::Instant;

extern "C" {
    fn timed_roots(out: *mut f64, out_count: usize, x: *const f64, count: usize);
    fn timed_roots_by_digits(out: *mut f64, out_count: usize, x: *const f64, count: usize);
    fn timed_root_chain(x: *const f64, count: usize) -> f64;
    fn timed_root_chain_by_digits(x: *const f64, count: usize) -> f64;
}

const COUNT: usize = 1024;

/// Normal numbers from 2^-23 to 2^26, by a fixed sequence.
fn numbers() -> Vec<f64> {
    let mut s = 88172645463325252u64;
    let number = |_| {
        s ^= s << 13;
        s ^= s >> 7;
        s ^= s << 17;
        f64::from_bits(((s >> 3) & 0x000F_FFFF_FFFF_FFFF) | ((1000 + (s >> 55) % 50) << 52))
    };
    (0..COUNT).map(number).collect()
}

/// The best of many runs, each of COUNT roots, in nanoseconds a root.
fn best(mut run: impl FnMut()) -> f64 {
    let turns = (0..2000).map(|_| {
        let start = Instant::now();
        run();
        start.elapsed().as_nanos()
    });
    turns.min().unwrap() as f64 / COUNT as f64
}

fn main() {
    let x = numbers();
    let (from, count) = (x.as_ptr(), x.len());
    let mut out = vec![0.0; COUNT];
    let to = out.as_mut_ptr();
    // SAFETY: the pointers and counts are those of the two vectors above, which live on and do not overlap.
    let ours = best(|| unsafe { timed_roots(to, count, black_box(from), count) });
    let digits = best(|| unsafe { timed_roots_by_digits(to, count, black_box(from), count) });
    let ours_chain = best(|| unsafe { black_box(timed_root_chain(black_box(from), count)); });
    let digits_chain = best(|| unsafe { black_box(timed_root_chain_by_digits(black_box(from), count)); });
    // `black_box` keeps the compiler from taking two roots at once
    let machine = best(|| {
        for (y, x) in out.iter_mut().zip(&x) {
            *y = black_box(*x).sqrt();
        }
        black_box(&out);
    });
    let machine_chain = best(|| {
        black_box(x.iter().fold(2.0, |a: f64, x| (a + x).sqrt()));
    });
    println!("ns a root        independent   in a chain");
    println!("sqrt             {ours:11.1}   {ours_chain:10.1}");
    println!("sqrt_by_digits   {digits:11.1}   {digits_chain:10.1}");
    println!("the machine's    {machine:11.1}   {machine_chain:10.1}");
}
