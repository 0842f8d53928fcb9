//! The subtraction of an orthonormalizing pass beside the Rust loop, in place: k = 10, c = 9, 70,000 rows.
//!
//! `subtract_chunk` of `columns` beside document 000's loop, on one thread: k = 10, c = 9, 70,000 rows. Both work in
//! place, so each has its own block and the same number of rounds; at the end every number is compared bit for bit (a
//! NaN equals any NaN). The times are the best of the rounds, taken in turn.
use bench::{same, splitmix_unit};
use std::{hint::black_box, time::Instant};

const ROWS: usize = 70_000;
const REDUCTION_ROWS: usize = 4096;
const K: usize = 10;
const ROUNDS: usize = 200;

// An exported function takes a slice as its address and its length.
#[link(name = "columns", kind = "static")]
unsafe extern "C" {
    fn columns_subtract_chunk(
        n: usize,
        k: usize,
        c: usize,
        dots: *const f64,
        first: usize,
        end: usize,
        v0: *const f64,
        v0_len: usize,
        block: *mut f64,
        block_len: usize,
    );
}

/// One chunk after the other, as a held run does.
fn ours(n: usize, k: usize, c: usize, dots: &[f64; 225], v0: &[f64], block: &mut [f64]) {
    for first in (0..n).step_by(REDUCTION_ROWS) {
        let end = (first + REDUCTION_ROWS).min(n);
        unsafe {
            columns_subtract_chunk(
                n,
                k,
                c,
                dots.as_ptr(),
                first,
                end,
                v0.as_ptr(),
                v0.len(),
                block.as_mut_ptr(),
                block.len(),
            )
        }
    }
}

/// Document 000's subtraction, with no rayon.
#[inline(always)]
fn theirs(k: usize, c: usize, dots: &[f64], v0: &[f64], v: &mut [f64]) {
    v.chunks_mut(k).enumerate().for_each(|(i, row)| {
        let mut delta = dots[c] * v0[i];
        for p in 0..c {
            delta += dots[p] * row[p];
        }
        row[c] -= delta;
    });
}

fn seconds(work: impl FnOnce()) -> f64 {
    let start = Instant::now();
    work();
    start.elapsed().as_secs_f64()
}

fn differences(x: &[f64], y: &[f64]) -> usize {
    x.iter().zip(y).filter(|(x, y)| !same(**x, **y)).count()
}

fn main() {
    let (n, k, c) = (ROWS, black_box(K), black_box(K - 1));
    let v0: Vec<f64> = (0..n).map(|i| splitmix_unit((n * k + i) as u64)).collect();
    let start: Vec<f64> = (0..n * k).map(|i| splitmix_unit(i as u64)).collect();
    let mut dots = [0.0; 225];
    for (p, dot) in dots.iter_mut().enumerate().take(c + 1) {
        *dot = splitmix_unit((2 * n * k + p) as u64);
    }
    // What the function requires, for every chunk.
    assert!((9..=15).contains(&k) && c < k && v0.len() >= n && start.len() >= n * k);

    let (mut a, mut b, mut f) = (start.clone(), start.clone(), start.clone());
    let mut best = [f64::INFINITY; 3];
    for _ in 0..ROUNDS {
        best[0] = best[0].min(seconds(|| ours(n, k, c, black_box(&dots), &v0, black_box(&mut a))));
        best[1] = best[1]
            .min(seconds(|| theirs(black_box(k), black_box(c), black_box(&dots), &v0, black_box(&mut b))));
        best[2] = best[2].min(seconds(|| theirs(K, black_box(c), black_box(&dots), &v0, black_box(&mut f))));
    }
    let wrong = differences(&a, &b) + differences(&a, &f);
    let changed = differences(&a, &start);
    println!(
        "{n} rows, k = {k}, c = {c}, {ROUNDS} rounds: {} numbers, {changed} changed, {wrong} differ",
        a.len()
    );
    for (which, time) in [("k at run time", best[1]), ("k constant", best[2])] {
        let (our, their) = (best[0] * 1e3, time * 1e3);
        println!(
            "subtract: ours {our:.3} ms, document 000's loop with {which} {their:.3} ms, ratio {:.2}",
            our / their
        );
    }
    if wrong > 0 || changed != n {
        std::process::exit(1);
    }
}
