//! The partials of dots and products beside the Rust loops: k = 10, 70,000 rows.
//!
//! The partials of `sums` beside document 000's, on one thread: dots at k = 10 and c = 9, products at k = 10, 70,000 rows.
//! Every number is compared bit for bit (a NaN equals any NaN); the times are the best of several rounds, taken in turn.
use bench::{same, splitmix_unit};
use std::{hint::black_box, ops::Range, time::Instant};

const ROWS: usize = 70_000;
const REDUCTION_ROWS: usize = 4096;
const K: usize = 10;
const ROUNDS: usize = 60;

// An exported function takes a slice as its address and its length.
#[link(name = "sums", kind = "static")]
unsafe extern "C" {
    fn sums_dots_partial(
        n: usize,
        k: usize,
        c: usize,
        first: usize,
        end: usize,
        v0: *const f64,
        v0_len: usize,
        v: *const f64,
        v_len: usize,
        base: usize,
        partials: *mut f64,
        partials_len: usize,
    );
    fn sums_products_partial(
        n: usize,
        k: usize,
        first: usize,
        end: usize,
        v: *const f64,
        v_len: usize,
        w: *const f64,
        w_len: usize,
        base: usize,
        partials: *mut f64,
        partials_len: usize,
    );
}

/// Document 000's `chunked_column_reduce` up to its partials, with no rayon.
fn partials_of<F: Fn(Range<usize>, &mut [f64])>(n: usize, width: usize, accumulate: F) -> Vec<Vec<f64>> {
    (0..n.div_ceil(REDUCTION_ROWS).max(1))
        .map(|chunk| {
            let start = chunk * REDUCTION_ROWS;
            let end = ((chunk + 1) * REDUCTION_ROWS).min(n);
            let mut acc = vec![0.0; width];
            accumulate(start..end, &mut acc);
            acc
        })
        .collect()
}

/// WIDTH is k where the compiler is to know it, and 0 where k comes at run time. It is read within the closure: the closure's type is then
/// another for each WIDTH, and so is the loop that is compiled from it.
fn dots<const WIDTH: usize>(n: usize, k: usize, c: usize, v0: &[f64], v: &[f64]) -> Vec<Vec<f64>> {
    partials_of(n, c + 1, |range, acc: &mut [f64]| {
        let k = if WIDTH > 0 { WIDTH } else { k };
        for i in range {
            let row = &v[i * k..(i + 1) * k];
            for p in 0..c {
                acc[p] += row[p] * row[c];
            }
            acc[c] += v0[i] * row[c];
        }
    })
}

fn products<const WIDTH: usize>(n: usize, k: usize, v: &[f64], w: &[f64]) -> Vec<Vec<f64>> {
    partials_of(n, k * k, |range, acc: &mut [f64]| {
        let k = if WIDTH > 0 { WIDTH } else { k };
        for i in range {
            let v_row = &v[i * k..(i + 1) * k];
            let w_row = &w[i * k..(i + 1) * k];
            for p in 0..k {
                for q in 0..k {
                    acc[p * k + q] += v_row[p] * w_row[q];
                }
            }
        }
    })
}

/// Calls one chunk after the other, as a held run does: each writes at chunk * k * k.
fn chunks(n: usize, k: usize, mut call: impl FnMut(usize, usize, usize)) {
    for chunk in 0..n.div_ceil(REDUCTION_ROWS) {
        call(chunk * REDUCTION_ROWS, ((chunk + 1) * REDUCTION_ROWS).min(n), chunk * k * k);
    }
}

/// The numbers that differ, those that a chunk must have left alone among them.
fn differences(ours: &[f64], theirs: &[Vec<f64>], k: usize, untouched: f64) -> usize {
    let of_chunk = |(chunk, partial): (usize, &Vec<f64>)| {
        (0..k * k).filter(|&p| !same(ours[chunk * k * k + p], *partial.get(p).unwrap_or(&untouched))).count()
    };
    theirs.iter().enumerate().map(of_chunk).sum()
}

fn seconds(mut work: impl FnMut()) -> f64 {
    let start = Instant::now();
    work();
    start.elapsed().as_secs_f64()
}

/// Best times of ours and of each of theirs, taken in turn.
fn compare(name: &str, mut ours: impl FnMut(), theirs: &mut [(&str, &mut dyn FnMut())]) {
    let mut best = vec![f64::INFINITY; theirs.len() + 1];
    for _ in 0..ROUNDS {
        best[0] = best[0].min(seconds(&mut ours));
        for (slot, (_, their)) in best[1..].iter_mut().zip(theirs.iter_mut()) {
            *slot = slot.min(seconds(their));
        }
    }
    for (time, (which, _)) in best[1..].iter().zip(theirs.iter()) {
        println!(
            "{name}: ours {:.3} ms, document 000's loop with {which} {:.3} ms, ratio {:.2}",
            best[0] * 1e3,
            time * 1e3,
            best[0] / time
        );
    }
}

fn main() {
    let (n, k, c, untouched) = (ROWS, black_box(K), black_box(K - 1), 7.0);
    let v0: Vec<f64> = (0..n).map(|i| splitmix_unit((3 * n * k + i) as u64)).collect();
    let v: Vec<f64> = (0..n * k).map(|i| splitmix_unit(i as u64)).collect();
    let w: Vec<f64> = (0..n * k).map(|i| splitmix_unit((n * k + i) as u64)).collect();
    let size = n.div_ceil(REDUCTION_ROWS) * k * k;
    let mut partials = vec![untouched; size];

    // What the functions require, for every chunk.
    assert!((9..=15).contains(&k) && c < k && v0.len() >= n && v.len() >= n * k && w.len() >= n * k);

    let our_dots = |partials: &mut [f64]| {
        chunks(n, k, |first, end, base| unsafe {
            sums_dots_partial(
                n,
                k,
                c,
                first,
                end,
                v0.as_ptr(),
                v0.len(),
                v.as_ptr(),
                v.len(),
                base,
                partials.as_mut_ptr(),
                partials.len(),
            )
        })
    };
    let our_products = |partials: &mut [f64]| {
        chunks(n, k, |first, end, base| unsafe {
            sums_products_partial(
                n,
                k,
                first,
                end,
                v.as_ptr(),
                v.len(),
                w.as_ptr(),
                w.len(),
                base,
                partials.as_mut_ptr(),
                partials.len(),
            )
        })
    };

    our_dots(&mut partials);
    let wrong_dots = differences(&partials, &dots::<0>(n, k, c, &v0, &v), k, untouched);
    our_products(&mut partials);
    let wrong_products = differences(&partials, &products::<0>(n, k, &v, &w), k, untouched);
    println!(
        "{n} rows, k = {k}, c = {c}: {size} numbers each; differing bits: dots {wrong_dots}, products {wrong_products}"
    );

    compare(
        "dots",
        || our_dots(black_box(&mut partials)),
        &mut [
            ("k at run time", &mut || drop(black_box(dots::<0>(n, black_box(k), black_box(c), &v0, &v)))),
            ("k constant", &mut || drop(black_box(dots::<K>(n, K, black_box(c), &v0, &v)))),
        ],
    );
    let mut partials = vec![untouched; size];
    compare(
        "products",
        || our_products(black_box(&mut partials)),
        &mut [
            ("k at run time", &mut || drop(black_box(products::<0>(n, black_box(k), &v, &w)))),
            ("k constant", &mut || drop(black_box(products::<K>(n, K, &v, &w)))),
        ],
    );
    if wrong_dots + wrong_products > 0 {
        std::process::exit(1);
    }
}
