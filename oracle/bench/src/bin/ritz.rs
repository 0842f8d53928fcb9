//! Jacobi on 63,000 matrices beside the same method in Rust.
//!
//! Times `ritz_jacobi_eigen` of the archive `libritz.a` beside cyclic Jacobi in Rust, on the same matrices and one thread, for k 9 to 15, and
//! compares the two bit for bit: a NaN equals any NaN. The Rust takes the hardware's root; it is timed with ours (`libnumbers.a`) too, and what
//! that adds is our root's share.

use bench::{Random, same};
use std::hint::black_box;
use std::process::ExitCode;
use std::time::Instant;

const LARGEST: usize = 225;

#[link(name = "ritz", kind = "static")]
unsafe extern "C" {
    /// k is from 9 to 15; the matrix is turned in place and the vectors are written whole.
    fn ritz_jacobi_eigen(k: usize, matrix: *mut [f64; LARGEST], vectors: *mut [f64; LARGEST]);
}

#[link(name = "numbers", kind = "static")]
unsafe extern "C" {
    fn numbers_root(x: f64) -> f64;
}

fn our_root(x: f64) -> f64 {
    // SAFETY: the proved function takes every f64 and touches no memory.
    unsafe { numbers_root(x) }
}

/// The same method, as document 000 has it, over a root: one matrix of k by k numbers, its vectors as the answer.
fn jacobi(matrix: &mut [f64], k: usize, root: impl Fn(f64) -> f64) -> Vec<f64> {
    let mut vectors = vec![0.0; k * k];
    for p in 0..k {
        vectors[p * k + p] = 1.0;
    }
    let noise = f64::EPSILON * k as f64;
    for _ in 0..50 {
        if settled(matrix, k, noise) {
            break;
        }
        for p in 0..k {
            for q in p + 1..k {
                let apq = matrix[p * k + q];
                if apq != 0.0 {
                    let theta = (matrix[q * k + q] - matrix[p * k + p]) / (2.0 * apq);
                    let r = root(theta * theta + 1.0);
                    let tangent = if theta >= 0.0 { 1.0 / (theta + r) } else { 1.0 / (theta - r) };
                    let cos = 1.0 / root(tangent * tangent + 1.0);
                    let sin = tangent * cos;
                    turn_columns(matrix, k, p, q, cos, sin);
                    turn_rows(matrix, k, p, q, cos, sin);
                    turn_columns(&mut vectors, k, p, q, cos, sin);
                }
            }
        }
    }
    vectors
}

fn settled(matrix: &[f64], k: usize, noise: f64) -> bool {
    let mut diagonal = 0.0;
    let mut off = 0.0;
    for p in 0..k {
        diagonal += matrix[p * k + p] * matrix[p * k + p];
    }
    for p in 0..k {
        for q in p + 1..k {
            off += matrix[p * k + q] * matrix[p * k + q];
        }
    }
    off <= noise * noise * diagonal
}

fn turn_columns(m: &mut [f64], k: usize, p: usize, q: usize, cos: f64, sin: f64) {
    for r in 0..k {
        let (x, y) = (m[r * k + p], m[r * k + q]);
        m[r * k + p] = cos * x - sin * y;
        m[r * k + q] = sin * x + cos * y;
    }
}

fn turn_rows(m: &mut [f64], k: usize, p: usize, q: usize, cos: f64, sin: f64) {
    for c in 0..k {
        let (x, y) = (m[p * k + c], m[q * k + c]);
        m[p * k + c] = cos * x - sin * y;
        m[q * k + c] = sin * x + cos * y;
    }
}

/// A symmetric matrix of one of nine kinds: what a Ritz step meets first, then what it hardly ever does.
fn matrix(random: &mut Random, kind: u64, k: usize) -> [f64; LARGEST] {
    let mut m = [0.0; LARGEST];
    for p in 0..k {
        for q in p..k {
            let x = match kind {
                0 => random.unit(),
                1 if p == q => 1.0 - p as f64 / 40.0 + random.unit() / 1e3,
                1 => random.unit() / 1e6,
                2 => f64::from_bits(random.next()),
                3 => 0.0,
                4 if p == q => 1.0,
                4 => -0.0,
                5 => random.unit() * 1e300,
                6 => random.unit() * 1e-310,
                7 if random.next() % 8 == 0 => {
                    [f64::NAN, f64::INFINITY, f64::NEG_INFINITY][(random.next() % 3) as usize]
                }
                7 => random.unit(),
                _ => (random.next() % 3) as f64 - 1.0,
            };
            m[p * k + q] = x;
            m[q * k + p] = x;
        }
    }
    if kind == 8 {
        m[1] = 2.0; // not symmetric any more: only the place above the diagonal decides the turn
    }
    m
}

fn compare(random: &mut Random, kind: u64, k: usize) -> bool {
    let given = matrix(random, kind, k);
    let mut theirs = given;
    let mut ours = given;
    let mut columns = [7.0; LARGEST];
    let vectors = jacobi(&mut theirs[..k * k], k, f64::sqrt);
    // SAFETY: k is from 9 to 15, and both arrays are this function's own.
    unsafe { ritz_jacobi_eigen(k, &mut ours, &mut columns) };
    (0..LARGEST).all(|i| same(ours[i], theirs[i]))
        && (0..LARGEST).all(|i| same(columns[i], if i < k * k { vectors[i] } else { 0.0 }))
}

/// The fewest microseconds a matrix, of seven goes over all of them.
fn fastest(given: &[[f64; LARGEST]], solve: impl Fn(&mut [f64; LARGEST])) -> f64 {
    let mut best = f64::INFINITY;
    for _ in 0..7 {
        let start = Instant::now();
        for m in given {
            let mut own = *m;
            solve(&mut own);
            black_box(&own);
        }
        best = best.min(start.elapsed().as_secs_f64() / given.len() as f64 * 1e6);
    }
    best
}

fn show_times(random: &mut Random, k: usize, count: usize) {
    let given: Vec<[f64; LARGEST]> = (0..count).map(|_| matrix(random, 0, k)).collect();
    let ours = fastest(&given, |m| {
        let mut columns = [0.0; LARGEST];
        // SAFETY: as above.
        unsafe { ritz_jacobi_eigen(k, m, &mut columns) };
        black_box(&columns);
    });
    let theirs = fastest(&given, |m| {
        black_box(jacobi(&mut m[..k * k], k, f64::sqrt));
    });
    let with_our_root = fastest(&given, |m| {
        black_box(jacobi(&mut m[..k * k], k, our_root));
    });
    println!(
        "k={k} ritz={ours:.2}us rust={theirs:.2}us ratio={:.2} rust_with_our_root={with_our_root:.2}us root_share={:.0}%",
        ours / theirs,
        (with_our_root - theirs) / ours * 100.0
    );
}

fn main() -> ExitCode {
    let mut words = std::env::args().skip(1).map(|w| w.parse::<usize>().expect("a number"));
    let compared = words.next().unwrap_or(63_000);
    let timed = words.next().unwrap_or(2_000);
    let mut random = Random(0x9E37_79B9_7F4A_7C15);
    let mut equal = 0;
    for i in 0..compared {
        equal += usize::from(compare(&mut random, i as u64 % 9, 9 + i / 9 % 7));
    }
    println!("matrices={compared} same={equal}");
    for k in 9..=15 {
        show_times(&mut random, k, timed);
    }
    if equal == compared { ExitCode::SUCCESS } else { ExitCode::FAILURE }
}
