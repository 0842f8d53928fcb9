//! The sparse pass at each width beside a Rust kernel of the same arithmetic: [rows entries runs].
//!
//! Times `rows_matvec_combine` of the archive `librows.a` beside a kernel of the same arithmetic in Rust, on the same arrays and one
//! thread, and compares what they write bit for bit.

use bench::Random;
use std::hint::black_box;
use std::process::ExitCode;
use std::time::Instant;

#[link(name = "rows", kind = "static")]
unsafe extern "C" {
    fn rows_matvec_combine(
        n: usize,
        k: usize,
        mul_mv: f64,
        mul_v: f64,
        mul_prev: f64,
        first: usize,
        end: usize,
        starts: *const u64,
        starts_len: usize,
        edge_columns: *const u32,
        edge_columns_len: usize,
        edge_weights: *const f64,
        edge_weights_len: usize,
        inverse: *const f64,
        inverse_len: usize,
        v: *const f64,
        v_len: usize,
        prev: *const f64,
        prev_len: usize,
        out: *mut f64,
        out_len: usize,
    );
}

struct Graph {
    starts: Vec<u64>,
    columns: Vec<u32>,
    weights: Vec<f64>,
    inverse: Vec<f64>,
}

/// A neighbour graph: most entries of a row name rows near it, one in ten any row; columns rise.
fn neighbours(n: usize, each: usize, random: &mut Random) -> Graph {
    let (mut starts, mut columns) = (vec![0u64], Vec::with_capacity(n * each));
    for i in 0..n {
        let mut row: Vec<u32> = (0..each)
            .map(|_| {
                let near = (i as u64 + random.next() % 4096).saturating_sub(2048) as usize;
                let any = (random.next() % n as u64) as usize;
                (if random.next() % 10 == 0 { any } else { near.min(n - 1) }) as u32
            })
            .collect();
        row.sort_unstable();
        columns.extend(row);
        starts.push(columns.len() as u64);
    }
    let weights = columns.iter().map(|_| random.unit() + 0.5).collect();
    let inverse = (0..n).map(|_| random.unit() + 0.75).collect();
    Graph { starts, columns, weights, inverse }
}

impl Graph {
    /// What the archive's function requires of its caller.
    fn holds(&self, n: usize) -> bool {
        self.starts.len() == n + 1
            && self.starts.windows(2).all(|w| w[0] <= w[1])
            && self.starts[n] as usize <= self.columns.len().min(self.weights.len())
            && self.columns.iter().all(|&c| (c as usize) < n)
            && self.inverse.len() == n
    }
}

/// The numbers by which a pass multiplies: of the operator's result, of v and of the block before it.
type By = [f64; 3];

/// Rows of W numbers, W known to the compiler.
fn rust_pass<const W: usize>(g: &Graph, by: By, v: &[f64], prev: &[f64], out: &mut [f64]) {
    let (v, _) = v.as_chunks::<W>();
    let (prev, _) = prev.as_chunks::<W>();
    let (out, _) = out.as_chunks_mut::<W>();
    for (i, to) in out.iter_mut().enumerate() {
        let mut acc = [0.0f64; W];
        for e in g.starts[i] as usize..g.starts[i + 1] as usize {
            let from = &v[g.columns[e] as usize];
            let weight = g.weights[e];
            for c in 0..W {
                acc[c] += weight * from[c];
            }
        }
        let (x, before, inverse) = (&v[i], &prev[i], g.inverse[i]);
        for c in 0..W {
            let mv = 0.5 * (x[c] + inverse * acc[c]);
            to[c] = by[0] * mv + by[1] * x[c] + by[2] * before[c];
        }
    }
}

/// The same by the archive, chunk by chunk.
fn proved_pass(k: usize, g: &Graph, by: By, v: &[f64], prev: &[f64], out: &mut [f64]) {
    let n = g.inverse.len();
    let mut first = 0;
    while first < n {
        let end = (first + 4096).min(n);
        // What it requires: `holds`, blocks of n x k numbers, k from 9 to 15, and first <= end <= n.
        unsafe {
            rows_matvec_combine(
                n,
                k,
                by[0],
                by[1],
                by[2],
                first,
                end,
                g.starts.as_ptr(),
                g.starts.len(),
                g.columns.as_ptr(),
                g.columns.len(),
                g.weights.as_ptr(),
                g.weights.len(),
                g.inverse.as_ptr(),
                g.inverse.len(),
                v.as_ptr(),
                v.len(),
                prev.as_ptr(),
                prev.len(),
                out.as_mut_ptr(),
                out.len(),
            );
        }
        first = end;
    }
}

fn seconds(work: impl FnOnce()) -> f64 {
    let begun = Instant::now();
    work();
    begun.elapsed().as_secs_f64()
}

fn median(times: &mut [f64]) -> f64 {
    times.sort_by(f64::total_cmp);
    times[times.len() / 2]
}

/// One width: whether both wrote the same bits.
fn width<const W: usize>(g: &Graph, runs: usize, random: &mut Random) -> bool {
    let n = g.inverse.len();
    let v: Vec<f64> = (0..n * W).map(|_| random.unit()).collect();
    let prev: Vec<f64> = (0..n * W).map(|_| random.unit()).collect();
    let (mut a, mut b) = (vec![0.0; n * W], vec![1.0; n * W]);
    let by = [2.75, -0.5625, -0.3125];
    let (mut rust, mut proved) = (Vec::new(), Vec::new());
    for _ in 0..runs {
        rust.push(seconds(|| rust_pass::<W>(g, by, black_box(&v), black_box(&prev), black_box(&mut a))));
        proved.push(seconds(|| proved_pass(W, g, by, black_box(&v), black_box(&prev), black_box(&mut b))));
    }
    let same = a.iter().zip(&b).all(|(x, y)| x.to_bits() == y.to_bits());
    let (r, p) = (median(&mut rust), median(&mut proved));
    println!(
        "k={W:2} rust {:7.2} ms, proved {:7.2} ms, ratio {:.3} (of the least {:.3}), same bits {same}",
        r * 1e3,
        p * 1e3,
        p / r,
        proved[0] / rust[0]
    );
    same
}

fn main() -> ExitCode {
    let words: Vec<usize> = std::env::args().skip(1).map(|w| w.parse().expect("a whole number")).collect();
    let word = |i: usize, other: usize| words.get(i).copied().unwrap_or(other);
    let (n, each, runs) = (word(0, 70_000), word(1, 90), word(2, 15));
    let mut random = Random(0x9E37_79B9_7F4A_7C15);
    let g = neighbours(n, each, &mut random);
    assert!(g.holds(n));
    println!("{n} rows, {each} entries a row, {runs} runs, one thread");
    let same = [
        width::<9>(&g, runs, &mut random),
        width::<10>(&g, runs, &mut random),
        width::<11>(&g, runs, &mut random),
        width::<12>(&g, runs, &mut random),
        width::<13>(&g, runs, &mut random),
        width::<14>(&g, runs, &mut random),
        width::<15>(&g, runs, &mut random),
    ];
    if same.iter().all(|&s| s) { ExitCode::SUCCESS } else { ExitCode::FAILURE }
}
