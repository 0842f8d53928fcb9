//! The edges of rows of 30 to 1,000,000 entries beside Rust's stable sort of (column, weight) pairs.
//!
//! Times `edges_edges_chunk` of the archive `libedges.a` beside Rust's stable sort of (column, weight) pairs.
//!
//! The pairs are built as document 000 builds a row: collect, sort by column, write two arrays; its sort alone is shown too.
//! What both write is compared bit for bit, a NaN with any NaN. A time is the least of many turns, in nanoseconds an entry.

use bench::Random;
use std::process::ExitCode;
use std::time::Instant;

#[link(name = "edges", kind = "static")]
unsafe extern "C" {
    fn edges_edges_chunk(
        first: usize,
        end: usize,
        starts: *const u64,
        starts_len: usize,
        columns: *const u32,
        columns_len: usize,
        values: *const f64,
        values_len: usize,
        inverse: *const f64,
        inverse_len: usize,
        edge_columns: *mut u32,
        edge_columns_len: usize,
        edge_weights: *mut f64,
        edge_weights_len: usize,
    );
}

/// Rows of one length, with random values; every column is below the number of inverse weights.
struct Graph {
    starts: Vec<u64>,
    columns: Vec<u32>,
    values: Vec<f64>,
    inverse: Vec<f64>,
}

struct Edges {
    columns: Vec<u32>,
    weights: Vec<f64>,
}

#[derive(Clone, Copy)]
enum Shape {
    InOrder,
    Falling,
    Random,
    Ties,
    Pipe,
    Runs,
}

const SHAPES: [(Shape, &str); 6] = [
    (Shape::InOrder, "in order"),
    (Shape::Falling, "falling"),
    (Shape::Random, "random"),
    (Shape::Ties, "8 columns"),
    (Shape::Pipe, "up, down"),
    (Shape::Runs, "two runs"),
];

fn graph(rows: usize, length: usize, shape: Shape, random: &mut Random) -> Graph {
    let nodes = 1usize << 20;
    let mut columns = Vec::with_capacity(rows * length);
    for _ in 0..rows {
        let mut row: Vec<u32> = match shape {
            Shape::Random => (0..length).map(|_| (random.next() % nodes as u64) as u32).collect(),
            Shape::Ties => (0..length).map(|_| (random.next() % 8) as u32).collect(),
            Shape::Pipe => (0..length).map(|p| p.min(length - 1 - p) as u32).collect(),
            Shape::Runs => (0..length).map(|p| (p % (length / 2)) as u32).collect(),
            _ => (0..length).map(|p| (p * (nodes / length)) as u32).collect(),
        };
        if matches!(shape, Shape::Falling) {
            row.reverse();
        }
        columns.extend(row);
    }
    Graph {
        starts: (0..=rows).map(|i| (i * length) as u64).collect(),
        columns,
        values: (0..rows * length).map(|_| (random.next() >> 12) as f64).collect(),
        inverse: (0..nodes).map(|i| 1.0 / (i + 1) as f64).collect(),
    }
}

impl Edges {
    fn room(g: &Graph) -> Edges {
        Edges { columns: vec![0; g.columns.len()], weights: vec![0.0; g.columns.len()] }
    }

    fn same(&self, other: &Edges) -> bool {
        let bits = |x: f64| if x.is_nan() { f64::NAN.to_bits() } else { x.to_bits() };
        self.columns == other.columns
            && self.weights.iter().zip(&other.weights).all(|(a, b)| bits(*a) == bits(*b))
    }
}

fn rattle(g: &Graph, out: &mut Edges) {
    let rows = g.starts.len() - 1;
    // SAFETY: the starts rise from 0 to the number of columns, every list has that many, and every column is below the number of
    // inverse weights.
    unsafe {
        edges_edges_chunk(
            0,
            rows,
            g.starts.as_ptr(),
            g.starts.len(),
            g.columns.as_ptr(),
            g.columns.len(),
            g.values.as_ptr(),
            g.values.len(),
            g.inverse.as_ptr(),
            g.inverse.len(),
            out.columns.as_mut_ptr(),
            out.columns.len(),
            out.weights.as_mut_ptr(),
            out.weights.len(),
        );
    }
}

fn pairs(g: &Graph, a: usize, e: usize) -> Vec<(u32, f64)> {
    let (columns, values) = (&g.columns[a..e], &g.values[a..e]);
    columns.iter().zip(values).map(|(&c, &v)| (c, v * g.inverse[c as usize])).collect()
}

fn rust(g: &Graph, out: &mut Edges) {
    for row in g.starts.windows(2) {
        let (a, e) = (row[0] as usize, row[1] as usize);
        let mut row = pairs(g, a, e);
        row.sort_by_key(|&(c, _)| c);
        for (p, &(c, w)) in row.iter().enumerate() {
            out.columns[a + p] = c;
            out.weights[a + p] = w;
        }
    }
}

fn timed(mut work: impl FnMut()) -> f64 {
    let start = Instant::now();
    work();
    start.elapsed().as_secs_f64()
}

/// Rust's sort alone: the pairs are collected outside the time, and nothing is written after it.
fn sort_alone(g: &Graph) -> f64 {
    let mut rows: Vec<_> =
        g.starts.windows(2).map(|row| pairs(g, row[0] as usize, row[1] as usize)).collect();
    timed(|| rows.iter_mut().for_each(|row| row.sort_by_key(|&(c, _)| c)))
}

fn main() -> ExitCode {
    let mut random = Random(0x9e37_79b9_7f4a_7c15);
    let mut differ = false;
    println!(
        "{:>9} {:>10} {:>9} {:>9} {:>9} {:>7} {:>7}",
        "entries", "shape", "edges", "rust", "its sort", "ratio", "to sort"
    );
    for (rows, length, turns) in [(400, 30, 1_500), (40, 300, 1_000), (12, 1_000, 1_000), (1, 1_000_000, 9)] {
        for (shape, name) in SHAPES {
            let g = graph(rows, length, shape, &mut random);
            let entries = rows * length;
            let (mut ours, mut theirs) = (Edges::room(&g), Edges::room(&g));
            // The three take turns, so that whatever else the machine does falls on each alike.
            let mut least = [f64::MAX; 3];
            for _ in 0..turns {
                least[0] = least[0].min(timed(|| rattle(&g, &mut ours)));
                least[1] = least[1].min(timed(|| rust(&g, &mut theirs)));
                least[2] = least[2].min(sort_alone(&g));
            }
            let [a, b, c] = least.map(|seconds| seconds * 1e9 / entries as f64);
            let same = ours.same(&theirs);
            differ |= !same;
            let note = if same { "" } else { "  DIFFERENT" };
            println!("{length:>9} {name:>10} {a:>9.2} {b:>9.2} {c:>9.2} {:>7.2} {:>7.2}{note}", a / b, a / c);
        }
    }
    if differ { ExitCode::FAILURE } else { ExitCode::SUCCESS }
}
