//! Document 01's cases 6 to 9, each refusal and its place; then a valid request of 1,000,000 rows, 30,000,000 entries.
//!
//! Document 01's cases 6 to 9 and each refusal's place, by the exports of `input`; then the time of the
//! test of a valid request of 1,000,000 rows and 30,000,000 entries.

use std::{process::ExitCode, time::Instant};

#[repr(C)]
#[derive(Clone, Copy)]
struct SpectralParams {
    rounds: u64,
    degree: u64,
    seed_std: f64,
}

#[repr(C)]
#[derive(Clone, Copy, PartialEq, Debug)]
struct Verdict {
    number: u64,
    place: u64,
}

#[repr(C)]
#[derive(Clone, Copy)]
struct Lent {
    lengths: [usize; 11],
}

// A slice crosses as two arguments, its pointer and its length.
#[link(name = "input", kind = "static")]
unsafe extern "C" {
    safe fn input_chunk_count(n: usize) -> usize;
    fn input_test_request(
        d: u64,
        params: SpectralParams,
        starts: *const u64,
        starts_len: usize,
        columns: *const u32,
        columns_len: usize,
        values: *const f64,
        values_len: usize,
        lent: Lent,
    ) -> Verdict;
}

const DEFAULTS: SpectralParams = SpectralParams { rounds: 5, degree: 20, seed_std: 1e-4 };

/// A request; each check changes one thing of a valid one.
#[derive(Clone)]
struct Request {
    d: u64,
    params: SpectralParams,
    starts: Vec<u64>,
    columns: Vec<u32>,
    values: Vec<f64>,
    lent: Lent,
}

fn sizes(d: usize, rounds: usize, n: usize, m: usize) -> Lent {
    let k = d + 8;
    let chunks = n.div_ceil(4096);
    Lent { lengths: [n, n, m, m, n * k, n * k, n * k, chunks * k * k, chunks, n * d, rounds * (k + 1)] }
}

impl Request {
    fn new(d: usize, starts: Vec<u64>, columns: Vec<u32>, values: Vec<f64>) -> Self {
        let lent = sizes(d, DEFAULTS.rounds as usize, starts.len() - 1, columns.len());
        Self { d: d as u64, params: DEFAULTS, starts, columns, values, lent }
    }

    fn tested(&self) -> Verdict {
        let Self { d, params, starts, columns, values, lent } = self;
        // SAFETY: each pointer and length are one slice's, borrowed for the call; nothing is written.
        unsafe {
            input_test_request(
                *d,
                *params,
                starts.as_ptr(),
                starts.len(),
                columns.as_ptr(),
                columns.len(),
                values.as_ptr(),
                values.len(),
                *lent,
            )
        }
    }

    fn with(&self, change: impl FnOnce(&mut Self)) -> Verdict {
        let mut changed = self.clone();
        change(&mut changed);
        changed.tested()
    }
}

/// Counts the answers that differ from document 01's.
struct Tally {
    tried: u32,
    wrong: u32,
}

impl Tally {
    fn expect<T: PartialEq + std::fmt::Debug>(&mut self, what: &str, got: T, want: T) {
        self.tried += 1;
        if got != want {
            self.wrong += 1;
            println!("WRONG {what}: got {got:?}, want {want:?}");
        }
    }

    fn verdict(&mut self, what: &str, got: Verdict, number: u64, place: u64) {
        self.expect(what, got, Verdict { number, place });
    }
}

fn cases(tally: &mut Tally) {
    for (n, chunks) in [(1, 1), (4096, 1), (4097, 2), (0, 0), (usize::MAX, (1 << 52))] {
        tally.expect("case 6: chunks", input_chunk_count(n), chunks);
    }
    let falling = Request::new(1, vec![0, 2, 1], vec![0], vec![1.0]);
    tally.verdict("case 7: starts 0,2,1", falling.tested(), 5, 2);
    let nan = Request::new(1, vec![0, 1], vec![1], vec![f64::NAN]);
    tally.verdict("case 8: column 1, value NaN", nan.tested(), 6, 0);
    tally.verdict("case 8: column 0", nan.with(|r| r.columns[0] = 0), 7, 0);
    // Case 9 asks for memory that is long enough for the most rounds.
    let mut one = Request::new(1, vec![0, 1], vec![0], vec![1.0]);
    one.lent = sizes(1, 1000, 1, 1);
    for (rounds, number) in [(0, 8), (1, 0), (1000, 0), (1001, 8)] {
        tally.verdict("case 9: rounds", one.with(|r| r.params.rounds = rounds), number, 0);
    }
}

/// Each refusal by itself, with the places that more than one can have.
fn refusals(tally: &mut Tally) {
    let valid = Request::new(3, vec![0, 2, 2, 3], vec![0, 2, 1], vec![0.5, -1.0, 0.0]);
    tally.verdict("valid", valid.tested(), 0, 0);
    for (d, number) in [(0, 1), (8, 1), (u64::MAX, 1)] {
        tally.verdict("1: D", valid.with(|r| r.d = d), number, 0);
    }
    for starts in [vec![], vec![0]] {
        tally.verdict("2: rows", valid.with(|r| r.starts = starts), 2, 0);
    }
    tally.verdict("3: rows", valid.with(|r| r.starts = vec![0; 1_048_578]), 3, 0);
    tally.verdict("3: entries", valid.with(|r| r.columns = vec![0; 67_108_865]), 3, 0);
    tally.verdict("4: lengths", valid.with(|r| r.values.push(1.0)), 4, 0);
    tally.verdict("5: first start", valid.with(|r| r.starts[0] = 1), 5, 0);
    tally.verdict("5: falling start", valid.with(|r| r.starts[2] = 1), 5, 2);
    tally.verdict("5: last start", valid.with(|r| r.starts[3] = 4), 5, 3);
    tally.verdict("6: column", valid.with(|r| r.columns[2] = 3), 6, 2);
    for value in [f64::NAN, f64::INFINITY, f64::NEG_INFINITY] {
        tally.verdict("7: value", valid.with(|r| r.values[1] = value), 7, 1);
    }
    for (degree, number) in [(0, 9), (1, 0), (1000, 0), (1001, 9)] {
        tally.verdict("9: degree", valid.with(|r| r.params.degree = degree), number, 0);
    }
    for (std, number) in
        [(0.0, 10), (-0.0, 10), (-1.0, 10), (f64::NAN, 10), (f64::INFINITY, 10), (f64::MAX, 0), (5e-324, 0)]
    {
        tally.verdict("10: seed_std", valid.with(|r| r.params.seed_std = std), number, 0);
    }
    for j in 0..11 {
        tally.verdict("11: lent", valid.with(|r| r.lent.lengths[j] -= 1), 11, j as u64);
        tally.verdict("11: longer", valid.with(|r| r.lent.lengths[j] += 1), 0, 0);
    }
    tally.verdict("11: no Ritz record", valid.with(|r| r.lent.lengths[10] = 0), 11, 10);
    tally.verdict("11: one round more", valid.with(|r| r.params.rounds += 1), 11, 10);
    tally.verdict("11: one round less", valid.with(|r| r.params.rounds -= 1), 0, 0);
}

/// The three scans of a valid request in plain Rust, to compare with.
fn scanned(request: &Request) -> Verdict {
    let n = request.starts.len() - 1;
    let found = if let Some(i) = request.starts.windows(2).position(|pair| pair[1] < pair[0]) {
        (5, i + 1)
    } else if let Some(e) = request.columns.iter().position(|&column| n <= column as usize) {
        (6, e)
    } else if let Some(e) = request.values.iter().position(|value| !value.is_finite()) {
        (7, e)
    } else {
        (0, 0)
    };
    Verdict { number: found.0, place: found.1 as u64 }
}

/// Prints the best and the middle of 15 times.
fn time(what: &str, request: &Request, tested: impl Fn(&Request) -> Verdict) {
    let mut times: Vec<f64> = (0..15)
        .map(|_| {
            let begun = Instant::now();
            let verdict = std::hint::black_box(tested(std::hint::black_box(request)));
            assert_eq!(verdict, Verdict { number: 0, place: 0 });
            begun.elapsed().as_secs_f64() * 1e3
        })
        .collect();
    times.sort_by(f64::total_cmp);
    println!("{what}: best {:.1} ms, middle {:.1} ms", times[0], times[times.len() / 2]);
}

fn main() -> ExitCode {
    let mut tally = Tally { tried: 0, wrong: 0 };
    cases(&mut tally);
    refusals(&mut tally);
    println!("answers: {} tried, {} wrong", tally.tried, tally.wrong);
    let (n, each) = (1_000_000usize, 30usize);
    let starts = (0..=n).map(|i| (i * each) as u64).collect();
    let columns = (0..n * each).map(|e| (e.wrapping_mul(2_654_435_761) % n) as u32).collect();
    let values = (0..n * each).map(|e| 1.0 / (1 + e % 97) as f64).collect();
    let request = Request::new(2, starts, columns, values);
    println!("{n} rows, {} entries", n * each);
    time("test_request", &request, Request::tested);
    time("plain Rust's three scans", &request, scanned);
    if tally.wrong == 0 { ExitCode::SUCCESS } else { ExitCode::FAILURE }
}
