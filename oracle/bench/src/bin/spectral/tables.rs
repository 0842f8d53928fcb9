//! What the benchmark prints.

use crate::sides::{ByStage, Limit, Whole};

pub struct Tables {
    /// The last size of each D, for how time grows from it to the next.
    before: Vec<Whole>,
    all: Vec<Whole>,
    same: bool,
}

fn milliseconds(seconds: f64) -> f64 {
    seconds * 1e3
}

fn mebibytes(bytes: usize) -> f64 {
    bytes as f64 / f64::from(1 << 20)
}

/// Outside promise 2 (a Ritz value is NaN, or the last ones do not fall) a difference is told and not held against either side.
fn note(same: bool, promised: bool) -> &'static str {
    match (same, promised) {
        (true, _) => "",
        (false, true) => "  DIFFERENT BITS",
        (false, false) => "  different bits, outside promise 2",
    }
}

impl Tables {
    pub fn new(limit: Limit) -> Tables {
        println!(
            "5 rounds of degree 20, 30 entries a row, columns rising; least of {} to {} runs, the sides in turns",
            Limit::LEAST,
            limit.most
        );
        Tables { before: Vec::new(), all: Vec::new(), same: true }
    }

    pub fn wholes_begin(&self, threads: usize) {
        println!(
            "goal: at most 0.90 of the Rust's time on one thread, at most 1.00 on two; the held run on one thread at most 1.05 of the one call"
        );
        println!();
        println!(
            "                  one call, 1 thread (ms)      held run, {threads} threads (ms)     held run, 1 thread  1 thread, ns an entry"
        );
        println!(
            "{:>7} {:>2} {:>5} {:>9} {:>9} {:>6}   {:>9} {:>9} {:>6}   {:>9} {:>8}   {:>9} {:>9}  grows as entries to the",
            "rows",
            "D",
            "runs",
            "ours",
            "rust",
            "ratio",
            "ours",
            "rust",
            "ratio",
            "ours",
            "one call",
            "ours",
            "rust"
        );
    }

    pub fn same(&self) -> bool {
        self.same
    }

    pub fn whole(&mut self, seen: Whole) {
        let [one, rust, many, rayon, held] = seen.least;
        let each = |time: f64| time * 1e9 / seen.entries as f64;
        print!(
            "{:>7} {:>2} {:>5} {:>9.1} {:>9.1} {:>6.2}   {:>9.1} {:>9.1} {:>6.2}   {:>9.1} {:>8.3}   {:>9.1} {:>9.1}",
            seen.rows,
            seen.d,
            seen.runs,
            milliseconds(one),
            milliseconds(rust),
            one / rust,
            milliseconds(many),
            milliseconds(rayon),
            many / rayon,
            milliseconds(held),
            held / one,
            each(one),
            each(rust),
        );
        let at = self.before.iter().position(|w| w.d == seen.d);
        if let Some(last) = at.map(|at| self.before.swap_remove(at)) {
            let more = (seen.entries as f64 / last.entries as f64).ln();
            let power = |now: f64, then: f64| (now / then).ln() / more;
            print!("  {:.2} ours, {:.2} rust", power(one, last.least[0]), power(rust, last.least[1]));
            self.all.push(last);
        }
        println!("{}", note(seen.same, seen.promised));
        self.same &= seen.same || !seen.promised;
        self.before.push(seen);
    }

    /// After all the wholes: what each side takes besides the graph.
    pub fn memory(&mut self, stack: usize, measured_at: usize) {
        self.all.append(&mut self.before);
        self.all.sort_by_key(|seen| (seen.rows, seen.d));
        println!();
        println!(
            "memory beside the graph (MiB): ours with the one call's stack ({stack} bytes on {measured_at} shuffled rows), rust's without its stack"
        );
        println!("{:>7} {:>2} {:>10} {:>16} {:>6}", "rows", "D", "ours, lent", "rust, allocated", "ratio");
        for seen in &self.all {
            let (ours, rust) = (mebibytes(seen.lent + stack), mebibytes(seen.rust_peak));
            println!("{:>7} {:>2} {ours:>10.2} {rust:>16.2} {:>6.2}", seen.rows, seen.d, ours / rust);
        }
    }

    pub fn stages(&mut self, seen: &ByStage) {
        println!();
        println!(
            "stage by stage, {} rows, D {}, 1 thread, each call's least of {} runs (ms)",
            seen.rows, seen.d, seen.runs
        );
        let total = |side: fn(&(&str, f64, f64)) -> f64| seen.stages.iter().map(side).sum::<f64>();
        let (ours, rust) = (total(|s| s.1), total(|s| s.2));
        println!("{:>16} {:>9} {:>6} {:>9} {:>6} {:>6}", "stage", "ours", "share", "rust", "share", "ratio");
        let line = |name: &str, a: f64, b: f64| {
            let ratio = if b > 0.0 { format!("{:.2}", a / b) } else { "-".to_owned() };
            let (of_ours, of_rust) = (100.0 * a / ours, 100.0 * b / rust);
            println!(
                "{name:>16} {:>9.2} {of_ours:>5.1}% {:>9.2} {of_rust:>5.1}% {ratio:>6}",
                milliseconds(a),
                milliseconds(b)
            );
        };
        seen.stages.iter().for_each(|&(name, a, b)| line(name, a, b));
        line("all", ours, rust);
        let note = self.compared(seen);
        if !note.is_empty() {
            println!("{note}");
        }
    }

    fn compared(&mut self, seen: &ByStage) -> &'static str {
        self.same &= seen.same || !seen.promised;
        note(seen.same, seen.promised)
    }

    pub fn orders_begin(&self, rows: usize) {
        println!();
        println!(
            "the edges stage by the order in which rows have their columns, {rows} rows, D 2, 1 thread (ns an entry)"
        );
        println!("{:>12} {:>9} {:>9} {:>6}", "order", "ours", "rust", "ratio");
    }

    pub fn order(&mut self, name: &str, seen: &ByStage) {
        let each = |time: f64| time * 1e9 / seen.entries as f64;
        let note = self.compared(seen);
        for &(_, a, b) in seen.stages.iter().filter(|stage| stage.0 == "edges") {
            println!("{name:>12} {:>9.2} {:>9.2} {:>6.2}{note}", each(a), each(b), a / b);
        }
    }
}
