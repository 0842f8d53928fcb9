//! The two sides on one graph, in turns.

use crate::graph::Graph;
use crate::held::{self, Part, Part::*};
use crate::library::{Counts, Lists, Memory, Params};
use crate::measure::{peak_if, stack_of};
use bench::same;
use judge::clock::{self, Laps};
use std::time::{Duration, Instant};

/// How often a graph is run: until its runs took so many seconds together or there were the most, and the least in any case.
#[derive(Clone, Copy)]
pub struct Limit {
    pub seconds: f64,
    pub most: usize,
}

impl Limit {
    pub const LEAST: usize = 2;
    /// The most, where nobody asked for longer.
    pub const MOST: usize = 15;

    fn goes_on(self, runs: usize, begun: Instant) -> bool {
        runs < Self::LEAST || runs < self.most && begun.elapsed().as_secs_f64() < self.seconds
    }
}

fn params(graph: &Graph) -> Params {
    let asked = &graph.request;
    Params { rounds: asked.rounds as u64, degree: asked.degree as u64, seed_std: asked.seed_std }
}

/// How long the work took: on one thread as `clock::now` tells it, on several by the clock on the wall.
fn seconds<R>(threads: usize, work: impl FnOnce() -> R) -> (R, f64) {
    let (wall, begun) = (Instant::now(), clock::now());
    let result = work();
    let spent = if threads == 1 { clock::now() - begun } else { wall.elapsed() };
    (result, spent.as_secs_f64())
}

/// The seed and how long it took.
type Run = (Vec<f64>, f64);

/// The library's work, begun on a fresh thread as document 000's is: the system places a fresh thread where there is room, and a thread
/// that has run for long may have to share its processor.
fn ours(graph: &Graph, threads: usize, work: impl FnOnce(&Lists) -> Counts + Send) -> Result<Run, String> {
    judge::on_threads(1, || {
        let mut memory = Memory::new(graph.request.d, graph);
        let (_, spent) = seconds(threads, || work(&Lists::new(graph, &mut memory)));
        (memory.output().to_vec(), spent)
    })
}

fn one_call(graph: &Graph) -> Result<Run, String> {
    ours(graph, 1, |lists| lists.embed(graph.request.d, params(graph)))
}

fn on_threads(graph: &Graph, threads: usize) -> Result<Run, String> {
    ours(graph, threads, |lists| {
        held::by_threads(graph.request.d, params(graph), graph.rows(), lists, threads)
    })
}

/// Document 000 on a pool of that many threads, and what it allocated at most, if that is to be counted. The pool is there before the clock
/// starts.
fn rust_counted(graph: &Graph, threads: usize, counted: bool) -> Result<(Run, usize), String> {
    let seed = || judge::seed_alone(&graph.request);
    let ((seed, peak), spent) = judge::on_threads(threads, || seconds(threads, || peak_if(counted, seed)))?;
    Ok(((seed?, spent), peak))
}

fn rust(graph: &Graph, threads: usize) -> Result<Run, String> {
    Ok(rust_counted(graph, threads, false)?.0)
}

fn same_seeds(a: &[f64], b: &[f64]) -> bool {
    a.len() == b.len() && a.iter().zip(b).all(|(&x, &y)| same(x, y))
}

/// Least times of the one call, the Rust on one thread, the held run on threads, the Rust on as many and the held run on one thread; and what
/// else was seen.
pub struct Whole {
    pub rows: usize,
    pub d: usize,
    pub entries: usize,
    pub least: [f64; 5],
    pub runs: usize,
    pub same: bool,
    /// Promise 2 holds, or nobody asked, as the seeds are the same.
    pub promised: bool,
    pub rust_peak: usize,
    pub lent: usize,
}

pub fn whole(graph: &Graph, threads: usize, limit: Limit) -> Result<Whole, String> {
    let d = graph.request.d;
    let mut seen = Whole {
        rows: graph.rows(),
        d,
        entries: graph.entries(),
        least: [f64::INFINITY; 5],
        runs: 0,
        same: true,
        promised: true,
        rust_peak: 0,
        lent: Memory::new(d, graph).bytes(),
    };
    let begun = Instant::now();
    while limit.goes_on(seen.runs, begun) {
        // What the Rust allocates is counted in the first turn, which costs it a little there.
        let (alone, peak) = rust_counted(graph, 1, seen.runs == 0)?;
        let (many, rayon) = (on_threads(graph, threads)?, rust(graph, threads)?);
        let turn = [one_call(graph)?, alone, many, rayon, on_threads(graph, 1)?];
        for (least, (seed, time)) in seen.least.iter_mut().zip(&turn) {
            *least = least.min(*time);
            seen.same &= same_seeds(seed, &turn[1].0);
        }
        seen.rust_peak = seen.rust_peak.max(peak);
        seen.runs += 1;
    }
    if !seen.same {
        seen.promised = promised(&judge::seed_timed(&graph.request)?.1, d);
    }
    Ok(seen)
}

/// The one call, the held run and the Rust, each once on one thread: whether all three have the same seed.
pub fn once(graph: &Graph) -> Result<bool, String> {
    let wanted = rust(graph, 1)?.0;
    Ok(same_seeds(&one_call(graph)?.0, &wanted) && same_seeds(&on_threads(graph, 1)?.0, &wanted))
}

/// The bytes of stack that the one call takes.
pub fn stack(graph: &Graph) -> usize {
    let mut memory = Memory::new(graph.request.d, graph);
    let lists = Lists::new(graph, &mut memory);
    stack_of(|| {
        lists.embed(graph.request.d, params(graph));
    })
}

/// Times stage by stage, in seconds, of the held run by one thread and of the timed copy on one thread. A stage comes many times in a run;
/// each time counts with its least over the runs, so that a moment of other work is left out.
pub struct ByStage {
    pub rows: usize,
    pub d: usize,
    pub entries: usize,
    pub stages: Vec<(&'static str, f64, f64)>,
    pub runs: usize,
    pub same: bool,
    pub promised: bool,
}

/// What the table has: our parts, and the Rust's lap. A stage stands with chunks and closing, but the products' closing is the Ritz step.
const STAGES: [(&str, &[Part], &[usize]); 15] = [
    ("opening", &[Opening], &[]),
    ("degrees, v0", &[Chunks(1), Closing(1), Chunks(3), Closing(3)], &[clock::DEGREES]),
    ("edges", &[Chunks(2), Closing(2)], &[clock::EDGES]),
    ("start block", &[Chunks(4), Closing(4)], &[clock::START]),
    ("filter passes", &[Chunks(5), Closing(5)], &[clock::FILTER]),
    ("norms", &[Chunks(6), Closing(6), Chunks(11), Closing(11)], &[clock::NORM]),
    ("dots", &[Chunks(7), Closing(7), Chunks(9), Closing(9)], &[clock::DOTS]),
    ("subtract", &[Chunks(8), Closing(8), Chunks(10), Closing(10)], &[clock::SUBTRACT]),
    ("write", &[Chunks(12), Closing(12)], &[clock::WRITE]),
    ("plain pass", &[Chunks(13), Closing(13)], &[clock::PLAIN]),
    ("products", &[Chunks(14)], &[clock::PRODUCTS]),
    ("Ritz step", &[Closing(14)], &[clock::RITZ]),
    ("rotate, unscale", &[Chunks(15), Closing(15)], &[clock::ROTATE]),
    ("sums, centre", &[Chunks(16), Closing(16), Chunks(17), Closing(17)], &[clock::CENTRE]),
    ("squares, scale", &[Chunks(18), Closing(18), Chunks(19), Closing(19)], &[clock::SCALE]),
];

/// The least of each time; the same parts come in the same order in every run.
fn keep_least<P: Copy + PartialEq>(least: &mut Vec<(P, Duration)>, run: Vec<(P, Duration)>) {
    if least.is_empty() {
        *least = run;
        return;
    }
    assert!(
        least.len() == run.len() && least.iter().zip(&run).all(|(a, b)| a.0 == b.0),
        "runs differ in their stages"
    );
    least.iter_mut().zip(run).for_each(|(a, b)| a.1 = a.1.min(b.1));
}

fn sum_of<P: Copy + PartialEq>(times: &[(P, Duration)], parts: &[P]) -> f64 {
    times
        .iter()
        .filter(|(part, _)| parts.contains(part))
        .map(|(_, time)| time)
        .sum::<Duration>()
        .as_secs_f64()
}

/// Promise 2 holds: no Ritz value is NaN, and the last round's first D + 1 fall. No row of these graphs names a column twice.
fn promised(laps: &Laps, d: usize) -> bool {
    let nan = laps.ritz.iter().flatten().any(|value| value.is_nan());
    !nan && laps.ritz.last().is_some_and(|last| last[..=d].windows(2).all(|two| two[0] > two[1]))
}

/// The held run's record has every round's Ritz values, behind the bound; the timed copy keeps no bounds.
fn same_values(record: &[f64], d: usize, ritz: &[Vec<f64>]) -> bool {
    let rounds = record.chunks(d + judge::OVERSAMPLE + 1);
    rounds.len() == ritz.len() && rounds.zip(ritz).all(|(round, values)| same_seeds(&round[1..], values))
}

pub fn by_stage(graph: &Graph, limit: Limit) -> Result<ByStage, String> {
    let d = graph.request.d;
    let wanted = rust(graph, 1)?.0;
    let (rows, entries) = (graph.rows(), graph.entries());
    let mut seen = ByStage { rows, d, entries, stages: Vec::new(), runs: 0, same: true, promised: true };
    let (mut ours, mut theirs) = (Vec::new(), Vec::new());
    let begun = Instant::now();
    while limit.goes_on(seen.runs, begun) {
        let mut memory = Memory::new(d, graph);
        let lists = Lists::new(graph, &mut memory);
        keep_least(&mut ours, judge::on_threads(1, || held::timed(d, params(graph), rows, &lists))?);
        let (seed, mut laps) = judge::on_threads(1, || judge::seed_timed(&graph.request))??;
        keep_least(&mut theirs, std::mem::take(&mut laps.laps));
        seen.same &= same_seeds(&seed, &wanted) && same_seeds(memory.output(), &wanted);
        seen.same &= same_values(memory.ritz_record(), d, &laps.ritz);
        seen.promised &= promised(&laps, d);
        seen.runs += 1;
    }
    seen.stages =
        STAGES.map(|(name, parts, laps)| (name, sum_of(&ours, parts), sum_of(&theirs, laps))).to_vec();
    Ok(seen)
}
