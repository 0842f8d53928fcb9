//! The long trial of threads: runs driven by 1, 2, 3 and 8 threads leave every list as the one call does, and the same state as one thread.

mod ring;

use std::ops::ControlFlow;
use std::process::ExitCode;
use std::time::Instant;

use ring::{first_difference, Ring};
use threshcinch::{spectral_embedding_in, Counts, Graph, Memory, Params, Refusal, Run, State};

const THREADS: [usize; 4] = [1, 2, 3, 8];
const LARGE: u32 = 200_000;
const USAGE: &str = "usage: same_bits [RUNS]   (1000 by default; a graph takes four runs, one for each number of threads)";

/// What is tried on one graph.
struct Trial {
    rows: u32,
    far: u32,
    salt: u64,
    dims: usize,
    rounds: u64,
    degree: u64,
}

impl Trial {
    /// Trial `number`: every 25th is large, the others go through 9,000 to 20,000 rows, three to five chunks.
    fn new(number: usize) -> Trial {
        let small = 9_000 + (number as u32).wrapping_mul(7_919) % 11_001;
        Trial {
            rows: if number % 25 == 24 { LARGE } else { small },
            far: 20 + number as u32 % 3_000,
            salt: number as u64,
            dims: 1 + number % 3,
            rounds: 1 + number as u64 % 2,
            degree: 2 + number as u64 % 2,
        }
    }
}

/// What the one call and a run by one thread leave.
struct Expected {
    memory: Memory,
    counts: Counts,
    state: State,
}

#[derive(Default)]
struct Tally {
    runs: usize,
    large: usize,
    stages: usize,
    differences: usize,
}

fn drive<'g>(graph: &Graph<'g>, dims: usize, params: Params, threads: usize, stages: &mut usize) -> Result<Run<'g>, Refusal> {
    let mut run = Run::open(graph, dims, params)?;
    run.drive(threads, |_| {
        *stages += 1;
        ControlFlow::Continue(())
    })?;
    Ok(run)
}

fn expect(graph: &Graph<'_>, dims: usize, params: Params) -> Result<Expected, Refusal> {
    let mut memory = Memory::for_graph(graph, dims, params)?;
    let counts = spectral_embedding_in(graph, dims, params, &mut memory)?;
    let state = *drive(graph, dims, params, 1, &mut 0)?.state();
    Ok(Expected { memory, counts, state })
}

/// What differs, if anything.
fn compare(run: &Run<'_>, expected: &Expected) -> Option<String> {
    if let Some(list) = first_difference(run.memory(), &expected.memory) {
        return Some(format!("list {list}"));
    }
    if !run.state().same_bits(&expected.state) {
        return Some("the state".into());
    }
    (run.state().counts != expected.counts).then(|| "the counts".into())
}

/// One graph, with each number of threads.
fn try_graph(number: usize, left: usize, tally: &mut Tally) -> Result<(), Refusal> {
    let trial = Trial::new(number);
    let ring = Ring::new(trial.rows, trial.far, trial.salt);
    let graph = ring.graph();
    let params = Params::new().rounds(trial.rounds)?.degree(trial.degree)?;
    let expected = expect(&graph, trial.dims, params)?;
    for threads in THREADS.into_iter().take(left) {
        let run = drive(&graph, trial.dims, params, threads, &mut tally.stages)?;
        tally.runs += 1;
        tally.large += usize::from(trial.rows == LARGE);
        if let Some(what) = compare(&run, &expected) {
            tally.differences += 1;
            println!("trial {number}, {} rows, {threads} threads: {what} differs", trial.rows);
        }
    }
    Ok(())
}

fn main() -> ExitCode {
    let words: Vec<String> = std::env::args().skip(1).collect();
    let runs: usize = match words.as_slice() {
        [] => 1000,
        [word] if word.parse::<usize>().is_ok_and(|runs| runs > 0) => word.parse().unwrap_or(1),
        _ => {
            eprintln!("{USAGE}");
            return ExitCode::from(2);
        }
    };
    let began = Instant::now();
    let mut tally = Tally::default();
    let refused =
        (0..).take_while(|number| 4 * number < runs).try_for_each(|number| try_graph(number, runs - 4 * number, &mut tally)).err();
    if let Some(refusal) = refused {
        println!("a call was refused: {refusal}");
        return ExitCode::FAILURE;
    }
    println!(
        "{} runs by 1, 2, 3 and 8 threads ({} of them over {LARGE} rows, {} stages): {} differ from the one call; {} s",
        tally.runs,
        tally.large,
        tally.stages,
        tally.differences,
        began.elapsed().as_secs()
    );
    ExitCode::from(u8::from(tally.differences != 0))
}
