//! The one call, and the held run on threads, beside document 000 and rayon: [--quick] and other words.
//!
//! Both compute the seed of the same graphs at the default parameters. Seeds are compared bit for bit, a NaN with any NaN, and a difference
//! where promise 2 holds ends with status 1. Times are shown and never judged: the least of some runs, the two sides in turns. Each run
//! gets memory that is as fresh as the allocator has it, since document 000 takes its own within the call.
//!
//! Words:
//! --quick           graphs of at most 10,000 rows
//! --seconds N       goes on with a graph for so long, up to 1,000 runs, where it is 3 seconds (1.5 with --quick) and 15 runs: on a machine
//!                   that others use too, the least of many runs tells more
//! --threads N       so many threads on both sides, where several are compared; 2 if not said
//! --cpu             times on one thread are its processor time, for a machine that does other work besides
//! --stages ROWS D   one graph, stage by stage, and nothing else
//! --once ROWS D     document 000, the one call and the held run, each once on one thread, for a tool that counts instructions

mod graph;
mod held;
mod library;
mod measure;
mod sides;
mod tables;

use graph::{Graph, Order, neighbours};
use sides::Limit;
use std::process::ExitCode;
use tables::Tables;

/// Which graphs, how often, and which of them stage by stage.
struct Plan {
    sizes: &'static [usize],
    dims: &'static [usize],
    /// For how long a graph is run again, where nobody said.
    seconds: f64,
    by_stage: &'static [(usize, usize)],
    orders_at: usize,
}

const WHOLE: Plan = Plan {
    sizes: &[1_000, 4_096, 10_000, 50_000, 200_000],
    dims: &[2, 3],
    seconds: 3.0,
    by_stage: &[(4_096, 2), (50_000, 2), (50_000, 3), (200_000, 2)],
    orders_at: 50_000,
};

const QUICK: Plan = Plan {
    sizes: &[1_000, 4_096, 10_000],
    dims: &[2, 3],
    seconds: 1.5,
    by_stage: &[(4_096, 2), (10_000, 2)],
    orders_at: 10_000,
};

/// The graph on which the one call's stack is measured: two chunks, and rows that must be sorted.
const STACK_AT: usize = 4_098;

struct Words {
    plan: &'static Plan,
    seconds: Option<usize>,
    threads: usize,
    /// Rows and D, where only that graph is asked for.
    stages: Option<(usize, usize)>,
    once: Option<(usize, usize)>,
}

fn words() -> Option<Words> {
    let mut read = Words { plan: &WHOLE, seconds: None, threads: 2, stages: None, once: None };
    let mut words = std::env::args().skip(1);
    while let Some(word) = words.next() {
        let mut number =
            |least: usize, most: usize| words.next()?.parse().ok().filter(|n| (least..=most).contains(n));
        match word.as_str() {
            "--quick" => read.plan = &QUICK,
            "--cpu" => judge::clock::by_processor(),
            "--seconds" => read.seconds = Some(number(1, 3_600)?),
            "--threads" => read.threads = number(1, 256)?,
            "--stages" => read.stages = Some((number(1_000, 1 << 20)?, number(1, 7)?)),
            "--once" => read.once = Some((number(1_000, 1 << 20)?, number(1, 7)?)),
            _ => return None,
        }
    }
    let odd = |asked: Option<(usize, usize)>| asked.is_some_and(|(rows, _)| rows % 2 == 1);
    if odd(read.stages) || odd(read.once) {
        return None;
    }
    Some(read)
}

fn graph_of(rows: usize, d: usize, order: Order) -> Graph {
    let mut graph = neighbours(rows, order);
    graph.request.d = d;
    graph
}

fn run_once(rows: usize, d: usize) -> Result<bool, String> {
    let same = sides::once(&graph_of(rows, d, Order::Rising))?;
    println!("same bits: {same}");
    Ok(same)
}

fn run(words: &Words) -> Result<bool, String> {
    let Words { plan, seconds, threads, stages, once } = *words;
    if let Some((rows, d)) = once {
        return run_once(rows, d);
    }
    let limit = match seconds {
        Some(seconds) => Limit { seconds: seconds as f64, most: 1_000 },
        None => Limit { seconds: plan.seconds, most: Limit::MOST },
    };
    let mut tables = Tables::new(limit);
    if let Some((rows, d)) = stages {
        tables.stages(&sides::by_stage(&graph_of(rows, d, Order::Rising), limit)?);
        return Ok(tables.same());
    }
    wholes(plan, limit, threads, &mut tables)?;
    tables.memory(sides::stack(&neighbours(STACK_AT, Order::Shuffled)), STACK_AT);
    for &(rows, d) in plan.by_stage {
        tables.stages(&sides::by_stage(&graph_of(rows, d, Order::Rising), limit)?);
    }
    by_order(plan, limit, &mut tables)?;
    Ok(tables.same())
}

fn wholes(plan: &Plan, limit: Limit, threads: usize, tables: &mut Tables) -> Result<(), String> {
    tables.wholes_begin(threads);
    for &rows in plan.sizes {
        let mut graph = neighbours(rows, Order::Rising);
        for &d in plan.dims {
            graph.request.d = d;
            tables.whole(sides::whole(&graph, threads, limit)?);
        }
    }
    Ok(())
}

/// The edges stage alone depends on the order of a row's columns, so the rest is kept short.
fn by_order(plan: &Plan, limit: Limit, tables: &mut Tables) -> Result<(), String> {
    tables.orders_begin(plan.orders_at);
    for (name, order) in
        [("rising", Order::Rising), ("symmetrized", Order::Symmetrized), ("shuffled", Order::Shuffled)]
    {
        let mut graph = graph_of(plan.orders_at, 2, order);
        graph.request.rounds = 1;
        graph.request.degree = 1;
        tables.order(name, &sides::by_stage(&graph, limit)?);
    }
    Ok(())
}

fn main() -> ExitCode {
    let Some(words) = words() else {
        eprintln!(
            "words: [--quick] [--seconds N] [--threads N] [--cpu] [--stages ROWS D] [--once ROWS D]; ROWS is even, 1,000 to 1,048,576, D 1 to 7"
        );
        return ExitCode::from(2);
    };
    match run(&words) {
        Ok(true) => ExitCode::SUCCESS,
        Ok(false) => ExitCode::FAILURE,
        Err(fault) => {
            eprintln!("{fault}");
            ExitCode::FAILURE
        }
    }
}
