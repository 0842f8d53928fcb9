//! The held run: its calls, its end, and threads.

mod common;

use std::ops::ControlFlow;
use std::panic::{catch_unwind, AssertUnwindSafe};

use common::{assert_same_memory, bits, quick, ring::Ring};
use threshcinch::{
    spectral_embedding, spectral_embedding_in, spectral_embedding_with_threads, Driven, Graph, Memory, Params, Progress, Run,
};

/// The memory and counts that the one call leaves.
fn one_call(graph: &Graph<'_>, dims: usize) -> (Memory, threshcinch::Counts) {
    let mut memory = Memory::for_graph(graph, dims, quick()).unwrap();
    let counts = spectral_embedding_in(graph, dims, quick(), &mut memory).unwrap();
    (memory, counts)
}

/// Drives a run to its end.
fn driven<'g>(graph: &Graph<'g>, dims: usize, threads: usize) -> Run<'g> {
    let mut run = Run::open(graph, dims, quick()).unwrap();
    assert_eq!(run.drive(threads, |_| ControlFlow::Continue(())), Ok(Driven::Ended));
    run
}

#[test]
fn any_number_of_threads_gives_the_one_calls_bits() {
    let ring = Ring::new(20_000, 101, 0);
    let graph = ring.graph();
    let (memory, counts) = one_call(&graph, 2);
    let alone = driven(&graph, 2, 1);
    for threads in [0, 1, 2, 3, 8, usize::MAX] {
        let run = driven(&graph, 2, threads);
        assert_same_memory(run.memory(), &memory);
        assert!(run.state().same_bits(alone.state()));
        assert_eq!(run.state().counts, counts);
        assert_eq!(bits(&run.finish().unwrap().values), bits(&memory.output));
    }
}

#[test]
fn the_call_with_threads_gives_the_same_seed() {
    let ring = Ring::new(9000, 50, 3);
    let one = spectral_embedding(&ring.graph(), 1, quick()).unwrap();
    for threads in [0, 1, 2, 3, 8] {
        let seed = spectral_embedding_with_threads(&ring.graph(), 1, quick(), threads).unwrap();
        assert_eq!((bits(&seed.values), seed.counts), (bits(&one.values), one.counts));
        assert_eq!((seed.rows, seed.dims), (9000, 1));
    }
}

#[test]
fn accepted_calls_are_as_many_as_promised() {
    let ring = Ring::new(9000, 50, 4);
    let mut run = Run::open(&ring.graph(), 3, quick()).unwrap();
    let opened = run.progress();
    assert_eq!((opened.stage, opened.accepted, opened.owed), ("degrees", 0, (9 + (2 + 2 + 7 * 11)) * 4));
    let mut calls = 0;
    while run.is_open() {
        for number in [1, 2, 0] {
            run.chunk(number).unwrap();
        }
        run.close().unwrap();
        calls += 4;
        assert_eq!(run.progress().accepted, calls);
        assert_eq!(run.progress().accepted + run.progress().owed, opened.owed + 4 * 7 * run.state().counts.refreshed);
    }
    assert_eq!(run.progress(), Progress { stage: "ended", accepted: calls, owed: 0 });
}

#[test]
fn refused_calls_change_nothing() {
    let ring = Ring::new(9000, 50, 5);
    let mut run = Run::open(&ring.graph(), 1, quick()).unwrap();
    run.chunk(1).unwrap();
    let before = run.clone();
    assert!(run.chunk(1).is_err() && run.chunk(3).is_err() && run.close().is_err());
    assert_same_memory(run.memory(), before.memory());
    assert!(run.state().same_bits(before.state()));
}

#[test]
fn an_open_run_comes_back_from_finish() {
    let ring = Ring::new(100, 9, 6);
    let mut run = Run::open(&ring.graph(), 1, quick()).unwrap();
    for _ in 0..3 {
        run = *run.finish().expect_err("it is open");
        run.chunk(0).unwrap();
        run.close().unwrap();
    }
    run.drive(1, |_| ControlFlow::Continue(())).unwrap();
    assert_eq!(bits(&run.finish().unwrap().values), bits(&one_call(&ring.graph(), 1).0.output));
}

#[test]
fn a_drive_may_be_stopped_and_gone_on_with() {
    let ring = Ring::new(9000, 50, 7);
    let graph = ring.graph();
    let mut run = Run::open(&graph, 1, quick()).unwrap();
    let mut stages = 0;
    // Stops after every third stage, and does a chunk by hand before it goes on.
    while run.is_open() {
        let mut left = 3;
        let driven = run.drive(1 + stages % 4, |progress| {
            stages += 1;
            left -= 1;
            assert_eq!(progress.accepted, 4 * stages);
            if left == 0 {
                ControlFlow::Break(())
            } else {
                ControlFlow::Continue(())
            }
        });
        assert!(driven == Ok(Driven::Stopped) || !run.is_open());
        if run.is_open() {
            run.chunk(stages % 3).unwrap();
        }
    }
    assert_eq!(run.drive(2, |_| panic!("an ended run has no stages")), Ok(Driven::Ended));
    let (memory, counts) = one_call(&graph, 1);
    assert_same_memory(run.memory(), &memory);
    assert_eq!(run.finish().unwrap().counts, counts);
}

#[test]
fn a_panic_of_the_caller_ends_the_threads_and_leaves_the_run() {
    let ring = Ring::new(9000, 50, 8);
    let graph = ring.graph();
    let mut run = Run::open(&graph, 1, quick()).unwrap();
    let caught = catch_unwind(AssertUnwindSafe(|| {
        run.drive(3, |progress| if progress.accepted > 40 { panic!("tried") } else { ControlFlow::Continue(()) })
    }));
    assert!(caught.is_err() && run.is_open());
    assert_eq!(run.drive(3, |_| ControlFlow::Continue(())), Ok(Driven::Ended));
    assert_same_memory(run.memory(), &one_call(&graph, 1).0);
}

#[test]
fn runs_may_be_driven_side_by_side_over_one_graph() {
    let ring = Ring::new(9000, 50, 9);
    let graph = ring.graph();
    let (memory, _) = one_call(&graph, 1);
    std::thread::scope(|scope| {
        for threads in 1..=3 {
            let (graph, memory) = (&graph, &memory);
            scope.spawn(move || assert_same_memory(driven(graph, 1, threads).memory(), memory));
        }
    });
}

#[test]
fn default_parameters_on_a_small_graph() {
    let ring = Ring::new(64, 9, 10);
    let mut run = Run::open(&ring.graph(), 2, Params::default()).unwrap();
    run.drive(4, |_| ControlFlow::Continue(())).unwrap();
    let one = spectral_embedding(&ring.graph(), 2, Params::default()).unwrap();
    assert_eq!(bits(&run.finish().unwrap().values), bits(&one.values));
}
