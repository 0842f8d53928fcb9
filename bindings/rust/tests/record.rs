//! The Ritz record: what it holds, and that every way to a seed leaves the same one.

mod common;

use std::ops::ControlFlow;

use common::{assert_same_memory, bits, quick, ring::Ring};
use threshcinch::{
    spectral_embedding, spectral_embedding_in, spectral_embedding_with_threads, Driven, Graph, Memory, Params, RitzRecord, Run,
};

/// The rounds of a run whose record has something to tell.
fn rounds(rounds: u64) -> Params {
    quick().rounds(rounds).expect("in range")
}

/// Raised to 0.1 and lowered to 0.9995; NaN becomes 0.1.
fn next_bound(value: f64) -> f64 {
    if value > 0.1 {
        value.min(0.9995)
    } else {
        0.1
    }
}

/// Falling, NaN last.
fn falls(values: &[f64]) -> bool {
    values.windows(2).all(|pair| pair[0] >= pair[1] || pair[1].is_nan())
}

/// What document 01 says of the bounds and the order, whatever the graph.
fn assert_is_a_record(record: &RitzRecord, dims: usize, rounds: usize) {
    assert_eq!((record.rounds(), record.width()), (rounds, dims + 8));
    assert_eq!(record.bound(0), Some(0.75));
    for round in 0..rounds {
        let values = record.values(round).unwrap();
        assert!(values.len() == dims + 8 && falls(values), "round {round}: {values:?}");
        let expected = if round == 0 { 0.75 } else { next_bound(record.values(round - 1).unwrap()[dims + 1]) };
        assert_eq!(record.bound(round).map(f64::to_bits), Some(expected.to_bits()), "round {round}");
    }
}

#[test]
fn values_fall_and_each_bound_comes_from_the_round_before() {
    let ring = Ring::new(500, 17, 21);
    for dims in 1..=7 {
        let seed = spectral_embedding(&ring.graph(), dims, rounds(4)).unwrap();
        assert_is_a_record(&seed.ritz_record, dims, 4);
        // The seed's own values settle below the constant vector's, 1: no bound is the first one again.
        assert!((1..4).all(|round| seed.ritz_record.bound(round) != Some(0.75)));
    }
}

#[test]
fn values_settle_from_round_to_round() {
    let ring = Ring::new(500, 17, 22);
    let record = spectral_embedding(&ring.graph(), 2, Params::new()).unwrap().ritz_record;
    assert_is_a_record(&record, 2, 5);
    let moved = |round: usize| (record.values(round).unwrap()[0] - record.values(round - 1).unwrap()[0]).abs();
    assert!(moved(4) < moved(1) && moved(4) < 1e-9, "the leading value moved by {} and at last by {}", moved(1), moved(4));
}

/// Row 0's large values cancel, so that its weights overflow.
fn overflowing() -> Graph<'static> {
    Graph::new(&[0, 3, 4, 5], &[0, 1, 2, 0, 0], &[1e308, -1e308, 1e-20, 1.0, 1.0])
}

#[test]
fn a_graph_whose_weights_overflow_has_nan_and_then_the_least_bound() {
    for dims in 1..=7 {
        let record = spectral_embedding(&overflowing(), dims, rounds(3)).unwrap().ritz_record;
        assert_is_a_record(&record, dims, 3);
        assert!(record.numbers().iter().any(|number| number.is_nan()), "the graph has no NaN");
        assert_eq!(record.bound(1), Some(0.1));
    }
}

#[test]
fn any_number_of_threads_leaves_the_one_calls_record() {
    let ring = Ring::new(9000, 50, 23);
    let graph = ring.graph();
    let params = rounds(3);
    let mut memory = Memory::for_graph(&graph, 2, params).unwrap();
    spectral_embedding_in(&graph, 2, params, &mut memory).unwrap();
    let expected = RitzRecord::new(2, 3, memory.ritz_record.clone()).unwrap();
    assert_is_a_record(&expected, 2, 3);
    assert!(spectral_embedding(&graph, 2, params).unwrap().ritz_record.same_bits(&expected));
    for threads in [1, 2, 3, 8] {
        let mut run = Run::open(&graph, 2, params).unwrap();
        assert_eq!(run.drive(threads, |_| ControlFlow::Continue(())), Ok(Driven::Ended));
        assert_same_memory(run.memory(), &memory);
        assert!(run.ritz_record().same_bits(&expected), "{threads} threads");
        assert!(run.finish().unwrap().ritz_record.same_bits(&expected), "{threads} threads");
        let seed = spectral_embedding_with_threads(&graph, 2, params, threads).unwrap();
        assert!(seed.ritz_record.same_bits(&expected), "{threads} threads");
    }
}

#[test]
fn an_open_run_tells_the_rounds_that_are_closed() {
    let ring = Ring::new(100, 9, 24);
    let mut run = Run::open(&ring.graph(), 1, rounds(3)).unwrap();
    let whole = spectral_embedding(&ring.graph(), 1, rounds(3)).unwrap().ritz_record;
    let mut closed = 0;
    while run.is_open() {
        assert_eq!(bits(run.ritz_record().numbers()), bits(&whole.numbers()[..closed * 10]));
        run.chunk(0).unwrap();
        closed += usize::from(run.progress().stage == "products");
        run.close().unwrap();
    }
    assert_eq!(closed, 3);
    assert!(run.ritz_record().same_bits(&whole));
}

#[test]
fn memory_that_was_made_for_more_rounds_keeps_the_rest() {
    let ring = Ring::new(100, 9, 25);
    let graph = ring.graph();
    let mut memory = Memory::for_graph(&graph, 1, rounds(5)).unwrap();
    memory.ritz_record.fill(-7.0);
    spectral_embedding_in(&graph, 1, rounds(2), &mut memory).unwrap();
    let expected = spectral_embedding(&graph, 1, rounds(2)).unwrap().ritz_record;
    assert_eq!(bits(&memory.ritz_record[20..]), vec![(-7.0f64).to_bits(); 30]);
    assert!(RitzRecord::new(1, 2, memory.ritz_record).unwrap().same_bits(&expected));
}

#[test]
fn a_record_is_read_by_round() {
    let numbers: Vec<f64> = (0..25).map(f64::from).collect();
    let record = RitzRecord::new(1, 2, numbers.clone()).unwrap();
    assert_eq!((record.rounds(), record.width(), record.numbers()), (2, 9, &numbers[..20]));
    assert_eq!((record.bound(0), record.bound(1), record.bound(2), record.bound(usize::MAX)), (Some(0.0), Some(10.0), None, None));
    assert_eq!((record.values(0), record.values(1), record.values(2)), (Some(&numbers[1..10]), Some(&numbers[11..20]), None));
    assert_eq!(record.iter().collect::<Vec<_>>(), [(0.0, &numbers[1..10]), (10.0, &numbers[11..20])]);
    let short = |dims, rounds| RitzRecord::new(dims, rounds, numbers.clone()).is_none();
    assert!(short(1, 3) && short(17, 1) && short(usize::MAX, 1) && short(1, usize::MAX) && short(usize::MAX - 9, 2));
    assert_eq!(RitzRecord::default().rounds(), 0);
}

#[test]
fn same_bits_means_every_bit() {
    let record = |dims, numbers: &[f64]| RitzRecord::new(dims, numbers.len() / (dims + 9), numbers.to_vec()).unwrap();
    let zeros = record(1, &[0.0; 20]);
    let mut minus = [0.0; 20];
    minus[19] = -0.0;
    assert!(zeros.same_bits(&record(1, &[0.0; 20])) && record(1, &[f64::NAN; 20]).same_bits(&record(1, &[f64::NAN; 20])));
    assert!(!zeros.same_bits(&record(1, &minus)) && !zeros.same_bits(&record(1, &[0.0; 10])) && !zeros.same_bits(&record(11, &[0.0; 20])));
}
