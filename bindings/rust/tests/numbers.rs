//! Document 01's numbers to check, as far as they show from outside, and what a seed is.

mod common;

use common::{bits, quick, refusal, ring::Ring};
use threshcinch::{bhtsne, spectral_embedding, spectral_embedding_in, Counts, Graph, Memory, Params, RitzRecord, Seed};

fn least() -> Params {
    Params::new().rounds(1).and_then(|params| params.degree(1)).expect("in range")
}

#[test]
fn the_sample_of_the_text_program() {
    let seed = spectral_embedding(&Graph::new(&[0, 1], &[0], &[1.0]), 1, least()).unwrap();
    assert_eq!((seed.rows, seed.dims), (1, 1));
    assert_eq!(bits(&seed.values), [0]);
    assert_eq!(seed.counts, Counts { passes: 2, refreshed: 9, zeroed: 9, isolated: 0 });
}

#[test]
fn case_11_one_row_without_entries() {
    let seed = spectral_embedding(&Graph::new(&[0, 0], &[], &[]), 1, least()).unwrap();
    // On a graph with an empty row zeros of either sign match.
    assert_eq!(seed.values, [0.0]);
    assert_eq!(seed.counts, Counts { passes: 2, refreshed: 8, zeroed: 8, isolated: 1 });
}

#[test]
fn case_12_a_degree_that_overflows() {
    let graph = Graph::new(&[0, 2, 3], &[0, 1, 0], &[1e308, 1e308, 1e308]);
    for dims in 1..=7 {
        let mut memory = Memory::for_graph(&graph, dims, least()).unwrap();
        let counts = spectral_embedding_in(&graph, dims, least(), &mut memory).unwrap();
        assert!(memory.v0.iter().any(|number| number.is_nan()));
        assert_eq!(counts.zeroed, dims + 8, "every column is zeroed");
        assert_eq!(bits(&memory.output), vec![0; 2 * dims], "plus zero throughout");
    }
}

#[test]
fn case_6_chunks() {
    let chunks = |rows: usize| Memory::lengths_for(1, 1, rows, 0).unwrap()[8];
    assert_eq!([chunks(1), chunks(4096), chunks(4097), chunks(1_048_576)], [1, 1, 2, 256]);
}

#[test]
fn lent_sizes_are_document_01s() {
    // Three chunks; k is 10, and the Ritz record has a bound and k values for each of 5 rounds.
    let expected = [9000, 9000, 7, 7, 90_000, 90_000, 90_000, 300, 3, 18_000, 55];
    assert_eq!(Memory::lengths_for(2, 5, 9000, 7), Ok(expected));
    assert_eq!(Memory::new(2, 5, 9000, 7).unwrap().lengths(), expected);
    assert_eq!(Memory::lengths_for(7, 1000, 1, 0).unwrap()[10], 16_000);
}

#[test]
fn defaults_and_setters() {
    let params = Params::new();
    assert_eq!(params, Params::default());
    assert_eq!((params.get_rounds(), params.get_degree(), params.get_seed_std()), (5, 20, 1e-4));
    let set = params.rounds(1000).unwrap().degree(1).unwrap().seed_std(f64::MIN_POSITIVE).unwrap();
    assert_eq!((set.get_rounds(), set.get_degree(), set.get_seed_std()), (1000, 1, f64::MIN_POSITIVE));
    for rounds in [0, 1001, u64::MAX] {
        assert_eq!(params.rounds(rounds), Err(refusal(8, 0)));
        assert_eq!(params.degree(rounds), Err(refusal(9, 0)));
    }
    for std in [0.0, -0.0, -1.0, f64::NAN, f64::INFINITY, f64::NEG_INFINITY] {
        assert_eq!(params.seed_std(std), Err(refusal(10, 0)));
    }
}

#[test]
fn the_columns_have_the_deviation_asked_for() {
    let ring = Ring::new(500, 17, 0);
    let seed = spectral_embedding(&ring.graph(), 3, Params::new().seed_std(0.25).unwrap()).unwrap();
    for column in 0..3 {
        let square = (0..500).map(|i| seed.row(i).unwrap()[column].powi(2)).sum::<f64>() / 500.0;
        assert!((square.sqrt() - 0.25).abs() < 1e-9);
    }
}

#[test]
fn rows_of_a_seed() {
    let counts = Counts::default();
    let seed = Seed { rows: 2, dims: 2, values: vec![1.0, 2.0, 3.0, 4.0], counts, ritz_record: RitzRecord::default() };
    assert_eq!(seed.row(0), Some(&[1.0, 2.0][..]));
    assert_eq!(seed.row(1), Some(&[3.0, 4.0][..]));
    assert_eq!([seed.row(2), seed.row(usize::MAX), seed.row(usize::MAX / 2)], [None; 3]);
}

#[test]
fn bhtsnes_call_gives_the_same() {
    let ring = Ring::new(300, 11, 5);
    let graph = ring.graph();
    let p_rows: Vec<usize> = graph.starts.iter().map(|&start| start as usize).collect();
    let theirs = bhtsne::spectral_embedding::<2>(&p_rows, graph.columns, graph.values, Params::new()).unwrap();
    let ours = spectral_embedding(&graph, 2, Params::new()).unwrap();
    assert_eq!(bits(&theirs), bits(&ours.values));
    assert_eq!(bhtsne::spectral_embedding::<8>(&p_rows, graph.columns, graph.values, Params::new()), Err(refusal(1, 0)));
    assert_eq!(bhtsne::spectral_embedding::<2>(&[], &[], &[], Params::new()), Err(refusal(2, 0)));
}

#[test]
fn memory_that_is_longer_or_was_used_before_changes_nothing() {
    let (small, large) = (Ring::new(40, 7, 1), Ring::new(5000, 7, 2));
    let alone = spectral_embedding(&small.graph(), 1, quick()).unwrap();
    let mut memory = Memory::for_graph(&large.graph(), 1, quick()).unwrap();
    spectral_embedding_in(&large.graph(), 1, quick(), &mut memory).unwrap();
    let before = memory.clone();
    let counts = spectral_embedding_in(&small.graph(), 1, quick(), &mut memory).unwrap();
    assert_eq!(counts, alone.counts);
    assert_eq!(bits(&memory.output[..40]), bits(&alone.values));
    assert_eq!(bits(&memory.output[40..]), bits(&before.output[40..]), "the rest is untouched");
}
