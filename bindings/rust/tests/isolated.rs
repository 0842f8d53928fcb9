//! The isolated rows: which they are, and from when on a run has counted them.

mod common;

use std::ops::ControlFlow;

use common::{assert_same_memory, quick, Kinds, JUST_ABOVE, KINDS};
use threshcinch::{spectral_embedding, spectral_embedding_in, Driven, Graph, Memory, Run};

#[test]
fn a_row_is_isolated_where_its_root_is_not_above_the_floor() {
    for (place, (values, isolated)) in KINDS.into_iter().enumerate() {
        let (starts, columns) = ([0, values.len() as u64], [0; 2]);
        let graph = Graph::new(&starts, &columns[..values.len()], values);
        let mut memory = Memory::for_graph(&graph, 1, quick()).unwrap();
        let counts = spectral_embedding_in(&graph, 1, quick(), &mut memory).unwrap();
        assert_eq!(counts.isolated, usize::from(isolated), "kind {place}");
        // They are those that took this inverse weight, but for a row whose root is 1e12.
        assert_eq!(memory.inverse[0] == 1e-12, isolated || values == [1e24], "kind {place}");
    }
}

#[test]
fn the_roots_next_to_the_floor() {
    assert_eq!(1e-24f64.sqrt(), 1e-12);
    assert!(JUST_ABOVE.sqrt() > 1e-12 && f64::from_bits(JUST_ABOVE.to_bits() - 1).sqrt() <= 1e-12);
}

/// Every chunk of the degrees done and that stage closed, with a look at the count before each call.
fn to_edges(run: &mut Run<'_>) {
    for number in [1, 0, 2] {
        assert_eq!(run.state().counts.isolated, 0);
        run.chunk(number).unwrap();
    }
    assert_eq!(run.state().counts.isolated, 0);
    run.close().unwrap();
    assert_eq!(run.progress().stage, "edges");
}

#[test]
fn the_count_is_set_as_the_degrees_close_and_stays() {
    let kinds = Kinds::new(9000);
    let (graph, expected) = (kinds.graph(), 750 * 8);
    let mut memory = Memory::for_graph(&graph, 1, quick()).unwrap();
    let counts = spectral_embedding_in(&graph, 1, quick(), &mut memory).unwrap();
    assert_eq!(counts.isolated, expected);
    let mut run = Run::open(&graph, 1, quick()).unwrap();
    to_edges(&mut run);
    while run.is_open() {
        assert_eq!(run.state().counts.isolated, expected, "{}", run.progress().stage);
        (0..3).for_each(|number| run.chunk(number).unwrap());
        assert_eq!(run.state().counts.isolated, expected, "{}", run.progress().stage);
        run.close().unwrap();
    }
    assert_same_memory(run.memory(), &memory);
    assert_eq!(run.finish().unwrap().counts, counts);
}

#[test]
fn threads_count_the_same() {
    let kinds = Kinds::new(9000);
    let graph = kinds.graph();
    let one = spectral_embedding(&graph, 2, quick()).unwrap();
    for threads in [1, 2, 3] {
        let mut run = Run::open(&graph, 2, quick()).unwrap();
        assert_eq!(run.drive(threads, |_| ControlFlow::Continue(())), Ok(Driven::Ended));
        assert_eq!(run.finish().unwrap().counts, one.counts);
    }
}
