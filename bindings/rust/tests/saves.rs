//! Saved runs: gone on with, cut, changed, forged.

mod common;

use std::ops::ControlFlow;

use common::{assert_same_memory, bits, quick, refusal, ring::Ring, Kinds};
use threshcinch::{spectral_embedding, spectral_embedding_in, Driven, Graph, LoadError, Memory, Run};

/// Where the parts of a save begin; src/save.rs has the table.
const GRAPH_SUM: usize = 40;
const LENGTHS: usize = 48;
const STATE: usize = 136;
const STAGE: usize = STATE + 48;
const ISOLATED: usize = STAGE + 88 + 24;
const LISTS: usize = STATE + 5688;

/// FNV-1a, written here once more: a forged save must have the right sum.
fn sum_of(bytes: &[u8]) -> u64 {
    let mut sum: u64 = 14_695_981_039_346_656_037;
    for &byte in bytes {
        sum = (sum ^ u64::from(byte)).wrapping_mul(1_099_511_628_211);
    }
    sum
}

fn resum(bytes: &mut [u8]) {
    let (summed, sum) = bytes.split_last_chunk_mut::<8>().unwrap();
    *sum = sum_of(summed).to_le_bytes();
}

/// The bytes with a whole number set and the right sum.
fn forged(bytes: &[u8], at: usize, word: u64) -> Vec<u8> {
    let mut bytes = bytes.to_vec();
    bytes[at..at + 8].copy_from_slice(&word.to_le_bytes());
    resum(&mut bytes);
    bytes
}

fn small_graph() -> Graph<'static> {
    Graph::new(&[0, 1, 2], &[1, 0], &[1.0, 2.0])
}

/// A run over it, a chunk into its ninth stage.
fn small() -> Run<'static> {
    let mut run = Run::open(&small_graph(), 1, quick()).unwrap();
    for _ in 0..8 {
        run.chunk(0).unwrap();
        run.close().unwrap();
    }
    run.chunk(0).unwrap();
    run
}

fn load_error(bytes: &[u8]) -> Option<LoadError> {
    Run::load(&small_graph(), bytes).err()
}

#[test]
fn a_run_saved_and_loaded_in_every_kind_of_stage_is_the_one_call() {
    let ring = Ring::new(9000, 50, 11);
    let graph = ring.graph();
    let mut memory = Memory::for_graph(&graph, 1, quick()).unwrap();
    let counts = spectral_embedding_in(&graph, 1, quick(), &mut memory).unwrap();
    let orders = [[0, 1, 2], [0, 2, 1], [1, 0, 2], [1, 2, 0], [2, 0, 1], [2, 1, 0]];
    let mut run = Run::open(&graph, 1, quick()).unwrap();
    let mut saved = std::collections::BTreeSet::new();
    for order in orders.iter().cycle() {
        let [first, second, third] = *order;
        run.chunk(first).unwrap();
        run.chunk(second).unwrap();
        // Once in the middle of each kind of stage: the bytes are all that goes on.
        if saved.insert(run.progress().stage) {
            run = Run::load(&graph, &run.save()).unwrap();
        }
        assert_eq!(run.chunk(first), Err(refusal(13, first as u64)), "it was done before the save");
        run.chunk(third).unwrap();
        run.close().unwrap();
        if !run.is_open() {
            break;
        }
    }
    assert_eq!(saved.len(), 19, "every kind of stage");
    let ended = Run::load(&graph, &run.save()).unwrap();
    assert_same_memory(ended.memory(), &memory);
    assert!(ended.state().same_bits(run.state()));
    assert_eq!(ended.finish().unwrap().counts, counts);
}

#[test]
fn a_loaded_run_may_be_driven_on_by_threads() {
    let ring = Ring::new(9000, 50, 12);
    let graph = ring.graph();
    let mut run = Run::open(&graph, 1, quick()).unwrap();
    run.drive(2, |progress| if progress.accepted < 100 { ControlFlow::Continue(()) } else { ControlFlow::Break(()) }).unwrap();
    run.chunk(1).unwrap();
    let mut loaded = Run::load(&graph, &run.save()).unwrap();
    for run in [&mut run, &mut loaded] {
        assert_eq!(run.drive(3, |_| ControlFlow::Continue(())), Ok(Driven::Ended));
    }
    assert_same_memory(run.memory(), loaded.memory());
    assert!(run.state().same_bits(loaded.state()));
}

#[test]
fn a_save_holds_the_run_and_nothing_else() {
    let run = small();
    let bytes = run.save();
    let loaded = Run::load(&small_graph(), &bytes).unwrap();
    assert_same_memory(loaded.memory(), run.memory());
    assert!(loaded.state().same_bits(run.state()));
    assert_eq!((loaded.progress(), loaded.save()), (run.progress(), bytes));
}

/// What a save is refused by if this version stands in it and its sum is that of another.
fn of_version(version: u64) -> LoadError {
    match version {
        1 => LoadError::NoRitzRecord,
        2 => LoadError::CheckSum,
        other => LoadError::Version(other),
    }
}

#[test]
fn every_changed_bit_is_refused() {
    let mut bytes = small().save();
    for at in 0..bytes.len() {
        for bit in 0..8 {
            bytes[at] ^= 1 << bit;
            let expected = match at {
                0..8 => LoadError::NotASave,
                8..16 => of_version(u64::from_le_bytes(bytes[8..16].try_into().unwrap())),
                16..LENGTHS => LoadError::CheckSum,
                LENGTHS..STATE => LoadError::Length,
                _ => LoadError::CheckSum,
            };
            assert_eq!(load_error(&bytes), Some(expected), "byte {at} bit {bit}");
            bytes[at] ^= 1 << bit;
        }
    }
    assert_eq!(load_error(&bytes), None);
}

/// The run as threshcinch 0.1 saved it: version 1, without the Ritz record and its length.
fn without_record(run: &Run<'_>) -> Vec<u8> {
    let bytes = run.save();
    let record = bytes.len() - 8 - 8 * run.memory().ritz_record.len();
    let mut old = [&bytes[..8], &1u64.to_le_bytes(), &bytes[16..STATE - 8], &bytes[STATE..record], &[0; 8]].concat();
    resum(&mut old);
    old
}

#[test]
fn a_save_without_the_ritz_record_is_refused_with_a_word_why() {
    let run = small();
    let old = without_record(&run);
    // Its lists are as long as the ten lengths say: 8 bytes for a number, 4 for a column, 1 for a mark.
    let lengths = run.memory().lengths();
    let lists: usize = [8, 8, 4, 8, 8, 8, 8, 8, 1, 8].iter().zip(lengths).map(|(bytes, length)| bytes * length).sum();
    assert_eq!(old.len(), 128 + 5688 + lists + 8);
    assert_eq!(load_error(&old), Some(LoadError::NoRitzRecord));
    let words = LoadError::NoRitzRecord.to_string();
    assert_eq!(words, "the saved run is of threshcinch 0.1, which kept no Ritz record: go on with it there, or begin it anew");
    // A version to come has other words.
    let newer = load_error(&forged(&run.save(), 8, 4)).unwrap();
    assert_eq!((newer, newer.to_string().as_str()), (LoadError::Version(4), "the saved run has version 4, and only 2 and 3 are read"));
}

/// The run as threshcinch 0.2 saved it: version 2, and its isolated rows are so many with no entries.
fn counted_by_entries(run: &Run<'_>, rows: u64) -> Vec<u8> {
    forged(&forged(&run.save(), 8, 2), ISOLATED, rows)
}

/// A run that threshcinch 0.2 saved is the one that this version would have saved, in every byte, and so has the end of the one call.
fn assert_goes_on(graph: &Graph<'_>, run: &Run<'_>, rows: u64) {
    let mut loaded = Run::load(graph, &counted_by_entries(run, rows)).unwrap();
    assert_eq!(loaded.state().counts, run.state().counts);
    assert!(loaded.save() == run.save(), "{}", run.progress().stage);
    assert_eq!(loaded.drive(2, |_| ControlFlow::Continue(())), Ok(Driven::Ended));
    let mut memory = Memory::for_graph(graph, 1, quick()).unwrap();
    let counts = spectral_embedding_in(graph, 1, quick(), &mut memory).unwrap();
    assert_same_memory(loaded.memory(), &memory);
    assert_eq!(loaded.finish().unwrap().counts, counts);
}

#[test]
fn a_save_of_version_2_is_taken_with_its_isolated_rows_counted_anew() {
    let kinds = Kinds::new(12);
    let graph = kinds.graph();
    let mut run = Run::open(&graph, 1, quick()).unwrap();
    assert_goes_on(&graph, &run, 1);
    let mut stages = std::collections::BTreeSet::new();
    while run.is_open() {
        run.chunk(0).unwrap();
        if stages.insert(run.progress().stage) {
            assert_goes_on(&graph, &run, 1);
        }
        run.close().unwrap();
        assert_eq!(run.state().counts.isolated, 8);
    }
    assert_eq!(stages.len(), 19, "every kind of stage");
    assert_goes_on(&graph, &run, 1);
}

#[test]
fn a_save_of_version_2_has_the_rows_of_every_chunk_counted() {
    let kinds = Kinds::new(9000);
    let graph = kinds.graph();
    let mut run = Run::open(&graph, 1, quick()).unwrap();
    run.chunk(2).unwrap();
    assert_goes_on(&graph, &run, 750);
    run.drive(2, |progress| if progress.stage == "plain pass" { ControlFlow::Break(()) } else { ControlFlow::Continue(()) }).unwrap();
    run.chunk(1).unwrap();
    assert_eq!(run.state().counts.isolated, 750 * 8);
    assert_goes_on(&graph, &run, 750);
}

/// Written by the Python binding of 0.2.1; its tests say how.
const STORED: &[u8] = include_bytes!("../../python/tests/version2.held");

#[test]
fn a_stored_save_of_version_2_goes_on() {
    let kinds = Kinds::new(12);
    let graph = kinds.graph();
    let mut run = Run::load(&graph, STORED).unwrap();
    assert_eq!((run.state().counts.isolated, run.ritz_record().rounds()), (8, 1));
    assert!(counted_by_entries(&run, 1) == STORED, "nothing else was changed");
    run.drive(1, |_| ControlFlow::Continue(())).unwrap();
    let params = quick().rounds(2).unwrap();
    let mut memory = Memory::for_graph(&graph, 1, params).unwrap();
    let counts = spectral_embedding_in(&graph, 1, params, &mut memory).unwrap();
    assert_same_memory(run.memory(), &memory);
    assert_eq!(run.finish().unwrap().counts, counts);
}

#[test]
fn a_save_of_version_2_that_is_damaged_is_refused_as_before() {
    let kinds = Kinds::new(12);
    let graph = kinds.graph();
    let mut run = Run::open(&graph, 1, quick()).unwrap();
    run.chunk(0).unwrap();
    run.close().unwrap();
    let bytes = counted_by_entries(&run, 1);
    let error = |bytes: &[u8]| Run::load(&graph, bytes).err();
    assert_eq!(error(&bytes), None);
    assert_eq!(error(&bytes[..bytes.len() - 1]), Some(LoadError::Length));
    for at in [ISOLATED, STAGE, LISTS, bytes.len() - 1] {
        let mut changed = bytes.clone();
        changed[at] ^= 1;
        assert_eq!(error(&changed), Some(LoadError::CheckSum), "byte {at}");
    }
    assert_eq!(error(&forged(&bytes, ISOLATED, 13)), Some(LoadError::Refused(refusal(16, 0))), "more rows than there are");
    assert_eq!(error(&forged(&bytes, STAGE, 0)), Some(LoadError::Refused(refusal(15, 0))));
    assert_eq!(load_error(&bytes), Some(LoadError::OtherGraph));
}

#[test]
fn a_forged_save_of_version_2_over_a_graph_that_no_run_opens_with() {
    let bytes = counted_by_entries(&small(), 0);
    let load_over = |starts: [u64; 3], columns: [u32; 2], values: [f64; 2]| {
        let lists = [starts.map(u64::to_le_bytes).concat(), columns.map(u32::to_le_bytes).concat(), values.map(f64::to_le_bytes).concat()];
        Run::load(&Graph::new(&starts, &columns, &values), &forged(&bytes, GRAPH_SUM, sum_of(&lists.concat()))).err()
    };
    assert_eq!(load_over([0, 1, 2], [1, 0], [1.0, 2.0]), None);
    assert_eq!(load_over([1, 1, 2], [1, 0], [1.0, 2.0]), Some(LoadError::Refused(refusal(5, 0))));
    assert_eq!(load_over([0, 1, 2], [1, 2], [1.0, 2.0]), Some(LoadError::Refused(refusal(6, 1))));
    assert_eq!(load_over([0, 1, 2], [1, 0], [1.0, f64::NAN]), Some(LoadError::Refused(refusal(7, 1))));
}

/// The bits of all its numbers, as they stand at the end of a save before its sum.
fn record_in(bytes: &[u8], length: usize) -> Vec<u64> {
    let list = &bytes[bytes.len() - 8 - 8 * length..bytes.len() - 8];
    list.chunks_exact(8).map(|word| u64::from_le_bytes(word.try_into().unwrap())).collect()
}

#[test]
fn a_save_holds_the_ritz_record_as_its_last_list() {
    let params = quick().rounds(3).unwrap();
    let mut run = Run::open(&small_graph(), 1, params).unwrap();
    let mut saved_rounds = std::collections::BTreeSet::new();
    while run.is_open() {
        run.chunk(0).unwrap();
        run.close().unwrap();
        let bytes = run.save();
        assert_eq!(record_in(&bytes, 3 * 10), bits(&run.memory().ritz_record));
        run = Run::load(&small_graph(), &bytes).unwrap();
        saved_rounds.insert(run.ritz_record().rounds());
    }
    assert_eq!(saved_rounds.into_iter().collect::<Vec<_>>(), [0, 1, 2, 3]);
    let one = spectral_embedding(&small_graph(), 1, params).unwrap();
    assert!(run.finish().unwrap().ritz_record.same_bits(&one.ritz_record));
}

#[test]
fn every_cut_and_every_addition_is_refused() {
    let mut bytes = small().save();
    for length in 0..bytes.len() {
        assert_eq!(load_error(&bytes[..length]), Some(LoadError::Length));
    }
    bytes.push(0);
    assert_eq!(load_error(&bytes), Some(LoadError::Length));
    resum(&mut bytes);
    assert_eq!(load_error(&bytes), Some(LoadError::Length));
}

#[test]
fn lengths_that_no_machine_has_are_refused() {
    let bytes = small().save();
    for list in 0..11 {
        for length in [u64::MAX, u64::MAX / 2, 1 << 61, 1 << 40] {
            assert_eq!(load_error(&forged(&bytes, LENGTHS + 8 * list, length)), Some(LoadError::Length));
        }
    }
}

#[test]
fn another_graph_is_refused() {
    let bytes = small().save();
    let others = [
        Graph::new(&[0, 1, 2], &[1, 0], &[1.0, 2.5]),
        Graph::new(&[0, 1, 2], &[1, 1], &[1.0, 2.0]),
        Graph::new(&[0, 2, 2], &[1, 0], &[1.0, 2.0]),
        Graph::new(&[0, 1], &[0], &[1.0]),
        Graph::new(&[], &[], &[]),
    ];
    for graph in others {
        assert_eq!(Run::load(&graph, &bytes).err(), Some(LoadError::OtherGraph));
    }
    assert_eq!(load_error(&forged(&bytes, GRAPH_SUM, 0)), Some(LoadError::OtherGraph));
}

#[test]
fn starts_that_fall_are_refused_even_with_the_right_sum() {
    let bytes = small().save();
    let load_over = |starts: [u64; 3]| {
        let lists =
            [starts.map(u64::to_le_bytes).concat(), [1u32, 0].map(u32::to_le_bytes).concat(), [1.0f64, 2.0].map(f64::to_le_bytes).concat()];
        Run::load(&Graph::new(&starts, &[1, 0], &[1.0, 2.0]), &forged(&bytes, GRAPH_SUM, sum_of(&lists.concat()))).err()
    };
    assert_eq!(load_over([0, 1, 2]), None, "the graph's sum is as forged here");
    assert_eq!(load_over([0, 2, 1]), Some(LoadError::OtherGraph));
}

#[test]
fn number_16_a_forged_state() {
    let bytes = small().save();
    let damaged = Some(LoadError::Refused(refusal(16, 0)));
    // D, rows, entries, rounds, degree, seed_std.
    for (field, word) in [(0, 0), (0, 8), (1, 0), (1, u64::MAX), (2, u64::MAX), (3, 0), (3, 1001), (4, 0), (4, 1001), (5, 0), (5, u64::MAX)]
    {
        assert_eq!(load_error(&forged(&bytes, STATE + 8 * field, word)), damaged, "asked, field {field}");
    }
    // Stage, round, pass, column, attempt, current, previous, bound, alpha.
    for (field, word) in [(0, 21), (0, u64::MAX), (1, 1), (2, 2), (3, 9), (4, 2), (5, 3), (6, 3), (7, 0), (8, 0), (8, u64::MAX)] {
        assert_eq!(load_error(&forged(&bytes, STAGE + 8 * field, word)), damaged, "progress, field {field}");
    }
    // Counts, and the last of the Ritz places.
    for field in 0..4 {
        assert_eq!(load_error(&forged(&bytes, STAGE + 88 + 8 * field, u64::MAX)), damaged, "counts, field {field}");
    }
    assert_eq!(load_error(&forged(&bytes, LISTS - 8, 9)), damaged);
}

#[test]
fn sizes_that_are_not_the_graphs_are_refused() {
    let bytes = small().save();
    // D, rows, entries; and other rounds need another Ritz record.
    for (field, word) in [(0, 2), (1, 1), (1, 3), (2, 1), (2, 3), (3, 2), (3, 1000)] {
        assert_eq!(load_error(&forged(&bytes, STATE + 8 * field, word)), Some(LoadError::Lists));
    }
}

#[test]
fn number_15_a_save_with_no_run() {
    assert_eq!(load_error(&forged(&small().save(), STAGE, 0)), Some(LoadError::Refused(refusal(15, 0))));
}

#[test]
fn number_16_a_forged_mark_or_column() {
    let ring = Ring::new(9000, 50, 13);
    let graph = ring.graph();
    let run = Run::open(&graph, 1, quick()).unwrap();
    let lengths = run.memory().lengths();
    let bytes = run.save();
    let marks = bytes.len() - 8 - 8 * (lengths[10] + lengths[9]) - lengths[8];
    let mut marked = bytes.clone();
    marked[marks + 1] = 2;
    resum(&mut marked);
    let mut loaded = Run::load(&graph, &marked).unwrap();
    assert_eq!(loaded.chunk(1), Err(refusal(16, 0)));
    assert_eq!(loaded.chunk(0), Ok(()));
    assert_eq!(loaded.close(), Err(refusal(16, 0)));
    for threads in [1, 2, 3] {
        let mut loaded = Run::load(&graph, &marked).unwrap();
        assert_eq!(loaded.drive(threads, |_| ControlFlow::Continue(())), Err(refusal(16, 0)));
        assert!(loaded.is_open());
    }
    // An edge column past the rows, once edges are made: the next pass of its chunk meets it.
    let mut run = run;
    run.drive(2, |progress| if progress.stage == "filter pass" { ControlFlow::Break(()) } else { ControlFlow::Continue(()) }).unwrap();
    let edge_columns = LISTS + 8 * (lengths[0] + lengths[1]);
    let last = forged(&run.save(), edge_columns + 4 * (lengths[2] - 2), u64::MAX);
    for threads in [1, 2, 8] {
        let mut loaded = Run::load(&graph, &last).unwrap();
        assert_eq!(loaded.drive(threads, |_| ControlFlow::Continue(())), Err(refusal(16, 0)));
        assert_eq!(loaded.progress().stage, "filter pass");
    }
}

#[test]
fn errors_have_words() {
    assert_eq!(load_error(b"").unwrap().to_string(), "the saved run has fewer or more bytes than it says");
    assert_eq!(load_error(b"something else").unwrap().to_string(), "the bytes are not a saved run");
    let refused = LoadError::Refused(refusal(16, 0));
    assert_eq!(refused.to_string(), "the saved run is not taken: refusal 16: the state, or a list for it, is damaged");
    assert!(std::error::Error::source(&refused).is_some());
}
