//! What can be tried from inside alone: a run over memory whose Ritz record was lent with numbers of the caller's, or is too short, and one whose
//! state a host has changed.

use crate::memory::Lists;
use crate::{spectral_embedding, Graph, Memory, Params, Reason, Refusal, RitzRecord, Run};

const DIMS: usize = 2;
const ROWS: u32 = 12;
const ROUNDS: u64 = 3;
/// How many numbers the record has for a round.
const A_ROUND: usize = DIMS + 9;

/// The lists of a ring in which each row knows the next and the last one.
struct Ring {
    starts: Vec<u64>,
    columns: Vec<u32>,
    values: Vec<f64>,
}

impl Ring {
    fn new() -> Ring {
        let around = |row: u32| [(row + 1) % ROWS, (row + ROWS - 1) % ROWS];
        Ring {
            starts: (0..=u64::from(ROWS)).map(|row| 2 * row).collect(),
            columns: (0..ROWS).flat_map(around).collect(),
            values: (0..ROWS).flat_map(|row| around(row).map(|column| f64::from(1 + row * column % 7))).collect(),
        }
    }

    fn graph(&self) -> Graph<'_> {
        Graph::new(&self.starts, &self.columns, &self.values)
    }
}

fn params() -> Params {
    Params::new().rounds(ROUNDS).and_then(|params| params.degree(3)).expect("in range")
}

/// A number that no run writes.
fn lent_number(place: usize) -> f64 {
    -1000.0 - place as f64
}

fn lent_memory(graph: &Graph<'_>) -> Memory {
    let mut memory = Memory::for_graph(graph, DIMS, params()).unwrap();
    memory.ritz_record.iter_mut().enumerate().for_each(|(place, number)| *number = lent_number(place));
    memory
}

/// Opens a run in memory of the caller's.
fn open_in<'g>(graph: &Graph<'g>, mut memory: Memory) -> Result<Run<'g>, Refusal> {
    // SAFETY: the graph and the memory are borrowed for this call.
    let answer = unsafe { Lists::of(graph, &mut memory).open(DIMS, params()) };
    Refusal::check(answer.verdict)?;
    Ok(Run { graph: *graph, memory, state: answer.state })
}

fn bits(numbers: &[f64]) -> Vec<u64> {
    numbers.iter().map(|number| number.to_bits()).collect()
}

/// So many rounds are as the one call has them, and every place behind them is as it was lent.
fn assert_written(run: &Run<'_>, rounds: usize, whole: &RitzRecord) {
    let (written, rest) = run.memory.ritz_record.split_at(rounds * A_ROUND);
    assert_eq!(bits(written), bits(&whole.numbers()[..written.len()]), "{rounds} rounds are closed");
    let lent: Vec<f64> = (written.len()..whole.numbers().len()).map(lent_number).collect();
    assert_eq!(bits(rest), bits(&lent), "{rounds} rounds are closed");
}

/// The run brought to its next products stage, with every chunk but that stage's done.
fn to_products(run: &mut Run<'_>) {
    while run.progress().stage != "products" {
        run.chunk(0).unwrap();
        run.close().unwrap();
    }
}

#[test]
fn a_round_is_written_as_its_products_close_and_no_sooner() {
    let ring = Ring::new();
    let graph = ring.graph();
    let whole = spectral_embedding(&graph, DIMS, params()).unwrap().ritz_record;
    let mut run = open_in(&graph, lent_memory(&graph)).unwrap();
    let mut closed = 0;
    assert_written(&run, 0, &whole);
    while run.is_open() {
        assert_eq!(run.close(), Err(Reason::ChunksLeft.at(0)));
        assert_written(&run, closed, &whole);
        run.chunk(0).unwrap();
        assert_written(&run, closed, &whole);
        closed += usize::from(run.progress().stage == "products");
        run.close().unwrap();
        assert_written(&run, closed, &whole);
        assert_eq!(run.ritz_record().rounds(), closed);
    }
    assert_eq!(closed as u64, ROUNDS);
}

#[test]
fn a_closing_that_is_refused_leaves_the_record() {
    let ring = Ring::new();
    let graph = ring.graph();
    let whole = spectral_embedding(&graph, DIMS, params()).unwrap().ritz_record;
    let mut run = open_in(&graph, lent_memory(&graph)).unwrap();
    to_products(&mut run);
    assert_eq!(run.close(), Err(Reason::ChunksLeft.at(0)));
    assert_written(&run, 0, &whole);
    run.chunk(0).unwrap();
    run.memory.marks[0] = 2;
    assert_eq!(run.close(), Err(Reason::Damaged.at(0)));
    assert_written(&run, 0, &whole);
    run.memory.marks[0] = 1;
    run.close().unwrap();
    assert_written(&run, 1, &whole);
}

#[test]
fn a_short_record_is_11_at_10_where_a_run_opens() {
    let ring = Ring::new();
    let graph = ring.graph();
    for length in [0, 1, ROUNDS as usize * A_ROUND - 1] {
        let mut memory = lent_memory(&graph);
        memory.ritz_record.truncate(length);
        assert_eq!(open_in(&graph, memory.clone()).err(), Some(Reason::Memory.at(10)), "{length} numbers");
        // Another list that is short is named first.
        memory.output.clear();
        assert_eq!(open_in(&graph, memory).err(), Some(Reason::Memory.at(9)), "{length} numbers");
    }
}

/// What a chunk call and a closing answer if the record has this length; then it is whole again.
fn with_record_of(length: usize, run: &mut Run<'_>) -> [Result<(), Refusal>; 2] {
    let whole = run.memory.ritz_record.clone();
    run.memory.ritz_record.truncate(length);
    let short = run.memory.ritz_record.clone();
    let answers = [run.chunk(0), run.close()];
    assert_eq!(bits(&run.memory.ritz_record), bits(&short), "a refused call leaves it");
    run.memory.ritz_record = whole;
    answers
}

#[test]
fn a_short_record_is_16_in_an_open_run() {
    let ring = Ring::new();
    let graph = ring.graph();
    let mut run = open_in(&graph, lent_memory(&graph)).unwrap();
    let short = [0, 1, ROUNDS as usize * A_ROUND - 1];
    while run.is_open() {
        for length in short {
            assert_eq!(with_record_of(length, &mut run), [Err(Reason::Damaged.at(0)); 2], "{}", run.progress().stage);
        }
        run.chunk(0).unwrap();
        for length in short {
            assert_eq!(with_record_of(length, &mut run), [Err(Reason::Damaged.at(0)); 2], "{}, chunk done", run.progress().stage);
        }
        run.close().unwrap();
    }
    let one = spectral_embedding(&graph, DIMS, params()).unwrap();
    assert!(run.finish().unwrap().ritz_record.same_bits(&one.ritz_record));
}

/// The isolated count that a run over this graph has after its degrees are closed, if it had this one before.
fn isolated_after(graph: &Graph<'_>, before: usize) -> Result<usize, Refusal> {
    let mut run = open_in(graph, lent_memory(graph)).unwrap();
    run.state.counts.isolated = before;
    run.chunk(0)?;
    assert_eq!(run.state.counts.isolated, before, "a chunk leaves it");
    run.close()?;
    Ok(run.state.counts.isolated)
}

#[test]
fn closing_the_degrees_sets_the_isolated_count_whatever_it_was() {
    let mut ring = Ring::new();
    // Rows 0 and 5 sum up to nothing.
    for row in [0, 5] {
        ring.values[2 * row + 1] = -ring.values[2 * row];
    }
    for before in [0, 1, 2, 7, ROWS as usize] {
        assert_eq!(isolated_after(&ring.graph(), before), Ok(2));
    }
    assert_eq!(isolated_after(&ring.graph(), ROWS as usize + 1), Err(Reason::Damaged.at(0)));
}

#[test]
fn no_later_closing_changes_the_isolated_count() {
    let ring = Ring::new();
    let graph = ring.graph();
    let mut run = open_in(&graph, lent_memory(&graph)).unwrap();
    run.chunk(0).unwrap();
    run.close().unwrap();
    run.state.counts.isolated = 5;
    while run.is_open() {
        run.chunk(0).unwrap();
        run.close().unwrap();
        assert_eq!(run.state.counts.isolated, 5);
    }
    assert_eq!(bits(&run.memory.output), bits(&spectral_embedding(&graph, DIMS, params()).unwrap().values));
}
