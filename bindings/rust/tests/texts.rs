//! Run files and answers as bytes: what is written for which numbers, what is read from which bytes, each refusal in its turn, and which bytes
//! of lent text stay.

mod common;

use common::ring::Ring;
use common::{bits, refusal};
use threshcinch::{
    read_run, spectral_embedding, write_answer, write_answer_in, write_run, write_run_in, Counts, Graph, Params, Refusal, RitzRecord,
    RunFile, Seed, ANSWER_BYTES, RUN_FILE_BYTES,
};

/// A byte that is in no text, and another at each place.
fn lent_byte(place: usize) -> u8 {
    0x80 | (place as u8).wrapping_mul(37)
}

fn lent(room: usize) -> Vec<u8> {
    (0..room).map(lent_byte).collect()
}

/// The writer puts just these bytes into lent text, leaves those behind them, and where there is one byte too few leaves all.
fn assert_writes(text: &[u8], write: impl Fn(&mut [u8]) -> Result<usize, Refusal>) {
    for room in [text.len(), text.len() + 1, text.len() + 1000] {
        let mut out = lent(room);
        assert_eq!(write(&mut out), Ok(text.len()));
        assert_eq!(String::from_utf8_lossy(&out[..text.len()]), String::from_utf8_lossy(text));
        assert_eq!(out[text.len()..], lent(room)[text.len()..], "behind the text");
    }
    for room in 0..text.len() {
        let mut out = lent(room);
        assert_eq!(write(&mut out), Err(refusal(18, 0)));
        assert_eq!(out, lent(room), "a refused call leaves all");
    }
}

/// It is refused so, and leaves the text.
fn assert_refused(number: u64, place: u64, write: impl Fn(&mut [u8]) -> Result<usize, Refusal>) {
    for room in [0, 1, RUN_FILE_BYTES] {
        let mut out = lent(room);
        assert_eq!(write(&mut out), Err(refusal(number, place)));
        assert_eq!(out, lent(room), "a refused call leaves all");
    }
}

// ---- run files

const PAPERS: &str = "d=1\nrounds=1\ndegree=1\nseed_std=3f1a36e2eb1c432d\nstarts=0,1\ncolumns=0\nvalues=3ff0000000000000\n";

fn params(rounds: u64, degree: u64, seed_std: f64) -> Params {
    Params::new().rounds(rounds).and_then(|params| params.degree(degree)?.seed_std(seed_std)).expect("in range")
}

#[test]
fn document_01s_file() {
    let graph = Graph::new(&[0, 1], &[0], &[1.0]);
    assert_eq!(write_run(&graph, 1, params(1, 1, 1e-4)).unwrap(), PAPERS.as_bytes());
    assert_writes(PAPERS.as_bytes(), |text| write_run_in(&graph, 1, params(1, 1, 1e-4), text));
}

#[test]
fn extreme_numbers_and_empty_lists() {
    let values = [-0.0, f64::from_bits(1), f64::MAX, f64::MIN];
    let graph = Graph::new(&[0, 3, 3, 4], &[2, 0, 2, 1], &values);
    let text = "d=7\nrounds=400\ndegree=1000\nseed_std=0000000000000001\nstarts=0,3,3,4\ncolumns=2,0,2,1\n\
        values=8000000000000000,0000000000000001,7fefffffffffffff,ffefffffffffffff\n";
    assert_writes(text.as_bytes(), |out| write_run_in(&graph, 7, params(400, 1000, f64::from_bits(1)), out));
    let text = "d=2\nrounds=5\ndegree=20\nseed_std=3f1a36e2eb1c432d\nstarts=0,0\ncolumns=\nvalues=\n";
    assert_writes(text.as_bytes(), |out| write_run_in(&Graph::new(&[0, 0], &[], &[]), 2, Params::new(), out));
}

/// What was read holds these numbers, bit for bit.
fn assert_holds(file: &RunFile, graph: &Graph<'_>, dims: usize, params: Params) {
    assert_eq!((file.dims, file.rounds, file.degree), (dims, params.get_rounds(), params.get_degree()));
    assert_eq!(file.seed_std.to_bits(), params.get_seed_std().to_bits());
    assert_eq!((file.starts.as_slice(), file.columns.as_slice()), (graph.starts, graph.columns));
    assert_eq!(bits(&file.values), bits(graph.values));
}

#[test]
fn both_ways() {
    for rows in 1..=64 {
        let ring = Ring::new(rows, 3, u64::from(rows));
        let (graph, dims) = (ring.graph(), 1 + rows as usize % 7);
        let params = params(1 + 399 * u64::from(rows % 2), u64::from(rows), f64::from_bits(u64::from(rows)));
        let text = write_run(&graph, dims, params).unwrap();
        let file = read_run(&text).unwrap();
        assert_holds(&file, &graph, dims, params);
        assert_eq!(write_run(&file.graph(), file.dims, file.params().unwrap()).unwrap(), text);
    }
}

#[test]
fn a_full_file_fits() {
    let starts: Vec<u64> = (0..65).map(|row| 16 * row).collect();
    let columns: Vec<u32> = (0..1024).map(|entry| 63 - entry % 13).collect();
    let graph = Graph::new(&starts, &columns, &[-1.0; 1024]);
    let text = write_run(&graph, 7, params(400, 1000, 1.0)).unwrap();
    assert!(text.len() <= RUN_FILE_BYTES);
    assert_holds(&read_run(&text).unwrap(), &graph, 7, params(400, 1000, 1.0));
}

#[test]
fn stored_files_are_written_as_they_are() {
    let files: [&[u8]; 3] = [
        include_bytes!("../../../examples/chain-of-blocks.run"),
        include_bytes!("../../../examples/ring.run"),
        include_bytes!("../../../examples/two-moons.run"),
    ];
    for text in files {
        let file = read_run(text).unwrap();
        assert_eq!(write_run(&file.graph(), file.dims, file.params().unwrap()).unwrap(), text);
    }
}

/// Every fault at once, and then one less after the other. Parameters are always in range, so that of them only the rounds can be too many.
#[test]
fn refusals_of_run_files_in_their_order() {
    let (starts, columns, values) = ([1; 66], [2; 1025], [f64::NAN; 1025]);
    let refused = |number, place, graph: Graph<'_>, dims, rounds| {
        assert_refused(number, place, |text| write_run_in(&graph, dims, params(rounds, 1, 1.0), text));
        assert_eq!(write_run(&graph, dims, params(rounds, 1, 1.0)), Err(refusal(number, place)));
    };
    refused(17, 2, Graph::new(&starts, &columns, &values), 0, 401);
    refused(17, 5, Graph::new(&starts, &columns, &values), 0, 400);
    refused(17, 6, Graph::new(&starts[..1], &columns, &values), 0, 400);
    refused(17, 7, Graph::new(&starts[..1], &columns[..1024], &values), 0, 400);
    refused(1, 0, Graph::new(&starts[..1], &columns[..3], &values[..4]), 0, 400);
    refused(1, 0, Graph::new(&starts[..1], &columns[..3], &values[..4]), usize::MAX, 400);
    refused(2, 0, Graph::new(&starts[..1], &columns[..3], &values[..4]), 7, 400);
    refused(4, 0, Graph::new(&starts[..3], &columns[..3], &values[..4]), 7, 400);
    refused(5, 0, Graph::new(&starts[..3], &columns[..3], &values[..3]), 7, 400);
    refused(5, 2, Graph::new(&[0, 3, 2], &columns[..3], &values[..3]), 7, 400);
    refused(5, 2, Graph::new(&[0, 1, 2], &columns[..3], &values[..3]), 7, 400);
    refused(6, 1, Graph::new(&[0, 1, 3], &[1, 2, 2], &values[..3]), 7, 400);
    refused(7, 2, Graph::new(&[0, 1, 3], &[1, 0, 1], &[1.0, 1.0, f64::INFINITY]), 7, 400);
    let whole = Graph::new(&[0, 1, 3], &[1, 0, 1], &[1.0; 3]);
    assert_eq!(write_run_in(&whole, 7, params(400, 1, 1.0), &mut []), Err(refusal(18, 0)));
}

#[test]
fn no_run_files() {
    assert_eq!(read_run(b"").unwrap_err(), refusal(17, 1));
    for length in 0..PAPERS.len() {
        let lines = PAPERS[..length].matches('\n').count() as u64;
        assert_eq!(read_run(&PAPERS.as_bytes()[..length]).unwrap_err(), refusal(17, lines + 1), "cut at {length}");
    }
    for (line, from, to) in [
        (1, "d=1", "d=01"),
        (2, "rounds=1", "rounds=401"),
        (3, "degree=1", "degree="),
        (4, "seed_std=3f1a", "seed_std=3F1A"),
        (5, "starts=0,1", "starts=0,18446744073709551616"),
        (6, "columns=0", "columns=4294967296"),
        (7, "3ff0000000000000\n", "3ff0000000000000,\n"),
        (8, "3ff0000000000000\n", "3ff0000000000000\n\n"),
    ] {
        let text = PAPERS.replace(from, to);
        assert_ne!(text, PAPERS);
        assert_eq!(read_run(text.as_bytes()).unwrap_err(), refusal(17, line), "{to}");
    }
    assert_eq!(read_run(&[b'd'; RUN_FILE_BYTES]).unwrap_err(), refusal(17, 1));
    assert_eq!(read_run(&[b'd'; RUN_FILE_BYTES + 1]).unwrap_err(), refusal(17, 0));
}

/// Reading tests the text alone; what the numbers are is tested where they are used.
#[test]
fn a_file_that_no_run_takes() {
    let text =
        b"d=0\nrounds=0\ndegree=18446744073709551615\nseed_std=fff8000000000001\nstarts=\ncolumns=4294967295,7\nvalues=7ff0000000000000\n";
    let mut file = read_run(text).unwrap();
    assert_eq!((file.dims, file.rounds, file.degree, file.seed_std.is_nan()), (0, 0, u64::MAX, true));
    assert_eq!((file.starts.len(), file.columns.as_slice(), file.values.as_slice()), (0, &[u32::MAX, 7][..], &[f64::INFINITY][..]));
    assert_eq!(file.params(), Err(refusal(8, 0)));
    file.rounds = 1;
    assert_eq!(file.params(), Err(refusal(9, 0)));
    file.degree = 1;
    assert_eq!(file.params(), Err(refusal(10, 0)));
    file.seed_std = 1.0;
    let params = file.params().unwrap();
    assert_eq!(write_run(&file.graph(), file.dims, params), Err(refusal(1, 0)));
    assert_eq!(spectral_embedding(&file.graph(), 1, params).unwrap_err(), refusal(2, 0));
}

// ---- answers

fn counts(passes: usize, refreshed: usize, zeroed: usize, isolated: usize) -> Counts {
    Counts { passes, refreshed, zeroed, isolated }
}

fn seed(rows: usize, dims: usize, values: &[f64], counts: Counts) -> Seed {
    Seed { rows, dims, values: values.to_vec(), counts, ritz_record: RitzRecord::default() }
}

#[test]
fn answers() {
    let nan = f64::from_bits(0xfff0_0000_0000_0001);
    // The last number is behind the seed.
    let some = seed(2, 2, &[1.0, -0.0, nan, f64::NEG_INFINITY, 7.0], counts(1, 20, 300, usize::MAX));
    let text = "answer=0\nn=2\npasses=1\nrefreshed=20\nzeroed=300\nisolated=18446744073709551615\n\
        row=3ff0000000000000,8000000000000000\nrow=7ff8000000000000,fff0000000000000\n";
    assert_writes(text.as_bytes(), |out| write_answer_in(Ok(&some), out));
    assert_eq!(write_answer(Ok(&some)).unwrap(), text.as_bytes());
}

#[test]
fn answers_of_refusals() {
    for (refused, text) in [
        (refusal(5, 2), "answer=5\nat=2\n"),
        (refusal(18, 0), "answer=18\nat=0\n"),
        (refusal(u64::MAX, u64::MAX), "answer=18446744073709551615\nat=18446744073709551615\n"),
    ] {
        assert_writes(text.as_bytes(), |out| write_answer_in(Err(&refused), out));
        assert_eq!(write_answer(Err(&refused)).unwrap(), text.as_bytes());
    }
    let graph = Graph::new(&[0, 1], &[7], &[1.0]);
    assert_eq!(write_answer(spectral_embedding(&graph, 1, Params::new()).as_ref()).unwrap(), b"answer=6\nat=0\n");
}

#[test]
fn refusals_of_answers_in_their_order() {
    let refused = |number, place, rows, dims, numbers| {
        let some = seed(rows, dims, &vec![0.0; numbers], Counts::default());
        assert_refused(number, place, |text| write_answer_in(Ok(&some), text));
        assert_eq!(write_answer(Ok(&some)), Err(refusal(number, place)));
    };
    refused(1, 0, 0, 0, 0);
    refused(1, 0, 65, 8, 0);
    refused(2, 0, 0, 7, 0);
    refused(17, 0, 65, 7, 0);
    refused(17, 0, usize::MAX, 7, 0);
    refused(11, 9, 64, 7, 447);
    let largest = seed(64, 7, &[0.0; 448], counts(usize::MAX, usize::MAX, usize::MAX, usize::MAX));
    assert_eq!(write_answer_in(Ok(&largest), &mut []), Err(refusal(18, 0)));
    assert!(write_answer(Ok(&largest)).unwrap().len() <= ANSWER_BYTES);
}
