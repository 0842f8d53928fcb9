//! Each refusal that can be met from Rust, with its place: 8, 9 and 10 from the setters (tests/numbers.rs), 17 and 18 from what reads and
//! writes text (tests/texts.rs), 19 from the reader of Matrix Market files (tests/market.rs), the others here.

mod common;

use common::{assert_same_memory, quick, refusal};
use threshcinch::{
    spectral_embedding, spectral_embedding_in, spectral_embedding_with_threads, Graph, Memory, Params, Reason, Refusal, Run,
};

/// All ways to begin refuse the same.
fn begin(graph: Graph<'_>, dims: usize) -> Refusal {
    let params = Params::new();
    let refused = spectral_embedding(&graph, dims, params).expect_err("accepted");
    assert_eq!(Run::open(&graph, dims, params).err(), Some(refused));
    assert_eq!(spectral_embedding_with_threads(&graph, dims, params, 3).err(), Some(refused));
    refused
}

#[test]
fn number_1_dims() {
    let graph = Graph::new(&[0, 0], &[], &[]);
    assert_eq!(begin(graph, 0), refusal(1, 0));
    assert_eq!(begin(graph, 8), refusal(1, 0));
    assert_eq!(begin(graph, usize::MAX), refusal(1, 0));
    // 1 is tested before 2.
    assert_eq!(begin(Graph::new(&[], &[], &[]), 0), refusal(1, 0));
}

#[test]
fn number_2_no_rows() {
    assert_eq!(begin(Graph::new(&[], &[], &[]), 1), refusal(2, 0));
    assert_eq!(begin(Graph::new(&[0], &[], &[]), 1), refusal(2, 0));
}

#[test]
fn number_3_limits() {
    let starts = vec![0; 1_048_576 + 2];
    assert_eq!(begin(Graph::new(&starts, &[], &[]), 1), refusal(3, 0));
    assert_eq!(Memory::lengths_for(1, 1, 1_048_577, 0), Err(refusal(3, 0)));
    assert_eq!(Memory::lengths_for(1, 1, 1, 67_108_865), Err(refusal(3, 0)));
    assert_eq!(Memory::lengths_for(1, 1, usize::MAX, usize::MAX), Err(refusal(3, 0)));
    assert!(Memory::lengths_for(7, 1000, 1_048_576, 67_108_864).is_ok());
}

#[test]
fn number_4_lengths() {
    assert_eq!(begin(Graph::new(&[0, 1], &[0], &[]), 1), refusal(4, 0));
    assert_eq!(begin(Graph::new(&[0, 1], &[0], &[1.0, 1.0]), 1), refusal(4, 0));
}

#[test]
fn number_5_starts() {
    assert_eq!(begin(Graph::new(&[0, 2, 1], &[0], &[1.0]), 1), refusal(5, 2), "case 7");
    assert_eq!(begin(Graph::new(&[1, 1], &[0], &[1.0]), 1), refusal(5, 0));
    assert_eq!(begin(Graph::new(&[0, 0, 2], &[0], &[1.0]), 1), refusal(5, 2));
    assert_eq!(begin(Graph::new(&[0, u64::MAX], &[0], &[1.0]), 1), refusal(5, 1));
}

#[test]
fn number_6_column() {
    assert_eq!(begin(Graph::new(&[0, 1], &[1], &[f64::NAN]), 1), refusal(6, 0), "case 8");
    assert_eq!(begin(Graph::new(&[0, 2], &[0, u32::MAX], &[1.0, 1.0]), 1), refusal(6, 1));
}

#[test]
fn number_7_value() {
    assert_eq!(begin(Graph::new(&[0, 1], &[0], &[f64::NAN]), 1), refusal(7, 0), "case 8");
    assert_eq!(begin(Graph::new(&[0, 3], &[0, 0, 0], &[1.0, -1.0, f64::NEG_INFINITY]), 1), refusal(7, 2));
}

#[test]
fn number_8_rounds_of_lent_sizes() {
    for rounds in [0, 1001, u64::MAX] {
        assert_eq!(Memory::lengths_for(1, rounds, 1, 0), Err(refusal(8, 0)));
        assert_eq!(Memory::new(7, rounds, 1_048_576, 67_108_864).err(), Some(refusal(8, 0)));
        // 1, 2 and 3 come first.
        assert_eq!(Memory::lengths_for(0, rounds, 0, 67_108_865), Err(refusal(1, 0)));
        assert_eq!(Memory::lengths_for(1, rounds, 0, 67_108_865), Err(refusal(2, 0)));
        assert_eq!(Memory::lengths_for(1, rounds, 1, 67_108_865), Err(refusal(3, 0)));
    }
}

/// Takes one element from a list of the memory.
type Shorten = fn(&mut Memory);

fn cut<T>(list: &mut Vec<T>) {
    list.truncate(list.len() - 1);
}

#[test]
fn number_11_memory() {
    let graph = Graph::new(&[0, 1], &[0], &[1.0]);
    let shorten: [Shorten; 11] = [
        |memory| cut(&mut memory.inverse),
        |memory| cut(&mut memory.v0),
        |memory| cut(&mut memory.edge_columns),
        |memory| cut(&mut memory.edge_weights),
        |memory| cut(&mut memory.block0),
        |memory| cut(&mut memory.block1),
        |memory| cut(&mut memory.block2),
        |memory| cut(&mut memory.partials),
        |memory| cut(&mut memory.marks),
        |memory| cut(&mut memory.output),
        |memory| cut(&mut memory.ritz_record),
    ];
    for (place, shorten) in shorten.iter().enumerate() {
        let mut memory = Memory::for_graph(&graph, 1, quick()).unwrap();
        memory.ritz_record.fill(-7.0);
        shorten(&mut memory);
        let before = memory.clone();
        assert_eq!(spectral_embedding_in(&graph, 1, quick(), &mut memory), Err(refusal(11, place as u64)));
        assert_same_memory(&memory, &before);
        // Of two short lists the first is named.
        cut(&mut memory.ritz_record);
        assert_eq!(spectral_embedding_in(&graph, 1, quick(), &mut memory), Err(refusal(11, place as u64)));
    }
    assert_eq!(spectral_embedding_in(&graph, 1, quick(), &mut Memory::default()), Err(refusal(11, 0)));
}

#[test]
fn numbers_12_to_15_one_chunk() {
    let graph = Graph::new(&[0, 1], &[0], &[1.0]);
    let mut run = Run::open(&graph, 1, quick()).unwrap();
    assert_eq!(run.chunk_count(), 1);
    assert_eq!(run.close(), Err(refusal(14, 0)));
    assert_eq!(run.chunk(0), Ok(()));
    assert_eq!(run.chunk(0), Err(refusal(13, 0)), "case 10");
    assert_eq!(run.chunk(1), Err(refusal(12, 1)), "case 10");
    assert_eq!(run.chunk(usize::MAX), Err(refusal(12, u64::MAX)));
    assert_eq!(run.close(), Ok(()));
    while run.is_open() {
        run.chunk(0).unwrap();
        run.close().unwrap();
    }
    assert_eq!(run.chunk(0), Err(refusal(15, 0)));
    assert_eq!(run.close(), Err(refusal(15, 0)));
}

#[test]
fn number_14_names_the_lowest_chunk() {
    let starts = vec![0; 9001];
    let mut run = Run::open(&Graph::new(&starts, &[], &[]), 1, quick()).unwrap();
    assert_eq!(run.chunk_count(), 3);
    run.chunk(0).unwrap();
    run.chunk(2).unwrap();
    assert_eq!(run.close(), Err(refusal(14, 1)));
    assert_eq!(run.chunk(2), Err(refusal(13, 2)));
    assert_eq!(run.chunk(3), Err(refusal(12, 3)));
}

#[test]
fn words() {
    let all: std::collections::HashSet<&str> = (1..=19).map(|number| refusal(number, 0).words()).collect();
    assert_eq!(all.len(), 19, "each has words of its own");
    assert!(!all.contains(refusal(0, 0).words()) && refusal(20, 0).words() == refusal(0, 0).words());
    assert_eq!(refusal(6, 4).to_string(), "refusal 6: a column is not below the number of rows (entry 4)");
    assert_eq!(refusal(15, 0).to_string(), "refusal 15: no run is open");
    assert_eq!(refusal(17, 2).to_string(), "refusal 17: the text is not a run file, or more than one holds (line 2)");
    assert_eq!(refusal(18, 0).to_string(), "refusal 18: the text has too little room");
    assert_eq!(
        refusal(19, 4).to_string(),
        "refusal 19: the text is not a Matrix Market file of the kind coordinate pattern symmetric (line 4)"
    );
    let _: &dyn std::error::Error = &refusal(1, 0);
}

const HEADER: &str = include_str!("../../../include/threshcinch.h");

/// What stands between the two texts, on the header's first line that has both.
fn header_line(before: &str, after: &str) -> Option<&'static str> {
    HEADER.lines().find_map(|line| line.trim().strip_prefix(before)?.split_once(after).map(|(between, _)| between))
}

/// `NoRows` as the header writes it: `NO_ROWS`.
fn header_name(reason: Reason) -> String {
    let mut name = String::new();
    for letter in format!("{reason:?}").chars() {
        if letter.is_uppercase() && !name.is_empty() {
            name.push('_');
        }
        name.push(letter.to_ascii_uppercase());
    }
    name
}

#[test]
fn reasons_are_the_headers() {
    for number in 1..=19 {
        let reason = Reason::of_number(number).expect("a reason for each number");
        assert_eq!(reason.number(), number);
        // The last one has no comma.
        let named = header_line(&format!("THRESHCINCH_{} = ", header_name(reason)), " ").map(|named| named.trim_end_matches(','));
        assert_eq!(named, Some(number.to_string().as_str()), "{reason:?} in the header");
        assert_eq!(header_line(&format!("case {number}: return \""), "\";"), Some(reason.words()));
    }
    assert!([0, 20, u64::MAX].into_iter().all(|number| Reason::of_number(number).is_none()));
}

#[test]
fn a_refusal_has_its_reason() {
    assert_eq!(begin(Graph::new(&[0, 1], &[1], &[1.0]), 1).reason(), Some(Reason::Column));
    assert_eq!(Params::new().rounds(0).unwrap_err().reason(), Some(Reason::Rounds));
    assert_eq!(Params::new().degree(1001).unwrap_err().reason(), Some(Reason::Degree));
    assert_eq!(Params::new().seed_std(f64::NAN).unwrap_err().reason(), Some(Reason::SeedStd));
    assert_eq!(refusal(20, 3).reason(), None);
}
