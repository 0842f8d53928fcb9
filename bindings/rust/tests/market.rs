//! Matrix Market files as bytes: which graphs they are read as, and each refusal in its turn.

mod common;

use common::{bits, refusal};
use threshcinch::{read_matrix_market, spectral_embedding, OwnedGraph, Params, Refusal};

const BANNER: &str = "%%MatrixMarket matrix coordinate pattern symmetric\n";

/// What stands behind the banner.
fn read(lines: &str) -> Result<OwnedGraph, Refusal> {
    read_matrix_market(format!("{BANNER}{lines}").as_bytes())
}

/// What was read has these lists, and every value 1.0.
fn assert_graph(read: &OwnedGraph, starts: &[u64], columns: &[u32]) {
    assert_eq!((read.starts.as_slice(), read.columns.as_slice()), (starts, columns));
    assert_eq!(bits(&read.values), vec![1f64.to_bits(); columns.len()]);
}

#[test]
fn forms_of_a_file() {
    for lines in [
        "3 3 2\n2 1\n3 3\n",
        "3 3 2\n3 3\n2 1\n",
        "3 3 2\n2 1\n3 3",
        "3 3 2\r\n2 1\r\n3 3\r\n",
        "% a comment\n%\n\n \t3\t3  2 \n\n02 1\t\n \n3 00003\n\n",
    ] {
        assert_graph(&read(lines).unwrap(), &[0, 1, 2, 3], &[1, 0, 2]);
    }
    let banner = b"%%MatrixMarket\tMATRIX Coordinate pAttERN  symmetriC \r\n%\xff\0\n1 1 1\n1 1";
    assert_graph(&read_matrix_market(banner).unwrap(), &[0, 1], &[0]);
}

#[test]
fn few_entries_or_none() {
    assert_graph(&read("1 1 0\n").unwrap(), &[0, 0], &[]);
    assert_graph(&read("3 3 0\n").unwrap(), &[0, 0, 0, 0], &[]);
    assert_graph(&read("1 1 1\n1 1\n").unwrap(), &[0, 1], &[0]);
}

/// A diagonal entry is placed once, so that the room that was asked for is more than is needed.
#[test]
fn diagonal_entries() {
    let read = read("4 4 5\n1 1\n2 2\n3 3\n4 4\n4 1\n").unwrap();
    assert_graph(&read, &[0, 2, 3, 4, 6], &[0, 3, 1, 2, 0, 3]);
}

/// Whether row and column, from 1, are an entry of the graph of that number.
fn is_entry(number: u64, row: u64, column: u64) -> bool {
    (number + 1).wrapping_mul(0x9e37_79b9_7f4a_7c15).wrapping_add(row * 977 + column).wrapping_mul(0xbf58_476d_1ce4_e5b9) >> 62 == 0
}

/// Entries of the lower triangle by rule: in the order of rows, of columns, or neither.
fn entries(number: u64, rows: u64) -> Vec<(u64, u64)> {
    let mut entries: Vec<(u64, u64)> = (1..=rows).flat_map(|row| (1..=row).map(move |column| (row, column))).collect();
    entries.retain(|&(row, column)| is_entry(number, row, column));
    match number % 3 {
        0 => {}
        1 => entries.sort_by_key(|&(row, column)| (column, row)),
        _ => entries.sort_by_key(|&(row, column)| (row * 7919 + column * 104_729) % 1009),
    }
    entries
}

fn text_of(rows: u64, entries: &[(u64, u64)]) -> String {
    let lines: String = entries.iter().map(|(row, column)| format!("{row} {column}\n")).collect();
    format!("{rows} {rows} {}\n{lines}", entries.len())
}

#[test]
fn graphs_by_rule() {
    for number in 0..60 {
        let rows = 1 + number * 5 % 47;
        let entries = entries(number, rows);
        let is_linked = |row: u64, column: u64| is_entry(number, row.max(column), row.min(column));
        let (mut starts, mut columns) = (vec![0], Vec::new());
        for row in 1..=rows {
            columns.extend((1..=rows).filter(|&column| is_linked(row, column)).map(|column| column as u32 - 1));
            starts.push(columns.len() as u64);
        }
        assert_graph(&read(&text_of(rows, &entries)).unwrap(), &starts, &columns);
    }
}

/// The later of two equal lines is named, however far apart they are and in whatever order the others stand.
#[test]
fn repeats() {
    for number in 0..60 {
        let mut entries = entries(number, 40);
        let (later, sooner) = (entries.len() - 1 - number as usize % 5, number as usize % 7);
        entries[later] = entries[sooner];
        assert_eq!(read(&text_of(40, &entries)), Err(refusal(19, later as u64 + 3)), "graph {number}");
    }
}

#[test]
fn number_19_the_first_line_at_fault() {
    assert_eq!(read_matrix_market(b""), Err(refusal(19, 1)));
    assert_eq!(read_matrix_market(b"%%MatrixMarket matrix coordinate real symmetric\n1 1 0\n"), Err(refusal(19, 1)));
    assert_eq!(read_matrix_market(b"%%matrixmarket matrix coordinate pattern symmetric\n1 1 0\n"), Err(refusal(19, 1)));
    assert_eq!(read_matrix_market(format!(" {BANNER}1 1 0\n").as_bytes()), Err(refusal(19, 1)));
    for (line, lines) in [
        (2, ""),
        (3, "% a comment\n"),
        (2, "% a carriage\rreturn\n1 1 0\n"),
        (2, "2 3 1\n1 1\n"),
        (2, "1 1 2\n1 1\n1 1\n"),
        (2, "0 0 3\n"),
        (2, "18446744073709551616 18446744073709551616 0\n"),
        (3, "3 3 1\n"),
        (3, "3 3 1\n% no comment here\n1 1\n"),
        (3, "3 3 1\n1 2\n"),
        (3, "3 3 1\n1 0\n"),
        (3, "3 3 1\n4 1\n"),
        (3, "3 3 1\n1 1 1\n"),
        (3, "3 3 1\n1 1\r"),
        (4, "3 3 1\n1 1\n2 1\n"),
        (4, "3 3 2\n2 1\n2 1\n"),
    ] {
        assert_eq!(read(lines), Err(refusal(19, line)), "{lines:?}");
    }
}

#[test]
fn lines_of_1024_bytes() {
    for end in ["\n", "\r\n"] {
        assert!(read(&format!("%{}{end}1 1 0{end}", "x".repeat(1023))).is_ok());
        assert_eq!(read(&format!("%{}{end}1 1 0{end}", "x".repeat(1024))), Err(refusal(19, 2)));
    }
}

#[test]
fn numbers_2_and_3() {
    assert_eq!(read("0 0 0\n"), Err(refusal(2, 0)));
    assert_eq!(read("1048577 1048577 0\n"), Err(refusal(3, 0)));
    assert_eq!(read("18446744073709551615 18446744073709551615 0\n"), Err(refusal(3, 0)));
    assert_eq!(read("1048576 1048576 0\n").unwrap().starts, vec![0; 1_048_577]);
}

/// The small call stops at the size line; what it refuses there, a later line may still be at fault of.
#[test]
fn number_19_comes_before_2_and_3() {
    assert_eq!(read("0 0 0\n1 1\n"), Err(refusal(19, 3)));
    assert_eq!(read("1048577 1048577 1\n1 2\n"), Err(refusal(19, 3)));
    assert_eq!(read("1048576 1048576 67108865\n1 1\n"), Err(refusal(19, 4)));
}

/// A size line asks for as much as there may be; nothing of it is touched where the entries are missing.
#[test]
fn a_size_line_that_says_much() {
    assert_eq!(read("1048576 1048576 67108864\n1 1\n"), Err(refusal(19, 4)));
}

#[test]
fn a_run_over_it() {
    let read = read("4 4 4\n2 1\n3 2\n4 3\n4 1\n").unwrap();
    let by_hand = OwnedGraph { starts: vec![0, 2, 4, 6, 8], columns: vec![1, 3, 0, 2, 1, 3, 0, 2], values: vec![1.0; 8] };
    assert_eq!(read, by_hand);
    let seed = spectral_embedding(&read.graph(), 1, Params::new()).unwrap();
    assert_eq!(bits(&seed.values), bits(&spectral_embedding(&by_hand.graph(), 1, Params::new()).unwrap().values));
}
