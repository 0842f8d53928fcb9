//! The fixed list of run files: numbers for `make`, and a few named files.

use judge::Request;

use crate::{
    bits, make,
    rng::{fraction, splitmix},
    runfile, solve,
};

type Build = fn() -> Request;

/// Files that document 01 names, and ones at its limits.
const NAMED: [(&str, Build); 14] = [
    ("sample", sample),
    ("case11", case_11),
    ("case12", case_12),
    ("rounds1000", || Request { rounds: 1000, ..of_number(112, 2) }),
    ("degree1000", || Request { degree: 1000, ..of_number(113, 2) }),
    ("std-least", || Request { seed_std: f64::from_bits(1), ..of_number(224, 3) }),
    ("std-most", || Request { seed_std: f64::MAX, ..of_number(224, 3) }),
    ("defaults", || Request { rounds: 5, degree: 20, seed_std: 1e-4, ..of_number(224, 2) }),
    ("no-entries64", || no_entries(64, 7)),
    ("minus-zeros", minus_zeros),
    ("nan-not-last", nan_not_last),
    ("twice32", || repeated_columns(32)),
    ("twice33", || repeated_columns(33)),
    ("one-self-link", || Request { d: 7, rounds: 3, degree: 4, ..sample() }),
];

/// Multi-chunk graphs: rows, number, D, rounds, degree.
pub const BIG: [[u64; 5]; 12] = [
    [4096, 1, 1, 1, 1],
    [4096, 2, 2, 2, 3],
    [4096, 3, 7, 1, 2],
    [4096, 4, 2, 1, 30],
    [4097, 1, 1, 1, 1],
    [4097, 2, 2, 2, 3],
    [4097, 3, 7, 1, 2],
    [4097, 4, 1, 2, 30],
    [9000, 1, 1, 1, 1],
    [9000, 2, 2, 2, 3],
    [9000, 3, 3, 3, 5],
    [9000, 4, 3, 2, 30],
];

/// Every label of the fixed list, in the stored order.
pub fn labels() -> Vec<String> {
    let named = NAMED.iter().map(|(name, _)| (*name).to_owned());
    let numbered = (0..make::ONCE).map(|number| number.to_string());
    named.chain(numbered).collect()
}

/// The request of a label: a decimal number or a name.
pub fn request(label: &str) -> Result<Request, String> {
    if let Some((_, build)) = NAMED.iter().find(|(name, _)| *name == label) {
        return Ok(build());
    }
    let names = || NAMED.map(|(name, _)| name).join(", ");
    let number: u64 = label
        .parse()
        .map_err(|_| format!("{label:?} is neither a number below 2^64 nor one of {}", names()))?;
    Ok(make::make(number))
}

/// One block of the stored list, without the blank line that ends it.
pub fn block(label: &str) -> Result<String, String> {
    block_of(label, &request(label)?)
}

pub fn block_of(label: &str, request: &Request) -> Result<String, String> {
    let answer = solve::solve(request)?;
    Ok(format!(
        "case {label} {}\n{}{}",
        answer.summary(),
        runfile::print(request),
        bits::rows(&answer.seed, request.d)
    ))
}

fn of_number(number: u64, d: usize) -> Request {
    Request { d, ..make::make(number) }
}

/// The file that document 01 prints in full.
fn sample() -> Request {
    Request {
        d: 1,
        rounds: 1,
        degree: 1,
        seed_std: 1e-4,
        starts: vec![0, 1],
        columns: vec![0],
        values: vec![1.0],
    }
}

fn no_entries(n: usize, d: usize) -> Request {
    Request { d, starts: vec![0; n + 1], columns: vec![], values: vec![], ..sample() }
}

/// Document 01, "Numbers to check", 11.
fn case_11() -> Request {
    no_entries(1, 1)
}

/// Document 01, "Numbers to check", 12.
fn case_12() -> Request {
    Request { starts: vec![0, 2, 3], columns: vec![0, 1, 0], values: vec![1e308; 3], ..sample() }
}

/// Rows of minus zeros only beside rows that hold something.
fn minus_zeros() -> Request {
    Request {
        d: 2,
        rounds: 2,
        degree: 3,
        starts: vec![0, 2, 4, 6, 7],
        columns: vec![1, 2, 0, 2, 0, 1, 3],
        values: vec![0.5, 0.25, 0.5, 0.125, 0.25, 0.125, -0.0],
        ..sample()
    }
}

/// The Ritz values of the first two rounds are NaN and those of the last are not; found by search.
fn nan_not_last() -> Request {
    Request {
        d: 3,
        rounds: 3,
        degree: 3,
        starts: vec![0, 1, 5, 6, 7],
        columns: vec![2, 0, 1, 2, 3, 2, 0],
        values: vec![1e154, 1e200, 1e-12, f64::MAX, -1e308, 1.0, 0.5],
        ..sample()
    }
}

/// Four rows of `len` entries each, columns falling round and round: with one entry more than 32 this library's
/// unstable sort leaves the input order of equal columns.
fn repeated_columns(len: usize) -> Request {
    let n = 4;
    Request {
        starts: (0..=n).map(|i| i * len).collect(),
        columns: (0..n * len).map(|e| (n - 1 - e % n) as u32).collect(),
        values: (0..n * len).map(|e| fraction(splitmix(e as u64))).collect(),
        ..sample()
    }
}

#[cfg(test)]
mod tests {
    use super::*;
    use crate::{big, solve::Counts};

    #[test]
    fn nan_not_last_is_what_it_is_named_for() {
        let conditions = solved("nan-not-last").conditions;
        assert!(conditions.nan && !conditions.nan_last);
    }

    /// `solve` fails where the recording copy gives other bits than the unchanged text.
    #[test]
    fn the_recording_copy_agrees_on_the_whole_list() {
        for label in labels() {
            solved(&label);
        }
    }

    /// What the copy counted in its two cases, and the roots of the degrees that it showed.
    #[test]
    fn the_isolated_rows_are_those_of_the_degrees() {
        let mut with_entries = 0;
        for label in labels() {
            let request = request(&label).unwrap();
            let (_, record) = judge::seed_recorded(&request).unwrap();
            let above = record.degrees.iter().filter(|degree| degree.sqrt() > 1e-12).count();
            assert_eq!(record.isolated, (request.n() - above) as u64, "{label}");
            let empty = (0..request.n()).filter(|&i| request.row(i).is_empty()).count();
            with_entries += usize::from(record.isolated > empty as u64);
        }
        assert!(with_entries > 0, "no row of the list has entries and is isolated");
    }

    #[test]
    fn the_number_of_threads_changes_no_bit() {
        let big = big::request([9000, 2, 2, 2, 3]).unwrap();
        let some = ["0", "122", "239", "300", "335"].map(|label| request(label).unwrap());
        for request in some.iter().chain([&big]) {
            let plain = bits::join(&judge::seed(request).unwrap());
            for threads in [1, 2, 5] {
                let seed = judge::on_threads(threads, || judge::seed(request)).unwrap().unwrap();
                assert_eq!(bits::join(&seed), plain);
            }
        }
    }

    fn solved(label: &str) -> solve::Answer {
        solve::solve(&request(label).unwrap()).unwrap()
    }

    /// Document 01 prints this file and its whole output.
    #[test]
    fn document_01s_sample() {
        let answer = solved("sample");
        assert_eq!(bits::rows(&answer.seed, 1), "row=0000000000000000\n");
        let counts = Counts { passes: 2, refreshed: 9, zeroed: 9, isolated: 0 };
        assert_eq!(answer.counts, counts);
    }

    #[test]
    fn document_01s_case_11() {
        let answer = solved("case11");
        assert_eq!(answer.seed, [0.0]);
        let counts = Counts { passes: 2, refreshed: 8, zeroed: 8, isolated: 1 };
        assert_eq!(answer.counts, counts);
    }

    #[test]
    fn document_01s_case_12() {
        let (seed, record) = judge::seed_recorded(&request("case12").unwrap()).unwrap();
        assert_eq!(record.degrees[0], f64::INFINITY);
        assert!(record.v0.iter().any(|x| x.is_nan()));
        assert_eq!((record.zeroed, record.isolated), (9, 0));
        assert!(seed.iter().all(|x| x.to_bits() == 0));
    }

    #[test]
    fn labels_differ_and_each_has_a_request() {
        let all = labels();
        let once: std::collections::HashSet<&String> = all.iter().collect();
        assert_eq!(once.len(), all.len());
        assert!(all.len() >= 300);
        assert!(all.iter().all(|label| request(label).is_ok()));
        assert!(request("nothing").is_err());
    }
}
