//! A request's answer: the seed by the unchanged text, and beside it what only the recording copy shows.

use std::collections::HashSet;

use judge::{Record, Request, Round};

use crate::bits;

/// Which of the conditions under which port and Rust are comparable bit for bit a request meets.
#[derive(Clone, Copy, Debug, PartialEq, Eq)]
pub struct Conditions {
    /// Some row names a column more than once: the Rust's unstable sort may swap equal columns.
    pub twice: bool,
    /// Some Ritz value of some round is NaN: the Rust's order of the Ritz values is then not a total one.
    pub nan: bool,
    /// The last round's first D + 1 Ritz values fall strictly, so no tie reaches the seed.
    pub falls: bool,
    /// Some row has no entries or minus zeros only: its degree is the zero that the library's sum begins with.
    pub empty: bool,
    /// As `nan`, in the last round alone.
    pub nan_last: bool,
}

/// Document 01's four counts, `isolated` as request W3 has it.
#[derive(Clone, Copy, Debug, PartialEq, Eq)]
pub struct Counts {
    pub passes: u64,
    pub refreshed: u64,
    pub zeroed: u64,
    pub isolated: u64,
}

pub struct Answer {
    pub seed: Vec<f64>,
    pub conditions: Conditions,
    pub counts: Counts,
    rounds: Vec<Round>,
}

/// Asks both texts; they must agree in every bit, or what the copy recorded says nothing about the seed.
pub fn solve(request: &Request) -> Result<Answer, String> {
    let seed = judge::seed(request)?;
    let (copied, record) = judge::seed_recorded(request)?;
    if !bits::same(&seed, &copied) {
        return Err("the recording copy gives other bits than document 000".to_owned());
    }
    Ok(Answer {
        seed,
        conditions: conditions(request, &record),
        counts: counts(&record),
        rounds: record.rounds,
    })
}

fn conditions(request: &Request, record: &Record) -> Conditions {
    let has_nan = |ritz: &Vec<f64>| ritz.iter().any(|x| x.is_nan());
    let last = record.rounds.last().map(|round| &round.ritz);
    Conditions {
        twice: (0..request.n()).any(|i| names_twice(&request.columns[request.row(i)])),
        nan: record.rounds.iter().any(|round| has_nan(&round.ritz)),
        falls: last.is_some_and(|ritz| falls(&ritz[..request.d + 1])),
        empty: (0..request.n()).any(|i| sums_to_the_start(&request.values[request.row(i)])),
        nan_last: last.is_some_and(has_nan),
    }
}

fn names_twice(columns: &[u32]) -> bool {
    let mut seen = HashSet::new();
    !columns.iter().all(|c| seen.insert(c))
}

/// A NaN is not above anything, so it does not fall.
fn falls(ritz: &[f64]) -> bool {
    ritz.windows(2).all(|pair| pair[0] > pair[1])
}

/// Adding minus zeros leaves a zero of either sign as it is; adding anything else forgets it.
fn sums_to_the_start(values: &[f64]) -> bool {
    values.iter().all(|v| v.to_bits() == (-0.0f64).to_bits())
}

fn counts(record: &Record) -> Counts {
    Counts {
        passes: record.passes,
        refreshed: record.refreshed,
        zeroed: record.zeroed,
        isolated: record.isolated,
    }
}

impl Conditions {
    /// `name=0` or `name=1`, in the order that every list here uses.
    pub fn words(&self) -> [String; 5] {
        let word = |name: &str, holds: bool| format!("{name}={}", u8::from(holds));
        [
            word("twice", self.twice),
            word("nan", self.nan),
            word("falls", self.falls),
            word("empty", self.empty),
            word("nan_last", self.nan_last),
        ]
    }
}

impl Counts {
    pub fn words(&self) -> [String; 4] {
        [
            format!("passes={}", self.passes),
            format!("refreshed={}", self.refreshed),
            format!("zeroed={}", self.zeroed),
            format!("isolated={}", self.isolated),
        ]
    }
}

impl Answer {
    /// A line a round: the bound that its filter used, and its Ritz values in document 000's order.
    pub fn rounds(&self) -> Vec<String> {
        let line = |r: &Round| format!("bound={} ritz={}", bits::join(&[r.bound]), bits::join(&r.ritz));
        self.rounds.iter().map(line).collect()
    }

    /// Round by round the bound that its filter used, and then its Ritz values in document 000's order: the port's lent memory 10.
    pub fn record(&self) -> impl Iterator<Item = f64> {
        self.rounds.iter().flat_map(|round| std::iter::once(round.bound).chain(round.ritz.iter().copied()))
    }

    /// Conditions and counts on one line.
    pub fn summary(&self) -> String {
        [&self.conditions.words()[..], &self.counts.words()[..]].concat().join(" ")
    }
}

#[cfg(test)]
mod tests {
    use super::*;
    use crate::make;

    #[test]
    fn a_tie_and_a_nan_do_not_fall() {
        assert!(falls(&[1.0, 0.5, -1.0]));
        assert!(!falls(&[1.0, 1.0]));
        assert!(!falls(&[0.0, -0.0]));
        assert!(!falls(&[1.0, f64::NAN]));
        assert!(!falls(&[f64::NAN, 1.0]));
    }

    #[test]
    fn only_minus_zeros_keep_the_start() {
        assert!(sums_to_the_start(&[]));
        assert!(sums_to_the_start(&[-0.0, -0.0]));
        assert!(!sums_to_the_start(&[-0.0, 0.0]));
        assert!(!sums_to_the_start(&[1.0, -1.0]));
    }

    /// The bound before the values is the one that the round's filter used, and not the one that the values set.
    #[test]
    fn a_rounds_record_begins_with_the_bound_that_it_used() {
        for number in [0, 1, 17, 9] {
            let request = Request { rounds: 4, ..make::make(number) };
            let width = request.d + judge::OVERSAMPLE + 1;
            let record: Vec<f64> = solve(&request).unwrap().record().collect();
            assert_eq!(record.len(), request.rounds * width);
            assert_eq!(record[0], 0.75);
            for two in record.chunks(width).collect::<Vec<_>>().windows(2) {
                assert_eq!(two[1][0], two[0][1 + request.d + 1].clamp(0.1, 0.9995));
            }
        }
    }

    /// How many rows are isolated where row 0 holds these values, in columns 0 onward, and each other row links to itself with 1.
    fn isolated_with(values: &[f64]) -> u64 {
        let first: Vec<(u32, f64)> = (0..).zip(values.iter().copied()).collect();
        let others = (1..values.len().max(2) as u32).map(|i| vec![(i, 1.0)]);
        let rows = std::iter::once(first).chain(others).collect();
        solve(&make::request(1, 1, 1, 1e-4, &rows)).unwrap().counts.isolated
    }

    /// The double of 1e-24, and the first one above it whose root is not the same.
    const AT_FLOOR: f64 = 1e-24;
    const ABOVE_FLOOR: f64 = f64::from_bits(AT_FLOOR.to_bits() + 2);

    #[test]
    fn a_root_that_is_not_above_the_floor_isolates_its_row() {
        assert_eq!(AT_FLOOR.sqrt().to_bits(), 1e-12f64.to_bits());
        let rows: [&[f64]; 11] = [
            &[],
            &[0.0],
            &[-0.0, -0.0],
            &[1.0, -1.0],
            &[1e16, 1.0, -1e16],
            &[AT_FLOOR],
            &[AT_FLOOR.next_up()],
            &[f64::from_bits(1)],
            &[-1.0],
            &[-f64::from_bits(1)],
            &[-1e308, -1e308],
        ];
        for row in rows {
            assert_eq!(isolated_with(row), 1, "{row:?}");
        }
    }

    /// The root of 1e24 is 1e12, and so its inverse weight has the bits of 1e-12; an infinite root's is 0.
    #[test]
    fn a_root_above_the_floor_does_not_whatever_its_weight() {
        assert_eq!(ABOVE_FLOOR.sqrt().to_bits(), 1e-12f64.to_bits() + 1);
        assert_eq!((1.0 / 1e24f64.sqrt()).to_bits(), 1e-12f64.to_bits());
        let rows: [&[f64]; 5] = [&[ABOVE_FLOOR], &[1.0], &[1e16, -1e16, 1.0], &[1e24], &[1e308, 1e308]];
        for row in rows {
            assert_eq!(isolated_with(row), 0, "{row:?}");
        }
    }

    #[test]
    fn a_column_apart_from_its_twin_is_found() {
        assert!(names_twice(&[3, 1, 3]));
        assert!(!names_twice(&[3, 1, 2]));
    }
}
