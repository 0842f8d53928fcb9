//! Graphs of many rows from a rule that another program can repeat; the README states it.

use std::fmt::Write;

use judge::Request;

use crate::{
    bits,
    rng::{fraction, splitmix},
    solve,
};

/// A ring links each row with this many rows on either side.
const REACH: usize = 4;

/// Numbers that are multiples of four make hubs: each row after the first four is linked with two of those four.
/// So few directions carry weight that a strong filter makes columns collapse, which a ring does not.
const HUBS: usize = 4;

/// A row, a column and the number must each keep to its own bits of the hashed index.
const ROW_BITS: u32 = 20;
const NUMBER_LIMIT: u64 = 1 << (64 - 2 * ROW_BITS);

const SHOWN_ROWS: [usize; 3] = [0, 4095, 4096];

pub fn request(args: [u64; 5]) -> Result<Request, String> {
    let [n, number, d, rounds, degree] = args;
    let least = 2 * REACH as u64 + 1;
    if n < least || n > 1 << ROW_BITS {
        return Err(format!("N is {n}, not {least} to {}", 1u64 << ROW_BITS));
    }
    if number >= NUMBER_LIMIT {
        return Err(format!("NUMBER is {number}, not below {NUMBER_LIMIT}"));
    }
    let n = n as usize;
    let small =
        |name: &str, x: u64| usize::try_from(x).map_err(|_| format!("{name} is {x}, which is too large"));
    let rows: Vec<Vec<usize>> = match number % 4 {
        0 => (0..n).map(|i| hub_row(n, i)).collect(),
        _ => (0..n).map(|i| ring_row(n, i)).collect(),
    };
    let entries = || rows.iter().enumerate().flat_map(|(i, row)| row.iter().map(move |&j| (i, j)));
    let request = Request {
        d: small("D", d)?,
        rounds: small("ROUNDS", rounds)?,
        degree: small("DEGREE", degree)?,
        seed_std: 1e-4,
        starts: starts(&rows),
        columns: entries().map(|(_, j)| j as u32).collect(),
        values: entries().map(|(i, j)| weight(number, i as u64, j as u64)).collect(),
    };
    request.fault().map_or(Ok(request), Err)
}

/// Near before far and up before down, so the columns do not rise and the port's sort has work.
fn ring_row(n: usize, i: usize) -> Vec<usize> {
    (1..=REACH).flat_map(|s| [(i + s) % n, (i + n - s) % n]).collect()
}

fn hub_row(n: usize, i: usize) -> Vec<usize> {
    let hubs = |j: usize| [(j + 1) % HUBS, j % HUBS];
    if i < HUBS { (HUBS..n).filter(|&j| hubs(j).contains(&i)).collect() } else { hubs(i).to_vec() }
}

fn starts(rows: &[Vec<usize>]) -> Vec<usize> {
    let mut starts = vec![0];
    for row in rows {
        starts.push(starts[starts.len() - 1] + row.len());
    }
    starts
}

/// In [0, 1), the same for (i, j) and (j, i).
fn weight(number: u64, i: u64, j: u64) -> f64 {
    let index = (number << (2 * ROW_BITS)) + (i.min(j) << ROW_BITS) + i.max(j);
    fraction(splitmix(index))
}

/// The printed answer: parameters, conditions and counts, digest, some rows.
pub fn answer(args: [u64; 5]) -> Result<String, String> {
    let request = request(args)?;
    let answer = solve::solve(&request)?;
    let mut text = format!(
        "big {}\n{}\ndigest={:016x}\n",
        args.map(|x| x.to_string()).join(" "),
        answer.summary(),
        bits::digest(&answer.seed)
    );
    let last = request.n() - 1;
    let mut shown: Vec<usize> = SHOWN_ROWS.into_iter().filter(|&i| i < last).collect();
    shown.push(last);
    for i in shown {
        let row = &answer.seed[i * request.d..(i + 1) * request.d];
        // Writing to a String cannot fail.
        let _ = writeln!(text, "row {i}={}", bits::join(row));
    }
    Ok(text)
}

#[cfg(test)]
mod tests {
    use super::*;

    #[test]
    fn the_graph_is_symmetric_and_names_no_column_twice() {
        for (n, number) in [(9, 5), (10, 5), (64, 5), (9, 4), (64, 4)] {
            let r = request([n, number, 1, 1, 1]).unwrap();
            let value = |i: usize, j: usize| {
                let mut at = r.row(i).filter(|&e| r.columns[e] as usize == j);
                let found = at.next().map(|e| r.values[e].to_bits());
                assert!(at.next().is_none());
                found
            };
            for i in 0..r.n() {
                assert!(value(i, i).is_none());
                for j in 0..i {
                    assert_eq!(value(i, j), value(j, i));
                }
            }
        }
    }

    #[test]
    fn limits_are_told() {
        for args in [
            [8, 0, 1, 1, 1],
            [1 << 21, 0, 1, 1, 1],
            [9, 1 << 24, 1, 1, 1],
            [9, 0, 0, 1, 1],
            [9, 0, 8, 1, 1],
            [9, 0, 1, 0, 1],
            [9, 0, 1, 1, 1001],
        ] {
            assert!(request(args).is_err(), "{args:?}");
        }
        assert!(request([9, 0, 7, 1, 1]).is_ok());
    }
}
