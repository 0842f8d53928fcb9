//! Run files made from a number. The README states the rule; a change here makes every stored vector old.

use std::collections::BTreeMap;

use judge::Request;

use crate::{
    rng::{Rng, power_of_two},
    runfile::{MAX_ENTRIES, MAX_ROWS},
};

pub type Rows = Vec<Vec<(u32, f64)>>;

/// Rows whose columns rise and differ.
pub type Links = Vec<BTreeMap<u32, f64>>;

pub type Family = fn(&mut Rng, usize) -> Rows;

const FAMILIES: [(&str, Family); 16] = [
    ("neighbours", |rng, n| sorted(neighbours(rng, n))),
    ("ring", |rng, n| sorted(ring(rng, n, Rng::weight))),
    ("blocks", |rng, n| sorted(blocks(rng, n))),
    ("empty", empty),
    ("negative", |rng, n| sorted(ring(rng, n, Rng::signed))),
    ("huge", huge),
    ("tiny", tiny),
    ("mixed", |rng, n| sorted(ring(rng, n, any_scale))),
    ("minus-zero", |rng, n| sorted(ring(rng, n, often_minus_zero))),
    ("shuffled", shuffled),
    ("twice", twice),
    ("asymmetric", asymmetric),
    ("regular", |rng, n| sorted(regular(rng, n))),
    ("small", small),
    ("dense", |rng, n| sorted(dense(rng, n.min(32)))),
    ("overflow", overflow),
];

/// Bands of row counts; each of them meets every family at every D.
const BANDS: [(usize, usize); 3] = [(1, 12), (13, 36), (37, MAX_ROWS)];

/// Numbers 0 to this, exclusive, meet every family at every D in every band once.
pub const ONCE: u64 = (FAMILIES.len() * judge::MAX_D * BANDS.len()) as u64;

/// The families in the order of the numbers that meet them.
pub fn families() -> [&'static str; FAMILIES.len()] {
    FAMILIES.map(|(name, _)| name)
}

fn place(number: u64, among: u64) -> usize {
    (number % among) as usize
}

/// The request of a number.
pub fn make(number: u64) -> Request {
    let kinds = FAMILIES.len() as u64;
    let widths = judge::MAX_D as u64;
    let (low, high) = BANDS[place(number / kinds / widths, BANDS.len() as u64)];
    let mut rng = Rng::new(number);
    let rounds = rng.pick(&[1, 1, 2, 2, 3, 5]);
    let degree = rng.pick(&[1, 2, 3, 5, 8, 20]);
    let seed_std = seed_std(&mut rng);
    let n = rng.between(low, high);
    let rows = FAMILIES[place(number, kinds)].1(&mut rng, n);
    request(1 + place(number / kinds, widths), rounds, degree, seed_std, &rows)
}

pub fn request(d: usize, rounds: usize, degree: usize, seed_std: f64, rows: &Rows) -> Request {
    let mut starts = vec![0];
    for row in rows {
        starts.push(starts[starts.len() - 1] + row.len());
    }
    let entries = || rows.iter().flatten();
    Request {
        d,
        rounds,
        degree,
        seed_std,
        starts,
        columns: entries().map(|&(column, _)| column).collect(),
        values: entries().map(|&(_, value)| value).collect(),
    }
}

pub fn seed_std(rng: &mut Rng) -> f64 {
    match rng.below(20) {
        0..=9 => 1e-4,
        10..=12 => 1.0,
        13..=16 => rng.weight() * rng.power_of_two(-40, 40),
        17 => rng.pick(&[1e-300, 1e300]),
        18 => f64::from_bits(1),
        _ => f64::MAX,
    }
}

pub fn no_links(n: usize) -> Links {
    vec![BTreeMap::new(); n]
}

/// Both directions, so that the graph stays symmetric.
pub fn link(links: &mut Links, i: usize, j: usize, value: f64) {
    links[i].insert(j as u32, value);
    links[j].insert(i as u32, value);
}

pub fn sorted(links: Links) -> Rows {
    links.into_iter().map(|row| row.into_iter().collect()).collect()
}

/// Points in a square; each names its 2 to 6 nearest, and a pair's value is the mean of both directions over n, as in t-SNE.
fn neighbours(rng: &mut Rng, n: usize) -> Links {
    let most = rng.between(2, 6);
    let points: Vec<(f64, f64)> = (0..n).map(|_| (rng.signed(), rng.signed())).collect();
    let mut links = no_links(n);
    for i in 0..n {
        for (distance, j) in nearest(&points, i).into_iter().take(most) {
            let value = 1.0 / (1.0 + 8.0 * distance) / (2.0 * n as f64);
            let both = value + links[i].get(&(j as u32)).copied().unwrap_or(0.0);
            link(&mut links, i, j, both);
        }
    }
    links
}

fn nearest(points: &[(f64, f64)], i: usize) -> Vec<(f64, usize)> {
    let squared = |j: usize| {
        let (x, y) = (points[i].0 - points[j].0, points[i].1 - points[j].1);
        x * x + y * y
    };
    let mut others: Vec<(f64, usize)> =
        (0..points.len()).filter(|&j| j != i).map(|j| (squared(j), j)).collect();
    others.sort_by(|a, b| a.0.total_cmp(&b.0).then(a.1.cmp(&b.1)));
    others
}

/// Each row with the 1 to 3 rows after it round the ring; one row in two also with any row, itself included.
pub fn ring(rng: &mut Rng, n: usize, value: fn(&mut Rng) -> f64) -> Links {
    let reach = rng.between(1, 3);
    let mut links = no_links(n);
    for i in 0..n {
        for step in 1..=reach {
            let j = (i + step) % n;
            if j != i {
                let value = value(rng);
                link(&mut links, i, j, value);
            }
        }
        if rng.once_in(2) {
            let j = rng.below(n);
            let value = value(rng);
            link(&mut links, i, j, value);
        }
    }
    links
}

/// 2 to 12 components, each a path with some more links inside.
pub fn blocks(rng: &mut Rng, n: usize) -> Links {
    let parts = rng.between(2, 12);
    let part = |i: usize| i * parts / n;
    let mut links = no_links(n);
    for i in 1..n {
        if part(i) == part(i - 1) {
            let value = rng.weight();
            link(&mut links, i, i - 1, value);
        }
        let j = rng.below(i);
        if part(i) == part(j) {
            let value = rng.weight();
            link(&mut links, i, j, value);
        }
    }
    links
}

/// A ring from which a quarter of the rows is cut out; one cut row in three keeps minus zeros in its place.
pub fn empty(rng: &mut Rng, n: usize) -> Rows {
    let mut links = ring(rng, n, Rng::weight);
    let cut: Vec<bool> = (0..n).map(|i| i == n / 2 || rng.once_in(4)).collect();
    for (i, row) in links.iter_mut().enumerate() {
        if cut[i] && !rng.once_in(3) {
            row.clear();
        }
        if cut[i] {
            row.values_mut().for_each(|value| *value = -0.0);
        } else {
            row.retain(|&j, _| !cut[j as usize]);
        }
    }
    sorted(links)
}

fn scaled(mut links: Links, mut scale: impl FnMut() -> f64) -> Rows {
    for row in &mut links {
        for value in row.values_mut() {
            *value *= scale();
        }
    }
    sorted(links)
}

/// One scale for all, so that symmetry stays; at the largest some row sums overflow.
pub fn huge(rng: &mut Rng, n: usize) -> Rows {
    let scale = rng.pick(&[1e300, 1e305, 1e307, f64::MAX / 2.0]);
    scaled(ring(rng, n, Rng::weight), || scale)
}

/// Around the floor of the root (degree 1e-24), far below it, and subnormal.
pub fn tiny(rng: &mut Rng, n: usize) -> Rows {
    let scale = rng.pick(&[1e-23, 1e-24, 1e-25, 1e-300, 1e-308, 4e-323]);
    scaled(ring(rng, n, Rng::weight), || scale)
}

pub fn any_scale(rng: &mut Rng) -> f64 {
    let size = rng.weight() * rng.power_of_two(-1074, 1023);
    if rng.once_in(8) { -size } else { size }
}

pub fn often_minus_zero(rng: &mut Rng) -> f64 {
    if rng.once_in(3) { -0.0 } else { rng.weight() }
}

/// Symmetric, but each row's columns stand in any order; half of the graphs are full.
fn shuffled(rng: &mut Rng, n: usize) -> Rows {
    let links = if rng.once_in(2) { dense(rng, n.min(32)) } else { neighbours(rng, n) };
    let mut rows = sorted(links);
    for row in &mut rows {
        rng.shuffle(row);
    }
    rows
}

/// Rows of up to 40 entries with columns drawn freely, and in each row with two entries or more one column again.
fn twice(rng: &mut Rng, n: usize) -> Rows {
    let most = (MAX_ENTRIES / n).min(40);
    let mut rows = free_rows(rng, n, most, Rng::weight);
    for row in &mut rows {
        if let [first, .., last] = row.as_mut_slice() {
            last.0 = first.0;
        }
    }
    rows
}

pub fn free_rows(rng: &mut Rng, n: usize, most: usize, value: fn(&mut Rng) -> f64) -> Rows {
    (0..n)
        .map(|_| {
            let len = rng.between(1, most);
            (0..len).map(|_| (rng.below(n) as u32, value(rng))).collect()
        })
        .collect()
}

/// Rows of up to 12 entries, columns differing, no mirror entries looked for.
pub fn asymmetric(rng: &mut Rng, n: usize) -> Rows {
    let rows = free_rows(rng, n, 12, Rng::weight);
    sorted(rows.into_iter().map(|row| row.into_iter().collect()).collect())
}

/// Equal values on a regular shape: equal Ritz values are likely.
fn regular(rng: &mut Rng, n: usize) -> Links {
    let n = n.min(32);
    let value = rng.pick(&[1.0, 0.25, 1.0 / 3.0]);
    let joined: fn(usize, usize, usize) -> bool = rng.pick(&[
        |_, i, j| i != j,
        |_, i, j| (i == 0) != (j == 0),
        |_, i, j| i.abs_diff(j) == 1,
        |n, i, j| (i + 1) % n == j || (j + 1) % n == i,
        |_, i, j| (i + j) % 2 == 1,
        |_, i, j| (i ^ j).is_power_of_two(),
        |_, i, j| i == j,
        |n, i, j| i != j && (2 * i < n) == (2 * j < n),
    ]);
    let mut links = no_links(n);
    for i in 0..n {
        for j in (0..=i).filter(|&j| joined(n, i, j)) {
            link(&mut links, i, j, value);
        }
    }
    links
}

/// 1 to 4 rows with any entries: signs, zeros of both signs, columns twice.
fn small(rng: &mut Rng, n: usize) -> Rows {
    let n = 1 + n % 4;
    (0..n)
        .map(|_| {
            let len = rng.below(2 * n + 1);
            (0..len).map(|_| (rng.below(n) as u32, small_value(rng))).collect()
        })
        .collect()
}

pub fn small_value(rng: &mut Rng) -> f64 {
    match rng.below(6) {
        0 => 0.0,
        1 => -0.0,
        2 => rng.signed(),
        _ => rng.weight(),
    }
}

/// Every pair, the diagonal too.
pub fn dense(rng: &mut Rng, n: usize) -> Links {
    let mut links = no_links(n);
    for i in 0..n {
        for j in 0..=i {
            let value = rng.weight();
            link(&mut links, i, j, value);
        }
    }
    links
}

/// A ring in which some rows have a degree just above the floor while others name their columns with huge values:
/// weights, then sums, then Ritz values leave the finite numbers.
pub fn overflow(rng: &mut Rng, n: usize) -> Rows {
    let mut links = ring(rng, n, Rng::weight);
    let weak: Vec<bool> = (0..n).map(|i| i == 0 || rng.once_in(5)).collect();
    let strong = rng.pick(&[1e150, 1e200, 1e290, 1e300]);
    for (i, row) in links.iter_mut().enumerate() {
        for (&j, value) in row.iter_mut() {
            if weak[i] {
                *value *= power_of_two(-76);
            } else if weak[j as usize] {
                *value *= strong;
            }
        }
    }
    sorted(links)
}

#[cfg(test)]
mod tests {
    use std::collections::HashSet;

    use super::*;
    use crate::runfile;

    #[test]
    fn every_number_makes_a_file_that_reads_back() {
        for number in (0..3 * ONCE).chain([u64::MAX, u64::MAX - 7]) {
            let made = make(number);
            let text = runfile::print(&made);
            let read = runfile::parse(text.as_bytes()).unwrap_or_else(|f| panic!("{number}: {f}"));
            assert_eq!(runfile::print(&read), text, "{number}");
        }
    }

    #[test]
    fn families_have_what_they_are_named_for() {
        let family = |x: u64| families()[place(x, FAMILIES.len() as u64)];
        let of = |name: &'static str| (0..ONCE).filter(move |&x| family(x) == name).map(make);
        let some =
            |name: &'static str, holds: fn(&Request) -> bool| assert!(of(name).any(|r| holds(&r)), "{name}");
        some("empty", |r| r.starts.windows(2).any(|w| w[0] == w[1]));
        some("negative", |r| r.values.iter().any(|&v| v < 0.0));
        some("huge", |r| r.values.iter().any(|&v| v > 1e307));
        some("tiny", |r| r.values.iter().any(|&v| v > 0.0 && v < f64::MIN_POSITIVE));
        some("minus-zero", |r| r.values.iter().any(|v| *v == 0.0 && v.is_sign_negative()));
        some("shuffled", |r| r.columns[r.row(0)].windows(2).any(|w| w[0] > w[1]));
        some("twice", |r| r.row(0).len() > 32);
        some("dense", |r| r.values.len() == MAX_ENTRIES);
    }

    #[test]
    fn every_width_and_row_count_is_met() {
        let widths: HashSet<usize> = (0..ONCE).map(|x| make(x).d).collect();
        assert_eq!(widths.len(), judge::MAX_D);
        let counts: HashSet<usize> = (0..ONCE).map(|x| make(x).n()).collect();
        assert!(counts.contains(&1) && counts.contains(&MAX_ROWS) && counts.len() > 50);
    }
}
