//! The families of `make` for any number of rows: the same where they allow it, and a cheaper rule of the same kind
//! where the small one would take a time or a number of entries that grows with the square of the rows.

use crate::{
    make::{
        Family, Links, Rows, any_scale, asymmetric, blocks, dense, empty, families, free_rows, huge, link,
        no_links, often_minus_zero, overflow, ring, small_value, sorted, tiny,
    },
    rng::Rng,
};

/// A full graph has no more rows than this.
const FULL_ROWS: usize = 128;

/// A row of the families that draw columns freely has no more entries than this.
const ROW_ENTRIES: usize = 40;

/// In the order of `make`'s families.
const WIDE: [(&str, Family); 16] = [
    ("neighbours", |rng, n| sorted(near_points(rng, n))),
    ("ring", |rng, n| sorted(ring(rng, n, Rng::weight))),
    ("blocks", |rng, n| sorted(blocks(rng, n))),
    ("empty", empty),
    ("negative", |rng, n| sorted(ring(rng, n, Rng::signed))),
    ("huge", huge),
    ("tiny", tiny),
    ("mixed", |rng, n| sorted(ring(rng, n, any_scale))),
    ("minus-zero", |rng, n| sorted(ring(rng, n, often_minus_zero))),
    ("shuffled", shuffled),
    ("twice", twice),
    ("asymmetric", asymmetric),
    ("regular", |rng, n| sorted(regular(rng, n))),
    ("small", any_entries),
    ("dense", |rng, n| sorted(dense(rng, n.min(FULL_ROWS)))),
    ("overflow", overflow),
];

/// The rows of a graph of a family, of `n` rows but for the full graphs.
pub fn rows(family: usize, rng: &mut Rng, n: usize) -> Rows {
    debug_assert_eq!(WIDE.map(|(name, _)| name), families());
    WIDE[family].1(rng, n)
}

/// Points in a square; each names the 2 to 6 nearest that it finds in its own cell of a grid and the eight around it.
fn near_points(rng: &mut Rng, n: usize) -> Links {
    let most = rng.between(2, 6);
    let points: Vec<(f64, f64)> = (0..n).map(|_| (rng.signed(), rng.signed())).collect();
    let side = (1..).take_while(|s| 3 * s * s <= n).last().unwrap_or(1);
    let mut cells: Vec<Vec<usize>> = vec![Vec::new(); side * side];
    for (i, &point) in points.iter().enumerate() {
        let (x, y) = cell(side, point);
        cells[x * side + y].push(i);
    }
    let mut links = no_links(n);
    for (i, &point) in points.iter().enumerate() {
        let around = around(side, cell(side, point)).flat_map(|at| cells[at].iter().copied());
        for (distance, j) in nearest(&points, i, around, most) {
            let value = 1.0 / (1.0 + 8.0 * distance) / (2.0 * n as f64);
            let both = value + links[i].get(&(j as u32)).copied().unwrap_or(0.0);
            link(&mut links, i, j, both);
        }
    }
    links
}

/// Coordinates are in [-1, 1).
fn cell(side: usize, (x, y): (f64, f64)) -> (usize, usize) {
    let place = |x: f64| (((x + 1.0) / 2.0 * side as f64) as usize).min(side - 1);
    (place(x), place(y))
}

fn around(side: usize, (x, y): (usize, usize)) -> impl Iterator<Item = usize> {
    let near = move |at: usize| at.saturating_sub(1)..=(at + 1).min(side - 1);
    near(x).flat_map(move |x| near(y).map(move |y| x * side + y))
}

fn nearest(
    points: &[(f64, f64)],
    i: usize,
    among: impl Iterator<Item = usize>,
    most: usize,
) -> Vec<(f64, usize)> {
    let squared = |j: usize| {
        let (x, y) = (points[i].0 - points[j].0, points[i].1 - points[j].1);
        x * x + y * y
    };
    let mut others: Vec<(f64, usize)> = among.filter(|&j| j != i).map(|j| (squared(j), j)).collect();
    others.sort_by(|a, b| a.0.total_cmp(&b.0).then(a.1.cmp(&b.1)));
    others.truncate(most);
    others
}

/// Symmetric, each row's columns in any order; half of the graphs hang on four rows that name half of the others each.
fn shuffled(rng: &mut Rng, n: usize) -> Rows {
    let mut rows = sorted(if rng.once_in(2) { hubs(rng, n) } else { near_points(rng, n) });
    for row in &mut rows {
        rng.shuffle(row);
    }
    rows
}

fn hubs(rng: &mut Rng, n: usize) -> Links {
    let hubs = n.min(4);
    let mut links = no_links(n);
    for i in hubs..n {
        for hub in [i % hubs, (i + 1) % hubs] {
            let value = rng.weight();
            link(&mut links, i, hub, value);
        }
    }
    links
}

/// Columns drawn freely, and in each row with two entries or more one column again.
fn twice(rng: &mut Rng, n: usize) -> Rows {
    let mut rows = free_rows(rng, n, ROW_ENTRIES, Rng::weight);
    for row in &mut rows {
        if let [first, .., last] = row.as_mut_slice() {
            last.0 = first.0;
        }
    }
    rows
}

/// Equal values on a regular shape with few links a row.
fn regular(rng: &mut Rng, n: usize) -> Links {
    let value = rng.pick(&[1.0, 0.25, 1.0 / 3.0]);
    let joined: fn(usize, usize) -> Vec<usize> = rng.pick(&[
        |_, _| vec![0],
        |_, i| vec![i.saturating_sub(1)],
        |n, i| vec![(i + 1) % n],
        |_, i| (0..20).map(|bit| i ^ (1 << bit)).filter(|&j| j < i).collect(),
        |_, i| vec![i],
        |_, i| (i / 8 * 8..i).collect(),
        |n, i| vec![(i + 1) % n, (i + 100) % n],
    ]);
    let mut links = no_links(n);
    for i in 0..n {
        for j in joined(n, i) {
            link(&mut links, i, j, value);
        }
    }
    links
}

/// Up to 8 entries a row: signs, zeros of both signs, some columns twice.
fn any_entries(rng: &mut Rng, n: usize) -> Rows {
    (0..n)
        .map(|_| {
            let len = rng.below(9);
            (0..len).map(|_| (rng.below(n) as u32, small_value(rng))).collect()
        })
        .collect()
}

#[cfg(test)]
mod tests {
    use super::*;

    #[test]
    fn the_families_are_makes() {
        assert_eq!(WIDE.map(|(name, _)| name), families());
    }

    #[test]
    fn every_family_has_its_rows_and_columns_in_range() {
        for (family, &(name, _)) in WIDE.iter().enumerate() {
            for n in [65, 300, 4097] {
                let rows = rows(family, &mut Rng::new(n as u64), n);
                let full = name == "dense";
                assert!(rows.len() == n || full, "{name} {n}");
                assert!(rows.iter().flatten().all(|&(j, _)| (j as usize) < rows.len()), "{name} {n}");
            }
        }
    }

    #[test]
    fn neighbours_are_near_and_symmetric() {
        let links = near_points(&mut Rng::new(5), 500);
        let alone = links.iter().filter(|row| row.is_empty()).count();
        assert!(alone < 5, "{alone} rows without a neighbour");
        for (i, row) in links.iter().enumerate() {
            assert!(row.iter().all(|(&j, value)| links[j as usize][&(i as u32)] == *value));
        }
    }
}
