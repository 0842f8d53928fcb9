//! Graphs of 30 entries a row, made by a stated rule: a ring of near neighbours and six random matchings.

use bench::{Random, splitmix_unit};
use judge::Request;

const NEAR: usize = 12; // neighbours on either side
const MATCHINGS: usize = 6;

pub struct Graph {
    /// Document 000 takes it so.
    pub request: Request,
    /// The library takes its starts as 64-bit numbers.
    pub starts: Vec<u64>,
}

/// In what order a row's entries come.
#[derive(Clone, Copy)]
pub enum Order {
    /// By column, as a caller has them who sorted them before.
    Rising,
    /// As the usual way of making neighbours symmetric leaves them: rows are taken in turn, and each pair is entered in both rows when the
    /// first of the two that has the other for a neighbour is taken. So a row has earlier rows, rising; its own neighbours, by distance,
    /// which is no order of columns; and later rows, rising.
    Symmetrized,
    Shuffled,
}

impl Graph {
    pub fn rows(&self) -> usize {
        self.starts.len() - 1
    }

    pub fn entries(&self) -> usize {
        self.request.columns.len()
    }
}

const NOBODY: u32 = u32::MAX;

/// The partner of each row in one matching: no row is its own, a near one, or one that it has already.
fn matching(rows: usize, taken: &[Vec<u32>], random: &mut Random) -> Vec<u32> {
    let mut partner = vec![NOBODY; rows];
    let mut left: Vec<u32> = (0..rows as u32).collect();
    while !left.is_empty() {
        shuffle(&mut left, random);
        left = pair_up(&left, taken, &mut partner, random);
    }
    partner
}

/// Pairs the rows of the list as they stand beside each other; answers those that must not be a pair. Where that is all of them, some
/// other pairs are undone, so that it ends.
fn pair_up(list: &[u32], taken: &[Vec<u32>], partner: &mut [u32], random: &mut Random) -> Vec<u32> {
    let mut left = Vec::new();
    for pair in list.chunks_exact(2) {
        let (a, b) = (pair[0], pair[1]);
        let apart = a.abs_diff(b) as usize;
        let near = apart.min(partner.len() - apart) <= NEAR;
        if near || taken.iter().any(|before| before[a as usize] == b) {
            left.extend([a, b]);
        } else {
            partner[a as usize] = b;
            partner[b as usize] = a;
        }
    }
    if left.len() == list.len() {
        (0..8).for_each(|_| undo((random.next() % partner.len() as u64) as usize, partner, &mut left));
    }
    left
}

fn undo(row: usize, partner: &mut [u32], left: &mut Vec<u32>) {
    let other = std::mem::replace(&mut partner[row], NOBODY);
    if other != NOBODY {
        partner[other as usize] = NOBODY;
        left.extend([row as u32, other]);
    }
}

/// The same in both directions, in (0, 1).
fn value(a: u32, b: u32) -> f64 {
    splitmix_unit(u64::from(a.min(b)) << 32 | u64::from(a.max(b))) + 0.5
}

/// A row's columns, rising.
fn columns_of(row: u32, rows: u32, matchings: &[Vec<u32>]) -> Vec<u32> {
    let near = (1..=NEAR as u32).flat_map(|s| [(row + s) % rows, (row + rows - s) % rows]);
    let mut columns: Vec<u32> = near.chain(matchings.iter().map(|m| m[row as usize])).collect();
    columns.sort_unstable();
    columns
}

fn shuffle(list: &mut [u32], random: &mut Random) {
    for i in (1..list.len()).rev() {
        list.swap(i, (random.next() % (i as u64 + 1)) as usize);
    }
}

/// In three quarters of the pairs the earlier row has the later one for a neighbour, and so enters the pair.
fn symmetrized(row: u32, columns: &[u32], random: &mut Random) -> Vec<u32> {
    let by_the_earlier =
        |c: u32| splitmix_unit(u64::from(row.min(c)) << 32 | u64::from(row.max(c)) | 1 << 63) < 0.25;
    let own = |c: u32| (c > row) == by_the_earlier(c);
    let mut list: Vec<u32> = columns.iter().copied().filter(|&c| c < row && !own(c)).collect();
    let mut neighbours: Vec<u32> = columns.iter().copied().filter(|&c| own(c)).collect();
    shuffle(&mut neighbours, random);
    list.extend(neighbours);
    list.extend(columns.iter().copied().filter(|&c| c > row && !own(c)));
    list
}

/// `rows` is even and at least 1,000.
pub fn neighbours(rows: usize, order: Order) -> Graph {
    assert!(rows.is_multiple_of(2) && rows >= 1_000);
    let mut random = Random(0x9E37_79B9_7F4A_7C15);
    let matchings = (0..MATCHINGS).fold(Vec::new(), |mut before, _| {
        before.push(matching(rows, &before, &mut random));
        before
    });
    let (mut starts, mut columns) = (vec![0], Vec::new());
    for row in 0..rows as u32 {
        let mut list = columns_of(row, rows as u32, &matchings);
        match order {
            Order::Rising => {}
            Order::Symmetrized => list = symmetrized(row, &list, &mut random),
            Order::Shuffled => shuffle(&mut list, &mut random),
        }
        columns.extend(list);
        starts.push(columns.len());
    }
    let row_of = |e: usize| (e / (2 * NEAR + MATCHINGS)) as u32;
    let values = columns.iter().enumerate().map(|(e, &c)| value(row_of(e), c)).collect();
    let request = Request { d: 2, rounds: 5, degree: 20, seed_std: 1e-4, starts, columns, values };
    Graph { starts: request.starts.iter().map(|&s| s as u64).collect(), request }
}
