//! A graph by rule, for trials: a ring in which each row also knows some rows further off.

use threshcinch::{Graph, Memory};

/// The lists of a graph.
pub struct Ring {
    starts: Vec<u64>,
    columns: Vec<u32>,
    values: Vec<f64>,
}

impl Ring {
    /// Each row knows the rows that lie 1, `far` and `far` + 5 before and after it. A value depends on its two rows, the same both ways, so
    /// that no two rows are alike and sums round. `salt` gives other values.
    pub fn new(rows: u32, far: u32, salt: u64) -> Ring {
        let mut ring = Ring { starts: vec![0], columns: Vec::new(), values: Vec::new() };
        (0..rows).for_each(|row| ring.push_row(rows, row, far, salt));
        ring
    }

    fn push_row(&mut self, rows: u32, row: u32, far: u32, salt: u64) {
        let mut columns = Vec::new();
        for step in [1, far, far + 5].map(|step| step % rows) {
            columns.extend([(row + step) % rows, (row + rows - step) % rows]);
        }
        // In no order of columns, as bhtsne's are; but none twice.
        let mut seen = std::collections::HashSet::new();
        columns.retain(|&column| seen.insert(column));
        self.values.extend(columns.iter().map(|&column| value(row.min(column), row.max(column), salt)));
        self.columns.extend(columns);
        self.starts.push(self.columns.len() as u64);
    }

    /// Its lists, lent.
    pub fn graph(&self) -> Graph<'_> {
        Graph::new(&self.starts, &self.columns, &self.values)
    }
}

/// Between 0.5 and 1.5.
fn value(low: u32, high: u32, salt: u64) -> f64 {
    let mixed = ((u64::from(low) << 32) | u64::from(high)).wrapping_add(salt).wrapping_mul(0x9e37_79b9_7f4a_7c15);
    0.5 + ((mixed ^ (mixed >> 29)).wrapping_mul(0xbf58_476d_1ce4_e5b9) >> 11) as f64 / (1u64 << 53) as f64
}

/// The number of the first list that is not the same bit for bit.
pub fn first_difference(left: &Memory, right: &Memory) -> Option<usize> {
    let same = |left: &[f64], right: &[f64]| left.len() == right.len() && left.iter().zip(right).all(|(l, r)| l.to_bits() == r.to_bits());
    let lists = [
        same(&left.inverse, &right.inverse),
        same(&left.v0, &right.v0),
        left.edge_columns == right.edge_columns,
        same(&left.edge_weights, &right.edge_weights),
        same(&left.block0, &right.block0),
        same(&left.block1, &right.block1),
        same(&left.block2, &right.block2),
        same(&left.partials, &right.partials),
        left.marks == right.marks,
        same(&left.output, &right.output),
        same(&left.ritz_record, &right.ritz_record),
    ];
    lists.iter().position(|same| !same)
}
