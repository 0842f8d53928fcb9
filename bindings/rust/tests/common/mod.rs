//! What the tests share: graphs by rule, and comparing by bits.
#![allow(dead_code)] // each test file uses some of it

#[path = "../../examples/ring/mod.rs"]
pub mod ring;

use threshcinch::{Graph, Memory, Params, Refusal};

/// One round of a low degree: the tests look at bits, not at how good the seed is.
pub fn quick() -> Params {
    Params::new().rounds(1).and_then(|params| params.degree(2)).expect("in range")
}

pub fn refusal(number: u64, place: u64) -> Refusal {
    Refusal { number, place }
}

pub fn bits(numbers: &[f64]) -> Vec<u64> {
    numbers.iter().map(|number| number.to_bits()).collect()
}

pub fn assert_same_memory(left: &Memory, right: &Memory) {
    if let Some(list) = ring::first_difference(left, right) {
        panic!("list {list} differs");
    }
}

/// The least number whose root is above 1e-12: two steps above 1e-24, whose root is 1e-12 itself.
pub const JUST_ABOVE: f64 = f64::from_bits(0x3af3_57c2_99a8_8ea9);

/// What a row may hold, and whether that isolates it: eight do.
pub const KINDS: [(&[f64], bool); 12] = [
    (&[], true),
    (&[1.0, -1.0], true),
    (&[-0.0, -0.0], true),
    (&[f64::from_bits(1)], true),
    (&[1e-24], true),
    (&[JUST_ABOVE], false),
    (&[1.0], false),
    (&[1e24], false),
    // The degree is plus infinity, and so is its root.
    (&[1e308, 1e308], false),
    // The root is NaN.
    (&[-1.0], true),
    (&[-f64::from_bits(1)], true),
    // The degree is minus infinity.
    (&[-1e308, -1e308], true),
];

/// The lists of a graph whose rows hold one kind after the other, in the columns behind their own.
pub struct Kinds {
    starts: Vec<u64>,
    columns: Vec<u32>,
    values: Vec<f64>,
}

impl Kinds {
    pub fn new(rows: usize) -> Kinds {
        let mut lists = Kinds { starts: vec![0], columns: Vec::new(), values: Vec::new() };
        for (row, (held, _)) in KINDS.iter().cycle().take(rows).enumerate() {
            lists.columns.extend((1..=held.len()).map(|step| ((row + step) % rows) as u32));
            lists.values.extend(*held);
            lists.starts.push(lists.values.len() as u64);
        }
        lists
    }

    pub fn graph(&self) -> Graph<'_> {
        Graph::new(&self.starts, &self.columns, &self.values)
    }
}
