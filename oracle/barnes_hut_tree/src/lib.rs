//! Stand-in for `barnes_hut_tree`. Document 000 uses `Dim` as a type-level number and nothing else.

pub struct Dim<const D: usize>;
