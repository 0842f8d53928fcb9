//! include/threshcinch.h in Rust: the records that cross by value, and the calls. They are the header's long forms, so they are made in
//! `arithmetic::in_default` alone.

use std::ffi::c_char;
use std::mem::{offset_of, size_of};

/// What was asked at the opening of a run.
#[repr(C)]
#[derive(Clone, Copy, Debug)]
pub struct Asked {
    /// D, 1 to 7.
    pub dims: usize,
    /// Rows of the graph.
    pub rows: usize,
    /// Entries of the graph.
    pub entries: usize,
    /// Rounds, 1 to 1,000.
    pub rounds: usize,
    /// Degree, 1 to 1,000.
    pub degree: usize,
    /// The seed's standard deviation.
    pub seed_std: f64,
}

/// Where a run is. docs/STATE.md has each field with its range.
#[repr(C)]
#[derive(Clone, Copy, Debug)]
pub struct StateProgress {
    /// The stage's number: 0 is no run, 1 to 19 an open one, 20 one that has ended.
    pub stage: usize,
    /// The round, from 0.
    pub round: usize,
    /// Filter passes closed in this round.
    pub pass: usize,
    /// The column that is orthonormalized.
    pub column: usize,
    /// 1 where that column was refreshed.
    pub attempt: usize,
    /// The current block, 0 to 2.
    pub current: usize,
    /// The block before it.
    pub previous: usize,
    /// The filter's bound.
    pub bound: f64,
    /// The filter's alpha.
    pub alpha: f64,
    /// The column's norm before it was projected.
    pub before: f64,
    /// Its norm after; the norm of the roots while v0 is made.
    pub norm: f64,
}

/// What a run has counted.
#[repr(C)]
#[derive(Clone, Copy, Debug, Default, PartialEq, Eq)]
pub struct Counts {
    /// Operator passes closed.
    pub passes: usize,
    /// Columns refreshed, over all rounds.
    pub refreshed: usize,
    /// Columns zeroed, over all rounds.
    pub zeroed: usize,
    /// Isolated rows: those whose degree's root is not above 1e-12, or is NaN, so that they took the inverse weight 1e-12; rows with no entries
    /// are among them, and rows whose degree is below zero. 0 until the degrees are closed.
    pub isolated: usize,
}

/// The state of a held run: with the lent memory it is all that a run is.
#[repr(C)]
#[derive(Clone, Copy, Debug)]
pub struct State {
    /// What was asked at the opening.
    pub asked: Asked,
    /// Where the run is.
    pub progress: StateProgress,
    /// What it has counted so far.
    pub counts: Counts,
    /// Totals of the reduction that closed last.
    pub totals: [f64; 225],
    /// The last round's eigenvalues, on the diagonal.
    pub matrix: [f64; 225],
    /// The last round's Ritz vectors, as columns.
    pub vectors: [f64; 225],
    /// The last round's Ritz places by falling value.
    pub order: [usize; 15],
}

#[repr(C)]
#[derive(Clone, Copy)]
pub(crate) struct Verdict {
    pub number: u64,
    pub place: u64,
}

#[repr(C)]
#[derive(Clone, Copy, Debug, PartialEq)]
pub(crate) struct RawParams {
    pub rounds: u64,
    pub degree: u64,
    pub seed_std: f64,
}

#[repr(C)]
pub(crate) struct Set {
    pub verdict: Verdict,
    pub params: RawParams,
}

#[repr(C)]
pub(crate) struct Sizes {
    pub verdict: Verdict,
    pub lengths: [usize; 11],
}

#[repr(C)]
pub(crate) struct Answer {
    pub verdict: Verdict,
    pub state: State,
}

#[repr(C)]
pub(crate) struct Embedded {
    pub verdict: Verdict,
    pub counts: Counts,
}

#[repr(C)]
pub(crate) struct Written {
    pub verdict: Verdict,
    pub length: usize,
}

#[repr(C)]
pub(crate) struct RunRead {
    pub verdict: Verdict,
    pub d: u64,
    pub params: RawParams,
    pub start_count: usize,
    pub column_count: usize,
    pub value_count: usize,
    pub starts: [u64; 65],
    pub columns: [u32; 1024],
    pub values: [f64; 1024],
}

#[repr(C)]
pub(crate) struct MarketRead {
    pub verdict: Verdict,
    pub rows: usize,
    pub entries: usize,
}

#[repr(C)]
pub(crate) struct MarketRoom {
    pub verdict: Verdict,
    pub starts: usize,
    pub entries: usize,
}

// The header's own assertions, so that a record that drifts from it does not compile.
const _: () = {
    assert!(size_of::<usize>() == 8 && size_of::<f64>() == 8);
    assert!(size_of::<Verdict>() == 16 && offset_of!(Verdict, place) == 8);
    assert!(size_of::<RawParams>() == 24 && offset_of!(RawParams, degree) == 8 && offset_of!(RawParams, seed_std) == 16);
    assert!(size_of::<Set>() == 40 && offset_of!(Set, params) == 16);
    assert!(size_of::<Sizes>() == 104 && offset_of!(Sizes, lengths) == 16);
    assert!(size_of::<Asked>() == 48 && offset_of!(Asked, seed_std) == 40);
    assert!(size_of::<StateProgress>() == 88 && offset_of!(StateProgress, bound) == 56 && offset_of!(StateProgress, norm) == 80);
    assert!(size_of::<Counts>() == 32 && offset_of!(Counts, isolated) == 24);
    assert!(size_of::<State>() == 5688);
    assert!(offset_of!(State, progress) == 48 && offset_of!(State, counts) == 136 && offset_of!(State, totals) == 168);
    assert!(offset_of!(State, matrix) == 1968 && offset_of!(State, vectors) == 3768 && offset_of!(State, order) == 5568);
    assert!(size_of::<Answer>() == 5704 && offset_of!(Answer, state) == 16);
    assert!(size_of::<Embedded>() == 48 && offset_of!(Embedded, counts) == 16);
    assert!(size_of::<Written>() == 24 && offset_of!(Written, length) == 16);
    assert!(size_of::<RunRead>() == 12880);
    assert!(offset_of!(RunRead, d) == 16 && offset_of!(RunRead, params) == 24);
    assert!(offset_of!(RunRead, start_count) == 48 && offset_of!(RunRead, starts) == 72);
    assert!(offset_of!(RunRead, columns) == 592 && offset_of!(RunRead, values) == 4688);
    assert!(size_of::<MarketRead>() == 32);
    assert!(offset_of!(MarketRead, rows) == 16 && offset_of!(MarketRead, entries) == 24);
    assert!(size_of::<MarketRoom>() == 32);
    assert!(offset_of!(MarketRoom, starts) == 16 && offset_of!(MarketRoom, entries) == 24);
};

extern "C" {
    pub(crate) static threshcinch_version: *const c_char;
    pub(crate) fn threshcinch_params_new() -> RawParams;
    pub(crate) fn threshcinch_params_rounds(params: RawParams, rounds: u64) -> Set;
    pub(crate) fn threshcinch_params_degree(params: RawParams, degree: u64) -> Set;
    pub(crate) fn threshcinch_params_seed_std(params: RawParams, seed_std: f64) -> Set;
    pub(crate) fn threshcinch_lent_sizes(d: u64, rounds: u64, rows: usize, entries: usize) -> Sizes;
    pub(crate) fn threshcinch_calls_accepted(state: State) -> usize;
    pub(crate) fn threshcinch_calls_owed(state: State) -> usize;
    pub(crate) fn threshcinch_write_run(
        d: u64,
        params: RawParams,
        starts: *const u64,
        starts_length: usize,
        columns: *const u32,
        columns_length: usize,
        values: *const f64,
        values_length: usize,
        text: *mut u8,
        text_length: usize,
    ) -> Written;
    pub(crate) fn threshcinch_read_run(text: *const u8, text_length: usize) -> RunRead;
    pub(crate) fn threshcinch_write_answer(
        verdict: Verdict,
        d: u64,
        rows: usize,
        counts: Counts,
        seed: *const f64,
        seed_length: usize,
        text: *mut u8,
        text_length: usize,
    ) -> Written;
    pub(crate) fn threshcinch_read_matrix_market(
        text: *const u8,
        text_length: usize,
        starts: *mut u64,
        starts_length: usize,
        columns: *mut u32,
        columns_length: usize,
        values: *mut f64,
        values_length: usize,
    ) -> MarketRead;
    pub(crate) fn threshcinch_matrix_market_sizes(text: *const u8, text_length: usize) -> MarketRoom;
}

/// Declares calls that take, after their own arguments, the graph's three lists and the eleven lent ones, each as address and length.
/// A list that a call only reads is declared as one that it may write: to C the two are the same, and so is what lends them here.
macro_rules! calls_on_lists {
    ($(fn $name:ident($($argument:ident: $kind:ty),*) -> $answer:ty;)*) => {
        extern "C" {
            $(pub(crate) fn $name(
                $($argument: $kind,)*
                starts: *const u64, starts_length: usize,
                columns: *const u32, columns_length: usize,
                values: *const f64, values_length: usize,
                inverse: *mut f64, inverse_length: usize,
                v0: *mut f64, v0_length: usize,
                edge_columns: *mut u32, edge_columns_length: usize,
                edge_weights: *mut f64, edge_weights_length: usize,
                block0: *mut f64, block0_length: usize,
                block1: *mut f64, block1_length: usize,
                block2: *mut f64, block2_length: usize,
                partials: *mut f64, partials_length: usize,
                marks: *mut u8, marks_length: usize,
                output: *mut f64, output_length: usize,
                ritz_record: *mut f64, ritz_record_length: usize,
            ) -> $answer;)*
        }
    };
}

calls_on_lists! {
    fn threshcinch_spectral_embedding(d: u64, params: RawParams) -> Embedded;
    fn threshcinch_open(d: u64, params: RawParams) -> Answer;
    fn threshcinch_chunk(state: State, number: usize) -> Answer;
    fn threshcinch_close(state: State) -> Answer;
}
