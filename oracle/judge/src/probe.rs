//! Child module of the recording copy of document 000: it sees the private functions, and the inserted lines call it.
//!
//! The record is kept per thread because the solver's serial part stays on the thread that called it.

use std::cell::RefCell;
use std::ops::Div;

use super::*;

/// What one run showed on its way to the seed.
#[derive(Clone, Debug, Default)]
pub struct Record {
    pub degrees: Vec<f64>,
    pub v0: Vec<f64>,
    pub rounds: Vec<Round>,
    pub passes: u64,
    pub refreshed: u64,
    pub zeroed: u64,
    /// The rows that took the inverse weight 1e-12 in place of 1 / root.
    pub isolated: u64,
}

#[derive(Clone, Debug)]
pub struct Round {
    /// The bound that this round's filter used.
    pub bound: f64,
    /// All k Ritz values in the order that document 000 sorted them into.
    pub ritz: Vec<f64>,
}

thread_local! {
    static RECORD: RefCell<Record> = RefCell::default();
}

/// Hands out the record of this thread and begins a new one.
pub fn take() -> Record {
    RECORD.take()
}

fn note(change: impl FnOnce(&mut Record)) {
    RECORD.with_borrow_mut(change);
}

fn wide<T: Float>(number: T) -> f64 {
    number.to_f64().unwrap_or(f64::NAN)
}

fn wide_all<T: Float>(numbers: &[T]) -> Vec<f64> {
    numbers.iter().map(|&x| wide(x)).collect()
}

pub(super) fn on_degrees<T: Float>(degrees: &[T]) {
    note(|record| record.degrees = wide_all(degrees));
}

/// The one that a row's inverse weight is 1 / root of, unless the root is not above 1e-12.
pub(super) struct Dividend<T>(T);

/// A row counts as isolated until its root divides: the weight alone would not tell, as 1 / 1e12 has the bits of 1e-12.
pub(super) fn on_root<T: Float>(one: T) -> Dividend<T> {
    note(|record| record.isolated += 1);
    Dividend(one)
}

impl<T: Float> Div<T> for Dividend<T> {
    type Output = T;

    fn div(self, root: T) -> T {
        note(|record| record.isolated -= 1);
        self.0 / root
    }
}

pub(super) fn on_v0<T: Float>(v0: &[T]) {
    note(|record| record.v0 = wide_all(v0));
}

pub(super) fn on_round<T: Float>(bound: T, ritz: impl Iterator<Item = T>) {
    let round = Round { bound: wide(bound), ritz: ritz.map(wide).collect() };
    note(|record| record.rounds.push(round));
}

pub(super) fn on_pass() {
    note(|record| record.passes += 1);
}

pub(super) fn on_refreshed() {
    note(|record| record.refreshed += 1);
}

pub(super) fn on_zeroed() {
    note(|record| record.zeroed += 1);
}

/// Document 000's private kernels at f64, for the Jacobi vectors and for benchmarks.
pub mod kernels {
    use super::*;

    pub fn splitmix_unit(index: u64) -> f64 {
        super::super::splitmix_unit(index)
    }

    pub fn jacobi_eigen(b: &mut [f64], k: usize) -> Vec<f64> {
        super::super::jacobi_eigen(b, k)
    }

    pub fn column_norm(v: &[f64], n: usize, k: usize, c: usize) -> f64 {
        super::super::column_norm(v, n, k, c)
    }

    pub fn orthonormalize_block(v: &mut [f64], n: usize, k: usize, v0: &[f64], refresh_seed: u64) {
        super::super::orthonormalize_block(v, n, k, v0, refresh_seed);
    }

    #[allow(clippy::too_many_arguments)]
    pub fn matvec_combine<const D: usize>(
        v: &[f64],
        v_prev: &[f64],
        out: &mut [f64],
        inv_sqrt_d: &[f64],
        p_rows: &[usize],
        edge_cols: &[u32],
        edge_weights: &[f64],
        mul_mv: f64,
        mul_v: f64,
        mul_prev: f64,
    ) where
        Dim<D>: SpectralBlock,
    {
        super::super::matvec_combine::<f64, Dim<D>>(
            v,
            v_prev,
            out,
            inv_sqrt_d,
            p_rows,
            edge_cols,
            edge_weights,
            mul_mv,
            mul_v,
            mul_prev,
        );
    }
}
