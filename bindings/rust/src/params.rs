//! Parameters, made and set by the library.

use crate::arithmetic::in_default;
use crate::ffi::{self, RawParams, Set};
use crate::Refusal;

/// Rounds, degree and the seed's standard deviation: always within their limits, as the library's own setters make them.
///
/// ```
/// let params = threshcinch::Params::new().rounds(3)?.degree(12)?;
/// assert_eq!(params.get_rounds(), 3);
/// # Ok::<(), threshcinch::Refusal>(())
/// ```
#[derive(Clone, Copy, Debug, PartialEq)]
pub struct Params {
    pub(crate) raw: RawParams,
}

impl Default for Params {
    fn default() -> Params {
        Params::new()
    }
}

impl Params {
    /// 5 rounds of degree 20, seed_std 1e-4.
    pub fn new() -> Params {
        // SAFETY: takes nothing, answers a record by value.
        Params { raw: in_default(|| unsafe { ffi::threshcinch_params_new() }) }
    }

    /// Sets the rounds, 1 to 1,000; refusal 8 otherwise.
    pub fn rounds(self, rounds: u64) -> Result<Params, Refusal> {
        // SAFETY: numbers by value only.
        Params::checked(in_default(|| unsafe { ffi::threshcinch_params_rounds(self.raw, rounds) }))
    }

    /// Sets the degree of the filter, 1 to 1,000; refusal 9 otherwise.
    pub fn degree(self, degree: u64) -> Result<Params, Refusal> {
        // SAFETY: numbers by value only.
        Params::checked(in_default(|| unsafe { ffi::threshcinch_params_degree(self.raw, degree) }))
    }

    /// Sets the standard deviation that each column of the seed is scaled to, positive and finite; refusal 10 otherwise.
    pub fn seed_std(self, seed_std: f64) -> Result<Params, Refusal> {
        // SAFETY: numbers by value only.
        Params::checked(in_default(|| unsafe { ffi::threshcinch_params_seed_std(self.raw, seed_std) }))
    }

    /// The rounds.
    pub fn get_rounds(&self) -> u64 {
        self.raw.rounds
    }

    /// The degree.
    pub fn get_degree(&self) -> u64 {
        self.raw.degree
    }

    /// The standard deviation.
    pub fn get_seed_std(&self) -> f64 {
        self.raw.seed_std
    }

    fn checked(set: Set) -> Result<Params, Refusal> {
        Refusal::check(set.verdict)?;
        Ok(Params { raw: set.params })
    }
}
