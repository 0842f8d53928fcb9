//! The spectral seed of a neighbour graph: the start positions of a t-SNE embedding, as bhtsne's `spectral.rs` computes them, with the
//! same bits on every machine and in whatever order the work was done.
//!
//! The work is done by the library threshcinch, whose functions are proved to meet their contracts (include/threshcinch.h says what is
//! promised). This crate owns the memory that the library works in, and adds two things that are not proved: threads
//! ([`Run::drive`]) and the bytes of a saved run ([`Run::save`]).
//!
//! ```
//! use threshcinch::{spectral_embedding, Graph, Params};
//!
//! // Three rows in a line: 0 - 1 - 2.
//! let graph = Graph::new(&[0, 1, 3, 4], &[1, 0, 2, 1], &[1.0, 1.0, 1.0, 1.0]);
//! let seed = spectral_embedding(&graph, 2, Params::new())?;
//! assert_eq!((seed.rows, seed.dims), (3, 2));
//! println!("row 0 starts at {:?}", seed.row(0));
//! println!("its first round had the Ritz values {:?}", seed.ritz_record.values(0));
//! # Ok::<(), threshcinch::Refusal>(())
//! ```
//!
//! Run files, which the text program `seedrun` reads, are written and read as bytes ([`write_run`], [`read_run`]), and so is what it prints
//! ([`write_answer`]). A Matrix Market file, again as bytes, is read as a graph ([`read_matrix_market`]).
//!
//! Nothing here panics, whatever it is given. Input that cannot be taken is a [`Refusal`]: a number and a place, the number also as a
//! [`Reason`] to match on.
//!
//! Every call of the library, in each thread, is made in the default floating-point environment, whatever the thread has: rounding to nearest,
//! subnormal numbers kept, no traps. Afterwards the environment is as it was, its exception flags too.
//!
//! The library is linked from the folder that the environment variable `THRESHCINCH_LIB` names when the crate is built, the one that holds
//! libthreshcinch.a and libthreshcinch.so (PREFIX/lib of library/install), or else from the repository's target/library, where library/build
//! writes them. [`library_version`] says which one it was.
#![deny(missing_docs)]
#![deny(unsafe_op_in_unsafe_fn)]

mod arithmetic;
pub mod bhtsne;
mod drive;
mod ffi;
mod market;
mod memory;
mod params;
mod record;
mod refusal;
mod run;
mod save;
#[cfg(test)]
mod tests;
mod texts;
mod version;

pub use drive::Driven;
pub use ffi::{Asked, Counts, State, StateProgress};
pub use market::{read_matrix_market, OwnedGraph};
pub use memory::{Graph, Memory};
pub use params::Params;
pub use record::RitzRecord;
pub use refusal::{Reason, Refusal};
pub use run::{Progress, Run};
pub use save::LoadError;
pub use texts::{read_run, write_answer, write_answer_in, write_run, write_run_in, RunFile, ANSWER_BYTES, RUN_FILE_BYTES};
pub use version::{library_version, VERSION};

use std::ops::ControlFlow;

/// A seed: a place for each row.
#[derive(Clone, Debug)]
pub struct Seed {
    /// How many rows it has.
    pub rows: usize,
    /// How many numbers each row has.
    pub dims: usize,
    /// Row after row.
    pub values: Vec<f64>,
    /// What the run has counted.
    pub counts: Counts,
    /// How the spectrum settled, round by round.
    pub ritz_record: RitzRecord,
}

impl Seed {
    /// What a run of so many rounds has left in memory of exactly its lengths.
    pub(crate) fn of(rows: usize, dims: usize, rounds: usize, memory: Memory, counts: Counts) -> Seed {
        // Memory of those lengths holds every round.
        let ritz_record = RitzRecord::new(dims, rounds, memory.ritz_record).unwrap_or_default();
        Seed { rows, dims, values: memory.output, counts, ritz_record }
    }

    /// Row i's numbers, or nothing where there is no such row.
    pub fn row(&self, i: usize) -> Option<&[f64]> {
        let first = i.checked_mul(self.dims)?;
        self.values.get(first..first.checked_add(self.dims)?)
    }
}

/// Computes the seed of a graph in one call: refusals 1 to 7, and 11 where the machine has not the memory.
pub fn spectral_embedding(graph: &Graph<'_>, dims: usize, params: Params) -> Result<Seed, Refusal> {
    let mut memory = Memory::for_graph(graph, dims, params)?;
    let counts = spectral_embedding_in(graph, dims, params, &mut memory)?;
    Ok(Seed::of(graph.rows(), dims, params.get_rounds() as usize, memory, counts))
}

/// Computes the seed in memory that the caller lends, for instance again and again in the same. The seed is in its `output`, the Ritz record
/// in its `ritz_record`.
///
/// Refusals 1 to 7, and 11 where a list is too short; a refused call changes nothing.
pub fn spectral_embedding_in(graph: &Graph<'_>, dims: usize, params: Params, memory: &mut Memory) -> Result<Counts, Refusal> {
    // SAFETY: the lists are made here from references that last until the call has returned, and memory is borrowed for it alone.
    let answer = unsafe { memory::Lists::of(graph, memory).embed(dims, params) };
    Refusal::check(answer.verdict)?;
    Ok(answer.counts)
}

/// Computes the seed with so many threads, this one among them: the same seed, counts and Ritz record as with one. 0 is taken for 1, and
/// there are never more threads than chunks of 4,096 rows. Refusals as for [`spectral_embedding`].
pub fn spectral_embedding_with_threads(graph: &Graph<'_>, dims: usize, params: Params, threads: usize) -> Result<Seed, Refusal> {
    if threads <= 1 {
        return spectral_embedding(graph, dims, params);
    }
    let mut run = Run::open(graph, dims, params)?;
    run.drive(threads, |_| ControlFlow::Continue(()))?;
    // Cannot be met: a run that was driven and never told to stop has ended. No run is open is what the library would say.
    run.finish().map_err(|_| Reason::NoRun.at(0))
}
