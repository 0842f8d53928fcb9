//! The held run: the same work as the one call, chunk by chunk, in any order, stopped and gone on with anywhere.

use crate::arithmetic::in_default;
use crate::ffi::{self, Answer, State};
use crate::memory::Lists;
use crate::{Graph, Memory, Params, Refusal, RitzRecord, Seed};

/// The stages, by the number that the state has.
const STAGES: [&str; 21] = [
    "no run",
    "degrees",
    "edges",
    "v0",
    "start block",
    "filter pass",
    "norm before",
    "dots",
    "subtract",
    "dots again",
    "subtract again",
    "norm after",
    "write",
    "plain pass",
    "products",
    "rotate and unscale",
    "sums",
    "subtract the means",
    "squares",
    "scale",
    "ended",
];

/// The stage whose closing writes a round's part of the Ritz record.
const PRODUCTS: usize = 14;

/// How far a run has come.
#[derive(Clone, Copy, Debug, PartialEq, Eq)]
pub struct Progress {
    /// The name of the stage that the run stands in.
    pub stage: &'static str,
    /// Calls accepted in the stages that are closed, none of this one.
    pub accepted: usize,
    /// Calls owed from this stage on, if no further column is refreshed; a refreshed one adds to them. This stage counts whole, with its closing,
    /// however many of its chunks are done.
    pub owed: usize,
}

/// A held run, with its memory and over its graph. Each stage wants every chunk once, in any order, and then closing.
///
/// ```
/// use threshcinch::{Graph, Params, Run};
/// let graph = Graph::new(&[0, 1, 2], &[1, 0], &[1.0, 1.0]);
/// let mut run = Run::open(&graph, 1, Params::new())?;
/// while run.is_open() {
///     for number in (0..run.chunk_count()).rev() {
///         run.chunk(number)?;
///     }
///     run.close()?;
/// }
/// let seed = run.finish().expect("the run has ended");
/// assert_eq!(seed.rows, 2);
/// # Ok::<(), threshcinch::Refusal>(())
/// ```
#[derive(Clone, Debug)]
pub struct Run<'g> {
    // What the rest of this crate relies on: the state is one that the library answered or that it takes, and the memory has exactly the
    // lengths that the library names for the state's sizes.
    pub(crate) graph: Graph<'g>,
    pub(crate) memory: Memory,
    pub(crate) state: State,
}

impl<'g> Run<'g> {
    /// Opens a run: refusals 1 to 7, and 11 where the machine has not the memory.
    pub fn open(graph: &Graph<'g>, dims: usize, params: Params) -> Result<Run<'g>, Refusal> {
        let mut memory = Memory::for_graph(graph, dims, params)?;
        // SAFETY: the lists are made here, of a graph that lives for 'g and of memory that nobody else has.
        let answer = unsafe { Lists::of(graph, &mut memory).open(dims, params) };
        Refusal::check(answer.verdict)?;
        Ok(Run { graph: *graph, memory, state: answer.state })
    }

    /// Does one chunk of the stage: refusals 12 (no such chunk), 13 (already done), 15 (the run has ended) and 16.
    pub fn chunk(&mut self, number: usize) -> Result<(), Refusal> {
        // SAFETY: the memory is this run's own and is borrowed for this call alone.
        let answer = unsafe { self.lists().chunk(&self.state, number) };
        self.take(answer)
    }

    /// Closes the stage: refusals 14 (a chunk is not done), 15 (the run has ended) and 16.
    pub fn close(&mut self) -> Result<(), Refusal> {
        // SAFETY: the memory is this run's own and is borrowed for this call alone.
        let answer = unsafe { self.lists().close(&self.state) };
        self.take(answer)
    }

    /// The stage's name, and the calls accepted and owed.
    pub fn progress(&self) -> Progress {
        // SAFETY: a record by value only.
        let calls = || unsafe { (ffi::threshcinch_calls_accepted(self.state), ffi::threshcinch_calls_owed(self.state)) };
        let (accepted, owed) = in_default(calls);
        Progress { stage: STAGES.get(self.state.progress.stage).copied().unwrap_or("damaged"), accepted, owed }
    }

    /// The state, as the library has it.
    pub fn state(&self) -> &State {
        &self.state
    }

    /// The memory that the run works in.
    pub fn memory(&self) -> &Memory {
        &self.memory
    }

    /// The Ritz record so far: the rounds whose products are closed.
    pub fn ritz_record(&self) -> RitzRecord {
        let written = if self.state.progress.stage > PRODUCTS { self.state.asked.rounds } else { self.state.progress.round };
        // The memory holds every round.
        RitzRecord::new(self.state.asked.dims, written, self.memory.ritz_record.clone()).unwrap_or_default()
    }

    /// How many chunks each stage has: one per 4,096 rows.
    pub fn chunk_count(&self) -> usize {
        self.memory.marks.len()
    }

    /// The run stands before one of its stages.
    pub fn is_open(&self) -> bool {
        (1..=19).contains(&self.state.progress.stage)
    }

    /// The seed of a run that has ended; an open run comes back as it is.
    pub fn finish(self) -> Result<Seed, Box<Run<'g>>> {
        if self.is_open() {
            return Err(Box::new(self));
        }
        let asked = &self.state.asked;
        Ok(Seed::of(asked.rows, asked.dims, asked.rounds, self.memory, self.state.counts))
    }

    /// The run's lists, for calls that are made before anything else touches the run.
    pub(crate) fn lists(&mut self) -> Lists {
        Lists::of(&self.graph, &mut self.memory)
    }

    /// The chunks of the stage that are not done yet, upward.
    pub(crate) fn chunks_left(&self) -> Vec<usize> {
        (0..self.chunk_count()).filter(|&number| self.memory.marks[number] != 1).collect()
    }

    fn take(&mut self, answer: Answer) -> Result<(), Refusal> {
        Refusal::check(answer.verdict)?;
        self.state = answer.state;
        Ok(())
    }
}

impl State {
    /// Every number of the two is the same, bit for bit.
    pub fn same_bits(&self, other: &State) -> bool {
        self.words() == other.words()
    }
}
