//! A run as bytes, and back.
//!
//! All numbers are little-endian, whole ones of 8 bytes, floats as their bits:
//!
//! | bytes | what |
//! |---|---|
//! | 8 | the letters `TCINCHRN` |
//! | 8 | version, 3 |
//! | 3 x 8 | lengths of the graph's starts, columns and values |
//! | 8 | check sum of the graph's lists |
//! | 11 x 8 | lengths of the lent lists 0 to 10 |
//! | 5,688 | the state, field after field (docs/STATE.md) |
//! | | the lent lists 0 to 10: 8 bytes an element, but 4 for the edge columns and 1 for the marks |
//! | 8 | check sum of all bytes before it |
//!
//! Version 2, of threshcinch 0.2, counted the rows with no entries as isolated, from the opening on, and has else the same bytes. A run that was
//! saved so is taken, and nothing of it is lost: its graph says how many rows are isolated. They are counted as the run is loaded, by the
//! library, or are 0 where its degrees are not closed.
//!
//! Version 1, of threshcinch 0.1, had no list 10, the Ritz record. A run that was saved so is not taken: the places of the rounds that it has
//! closed are not to be had from it.
//!
//! A check sum is FNV-1a of 64 bits. Each of its steps is one-to-one, so that one changed byte always changes it; it keeps out accidents,
//! not forgers. What a forger can reach is a run that meets refusal 16 or has another seed: the library asks for nothing first.

use crate::ffi::{Asked, Counts, State, StateProgress};
use crate::{Graph, Memory, Params, Reason, Refusal, Run};

const LETTERS: [u8; 8] = *b"TCINCHRN";
const VERSION: u64 = 3;
/// The version that had counted isolated rows by their entries, and not by the roots of their degrees.
const COUNTED_BY_ENTRIES: u64 = 2;
/// The version that had no Ritz record.
const WITHOUT_RECORD: u64 = 1;
const STATE_WORDS: usize = size_of::<State>() / 8;
/// Letters, version, the graph's lengths and check sum, the lists' lengths.
const HEAD_BYTES: usize = 8 * (1 + 1 + 3 + 1 + 11);
/// How many bytes an element of each lent list has.
const ELEMENT_BYTES: [usize; 11] = [8, 8, 4, 8, 8, 8, 8, 8, 1, 8, 8];

/// Why saved bytes are not loaded.
#[derive(Clone, Copy, Debug, PartialEq, Eq)]
pub enum LoadError {
    /// They do not begin as a saved run does.
    NotASave,
    /// They are a saved run of a version that this crate does not read.
    Version(u64),
    /// They are a saved run of threshcinch 0.1, which kept no Ritz record.
    NoRitzRecord,
    /// There are fewer or more of them than they say.
    Length,
    /// Their check sum is wrong: some byte was changed.
    CheckSum,
    /// They are of a run over another graph.
    OtherGraph,
    /// The lent lists have not the lengths that the state needs.
    Lists,
    /// The library does not take the state (16), no run is in it (15), or the machine has not the memory (11). A forged save of threshcinch 0.2
    /// may be over a graph that no run opens with (5 to 7).
    Refused(Refusal),
}

impl std::fmt::Display for LoadError {
    fn fmt(&self, to: &mut std::fmt::Formatter<'_>) -> std::fmt::Result {
        match self {
            LoadError::NotASave => write!(to, "the bytes are not a saved run"),
            LoadError::Version(version) => {
                write!(to, "the saved run has version {version}, and only {COUNTED_BY_ENTRIES} and {VERSION} are read")
            }
            LoadError::NoRitzRecord => {
                write!(to, "the saved run is of threshcinch 0.1, which kept no Ritz record: go on with it there, or begin it anew")
            }
            LoadError::Length => write!(to, "the saved run has fewer or more bytes than it says"),
            LoadError::CheckSum => write!(to, "the saved run's check sum is wrong: it was changed"),
            LoadError::OtherGraph => write!(to, "the saved run is over another graph"),
            LoadError::Lists => write!(to, "the saved run's lists have not the lengths that its state needs"),
            LoadError::Refused(refusal) => write!(to, "the saved run is not taken: {refusal}"),
        }
    }
}

impl std::error::Error for LoadError {
    fn source(&self) -> Option<&(dyn std::error::Error + 'static)> {
        match self {
            LoadError::Refused(refusal) => Some(refusal),
            _ => None,
        }
    }
}

impl<'g> Run<'g> {
    /// The run as bytes, wherever it stands: between any two calls, within a stage too. The graph is not among them, only its check sum.
    /// They are about as many as the run's memory has; like any `Vec`, they end the program on a machine that has not so much.
    pub fn save(&self) -> Vec<u8> {
        let lengths = self.memory.lengths();
        // Lists that are in memory sum up to less than a machine can address.
        let mut bytes = Vec::with_capacity(bytes_of(&lengths).unwrap_or(0));
        bytes.extend(LETTERS);
        put_words(&mut bytes, [VERSION]);
        put_words(&mut bytes, graph_lengths(&self.graph));
        put_words(&mut bytes, [graph_sum(&self.graph)]);
        put_words(&mut bytes, lengths.map(|length| length as u64));
        put_words(&mut bytes, self.state.words());
        put_memory(&mut bytes, &self.memory);
        let sum = Sum::new().bytes(&bytes);
        put_words(&mut bytes, [sum.0]);
        bytes
    }

    /// The run that [`Run::save`] wrote, over the same graph. Bytes that were cut, lengthened or changed are refused.
    ///
    /// Those of threshcinch 0.2 are taken too. Where that run's degrees are closed, its isolated rows are counted anew, which takes the memory of a
    /// second run of one dimension and one round as long as this call lasts.
    pub fn load(graph: &Graph<'g>, bytes: &[u8]) -> Result<Run<'g>, LoadError> {
        let mut from = Reader { bytes };
        let head = from.head()?;
        check_bytes(&head, bytes)?;
        check_graph(&head, graph)?;
        let state = from.state()?;
        check_lengths(graph, &state, &head.lengths)?;
        // Only now is anything allocated: these lengths are those of the bytes at hand.
        let memory = from.memory(&state)?;
        let mut run = Run { graph: *graph, memory, state }.taken_by_the_library()?;
        if head.version == COUNTED_BY_ENTRIES {
            run.state.counts.isolated = run.isolated_by_roots().map_err(LoadError::Refused)?;
        }
        Ok(run)
    }

    /// The isolated rows as this version counts them, from the graph alone: none before the degrees are closed, and else what another run over the
    /// graph counts as it closes its own. So the library decides, and not this crate. That run has the least memory, which ends with it.
    fn isolated_by_roots(&self) -> Result<usize, Refusal> {
        const DEGREES: usize = 1;
        if self.state.progress.stage == DEGREES {
            return Ok(0);
        }
        let mut other = Run::open(&self.graph, 1, Params::new().rounds(1)?.degree(1)?)?;
        (0..other.chunk_count()).try_for_each(|number| other.chunk(number))?;
        other.close()?;
        Ok(other.state.counts.isolated)
    }

    /// Offers the library a chunk that no run has. It tests the state and the lists' lengths first, so that 12 says that they are sound,
    /// and touches nothing. A chunk's own mark and columns it tests when that chunk is called.
    fn taken_by_the_library(mut self) -> Result<Run<'g>, LoadError> {
        const ENDED: usize = 20;
        let Err(refusal) = self.chunk(usize::MAX) else {
            return Err(LoadError::Lists);
        };
        match refusal.reason() {
            Some(Reason::NoChunk) => Ok(self),
            Some(Reason::NoRun) if self.state.progress.stage == ENDED => Ok(self),
            _ => Err(LoadError::Refused(refusal)),
        }
    }
}

/// What stands before the state.
struct Head {
    version: u64,
    graph_lengths: [u64; 3],
    graph_sum: u64,
    lengths: [u64; 11],
}

/// The bytes are as many as they say, and their check sum is right.
fn check_bytes(head: &Head, bytes: &[u8]) -> Result<(), LoadError> {
    let lengths = head.lengths.map(|length| usize::try_from(length).unwrap_or(usize::MAX));
    if bytes_of(&lengths) != Some(bytes.len()) {
        return Err(LoadError::Length);
    }
    let (summed, sum) = bytes.split_last_chunk::<8>().ok_or(LoadError::Length)?;
    if u64::from_le_bytes(*sum) != Sum::new().bytes(summed).0 {
        return Err(LoadError::CheckSum);
    }
    Ok(())
}

/// The graph is the one that was opened. That its starts never fall is tested on its own: threads rest on it (src/drive.rs), and must not
/// rest on a check sum, which can be forged.
fn check_graph(head: &Head, graph: &Graph<'_>) -> Result<(), LoadError> {
    let same = head.graph_lengths == graph_lengths(graph) && head.graph_sum == graph_sum(graph);
    if same && graph.starts.is_sorted() {
        Ok(())
    } else {
        Err(LoadError::OtherGraph)
    }
}

/// The state's sizes are the graph's, and the lists have the lengths that the library names for them.
fn check_lengths(graph: &Graph<'_>, state: &State, lengths: &[u64; 11]) -> Result<(), LoadError> {
    let asked = &state.asked;
    let damaged = |_| LoadError::Refused(Reason::Damaged.at(0));
    let needed = Memory::lengths_for(asked.dims, asked.rounds as u64, asked.rows, asked.entries).map_err(damaged)?;
    let whole_graph = asked.rows == graph.rows() && asked.entries == graph.columns.len() && asked.entries == graph.values.len();
    if !whole_graph || needed.map(|length| length as u64) != *lengths {
        return Err(LoadError::Lists);
    }
    Ok(())
}

/// How long a save with lists of these lengths is; nothing where that is more than a machine can address.
fn bytes_of(lengths: &[usize; 11]) -> Option<usize> {
    let lists = lengths.iter().zip(ELEMENT_BYTES).try_fold(0usize, |sum, (&length, bytes)| sum.checked_add(length.checked_mul(bytes)?))?;
    lists.checked_add(HEAD_BYTES + 8 * STATE_WORDS + 8)
}

fn graph_lengths(graph: &Graph<'_>) -> [u64; 3] {
    [graph.starts.len() as u64, graph.columns.len() as u64, graph.values.len() as u64]
}

fn graph_sum(graph: &Graph<'_>) -> u64 {
    let mut sum = Sum::new();
    sum = graph.starts.iter().fold(sum, |sum, start| sum.bytes(&start.to_le_bytes()));
    sum = graph.columns.iter().fold(sum, |sum, column| sum.bytes(&column.to_le_bytes()));
    sum = graph.values.iter().fold(sum, |sum, value| sum.bytes(&value.to_bits().to_le_bytes()));
    sum.0
}

/// FNV-1a of 64 bits.
#[derive(Clone, Copy)]
struct Sum(u64);

impl Sum {
    fn new() -> Sum {
        Sum(0xcbf2_9ce4_8422_2325)
    }

    fn bytes(self, bytes: &[u8]) -> Sum {
        Sum(bytes.iter().fold(self.0, |sum, &byte| (sum ^ u64::from(byte)).wrapping_mul(0x0100_0000_01b3)))
    }
}

fn put_words(bytes: &mut Vec<u8>, words: impl IntoIterator<Item = u64>) {
    words.into_iter().for_each(|word| bytes.extend(word.to_le_bytes()));
}

fn put_floats(bytes: &mut Vec<u8>, floats: &[f64]) {
    put_words(bytes, floats.iter().map(|number| number.to_bits()));
}

fn put_memory(bytes: &mut Vec<u8>, memory: &Memory) {
    put_floats(bytes, &memory.inverse);
    put_floats(bytes, &memory.v0);
    memory.edge_columns.iter().for_each(|column| bytes.extend(column.to_le_bytes()));
    put_floats(bytes, &memory.edge_weights);
    put_floats(bytes, &memory.block0);
    put_floats(bytes, &memory.block1);
    put_floats(bytes, &memory.block2);
    put_floats(bytes, &memory.partials);
    bytes.extend_from_slice(&memory.marks);
    put_floats(bytes, &memory.output);
    put_floats(bytes, &memory.ritz_record);
}

/// Takes numbers from the front of bytes; `Length` where they end too early.
struct Reader<'b> {
    bytes: &'b [u8],
}

impl Reader<'_> {
    fn head(&mut self) -> Result<Head, LoadError> {
        if self.take()? != LETTERS {
            return Err(LoadError::NotASave);
        }
        let version = match self.word()? {
            read @ (VERSION | COUNTED_BY_ENTRIES) => read,
            WITHOUT_RECORD => return Err(LoadError::NoRitzRecord),
            other => return Err(LoadError::Version(other)),
        };
        let graph_lengths = self.words()?;
        Ok(Head { version, graph_lengths, graph_sum: self.word()?, lengths: self.words()? })
    }

    fn state(&mut self) -> Result<State, LoadError> {
        Ok(State {
            asked: self.asked()?,
            progress: self.progress()?,
            counts: self.counts()?,
            totals: self.words()?.map(f64::from_bits),
            matrix: self.words()?.map(f64::from_bits),
            vectors: self.words()?.map(f64::from_bits),
            order: self.words()?.map(|word| word as usize),
        })
    }

    fn asked(&mut self) -> Result<Asked, LoadError> {
        Ok(Asked {
            dims: self.whole()?,
            rows: self.whole()?,
            entries: self.whole()?,
            rounds: self.whole()?,
            degree: self.whole()?,
            seed_std: self.float()?,
        })
    }

    fn progress(&mut self) -> Result<StateProgress, LoadError> {
        Ok(StateProgress {
            stage: self.whole()?,
            round: self.whole()?,
            pass: self.whole()?,
            column: self.whole()?,
            attempt: self.whole()?,
            current: self.whole()?,
            previous: self.whole()?,
            bound: self.float()?,
            alpha: self.float()?,
            before: self.float()?,
            norm: self.float()?,
        })
    }

    fn counts(&mut self) -> Result<Counts, LoadError> {
        Ok(Counts { passes: self.whole()?, refreshed: self.whole()?, zeroed: self.whole()?, isolated: self.whole()? })
    }

    /// The lists, with the lengths that the state needs.
    fn memory(&mut self, state: &State) -> Result<Memory, LoadError> {
        let asked = &state.asked;
        let mut memory = Memory::new(asked.dims, asked.rounds as u64, asked.rows, asked.entries).map_err(LoadError::Refused)?;
        self.floats(&mut memory.inverse)?;
        self.floats(&mut memory.v0)?;
        self.fill(&mut memory.edge_columns, u32::from_le_bytes)?;
        self.floats(&mut memory.edge_weights)?;
        self.floats(&mut memory.block0)?;
        self.floats(&mut memory.block1)?;
        self.floats(&mut memory.block2)?;
        self.floats(&mut memory.partials)?;
        self.fill(&mut memory.marks, u8::from_le_bytes)?;
        self.floats(&mut memory.output)?;
        self.floats(&mut memory.ritz_record)?;
        Ok(memory)
    }

    fn floats(&mut self, list: &mut [f64]) -> Result<(), LoadError> {
        self.fill(list, f64::from_le_bytes)
    }

    fn fill<T, const BYTES: usize>(&mut self, list: &mut [T], read: impl Fn([u8; BYTES]) -> T) -> Result<(), LoadError> {
        list.iter_mut().try_for_each(|number| self.take().map(|bytes| *number = read(bytes)))
    }

    fn words<const COUNT: usize>(&mut self) -> Result<[u64; COUNT], LoadError> {
        let mut words = [0; COUNT];
        self.fill(&mut words, u64::from_le_bytes)?;
        Ok(words)
    }

    fn word(&mut self) -> Result<u64, LoadError> {
        self.take().map(u64::from_le_bytes)
    }

    /// A whole number; on x86-64 `usize` has all 8 bytes.
    fn whole(&mut self) -> Result<usize, LoadError> {
        self.word().map(|word| word as usize)
    }

    fn float(&mut self) -> Result<f64, LoadError> {
        self.word().map(f64::from_bits)
    }

    fn take<const BYTES: usize>(&mut self) -> Result<[u8; BYTES], LoadError> {
        let (taken, rest) = self.bytes.split_first_chunk::<BYTES>().ok_or(LoadError::Length)?;
        self.bytes = rest;
        Ok(*taken)
    }
}

impl State {
    /// Its numbers in order, as bits.
    pub(crate) fn words(&self) -> Vec<u64> {
        let (asked, at, counts) = (&self.asked, &self.progress, &self.counts);
        let whole = |numbers: &[usize]| numbers.iter().map(|&number| number as u64).collect::<Vec<u64>>();
        let bits = |numbers: &[f64]| numbers.iter().map(|number| number.to_bits()).collect::<Vec<u64>>();
        [
            whole(&[asked.dims, asked.rows, asked.entries, asked.rounds, asked.degree]),
            bits(&[asked.seed_std]),
            whole(&[at.stage, at.round, at.pass, at.column, at.attempt, at.current, at.previous]),
            bits(&[at.bound, at.alpha, at.before, at.norm]),
            whole(&[counts.passes, counts.refreshed, counts.zeroed, counts.isolated]),
            bits(&self.totals),
            bits(&self.matrix),
            bits(&self.vectors),
            whole(&self.order),
        ]
        .concat()
    }
}
