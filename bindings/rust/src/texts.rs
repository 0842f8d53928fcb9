//! Run files, which the text program `seedrun` reads, and answers, which it prints: each as bytes, read and written by the library.

use crate::arithmetic::in_default;
use crate::ffi::{self, RunRead, Written};
use crate::{Counts, Graph, Params, Refusal, Seed};

/// So many bytes hold every run file: [`write_run_in`] with that much room never meets 18.
pub const RUN_FILE_BYTES: usize = 32_768;

/// So many bytes hold every answer.
pub const ANSWER_BYTES: usize = 8_192;

/// What a run file says, bit for bit. [`read_run`] answers it.
///
/// Reading looks at the text alone, so that the numbers may be some that no run takes: D, parameters and graph are tested where they are used.
#[derive(Clone, Debug)]
pub struct RunFile {
    /// D.
    pub dims: usize,
    /// Rounds, at most 400.
    pub rounds: u64,
    /// Degree.
    pub degree: u64,
    /// The seed's standard deviation.
    pub seed_std: f64,
    /// The row starts, at most 65.
    pub starts: Vec<u64>,
    /// The column of each entry, at most 1,024.
    pub columns: Vec<u32>,
    /// The value of each entry, at most 1,024; not always as many as columns.
    pub values: Vec<f64>,
}

impl RunFile {
    /// The lists of a record, as far as they have numbers.
    fn of(read: &RunRead) -> RunFile {
        RunFile {
            dims: read.d as usize,
            rounds: read.params.rounds,
            degree: read.params.degree,
            seed_std: read.params.seed_std,
            starts: first(read.start_count, &read.starts),
            columns: first(read.column_count, &read.columns),
            values: first(read.value_count, &read.values),
        }
    }

    /// The graph.
    pub fn graph(&self) -> Graph<'_> {
        Graph::new(&self.starts, &self.columns, &self.values)
    }

    /// The parameters, set one after the other: refusals 8, 9 and 10.
    pub fn params(&self) -> Result<Params, Refusal> {
        Params::new().rounds(self.rounds)?.degree(self.degree)?.seed_std(self.seed_std)
    }
}

/// The first `count` numbers of a list. The library counts no more than there are.
fn first<T: Copy>(count: usize, list: &[T]) -> Vec<T> {
    list.iter().take(count).copied().collect()
}

/// The length of what was written.
fn length_of(written: Written) -> Result<usize, Refusal> {
    Refusal::check(written.verdict)?;
    Ok(written.length)
}

/// What `write` puts into a text with so much room.
fn written_in(room: usize, write: impl FnOnce(&mut [u8]) -> Result<usize, Refusal>) -> Result<Vec<u8>, Refusal> {
    let mut text = vec![0; room];
    let length = write(&mut text)?;
    text.truncate(length);
    Ok(text)
}

/// Writes the run file of a graph: D, the parameters and the graph, with all their bits, in the one form that `seedrun` reads.
///
/// Refusals, in this order: 17 where the rounds are over 400, the starts over 65, or the columns or values over 1,024, at the line that would
/// hold them (2, 5, 6 or 7); then 1 to 7.
///
/// ```
/// use threshcinch::{read_run, spectral_embedding, write_answer, write_run, Graph, Params};
///
/// let graph = Graph::new(&[0, 1], &[0], &[1.0]);
/// let text = write_run(&graph, 1, Params::new().rounds(1)?.degree(1)?)?;
/// assert_eq!(text, b"d=1\nrounds=1\ndegree=1\nseed_std=3f1a36e2eb1c432d\nstarts=0,1\ncolumns=0\nvalues=3ff0000000000000\n");
///
/// // And back: the same numbers, and from them the same bytes.
/// let file = read_run(&text)?;
/// assert_eq!(write_run(&file.graph(), file.dims, file.params()?)?, text);
///
/// // What `seedrun` prints for it.
/// let seed = spectral_embedding(&file.graph(), file.dims, file.params()?);
/// let answer = write_answer(seed.as_ref())?;
/// assert_eq!(answer, b"answer=0\nn=1\npasses=2\nrefreshed=9\nzeroed=9\nisolated=0\nrow=0000000000000000\n");
/// # Ok::<(), threshcinch::Refusal>(())
/// ```
pub fn write_run(graph: &Graph<'_>, dims: usize, params: Params) -> Result<Vec<u8>, Refusal> {
    written_in(RUN_FILE_BYTES, |text| write_run_in(graph, dims, params, text))
}

/// Writes the run file into text that the caller lends, from its first byte on, and answers how many bytes it has. Those behind them stay.
///
/// Refusals as for [`write_run`], and then 18 where the text has too little room. A refused call leaves all of it as it was.
pub fn write_run_in(graph: &Graph<'_>, dims: usize, params: Params, text: &mut [u8]) -> Result<usize, Refusal> {
    // SAFETY: each list is borrowed until the call has returned, and the text for it alone.
    length_of(in_default(|| unsafe {
        ffi::threshcinch_write_run(
            dims as u64,
            params.raw,
            graph.starts.as_ptr(),
            graph.starts.len(),
            graph.columns.as_ptr(),
            graph.columns.len(),
            graph.values.as_ptr(),
            graph.values.len(),
            text.as_mut_ptr(),
            text.len(),
        )
    }))
}

/// Reads a run file. Refusal 17 where the bytes are none: at the first line that is wrong, missing, extra or over a size, from 1, or at 0 for
/// more than 32,768 bytes.
///
/// ```
/// use threshcinch::{read_run, Reason};
///
/// let refusal = read_run(b"d=1\nrounds=401\n").unwrap_err();
/// assert_eq!((refusal.reason(), refusal.place), (Some(Reason::Text), 2));
/// ```
pub fn read_run(text: &[u8]) -> Result<RunFile, Refusal> {
    // SAFETY: the text is borrowed until the call has returned.
    let read = in_default(|| unsafe { ffi::threshcinch_read_run(text.as_ptr(), text.len()) });
    Refusal::check(read.verdict)?;
    Ok(RunFile::of(&read))
}

/// Writes what `seedrun` prints: the counts and the seed that a call has answered, every NaN as 7ff8000000000000, or its refusal.
///
/// A refusal is written whatever its number and place are. Of a seed, D is tested by 1, no rows by 2, more than 64 by 17 at 0, and fewer values
/// than rows x D by 11 at 9; values behind them are not looked at.
pub fn write_answer(answer: Result<&Seed, &Refusal>) -> Result<Vec<u8>, Refusal> {
    written_in(ANSWER_BYTES, |text| write_answer_in(answer, text))
}

/// Writes an answer into text that the caller lends, from its first byte on, and answers how many bytes it has. Those behind them stay.
///
/// Refusals as for [`write_answer`], and then 18 where the text has too little room. A refused call leaves all of it as it was.
pub fn write_answer_in(answer: Result<&Seed, &Refusal>, text: &mut [u8]) -> Result<usize, Refusal> {
    let accepted = ffi::Verdict { number: 0, place: 0 };
    let (verdict, dims, rows, counts, values): (_, _, _, _, &[f64]) = match answer {
        Ok(seed) => (accepted, seed.dims, seed.rows, seed.counts, &seed.values),
        Err(refusal) => (ffi::Verdict { number: refusal.number, place: refusal.place }, 0, 0, Counts::default(), &[]),
    };
    // SAFETY: the seed is borrowed until the call has returned, and the text for it alone.
    length_of(in_default(|| unsafe {
        ffi::threshcinch_write_answer(verdict, dims as u64, rows, counts, values.as_ptr(), values.len(), text.as_mut_ptr(), text.len())
    }))
}
